"""HTML documents: read any page, find nodes with CSS selectors, edit, clean, and write HTML, Markdown or text.

    >>> import dom_query
    >>> document = dom_query.parse("<ul><li><a href=/tea>Tea</a><li><a href=/milk>Milk</a></ul>")
    >>> [(link.text, link["href"]) for link in document.select("li a[href]")]
    [('Tea', '/tea'), ('Milk', '/milk')]
    >>> dom_query.clean("<p onclick=x()>Tea<script>x()</script>")
    '<p>Tea</p>'

The work is done by a library whose functions are proved: each does what its contract says, for every document.
"""

from .article import Article
from .document import Document, PageReader, parse, parse_bytes, parse_fragment, parse_strict
from .errors import (
    CharsetError,
    ClosedError,
    DomError,
    EditError,
    LimitError,
    MarkupError,
    NodeError,
    PolicyError,
    SelectorError,
)
from .node import Attributes, Node
from .policy import Policy, clean, clean_page
from .selector import Selector

__all__ = [
    "Article",
    "Attributes",
    "CharsetError",
    "ClosedError",
    "Document",
    "DomError",
    "EditError",
    "LimitError",
    "MarkupError",
    "Node",
    "NodeError",
    "PageReader",
    "Policy",
    "PolicyError",
    "Selector",
    "SelectorError",
    "clean",
    "clean_page",
    "parse",
    "parse_bytes",
    "parse_fragment",
    "parse_strict",
]
__version__ = "1.0.0"
