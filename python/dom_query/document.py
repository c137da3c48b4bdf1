"""Documents, and the functions that read them."""

from __future__ import annotations

import ctypes
import operator
import os
from collections.abc import Iterable, Iterator, Mapping
from types import TracebackType
from typing import IO, TYPE_CHECKING, Any, Union

from ._library import (
    NOTHING,
    UNKNOWN_LABEL,
    Handle,
    ReaderHandle,
    article_of,
    charset_error,
    fault,
    lib,
    markup_error,
    text_of,
    unlocked,
    utf8,
)
from .article import Article
from .names import foreign_name
from .node import Node, check_attribute
from .selector import Selectors

Bytes = Union[bytes, bytearray, memoryview]
LIMIT = 2**32
SOURCES = ("mark", "charset", "page", "guess")
# A call on a document of so many bytes gives the interpreter's lock back while it works.
LARGE = 1 << 15


def _words(names: Iterable[str]) -> bytes:
    if isinstance(names, str):
        raise TypeError(f"a list of names is wanted, not the text {names!r}")
    words = list(names)
    for word in words:
        if not isinstance(word, str):
            raise TypeError(f"a list of names is wanted, and {word!r} is none")
        if len(word.split()) != 1:
            raise ValueError(f"{word!r} is not a name")
    return utf8(" ".join(words))


class Document:
    """An HTML document. `parse`, `parse_bytes`, `parse_strict` and `parse_fragment` make one.

    Its memory is freed when it is closed, at the end of a `with` block, or when nothing refers to it or to one of its nodes.
    Any use of a closed document raises `ClosedError`. Threads may share a document: one waits for the other.
    """

    __slots__ = ("_handle", "_slow", "__weakref__")

    def __init__(self) -> None:
        self._handle = Handle()
        self._slow = lib

    # ---- its life

    def close(self) -> None:
        """Frees the document's memory. Closing twice is allowed."""
        lib.dq_document_free(self._handle)

    @property
    def closed(self) -> bool:
        """Whether the document was closed."""
        return not self._handle.full

    def __del__(self) -> None:
        try:
            self.close()
        except (AttributeError, TypeError):
            pass  # the interpreter is ending, or the document was never made

    def __enter__(self) -> Document:
        return self

    def __exit__(self, kind: type[BaseException] | None, value: BaseException | None, trace: TracebackType | None) -> None:
        self.close()

    def __repr__(self) -> str:
        if self.closed:
            return "<Document, closed>"
        title = self.select_one("title")
        return f"<Document {title.text[:40]!r}>" if title is not None and title.text else "<Document>"

    def __str__(self) -> str:
        return self.html

    def __copy__(self) -> Document:
        raise TypeError("a document can't be copied; read its html again")

    def __deepcopy__(self, memo: dict[int, Any]) -> Document:
        return self.__copy__()

    def __reduce__(self) -> str:
        raise TypeError("a document can't be pickled; send its html, and read it again")

    if not TYPE_CHECKING:

        def __getattr__(self, name: str) -> Any:
            raise foreign_name("Document", name)

    # ---- how its bytes were read

    def _checked(self, code: int) -> int:
        if code < 0:
            raise fault(code, self._handle)
        return code

    @property
    def encoding(self) -> str | None:
        """The name of the encoding that the page was in, as `"windows-1252"`; None where the document wasn't read from bytes."""
        name: str | int = text_of(lib.dq_encoding, self._handle)
        if isinstance(name, int):
            return None if name == NOTHING else str(self._checked(name))
        return name

    def _answer(self, call: Any) -> int | None:
        """A number that the call answers; None where there is none."""
        number: int = call(self._handle)
        return None if number == NOTHING else self._checked(number)

    @property
    def encoding_source(self) -> str | None:
        """What says that the page is in its encoding: `"mark"`, `"charset"`, `"page"` or `"guess"`; None where the document
        wasn't read from bytes."""
        number = self._answer(lib.dq_encoding_source)
        return None if number is None else SOURCES[number]

    @property
    def replaced(self) -> int | None:
        """How many characters U+FFFD stand for bytes that aren't in the encoding; None where the document wasn't read from bytes."""
        return self._answer(lib.dq_replaced_count)

    # ---- its nodes

    @property
    def root(self) -> Node:
        """The node above all others. Its `kind` is `"document"`."""
        return self.node(0)

    def node(self, number: int) -> Node:
        """The node of that number, as `Node.number` gives it. Raises `IndexError` for a number that no node can have, and
        `NodeError` for one that no node of this document has."""
        if not 0 <= operator.index(number) < 2**32:
            raise IndexError(f"no node has the number {number}")
        self._checked(lib.dq_kind(self._handle, number))
        return Node(self, operator.index(number))

    def select(self, selectors: Selectors, limit: int | None = None) -> list[Node]:
        """The elements that match one of the CSS selectors, in document order; with a limit, no more than so many."""
        return Node(self, 0).select(selectors, limit)

    def select_one(self, selectors: Selectors) -> Node | None:
        """The first element that matches one of the CSS selectors, or None."""
        return Node(self, 0).select_one(selectors)

    def select_texts(self, selectors: Selectors) -> list[str]:
        """The text of each element that `select` finds. It is much faster than `[node.text for node in ..]`."""
        return Node(self, 0).select_texts(selectors)

    def select_html(self, selectors: Selectors) -> list[str]:
        """The HTML of each element that `select` finds."""
        return Node(self, 0).select_html(selectors)

    def select_attrs(self, selectors: Selectors, name: str) -> list[str | None]:
        """The value of an attribute of each element that `select` finds; None for an element without it."""
        return Node(self, 0).select_attrs(selectors, name)

    def iter_descendants(self) -> Iterator[Node]:
        """All nodes of the document but its root, in order. Each is looked up when it is asked for."""
        return Node(self, 0).iter_descendants()

    def __iter__(self) -> Iterator[Node]:
        return iter(self.root)

    def __reversed__(self) -> Iterator[Node]:
        return reversed(self.root)

    def __contains__(self, item: object) -> bool:
        """Whether it is a node of this document that stands in its tree."""
        if not isinstance(item, Node) or item.document is not self:
            return False
        return item.number == 0 or any(above.number == 0 for above in item.ancestors)

    @property
    def text(self) -> str:
        """All texts of the document, joined."""
        return Node(self, 0).text

    @property
    def html(self) -> str:
        """The document as HTML."""
        return Node(self, 0).html

    def html_bytes(self) -> bytes:
        """The document as HTML, in UTF-8."""
        return Node(self, 0).html_bytes()

    def write_html(self, file: str | os.PathLike[str] | IO[bytes] | IO[str]) -> None:
        """Writes the document as HTML, in UTF-8, into the file of that path, or into a file that is open."""
        Node(self, 0).write_html(file)

    @property
    def markdown(self) -> str:
        """The document as Markdown that readers show as the page: CommonMark with GitHub's tables."""
        return Node(self, 0).markdown

    @property
    def md(self) -> str:
        """The document as Markdown, as the Rust crate `dom_query` writes it."""
        return Node(self, 0).md

    @property
    def formatted_text(self) -> str:
        """The document as text, with blocks on lines of their own."""
        return Node(self, 0).formatted_text

    def article(self) -> Article | None:
        """The article of the page: what a reader came for, without navigation, advertisements and comments. None where no text of
        the page is shown. The document stays as it is."""
        document = Document()
        found = article_of(self._slow.dq_article, self._handle, document._handle)
        if isinstance(found, int):
            if found == NOTHING:
                return None
            raise fault(found, self._handle)
        document._slow = self._slow
        return Article(document, *found)

    # ---- edits

    def new_element(self, name: str, attrs: Mapping[str, str] | None = None) -> Node:
        """A new HTML element, which stands nowhere yet: give it to `append`, `before` or the like. Names that would be read again
        as something else raise `EditError`."""
        name_bytes = utf8(name)
        given = dict(attrs or {})
        for key, value in given.items():
            utf8(value)
            check_attribute(utf8(key).decode())
        node = Node(self, self._checked(lib.dq_new_element(self._handle, name_bytes, len(name_bytes))))
        for key, value in given.items():
            node[key] = value
        return node

    def new_text(self, text: str) -> Node:
        """A new text, which stands nowhere yet: give it to `append`, `before` or the like."""
        text_bytes = utf8(text)
        return Node(self, self._checked(lib.dq_new_text(self._handle, text_bytes, len(text_bytes))))

    def normalize(self) -> None:
        """Joins neighbouring texts."""
        Node(self, 0).normalize()

    def sanitize(
        self,
        elements: Iterable[str],
        attrs: Iterable[str] = (),
        drop: Iterable[str] = ("script", "style", "iframe", "object", "embed", "template", "noscript"),
    ) -> None:
        """Keeps the elements and the attributes of these names, and no others.

        An element that isn't kept is replaced by its children, or dropped with all that is below it if its name is in
        `drop`. Comments and doctypes are dropped. The values of the kept attributes stay as they are: to keep `href` or
        `src` also means to keep `javascript:` there, unless such nodes are changed afterwards.
        """
        words = [_words(names) for names in (elements, attrs, drop)]
        self._checked(self._slow.dq_sanitize(self._handle, *(part for word in words for part in (word, len(word)))))


def _read(call: Any, html: bytes, *arguments: Any) -> Document:
    document = Document()
    document._checked(call(document._handle, html, len(html), *arguments))
    if len(html) >= LARGE:
        document._slow = unlocked
    return document


def _bytes(data: object) -> bytes:
    """The bytes of what has some."""
    if isinstance(data, bytes):
        return data
    try:
        return memoryview(data).tobytes()  # type: ignore[arg-type]
    except TypeError:
        hint = "; write .read()" if hasattr(data, "read") else ""
        raise TypeError(f"a str, bytes or a path is wanted, not {type(data).__name__}{hint}") from None


def _markup(html: object) -> bytes:
    return utf8(html) if isinstance(html, str) else _bytes(html)


def _depth(max_depth: int) -> int:
    try:
        depth = operator.index(max_depth)
    except TypeError:
        raise TypeError(f"max_depth is a whole number, not {type(max_depth).__name__}") from None
    if depth < 0:
        raise ValueError("max_depth is 0 or more")
    return min(depth, LIMIT)


def parse(html: str | Bytes | os.PathLike[str], max_depth: int = 512) -> Document:
    """The document of a page, read as browsers read it. No page is refused.

    Bytes are read as `parse_bytes` reads them, and so is the file of a path, as `pathlib.Path("page.html")`. A `str` is always the
    page itself. Elements nest `max_depth` deep at most, as in browsers; 0 is no limit.
    """
    depth = _depth(max_depth)
    if isinstance(html, str):
        return _read(unlocked.dq_parse_page, utf8(html), depth)
    if isinstance(html, os.PathLike):
        with open(html, "rb") as file:
            return parse_bytes(file.read(), None, depth)
    return parse_bytes(_bytes(html), None, depth)


def _label(charset: str | None) -> bytes:
    if charset is None:
        return b""
    if not isinstance(charset, str):
        raise TypeError(f"charset is a str or None, not {type(charset).__name__}")
    return utf8(charset)


def parse_bytes(data: Bytes, charset: str | None = None, max_depth: int = 512) -> Document:
    """The document of a page in any encoding of the web, decoded and read as browsers do it.

    The encoding is that of a byte order mark; or else that of `charset`, which is what came with the page, as in the header
    `Content-Type: text/html; charset=koi8-r`; or else the one that the page declares near its start; or else UTF-8 where all
    bytes are UTF-8, and windows-1252 where not. `Document.encoding` says which one it was, and `Document.replaced` how many
    characters could not be decoded. Raises `CharsetError`, which is a `LookupError`, where no encoding has the label `charset`.
    """
    if isinstance(data, str):
        raise TypeError("bytes are wanted, not a str; write parse(html)")
    label, page, depth = _label(charset), _bytes(data), _depth(max_depth)
    document = Document()
    code = unlocked.dq_parse_bytes(document._handle, page, len(page), label, len(label), depth)
    if code == UNKNOWN_LABEL:
        raise charset_error(label.decode())
    document._checked(code)
    if len(page) >= LARGE:
        document._slow = unlocked
    return document


def parse_strict(html: str | Bytes) -> Document:
    """The document of explicit markup: every element has its tags, and nothing is guessed.

    Raises `MarkupError` for any other text, with the place where the fault is.
    """
    text, byte = _markup(html), ctypes.c_size_t()
    document = Document()
    code = unlocked.dq_parse(document._handle, text, len(text), byte)
    if -39 <= code <= -30:
        raise markup_error(code, text, byte.value)
    document._checked(code)
    if len(text) >= LARGE:
        document._slow = unlocked
    return document


def parse_fragment(html: str | Bytes, context: str = "body") -> Document:
    """The document of a piece of a page, read as browsers read it inside an element of that name.

    The nodes are the children of the element `html`.
    """
    text, name = _markup(html), utf8(context)
    return _read(unlocked.dq_parse_fragment, text, name, len(name))


class PageReader:
    """Reads a page whose bytes come in pieces, as from a connection: `feed` each piece, and `finish` gives the document.

    The page may be cut anywhere. `charset` is what came with the page, as for `parse_bytes`; where nothing says the encoding, the first
    1,024 bytes decide.
    """

    __slots__ = ("_handle", "_length", "__weakref__")

    def __init__(self, charset: str | None = None, max_depth: int = 512) -> None:
        self._handle, self._length = ReaderHandle(), 0
        label = _label(charset)
        code = lib.dq_reader_begin(self._handle, label, len(label), _depth(max_depth))
        if code == UNKNOWN_LABEL:
            raise charset_error(label.decode())
        if code < 0:
            raise fault(code, Handle())

    def feed(self, data: Bytes) -> None:
        """Reads the next bytes of the page."""
        if isinstance(data, str):
            raise TypeError("bytes are wanted, not a str; write parse(html)")
        piece = _bytes(data)
        code = unlocked.dq_reader_feed(self._handle, piece, len(piece))
        if code < 0:
            raise fault(code, Handle())
        self._length += len(piece)

    def finish(self) -> Document:
        """The document of the page, all of whose bytes have come. The reader can't be used again."""
        document = Document()
        document._checked(unlocked.dq_reader_end(self._handle, document._handle))
        if self._length >= LARGE:
            document._slow = unlocked
        return document

    def __del__(self) -> None:
        try:
            lib.dq_reader_free(self._handle)
        except (AttributeError, TypeError):
            pass  # the interpreter is ending, or the reader was refused
