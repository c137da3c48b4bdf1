"""Nodes of documents."""

from __future__ import annotations

import ctypes
import io
import os
import re
from collections.abc import ItemsView, Iterator, MutableMapping, ValuesView
from typing import IO, TYPE_CHECKING, Any, TypeVar, overload

from ._library import (
    ARGUMENT,
    BAD_KIND,
    BAD_NAME,
    NO_CHILDREN_HERE,
    NO_NODE,
    NOTHING,
    ROOT_OR_FRAGMENT,
    bytes_of,
    fault,
    lib,
    markup_error,
    message,
    numbers_of,
    text_of,
    texts_of,
    utf8,
)
from .errors import EditError, NodeError
from .names import foreign_name
from .selector import Selectors, selectors_in

if TYPE_CHECKING:
    from .document import Document

T = TypeVar("T")

AS_CONTENTS, AT_END, AT_FRONT, BEFORE, AFTER, INSTEAD = range(6)
PARENT, FIRST_CHILD, LAST_CHILD, NEXT, PREVIOUS, FIRST_ELEMENT, NEXT_ELEMENT, PREVIOUS_ELEMENT = range(8)
CHILDREN, ANCESTORS, DESCENDANTS = range(3)
KINDS = {
    1: "element",
    3: "text",
    7: "processing instruction",
    8: "comment",
    9: "document",
    10: "doctype",
    11: "fragment",
}
HOLDERS = ("element", "document", "fragment")  # what has children

# Elements whose texts are written as they are, without escaping.
RAW = frozenset({"iframe", "noembed", "noframes", "plaintext", "script", "style", "xmp"})


def check_raw(name: str | None, text: str) -> None:
    """Refuses the text of an element that is written without escaping, if it would end the element, or hide its end."""
    if name not in RAW:
        return
    ends = re.search(rf"</{name}(?=[\t\n\f\r />])", text, re.IGNORECASE)
    if ends or (name == "script" and _hides_end(text)):
        raise EditError(f"the text would not be read again as the text of a {name}", BAD_NAME)


# Where a comment begins that isn't ended at once, where one ends, and where a start tag of a script begins.
_IN_SCRIPTS = re.compile(r"<!--(?!-?>)|-->|<script(?=[\t\n\f\r />])", re.IGNORECASE)


def _hides_end(text: str) -> bool:
    """Whether a script with that text would not end at its end tag: it has a start tag of a script in a comment."""
    in_comment = False
    for found in _IN_SCRIPTS.finditer(text):
        if found[0] in ("<!--", "-->"):
            in_comment = found[0] == "<!--"
        elif in_comment:
            return True
    return False


_ATTRIBUTE = re.compile("[^\t\n\f\r />=\0]+")


def check_attribute(name: str) -> None:
    """Refuses a name of an attribute that would be read again as something else."""
    if not _ATTRIBUTE.fullmatch(name):
        raise EditError(f"{message(BAD_NAME)}: {name!r}", BAD_NAME)


class Attributes(MutableMapping[str, str]):
    """The attributes of a node, by their local names, as a mapping that is read and written."""

    __slots__ = ("_node",)

    def __init__(self, node: Node) -> None:
        self._node = node

    def _all(self) -> dict[str, str]:
        node = self._node
        found: dict[str, str] = {}
        pieces = node._pieces(lib.dq_attrs)
        for name, value in zip(pieces[::2], pieces[1::2], strict=True):
            found.setdefault(name or "", value or "")
        return found

    def __getitem__(self, name: str) -> str:
        return self._node[name]

    def __setitem__(self, name: str, value: str) -> None:
        self._node[name] = value

    def __delitem__(self, name: str) -> None:
        del self._node[name]

    def __iter__(self) -> Iterator[str]:
        return iter(self._all())

    def __len__(self) -> int:
        return len(self._all())

    def __contains__(self, name: object) -> bool:
        return isinstance(name, str) and name in self._node

    def items(self) -> ItemsView[str, str]:
        return self._all().items()

    def values(self) -> ValuesView[str]:
        return self._all().values()

    def __repr__(self) -> str:
        if self._node.document.closed:
            return "<attributes of a node of a closed document>"
        return repr(self._all())


class Node:
    """A node of a document: an element, a text, a comment or another kind.

    A node is a number and its document, which it keeps alive. Two nodes are equal if they are the same node. A node that is
    removed from the tree stays usable, and can be put back.
    """

    __slots__ = ("document", "number", "__weakref__")

    def __init__(self, document: Document, number: int) -> None:
        self.document = document
        self.number = number

    def __repr__(self) -> str:
        if self.document.closed:
            return f"<Node {self.number} of a closed document>"
        shown = self.text
        beginning = f" {_short(shown, 30)!r}" if shown else ""
        name = self.name
        if name is None:
            return f"<Node {self.number} {self.kind}{beginning}>"
        attrs = "".join(f" {key}={_short(value, 30)!r}" for key, value in self.attrs.items())
        return f"<Node {self.number} <{name}{_short(attrs, 80)}>{beginning}>"

    def __str__(self) -> str:
        return self.html

    def __eq__(self, other: object) -> bool:
        return isinstance(other, Node) and self.number == other.number and self.document is other.document

    def __hash__(self) -> int:
        return hash((id(self.document), self.number))

    def __bool__(self) -> bool:
        return True

    if not TYPE_CHECKING:

        def __getattr__(self, name: str) -> Any:
            raise foreign_name("Node", name)

    # ---- calls of the library

    def _failed(self, code: int, selectors: bytes = b"") -> Exception:
        return fault(code, self.document._handle, selectors)

    def _number(self, call: Any, *arguments: Any) -> int:
        code: int = call(self.document._handle, self.number, *arguments)
        if code < 0:
            raise self._failed(code)
        return code

    def _get(self, call: Any) -> str:
        text = text_of(call, self.document._handle, self.number)
        if isinstance(text, int):
            raise self._failed(text)
        assert isinstance(text, str)
        return text

    def _pieces(self, call: Any, *arguments: Any) -> list[str | None]:
        pieces: list[str | None] | int = texts_of(call, self.document._handle, self.number, *arguments)
        if isinstance(pieces, int):
            raise self._failed(pieces, arguments[0] if arguments else b"")
        return pieces

    def _texts(self, call: Any, *arguments: Any) -> list[str]:
        return [piece or "" for piece in self._pieces(call, *arguments)]

    def _listed(self, call: Any, *arguments: Any) -> list[Node]:
        document = self.document
        numbers: list[int] | int = numbers_of(call, document._handle, self.number, *arguments)
        if isinstance(numbers, int):
            selectors = arguments[0] if isinstance(arguments[0], bytes) else b""
            raise self._failed(numbers, selectors)
        return [Node(document, number) for number in numbers]

    # ---- what it is

    @property
    def kind(self) -> str:
        """`"element"`, `"text"`, `"comment"`, `"document"`, `"doctype"`, `"fragment"` or `"processing instruction"`."""
        return KINDS[self._number(lib.dq_kind)]

    @property
    def name(self) -> str | None:
        """The local name of an element, as `"p"`; None for any other node. It can be set; a name that would be read again as
        something else raises `EditError`."""
        name: str | int = text_of(lib.dq_name, self.document._handle, self.number)
        if isinstance(name, int):
            if name == NOTHING:
                return None
            raise self._failed(name)
        return name

    @name.setter
    def name(self, name: str) -> None:
        name_bytes = utf8(name)
        if name.lower() in RAW and self.name is not None:
            check_raw(name.lower(), self.text)
        self._number(lib.dq_set_name, name_bytes, len(name_bytes))

    @property
    def text(self) -> str:
        """The texts at the node and below it, joined. Set it to replace the children by one text."""
        return self._get(lib.dq_text)

    @text.setter
    def text(self, text: str) -> None:
        self.set_text(text)

    def set_text(self, text: str) -> None:
        """Puts one text in the place of an element's children, or of a text's contents. Raises `EditError` for any other node, and
        for a text that would end the element in which it stands, as `</script>` in a `script`."""
        text_bytes = utf8(text)
        if "<" in text:
            check_raw(self.name, text)
        holder = self.parent
        if holder is not None and holder.name in RAW and self.name is None:
            check_raw(holder.name, "".join(text if it == self else it.text for it in holder.children))
        self._number(lib.dq_set_text, text_bytes, len(text_bytes))

    @property
    def strings(self) -> list[str]:
        """The texts at the node and below it, each by itself."""
        return [node.text for node in self.descendants if node.kind == "text"]

    @property
    def html(self) -> str:
        """The node as HTML."""
        return self._get(self.document._slow.dq_html)

    def html_bytes(self) -> bytes:
        """The node as HTML, in UTF-8."""
        html: bytes | int = bytes_of(self.document._slow.dq_html, self.document._handle, self.number)
        if isinstance(html, int):
            raise self._failed(html)
        return html

    def write_html(self, file: str | os.PathLike[str] | IO[bytes] | IO[str]) -> None:
        """Writes the node as HTML, in UTF-8, into the file of that path, or into a file that is open. One that takes texts, which has
        an `encoding`, writes in that."""
        if isinstance(file, (str, os.PathLike)):
            with open(file, "wb") as opened:
                opened.write(self.html_bytes())
        elif not hasattr(file, "write"):
            raise TypeError(f"a path or a file that is open is wanted, not {type(file).__name__}")
        elif isinstance(file, io.TextIOBase) or hasattr(file, "encoding"):
            file.write(self.html)  # type: ignore[arg-type]
        else:
            file.write(self.html_bytes())  # type: ignore[arg-type]

    @property
    def inner_html(self) -> str:
        """The HTML of the children; of a `template`, that of its contents. Set it to replace them by explicit markup."""
        return self._get(self.document._slow.dq_inner_html)

    @inner_html.setter
    def inner_html(self, html: str) -> None:
        self._put_html(AS_CONTENTS, html)

    @property
    def markdown(self) -> str:
        """The node as Markdown that readers show as the page: CommonMark with GitHub's tables."""
        return self._get(self.document._slow.dq_markdown)

    @property
    def md(self) -> str:
        """What is below the node as Markdown, as the Rust crate `dom_query` writes it."""
        return self._get(self.document._slow.dq_md)

    @property
    def formatted_text(self) -> str:
        """What is below the node as text, with blocks on lines of their own."""
        return self._get(self.document._slow.dq_formatted_text)

    # ---- its attributes

    @overload
    def get(self, name: str) -> str | None: ...

    @overload
    def get(self, name: str, default: str | T) -> str | T: ...

    def get(self, name: str, default: Any = None) -> Any:
        """The value of an attribute, or the default."""
        name_bytes = utf8(name)
        value = text_of(lib.dq_attr, self.document._handle, self.number, name_bytes, len(name_bytes))
        if isinstance(value, int):
            if value == NOTHING:
                return default
            raise self._failed(value)
        return value

    def __getitem__(self, name: str) -> str:
        value = self.get(name)
        if value is None:
            raise KeyError(name)
        return value

    def __contains__(self, item: object) -> bool:
        """Whether an attribute has that name, or a node is a child."""
        if isinstance(item, str):
            return self.get(item) is not None
        return isinstance(item, Node) and item.document is self.document and item.parent == self

    def __setitem__(self, name: str, value: str) -> None:
        name_bytes, value_bytes = utf8(name), utf8(value)
        self._number(lib.dq_set_attr, name_bytes, len(name_bytes), value_bytes, len(value_bytes))

    def __delitem__(self, name: str) -> None:
        if self.get(name) is None:
            raise KeyError(name)
        name_bytes = utf8(name)
        self._number(lib.dq_remove_attr, name_bytes, len(name_bytes))

    @property
    def attrs(self) -> Attributes:
        """The attributes as a mapping: `dict(node.attrs)`, `node.attrs["href"] = "/"`."""
        return Attributes(self)

    @property
    def classes(self) -> list[str]:
        """The words of the attribute `class`."""
        return self._texts(lib.dq_classes)

    # ---- finding

    def select(self, selectors: Selectors, limit: int | None = None) -> list[Node]:
        """The elements below the node that match one of the CSS selectors, in document order; with a limit, no more than so many."""
        text = selectors_in(selectors)
        if limit is None:
            return self._listed(self.document._slow.dq_select, text, len(text))
        if limit < 0:
            raise ValueError("limit is 0 or more")
        if limit == 1:
            found = self.select_one(selectors)
            return [] if found is None else [found]
        return self._listed(self.document._slow.dq_select, text, len(text))[:limit]

    def select_one(self, selectors: Selectors) -> Node | None:
        """The first element below the node that matches one of the CSS selectors, or None."""
        text = selectors_in(selectors)
        code = self.document._slow.dq_select_first(self.document._handle, self.number, text, len(text))
        if code >= 0:
            return Node(self.document, code)
        if code == NOTHING:
            return None
        raise self._failed(code, text)

    def matches(self, selectors: Selectors) -> bool:
        """Whether the node is an element that matches one of the CSS selectors."""
        text = selectors_in(selectors)
        code = lib.dq_matches(self.document._handle, self.number, text, len(text))
        if code < 0:
            raise self._failed(code, text)
        return bool(code == 1)

    def closest(self, selectors: Selectors) -> Node | None:
        """The node itself, or the nearest of its ancestors, that matches one of the CSS selectors; or None."""
        for node in (self, *self.ancestors):
            if node.matches(selectors):
                return node
        return None

    def select_texts(self, selectors: Selectors) -> list[str]:
        """The text of each element that `select` finds. It is much faster than `[node.text for node in ..]`."""
        text = selectors_in(selectors)
        return self._texts(self.document._slow.dq_select_texts, text, len(text))

    def select_html(self, selectors: Selectors) -> list[str]:
        """The HTML of each element that `select` finds."""
        text = selectors_in(selectors)
        return self._texts(self.document._slow.dq_select_html, text, len(text))

    def select_attrs(self, selectors: Selectors, name: str) -> list[str | None]:
        """The value of an attribute of each element that `select` finds; None for an element without it."""
        text, attr = selectors_in(selectors), utf8(name)
        return self._pieces(self.document._slow.dq_select_attrs, text, len(text), attr, len(attr))

    # ---- its neighbours

    def _step(self, direction: int) -> Node | None:
        code = lib.dq_step(self.document._handle, self.number, direction)
        if code >= 0:
            return Node(self.document, code)
        if code == NOTHING:
            return None
        raise self._failed(code)

    @property
    def parent(self) -> Node | None:
        """The parent, or None."""
        return self._step(PARENT)

    @property
    def first_child(self) -> Node | None:
        """The first child of any kind, or None."""
        return self._step(FIRST_CHILD)

    @property
    def last_child(self) -> Node | None:
        """The last child of any kind, or None."""
        return self._step(LAST_CHILD)

    @property
    def next(self) -> Node | None:
        """The next sibling of any kind, or None."""
        return self._step(NEXT)

    @property
    def previous(self) -> Node | None:
        """The previous sibling of any kind, or None."""
        return self._step(PREVIOUS)

    @property
    def first_element(self) -> Node | None:
        """The first child that is an element, or None."""
        return self._step(FIRST_ELEMENT)

    @property
    def next_element(self) -> Node | None:
        """The next sibling that is an element, or None."""
        return self._step(NEXT_ELEMENT)

    @property
    def previous_element(self) -> Node | None:
        """The previous sibling that is an element, or None."""
        return self._step(PREVIOUS_ELEMENT)

    def _along(self, direction: int) -> Iterator[Node]:
        node = self._step(direction)
        while node is not None:
            yield node
            node = node._step(direction)

    @property
    def next_siblings(self) -> Iterator[Node]:
        """The siblings after it of any kind, in order. Each is looked up when it is asked for."""
        return self._along(NEXT)

    @property
    def previous_siblings(self) -> Iterator[Node]:
        """The siblings before it of any kind, from the nearest on. Each is looked up when it is asked for."""
        return self._along(PREVIOUS)

    @property
    def children(self) -> list[Node]:
        """The children of any kind, in order."""
        return self._listed(lib.dq_list, CHILDREN)

    @property
    def ancestors(self) -> list[Node]:
        """The ancestors, from the parent on."""
        return self._listed(lib.dq_list, ANCESTORS)

    @property
    def descendants(self) -> list[Node]:
        """All nodes below the node, in document order."""
        return self._listed(self.document._slow.dq_list, DESCENDANTS)

    def iter_descendants(self) -> Iterator[Node]:
        """All nodes below the node, in document order. Each is looked up when it is asked for, so that a loop that ends early reads
        no more than it needs. Don't move the node that it gave last."""
        node = self._step(FIRST_CHILD)
        while node is not None:
            yield node
            after = node._step(FIRST_CHILD)
            above: Node | None = node
            while after is None and above is not None and above != self:
                after = above._step(NEXT)
                above = above._step(PARENT)
            node = after

    @property
    def template_contents(self) -> Node | None:
        """The fragment that holds the contents of a `template`, which are not its children; None for any other node."""
        code = lib.dq_template_contents(self.document._handle, self.number)
        if code >= 0:
            return Node(self.document, code)
        if code == NOTHING:
            return None
        raise self._failed(code)

    def __iter__(self) -> Iterator[Node]:
        return iter(self.children)

    def __reversed__(self) -> Iterator[Node]:
        return reversed(self.children)

    def __len__(self) -> int:
        return len(self.children)

    # ---- edits

    def _put_html(self, place: int, html: str) -> None:
        text, byte = utf8(html), ctypes.c_size_t()
        code = self.document._slow.dq_put_html(self.document._handle, self.number, place, text, len(text), byte)
        if -39 <= code <= -30:
            raise markup_error(code, text, byte.value)
        if code < 0:
            raise self._failed(code)

    def _put(self, place: int, content: str | Node) -> None:
        if isinstance(content, Node):
            if content.document is not self.document:
                raise NodeError("the node is one of another document; give its html to append_html or the like", NO_NODE)
        elif not isinstance(content, str):
            raise TypeError(f"a str or a Node is wanted, not {type(content).__name__}")
        self._check_place(place, content)
        node = content if isinstance(content, Node) else self.document.new_text(content)
        code = lib.dq_move(self.document._handle, node.number, place, self.number)
        if code < 0:
            raise self._failed(code)

    def _check_place(self, place: int, content: str | Node) -> None:
        """Refuses a text at a place where it can't be, before it is made, and in an element that it would end."""
        if isinstance(content, str):
            if place in (AT_END, AT_FRONT):
                if self.kind not in HOLDERS:
                    raise EditError(message(NO_CHILDREN_HERE), NO_CHILDREN_HERE)
            elif self.kind in ("document", "fragment"):
                raise EditError(message(ROOT_OR_FRAGMENT), ROOT_OR_FRAGMENT)
        holder = self if place in (AT_END, AT_FRONT) else self.parent
        name = None if holder is None else holder.name
        if holder is None or name not in RAW:
            return
        text = content if isinstance(content, str) else content.text if content.kind == "text" else ""
        if holder == self:
            check_raw(name, self.text + text if place == AT_END else text + self.text)
        else:
            check_raw(name, "".join(self._with(it, place, text) for it in holder.children))

    def _with(self, child: Node, place: int, text: str) -> str:
        """The text of a child of the parent, with the text that is put at the place at this node."""
        if child != self:
            return child.text
        return text if place == INSTEAD else text + child.text if place == BEFORE else child.text + text

    def append(self, content: str | Node) -> None:
        """Puts a text, or a node of the same document, after the children. A text is put as it is, and is not markup."""
        self._put(AT_END, content)

    def prepend(self, content: str | Node) -> None:
        """Puts a text, or a node of the same document, in front of the children."""
        self._put(AT_FRONT, content)

    def before(self, content: str | Node) -> None:
        """Puts a text, or a node of the same document, right before the node."""
        self._put(BEFORE, content)

    def after(self, content: str | Node) -> None:
        """Puts a text, or a node of the same document, right after the node."""
        self._put(AFTER, content)

    def replace_with(self, content: str | Node) -> None:
        """Puts a text, or a node of the same document, in the place of the node."""
        self._put(INSTEAD, content)

    def wrap(self, element: Node) -> Node:
        """Puts the element in the place of the node, and the node after its children. Returns the element."""
        if not isinstance(element, Node):
            raise TypeError(f"a Node is wanted, not {type(element).__name__}; write wrap(document.new_element(name))")
        if element.kind not in ("element",):
            raise EditError(message(BAD_KIND), BAD_KIND)
        if element == self or element in self.ancestors or self in element.ancestors:
            raise EditError("a node cannot be wrapped into itself, or into one above or below it", ARGUMENT)
        self.before(element)
        element.append(self)
        return element

    def append_html(self, html: str) -> None:
        """Puts explicit markup after the children. Raises `MarkupError` where the text is not explicit markup."""
        self._put_html(AT_END, html)

    def prepend_html(self, html: str) -> None:
        """Puts explicit markup in front of the children."""
        self._put_html(AT_FRONT, html)

    def before_html(self, html: str) -> None:
        """Puts explicit markup right before the node."""
        self._put_html(BEFORE, html)

    def after_html(self, html: str) -> None:
        """Puts explicit markup right after the node."""
        self._put_html(AFTER, html)

    def replace_with_html(self, html: str) -> None:
        """Puts explicit markup in the place of the node."""
        self._put_html(INSTEAD, html)

    def remove(self) -> None:
        """Takes the node out of the tree, with what is below it."""
        self._number(lib.dq_remove)

    def clear(self) -> None:
        """Takes the children out of the tree."""
        for child in self.children:
            child.remove()

    def unwrap(self) -> None:
        """Puts the children in the place of the node."""
        self._number(lib.dq_unwrap)

    def normalize(self) -> None:
        """Joins neighbouring texts below the node."""
        self._number(self.document._slow.dq_normalize)


def _short(text: str, most: int) -> str:
    """The beginning of a text."""
    return text if len(text) <= most else text[: most - 1] + "…"
