"""Selectors that are checked once and used often."""

from __future__ import annotations

from typing import TYPE_CHECKING, Any, Union

from ._library import Handle, fault, lib, utf8

if TYPE_CHECKING:
    from .document import Document
    from .node import Node

_blank: list[Handle] = []


def _checked(selectors: bytes) -> bytes:
    """The selectors, if the library can read them."""
    if not _blank:
        handle = Handle()
        code = lib.dq_parse(handle, b"", 0, None)
        if code < 0:
            raise fault(code, handle)
        _blank.append(handle)
    code = lib.dq_matches(_blank[0], 0, selectors, len(selectors))
    if code < 0:
        raise fault(code, _blank[0], selectors)
    return selectors


class Selector:
    """CSS selectors, checked when they are made. Every call that takes selectors takes one of these, too.

    >>> links = Selector("a[href]")
    >>> [link["href"] for link in links.select(page)]

    Raises `SelectorError` for a text that is none.
    """

    __slots__ = ("text", "_bytes")

    def __init__(self, text: str) -> None:
        self._bytes = _checked(utf8(text))
        self.text = text

    def select(self, within: Document | Node, limit: int | None = None) -> list[Node]:
        """The elements below it that match, in document order."""
        return within.select(self, limit)

    def select_one(self, within: Document | Node) -> Node | None:
        """The first element below it that matches, or None."""
        return within.select_one(self)

    def matches(self, node: Node) -> bool:
        """Whether the node is an element that matches."""
        return node.matches(self)

    def __repr__(self) -> str:
        return f"Selector({self.text!r})"

    def __str__(self) -> str:
        return self.text

    def __eq__(self, other: object) -> bool:
        return isinstance(other, Selector) and self.text == other.text

    def __hash__(self) -> int:
        return hash(self.text)

    def __reduce__(self) -> tuple[Any, ...]:
        return (Selector, (self.text,))


Selectors = Union[str, Selector]


def selectors_in(selectors: Selectors) -> bytes:
    """The selectors as the library takes them."""
    if isinstance(selectors, Selector):
        return selectors._bytes
    if not isinstance(selectors, str):
        raise TypeError(f"a str or a Selector is wanted, not {type(selectors).__name__}")
    return utf8(selectors)
