"""The exceptions of the package, one for each family of faults."""

from __future__ import annotations

from typing import Any


class DomError(Exception):
    """A call that was refused. The document is as it was before.

    `code` is the library's number of the fault, as `include/dom_query.h` lists them. Every exception of this package can be
    pickled and copied, with its attributes.
    """

    def __init__(self, message: str, code: int) -> None:
        super().__init__(message)
        self.code = code

    def __reduce__(self) -> tuple[Any, ...]:
        return (_again, (type(self), self.args, dict(self.__dict__)))


def _again(kind: type[DomError], args: tuple[Any, ...], attributes: dict[str, Any]) -> DomError:
    """The exception of that kind with these attributes, as pickle and copy make it."""
    fault = kind.__new__(kind, *args)
    fault.args = args
    fault.__dict__.update(attributes)
    return fault


class ClosedError(DomError):
    """The document was closed."""


class SelectorError(DomError, ValueError):
    """The text is not a selector. `selectors` is the text, and `position` how many of its first characters are one by
    themselves: 7 for `ul > li[`."""

    def __init__(self, message: str, code: int, selectors: str, position: int) -> None:
        super().__init__(f"{message}: {selectors!r}, after character {position}", code)
        self.selectors = selectors
        self.position = position


class MarkupError(DomError, ValueError):
    """The text is not explicit markup. `byte` is where, counted in bytes of UTF-8 from 0; `line` and `column` are the same place
    in lines and characters, counted from 1."""

    def __init__(self, message: str, code: int, byte: int, line: int, column: int) -> None:
        super().__init__(f"{message} at line {line}, column {column} (byte {byte})", code)
        self.byte = byte
        self.line = line
        self.column = column


class EditError(DomError, ValueError):
    """The edit is not allowed: a text gets no children, the root is not moved, no node goes below itself, a comment has no
    attributes, and no name or text is put where it would be read again as something else."""


class NodeError(DomError, ValueError):
    """The node is not one of this document."""


class LimitError(DomError):
    """A document has 4,294,967,295 nodes at most."""


class CharsetError(DomError, LookupError):
    """No encoding of the web has that label. `charset` is the label."""

    def __init__(self, message: str, code: int, charset: str) -> None:
        super().__init__(message, code)
        self.charset = charset


class PolicyError(DomError, ValueError):
    """The rules can't be a policy, since what it left would not be safe, could not be written, or a rule could never apply.

    `rule` says which rule is refused, by the name of the argument of `Policy`, as `"tags"` or `"link_rel"`. `name` is what is
    refused in it, as `"svg"`, or None where it is the rule as a whole.
    """

    def __init__(self, message: str, code: int, rule: str, name: str | None) -> None:
        super().__init__(message, code)
        self.rule = rule
        self.name = name
