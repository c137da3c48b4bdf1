"""Mistakes of users: `mypy --strict` refuses each line that has a comment with the kind of its error, and no other."""

from __future__ import annotations

import dom_query
from dom_query import Document, Node, PageReader, Policy, Selector


def misspelt(document: Document, node: Node) -> None:
    document.selct("p")  # error: attr-defined
    node.hmtl  # error: attr-defined
    node.find_all("p")  # error: attr-defined
    document.h1  # error: attr-defined
    Policy().tgas  # error: attr-defined


def not_there(node: Node) -> str:
    node.parent.text  # error: union-attr
    node.select_one("p").text  # error: union-attr
    return node.get("href")  # error: return-value


def wrong_types(document: Document, node: Node) -> None:
    dom_query.parse(5)  # error: arg-type
    dom_query.parse_bytes("text")  # error: arg-type
    dom_query.parse_bytes(b"", b"utf-8")  # error: arg-type
    dom_query.parse("", max_depth=1.5)  # error: arg-type
    node.append(5)  # error: arg-type
    node["id"] = 1  # error: assignment
    node.text = None  # error: assignment
    node.kind = "element"  # error: misc
    node.wrap("div")  # error: arg-type
    document.select(b"p")  # error: arg-type
    document.select("p", limit="3")  # error: arg-type
    document.sanitize("p").text  # error: func-returns-value, attr-defined
    Selector(b"p")  # error: arg-type
    PageReader().feed("text")  # error: arg-type
    Policy(link_rel=["x"])  # error: list-item, arg-type
    Policy(tags=5)  # error: arg-type
    Policy({"b"})  # error: misc
    dom_query.clean(b"<b>")  # error: arg-type
    dom_query.clean("<b>", {"b"})  # error: arg-type
