"""What users write: `mypy --strict` accepts every line."""

from __future__ import annotations

import io
import pathlib

import dom_query
from dom_query import Article, Document, DomError, MarkupError, Node, PageReader, Policy, PolicyError, Selector, SelectorError

LINKS = Selector("a[href]")


def titles(pages: list[bytes]) -> list[str]:
    found: list[str] = []
    for page in pages:
        with dom_query.parse(page) as document:
            title = document.select_one("title")
            found.append(title.text if title is not None else "")
    return found


def taken(page: Document) -> tuple[str, str] | None:
    article: Article | None = page.article()
    if article is None or not article.sure:
        return None
    return article.title or article.document.text[:40], article.markdown


def links(document: Document, base: str = "") -> dict[str, str]:
    return {link.text: base + link["href"] for link in LINKS.select(document)}


def addresses(node: Node) -> list[str]:
    return [address for address in node.select_attrs("a", "href") if address is not None]


def read(path: pathlib.Path) -> tuple[str | None, str | None, int | None]:
    document = dom_query.parse(path)
    return document.encoding, document.encoding_source, document.replaced


def defaults(node: Node) -> str:
    some: str = node.get("href", "/")
    maybe: str | None = node.get("href")
    number: str | int = node.get("tabindex", 0)
    return some + (maybe or "") + str(number)


def edit(document: Document) -> bytes:
    for node in document.select("p", limit=3):
        node["class"] = "seen"
        node.attrs.update({"id": "x"})
        node.append("text")
        node.append(document.new_element("b", {"title": "t"}))
        node.wrap(document.new_element("div"))
        del node["id"]
        nearest = node.closest("div")
        if nearest is not None:
            nearest.unwrap()
    document.write_html(io.BytesIO())
    document.write_html(io.StringIO())
    document.write_html("page.html")
    document.write_html(pathlib.Path("page.html"))
    return document.html_bytes()


def around(node: Node) -> list[Node | None]:
    return [node.parent, node.next, *node.children, *node.next_siblings, *node.iter_descendants(), node.template_contents]


def in_pieces(pieces: list[bytes]) -> Document:
    reader = PageReader("utf-8")
    for piece in pieces:
        reader.feed(piece)
    return reader.finish()


def cleaned(html: str) -> str:
    try:
        policy = Policy(tags={"b", "i"}, attributes={"*": {"id"}}, link_rel=None).changed(max_depth=9)
    except PolicyError as fault:
        return f"{fault.rule} {fault.name} {fault.code}"
    return policy.clean(html) + dom_query.clean(dom_query.parse(html), policy) + dom_query.clean_page(html)


def places(document: Document) -> tuple[int, int, int]:
    try:
        document.select("p[")
        document.root.append_html("<p>")
    except SelectorError as fault:
        return fault.position, len(fault.selectors), 0
    except MarkupError as fault:
        return fault.byte, fault.line, fault.column
    except DomError as fault:
        return fault.code, 0, 0
    return 0, 0, 0


def members(node: Node, document: Document) -> bool:
    return "href" in node and node in document and node.first_child in node
