"""Names of other libraries."""

from __future__ import annotations

# What other libraries call what this one has.
ELSEWHERE = {
    "find_all": "select('p.note')",
    "find": "select_one('p.note')",
    "findAll": "select('p.note')",
    "css": "select(selectors)",
    "css_first": "select_one(selectors)",
    "cssselect": "select(selectors)",
    "xpath": "select(selectors), with CSS selectors",
    "get_text": "text, or formatted_text",
    "text_content": "text",
    "string": "text",
    "stripped_strings": "formatted_text.split('\\n')",
    "prettify": "html, or formatted_text",
    "tostring": "html",
    "textContent": "text",
    "inner_text": "formatted_text",
    "write": "write_html(file)",
    "tail": "next.text",
    "innerHTML": "inner_html",
    "outerHTML": "html",
    "decode": "html",
    "decode_contents": "inner_html",
    "decompose": "remove()",
    "extract": "remove()",
    "detach": "remove()",
    "replaceWith": "replace_with(content)",
    "querySelector": "select_one(selectors)",
    "querySelectorAll": "select(selectors)",
    "getAttribute": "get(name)",
    "set": "node[name] = value",
    "drop_tree": "remove()",
    "drop_tag": "unwrap()",
    "tag": "name",
    "contents": "children",
    "getparent": "parent",
    "getchildren": "children",
    "iterdescendants": "descendants",
    "iterancestors": "ancestors",
    "parents": "ancestors",
    "next_sibling": "next",
    "previous_sibling": "previous",
    "getnext": "next_element",
    "getprevious": "previous_element",
    "find_next_sibling": "next_element",
    "find_previous_sibling": "previous_element",
    "attributes": "attrs",
    "attrib": "attrs",
    "has_attr": "the operator in: 'href' in node",
    "insert_before": "before(content)",
    "insert_after": "after(content)",
    "new_tag": "new_element(name)",
    "new_string": "new_text(text)",
}

# Elements that BeautifulSoup finds by an attribute of their name.
TAGS = set(
    "a article body button code div footer form h1 h2 h3 h4 head header img input label li main nav ol option p pre section "
    "span table tbody td th title tr ul".split()
)


def foreign_name(owner: str, name: str) -> AttributeError:
    """The error for a name that isn't there, which says what to write if another library has it."""
    hint = f"select_one({name!r})" if name in TAGS else ELSEWHERE.get(name)
    return AttributeError(f"{owner} has no {name!r}" + (f"; write {hint}" if hint else ""))
