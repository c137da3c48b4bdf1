"""Prints what a policy leaves of HTML from strangers.

    python examples/python/clean.py FILE ..          as a comment on a page
    python examples/python/clean.py --page FILE ..   as a whole page
"""

import sys

from dom_query import Policy, parse_bytes

# Comments: short texts, links that search engines don't follow, and classes of code.
COMMENTS = Policy(
    tags={"a", "b", "blockquote", "br", "code", "em", "i", "li", "ol", "p", "pre", "strong", "ul"},
    clean_content_tags={"script", "style", "svg", "math", "iframe"},
    attributes={"a": {"href"}, "code": {"class"}},
    url_schemes={"http", "https", "mailto"},
    relative="drop",
    link_rel="nofollow noopener",
    classes={"python", "sql"},
)


def main(words):
    for name in words:
        if name == "--page":
            continue
        with open(name, "rb") as file:
            document = parse_bytes(file.read())
        if "--page" in words:
            print(COMMENTS.clean_page(document.html))
        else:
            body = document.select_one("body")
            print(COMMENTS.clean(body.inner_html if body else document.html))


if __name__ == "__main__":
    main(sys.argv[1:])
