"""article_rows.py: writes tests/rows/hq/article_tables.jsonl, a row for every entry of the tables by which an article is found: names
of elements, roles, words in classes and ids, names of `meta` elements, separators of titles (crates/dom_article/src).

Each page has two long paragraphs and a probe between them. By the rule that the entry belongs to, the article has the probe or
hasn't, and each table has a row more for a probe of which the opposite holds. Run it by hand after a table has changed; the test
command reads the rows alone, and tests/checks/tables.py looks for an entry that has none."""
import json

import source_tables
from rows import ROOT

FIRST = "Tea, as it is grown here, is picked by hand, leaf by leaf, in the cool of the morning. "
LAST = "Rain, which comes late in the year, is caught in tanks, one above the other, on the hill. "
LONG = "Snow, in the years when it falls, stays on the roofs, the walls and the lanes, till March. "
COUNT = 6
HTML = ["--article", "--any", "--html"]
# Letters that no word of a list has before and after it.
AROUND = ("zq", "qz")
VOID = {"link", "meta", "base", "input", "source", "track", "embed", "param", "area", "keygen", "basefont", "bgsound", "frame", "hr"}
# How the parts of a table and of a list are written.
AROUND_NAME = {
    "td": ("<table><tbody><tr>", "</tr></tbody></table>"),
    "th": ("<table><tbody><tr>", "</tr></tbody></table>"),
    "tr": ("<table><tbody>", "</tbody></table>"),
    "tbody": ("<table>", "</table>"),
    "thead": ("<table>", "</table>"),
    "tfoot": ("<table>", "</table>"),
    "caption": ("<table>", "</table>"),
    "li": ("<ul>", "</ul>"),
    "dt": ("<dl>", "</dl>"),
    "dd": ("<dl>", "</dl>"),
    "figcaption": ("<figure>", "</figure>"),
    "summary": ("<details>", "</details>"),
}
INSIDE_NAME = {
    "tr": ("<td>", "</td>"),
    "tbody": ("<tr><td>", "</td></tr>"),
    "thead": ("<tr><td>", "</td></tr>"),
    "tfoot": ("<tr><td>", "</td></tr>"),
    "table": ("<tbody><tr><td>", "</td></tr></tbody>"),
    "ul": ("<li>", "</li>"),
    "ol": ("<li>", "</li>"),
    "dl": ("<dd>", "</dd>"),
}


def element(name, inside, attributes=""):
    """An element with its contents, in the elements that it has to stand in."""
    before, after = AROUND_NAME.get(name, ("", ""))
    first, last = INSIDE_NAME.get(name, ("", ""))
    start = f"<{name}{attributes}>"
    return before + start + ("" if name in VOID else f"{first}{inside}{last}</{name}>") + after


# Where a part of a table and the like stands beside a long text, which is written `%`.
BESIDE = {
    "td": "<table><tbody><tr><td>%</td>{}</tr></tbody></table>",
    "th": "<table><tbody><tr><td>%</td>{}</tr></tbody></table>",
    "tr": "<table><tbody><tr><td>%</td></tr>{}</tbody></table>",
    "tbody": "<table><tbody><tr><td>%</td></tr></tbody>{}</table>",
    "thead": "<table>{}<tbody><tr><td>%</td></tr></tbody></table>",
    "tfoot": "<table><tbody><tr><td>%</td></tr></tbody>{}</table>",
    "caption": "<table>{}<tbody><tr><td>%</td></tr></tbody></table>",
    "figcaption": "<figure><p>%</p>{}</figure>",
    "summary": "<details>{}<p>%</p></details>",
}


def beside(name, inside):
    """An element with its contents, beside a long text where its place is a table or the like."""
    if name not in BESIDE:
        return element(name, inside)
    first, last = INSIDE_NAME.get(name, ("", ""))
    start, end = BESIDE[name].format(f"<{name}>{first}{inside}{last}</{name}>").split("%")
    return [[start, 1], [LONG, COUNT], [end, 1]]


def row(entry, probe, is_kept, body="", title=""):
    """The row of a page with a probe, a text or pairs of a text and a count, between two paragraphs."""
    probe = [[probe, 1]] if isinstance(probe, str) else probe
    front, back = [["<p>", 1], [FIRST, COUNT], ["</p>", 1]], [["<p>", 1], [LAST, COUNT], ["</p>", 1]]
    output = front + (probe if is_kept else []) + back + [["\n", 1]]
    return {"entry": entry, "args": HTML, "markup": [[f"{title}<body{body}>", 1]] + front + probe + back, "output": output}


def long(name, attributes):
    """An element with a long text."""
    start, end = element(name, "%", attributes).split("%")
    return [[start + "<p>", 1], [LONG, COUNT], ["</p>" + end, 1]]


def marked(name, attributes):
    """An element with a long text and nothing else in it."""
    start, end = element(name, "%", attributes).split("%")
    return [[start, 1], [LONG, COUNT], [end, 1]]


LINK = '<a href="x">Go</a>'
# Without it the only `h1` is the title, and is left out.
TITLE = "<title>How it was in the old days</title>"


def word_row(entry, word, way, group):
    """The row of a word of one of the lists."""
    first, last = AROUND
    inside = f"{first}{word}{last}"
    is_part = way == "Part"
    if group == "Byline":
        return byline_row(entry, inside if is_part else word)
    name, rest, goes = {
        "Unlikely": ("section", "", True),
        "Maybe": ("section", "menu ", False),
        "Strong": ("section", "menu main ", True),
        "Positive": ("article", "scroll ", False),
        "Negative": ("article", "", True),
    }[group]
    written = inside if is_part else word
    return row(entry, long(name, f' class="{rest}{written}"'), not goes)


MEMBERS = ("byline", "description", "html", "image", "language", "markdown", "published", "site", "sure", "text", "title")


def json_row(entry, markup, html, text, **known):
    """The row of a page whose article is printed as JSON. `known` has what the page says of it."""
    members = {**dict.fromkeys(MEMBERS), "html": html, "markdown": text, "sure": False, "text": text, **known}
    output = json.dumps(members, separators=(",", ":"), ensure_ascii=False) + "\n"
    return {"entry": entry, "args": ["--article", "--any", "--json"], "markup": markup, "output": output}


def byline_row(entry, word):
    """The row of a word for the name of the author."""
    markup = f'<p class="{word}">A B</p><p>Short.</p>'
    return json_row(entry, markup, markup, "A B\n\nShort.", byline="A B")


def meta_row(entry, name, field):
    """The row of a name of a `meta` element."""
    markup = f'<meta name="{name}" content=" A  b "><p>Short.</p>'
    return json_row(entry, markup, "<p>Short.</p>", "Short.", **{field.lower(): "A b"})


def title_row(entry, separator):
    """The row of what stands between the parts of a title."""
    written = separator.replace(">", "&gt;")
    markup = f"<title>News{written}How it was then</title><p>Short.</p>"
    return json_row(entry, markup, "<p>Short.</p>", "Short.", title="How it was then")


def name_row(entry, array, name):
    """The row of an entry that is the name of an element."""
    if array == "NEVER":
        return row(entry, element(name, "Short."), False)
    if array in ("BLOCKS", "ROWS"):
        # (lists stay unless a word speaks against them)
        return row(entry, element(name, LINK, ' class="scroll"' if name in ("dl", "ol", "ul") else ""), False)
    if array == "NEVER_BAD":
        return row(entry, beside(name, LINK), True)
    if array == "HEADINGS":
        return row(entry, element(name, LINK), True, title=TITLE if name == "h1" else "")
    if array == "PLACES":
        return row(entry, marked(name, ' id="menu"'), True)
    if name == "body":
        return row(entry, "<p>Short.</p>", True, body=' class="menu"')
    return row(entry, marked(name, ' class="menu"'), True)


def rows():
    """The rows of all entries."""
    for array, text, rest in source_tables.article_entries():
        entry = source_tables.article_entry(array, text, rest)
        if source_tables.shows_in_no_article(array, text):
            continue
        if array == "WORDS":
            yield word_row(entry, text, *rest)
        elif array == "NAMES":
            yield meta_row(entry, text, rest[0])
        elif array == "SEPARATORS":
            yield title_row(entry, text)
        elif array == "ROLES":
            yield row(entry, long("section", f' role="{text}"'), False)
        elif array == "TEXT_LOOKS":
            yield row(entry, long("section", f' class="menu text-{text}"'), False)
        elif array == "CONTENT_LOOKS":
            yield row(entry, long("section", f' class="menu content-{text}"'), False)
            yield row(entry, long("section", f' class="menu justify-content-{text}"'), False)
        else:
            yield name_row(entry, array, text)
    yield from opposites()


def opposites():
    """For each table a probe that isn't in it, of which the opposite holds."""
    first, last = AROUND
    yield row("article NEVER: not b", "<b>Short.</b>", True)
    yield row("article BLOCKS: not b", f"<b>{LINK}</b>", True)
    yield row("article NEVER_BAD: not div", f"<div>{LINK}</div>", False)
    yield row("article ROLES: not note", long("section", ' role="note"'), True)
    yield row("article PLACES: not div", long("div", ' id="menu"'), False)
    yield row("article NOT_BY_WORDS: not section", long("section", ' class="menu"'), False)
    yield row("article TEXT_LOOKS: not other", long("section", ' class="menu text-other"'), True)
    yield row("article CONTENT_LOOKS: not other", long("section", ' class="menu content-other"'), True)
    yield row("article WORDS: not other", long("section", ' class="other"'), True)
    yield row("article WORDS: not scroll alone", long("article", ' class="scroll"'), False)
    for word, (way, group) in source_tables.whole_words():
        if group in ("Unlikely", "Negative"):
            name = "section" if group == "Unlikely" else "article"
            yield row(f"article WORDS: not {first}{word}{last} {group}", long(name, f' class="{first}{word}{last}"'), True)


if __name__ == "__main__":
    text = "".join(json.dumps(it, ensure_ascii=False) + "\n" for it in rows())
    (ROOT / "tests" / "rows" / "hq" / "article_tables.jsonl").write_text(text, encoding="utf-8")
    print(f"article_tables.jsonl: {text.count(chr(10))} rows, {len(text.encode())} bytes")
