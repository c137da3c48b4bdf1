"""Random soups of tags, texts, comments and doctypes: `test(rng)` is a text, a context or None for a page, and whether scripting is enabled;
`surrounded(rng)` a fragment in a form, in a document in quirks mode and the like.
soups.jsonl has the digests of the trees of some, which parse5 had, too; for soups with `select` Chromium and Firefox."""
import hashlib
import random
import re

import whole_parsing

# of these elements parse5 7.1.2 has older rules, or none
NEWER = re.compile(r"<(select|option|optgroup|search)\b")
FORMATTING = "a b big code em font i nobr s small strike strong tt u".split()
BLOCKS = (
    "address article aside blockquote center details dialog dir div dl fieldset figcaption figure footer header hgroup main menu nav "
    "ol search section summary ul p h1 h2 h6 pre listing li dd dt form button applet marquee object"
).split()
TABLE = "table caption colgroup col tbody thead tfoot tr td th".split()
HEAD = "html head body base basefont bgsound link meta title style script noscript noframes template frameset frame".split()
OTHER = (
    "area br embed img keygen wbr input param source track hr image textarea xmp iframe noembed select optgroup option rb rp rt rtc "
    "ruby plaintext span foo sarcasm"
).split()
FOREIGN = (
    "svg math mi mo mn ms mtext annotation-xml foreignObject desc title mglyph malignmark g clippath path font script p br table div "
    "lineargradient fedropshadow a"
).split()
ALL = sorted({*FORMATTING, *BLOCKS, *TABLE, *HEAD, *OTHER, *FOREIGN})
ATTRS = [
    "a=1", "b=2", "type=hidden", "type=text", "encoding=text/html", "encoding='application/XHTML+xml'", "encoding=x", "color=1",
    "face", "size=1", "definitionurl=d", "viewbox=1", "xlink:href=h", "xml:lang=l", "xmlns=n", "xmlns:xlink=k", "xml:foo=1", "a=2",
    "name=isindex",
]  # fmt: skip
TEXTS = [
    "x", " ", "\n", "y z", "\u0000", " \u0000q", "\t", "&amp;", "<!--c-->", "<![CDATA[d]]>", "<!doctype html>", "</>", "<?php?>",
    "\nx",
]  # fmt: skip
DOCTYPES = [
    "", "<!doctype html>", "<!doctype html>", "<!doctype>", "<!doctype HTML public '-//W3C//DTD HTML 4.01 transitional//EN'>",
    "<!doctype html public '-//W3C//DTD HTML 4.01 transitional//EN' 'x'>",
    "<!doctype html public '-//W3C//DTD XHTML 1.0 frameset//EN' ''>", "<!doctype foo>",
    "<!doctype html system 'http://www.ibm.com/data/dtd/v11/ibmxhtml1-transitional.dtd'>",
]  # fmt: skip
CONTEXTS = [
    "div", "body", "html", "head", "table", "tbody", "tr", "td", "th", "caption", "colgroup", "select", "template", "form",
    "frameset", "title", "textarea", "script", "style", "noscript", "iframe", "plaintext", "p", "button", "option", "ruby",
    "svg svg", "svg desc", "svg foreignObject", "svg title", "svg path", "math math", "math mi", "math mtext", "math annotation-xml",
    "math mglyph",
]  # fmt: skip


def tag(rng, names, opened):
    r = rng.random()
    if r < 0.3 and opened:
        return f"</{opened.pop() if rng.random() < 0.7 else rng.choice(opened)}>"
    name = rng.choice(names)
    if r < 0.42:
        return f"</{name}>"
    opened.append(name)
    attrs = "".join(" " + rng.choice(ATTRS) for _ in range(rng.choice([0, 0, 0, 0, 1, 1, 2])))
    return f"<{name}{attrs}{'/' if rng.random() < 0.06 else ''}>"


def soup(rng):
    groups = [FORMATTING, BLOCKS, TABLE, HEAD, OTHER, FOREIGN, ALL]
    names = [n for _ in range(rng.choice([1, 2, 3])) for n in rng.choice(groups)]
    if rng.random() < 0.5:
        names = [rng.choice(names) for _ in range(rng.choice([2, 3, 5, 8]))]
    if rng.random() < 0.3:
        names += TABLE
    names += [rng.choice(ALL)] * 2
    out, opened = [], []
    if rng.random() < 0.25:
        out.append("<body>")
    for _ in range(rng.choice([2, 4, 8, 16, 30])):
        out.append(tag(rng, names, opened) if rng.random() < 0.75 else rng.choice(TEXTS))
    return "".join(out)


def test(rng):
    text, context = soup(rng), rng.choice(CONTEXTS) if rng.random() < 0.35 else None
    return text if context else rng.choice(DOCTYPES) + text, context, rng.random() < 0.3


ENCODINGS = ["text/html", "application/XHTML+xml", "x"]


def surrounded(rng):
    """A fragment, with attributes of its context, the mode of its document, and whether a form is above it."""
    text, context, scripting = soup(rng), rng.choice(CONTEXTS), rng.random() < 0.3
    attrs = [["encoding", rng.choice(ENCODINGS)]] if rng.random() < 0.5 else []
    quirks, in_form = rng.choice(["quirks", "limited-quirks", "no-quirks"]), rng.random() < 0.5
    return text, context, scripting, {"attrs": attrs, "quirks": quirks, "in_form": in_form}


def is_older(one):
    """parse5 7.1.2 has the rules for all elements of the text."""
    return not NEWER.search(one[0]) and one[1] not in ("select", "option")


SELECTS = "select select select option option optgroup optgroup hr input button p div b a table tr td caption template svg desc textarea".split()


def with_selects(rng):
    """A page, or a fragment, most of whose tags are those of `select` and of what stands in it."""
    out, opened = [], []
    for _ in range(rng.choice([3, 6, 12, 20])):
        out.append(tag(rng, SELECTS, opened) if rng.random() < 0.8 else rng.choice(["x", " ", "y z", "<!--c-->"]))
    return "".join(out), rng.choice([None, None, None, "select", "option", "td", "template", "table"]), False


def seeded(seed, count, selects=False):
    """The soups of a seed: those that parse5 can read, or those with `select`, without what Firefox and Chromium read in two ways."""
    rng = random.Random(seed)
    if selects:
        return [one for one in (with_selects(rng) for _ in range(count)) if one[1] != "select" or "<input" not in one[0]]
    return [one for one in (test(rng) for _ in range(count)) if is_older(one)]


def digest(tests):
    """Of the trees and modes of these texts by the rules."""
    return hashlib.sha256("\0".join("\n".join(whole_parsing.by_rules(*one)) for one in tests).encode("utf-8")).hexdigest()
