"""table_rows.py [NODE_PATH]: writes tests/rows/*/tables_*.jsonl, rows for every entry of the tables of the crates that
read pages (source_tables.py), for every state of the tokenizer and every character that a state may name, and for every
character in every insertion mode.

The trees are those of parse5 7.1.2 (Debian's node-parse5) in the copy that tests/peers/mend_trees.py makes, in which it follows
the HTML Standard; NODE_PATH names the folder of that copy. For an element that parse5 is too old to know, MENDED names one that every
rule treats alike. parse5 has the rules of `select` that the Standard had until 2025, so the trees of pages with a `select` are those
that Chromium and Firefox make (tests/peers/browsers/ask.py says which packages they are); where the two differ, DIFFERING says why, and
the tree is Firefox's. Run it by hand after a table has changed; the test command reads the rows alone."""
import json
import os
import re
import subprocess
import sys

import rule_pages
import source_tables
import state_pages
from rows import ROOT

sys.path.insert(0, str(ROOT / "tests" / "peers" / "browsers"))
import ask  # noqa: E402

PEER = ROOT / "tests" / "peers" / "trees_parse5.js"
ROWS = ROOT / "tests" / "rows"
RAW = "title style script textarea xmp iframe noembed noframes noscript".split()
# Names that stand for all that a mode doesn't mention.
SAMPLE = "a b body div frame frameset head html input li link p rt span svg td textarea title x-y".split()

# For each insertion mode, for a `select` and for foreign content: what comes before a tag, and what comes after it and shows the mode.
MODES = {
    "initial": ("", "<p>z"),
    "before html": ("<!doctype html>", "<p>z"),
    "before head": ("<!doctype html><html>", "<p>z"),
    "in head": ("<!doctype html><head>", "<meta><p>z"),
    "in head noscript": ("<!doctype html><head><noscript>", "<meta><p>z"),
    "after head": ("<!doctype html><head></head>", "<meta><p>z"),
    "in body": ("<!doctype html><body>", "<p>z"),
    "in table": ("<!doctype html><table>", "<td>z"),
    "in caption": ("<!doctype html><table><caption>", "<td>z"),
    "in column group": ("<!doctype html><table><colgroup>", "<col><td>z"),
    "in table body": ("<!doctype html><table><tbody>", "<td>z"),
    "in row": ("<!doctype html><table><tr>", "<td>z"),
    "in cell": ("<!doctype html><table><td>", "<td>z"),
    "in template": ("<!doctype html><template>", "<td>z"),
    "after body": ("<!doctype html><p>1</body>", "<p>z"),
    "in frameset": ("<!doctype html><frameset>", "<frame>"),
    "after frameset": ("<!doctype html><frameset></frameset>", "<frame><noframes>z"),
    "after after body": ("<!doctype html><p>1</body></html>", "<p>z"),
    "after after frameset": ("<!doctype html><frameset></frameset></html>", "<frame><noframes>z"),
    "in a select": ("<!doctype html><select><optgroup><option>", "<option>z<p>"),
    "in a select in a table": ("<!doctype html><table><select><option>", "<option>z<td>"),
    "in a select in a table's cell": ("<!doctype html><table><td><select><option>", "<option>z<td>"),
    "in svg": ("<!doctype html><svg>", "z"),
    "in math": ("<!doctype html><math>", "z"),
}
# The modes in which every name has rows; in the others those that the mode mentions, and SAMPLE.
WHOLE = ("in body", "in table", "in a select", "in template", "in svg", "in math")
# Questions about every name, each with a page in which {} is the name.
QUESTIONS = {
    "in p": "<!doctype html><p>1<{}>2",
    "formatting closed": "<!doctype html><p><b>1</p><{}>2",
    "frameset behind": "<!doctype html><{0}></{0}><frameset><frame>",
    "in heading": "<!doctype html><h1>1<{}>2",
    "in li": "<!doctype html><ul><li>1<{}>2<li>3",
    "in dd": "<!doctype html><dl><dd>1<{}>2<dt>3",
    "special": "<!doctype html><span>1<{}>2</span>3",
    "furthest block": "<!doctype html><b>1<{}>2</b>3",
    "implied end": "<!doctype html><form>1<{}>2</form>3",
    "implied end in ruby": "<!doctype html><ruby>1<{}>2<rt>3<rb>4",
    "scope": "<!doctype html><div>1<{}>2</div>3",
    "button scope": "<!doctype html><p>1<{}>2</p>3",
    "item scope": "<!doctype html><ul><li>1<{}>2</li>3",
    "own end in svg": "<!doctype html><svg><{0}>1</{0}>2",
    "own end in body": "<!doctype html><{0}>1</{0}>2",
}
# Pages for the entries of a question, where one page doesn't fit all.
PAGES = {
    "table text": {
        "table": "<!doctype html><table> 1<td>2",
        "tbody": "<!doctype html><table><tbody> 1<td>2",
        "tfoot": "<!doctype html><table><tfoot> 1<td>2",
        "thead": "<!doctype html><table><thead> 1<td>2",
        "tr": "<!doctype html><table><tr> 1<td>2",
        "template": "<!doctype html><template><caption></caption> 1<td>2",
    },
    "foster parent": {
        "table": "<!doctype html><div><table><tr>1<b>2<td>3<table>4",
        "template": "<!doctype html><table><template><tr>1<b>2<td>3",
    },
    "form in table": {
        "form": "<!doctype html><table><form a=1><form b=2><tr><td>3",
        "template": "<!doctype html><template><table><form a=1><tr><td>3",
    },
    "html in template": {"template": "<!doctype html><html a=1><template><html a=2 b=3></template><html c=4>"},
    "foreign": {
        "annotation-xml": "<!doctype html><math><annotation-xml encoding=Text/HTML><div>1<svg><annotation-xml encoding=text/html><div>2"
    },
    "text point": {
        name: "".join(f"<math><{it}><{name} a=1>1</{name}></{it}></math>" for it in "mi mo mn ms mtext annotation-xml x-y".split())
        for name in ("mglyph", "malignmark", "b", "x-y", "svg", "annotation-xml")
    },
    "annotation": {name: f"<!doctype html><math><annotation-xml><{name} a=1>1</{name}><mi>2" for name in "svg math b x-y p title".split()},
    "table context": {
        "html": ("<b>1<tr><td>2", "table"),
        "table": "<!doctype html><table><b>1<tr><td>2",
        "tbody": "<!doctype html><table><tbody><b>1<tr><td>2",
        "tfoot": "<!doctype html><table><tfoot><b>1<tr><td>2",
        "thead": "<!doctype html><table><thead><b>1<tr><td>2",
        "tr": "<!doctype html><table><tr><b>1<td>2",
        "template": "<!doctype html><template><tr></tr><b>1<tr><td>2",
    },
    "scope": {
        "caption": "<!doctype html><div>1<table><caption>2</div>3",
        "table": "<!doctype html><div>1<table></div>3",
        "td": "<!doctype html><div>1<table><td>2</div>3",
        "th": "<!doctype html><div>1<table><th>2</div>3",
        "html": ("1</div>2", "div"),
    },
}
for _point in "mi mo mn ms mtext annotation-xml".split():
    PAGES["scope"][_point] = f"<!doctype html><div>1<math><{_point}>2</div>3"
for _point in "foreignobject desc title".split():
    PAGES["scope"][_point] = f"<!doctype html><div>1<svg><{_point}>2</div>3"
for _name in "caption col colgroup head html body frame tbody td tfoot th thead tr".split():
    PAGES.setdefault("special", {})[_name] = f"<!doctype html><template><span>1</template><table><b><{_name}>2</b></span>3"
# Texts of fragments in each context.
FRAGMENTS = (
    "1<b>2</b><!--3-->&amp;<br/>",
    "<td>1<tr>2<caption>3",
    "<frame><option>1<optgroup>2<li>3",
    "</{}>1<col>2<body a=1><p>3</p>",
    "<form>1<form>2<a>3<a>4<head><frameset>5",
)
FOREIGN_CONTEXTS = [
    *(f"svg {name}" for name in ("svg", "path", "desc", "title", "foreignObject")),
    *(f"math {name}" for name in ("math", "mi", "mo", "mn", "ms", "mtext", "annotation-xml")),
    "svg x-y",
]
# Where parse5 7.1.2 is older than the standard: an element that it doesn't know, and one that every rule treats alike.
MENDED = {"search": "section"}
# The texts in contexts that Chromium and Firefox read in two ways, and why Firefox's way is the Standard's.
DIFFERING = {("1<input>2<option>3", "select"): "where the context is a select, the Standard ignores a start tag input; Chromium inserts it"}


class Pages:
    """Pages whose trees are asked of the peer, all at once."""

    def __init__(self):
        self.asked = []

    def add(self, entry, text, context=None, scripting=False):
        self.asked.append((entry, text, context, scripting))

    def answers(self):
        """The pages with the trees, quirks modes and HTML of the peers; those with a `select` have no mode."""
        others = by_parse5([it for it in self.asked if not has_select(it)])
        selects = by_browsers([it for it in self.asked if has_select(it)])
        return (next(selects if has_select(it) else others) for it in self.asked)
    def rows(self):
        """The rows, with the peer's trees."""
        for entry, text, context, scripting, tree, _, _ in self.answers():
            args = ["--tree", *(["--context", context] if context else []), *(["--scripting"] if scripting else [])]
            yield {"entry": entry, "args": args, "markup": text, "output": tree}


def has_select(page):
    """Whether a page has a `select`, and is read without scripting, as the browsers read it."""
    _, text, context, scripting = page
    return not scripting and (context == "select" or re.search(r"</?select\b", text) is not None)


def by_parse5(asked):
    """The pages with parse5's answers."""
    words, behind = [], []
    for _, text, context, scripting in asked:
        name = next((it for it in MENDED if f"<{it}" in text or f"</{it}" in text or context == it), None)
        behind.append(name)
        if name:
            text = text.replace(name, MENDED[name])
            context = MENDED[name] if context == name else context
        words.append([text, context, scripting])
    ran = subprocess.run(["node", PEER], input=json.dumps(words), capture_output=True, text=True, check=True, env=node())
    for (entry, text, context, scripting), name, (tree, mode, html) in zip(asked, behind, json.loads(ran.stdout)):
        if name:
            tree = re.sub(rf"(?<=[< ]){MENDED[name]}(?=>)", name, tree)
        yield entry, text, context, scripting, tree, mode, html


def by_browsers(asked):
    """The pages with the answers of the browsers."""
    cases = [[text, context] for _, text, context, _ in asked]
    chromium, firefox = (ask.ask(it, cases) for it in ask.BROWSERS)
    for (entry, text, context, scripting), one, (tree, html) in zip(asked, chromium, firefox):
        if one[0] != tree and (text, context) not in DIFFERING:
            sys.exit(f"the browsers differ: {entry}: {json.dumps(text)} in {context}\n{one[0]}\n{tree}")
        yield entry, text, context, scripting, tree, None, html


def node():
    """The environment in which node finds parse5."""
    return {**os.environ, "NODE_PATH": sys.argv[1] if len(sys.argv) > 1 else os.environ.get("NODE_PATH", "/usr/share/nodejs")}


def closed(name):
    """The end tag after an element whose content is text, which shows the mode after it."""
    return f"</{name}>" if name in RAW else ""


def mode_pages(pages):
    """A start tag and an end tag of each name in each insertion mode."""
    mentioned = {}
    for question, name in source_tables.named_entries():
        mentioned.setdefault(question, set()).add(name)
    for mode, (front, behind) in MODES.items():
        tables = mentioned.get("in table", set()) if "table" in mode or mode in ("in row", "in cell", "in caption") else set()
        some = {*SAMPLE, *mentioned.get(mode, ()), *tables}
        for name in [it for it in source_tables.names() if mode in WHOLE or it in some] + ["x-y"] * (mode not in WHOLE):
            pages.add(f"{mode}: <{name}>", f"{front}<{name} a=1>y{closed(name)}{behind}")
            pages.add(f"{mode}: </{name}>", f"{front}</{name}>y{behind}")


def question_pages(pages):
    """Each question about each name."""
    for question, page in QUESTIONS.items():
        for name in [*source_tables.names(), "x-y"]:
            pages.add(f"{question}: {name}", page.format(name))
    for question, by_name in PAGES.items():
        for name, page in by_name.items():
            text, context = page if isinstance(page, tuple) else (page, None)
            pages.add(f"{question}: {name}", text, context)


def fragment_pages(pages):
    """Each name as the context of fragments."""
    for name in [*source_tables.names(), "x-y", *FOREIGN_CONTEXTS]:
        for text in FRAGMENTS:
            pages.add(f"fragment: {name}", text.format(name.split()[-1]), name)
    pages.add("fragment: noscript", "1<b>2</b>&amp;", "noscript", True)
    pages.add("in head: <noscript>", "<noscript>1<b>2</noscript>3", None, True)
    pages.add("in body: <noscript>", "<p><noscript>1<b>2</noscript>3", None, True)
    pages.add("in head noscript: <noscript>", "<head><noscript><link></noscript>3", None, True)


def quirks_pages(pages, entries, whole=False):
    """Each identifier of a doctype: as it is, and for `whole` in other case, with more after it, with less, and with a system
    identifier. In quirks mode a table doesn't close a paragraph."""
    for array, text in entries:
        if array not in ("QUIRKY", "QUIRKY_NAMES", "HTML_4", "XHTML"):
            continue
        for public in (text, text.upper(), text + "x", text[:-1], "x" + text) if whole else (text,):
            for system in ("", ' "x"') if whole else ("",):
                pages.add(f"{array}: {text}", f'<!DOCTYPE html PUBLIC "{public}"{system}><p>1<table>2')
    system = "http://www.ibm.com/data/dtd/v11/ibmxhtml1-transitional.dtd"
    for written in (system, system.upper(), system + "x", system[:-1]):
        for public in ("SYSTEM", 'PUBLIC ""', 'PUBLIC "x"'):
            pages.add(f"QUIRKY_SYSTEMS: {system}", f'<!DOCTYPE html {public} "{written}"><p>1<table>2')


def adjusting_pages(pages, entries):
    """Each name that is adjusted in SVG or MathML, there and elsewhere."""
    for array, text in entries:
        low = text.lower()
        if array == "SVG_TAGS":
            pages.add(f"{array}: {text}", f"<svg><{low} a=1>1</{low}>2</svg><math><{low}>3</math><{low}>4")
        if array in ("SVG_ATTRS", "NAMESPACED", "mathml_attr"):
            pages.add(f"{array}: {text}", f"<svg {low}=1><g {low}=2></g></svg><math {low}=3><mi {low}=4></mi></math><p {low}=5>")
        if array == "RARE":
            pages.add(f"{array}: {text}", f"<!doctype html><{low} a=1>1<p>2</{low}>3")


def reference_pages(pages, entries):
    """Each character reference: with and without its semicolon, in a text and in attribute values."""
    table = (ROOT / "docs" / "standard" / "named_references.txt").read_text(encoding="utf-8")
    names = [line.split()[0] for line in table.splitlines() if line.strip() and not line.startswith("#")]
    for at in range(0, len(names), 60):
        some = names[at : at + 60]
        text = " ".join(f"&{it} &{it.rstrip(';')}= &{it.rstrip(';')}x" for it in some)
        pages.add(f"references: {some[0]} to {some[-1]}", f'<p a="{text}">{text}')
    for array, text in entries:
        if array == "WINDOWS":
            number = 128 + int(text)
            pages.add(f"{array}: {text}", f'<p a="&#{number};b" b=&#x{number:x}>&#{number};c&#x{number:X}d')
        if array == "REFERENCES":
            name = text.rstrip(";")
            front = f"<title>&{text}&{name}x</title>"
            values = f"a=\"x&{text}y\" b='&{text}' c=&{text} d='&{name}=' e=&{name}"
            pages.add(f"{array}: {text}", f"{front}<p {values}>1&{text}2&{name}3")
        if array == "SPACES":
            space = "\t\n\f\r "[int(text)]
            for front in ("<colgroup>", "", "<tbody>"):
                pages.add(f"{array}: {text}", f"<!doctype html><table>{front}{space}1{space}2{space}<td>3")
            for front in ("<frameset>", "<frameset></frameset>", "<frameset></frameset></html>"):
                pages.add(f"{array}: {text}", f"<!doctype html>{front}{space}1{space}2{space}<!--3-->")


# Where an element of each category stands in a calm page: explicit markup that tree construction leaves as it is.
CALM = {
    "html": "",
    "head": "",
    "body": "",
    "li": "<ul><li>x</li></ul>",
    "dd": "<dl><dd>x</dd></dl>",
    "dt": "<dl><dt>x</dt></dl>",
    "rp": "<ruby><rp>x</rp></ruby>",
    "rt": "<ruby><rt>x</rt></ruby>",
    "caption": "<table><caption>x</caption></table>",
    "colgroup": "<table><colgroup></colgroup></table>",
    "col": "<table><colgroup><col></colgroup></table>",
    "tr": "<table><tbody><tr></tr></tbody></table>",
    "td": "<table><tbody><tr><td>x</td></tr></tbody></table>",
    "th": "<table><tbody><tr><th>x</th></tr></tbody></table>",
    "table": "<table></table>",
    **{name: f"<table><{name}></{name}></table>" for name in ("tbody", "tfoot", "thead")},
    **{name: f"<{name}>" for name in "area br embed hr img input source track wbr".split()},
    **{name: f"<{name}><li>x</li></{name}>" for name in "dir menu ol ul".split()},
}
IN_HEAD = {"base": "<base>", "link": "<link>", "meta": "<meta>", **{name: f"<{name}>x</{name}>" for name in ("script", "style", "title")}}


def calm_rows(entries):
    """Each name of a calm page, which is read by the reader of explicit markup, and written as it was."""
    for array, text in entries:
        if array != "calm":
            continue
        head, body = IN_HEAD.get(text, ""), "" if text in IN_HEAD else CALM.get(text, f"<{text}>x</{text}>")
        page = f"<!DOCTYPE html><html><head>{head}</head><body>{body}</body></html>"
        row = {"entry": f"calm: {text}", "args": ["--jsonl", "--document"]}
        yield {**row, "markup": written({"html": page}), "output": written({"document": page})}


# Explicit markup that tree construction changes: an element of the first in one of the second, so that neither makes a page calm.
NOT_CALM = {
    "p": "p h1 pre ul table form",
    "a": "a",
    "button": "button",
    "form": "form",
    "h1": "h1 h6",
    "ul": "p",
    "li": "li",
    "dd": "dd dt",
    "dl": "p",
    "table": "p tr td table",
    "tbody": "td p tbody",
    "tr": "tr p tbody",
    "td": "td tr",
    "caption": "caption td",
    "colgroup": "p colgroup",
    "body": "body head html col frame",
    "head": "p head body",
    "title": "b",
    "option": "option optgroup",
    "nobr": "nobr",
    "ruby": "rb rtc",
    "rp": "rt",
    "rt": "rp rt",
    "span": "rt",
    "select": "select",
}


def not_calm_rows():
    """Pages of explicit markup that aren't calm, and are read by tree construction."""
    pages, inner = Pages(), {"tr": "<tbody><tr>", "td": "<tbody><tr><td>", "li": "<li>", "dd": "<dd>", "dt": "<dt>"}
    around = {"li": "ul", "dd": "dl", "tbody": "table", "caption": "table", "colgroup": "table", "option": "select", "rp": "ruby", "rt": "ruby", "span": "ruby"}
    for outer, names in NOT_CALM.items():
        for name in names.split():
            body = f"<{outer}>1<{name}>2</{name}>3</{outer}>4"
            if outer in around:
                body = f"<{around[outer]}>{body}</{around[outer]}>"
            if outer in ("tr", "td"):
                body = f"<table>{inner[outer]}5<{name}>2</{name}>3</{outer}></tbody></table>4"
            pages.add(f"calm: {outer}, not with {name} in it", f"<!DOCTYPE html><html><head></head><body>{body}</body></html>")
    pages.add("calm: pre, not with a line feed first", "<!DOCTYPE html><html><head></head><body><pre>\n1</pre></body></html>")
    for name in ("x-y", "math", "svg", "desc", "nobr", "select", "template", "frame"):
        pages.add(f"calm: not with {name}", f"<!DOCTYPE html><html><head></head><body><p>1</p><{name}>2</{name}>3</body></html>")
    pages.add("calm: not with a null", "<!DOCTYPE html><html><head></head><body>1\0<p>2\0</p></body></html>")
    pages.add("calm: not with a carriage return", "<!DOCTYPE html><html><head></head><body>1\r\n<p>2\r</p></body></html>")
    for entry, text, _, _, _, _, html in pages.answers():
        row = {"entry": entry, "args": ["--jsonl", "--document"], "markup": written({"html": text})}
        yield {**row, "output": written({"document": html})}


def written(value):
    """A line of JSON as hq writes it."""
    return json.dumps(value, ensure_ascii=False, separators=(",", ":")) + "\n"


def address_rows(entries):
    """Each attribute that --base makes whole, and others that it doesn't."""
    names = [text for array, text in entries if array == "--base ADDRESSES"]
    for name in [*names, "srcset", "alt", "ping", "data-href", "hrefx"]:
        value = "https://a.example/b/d" if name in names else "d"
        output = f'<html><head></head><body><p {name}="{value}"></p></body></html>\n'
        row = {"entry": f"--base ADDRESSES: {name}", "args": ["-d", "-b", "https://a.example/b/c"]}
        yield {**row, "markup": f"<p {name}=d>", "output": output}


# Elements that have no end tag, of those that a policy may allow.
VOID = "area br col hr img input source track wbr".split()


def cleaned(args, markup, output):
    """A row of --sanitize that prints what is in the body, on one line."""
    return {"args": ["--sanitize", *args, "--inner", "body"], "markup": markup, "output": f"{output}\n"}


def placed(name, attributes=""):
    """An element of that name, which a policy may allow, where it may stand, with these attributes."""
    markup = CALM.get(name, f"<{name}>" if name in VOID else f"<{name}>x</{name}>")
    return markup.replace(f"<{name}>", f"<{name}{attributes}>", 1)


def linked(markup):
    """The markup as the common rules leave it: links get a `rel`."""
    return re.sub(r"<(a|area)((?: [^>]*)?)>", r'<\1\2 rel="noopener noreferrer">', markup)


# For the lists of a preset its name, and the `rel` of its links.
PRESETS = {
    "INLINE": ("inline", "noopener noreferrer"),
    "COMMENT": ("comment", "nofollow noopener noreferrer"),
    "ARTICLE": ("article", "noopener noreferrer"),
    "EMAIL": ("email", "noopener noreferrer"),
}


def preset_rows(entries):
    """Each element and attribute that a preset of the crate dom_clean keeps, each scheme that they all allow, and what they don't keep."""
    lists = {array: {text for other, text in entries if other == array} for array in PRESETS}
    for array, text in entries:
        rows, owner = [], PRESETS.get(array.removesuffix("_OWN"))
        if owner:
            name, rel = owner
            element, _, attribute = text.partition(" ")
            address = "https://h/" if attribute in ("href", "cite") else "1"
            page = placed(element, f' {attribute}="{address}"' if attribute else "")
            kept = re.sub(r"<(a)((?: [^>]*)?)>", rf'<\1\2 rel="{rel}">', page)
            rows.append(cleaned(["--preset", name], page, kept))
            if attribute:
                rows.append(cleaned(["--preset", name], f'<em {attribute}="{address}">x', "<em>x</em>"))
            for other, names in lists.items():
                if not attribute and text not in names and text not in CALM:
                    rows.append(cleaned(["--preset", PRESETS[other][0]], f"1{placed(text)}2", "1x2"))
        if array == "EVERYWHERE":
            for name in ("inline", "article", "email"):
                rows.append(cleaned(["--preset", name], f'<em {text}="1" {text}x="2">3', f'<em {text}="1">3</em>'))
            for name in ("comment", "text"):
                rows.append(cleaned(["--preset", name], f'<b {text}="1">3', "<b>3</b>" if name == "comment" else "3"))
        if array == "SAFE_SCHEMES":
            for name, rel in PRESETS.values():
                row = f'<a href="{text}:x">1</a><a href="x-{text}:x">2</a>'
                rows.append(cleaned(["--preset", name], row, f'<a href="{text}:x" rel="{rel}">1</a><a rel="{rel}">2</a>'))
        yield from ({"entry": f"{array}: {text}", **row} for row in rows)


def cleaning_rows(entries):
    """Each element and attribute that the common rules of the crate dom_clean keep, each that may be allowed besides, each attribute
    that holds an address, and each scheme that an address may have."""
    common = [text for array, text in entries if array == "ELEMENTS"]
    for array, text in entries:
        rows = []
        if array == "ELEMENTS":
            rows.append(cleaned([], placed(text), linked(placed(text))))
        if array == "KEEPABLE":
            rows.append(cleaned(["--allow", text], placed(text), linked(placed(text))))
            if text not in common and text not in CALM:
                rows.append(cleaned([], f"<div>1{placed(text)}2", "<div>1x2</div>"))
        if array == "DROPPED":
            rows.append(cleaned([], f"<p>1<{text}>2</{text}>3", "<p>13</p>"))
        if array == "ATTRIBUTES":
            rows.append(cleaned([], f'<p {text}="1" {text}x="2" x{text}="3">4', f'<p {text}="1">4</p>'))
        if array == "OWN_ATTRIBUTES":
            element, name = text.split()
            page = placed(element, f' {name}="1"')
            rows.append(cleaned([] if element in common else ["--allow", element], page, linked(page)))
            rows.append(cleaned([], f'<em {name}="1">x', "<em>x</em>"))
        if array == "SCHEMES":
            for written, kept in ((text, text), (text.upper(), text.upper()), (f" {text[0]}&#9;{text[1:]}", f" {text[0]}\t{text[1:]}")):
                rows.append(cleaned([], f'<q cite="{written}:x">1', f'<q cite="{kept}:x">1</q>'))
            rows.append(cleaned([], f'<q cite="x-{text}:x">1</q><q cite="{text}-x:x">2', "<q>1</q><q>2</q>"))
        if array == "ADDRESS_NAMES":
            allow = ["--allow", f"[{text}]"]
            for address in ("javascript:x", " JavaScript:x", "java&#10;script:x", "data:,x", "vbscript:x"):
                rows.append(cleaned(allow, f'<em {text}="{address}">1', "<em>1</em>"))
            for address in ("x", "/x", "?x", "#x", "//x", "", "https://a.example/"):
                rows.append(cleaned(allow, f'<em {text}="{address}">1', f'<em {text}="{address}">1</em>'))
        if array == "is_refused_attribute":
            error = f"hq: --allow: attribute `{text}` can't be kept safely\n"
            rows.append({"args": ["--sanitize", "--allow", f"[{text}]", "p"], "error": error, "status": 2})
        if array == "may_lead":
            error = f"hq: /dev/stdin: schemes: scheme `{text}` can't be kept safely\n"
            row = {"args": ["--sanitize", "--policy", "/dev/stdin", "p", "examples/list.html"], "markup": f'schemes = ["{text}"]'}
            rows.append({**row, "error": error, "status": 2})
        yield from ({"entry": f"{array}: {text}", **row} for row in rows)


# For each option its arguments, the page, and what is printed. A short name is tried in place of the long one.
LINE = '{"html":"<p>1<p>2","x":1}\n'
OPTION_ROWS = {
    "html": (["--html", "p"], "<p>1<b>2", "<p>1<b>2</b></p>\n"),
    "inner": (["--inner", "p"], "<p>1<b>2", "1<b>2</b>\n"),
    "text": (["--text", "p"], "<p>1<b>2", "12\n"),
    "md": (["--md", "p"], "<p>1<b>2", "1**2**\n\n"),
    "attr": (["--attr", "a", "p"], "<p a=1><p b=2>", "1\n"),
    "count": (["--count", "p"], "<p a=1><p b=2>", "2\n"),
    "csv": (["--csv", "table"], "<table><td>1<td>2<tr><td>3", "1,2\n3,\n"),
    "document": (["--document"], "<!doctype html><p>1", "<!DOCTYPE html><html><head></head><body><p>1</p></body></html>\n"),
    "tree": (["--tree"], "<p>1", '| <html>\n|   <head>\n|   <body>\n|     <p>\n|       "1"\n'),
    "script": (["--script", "select p\ntext"], "<p>1<p>2", "12\n"),
    "json": (["--json", "--text", "p"], "<p>1<p>2", '"1"\n"2"\n'),
    "jsonl": (["--jsonl", "--count", "p"], LINE, '{"count":2,"x":1}\n'),
    "preset": (["--sanitize", "--preset", "inline", "--inner", "body"], "<p>1<b>2</b>", "1<b>2</b>\n"),
    "first": (["--first", "p"], "<p>1<p>2", "<p>1</p>\n"),
    "trim": (["--trim", "--text", "p"], "<p> 1\n 2 ", "1 2\n"),
    "null": (["--null", "p"], "<p>1<p>2", "<p>1</p>\0<p>2</p>\0"),
    "with-filename": (["--with-filename", "p"], "<p>1", "(standard input):<p>1</p>\n"),
    "color": (["--color", "always", "-H", "p"], "<p>1", "\x1b[35m(standard input)\x1b[0m:<p>1</p>\n"),
    "base": (["--base", "https://a.example/b/", "--attr", "href", "a"], "<a href=c>", "https://a.example/b/c\n"),
    "remove": (["--remove", "b", "-r", "i", "p"], "<p>1<b>2</b><i>3</i>4", "<p>14</p>\n"),
    "sanitize": (["--sanitize", "p"], "<p onclick=x>1<script>2</script>", "<p>1</p>\n"),
    "policy": (["--sanitize", "--policy", "/dev/stdin", "body > *", "examples/list.html"], 'elements = ["h1"]', "<h1>Reading list</h1>\n"),
    "allow": (["--sanitize", "--allow", "p[class]", "p"], "<p class=a id=b>1", '<p class="a">1</p>\n'),
    "deny": (["--sanitize", "--deny", "b", "p"], "<p>1<b>2</b>3", "<p>13</p>\n"),
    "explicit": (["--explicit", "p"], "<p>1<p>2</p></p>", "<p>1<p>2</p></p>\n<p>2</p>\n"),
    "context": (["--context", "tr", "td"], "<td>1", "<td>1</td>\n"),
    "scripting": (["--scripting", "--text", "noscript"], "<p><noscript><b>1", "<b>1\n"),
    "max-depth": (["--max-depth", "3", "-d"], "<p><b><i>", "<html><head></head><body><p></p><b></b><i></i></body></html>\n"),
    "line-buffered": (["--line-buffered", "p"], "<p>1", "<p>1</p>\n"),
}


def option_rows():
    """Each option, by its long and by its short name."""
    text = (ROOT / "crates" / "hq_pages" / "src" / "command.rt").read_text(encoding="utf-8")
    for name, short in source_tables.options(text):
        if name not in OPTION_ROWS:
            continue
        args, markup, output = OPTION_ROWS[name]
        yield {"entry": f"OPTIONS: {name}", "args": args, "markup": markup, "output": output}
        if short:
            args = [f"-{short}" if it == f"--{name}" else it for it in args]
            yield {"entry": f"OPTIONS: {name}", "args": args, "markup": markup, "output": output}


def conflict_rows(entries):
    """Two options of what is printed, which can't be given together."""
    shows = [text for array, text in entries if array == "SHOWS"]
    usage = (
        "\n\nUsage: hq [OPTIONS] SELECTOR [FILE ..]\n       hq [OPTIONS] --article | --document | --tree | --script LINES [FILE ..]\n"
        "       hq [OPTIONS] --jsonl | --warc SELECTOR [FILE ..]\n\nFor more information, try '--help'.\n"
    )
    values = {"attr": ["a"], "script": ["text"]}
    shown = {"attr": "--attr <NAME>", "md": "--md[=<WRITER>]", "script": "--script <LINES>"}
    for name in shows:
        other = "html" if name != "html" else "text"
        args = [f"--{name}", *values.get(name, []), f"--{other}", "p"]
        error = f"error: the argument '{shown.get(name, f'--{name}')}' cannot be used with '--{other}'{usage}"
        yield {"entry": f"SHOWS: {name}", "args": args, "error": error, "status": 2}


# For each hint a text that isn't a selector, and how many characters of it may begin one.
HINTED = {
    "::text": ("p > a::text", 5),
    "::attr(": ("a::attr(x)", 1),
    "::": ("a::x", 1),
    ":contains(": (":contains(x y)", 0),
    ":has-text(": (":has-text(x)", 0),
    "//": ("//a", 0),
    "|": ("svg|a", 3),
    ":hover": ("a:hover!", 7),
    ":visited": ("a:visited!", 9),
    ":focus": ("a:focus!", 7),
    ":first": ("a:first", 1),
    "[": ("a[", 1),
}


def hint_rows(entries):
    """Each mistake for which there is a hint."""
    text = (ROOT / "crates" / "hq_pages" / "src" / "hints.rt").read_text(encoding="utf-8")
    hints = {plain: hint for plain, hint in source_tables.pairs(text)}
    for array, part in entries:
        if array != "HINTS" or part not in HINTED:
            continue
        written, at = HINTED[part]
        fault = "unknown pseudo-class" if part == ":first" else "bad selector"
        error = f"hq: SELECTOR: {fault}\n  {written}\n{' ' * (at + 2)}^\nhint: {hints[part]}\n"
        yield {"entry": f"HINTS: {part}", "args": [written], "error": error, "status": 2}


MODES_OF_PEER = {"no-quirks": "NoQuirks", "limited-quirks": "LimitedQuirks", "quirks": "Quirks"}


def quirks_rows(entries):
    """The quirks mode for each identifier of a doctype, and for the doctypes of the rule of quirks: rows of the test program's part `calls`."""
    pages, rows = Pages(), {}
    quirks_pages(pages, entries, True)
    for page in rule_pages.RULES["quirks"]:
        if not isinstance(page, tuple):
            pages.add("rule quirks", page)
    for entry, text, _, _, _, mode, _ in pages.answers():
        row = rows.setdefault(entry, {"entry": entry, "args": [], "output": ""})
        row["args"].append(f"web-mode {text}")
        row["output"] += f"quirks_mode: {MODES_OF_PEER[mode]}\n"
    return rows.values()


def write(name, rows, program="hq"):
    """Writes a file of rows."""
    text = "".join(json.dumps(row, ensure_ascii=False) + "\n" for row in rows)
    (ROWS / program / f"tables_{name}.jsonl").write_text(text, encoding="utf-8")
    print(f"tables_{name}.jsonl: {text.count(chr(10))} rows, {len(text.encode())} bytes")


def peers_rows(*makers):
    """The rows of pages that the makers ask for."""
    pages = Pages()
    for maker in makers:
        maker(pages)
    return pages.rows()


def main():
    entries = list(source_tables.text_entries())
    write("modes", peers_rows(mode_pages))
    write("names", peers_rows(question_pages))
    write("fragments", peers_rows(fragment_pages))
    makers = (quirks_pages, adjusting_pages, reference_pages)
    write("texts", peers_rows(*(lambda pages, make=make: make(pages, entries) for make in makers)))
    write("characters", peers_rows(lambda pages: state_pages.mode_characters(pages, MODES)))
    write("states", peers_rows(state_pages.states))
    write("rules", peers_rows(rule_pages.rules))
    write("quirks", quirks_rows(entries), "test_calls/calls")
    made = [make(entries) for make in (calm_rows, address_rows, cleaning_rows, preset_rows, conflict_rows, hint_rows)]
    write("hq", [row for rows in [*made, option_rows(), not_calm_rows()] for row in rows])


if __name__ == "__main__":
    main()
