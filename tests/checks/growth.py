"""How the work of the program `hq` grows with its input. Each pattern below makes a page of any size: a front, a part that is
repeated (where `{i}` stands for the number of the repetition), and an end. It is read, and written by the words that the pattern
names. The cost of a page is the number of instructions that `hq` executes, where `perf stat` can count them; else it is the
processor time. The cost of a start without a page is subtracted.

A pattern of n, 2n and 4n repetitions has an exponent: 1 where the cost is in proportion to n, 2 where it grows with its square.

    growth.py HQ            prints the exponents of all patterns, and then those over STEEP
    growth.py HQ WORD..     the same of the patterns whose names have one of these words

Each page is also cleaned, and asked for its article, by a pattern of its own with ", cleaned" or ", its article" behind its name, and
cleaned as a fragment by the call `clean` of the library, in the program `test_calls`, by one with ", by the call clean".

GROWTH_N=n sets n, and GROWTH_BY=seconds measures by processor time in any case.

`growth()` is the part of it that runs in `check`: the processor time of each pattern, but for those in KNOWN, at four times a small
size must be less than MOST times that at the small size, in one of TRIES measurements."""
import functools
import math
import os
import pathlib
import re
import resource
import subprocess
import sys
import tempfile

# In the check, four times the input may cost so many times as much: 4 is linear, 16 is quadratic.
MOST = 10
# Seconds of processor time below which a time says nothing.
LITTLE = 0.04
# An exponent that docs/PERFORMANCE.md explains.
STEEP = 1.2
# The patterns that grow too fast for the check; docs/PERFORMANCE.md says why.
KNOWN = {"formatting: a over many span and div, closed", "formatting: three of each font, then each again"}

TEXT, HTML, MD, JSON, COUNT = ["--text"], ["--html"], ["--md"], ["--json"], ["--count"]
CLEAN = ["--sanitize", "--html"]
ARTICLE = ["--article", "--any"]
# The words of `test_calls`, which calls `clean`.
CALL = ["clean", "common"]
CALLS = pathlib.Path(__file__).resolve().parents[1] / "programs" / "out" / "test_calls"
PARAGRAPH = "<p>Tea, as it is grown here, is picked by hand, leaf by leaf, in the cool of the morning."
ALL, NONE = ["*"], ["nothing"]


def page(part, front="", back="", closing=""):
    """Makes a page of n parts."""

    def made(n):
        parts = "".join(part.replace("{i}", str(i)) for i in range(n)) if "{i}" in part else part * n
        ends = "".join(closing.replace("{i}", str(i)) for i in range(n)) if "{i}" in closing else closing * n
        return (front + parts + ends + back).encode()

    return made


# name: (page, words, least n)
PATTERNS = {
    # Insertion modes.
    "before html: comments": (page("<!--a-->"), COUNT + NONE),
    "before head: html tags with new attributes": (page("<html a{i}=1>"), COUNT + NONE),
    "before head: html tags with the same attribute": (page("<html a=1>"), COUNT + NONE),
    "in head: meta": (page("<meta a=b>", "<head>"), COUNT + NONE),
    "in head: titles": (page("<title>a</title>", "<head>"), COUNT + NONE),
    "in head: noscript": (page("<noscript><link></noscript>", "<head>"), COUNT + NONE),
    "after head: meta": (page("<meta>", "<head></head>"), COUNT + NONE),
    "in body: body tags with new attributes": (page("<body a{i}=1>"), COUNT + NONE),
    "in body: body tags with the same attribute": (page("<body a=1>"), COUNT + NONE),
    "in body: nested div": (page("<div>"), COUNT + NONE),
    "in body: nested div, closed": (page("<div>", closing="</div>"), COUNT + NONE),
    "in body: paragraphs": (page("<p>a"), COUNT + NONE),
    "in body: end tags of p": (page("</p>"), COUNT + NONE),
    "in body: end tags of br": (page("</br>"), COUNT + NONE),
    "in body: unknown end tags": (page("</x>"), COUNT + NONE),
    "in body: unknown end tags, deep": (page("<span>", closing="</x>"), COUNT + NONE),
    "in body: end tags of other elements, deep": (page("<x{i}>", closing="</y{i}>"), COUNT + NONE),
    "in body: headings in one another": (page("<h1><h2>"), COUNT + NONE),
    "in body: items": (page("<li>a"), COUNT + NONE),
    "in body: lists in items": (page("<ul><li>"), COUNT + NONE),
    "in body: dd and dt": (page("<dd>a<dt>b"), COUNT + NONE),
    "in body: items over spans": (page("<li><span>"), COUNT + NONE),
    "in body: buttons": (page("<button>"), COUNT + NONE),
    "in body: forms": (page("<form>"), COUNT + NONE),
    "in body: forms closed out of order": (page("<form><div></form>"), COUNT + NONE),
    "in body: options": (page("<option>a"), COUNT + NONE),
    "in body: ruby": (page("<ruby><rb>a<rt>b"), COUNT + NONE),
    "in body: void elements": (page("<br><img><hr>"), COUNT + NONE),
    "in body: pre and listing": (page("<pre>\n"), COUNT + NONE),
    "in body: marquee and object": (page("<object><marquee>"), COUNT + NONE),
    "in body: textarea": (page("<textarea>a</textarea>"), COUNT + NONE),
    "in body: frameset after body": (page("<frameset>", "<p>"), COUNT + NONE),
    "text: scripts": (page("<script>a</script>"), COUNT + NONE),
    "text: a script of less-than signs": (page("<", "<script>"), COUNT + NONE),
    "text: a script in comments": (page("<!--<script>", "<script>"), COUNT + NONE),
    "text: a title of references": (page("&amp;", "<title>"), COUNT + NONE),
    "in table: nested tables": (page("<table>"), COUNT + NONE),
    "in table: cells": (page("<td>a", "<table><tr>"), COUNT + NONE),
    "in table: rows": (page("<tr><td>a", "<table>"), COUNT + NONE),
    "in table: tables in cells": (page("<table><tr><td>"), COUNT + NONE),
    "in table: text before the table": (page("a<tr>", "<table>"), COUNT + NONE),
    "in table: elements before the table": (page("<b>a</b><tr>", "<table>"), COUNT + NONE),
    "in table: nested elements before the table": (page("<div>", "<table>"), COUNT + NONE),
    "in table: hidden inputs": (page("<input type=hidden>", "<table>"), COUNT + NONE),
    "in table: captions": (page("<caption>a", "<table>"), COUNT + NONE),
    "in table: groups of columns": (page("<colgroup><col>", "<table>"), COUNT + NONE),
    "in table: bodies": (page("<tbody><tr>", "<table>"), COUNT + NONE),
    "in table: end tags that close cells": (page("<table><tr><td></table>"), COUNT + NONE),
    "in a select: options": (page("<option>a", "<select>"), COUNT + NONE),
    "in a select: groups": (page("<optgroup><option>", "<select>"), COUNT + NONE),
    "in a select: selects": (page("<select>"), COUNT + NONE),
    "in a select: inputs": (page("<select><p><input>"), COUNT + NONE),
    "in a select: lines": (page("<optgroup><option><p><hr>", "<select>"), COUNT + NONE),
    "in a select: nested": (page("<div><option>", "<select>"), COUNT + NONE),
    "in template: nested": (page("<template>"), COUNT + NONE),
    "in template: nested with text": (page("<template>a"), COUNT + NONE),
    "in template: nested, closed": (page("<template>", closing="</template>"), COUNT + NONE),
    "in template: side by side": (page("<template>a</template>"), COUNT + NONE),
    "in template: rows": (page("<template><tr><td>"), COUNT + NONE),
    "in template: nested in tables": (page("<table><template>"), COUNT + NONE),
    "in template: written as HTML": (page("<template>a"), HTML + ["template"] + ["--first"]),
    "in frameset: frames": (page("<frame>", "<frameset>"), COUNT + NONE),
    "in frameset: nested": (page("<frameset>"), COUNT + NONE),
    "after body: comments": (page("<!--a-->", "<body></body>"), COUNT + NONE),
    "after body: text": (page("a</body>"), COUNT + NONE),
    # Formatting.
    "formatting: nested b": (page("<b>"), COUNT + NONE),
    "formatting: nested b, closed": (page("<b>", closing="</b>"), COUNT + NONE),
    "formatting: nested a": (page("<a>"), COUNT + NONE),
    "formatting: nobr": (page("<nobr>"), COUNT + NONE),
    "formatting: font with other attributes": (page("<font x={i}>"), COUNT + NONE),
    "formatting: font with other attributes, closed": (page("<font x={i}>", closing="</font>"), COUNT + NONE),
    "formatting: font, two attributes in any order": (page("<font x={i} y=1><font y=1 x={i}>"), COUNT + NONE),
    "formatting: font with other attributes, then a": (page("<font x={i}>", closing="<a></a>"), COUNT + NONE),
    "formatting: font with other attributes, then four b": (
        page("<font x={i}>", closing="<b><b><b><b></b></b></b></b>"),
        COUNT + NONE,
    ),
    "formatting: three of each font, then each again": (
        page("<font x={i}><font x={i}><font x={i}>", closing="<font x={i}>"),
        COUNT + NONE,
    ),
    "formatting: a over b and div": (page("<a><b><div></a>"), COUNT + NONE),
    "formatting: a over div": (page("<a><div>"), COUNT + NONE),
    "formatting: b over p, closed": (page("<b><p>", closing="</b>"), COUNT + NONE),
    "formatting: b with other attributes over div, closed": (page("<b x={i}><div>", closing="</b>"), COUNT + NONE),
    "formatting: a over many div, closed": (page("<div>", "<a>", closing="</a>"), COUNT + NONE),
    "formatting: a over many div, closed, with text": (page("<div>", "<a>", closing="</a>x"), COUNT + NONE),
    "formatting: a over many span and div, closed": (page("<span><div>", "<a>", closing="</a>"), COUNT + NONE),
    "formatting: i over b over p": (page("<i><b><p></i>"), COUNT + NONE),
    "formatting: b closed by p": (page("<p><b>"), COUNT + NONE),
    "formatting: i over spans and div": (page("<span>", "<i>", "<div></i>"), COUNT + NONE),
    "formatting: markers": (page("<td><b>", "<table><tr>"), COUNT + NONE),
    "formatting: objects with b": (page("<object><b>"), COUNT + NONE),
    # Foreign content.
    "foreign: nested svg": (page("<svg>"), COUNT + NONE),
    "foreign: nested g": (page("<g>", "<svg>"), COUNT + NONE),
    "foreign: nested g, closed": (page("<g>", "<svg>", closing="</g>"), COUNT + NONE),
    "foreign: other end tags": (page("<g>", "<svg>", closing="</x>"), COUNT + NONE),
    "foreign: math with mi": (page("<math><mi>"), COUNT + NONE),
    "foreign: svg in foreignObject": (page("<svg><foreignObject>"), COUNT + NONE),
    "foreign: left by b": (page("<svg><g><b>"), COUNT + NONE),
    "foreign: CDATA": (page("<![CDATA[a]]>", "<svg>"), COUNT + NONE),
    "foreign: attributes": (page("<a xlink:href=b viewbox=c />", "<svg>"), COUNT + NONE),
    # Tokens.
    "token: text": (page("a"), COUNT + NONE),
    "token: line feeds": (page("\r\n"), COUNT + NONE),
    "token: nulls": (page("\0"), COUNT + NONE),
    "token: less-than signs": (page("<"), COUNT + NONE),
    "token: open tags": (page("<a "), COUNT + NONE),
    "token: one long tag name": (page("a", "<"), COUNT + NONE),
    "token: one long attribute name": (page("a", "<p "), COUNT + NONE),
    "token: one long value": (page("a", "<p b='"), COUNT + NONE),
    "token: attributes of one tag": (page(" a{i}=b", "<p", ">"), COUNT + NONE),
    "token: the same attribute of one tag": (page(" a=b", "<p", ">"), COUNT + NONE),
    "token: attributes of one body tag after another": (page(" a{i}=b", "<body", "><body c d>"), COUNT + NONE),
    "token: attributes of two body tags": (page(" a{i}=b", "<body", ">", closing=""), COUNT + NONE),
    "token: one long comment": (page("-", "<!--"), COUNT + NONE),
    "token: comments": (page("<!---->"), COUNT + NONE),
    "token: bogus comments": (page("<?a>"), COUNT + NONE),
    "token: doctypes": (page("<!doctype a>"), COUNT + NONE),
    "token: one long doctype": (page("a", "<!doctype "), COUNT + NONE),
    "token: references": (page("&amp;"), COUNT + NONE),
    "token: unknown references": (page("&x;"), COUNT + NONE),
    "token: one long reference": (page("a", "&"), COUNT + NONE),
    "token: one long number": (page("1", "&#"), COUNT + NONE),
    "token: references in values": (page("&amp", "<p a='", "'>"), COUNT + NONE),
    "token: CDATA ends": (page("]]", "<svg><![CDATA["), COUNT + NONE),
    # Selectors.
    "selector: a b": (page("<b>"), COUNT + ["b b"]),
    "selector: a > b": (page("<b>"), COUNT + ["b > b"]),
    "selector: a ~ b": (page("<br>"), COUNT + ["br ~ br"]),
    "selector: a + b": (page("<br>"), COUNT + ["br + br"]),
    "selector: :has(b), nested": (page("<div>"), COUNT + ["div:has(x)"]),
    "selector: :has(~ b), side by side": (page("<br>"), COUNT + ["br:has(~ x)"]),
    "selector: :not, 64 deep": (page("<br>"), COUNT + [":not(" * 60 + "x" + ")" * 60]),
    "selector: :is, 64 deep": (page("<br>"), COUNT + [":is(" * 60 + "br" + ")" * 60]),
    "selector: many commas": (page("<br>"), COUNT + [",".join(f"x{i}" for i in range(60))]),
    "selector: many classes": (page("a{i} ", "<p class='", "'>" * 1), COUNT + [".a0.a1.a2.a3"]),
    "selector: :nth-child": (page("<br>"), COUNT + [":nth-child(2n+1)"]),
    "selector: :nth-last-of-type": (page("<br>"), COUNT + [":nth-last-of-type(3)"]),
    "selector: :empty": (page("<p>"), COUNT + [":empty"]),
    "selector: attribute": (page("<br a=b>"), COUNT + ["[a^=b]"]),
    "selector: a b c d, nested": (page("<div>"), COUNT + ["div div div div x"]),
    # Outputs.
    "output: HTML, nested": (page("<div>"), HTML + ["body"]),
    "output: HTML, references": (page("&lt;&amp;"), HTML + ["body"]),
    "output: HTML, side by side": (page("<p a=b>c"), HTML + ["body"]),
    "output: text, nested": (page("<div>a"), TEXT + ["body"]),
    "output: text, side by side": (page("<p>a"), TEXT + ["body"]),
    "output: JSON, side by side": (page("<p a=b>c"), JSON + ["p"]),
    "output: tree, side by side": (page("<p a=b>c"), ["--tree"]),
    "output: Markdown, paragraphs": (page("<p>a b"), MD + ["body"]),
    "output: Markdown, nested b": (page("<b>x"), MD + ["body"]),
    "output: Markdown, b over end tags of p": (page("<b></p>"), MD + ["body"]),
    "output: Markdown, b over end tags of p and text": (page("<b></p>", "", "x"), MD + ["body"]),
    "output: Markdown, nested b with text behind": (page("<b>x", closing="</b>y"), MD + ["body"]),
    "output: Markdown, nested b with spaces": (page("<b> x", closing="</b> y"), MD + ["body"]),
    "output: Markdown, nested b and i": (page("<b>x<i>y"), MD + ["body"]),
    "output: Markdown, b side by side": (page("<b>x</b>"), MD + ["body"]),
    "output: Markdown, items": (page("<li>a<b>c</b>", "<ul>"), MD + ["body"]),
    "output: Markdown, quotes side by side": (page("<blockquote>a</blockquote>"), MD + ["body"]),
    "output: Markdown, links": (page("<a href=b>c</a>"), MD + ["body"]),
    "output: Markdown, a table": (page("<tr><td>a<td>b", "<table>"), MD + ["body"]),
    "output: Markdown, code": (page("<code>`a</code>"), MD + ["body"]),
    "output: Markdown, marks": (page("*_`<"), MD + ["body"]),
    "output: Markdown, what may be addresses of mail": (page("&lt;1"), MD + ["body"]),
    "output: Markdown, text in a list": (page("a<br>", "<ul>"), MD + ["body"]),
    "output: Markdown, boxes of tasks": (page("<li><input type=checkbox>a", "<ul>"), MD + ["body"]),
    "output: Markdown, code with bars in cells": (page("<tr><td><code>\\|</code><td>a", "<table>"), MD + ["body"]),
    "article: nested": (page("<div>"), ARTICLE),
    "article: nested with text": (page("<div>a", closing="</div>b"), ARTICLE),
    "article: nested with paragraphs": (page(f"<div>{PARAGRAPH}", closing=f"</div>{PARAGRAPH}"), ARTICLE),
    "article: nested, all saying that they are the article": (page(f"<article>{PARAGRAPH}"), ARTICLE),
    "article: nested inline elements": (page("<b>a"), ARTICLE),
    "article: nested links": (page("<div><a href=b>c</a>"), ARTICLE),
    "article: nested lists": (page("<ul><li>a"), ARTICLE),
    "article: nested hidden elements": (page("<div hidden>a"), ARTICLE),
    "article: paragraphs": (page(PARAGRAPH), ARTICLE),
    "article: short paragraphs": (page("<p>a"), ARTICLE),
    "article: blocks of one kind": (page(f"<div class=a>{PARAGRAPH}</div>"), ARTICLE),
    "article: lists of links": (page("<ul><li><a href=b>c</a></ul>"), ARTICLE),
    "article: headings": (page("<h2>a</h2>"), ARTICLE),
    "article: first headings with a title": (page("<h1>a b</h1>", "<title>a b c</title>"), ARTICLE),
    "article: nested headings": (page("<h1><h2><h3>a", "<title>a b c</title>"), ARTICLE),
    "article: line breaks": (page("a<br>"), ARTICLE),
    "article: images": (page("<img src=a>"), ARTICLE),
    "article: a table": (page("<tr><td>a<td>b", "<table>"), ARTICLE),
    "article: one long class": (page("toc x", "<p class='", "'>a"), ARTICLE),
    "article: one long class of the looks of text": (page("text-center ", "<p class='", "'>a"), ARTICLE),
    "article: one long class of one word": (page("a", "<p class='", "'>a"), ARTICLE),
    "article: one long class with capitals": (page("aB", "<p class='", "'>a"), ARTICLE),
    "article: one long style": (page("d i s p l a y :", "<p style='", "'>a"), ARTICLE),
    "article: one long style of spaces": (page("d    ", "<p style='", "'>a"), ARTICLE),
    "article: classes": (page("<p class='share menu main'>a"), ARTICLE),
    "article: one long title": (page("a | ", "<title>", "</title><h1>a b</h1><p>a"), ARTICLE),
    "article: meta elements": (page("<meta name='author date og:title' content=a>"), ARTICLE),
    "article: one long name of a meta element": (page("author ", "<meta name='", "' content=a><p>a"), ARTICLE),
    "article: names of authors": (page("<p rel=author>a"), ARTICLE),
    "article: JSON-LD": (page('<script type="application/ld+json">{"@type":"a"}</script>'), ARTICLE),
    "article: one long JSON-LD": (page("[", '<script type="application/ld+json">', "</script><p>a"), ARTICLE),
    "output: sanitised, nested": (page("<x>"), CLEAN + ["body"]),
    "output: sanitised, scripts": (page("<script>a</script>"), CLEAN + ["body"]),
    "output: without what a selector matches": (page("<p><b>a</b>"), ["--remove", "b", "--html", "body"]),
}
# The pages, each once, with the first pattern that has it.
PAGES = {}
for name, (made, _) in PATTERNS.items():
    PAGES.setdefault(made(2), (name, made))
PAGES = dict(PAGES.values())
PATTERNS |= {
    f"{name}, by the writer of the crate": (made, ["--md=crate", *words[1:]])
    for name, (made, words) in PATTERNS.items()
    if words[:1] == MD
}
PATTERNS |= {f"{name}, cleaned": (made, CLEAN + ["body"]) for name, made in PAGES.items()}
PATTERNS |= {f"{name}, its article": (made, ARTICLE) for name, made in PAGES.items()}
PATTERNS |= {f"{name}, by the call clean": (made, CALL) for name, made in PAGES.items()}
# How often the part is repeated in the check, at first.
SMALL = 4000
# How often a pattern is measured before it counts as one that grows too fast.
TRIES = 3


def by_perf(program, words, given):
    """The instructions that the program executes, as `perf stat` counts them, or nothing where the machine doesn't."""
    with tempfile.NamedTemporaryFile("r") as out:
        counting = ["perf", "stat", "-x,", "-e", "instructions:u", "-o", out.name]
        try:
            subprocess.run([*counting, program, *words], stdin=given, stdout=subprocess.DEVNULL, stderr=subprocess.DEVNULL)
        except OSError:
            return None
        counts = [line.split(",")[0] for line in out if "instructions" in line]
    return int(counts[0]) if counts and counts[0].isdigit() else None


def by_valgrind(program, words, given):
    """The instructions that the program executes, as `valgrind` counts them, or nothing where there is none."""
    counting = ["valgrind", "--tool=callgrind", "--callgrind-out-file=/dev/null"]
    try:
        ran = subprocess.run([*counting, program, *words], stdin=given, stdout=subprocess.DEVNULL, stderr=subprocess.PIPE)
    except OSError:
        return None
    found = re.search(rb"Collected : ([0-9]+)", ran.stderr)
    return int(found[1]) if found else None


def seconds(program, words, given):
    """The processor time that the program takes."""
    before = resource.getrusage(resource.RUSAGE_CHILDREN)
    subprocess.run([program, *words], stdin=given, stdout=subprocess.DEVNULL, stderr=subprocess.DEVNULL)
    after = resource.getrusage(resource.RUSAGE_CHILDREN)
    return after.ru_utime - before.ru_utime + after.ru_stime - before.ru_stime


def cost(measure, program, words, markup):
    """What a page costs, to the program that the words are for."""
    if words[:1] == CALL[:1]:
        program = CALLS
    with tempfile.TemporaryFile() as given:
        given.write(markup)
        given.seek(0)
        return measure(program, words, given)


@functools.lru_cache(None)
def cost_of_start(measure, program, words):
    """What an empty page costs."""
    return cost(measure, program, list(words), b"")


def measure_for(program):
    """How the cost is measured: instructions where they can be counted, else seconds. GROWTH_BY=seconds chooses seconds."""
    if os.environ.get("GROWTH_BY") != "seconds":
        for measure in (by_perf, by_valgrind):
            with open(os.devnull) as nothing:
                if measure(program, COUNT + NONE, nothing):
                    return measure
    return seconds


def exponent(measure, program, name, n):
    """The exponent of a pattern from n repetitions to four times as many, and the costs."""
    made, words = PATTERNS[name]
    begun = cost_of_start(measure, program, tuple(words))
    costs = [max(cost(measure, program, words, made(n * times)) - begun, 1e-9) for times in (1, 2, 4)]
    return math.log(costs[2] / costs[0], 4), costs


def is_known(name):
    """Whether a pattern grows too fast for the check, in whatever way its page is read."""
    return any(name.startswith(known) for known in KNOWN)


def is_steep(program, name):
    """Whether a pattern grows too fast, by processor time, each time that it is measured."""
    made, words = PATTERNS[name]
    for _ in range(TRIES):
        small, large = (cost(seconds, program, words, made(SMALL * times)) for times in (1, 4))
        if large <= LITTLE or large <= MOST * max(small, LITTLE / 4):
            return False
    print(f"growth: {name}: four times the input costs {large / max(small, 1e-9):.1f} times as much")
    return True


def growth(program=None):
    """Passed and failed: each pattern at a small size and at four times that size."""
    if program is None:
        from rows import built

        program = built("hq")
    tried = [name for name in PATTERNS if not is_known(name)]
    steep = [name for name in tried if is_steep(program, name)]
    print(f"growth: {len(tried) - len(steep)} patterns passed, {len(steep)} failed")
    return len(tried) - len(steep), len(steep)


def main():
    program, words = os.path.abspath(sys.argv[1]), sys.argv[2:]
    measure = measure_for(program)
    n = int(os.environ.get("GROWTH_N", "10000" if measure is seconds else "1000"))
    print(f"{'seconds' if measure is seconds else 'instructions'} at {n}, {2 * n} and {4 * n} repetitions", flush=True)
    chosen = [name for name in PATTERNS if not words or any(word in name for word in words)]
    over = []
    for name in chosen:
        found, costs = exponent(measure, program, name, n)
        shown = " ".join(f"{it:8.3f}" if measure is seconds else f"{it:>14,}" for it in costs)
        print(f"{found:6.2f} {shown}  {name}", flush=True)
        if found > STEEP:
            over.append((found, name))
    print(f"{len(chosen)} patterns, {len(over)} with an exponent over {STEEP}:")
    for found, name in sorted(over, reverse=True):
        print(f"{found:6.2f} {name}")


if __name__ == "__main__":
    main()
