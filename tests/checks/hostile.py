"""Hostile inputs. Of each text below, which together use every rule of its grammar, every prefix, every text with one byte
changed to each of CHANGED, and every text with a byte left out is read by `test_calls batch bulk` in one process, and the answer
is compared with that of the grammar in grammars.py: read, with the same result, or refused. A fault has a name that the
documents have, and a place inside the text.

Raw nodes: a tree of 7 nodes with each link changed to each other number, to none and to 99, and with two changes at random,
are a forest exactly where the definition in docs/RULES.md says so.

Pages: each of some texts in each beginning and with each character replaced, bytes that are no UTF-8, and random pages are one
page by each way of reading them."""
import pathlib
import random
import re
import subprocess
import sys

for folder in ("tools", "second_definitions"):
    sys.path.insert(0, str(pathlib.Path(__file__).resolve().parents[1] / folder))
import grammars  # noqa: E402
from rows import SECONDS, started  # noqa: E402

CHANGED = b"<>/\"'=&-!?#; \t\f\r\x00\x80\xff"
MARKUPS = (
    '<!doctype HTML><p CLASS="a&amp;b" id=\'x\' k = v>1 < 2 &gt;</p>',
    '<!DOCTYPE a PUBLIC "p" \'s\'><ul><li>&#39;&#x27;&nbsp;</li><BR/></ul>',
    "<template><u>a</u></template><!-- - -- >--><img src=a/b hidden>&quot",
    "<script>a<b</scriptx></SCRIPT ><textarea>&lt;</textarea>&#0;&#128;<",
    "<title>a&amp;</title ><div a a=2 b= '<>'><hr k=\"é\" /></div>\t&gt;",
    "<style></style><!doctype x SYSTEM 's' ><a-b _=1><i>&eacute;</i></a-b>",
)
SELECTORS = (
    "div#a.b > p:not(.c, [d=\"e\" i]) ~ li:nth-child(2n + 1)",
    "a:has(> b + c, ~ d) *:is(e f):where(g) , [h|=i]:root",
    "[a] , [b~='c\\'d' s][e|=f][g^=h][i$=j][k*=l]:empty :hover",
    "\\31 a#-b.\\.c:contains(\"d\\\n\"):has-text('') > --x:last-of-type",
    "p:nth-last-child(-n+3) + q:nth-of-type(odd):only-child:any-link",
    "é:not(:is(:where(:not(x)))) u:nth-last-of-type(EVEN) v:scope",
)
PATHS = (
    "div.a.b#c > p[d=\"e\"][f] + li ~ b",
    "span[title**\"Title\"] a [x = The Title] b",
    " > a#b.c [d] [e~='f'] , rest",
    "#a .b [c^=\"d\"] ~ e-f[g|=h i]",
    "a[b$='c']  +  d[e*=f]\t>\ng",
    "x[a][b]] y [c = 'd' ] z-1",
)
SCRIPTS = (
    "select p\nset-attr a b c\nadd-class x y\nhtml\n",
    "find p, b\n\nfilter #a\nappend-html <i>&amp;</i>\ndocument",
    "select #a\nparent\nchildren\nadd b\nancestors\ncount\ntext",
    "select p\nset-text \nrename q\nstrip b i\nnormalize\nformatted",
    "first\nselect p\nbefore-html <!--x-->\nunwrap\nnext\nprev\nlast\n",
    "remove-attr id\nselect p\nattr id\ninner-html\nreplace-html \nremove",
)
FAULTS = {
    "markup": "BadTag SlashOnOpen BadComment BadDeclaration Instruction Unclosed MismatchedEnd StrayEnd MisplacedDoctype",
    "selector": "UnknownPseudoClass Number NestedHas TooDeep Syntax",
    "path": "BadQuotedValue",
}


def variants(text):
    """Every prefix of the text, every text with one byte changed, and every one with a byte left out, as bytes."""
    whole = text.encode()
    found = {whole[:at] for at in range(len(whole) + 1)}
    for at in range(len(whole)):
        found.add(whole[:at] + whole[at + 1 :])
        found.update(whole[:at] + bytes([byte]) + whole[at + 1 :] for byte in CHANGED)
    return found


def asked(part, words, lines):
    """What a part of the test program answers after `bulk` to each line on standard input."""
    given = "".join(f"{line}\n" for line in lines).encode()
    ran = subprocess.run([*started(part), "bulk", *words], input=given, capture_output=True, timeout=SECONDS)
    answers = ran.stdout.decode(errors="replace").split("\n")[:-1]
    if ran.returncode or ran.stderr or len(answers) != len(lines):
        print(f"{part} bulk {words}: status {ran.returncode}, {len(answers)} answers to {len(lines)} lines, {ran.stderr[:300]}")
    return answers


def wanted_of(kind, data):
    """What the grammar says of an input: the whole answer, or None where it is a fault of some name."""
    try:
        text = data.decode()
    except UnicodeDecodeError:
        return "BadScript(0)" if kind == "script" else "BadMarkup"
    if kind == "script":
        bad = grammars.first_bad_line(text)
        return f"BadScript({bad})" if bad else "ends"
    try:
        return getattr(grammars, kind)(text)
    except grammars.Refused:
        return None


def is_right(kind, data, answer):
    """Whether an answer is that of the grammar, or a fault that may be, at a place inside the text."""
    wanted = wanted_of(kind, data)
    if wanted == "ends":
        return answer == "done" or re.fullmatch(r"Edit\(\d+, (NoChildrenHere|RootOrFragment|Cycle)\)", answer) is not None
    if wanted is not None:
        return answer == wanted
    name, _, place = answer.partition(" ")
    if name not in FAULTS[kind].split():
        return False
    return kind != "markup" or place.isdigit() and int(place) <= len(data)


def texts(kind, whole):
    """Has the program asked each variant of the texts; returns how many answers are right and how many aren't."""
    inputs = sorted(set().union(*(variants(text) for text in whole)))
    answers = asked("batch", ["inputs", kind], [data.hex() for data in inputs])
    wrong = [(data, answer) for data, answer in zip(inputs, answers) if not is_right(kind, data, answer)]
    for data, answer in wrong[:10]:
        print(f"hostile {kind}: {data!r}: {answer!r}, and the grammar says {wanted_of(kind, data)!r}")
    read = sum(answer.startswith(("read", "done", "Edit")) for answer in answers)
    failed = len(wrong) + len(inputs) - len(answers)
    print(f"hostile texts, {kind}: {len(inputs) - failed} passed, {failed} failed ({read} of them read)")
    return len(inputs) - failed, failed


# So many raw nodes are checked in a time that grows with their number alone.
MANY_NODES = 20_000
# A tree: what each node is, with its parent, the siblings before and after, and the first and last child. 0 holds 1, which
# holds 2, 3 and 4; 2 is a template with the contents 5, which holds 6.
TREE = (
    ("document", None, None, None, 1, 1),
    ("element", 0, None, None, 2, 4),
    (5, 1, None, 3, None, None),
    ("element", 1, 2, 4, None, None),
    ("element", 1, 3, None, None, None),
    ("fragment", None, None, None, 6, 6),
    ("element", 5, None, None, None, None),
)


def line_of(nodes, first):
    """The siblings from a first one on, or None where they come round or leave the tree."""
    found = []
    while first is not None:
        if first in found or first >= len(nodes):
            return None
        found.append(first)
        first = nodes[first][3]
    return found


def is_acyclic(children, contents):
    """Whether no node reaches itself by steps to a child or to template contents."""
    below = {number: set(children[number]) | ({contents[number]} - {None}) for number in children}
    left = set(below)
    while leaves := {number for number in left if not below[number] & left}:
        left -= leaves
    return not left


def links_of(count, children, runs):
    """The five links of each node of these lists."""
    links = {}
    for parent, line in [*children.items(), *((None, run) for run in runs)]:
        for before, number, after in zip([None, *line], line, [*line[1:], None]):
            own = children[number]
            links[number] = (parent, before, after, own[0] if own else None, own[-1] if own else None)
    return [links[number] for number in range(count)]


def is_forest(nodes):
    """Whether the links are those of a forest: lists are read off, all links are made of them again, and compared."""
    children = {number: line_of(nodes, node[4]) for number, node in enumerate(nodes)}
    runs = [line_of(nodes, number) for number, node in enumerate(nodes) if node[1] is None and node[2] is None]
    if None in children.values() or None in runs:
        return False
    if sorted(number for line in (*children.values(), *runs) for number in line) != list(range(len(nodes))):
        return False
    links = links_of(len(nodes), children, runs)
    kinds = [node[0] for node in nodes]
    contents = [kind if isinstance(kind, int) else None for kind in kinds]
    named = [number for number in contents if number is not None]
    return (
        all(links[number] == node[1:] for number, node in enumerate(nodes))
        and all([number] in runs for number, kind in enumerate(kinds) if number == 0 or kind in ("document", "fragment"))
        and all(kinds[number] != "text" or not children[number] for number in children)
        and all(0 < number < len(nodes) and kinds[number] == "fragment" for number in named)
        and len(named) == len(set(named))
        and is_acyclic(children, contents)
    )


def changed(nodes, number, link, value):
    """The nodes with one link changed; link 0 is the template contents, for an element."""
    node = list(nodes[number])
    node[link] = value if link or value is not None else "element"
    return nodes[:number] + (tuple(node),) + nodes[number + 1 :]


def random_forest(dice):
    """The nodes of a forest of 7: each goes after others of a list, or begins a run; a fragment may be contents."""
    kinds = ["document", *(dice.choice(["element", "element", "text", "fragment"]) for _ in range(6))]
    children, runs = {number: [] for number in range(7)}, [[0]]
    for number in range(1, 7):
        elements = [other for other in range(1, number) if kinds[other] == "element"]
        open_runs = [run for run in runs if kinds[run[0]] not in ("document", "fragment")]
        lists = [children[other] for other in (0, *elements)] + open_runs
        if kinds[number] == "fragment" or dice.random() < 0.2:
            runs.append([number])
            if kinds[number] == "fragment" and elements and dice.random() < 0.7:
                kinds[dice.choice(elements)] = number
        else:
            dice.choice(lists).append(number)
    return tuple((kind, *own) for kind, own in zip(kinds, links_of(7, children, runs)))


def changed_trees():
    """The tree itself, with each link changed to each other number, to none and to 99, and with two such changes; forests
    at random, and each with a change."""
    values = [*range(len(TREE)), None, 99]
    links = [(number, link) for number in range(len(TREE)) for link in range(6)]
    links = [(number, link) for number, link in links if link or TREE[number][0] not in ("document", "fragment")]
    ones = [(number, link, value) for number, link in links for value in values if TREE[number][link] != value]
    yield TREE
    for one in ones:
        yield changed(TREE, *one)
    dice = random.Random(7)
    for _ in range(10_000):
        first, second = dice.sample(ones, 2)
        yield changed(changed(TREE, *first), *second)
    for _ in range(1_000):
        forest = random_forest(dice)
        yield forest
        yield changed(forest, dice.randrange(7), dice.randint(1, 5), dice.choice(values))


def many_nodes():
    """Has a ring of MANY_NODES parents and so many nodes, each in the one before, asked; returns how many answers are right and wrong."""
    ring = [f"element {number % MANY_NODES + 1} - - - -" for number in range(1, MANY_NODES + 1)]
    nested = [f"element {number - 1} - - {number + 1} {number + 1}" for number in range(1, MANY_NODES)]
    lone, last = "document - - - - -", f"element {MANY_NODES - 1} - - - -"
    answers = asked("calls", ["raw"], [";".join([lone, *ring]), ";".join(["document - - - 1 1", *nested, last])])
    wanted = ["Cycle true", "forest true true"]
    if answers != wanted:
        print(f"many raw nodes: {answers}"[:300])
    return (len(wanted), 0) if answers == wanted else (0, len(wanted))


def raw_nodes():
    """Has `from_nodes` and `validate` asked; returns how many answers are right and how many aren't."""
    trees = list(dict.fromkeys(changed_trees()))
    spelled = [";".join(" ".join("-" if word is None else str(word) for word in node) for node in nodes) for nodes in trees]
    answers = asked("calls", ["raw"], spelled)
    good = passed = 0
    for nodes, answer in zip(trees, answers):
        is_good = is_forest(nodes)
        good += is_good
        is_same = answer == "forest true true" if is_good else not answer.startswith("forest") and answer.endswith(" true")
        passed += is_same
        if not is_same:
            print(f"raw nodes {nodes}: {answer!r}, and the definition says {is_good}")
    print(f"raw nodes: {passed} passed, {len(trees) - passed} failed ({good} of them a forest)")
    return passed, len(trees) - passed if good else len(trees)


# Texts of pages that go through every insertion mode; each character of them is replaced by each of PAGE_MARKS.
PAGES = (
    '<!DOCTYPE html PUBLIC "-//W3C//DTD HTML 4.01//EN" "strict.dtd"><!-- a --><html lang=en><head><title>A &amp; b</title><noscript>'
    "<link rel=x><style>a>b</style></noscript></head> <body class=c>Text &notin; &#x41;</body><!-- b --></html><!-- c --> x",
    "<table><caption>c<b>d</caption><colgroup><col span=2><tbody><tr><td>1<th>2<tr><td><table><tr><td>x</table>foster<i>ed</i>"
    "<select><option>o<tr><td>y</select></table>tail",
    "<html><head></head><frameset rows=*><frame src=a><frameset><frame></frameset><noframes><p>n</noframes></frameset> <!-- c -->"
    "</html><noframes>x</noframes>",
    "<template><tr><td>a<template><col></template></template><table><template><li>x</template><tr><template><caption>y<colgroup>",
    "<p><b class=x><i><u>1<p>2</b>3</i><a href=1>4<a href=2>5<div>6</a>7</div><nobr>8<nobr>9</p>",
    "<select><optgroup label=a><option>1<option>2<hr><optgroup><option>3<table><input><select>x</select></select><keygen><table><td>"
    "<select><caption>z</table><textarea>\n a</textarea>",
    "<svg viewbox='0 0 1 1' xlink:href=#a><foreignObject><p>x<math definitionurl=q><mi>y<mglyph></mglyph></mi><annotation-xml "
    "encoding=text/html><b>z</annotation-xml></math></foreignObject><![CDATA[a]]b]]><desc>d<title>t</svg><font color=r>",
    "<script><!--<script>x</script>--></script><style>a</sty</style><textarea></text</textarea><xmp><b></xmp><iframe><i></iframe>"
    "<title></titl</title><plaintext></plaintext>&amp;",
    "<!--><!---><!-- a--b --!><!x><?pi ?></ x><//><!DOCTYPE><!doctype a SYSTEM 'b'><a b=1 b=2 c='d' e=\"f\"g=h / i></a j=k/><=><a =x>"
    "<![CDATA[n]]>&#0;&#x80;&#xD800;&#1114112;&ampx;&copy",
    "<form><form><ul><li>a<li>b<ul><li>c</ul><dl><dt>d<dd>e</dl><h1>g<h2>h</h1></form><button>i<button>j</button><ruby>k<rb>l<rt>m"
    "</ruby><marquee>o</p></marquee><applet>p</applet><image><hr></br><pre>\n q</pre><body x=y><html z=w>",
)
PAGE_MARKS = ("", "<", ">", "&", "\0", "/", " ", "=", "\f", "\r", '"', "'", "-", "!")
# Bytes with a byte order mark, characters of each length, and what isn't UTF-8.
PAGE_BYTES = (
    b"",
    b"\xef\xbb\xbf<p>Mat\xc3\xa9",
    b"\xef\xbb\xbf\xef\xbb\xbf1",
    b"\xef\xbb",
    b"<p title='\xe2\x82\xac'>\xf0\x9d\x84\x9e</p>\xc3\xa9\xe2\x82\xac",
    b"a\xc3<b>\xe2\x82</b>\xf0\x9d\x84x\xff\xfe",
    b"\xe0\x80\x80\xed\xa0\x80\xf4\x90\x80\x80\xc0\xaf\xf8\x88",
    b"\x80\x80\x80\x80\xf0\x9d\x84",
)
# Random pages of explicit markup: so many, and what they are made of, by the element around.
RANDOM_PAGES = 4_000
NAMES = "p div span b a i font ul ol menu dl li dd h1 h2 pre form button table table td tr section label address nobr select ruby svg"
NAMES_IN = {name: "tr tr tr td" for name in ("tbody", "thead")} | {name: "li li li p" for name in ("ul", "ol", "menu")}
NAMES_IN |= {"table": "tbody tbody caption colgroup tr thead b", "tr": "td td th p", "dl": "dt dd dd div"}
LEAVES = ["t", "t", " ", "\n", "\nt", "a&amp;b", "a & b", "&lt;", "&nbsp;", "&eacute;", "&ltx", "a < b", "&#13;", "<!--c-->", "<!---->"]
LEAVES += ["<!--a--!>b-->", "<br>", "<hr>", "<img src=x>", "<input>", "<wbr/>", "<style>a>b</style>", "<script>a<b</script>"]
LEAVES += ["<title>t</title>"]
LEAVES_IN = {name: [" ", "\n", "<!--c-->", "t"] for name in ("table", "tbody", "thead", "tr")} | {"colgroup": ["<col>", " ", "<!--c-->", "t"]}
HEADS = ["", "<title>t&amp;</title> <meta charset=utf-8>", "\n<style>a&b</style><script>x<!--y</script>", "<base href=x><link rel=y><!--c-->"]
HEADS += ["<noscript>x</noscript>", "t"]


def random_page(dice):
    """A page whose elements nest, calm or not."""
    page, around = ["<!DOCTYPE html><html><head>", dice.choice(HEADS), "</head><body class=c>"], ["body"]
    for _ in range(dice.randrange(12)):
        kind = dice.randrange(4)
        if kind == 0:
            page.append(dice.choice(LEAVES_IN.get(around[-1], LEAVES)))
        elif kind > 1:
            around.append(dice.choice(NAMES_IN.get(around[-1], f"{NAMES} object template x-y").split()))
            page.append(f"<{around[-1]}>")
        elif len(around) > 1:
            page.append(f"</{around.pop()}>")
    return "".join([*page, *(f"</{name}>" for name in around[:0:-1]), "</body></html>"])


def page_inputs():
    """Every beginning of each text of PAGES, every text with one character replaced, bytes, and random pages."""
    for text in PAGES:
        for at in range(len(text)):
            yield text[:at].encode()
            yield from (f"{text[:at]}{mark}{text[at + 1 :]}".encode() for mark in PAGE_MARKS)
    yield from PAGE_BYTES
    dice = random.Random(7)
    yield from (random_page(dice).encode() for _ in range(RANDOM_PAGES))


def is_text(data):
    """Whether bytes are the text that they are read as: UTF-8 without a byte order mark, which is dropped of bytes alone."""
    try:
        return not data.decode().startswith("\ufeff")
    except UnicodeDecodeError:
        return False


def pages():
    """Has pages read whole, with their errors noted, in pieces of some sizes, and with a text after their bytes; returns how many are one page
    by each way, and how many aren't. Noting errors, tags are read character by character; so, and in pieces, calm pages are read
    by tree construction. In pieces of one byte none of the fast ways for runs, tags and references is taken."""
    inputs = list(dict.fromkeys(page_inputs()))
    whole = dict(zip(inputs, asked("batch", ["pages", "whole"], [data.hex() for data in inputs])))
    ended = dict(zip(PAGE_BYTES, asked("batch", ["pages", "whole"], [(data + "é".encode()).hex() for data in PAGE_BYTES])))
    passed = failed = 0
    ways = [("noted", [data for data in inputs if is_text(data)], whole), ("mixed", PAGE_BYTES, ended)]
    for way, given, wanted in [*ways, *((size, inputs, whole) for size in ("1", "2", "3", "4", "5", "64"))]:
        answers = asked("batch", ["pages", way], [data.hex() for data in given])
        wrong = [data for data, answer in zip(given, answers) if not answer.startswith("read ") or answer != wanted.get(data)]
        for data in wrong[:3]:
            print(f"hostile pages, {way}: {data!r} isn't the page that it is whole")
        lacking = len(wrong) + len(given) - len(answers)
        passed, failed = passed + len(given) - lacking, failed + lacking
    print(f"hostile pages, each way: {passed} passed, {failed} failed")
    return passed, failed if passed else failed + 1


def hostile():
    """Returns how many inputs are answered as they must be, and how many aren't."""
    counted = [texts("markup", MARKUPS), texts("selector", SELECTORS), texts("path", PATHS), texts("script", SCRIPTS)]
    counted += [raw_nodes(), many_nodes(), pages()]
    return tuple(sum(column) for column in zip(*counted))
