"""Pages written as Markdown by several programs and read back by cmark-gfm: does a reader see what the page says?

    commonmark.py COUNT PLACE .. [NAME=COMMAND ..]

A PLACE is a page, or a folder with pages. COUNT of them are taken, or all if COUNT is 0: as many of each folder in a PLACE as of the
others, evenly spread. A COMMAND reads a page in UTF-8 and writes Markdown; without one the test program writes CommonMark. For the
first command the script prints a line for each page that is read otherwise and in what, and at the end a table: of how many pages in
a hundred each kind of thing is the same, for each command. The environment's JOBS says how many pages are compared at once. So with
other programs beside it:

    commonmark.py 2000 /usr/share/doc "commonmark=hq --charset utf-8 --md html" "crate=hq --charset utf-8 --md=crate html" \\
        "pandoc=pandoc -f html -t gfm --wrap=none --preserve-tabs" "html2text=/usr/bin/python3 -m html2text --body-width=0"

What is compared, of the page and of what is read (both parsed by html5-parser, without elements that a page doesn't show):
- text: the words in order. A word ends at white space, at the border of a block or a cell, and at a `br`. Words `[x]`, `[` and `]` are
  left out, here and in items, since cmark-gfm reads a box of a task as such only in the first list of a line that isn't in a quote
- headings: level and text of each, where it has text; headings in headings or in cells of tables of data are text
- links: for each address, the joined text of all links to it, outside of preformatted text; a link around blocks becomes one for each.
  Links in drawings (`xlink:href`) count, too. A link in a link is text. Of a link to an address of mail the text without that address, since GFM makes links of all of them
- images: the address of each, and its words, outside of preformatted text
- code: the text of each block of preformatted text, without a line feed at its end, where it isn't blank. A block in it begins and ends
  a line, and a tab is between the cells of a row
- languages: the language of each such block. On the page, it is that of a class `language-x`, `lang-x`, `highlight-source-x` or
  `highlight-x` of the element, of the first element in it or in that, or of the two elements around it
- items: depth and text of each item of a list, without the text of items in it, where there is some. What is in a list but in no item
  of it belongs to the item before it, or else to the item that the list is in
- cells: the text of each cell of a table of data, where it isn't blank: one with two rows and two columns at least, whose cells have no
  headings, preformatted texts or tables, and whose role is not presentation
Needs Debian's cmark-gfm and python3-html5-parser (run it with /usr/bin/python3), for the others pandoc and python3-html2text, and the
test program, which `tests/tools/programs.py test_calls` builds. Debian's packages python3.11-doc, postgresql-doc-15, git-doc, cmake-doc,
anarchism, sqlite3-doc and others have pages."""
import codecs
import collections
import os
import pathlib
import re
import shlex
import subprocess
import sys
import time
import urllib.parse
from concurrent.futures import ProcessPoolExecutor

import html5_parser

PROGRAM = pathlib.Path(__file__).resolve().parents[2] / "programs" / "out" / "test_calls"
READER = "cmark-gfm --unsafe -e table -e strikethrough -e tasklist -e autolink".split()
HIDDEN = set(
    "script style template head title meta link base iframe noembed noframes audio video canvas datalist colgroup".split()
)
HEADINGS = {f"h{level}" for level in range(1, 7)}
CODE = {"pre", "listing", "xmp", "plaintext", "textarea"}
LISTS = {"ul", "ol", "menu", "dir"}
BLOCKS = HEADINGS | CODE | LISTS | set(
    "p div li table tr td th caption thead tbody tfoot dl dt dd blockquote hr html body section article main header footer nav aside"
    " address center details summary dialog fieldset legend figure figcaption form hgroup search noscript optgroup option frameset"
    " br".split()
)
LINES = {ord(c): None for c in "\n\r\t"}
KINDS = ("text", "headings", "links", "images", "code", "languages", "items", "cells")
BOXES = {"[x]", "[", "]"}
LANGUAGE = re.compile(r"(?:language-|lang-|highlight-source-|highlight-)([\w+.#-]+)", re.ASCII)
NO_LANGUAGE = {"default", "none", "notranslate", "text"}
BORDER, CELL = object(), object()


def tree_of(markup):
    tree = html5_parser.parse(markup, namespace_elements=False, maybe_xhtml=False)
    for it in list(tree.iter()):
        if not isinstance(it.tag, str) or it.tag in HIDDEN:
            lose(it)
    return tree


def lose(node):
    """Takes a node out, and keeps the text after it."""
    above, before = node.getparent(), node.getprevious()
    if above is None:
        return
    if node.tail and before is not None:
        before.tail = (before.tail or "") + node.tail
    elif node.tail:
        above.text = (above.text or "") + node.tail
    above.remove(node)


def pieces(node, gap):
    """The texts in a node, with `gap` at the borders of blocks."""
    yield gap if node.tag in BLOCKS else ""
    yield node.text or ""
    for below in node:
        yield from pieces(below, gap)
        yield below.tail or ""
    yield gap if node.tag in BLOCKS else ""


def words(node):
    return "".join("".join(pieces(node, "")).split())


def is_data(table):
    if table.get("role") in ("presentation", "none"):
        return False
    if any(it.tag in HEADINGS | CODE | {"table"} for it in table.iter() if it is not table):
        return False
    rows = [[cell for cell in row if cell.tag in ("td", "th")] for row in table.iter("tr")]
    rows = [row for row in rows if row]
    return len(rows) > 1 and max(sum(span(cell) for cell in row) for row in rows) > 1


def span(cell):
    word = cell.get("colspan", "").strip()
    return min(max(int(word), 1), 100) if word.isdigit() else 1


def address(text):
    """An address as a browser reads it; readers write some of its characters as %XX."""
    return urllib.parse.unquote("".join(text.strip().translate(LINES)))


def href(node):
    return node.get("href") or node.get("{http://www.w3.org/1999/xlink}href") or ""


def image_of(node):
    """The address and the words of an image; None without an address."""
    found = [node.get(name, "").strip() for name in ("src", "data-src")] + node.get("srcset", "").split()[:1]
    found = [it for it in found if it]
    return (address(found[0].rstrip(",") if not node.get("src") else found[0]), "".join(node.get("alt", "").split())) if found else None


def language_of(node):
    first = [it for it in node if it.tag != "br"][:1]
    around = list(node.iterancestors())[:2]
    for it in [node, *first, *[below for it in first for below in list(it)[:1]], *around]:
        for word in it.get("class", "").split():
            found = LANGUAGE.fullmatch(word)
            if found and found[1] not in NO_LANGUAGE:
                return found[1]
    return ""


def joined(texts):
    return "".join("".join(texts).split()).replace("[x]", "").replace("[]", "")


class Items:
    """The items of lists: the depth and the text of each."""

    def __init__(self, tree):
        self.all = []
        self.walk(tree, 0, [])
        self.found = [(depth, text) for depth, pieces in self.all if (text := joined(pieces))]

    def walk(self, node, depth, item):
        """Gives the texts in a node to an item, and to the items in it."""
        item.append(node.text or "")
        for it in node:
            self.give(it, depth, item)
            item.append(it.tail or "")

    def give(self, node, depth, item):
        """Gives the texts of a node that is in no list, or in a list but in no item of it."""
        if node.tag in LISTS:
            self.walk_list(node, depth + 1, item)
        elif node.tag in HEADINGS or node.tag in CODE or (node.tag == "table" and is_data(node)):
            item += node.itertext()
        else:
            self.walk(node, depth, item)

    def walk_list(self, node, depth, item):
        """Gives the texts in a list to its items; those before the first to the item that the list is in. Returns the last item."""
        item.append(node.text or "")
        for it in node:
            if it.tag == "li":
                item = []
                self.all.append((depth, item))
                self.walk(it, depth, item)
            elif it.tag not in LISTS | CODE and any(below.tag == "li" for below in it):
                item = self.walk_list(it, depth, item)
            else:
                self.give(it, depth, item)
            item.append(it.tail or "")
        return item


class Seen:
    """What is seen on a page."""

    def __init__(self, tree):
        self.text = [it for it in "".join(pieces(tree, " ")).split() if it not in BOXES]
        self.headings, self.images, self.code, self.languages, self.cells = [], [], [], [], []
        self.by_address = collections.defaultdict(str)
        stack = [(tree, "")]
        while stack:
            node, inside = stack.pop()
            below = self.see(node, inside)
            stack += [(it, below) for it in reversed(node)]
        self.links = sorted(self.by_address.items())
        self.items = Items(tree).found

    def see(self, node, inside):
        """Notes what a node is. `inside` has letters: c in preformatted text, f in a heading or a cell, l in a link."""
        tag = node.tag
        if "c" in inside:
            return inside
        if tag == "img":
            self.images += [it for it in [image_of(node)] if it]
        elif tag == "a" and href(node).strip() and "l" not in inside:
            self.see_link(node)
            inside += "l"
        elif tag in CODE:
            self.see_code(node, inside)
            inside += "c"
        elif "f" in inside:
            return inside
        elif tag in HEADINGS:
            self.headings += [(tag, words(node))] if words(node) else []
            inside += "f"
        elif tag == "table" and is_data(node):
            self.cells += [words(it) for it in node.iter() if it.tag in ("td", "th") and words(it)]
            inside += "f"
        return inside

    def see_link(self, node):
        to = address(href(node))
        text = "".join(self.outside_of_code(node).split()).replace(to.removeprefix("mailto:") if to.startswith("mailto:") else " ", "")
        if text:
            self.by_address[to] += text

    def see_code(self, node, inside):
        text = self.lines(node)
        if text.strip() and "f" not in inside:
            self.code.append(text[:-1] if text.endswith("\n") else text)
            self.languages.append(language_of(node))

    def outside_of_code(self, node):
        text = node.text or ""
        for it in node:
            text += ("" if it.tag in CODE else self.outside_of_code(it)) + (it.tail or "")
        return text

    def lines(self, node):
        made, parted = "", False
        for piece in line_pieces(node):
            in_line = made and not made.endswith("\n")
            if piece is BORDER:
                parted = True
            elif piece is CELL:
                made += "\t" if in_line and not parted else ""
            elif piece:
                made += "\n" + piece if in_line and parted else piece
                parted = False
        return made.replace("\r\n", "\n").replace("\r", "\n")


def line_pieces(node):
    """The texts of preformatted text, with the borders of blocks and of cells in it."""
    yield node.text or ""
    for it in node:
        border = CELL if it.tag in ("td", "th") else BORDER if it.tag in BLOCKS - {"br"} else ""
        yield border
        yield from ["\n"] if it.tag == "br" else line_pieces(it)
        yield BORDER if border is BORDER else ""
        yield it.tail or ""


def difference(one, two, kind):
    """Where what is read first differs from the page, in that kind; None if it doesn't."""
    this, that = getattr(one, kind), getattr(two, kind)
    if this == that:
        return None
    at = next((i for i, (x, y) in enumerate(zip(this, that)) if x != y), min(len(this), len(that)))
    length = 8 if kind == "text" else 1
    return this[at : at + length], that[at : at + length]


def run(command, text):
    ran = subprocess.run(command, input=text.encode(), stdout=subprocess.PIPE, check=True, timeout=300)
    return ran.stdout.decode("utf-8", "replace")


def decoded(page):
    """The text of a page: by its byte order mark, as UTF-8 if it is that, or else in the encoding that it declares."""
    try:
        return page.decode("utf-8-sig")
    except UnicodeDecodeError:
        found = re.search(rb"charset\s*=\s*[\"']?([\w-]+)", page[:2048])
        label = found[1].decode() if found else "windows-1252"
    try:
        codecs.lookup(label)
    except LookupError:
        label = "windows-1252"
    return page.decode("windows-1252" if label.lower() in ("iso-8859-1", "latin1", "utf-8", "us-ascii") else label, "replace")


def compared(path, commands):
    """For each command the differences by kind, or the name of a fault, and the seconds that it took."""
    page = decoded(pathlib.Path(path).read_bytes())
    one, found = Seen(tree_of(page)), {}
    for name, command in commands.items():
        begun = time.monotonic()
        try:
            made = run(command, page)
            took = time.monotonic() - begun
            two = Seen(tree_of(run(READER, made)))
            found[name] = {kind: difference(one, two, kind) for kind in KINDS}, took
        except (subprocess.SubprocessError, ValueError) as fault:
            found[name] = type(fault).__name__, time.monotonic() - begun
    return path, found


def pages_of(places, count):
    """The pages in these places: as many of each folder as of the others, evenly spread."""
    groups = collections.defaultdict(list)
    for place in places:
        for path in sorted(place.rglob("*")) if place.is_dir() else [place]:
            if path.is_file() and not path.is_symlink() and (path == place or path.suffix in (".html", ".htm", ".xhtml")):
                groups[place, path.relative_to(place).parts[:1]].append(path)
    if not count:
        return [it for group in groups.values() for it in group]
    taken = []
    for left, group in zip(range(len(groups), 0, -1), sorted(groups.values(), key=len)):
        share = min(len(group), (count - len(taken)) // left)
        taken += [group[at * len(group) // share] for at in range(share)]
    return taken


def tell(path, found):
    """Prints in what the first command's text is read otherwise."""
    faults, _ = found
    if isinstance(faults, str):
        print(f"{path}: {faults}")
        return
    for kind, both in faults.items():
        if both:
            print(f"{path}: {kind}: {str(both[0])[:160]} is read as {str(both[1])[:160]}", flush=True)


def main(count, *words_given):
    commands = dict(it.split("=", 1) for it in words_given if "=" in it)
    commands = {name: shlex.split(command) for name, command in commands.items()} or {
        "commonmark": [str(PROGRAM), "commonmark", "page"]
    }
    places = [pathlib.Path(it) for it in words_given if "=" not in it]
    paths = pages_of(places, int(count))
    same, times, read = collections.Counter(), collections.Counter(), 0
    with ProcessPoolExecutor(int(os.environ.get("JOBS", "1"))) as pool:
        for path, found in pool.map(compared, paths, [commands] * len(paths), chunksize=4):
            read += 1
            tell(path, next(iter(found.values())))
            for name, (faults, took) in found.items():
                times[name] += took
                for kind in KINDS:
                    same[name, kind] += not isinstance(faults, str) and not faults[kind]
                same[name, "all"] += not isinstance(faults, str) and not any(faults.values())
    print(f"{read} pages. The same, of 100:")
    print("| |", " | ".join([*KINDS, "all", "seconds"]), "|")
    for name in commands:
        shares = [f"{100 * same[name, kind] / max(1, read):.1f}" for kind in (*KINDS, "all")]
        print(f"| {name} |", " | ".join([*shares, f"{times[name]:.0f}"]), "|")


if __name__ == "__main__":
    sys.setrecursionlimit(100_000)
    if len(sys.argv) < 3:
        sys.exit(__doc__)
    main(*sys.argv[1:])
