"""Random fragments of HTML written as CommonMark and read back by cmark-gfm: is their text read as it is?

    fragments.py COUNT [SEED]       prints the fragments that are read otherwise, and of how many each kind of thing is

The fragments nest blocks, lists, tables, code and marks in each other, and their texts have characters that mean something in Markdown
beside each other and beside letters, punctuation and spaces. A hundred stand in a page, with a heading before each. What is compared is
said in commonmark.py, by which they are compared. It needs what that script needs; PROGRAM names another command than the test
program's."""
import collections
import os
import random
import shlex
import sys
from concurrent.futures import ProcessPoolExecutor

import commonmark
from commonmark import KINDS, PROGRAM, READER, Seen, difference, run, tree_of

COMMAND = shlex.split(os.environ.get("PROGRAM", "")) or [str(PROGRAM), "commonmark", "page"]
MARKS = (
    "* ** _ __ ` `` [ ] ( ) ! &lt; &gt; &amp; # ## - -- --- + = === | || ~ ~~ \\ : . 1. 2) 10. ; / // ' \" &lt;b&gt; &lt;!--"
    " --&gt; ${x} ^ % @ , ? [x] &amp;amp; &amp;lt; &amp;#35; http://x.org/a_b www.x.org ftp://y.z :-- --: |---| ::: [^1] [a]: \\*"
    " \\| ![a](b) **a** *b* `c` &lt;!-- x --&gt; &lt;1@x.org&gt;"
).split(" ")
LETTERS = "a b tea Tea é 中文 1 2026 x_y word &nbsp; … “q” — ! ? . ,".split(" ")
SPACES = [" ", " ", " ", "", "", "", "\n", "  ", "\t"]
VOID = "<br>|<br><br>|<img src=i.png alt='*a*'>|<img src='a b.png' alt='[x'>|<input type=checkbox>|<wbr>".split("|")
INLINE = "b strong i em del s code tt samp a span sup sub kbd u small q".split()
BLOCKS = "p p p p div section blockquote ul ol ul ol pre table h1 h2 h3 h4 dl hr details figure center".split()
PER_PAGE = 100


class Maker:
    """Makes random fragments."""

    def __init__(self, seed):
        self.random = random.Random(seed)

    def pick(self, words):
        return self.random.choice(words)

    def text(self):
        made = ""
        for _ in range(self.random.randint(1, 5)):
            made += self.pick(MARKS if self.random.random() < 0.5 else LETTERS) + self.pick(SPACES)
        return made

    def inline(self, depth):
        kind = self.random.random()
        if depth <= 0 or kind < 0.45:
            return self.text()
        if kind < 0.50:
            return self.pick(VOID)
        tag = self.pick(INLINE)
        extra = self.pick([" href='/a_b*c'", " href='u (1)'", " href=x title='\"t\"'", ""]) if tag == "a" else ""
        return f"<{tag}{extra}>{self.inlines(depth - 1)}</{tag}>"

    def inlines(self, depth):
        return "".join(self.inline(depth) + self.pick(SPACES) for _ in range(self.random.randint(1, 3)))

    def content(self, depth):
        """What is in a block: blocks, or text, or both."""
        kind = self.random.random()
        if depth <= 0 or kind < 0.5:
            return self.inlines(2)
        made = "".join(self.block(depth - 1) for _ in range(self.random.randint(1, 3)))
        return made if kind < 0.8 else self.inlines(2) + made + self.inlines(1)

    def block(self, depth):
        tag = self.pick(BLOCKS)
        if tag == "hr":
            return "<hr>"
        if tag in ("ul", "ol"):
            start = self.pick(["", "", "", " start=3"]) if tag == "ol" else ""
            items = "".join(f"<li>{self.content(depth)}</li>\n" for _ in range(self.random.randint(1, 3)))
            return f"<{tag}{start}>{items}</{tag}>"
        if tag == "dl":
            return f"<dl><dt>{self.inlines(1)}</dt><dd>{self.content(depth)}</dd></dl>"
        if tag == "table":
            return self.table(depth)
        if tag == "pre":
            lines = "\n".join(self.text() for _ in range(self.random.randint(1, 3)))
            return self.pick([f"<pre>{lines}</pre>", f"<pre><code class=language-c>{lines}\n</code></pre>"])
        if tag == "p" or tag in commonmark.HEADINGS:
            return f"<{tag}>{self.inlines(3)}</{tag}>\n"
        return f"<{tag}>{self.content(depth)}</{tag}>"

    def table(self, depth):
        width, made = self.random.randint(1, 3), "<table>"
        for row in range(self.random.randint(1, 3)):
            cell = "th" if row == 0 and self.random.random() < 0.5 else "td"
            inside = [self.inlines(2) if self.random.random() < 0.9 else self.content(depth) for _ in range(width)]
            made += "<tr>" + "".join(f"<{cell}>{it}</{cell}>" for it in inside) + "</tr>"
        return made + "</table>"

    def fragment(self):
        return "".join(self.block(3) for _ in range(self.random.randint(1, 2)))


def faults_of(fragments):
    """The kinds of things that are read otherwise on a page of these fragments."""
    page = "".join(f"<h5>Fragment{at}</h5>{it}" for at, it in enumerate(fragments)) + "<h5>End</h5>"
    made = run(COMMAND, page)
    one, two = Seen(tree_of(page)), Seen(tree_of(run(READER, made)))
    return made, {kind: both for kind in KINDS if (both := difference(one, two, kind))}


def narrowed(fragments):
    """The fragments that are read otherwise, each alone or, where none is so alone, together."""
    made, faults = faults_of(fragments)
    if not faults:
        return []
    half = len(fragments) // 2
    found = narrowed(fragments[:half]) + narrowed(fragments[half:]) if half else []
    return found or [("".join(fragments), made, faults)]


def page_of(seed, count):
    """Compares so many fragments; returns those that are read otherwise."""
    maker = Maker(seed)
    return narrowed([maker.fragment() for _ in range(count)])


def main(words):
    count, seed = int(words[0]), int(words[1]) if len(words) > 1 else 1
    seeds = [seed * 1_000_000 + at for at in range((count + PER_PAGE - 1) // PER_PAGE)]
    wrong = collections.Counter()
    with ProcessPoolExecutor(int(os.environ.get("JOBS", "1"))) as pool:
        for found in pool.map(page_of, seeds, [PER_PAGE] * len(seeds)):
            for fragment, made, faults in found:
                for kind, both in faults.items():
                    wrong[kind] += 1
                    if wrong[kind] <= 5:
                        print(f"{kind}: {fragment!r}\n  written {made!r}\n  page {both[0]}\n  read {both[1]}", flush=True)
    print(f"{len(seeds) * PER_PAGE} fragments. Read otherwise: " + ", ".join(f"{kind} {wrong[kind]}" for kind in KINDS))
    return 1 if wrong["text"] else 0


if __name__ == "__main__":
    sys.setrecursionlimit(100_000)
    if len(sys.argv) < 2:
        sys.exit(__doc__)
    sys.exit(main(sys.argv[1:]))
