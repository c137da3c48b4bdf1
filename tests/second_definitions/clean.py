"""Compares what the line `sanitize` of a script leaves of random forests with a clean of its own, byte for byte.

The clean is written from the definition alone (docs/SANITISING.md): of nodes side by side a text stays; a comment, a
doctype, a template and an element on the drop list vanish with all below; an allowed element stays, with its allowed
attributes, over the clean of its children; any other element becomes the clean of its children.

A process is asked for many forests, by one allow-list: they stand side by side in one document, each followed by the
element `hr`, which every list allows. The line is asked twice, and must leave the same.

`clean.py [SEED [COUNT]]` compares so many forests, with the program `dq` that was built in the workspace."""
import pathlib
import random
import subprocess
import sys
import time

PROGRAM = pathlib.Path(__file__).resolve().parents[2] / "crates" / "dq" / "out" / "dq"
TOGETHER = 200
SECONDS = 60
SHOWN = 5

VOID = ["br", "img"]
RAW = ["script", "style", "xmp"]
ESCAPABLE = ["title", "textarea"]
OTHER = ["a", "b", "p", "div", "span", "html", "template", "svg", "svg:b", "b-c", "scripts", "bé"]
ELEMENTS = VOID + RAW + ESCAPABLE + OTHER
ATTRS = ["id", "class", "href", "title", "titles", "tit", "onclick", "xlink:href", "data-x"]
LETTERS = ["a", "b", " ", "\n", "é", "\u00a0", "&", "<", ">", '"', "'", ";", "amp;", "<b>", "</p>", "<!--", "-->", "]]>"]
PLAIN = ["a", " ", "é", "<b>", "&amp;", "</p>", "<!--", '"', "\u00a0"]


class Forests:
    """Random forests, and the texts of their markup. A node is a pair: of 'text', 'comment' or 'doctype' and a text, or of a
    name and a pair of attributes and children."""

    def __init__(self, seed):
        self.random = random.Random(seed)

    def letters(self, pieces):
        return "".join(self.random.choices(pieces, k=self.random.randint(1, 5)))

    def forest(self, depth, is_top):
        """A few nodes side by side, no two of them texts, which would be read as one."""
        nodes = []
        for _ in range(self.random.choice([0, 1, 1, 2, 3, 4] if depth else [0, 1, 1])):
            node = self.node(depth, is_top)
            if not (nodes and nodes[-1][0] == node[0] == "text"):
                nodes.append(node)
        return nodes

    def node(self, depth, is_top):
        at = self.random.random()
        if at < 0.3:
            return "text", self.letters(LETTERS)
        if at < 0.38:
            return "comment", self.letters(PLAIN).replace("-->", "")
        if at < 0.42 and is_top:
            return "doctype", self.random.choice(["html", "x"])
        name = self.random.choice(ELEMENTS)
        attrs = [(attr, self.letters(LETTERS)) for attr in self.random.sample(ATTRS, self.random.choice([0, 0, 1, 2, 4]))]
        if name in VOID:
            return name, (attrs, [])
        if name in RAW + ESCAPABLE:
            pieces = PLAIN if name in RAW else LETTERS
            return name, (attrs, [("text", self.letters(pieces))] if self.random.random() < 0.8 else [])
        return name, (attrs, self.forest(depth - 1, False) if depth else [])

    def mixed(self, name):
        return "".join(self.random.choice([letter, letter, letter.upper()]) if letter.isascii() else letter for letter in name)

    def spelled_text(self, text):
        spellings = {"&": ["&amp;", "&#38;"], "<": ["&lt;", "&#x3c;"], "\u00a0": ["&nbsp;", "\u00a0", "&#160;"]}
        return "".join(self.random.choice(spellings.get(letter, [letter])) for letter in text)

    def spelled_attr(self, name, value):
        quote = self.random.choice("\"'")
        escaped = self.spelled_text(value).replace(quote, "&quot;" if quote == '"' else "&#39;")
        equals = self.random.choice(["=", "=", " = "])
        return f"{self.random.choice([' ', '  '])}{self.mixed(name)}{equals}{quote}{escaped}{quote}"

    def spelled(self, nodes):
        """The markup of the nodes."""
        texts = []
        for kind, held in nodes:
            if kind == "text":
                texts.append(self.spelled_text(held))
            elif kind == "comment":
                texts.append(f"<!--{held}-->")
            elif kind == "doctype":
                texts.append(f"<!DOCTYPE {held}>")
            else:
                attrs, children = held
                head = self.mixed(kind) + "".join(self.spelled_attr(*attr) for attr in attrs)
                texts.append(f"<{head}{self.random.choice(['', '', ' '])}>")
                if kind in RAW:
                    texts += [text for _, text in children]
                elif kind not in VOID:
                    texts.append(self.spelled(children))
                if kind not in VOID:
                    texts.append(f"</{self.mixed(kind)}{self.random.choice(['', '', ' '])}>")
        return "".join(texts)

    def names(self, names):
        """Some of the names, now and then one twice or in upper case, and one space between."""
        chosen = self.random.sample(names, self.random.randint(0, len(names)))
        return [self.random.choice([name] * 9 + [name.upper()]) for name in chosen + chosen[: self.random.randint(0, 1)]]

    def lists(self):
        """Three lists of names: the elements and attributes that stay, and the elements that are dropped."""
        dropped = self.random.sample(ELEMENTS, self.random.choice([0, 1, 3]))
        return [*self.names(ELEMENTS), "hr"], self.names(ATTRS), dropped


def clean(nodes, elements, attrs, dropped):
    """What is left of nodes side by side."""
    left = []
    for kind, held in nodes:
        if kind == "text":
            left.append((kind, held))
        elif kind in ("comment", "doctype", "template") or kind in dropped:
            continue
        elif kind in elements:
            kept = [(name, value) for name, value in held[0] if name in attrs]
            left.append((kind, (kept, clean(held[1], elements, attrs, dropped))))
        else:
            left += clean(held[1], elements, attrs, dropped)
    return left


def escaped(text, letters):
    names = {"&": "&amp;", "\u00a0": "&nbsp;", "<": "&lt;", ">": "&gt;", '"': "&quot;"}
    return "".join(names[letter] if letter in letters else letter for letter in text)


def written(nodes, is_raw=False):
    """The HTML of nodes of which no comment, doctype or template is left."""
    texts = []
    for kind, held in nodes:
        if kind == "text":
            texts.append(held if is_raw else escaped(held, "&\u00a0<>"))
            continue
        head = "".join(f' {name}="{escaped(value, chr(34) + "&" + chr(160))}"' for name, value in held[0])
        texts.append(f"<{kind}{head}>")
        if kind not in VOID:
            texts.append(f"{written(held[1], kind in RAW)}</{kind}>")
    return "".join(texts)


def asked(program, lists, markup):
    """What the program leaves of the markup, and what it leaves of that."""
    line = "sanitize " + ";".join(" ".join(names) for names in lists)
    script = f"{line}\ndocument\n{line}\ndocument"
    ran = subprocess.run([program, script], input=markup.encode(), capture_output=True, timeout=SECONDS)
    if ran.returncode or ran.stderr:
        return None
    return ran.stdout.decode()


def compared(program, seed, count):
    """Compares so many forests, shows the first that differ, and returns how many were as wanted and how many weren't."""
    forests, passed, failed = Forests(seed), 0, 0
    while passed + failed < count:
        lists = forests.lists()
        some = [forests.forest(5, True) for _ in range(min(TOGETHER, count - passed - failed))]
        texts = [forests.spelled(nodes) for nodes in some]
        wanted = [written(clean(nodes, *lists)) for nodes in some]
        once = "".join(f"{text}<hr>" for text in wanted) + "\n"
        got = asked(program, lists, "".join(f"{text}<hr>" for text in texts))
        if got == once + once:
            passed += len(some)
            continue
        for text, one in zip(texts, wanted):
            alone = asked(program, lists, f"{text}<hr>")
            if alone == f"{one}<hr>\n" * 2:
                passed += 1
            else:
                failed += 1
                if failed <= SHOWN:
                    print(f"clean: {lists} of {text!r}: wanted {one!r}, got {alone!r}")
    return passed, failed


def main():
    seed, count = (int(word) for word in (*sys.argv[1:], *["1", "2000"][len(sys.argv) - 1 :]))
    begun = time.monotonic()
    passed, failed = compared(PROGRAM, seed, count)
    print(f"clean: seed {seed}, {passed} forests as wanted, {failed} not, {time.monotonic() - begun:.1f} s")
    return 1 if failed else 0


if __name__ == "__main__":
    sys.exit(main())
