"""Compares what paths of mini selectors find in random forests with a meaning of its own.

The meaning is written from the definition alone (docs/RULES.md): the nodes that a path finds are those at the end of
a row of nodes that begins with the start, in which each stands to the one before as its combinator says and matches its mini
selector; in document order, each once. Where a selector may be the same text, what `DescendantMatches` selects below the
root is compared too, and below another start it must have all that the path finds.

A process is asked for many forests: each stands in an element `hr-f`, and paths start at the document, at such elements and
at nodes in them.

`paths.py [SEED [COUNT]]` compares so many forests, with the test program that programs.py built."""
import pathlib
import random
import subprocess
import sys
import time

sys.path.insert(0, str(pathlib.Path(__file__).resolve().parents[1] / "tools"))
from rows import SECONDS, started  # noqa: E402

TOGETHER = 100
PATHS = 3
SHOWN = 5

NAMES, WORDS = ["a", "b", "p"], ["x", "y"]
COMBINATORS = [" ", " ", " > ", " + ", " ~ "]


class Node:
    """A node of a document; `name` is None where it is no element."""

    def __init__(self, number, parent, name=None, marks=()):
        self.number, self.parent, self.name, self.marks, self.children = number, parent, name, dict(marks), []
        self.place = len(parent.children) if parent else 0
        if parent:
            parent.children.append(self)

    def below(self):
        for child in self.children:
            yield child
            yield from child.below()

    def later(self):
        return self.parent.children[self.place + 1 :] if self.parent else []


def related(node, combinator):
    """The elements that the combinator relates to the node."""
    if combinator == ">":
        found = node.children
    elif combinator == " ":
        found = node.below()
    else:
        found = [it for it in node.later() if it.name]
        found = found[:1] if combinator == "+" else found
    return [it for it in found if it.name]


def found(start, path):
    """The numbers of what the path finds from the start."""
    here = {start.number: start}
    for combinator, mini in path:
        nodes = (it for node in here.values() for it in related(node, combinator))
        here = {it.number: it for it in nodes if matches(mini, it)}
    return sorted(here)


def matches(mini, node):
    name, marks = mini
    return name in (None, node.name) and all(node.marks.get(key) == value for key, value in marks)


class Documents:
    """Random documents of forests, the texts of their markup, and paths."""

    def __init__(self, seed):
        self.random = random.Random(seed)

    def element(self, parent, nodes, texts, depth):
        name = self.random.choice(NAMES)
        marks = [(key, self.random.choice(WORDS)) for key in ("class", "id") if self.random.random() < 0.3]
        nodes.append(Node(len(nodes), parent, name, marks))
        texts.append(f"<{name}{''.join(f' {key}={value}' for key, value in marks)}>")
        self.forest(nodes[-1], nodes, texts, depth - 1)
        texts.append(f"</{name}>")

    def forest(self, parent, nodes, texts, depth):
        """A few nodes below the parent, no two of them texts side by side."""
        was_text = False
        for _ in range(self.random.choice([0, 1, 2, 3, 4]) if depth else 0):
            at = self.random.random()
            if at < 0.2 and not was_text or at < 0.25:
                is_text = not was_text
                nodes.append(Node(len(nodes), parent))
                texts.append("x" if is_text else "<!---->")
                was_text = is_text
            else:
                self.element(parent, nodes, texts, depth)
                was_text = False

    def document(self, count):
        """A document of so many forests: its nodes, the starts of paths, and its text."""
        nodes, texts, starts = [Node(0, None)], [], []
        for _ in range(count):
            nodes.append(Node(len(nodes), nodes[0], "hr-f"))
            first = len(nodes) - 1
            texts.append("<hr-f>")
            self.forest(nodes[-1], nodes, texts, 4)
            texts.append("</hr-f>")
            starts.append(range(first, len(nodes)))
        return nodes, starts, "".join(texts)

    def mini(self):
        name = self.random.choice([None, *NAMES, *NAMES])
        marks = [(key, self.random.choice(WORDS)) for key in ("id", "class") if self.random.random() < (0.15 if name else 0.5)]
        return (name, marks) if name or marks else ("a", [])

    def path(self):
        """A path, and its text."""
        steps = [(self.random.choice(COMBINATORS), self.mini()) for _ in range(self.random.choice([1, 2, 2, 3, 3, 4]))]
        spelled = lambda mini: (mini[0] or "") + "".join({"id": "#", "class": "."}[key] + value for key, value in mini[1])
        text = "".join(combinator + spelled(mini) for combinator, mini in steps)
        return [(combinator.strip() or " ", mini) for combinator, mini in steps], text.strip()


def asked(program, lines, markup):
    """What the program prints for each line, as lines."""
    ran = subprocess.run([*program, *lines], input=markup.encode(), capture_output=True, timeout=SECONDS)
    return ran.stdout.decode().splitlines() if ran.returncode == 0 else []


def numbers(said, call):
    """The numbers on each line of the call."""
    return [[int(word) for word in line.split()[1:]] for line in said if line.startswith(f"{call}:")]


class Counts:
    """How many comparisons were as wanted."""

    def __init__(self):
        self.passed = self.failed = 0

    def note(self, is_well, what):
        self.passed, self.failed = self.passed + is_well, self.failed + (not is_well)
        if not is_well and self.failed <= SHOWN:
            print(f"paths: {what[:1000]}")


def compare(program, documents, count, counts):
    """Compares paths in a document of so many forests."""
    nodes, starts, markup = documents.document(count)
    asks = [(start, *documents.path()) for numbers in starts for start in documents.random.choices(numbers, k=PATHS)]
    whole = [(0, *documents.path()) for _ in range(PATHS)]
    wanted = [found(nodes[start], path) for start, path, _ in asks + whole]
    got = numbers(asked(program, [f"find {start} {text}" for start, _, text in asks + whole], markup), "try_find_descendants")
    for (start, _, text), one, other in zip(asks + whole, wanted, [*got, *[None] * len(wanted)]):
        counts.note(one == other, f"{text!r} from {start}: wanted {one}, got {other}, in {markup!r}")
    selectors = [(text, one) for (_, path, text), one in zip(whole, wanted[len(asks) :]) if path[0][0] == " "]
    got = numbers(asked(program, [f"select {text}" for text, _ in selectors], markup), "DescendantMatches")
    for (text, one), other in zip(selectors, [*got, *[None] * len(selectors)]):
        counts.note(one == other, f"select {text!r}: wanted {one}, got {other}, in {markup!r}")
    inner = [(start, text, one) for (start, path, text), one in zip(asks, wanted) if path[0][0] == " "]
    lines = [f"select-below {start} {text}" for start, text, _ in inner]
    got = numbers(asked(program, lines, markup), "select_below_all")
    for (start, text, one), other in zip(inner, [*got, *[[]] * len(inner)]):
        is_one = not any(mark in text for mark in " >+~")
        is_well = one == other if is_one else set(one) <= set(other)
        counts.note(is_well, f"select {text!r} below {start}: the path finds {one}, it {other}, in {markup!r}")


def compared(program, seed, count):
    """Compares paths in so many forests, shows the first that differ, and returns how many were as wanted and how many weren't."""
    documents, counts, left = Documents(seed), Counts(), count
    while left > 0:
        compare(program, documents, min(TOGETHER, left), counts)
        left -= TOGETHER
    return counts.passed, counts.failed


def main():
    seed, count = (int(word) for word in (*sys.argv[1:], *["1", "2000"][len(sys.argv) - 1 :]))
    begun = time.monotonic()
    passed, failed = compared(started("queries"), seed, count)
    print(f"paths: seed {seed}, {count} forests, {passed} as wanted, {failed} not, {time.monotonic() - begun:.1f} s")
    return 1 if failed else 0


if __name__ == "__main__":
    sys.exit(main())
