"""The rows of `dq`, asked again through Python: each script is run by calls of the package, and what it prints is compared.

A line `formatted` has no call of the package: it formats the nodes themselves, and `formatted_text` what is below them."""

import json
import pathlib
import sys
import unittest

import dom_query
from dom_query import MarkupError

TESTS = pathlib.Path(__file__).resolve().parents[2] / "tests"
sys.path.insert(0, str(TESTS / "tools"))
from rows import given  # noqa: E402

ROWS = TESTS / "rows" / "dq"


class Unknown(Exception):
    """A line that the package has no call for."""


def first_of_each(nodes):
    return list(dict.fromkeys(nodes))


def in_order(document, nodes):
    place = {node: at for at, node in enumerate(document.root.descendants)}
    return sorted(set(nodes), key=place.__getitem__)


SELECTING = {
    "select": lambda document, nodes, word: document.select(word),
    "filter": lambda document, nodes, word: [node for node in nodes if node.matches(word)],
    "find": lambda document, nodes, word: in_order(document, [found for node in nodes for found in node.select(word)]),
    "children": lambda document, nodes, word: first_of_each(
        child for node in nodes for child in node.children if child.kind == "element"
    ),
    "first": lambda document, nodes, word: nodes[:1],
    "last": lambda document, nodes, word: nodes[-1:],
}
PRINTING = {
    "count": lambda document, nodes, word: str(len(nodes)),
    "text": lambda document, nodes, word: "".join(node.text for node in nodes),
    "html": lambda document, nodes, word: nodes[0].html if nodes else "",
    "inner-html": lambda document, nodes, word: nodes[0].inner_html if nodes else "",
    "attr": lambda document, nodes, word: nodes[0].get(word, "") if nodes else "",
    "document": lambda document, nodes, word: document.html,
}
EDITING = {
    "remove-attr": lambda node, word: node.attrs.pop(word, None),
    # (a script sets nothing where there is no text to set, and the package refuses it)
    "set-text": lambda node, word: node.set_text(word) if node.kind in {"element", "text"} else None,
    "set-html": lambda node, word: setattr(node, "inner_html", word),
    "append-html": lambda node, word: node.append_html(word),
    "prepend-html": lambda node, word: node.prepend_html(word),
    "before-html": lambda node, word: node.before_html(word),
    "after-html": lambda node, word: node.after_html(word),
    "remove": lambda node, word: node.remove(),
}


def run(markup, script):
    """What the script prints."""
    lines = [line.partition(" ") for line in script.split("\n") if line]
    if any(word not in {*SELECTING, *PRINTING, *EDITING} for word, _, _ in lines):
        raise Unknown
    document = dom_query.parse_strict(markup)
    nodes, printed = [document.root], []
    for word, _, argument in lines:
        if word in SELECTING:
            nodes = SELECTING[word](document, nodes, argument)
        elif word in PRINTING:
            printed.append(PRINTING[word](document, nodes, argument) + "\n")
        else:
            for node in nodes:
                EDITING[word](node, argument)
    return "".join(printed)


class Rows(unittest.TestCase):
    def test_rows(self):
        asked, skipped = 0, 0
        for path in sorted(ROWS.glob("*.jsonl")):
            for number, line in enumerate(path.read_text(encoding="utf-8").splitlines(), 1):
                case = json.loads(line)
                refused = case.get("error") == "dq: markup: refused\n"
                if "markup" not in case or (case.get("status", 0) != 0 and not refused):
                    skipped += 1
                    continue
                with self.subTest(row=f"{path.name}:{number}"):
                    markup, output = given(case, "markup"), given(case, "output").decode()
                    if refused:
                        with self.assertRaises(MarkupError):
                            dom_query.parse_strict(markup)
                    elif case.get("args") == ["--md"]:
                        self.assertEqual(dom_query.parse_strict(markup).md + "\n", output)
                    elif "script" not in case:
                        skipped += 1
                        continue
                    else:
                        try:
                            self.assertEqual(run(markup, given(case, "script").decode()), output)
                        except Unknown:
                            skipped += 1
                            continue
                asked += 1
        self.assertGreater(asked, skipped, f"{asked} rows were asked, {skipped} were not")


if __name__ == "__main__":
    unittest.main()
