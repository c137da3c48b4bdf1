"""The whole of tree construction by docs/standard/tree_construction.txt: what is made of that text is what the crate standard_trees holds; the
rows of tests/standard/trees/rows.jsonl, whose trees browsers and parse5 gave, have these trees by the interpreter, and take every rule; so do
the pages and fragments of html5lib's tests, and random soups, whose trees parse5 gave; and the rows of changes.jsonl show what single changes of
the text do. `checked()` prints what failed, and returns how many of these passed and how many failed."""
import json
import pathlib
import random
import sys

ROOT = pathlib.Path(__file__).resolve().parents[2]
sys.dont_write_bytecode = True
sys.path.insert(0, str(ROOT / "tests" / "standard" / "trees"))
import changes  # noqa: E402
import construction  # noqa: E402
import definition  # noqa: E402
import soups  # noqa: E402
from whole_parsing import by_rules  # noqa: E402

ROWS = ROOT / "tests" / "standard" / "trees" / "rows.jsonl"
FRAGMENTS = ROOT / "tests" / "standard" / "trees" / "fragments.jsonl"
SOUPS = ROOT / "tests" / "standard" / "trees" / "soups.jsonl"
UNSEEN = ROOT / "tests" / "standard" / "trees" / "unseen_changes.txt"

# rules that no token comes to: in these modes such an element is always in table scope
NEVER_TAKEN = {
    ("in row", "</tbody tfoot thead> if not in table scope tr: ignore"),
    ("in cell", "<caption col colgroup tbody td tfoot th thead tr> if not in table scope td th: ignore"),
}  # fmt: skip


def made():
    """The files of the crate that are not what is made."""
    for path, text in definition.targets().items():
        same = definition.without_layout(path.read_text(encoding="utf-8")) == definition.without_layout(text)
        yield same, f"{path.relative_to(ROOT)} is not what tests/standard/trees/definition.py makes"


def rows():
    """The rows with the trees of others."""
    construction.TAKEN.clear()
    for number, line in enumerate(ROWS.read_text(encoding="utf-8").splitlines(), 1):
        row = json.loads(line)
        tree = by_rules(row["text"], row["context"], row["scripting"])[0]
        yield tree == row["tree"] and row["by"], f"tests/standard/trees/rows.jsonl, line {number}: the rules give\n{tree}"
    for number, line in enumerate(FRAGMENTS.read_text(encoding="utf-8").splitlines(), 1):
        row = json.loads(line)
        around = {key: row[key] for key in ("attrs", "in_form", "quirks")}
        tree = by_rules(row["text"], row["context"], False, **around)[0]
        yield tree == row["tree"], f"tests/standard/trees/fragments.jsonl, line {number}: the rules give\n{tree}"
    for mode, rules in construction.MODES.items():
        for i, rule in enumerate(rules):
            never = (mode, rule.line) in NEVER_TAKEN
            yield ((mode, i) in construction.TAKEN) != never, f'the rows do{"" if never else " not"} take this rule of "{mode}": {rule.line}'


def html5lib():
    """html5lib's tests."""
    for file in sorted((ROOT / "tests" / "html5lib").glob("*.jsonl")):
        for number, line in enumerate(file.read_text(encoding="utf-8").split("\n"), 1):
            row = json.loads(line) if line else {}
            if isinstance(row.get("markup"), str):
                args = row.get("args") or []
                context = args[args.index("--context") + 1] if "--context" in args else None
                tree = by_rules(row["markup"], context, "--scripting" in args)[0]
                same = tree.rstrip("\n") == row["output"].rstrip("\n")
                yield same, f"tests/html5lib/{file.name}, line {number}: the rules give\n{tree}"


def random_soups():
    """Random soups by their seeds."""
    for line in SOUPS.read_text(encoding="utf-8").splitlines():
        row = json.loads(line)
        tests = soups.seeded(row["seed"], row["count"], row.get("selects", False))
        yield soups.digest(tests) == row["digest"], f"the soups of seed {row['seed']} have other trees"


def single_changes():
    """The rows that show what a single change of the text does, and the names of those that no row shows."""
    found = changes.rows()
    for number, (row, hidden) in enumerate(zip(found, changes.not_shown(found)), 1):
        where = f"tests/standard/trees/changes.jsonl, line {number}"
        tree = by_rules(*changes.of(row))[0]
        yield tree == row["tree"], f"{where}: the rules give\n{tree}"
        yield row["shows"] and not hidden, f"{where}: it doesn't show {hidden or 'any change'}"
    names = {name for name, *_ in changes.all_changes()}
    for line in UNSEEN.read_text(encoding="utf-8").splitlines():
        if line and not line.startswith("#"):
            yield line in names, f"tests/standard/trees/unseen_changes.txt: no change of the text has this name: {line}"


def checked():
    results = [result for part in (made, rows, html5lib, random_soups, single_changes) for result in part()]
    failed = [fault for passed, fault in results if not passed]
    for fault in failed:
        print(f"tree construction: {fault}")
    print(f"tree construction by the HTML Standard: {len(results) - len(failed)} passed, {len(failed)} failed")
    return len(results) - len(failed), len(failed)


if __name__ == "__main__":
    sys.exit(1 if checked()[1] else 0)
