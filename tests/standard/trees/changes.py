"""Single changes of docs/standard/tree_construction.txt: a rule, an action, a condition or a name is left out. changes.jsonl has pages and
fragments that show such a change, with their trees; unseen_changes.txt lists the changes that no text shows, with the reason. Run as a
program it prints which changes of the list in a file no row of changes.jsonl shows: changes.py FILE."""
import json
import pathlib
import sys

import whole_parsing
from construction_rules import MODES

ROWS = pathlib.Path(__file__).resolve().parent / "changes.jsonl"


def changes_of(r):
    """What is changed, and the rule then; None where it is left out."""
    yield "left out", None
    for i, (a, when) in enumerate(r.actions):
        yield f"without the action {a}", r._replace(actions=r.actions[:i] + r.actions[i + 1 :])
        for j, c in enumerate(when):
            yield f"{a} without {c}", r._replace(actions=r.actions[:i] + [(a, when[:j] + when[j + 1 :])] + r.actions[i + 1 :])
        if len(a) > 1 and isinstance(a[1], list) and len(a[1]) > 1:
            for n in a[1]:
                yield f"{a[0]} without {n}", r._replace(actions=r.actions[:i] + [((a[0], [m for m in a[1] if m != n]), when)] + r.actions[i + 1 :])
    for j, c in enumerate(r.conditions):
        yield f"without the condition {c}", r._replace(conditions=r.conditions[:j] + r.conditions[j + 1 :])
    for i, p in enumerate(r.patterns):
        if len(r.patterns) > 1:
            yield f"not for {p}", r._replace(patterns=r.patterns[:i] + r.patterns[i + 1 :])
        if len(p) > 1 and len(p[1]) > 1:
            for n in p[1]:
                yield f"not for {p[0]} {n}", r._replace(patterns=r.patterns[:i] + [(p[0], [m for m in p[1] if m != n])] + r.patterns[i + 1 :])


def all_changes():
    """Each change by its name, with the rules of its mode, the place of its rule there, and the rule then. Two rules that begin alike may
    have changes of one name."""
    for mode, rules in MODES.items():
        for index, r in enumerate(list(rules)):
            for what, new in changes_of(r):
                yield f"{mode}: {r.line[:110]}: {what}", rules, index, new


def tree(test):
    try:
        return whole_parsing.by_rules(*test)
    except RecursionError:
        return "without an end"
    except Exception as fault:
        return repr(fault)


def changed_tree(test, rules, index, new):
    """The tree of a text by the rules with this change."""
    kept = rules[index]
    rules[index : index + 1] = [] if new is None else [new]
    found = tree(test)
    rules[index : index + (new is not None)] = [kept]
    return found


def of(row):
    return row["text"], row["context"], row["scripting"]


def rows():
    return [json.loads(line) for line in ROWS.read_text(encoding="utf-8").splitlines()]


def not_shown(found):
    """Of each row, the changes that it names and doesn't show."""
    named = {}
    for name, *change in all_changes():
        named.setdefault(name, []).append(change)
    for row in found:
        right = tree(of(row))
        yield [name for name in row["shows"] if all(changed_tree(of(row), *change) == right for change in named.get(name, []))]


if __name__ == "__main__":
    sys.setrecursionlimit(1500)
    listed = [line for line in pathlib.Path(sys.argv[1]).read_text(encoding="utf-8").splitlines() if line and not line.startswith("#")]
    texts = [(row, tree(of(row))) for row in rows()]
    for name, *change in all_changes():
        if name in listed and all(changed_tree(of(row), *change) == right for row, right in texts):
            print(name)
