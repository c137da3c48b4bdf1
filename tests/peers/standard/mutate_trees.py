"""mutate_trees.py LIMIT SOUPS [LIST]: leaves one thing out of docs/standard/tree_construction.txt at a time (a rule, an action, a condition of
a rule or of an action, a name of a pattern) and lists the changes that no text shows. The texts are the rows of tests/standard/trees
(rows.jsonl, changes.jsonl), html5lib's tests, the rows of `hq`, and so many random soups; of those that take a rule about LIMIT are tried.
With a file of such a list only its changes are tried again."""
import collections
import json
import pathlib
import random
import sys

ROOT = pathlib.Path(__file__).resolve().parents[3]
sys.dont_write_bytecode = True
sys.path.insert(0, str(ROOT / "tests" / "standard" / "trees"))
import changes  # noqa: E402
import choose_rows  # noqa: E402
import construction  # noqa: E402
import soups  # noqa: E402
from changes import tree  # noqa: E402

MODES = construction.MODES


def sample(rng, items, count):
    return items if len(items) <= count else rng.sample(items, count)


def main(limit, count, again=None):
    sys.setrecursionlimit(1500)
    rows = (ROOT / "tests" / "standard" / "trees" / "rows.jsonl").read_text(encoding="utf-8").splitlines()
    tests = [changes.of(row) for row in [*map(json.loads, rows), *changes.rows()]]
    tests += choose_rows.candidates(0)
    rng = random.Random(7 if again is None else 8)
    tests += [soups.test(rng) for _ in range(count)]
    takers, right = collections.defaultdict(list), {}
    for i, test in enumerate(tests):
        construction.TAKEN.clear()
        right[i] = tree(test)
        for key in construction.TAKEN:
            takers[key].append(i)
    rng, counts = random.Random(1), collections.Counter()
    for mode, rules in MODES.items():
        for index, r in enumerate(list(rules)):
            own = takers[mode, index]
            for what, new in changes.changes_of(r):
                line = f"{mode}: {r.line[:110]}: {what}"
                if again is not None and line not in again:
                    continue
                word = what.split()[-1].strip("'[](),")
                some = own[:8] + [i for i in own if word in tests[i][0]][:limit] + sample(rng, own, limit)
                if "without" in what or "condition" in what:  # texts that take a later rule of the mode, too
                    for later in range(index + 1, len(rules)):
                        some += sample(rng, takers[mode, later], limit // 4)
                shown = any(changes.changed_tree(tests[i], rules, index, new) != right[i] for i in some)
                counts["shown" if shown else "not shown"] += 1
                if not shown:
                    print(line, flush=True)
    print(dict(counts))


if __name__ == "__main__":
    main(int(sys.argv[1]), int(sys.argv[2]), *(set(pathlib.Path(file).read_text(encoding="utf-8").splitlines()) for file in sys.argv[3:]))
