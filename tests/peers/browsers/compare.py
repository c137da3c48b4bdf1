"""Trees of pages by `hq --tree` beside those of Chromium and Firefox (ask.py says how they are asked), outside the gate.

    compare.py pages HQ COUNT SEED          random pages: tags in any order, attributes, texts, references
    compare.py selects HQ COUNT SEED        random pages with `select`, `option` and `optgroup`
    compare.py fragments HQ COUNT SEED      random fragments, by `innerHTML` in twelve contexts
    compare.py listed HQ FILE               the texts of a JSON list, or its [text, context or null]

What the browsers read alike must be what `hq` prints; a text that `hq` reads in another way is printed. Of the texts that the browsers read
in two ways it is counted with which of the two `hq` agrees: each of them departs from the Standard in places (docs/READING.md names
those that were found). A text that is read in three ways is printed, too."""
import collections
import json
import pathlib
import random
import sys
import tempfile

HERE = pathlib.Path(__file__).resolve().parent
sys.dont_write_bytecode = True
sys.path.insert(0, str(HERE.parent))
import ask  # noqa: E402
import trees  # noqa: E402

# Without what the browsers are known to read in two ways, in any page or in fragments (docs/READING.md).
TEXTS = [it for it in trees.TEXTS if it not in ("\0", "<?p>")]
NAMES = [it for it in trees.NAMES if it != "noscript"]
CONTEXTS = "body div select option optgroup table tr td template button p".split() + ["svg desc"]
SELECTS = "select select select option option optgroup hr input button datalist legend textarea p div b a table tr td template".split()
BATCH = 2000


def with_selects(rng, context=None):
    """A random page whose tags are mostly those of `select` and of what stands in it."""
    names = [*SELECTS, *rng.sample(NAMES, rng.choice([0, 2, 5, 20]))]
    return "".join(trees.random_parts(rng, names, TEXTS)), context


def random_page(rng):
    return "".join(trees.random_page(rng, [None], TEXTS)[0]), None


def random_fragment(rng):
    context = rng.choice(CONTEXTS)
    if rng.random() < 0.5:
        return with_selects(rng, context)
    return "".join(trees.random_parts(rng, rng.sample(NAMES, rng.choice([3, 6, 20])), TEXTS)), context


MAKERS = {"pages": random_page, "selects": with_selects, "fragments": random_fragment}


def show(program, case, wanted, room):
    """Prints a case, and where hq's tree differs from each of these."""
    ours = trees.by_hq(program, case[1], [case[0]], room)
    print(f"  {json.dumps(case)}", *(trees.shown(ours, it).replace("parse5", "wanted") for it in wanted), sep="\n", flush=True)


def compare(program, cases, counts, room):
    """Compares a list of cases, and prints those that both browsers read alike and `hq` otherwise."""
    chromium, firefox = ([tree for tree, _ in ask.ask(it, cases)] for it in ask.BROWSERS)
    unlike_one, unlike_other = (set(trees.unlike(program, cases, it, room)) for it in (chromium, firefox))
    counts["asked"] += len(cases)
    for at, case in enumerate(cases):
        if chromium[at] == firefox[at]:
            counts["alike"] += 1
            counts["alike, and hq differs"] += at in unlike_one
            if at in unlike_one:
                show(program, case, [chromium[at]], room)
            continue
        by = "as neither" if at in unlike_one & unlike_other else "as Firefox" if at in unlike_one else "as Chromium"
        counts[f"not alike, hq {by}"] += 1
        if by == "as neither":
            show(program, case, [chromium[at], firefox[at]], room)


def listed(file):
    return [(it, None) if isinstance(it, str) else tuple(it) for it in json.loads(pathlib.Path(file).read_text(encoding="utf-8"))]


def main(way, program, *more):
    rng = random.Random(int(more[1])) if way != "listed" else None
    cases = listed(more[0]) if way == "listed" else [MAKERS[way](rng) for _ in range(int(more[0]))]
    counts = collections.Counter()
    with tempfile.TemporaryDirectory() as room:
        for at in range(0, len(cases), BATCH):
            compare(program, cases[at : at + BATCH], counts, pathlib.Path(room))
    print(", ".join(ask.version(it) for it in ask.BROWSERS))
    print("; ".join(f"{name}: {count}" for name, count in sorted(counts.items())))
    return 1 if counts["alike, and hq differs"] else 0


if __name__ == "__main__":
    if len(sys.argv) < 4 or sys.argv[1] not in (*MAKERS, "listed"):
        sys.exit(__doc__)
    sys.exit(main(*sys.argv[1:]))
