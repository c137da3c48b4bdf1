"""Asks random selectors below random roots of random forests in each way: the tables of an index, and the choice between them
and asking, must select what asking each node does.

`ways.py [SEED [COUNT]]` tests so many, with the test program that programs.py built."""
import pathlib
import random
import subprocess
import sys
import time

sys.path.insert(0, str(pathlib.Path(__file__).resolve().parents[1] / "tools"))
from rows import SECONDS, started  # noqa: E402

STARTS = [("<div>", "div"), ("<p class=k>", "p"), ("<b>", "b"), ("<i id=x>", "i"), ("<x-y>", "x-y"), ("<template>", "template")]
LEAVES = ["t", " ", "<!--c-->", "<p></p>"]
COMPOUNDS = "* p div b i x-y X-Y .k #x b.k :not(p) :first-child :nth-of-type(2) :nth-last-child(2n) :empty :root".split()
COMPOUNDS += [":is(b, i)", ":not(:is(p b))", ":has(b)", "div:has(> p)", ":has(+ i)", ":has(~ b i)", ":is(:has(p), b ~ p)"]
COMBINATORS = [" ", " > ", " + ", " ~ "]
CALLS = ("select_below_all", "select_nodes", "TreeIndex::select")
SHOWN = 5


def markup(dice):
    """A few elements, texts and comments."""
    text, ends = [], []
    for _ in range(dice.randrange(24)):
        at = dice.randrange(4)
        if at == 0:
            text.append(dice.choice(LEAVES))
        elif at > 1:
            start, name = dice.choice(STARTS)
            text.append(start)
            ends.append(f"</{name}>")
        elif ends:
            text.append(ends.pop())
    return "".join([*text, *reversed(ends)])


def selector(dice):
    """One selector or two, each of up to three compounds."""
    one = lambda: "".join(dice.choice(COMPOUNDS) + dice.choice(COMBINATORS) for _ in range(dice.randrange(3))) + dice.choice(COMPOUNDS)
    return ", ".join(one() for _ in range(dice.randint(1, 2)))


def selected(program, dice):
    """A case, and what each way selects there: nodes are cut out, and one of the roots may be a node that isn't there."""
    text, roots = markup(dice), ",".join(str(number) for number in (0, *dice.choices(range(16), k=dice.randrange(3))))
    cuts = [f"move remove_from_parent {dice.randrange(1, 12)}" for _ in range(dice.randrange(3))]
    words = [*cuts, f"select-below {roots} {selector(dice)}"]
    ran = subprocess.run([*program, *words], input=text, capture_output=True, text=True, timeout=SECONDS)
    said = [line.rpartition(":") for line in ran.stdout.splitlines()[len(cuts) :]]
    found = {call: numbers.split() for call, _, numbers in said}
    return f"{words} over {text!r}: {found}", [found.get(call) for call in CALLS]


def compared(program, seed, count):
    """Asks so many selectors, shows the first that differ, and returns how many were as wanted and how many weren't."""
    dice, passed, failed, matches = random.Random(seed), 0, 0, 0
    for _ in range(count):
        what, ways = selected(program, dice)
        is_well = None not in ways and ways[0] == ways[1] == ways[2]
        passed, failed, matches = passed + is_well, failed + (not is_well), matches + len(ways[0] or [])
        if not is_well and failed <= SHOWN:
            print(f"ways: {what[:1000]}")
    return passed, failed if 4 * matches > count else failed + 1


def main():
    seed, count = (int(word) for word in (*sys.argv[1:], *["1", "400"][len(sys.argv) - 1 :]))
    begun = time.monotonic()
    passed, failed = compared(started("queries"), seed, count)
    print(f"ways: seed {seed}, {count} selectors, {passed} as wanted, {failed} not, {time.monotonic() - begun:.1f} s")
    return 1 if failed else 0


if __name__ == "__main__":
    sys.exit(main())
