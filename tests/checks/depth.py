"""Trees that are deep and trees that are wide. Each call is done by the part `times` of the test program on a stack of 256 KiB, over so many
elements nested in one another and over so many side by side, and over ten times as many: it ends, and the processor time of
the program grows no more than in proportion, with room for what a busy machine adds. `depth.py SMALL` prints the times of the
calls alone for SMALL elements and ten times as many, which must be at most MOST times as long, as docs/PERFORMANCE.md says."""
import pathlib
import resource
import subprocess
import sys

sys.path.insert(0, str(pathlib.Path(__file__).resolve().parents[1] / "tools"))
from rows import SECONDS, started  # noqa: E402

STACK = 256 * 1024
# Times as long for ten times as many. A check leaves room.
MOST = 12
IN_CHECK = 40
# Less than so many seconds say nothing.
LITTLE = 0.01

SHAPES = {
    "nested": lambda count: b"<b>" * count + b"x" + b"</b>" * count,
    "side by side": lambda count: b"<b>x</b>" * count,
}
CALLS = (
    "parse drop html text formatted md walk clone copy merge normalize strip sanitize validate index edits".split()
)
SELECTORS = (
    "b b",
    "b > b",
    "b + b",
    "b ~ b",
    ":has(b)",
    ":has(+ b)",
    ":has(~ b)",
    ":not(b b)",
    ":last-child",
    ":nth-child(2n+1)",
    ":nth-last-child(2n+1)",
    ":nth-of-type(3)",
    ":nth-last-of-type(3)",
    ":only-child",
    ":empty",
)
PATHS = ("b", "b b", "b > b", "b + b")


def time_of(call, selector, markup, runs=1):
    """The nanoseconds that a call took on a small stack, or what went wrong."""
    small = lambda: resource.setrlimit(resource.RLIMIT_STACK, (STACK, STACK))
    words = [*started("times"), call, str(runs), selector]
    try:
        ran = subprocess.run(words, input=markup, capture_output=True, timeout=SECONDS, preexec_fn=small)
    except subprocess.TimeoutExpired:
        return "no end in a minute"
    if ran.returncode:
        return f"status {ran.returncode}"
    return int(ran.stdout.split()[1])


def asked():
    """Each call, with its selector or path."""
    yield from ((call, "*") for call in CALLS)
    yield from ((call, selector) for call in ("select", "tables") for selector in SELECTORS)
    yield from (("find", path) for path in PATHS)


def times(small, runs):
    """For each shape and call: what it is, and the times of both sizes."""
    for shape, made in SHAPES.items():
        pages = made(small), made(10 * small)
        for call, selector in asked():
            name = call if selector == "*" else f"{call} {selector}"
            yield shape, name, *(time_of(call, selector, page, runs) for page in pages)


def seconds_of(call, selector, markup):
    """The processor time of a program that does the call, and what went wrong, or None."""
    begun = resource.getrusage(resource.RUSAGE_CHILDREN).ru_utime
    took = time_of(call, selector, markup)
    used = resource.getrusage(resource.RUSAGE_CHILDREN).ru_utime - begun
    return used, None if isinstance(took, int) else took


def depth():
    """Returns how many calls end and take time in proportion to the input, and how many don't."""
    passed = failed = 0
    for shape, made in SHAPES.items():
        pages = made(10_000), made(100_000)
        for call, selector in asked():
            (few, wrong), (many, later) = (seconds_of(call, selector, page) for page in pages)
            if not wrong and not later and many <= IN_CHECK * max(few, LITTLE):
                passed += 1
            else:
                failed += 1
                print(f"{call} {selector}, 10,000 and 100,000 elements {shape}: {few} and {many} s, {wrong or later}")
    print(f"deep and wide trees: {passed} passed, {failed} failed")
    return passed, failed


def table(small):
    """Prints the times in milliseconds, and how many times as long ten times as many take."""
    found = {}
    for shape, name, few, many in times(small, 3):
        found.setdefault(name, {})[shape] = few, many
        print(shape, name, few, many, file=sys.stderr, flush=True)
    print("| call | " + " | ".join(SHAPES) + " |\n|---|" + "---|" * len(SHAPES))
    for name, by_shape in found.items():
        cells = []
        for few, many in by_shape.values():
            if isinstance(few, int) and isinstance(many, int):
                mark = "" if many <= MOST * few else " !"
                cells.append(f"{few / 1e6:.1f}, {many / 1e6:.0f} ({many / max(few, 1):.1f}){mark}")
            else:
                cells.append(f"{few}, {many} !")
        print(f"| `{name}` | " + " | ".join(cells) + " |")


if __name__ == "__main__":
    table(int(sys.argv[1]))
