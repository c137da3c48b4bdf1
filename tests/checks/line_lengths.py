"""How long the lines of definitions and proofs are: at most 140 columns in specs/ and 300 in proofs/ of each crate.

tests/data/long_lines.txt has the crates with longer lines from before: how many such lines their definitions and proofs have. No crate
may have more than it says, and a crate that isn't in it none. `line_lengths.py --lower` writes into it what has become less;
`line_lengths.py` prints each line that is too long."""
import pathlib
import sys

ROOT = pathlib.Path(__file__).resolve().parents[2]
TABLE = ROOT / "tests" / "data" / "long_lines.txt"
MOST = {"specs": 140, "proofs": 300}


def long_lines(crate, part):
    """The lines of a crate that are too long: each with its file, its number and how many columns it has."""
    for file in sorted((crate / part).rglob("*.antt")):
        for number, line in enumerate(file.read_text(encoding="utf-8").splitlines(), 1):
            if len(line) > MOST[part]:
                yield file.relative_to(ROOT), number, len(line)


def counted():
    """How many lines of definitions and of proofs are too long, by the names of the crates that have any."""
    crates = sorted((ROOT / "crates").iterdir())
    counts = {crate.name: tuple(sum(1 for _ in long_lines(crate, part)) for part in MOST) for crate in crates}
    return {name: found for name, found in counts.items() if any(found)}


def allowed():
    """What the table says, in the same form."""
    lines = (line.split() for line in TABLE.read_text(encoding="utf-8").splitlines() if not line.startswith("#"))
    return {name: (int(specs), int(proofs)) for name, specs, proofs in lines}


def written(counts):
    """The text of the table."""
    head = f"# crate, lines of definitions over {MOST['specs']} columns, lines of proofs over {MOST['proofs']}; these numbers only go down\n"
    return head + "".join(f"{name} {specs} {proofs}\n" for name, (specs, proofs) in sorted(counts.items()))


def lower():
    """Writes what has become less into the table."""
    found, known = counted(), allowed()
    least = {name: tuple(map(min, known[name], found.get(name, (0, 0)))) for name in known}
    TABLE.write_text(written({name: it for name, it in least.items() if any(it)}), encoding="utf-8")


def line_lengths():
    """Returns how many crates have no more long lines than the table says, and how many have."""
    found, known = counted(), allowed()
    names = {crate.name for crate in (ROOT / "crates").iterdir()}
    more = [name for name in sorted(names) if any(a > b for a, b in zip(found.get(name, (0, 0)), known.get(name, (0, 0))))]
    for name in more:
        has, may = found[name], known.get(name, (0, 0))
        print(f"{name}: {has[0]} long lines in specs and {has[1]} in proofs, and {TABLE.relative_to(ROOT)} allows {may[0]} and {may[1]}")
    print(f"lengths of lines: {len(names) - len(more)} passed, {len(more)} failed")
    return len(names) - len(more), len(more)


def main():
    if sys.argv[1:] == ["--lower"]:
        lower()
        return 0
    for crate in sorted((ROOT / "crates").iterdir()):
        for part, most in MOST.items():
            for file, number, columns in long_lines(crate, part):
                print(f"{file}:{number}: {columns} columns, and {most} is the most")
    return 1 if line_lengths()[1] else 0


if __name__ == "__main__":
    sys.exit(main())
