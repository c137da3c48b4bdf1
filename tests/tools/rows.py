"""Reads the rows of tests/rows, and finds the programs that answer them. check.py describes the format of a row."""
import pathlib

ROOT = pathlib.Path(__file__).resolve().parents[2]
SECONDS = 60
# The parts of the test program, of which its first argument chooses one; the rows of each are a folder of its name.
PARTS = ("batch", "calls", "clean", "commonmark", "encodings", "queries", "times")
# The programs that programs.py built unproved; the gate proved and built the others. `check --quick` adds to these.
UNPROVED = {"print_examples", "test_calls"}


def built(name):
    """The program of that name."""
    return ROOT / "tests" / "programs" / "out" / name if name in UNPROVED else ROOT / "crates" / name / "out" / name


def started(name):
    """The words that start a program, or the part of that name of the test program."""
    return [built("test_calls"), name] if name in PARTS else [built(name)]


def folder_of(name):
    """The folder of the rows of a program, or of a part of the test program."""
    return ROOT / "tests" / "rows" / "test_calls" / name if name in PARTS else ROOT / "tests" / "rows" / name


def written(text):
    """The bytes of a text, or of a text in pieces."""
    pieces = [(text, 1)] if isinstance(text, str) else text
    return "".join("".join(piece.replace("{n}", str(n)) for n in range(times)) for piece, times in pieces).encode()


def given(case, name):
    """The bytes of a field that is a text, or hexadecimal digits."""
    if f"{name}_hex" in case:
        return bytes.fromhex(case[f"{name}_hex"])
    return written(case.get(name, ""))


def arguments(words):
    """The bytes of each argument; one with a number is repeated that many times."""
    repeated = [(word, 1) if isinstance(word, str) else word for word in words]
    return [word.encode() for word, times in repeated for _ in range(times)]


def words_of(case):
    """The arguments that the program is given in a row."""
    return arguments(case["args"]) if "args" in case else [given(case, "script")]
