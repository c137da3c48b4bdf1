"""Files that `hq` reads as users of grep, jq and sed expect: names with line feeds and names that aren't UTF-8, standard input twice
and as /dev/stdin, pipes with a name, a file that grows while it is read, a folder, names that begin with a hyphen, and 10,000 files."""
import os
import pathlib
import subprocess
import sys
import tempfile
import time

sys.path.insert(0, str(pathlib.Path(__file__).resolve().parents[1] / "tools"))
from rows import SECONDS, built  # noqa: E402

PAGE = b"<p>tea</p>"
NOT_UTF8 = b"caf\xe9.html"
WHY = "hq: caf\ufffd.html: the name isn't UTF-8; read the file from standard input\n".encode()
MANY = 10_000
# A pause in which a program that is waiting for more would long have read what is there.
PAUSE = 0.3


def hq(folder, *words, **how):
    """Runs `hq` in the folder, and returns its status, its output and what it says."""
    ran = subprocess.run([built("hq"), *words], cwd=folder, capture_output=True, timeout=SECONDS, **how)
    return ran.returncode, ran.stdout, ran.stderr


def page(folder, name, text=PAGE):
    """Makes a page in the folder."""
    with open(os.path.join(os.fsencode(folder), os.fsencode(name)), "wb") as made:
        made.write(text)


def line_feeds(folder):
    """A name is printed as it is; with --json it is a JSON string, which stays in one line."""
    page(folder, "a\nb.html")
    yield "a line feed in a name", hq(folder, "-H", "-t", "p", "a\nb.html"), (0, b"a\nb.html:tea\n", b"")
    line = b'{"attrs":{},"file":"a\\nb.html","html":"<p>tea</p>","name":"p","text":"tea"}\n'
    yield "the same as JSON", hq(folder, "-H", "-j", "p", "a\nb.html"), (0, line, b"")
    said = b"hq: no\nwhere: No such file or directory (os error 2)\n"
    yield "a line feed in the name of no file", hq(folder, "p", "no\nwhere"), (2, b"", said)


def not_utf8(folder):
    """A file whose name isn't UTF-8 is reported, and the others are read; any other such argument is refused."""
    page(folder, NOT_UTF8)
    page(folder, "tea.html")
    words = (b"--text", b"p", NOT_UTF8, b"tea.html")
    yield "a name that isn't UTF-8", hq(folder, *words), (2, b"tea\n", WHY)
    yield "the same with a count", hq(folder, b"-c", *words[1:]), (2, b"tea.html:1\n", WHY)
    yield "the same without a selector", hq(folder, b"--tree", NOT_UTF8), (2, b"", WHY)
    yield "the same in place", hq(folder, b"-i", b"-d", NOT_UTF8), (2, b"", WHY)
    yield "the same with --jsonl", hq(folder, b"--jsonl", b"p", NOT_UTF8), (2, b"", WHY)
    with open(os.path.join(os.fsencode(folder), NOT_UTF8), "rb") as given:
        yield "the same as standard input", hq(folder, "-t", "p", stdin=given), (0, b"tea\n", b"")
    refused = (2, b"", b"hq: an argument isn't UTF-8\n")
    yield "a selector that isn't UTF-8", hq(folder, b"p\xff", b"tea.html"), refused
    yield "an attribute that isn't UTF-8", hq(folder, b"-a", b"\xff", b"p", b"tea.html"), refused
    yield "an option that isn't UTF-8", hq(folder, b"--\xff", b"p", b"tea.html"), refused
    yield "both", hq(folder, b"-a", b"\xff", b"p", NOT_UTF8), refused


def shut_folder(folder):
    """In a folder whose name isn't UTF-8 files are read and written by their own names."""
    room = os.path.join(os.fsencode(folder), b"\xff")
    os.mkdir(room)
    page(room, "tea.html", b"<!doctype html><p>tea</p><b>x</b>")
    yield "a folder that isn't UTF-8", hq(room, "-t", "p", "tea.html"), (0, b"tea\n", b"")
    said = hq(room, "-i", "-d", "-r", "b", "tea.html")
    with open(os.path.join(room, b"tea.html"), "rb") as made:
        left = made.read()
    whole = b"<!DOCTYPE html><html><head></head><body><p>tea</p></body></html>"
    yield "the same in place", (said, left, os.listdir(room)), ((0, b"", b""), whole, [b"tea.html"])


def standard_input(folder):
    """The first `-` reads standard input to its end, so a second one is an empty page."""
    page(folder, "tea.html")
    twice = b"(standard input):1\n(standard input):0\n"
    yield "standard input twice", hq(folder, "-c", "p", "-", "-", input=PAGE), (0, twice, b"")
    between = b"tea.html:1\n(standard input):1\ntea.html:1\n"
    yield "standard input between files", hq(folder, "-c", "p", "tea.html", "-", "tea.html", input=PAGE), (0, between, b"")
    yield "/dev/stdin, a pipe", hq(folder, "-t", "p", "/dev/stdin", input=PAGE), (0, b"tea\n", b"")
    with open(os.path.join(folder, "tea.html"), "rb") as given:
        yield "/dev/stdin, a file", hq(folder, "-t", "p", "/dev/stdin", stdin=given), (0, b"tea\n", b"")
    yield "/dev/null", hq(folder, "-c", "p", "/dev/null"), (1, b"0\n", b"")


def fed(folder, name, pieces, *words):
    """What `hq` answers that reads a file, into which the pieces are written while it runs; the file is a pipe with a name, or, if
    there are no words for it, a file that grows."""
    path = os.path.join(folder, name)
    with subprocess.Popen([built("hq"), *words, name], cwd=folder, stdout=subprocess.PIPE, stderr=subprocess.PIPE) as ran:
        with open(path, "wb", buffering=0) as end:
            for piece in pieces:
                end.write(piece)
                time.sleep(PAUSE / len(pieces))
        output, error = ran.communicate(timeout=SECONDS)
        return ran.returncode, output, error


def pipes(folder):
    """A pipe with a name is read to its end, in however many pieces it comes, and so are several."""
    os.mkfifo(os.path.join(folder, "pipe"))
    yield "a pipe with a name", fed(folder, "pipe", [PAGE], "-t", "p"), (0, b"tea\n", b"")
    yield "the same in pieces", fed(folder, "pipe", [b"<p", b">t", b"ea"], "-t", "p"), (0, b"tea\n", b"")
    lines = [b'{"html":"<p>1', b'"}\n{"html":"<p>2"}\n']
    yield "the same with --jsonl", fed(folder, "pipe", lines, "--jsonl", "-t", "p"), (0, b'{"matches":["1"]}\n{"matches":["2"]}\n', b"")
    yield "a pipe that nobody fills", fed(folder, "pipe", [], "-c", "p"), (1, b"0\n", b"")


def growing(folder):
    """Of a file that grows all the while, `hq` reads a beginning, and ends."""
    path = os.path.join(folder, "growing.html")
    page(folder, "growing.html", b"<p>tea</p>" * 20_000)
    seen = []
    with open(path, "ab", buffering=0) as end:
        with subprocess.Popen([built("hq"), "-c", "p", path], stdout=subprocess.PIPE, stderr=subprocess.PIPE) as ran:
            begun = time.monotonic()
            while ran.poll() is None and time.monotonic() - begun < SECONDS:
                end.write(b"<p>tea</p>")
                time.sleep(0.001)
            seen = ran.communicate(timeout=SECONDS)
    count = int(seen[0]) if seen[0].strip().isdigit() else -1
    most = os.path.getsize(path) // len(PAGE)
    yield "a file that grows", (ran.returncode, seen[1], 20_000 <= count <= most), (0, b"", True)


def other_names(folder):
    """Folders, files that aren't there and names that begin with a hyphen; the others are read."""
    page(folder, "tea.html")
    page(folder, "-tea.html")
    said = b"hq: .: Is a directory (os error 21)\n"
    yield "a folder", hq(folder, "-t", "p", ".", "tea.html"), (2, b"tea\n", said)
    said = b"hq: nowhere: No such file or directory (os error 2)\n"
    yield "no file", hq(folder, "-t", "p", "nowhere", "tea.html"), (2, b"tea\n", said)
    said = b"hq: : No such file or directory (os error 2)\n"
    yield "an empty name", hq(folder, "-t", "p", ""), (2, b"", said)
    yield "a hyphen in front", hq(folder, "-t", "p", "--", "-tea.html"), (0, b"tea\n", b"")
    yield "the same after ./", hq(folder, "-t", "p", "./-tea.html"), (0, b"tea\n", b"")


def many(folder):
    """Many files in one call, each counted."""
    room = pathlib.Path(folder) / "many"
    room.mkdir()
    names = [f"{number}.html" for number in range(MANY)]
    for name in names:
        page(room, name)
    lines = "".join(f"{name}:1\n" for name in names).encode()
    yield f"{MANY:,} files", hq(room, "-c", "p", *names), (0, lines, b"")


CASES = (line_feeds, not_utf8, shut_folder, standard_input, pipes, growing, other_names, many)


def reading_files():
    """Returns how many files are read as they must be, and how many aren't."""
    passed = failed = 0
    for case in CASES:
        with tempfile.TemporaryDirectory() as folder:
            for name, got, wanted in case(folder):
                passed, failed = passed + (got == wanted), failed + (got != wanted)
                if got != wanted:
                    print(f"{name}: wanted {wanted}, got {got}"[:2000])
    print(f"files that are read: {passed} passed, {failed} failed")
    return passed, failed


if __name__ == "__main__":
    sys.exit(1 if reading_files()[1] else 0)
