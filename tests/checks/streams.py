"""Standard streams that fail: `dq` and `hq` end with the status of the cause and by no signal, and what was written is a beginning.

Standard input that comes in pieces: from a pipe and from a socket of which each read gives one piece, of one byte, of some bytes
or of many, `dq` and `hq` print the same as from a file."""
import fcntl
import itertools
import os
import pathlib
import select
import socket
import struct
import subprocess
import sys
import tempfile
import termios
import time

sys.path.insert(0, str(pathlib.Path(__file__).resolve().parents[1] / "tools"))
from rows import ROOT, SECONDS, built  # noqa: E402

PAGE = b"<p>" + b"a" * 3_000_000 + b"</p>"
WROTE = (5, b"dq: write failed\n")
HQ_WROTE = (2, b"hq: write failed: No space left on device (os error 28)\n")


def ended(markup, stdout, closed=None, stderr=subprocess.PIPE, words=("dq", "document")):
    """How a program ends with that standard output, and one descriptor closed: the status and standard error."""
    close = None if closed is None else lambda: os.close(closed)
    ran = subprocess.run([built(words[0]), *words[1:]], input=markup, stdout=stdout, stderr=stderr, preexec_fn=close, timeout=SECONDS)
    return ran.returncode, ran.stderr


def to_device(markup, words=("dq", "document")):
    """A device that is full."""
    with open("/dev/full", "wb") as full:
        return ended(markup, full, words=words)


def to_nobody(markup, words=("dq", "document")):
    """A pipe whose reader has gone."""
    reads, writes = os.pipe()
    os.close(reads)
    try:
        return ended(markup, writes, words=words)
    finally:
        os.close(writes)


def to_reader_that_leaves():
    """A pipe whose reader goes away after some bytes, which begin the output."""
    with subprocess.Popen(
        [built("dq"), "document"], stdin=subprocess.PIPE, stdout=subprocess.PIPE, stderr=subprocess.PIPE
    ) as ran:
        ran.stdin.write(PAGE)
        ran.stdin.close()
        is_begun = PAGE.startswith(ran.stdout.read(5_000))
        ran.stdout.close()
        error = ran.stderr.read()
        return (ran.wait(timeout=SECONDS), error) if is_begun else (None, b"another output")


def waits(end):
    """Whether bytes wait in a pipe or a socket to be read."""
    return struct.unpack("i", fcntl.ioctl(end, termios.FIONREAD, b"\0" * 4))[0] > 0


def put(ran, reads, writes, pieces):
    """Writes each piece once the program has read the one before; ends where the program does."""
    for piece in pieces:
        os.write(writes, piece)
        while waits(reads):
            if ran.poll() is not None:
                return
            time.sleep(0.0002)


def fed(words, pieces, ends):
    """What a program prints that reads the pieces at one of two ends, and its status."""
    reads, writes = ends
    with subprocess.Popen([built(words[0]), *words[1:]], stdin=reads, stdout=subprocess.PIPE, stderr=subprocess.PIPE, cwd=ROOT) as ran:
        put(ran, reads, writes, pieces)
        os.close(reads)
        os.close(writes)
        output, error = ran.communicate(timeout=SECONDS)
        return output, error, ran.returncode


def sockets():
    """The two ends of a socket."""
    return tuple(end.detach() for end in socket.socketpair())


def from_file(words, data):
    """What a program prints that reads a file, and its status."""
    with tempfile.TemporaryFile() as file:
        file.write(data)
        file.seek(0)
        ran = subprocess.run([built(words[0]), *words[1:]], stdin=file, capture_output=True, timeout=SECONDS, cwd=ROOT)
    return ran.stdout, ran.stderr, ran.returncode


def cut(data, sizes):
    """The data in pieces of these sizes, again and again."""
    pieces, at = [], 0
    for size in itertools.cycle(sizes):
        if at >= len(data):
            return pieces
        pieces.append(data[at : at + size])
        at += size


# Pages with characters of each length, line ends, references and marks that pieces cut in two.
SMALL = (
    "\ufeff<!doctype html>\r\n<title>Mat\xe9 &amp;\r\n</title><p a = b c='d\r\ne' f=\"&notin;\">\u20ac \U0001d11e&lt;<!-- a--b\r\n --!>"
    "<script><!--<script>x</script>--></script><table>\r1<td>2<svg><![CDATA[x]]y]]></svg>\r"
).encode() + b"\xe2\x82\xff\xc3"
LARGE = b"".join(b"<p id=%d>\xe2\x82\xac &eacute;<b>\r\n</b>" % number for number in range(20_000))
EXPLICIT = "<ul>\n<li>Mat\xe9 \u20ac</li>\n<li a=\"b\">&amp;\U0001d11e</li>\n</ul>".encode()
JSONL = b"".join(b'{"html":"<p>\xc3\xa9%d<p>","n":%d}\n' % (number, number) for number in range(3)) + b'\n{"html":"<p>'
QUESTIONS = (
    (("hq", "--tree"), SMALL, ((1,), (2,), (3,), (7,), (1, 5))),
    (("hq", "-c", "p"), LARGE, ((65_536,), (65_535, 2), (10_000,), (4_096, 1))),
    (("hq", "--explicit", "li"), EXPLICIT, ((1,), (2,), (5,))),
    (("hq", "--jsonl", "-c", "p"), JSONL, ((1,), (2,), (11,))),
    (("dq", "select li\nhtml"), EXPLICIT, ((1,), (2,), (5,))),
    (("dq", "select p\ncount"), b"<p>" + b"a" * 200_000 + b"</p>", ((65_536,), (65_535, 2), (10_000,))),
)


def in_pieces():
    """Each question, with what is printed of the pieces and of a file."""
    for words, data, cuts in QUESTIONS:
        wanted = from_file(words, data)
        for sizes in cuts:
            for kind, ends in (("a pipe", os.pipe()), ("a socket", sockets())):
                got = fed(words, cut(data, sizes), ends)
                yield f"{' '.join(words)[:30]!r} from {kind} in pieces of {sizes}", got, wanted
        if not wanted[0]:
            yield f"{' '.join(words)[:30]!r} from a file", "nothing", "some output"


def flushed():
    """What `hq --line-buffered` has printed of a line before the next one comes."""
    words = [built("hq"), "--jsonl", "--line-buffered", "-c", "p"]
    with subprocess.Popen(words, stdin=subprocess.PIPE, stdout=subprocess.PIPE, stderr=subprocess.PIPE) as ran:
        ran.stdin.write(b'{"html":"<p>"}\n')
        ran.stdin.flush()
        ready, _, _ = select.select([ran.stdout], [], [], SECONDS)
        line = os.read(ran.stdout.fileno(), 1000) if ready else b""
        ran.stdin.close()
        return line, ran.wait(timeout=SECONDS)


# Each way in which `hq` prints, with a page, a line of JSON or a record for it.
RECORD = b"HTTP/1.1 200 OK\r\nContent-Type: text/html\r\n\r\n<p>a</p>"
WARC = b"WARC/1.0\r\nWARC-Type: response\r\nContent-Type: application/http\r\nContent-Length: %d\r\n\r\n%s\r\n\r\n"
WAYS = (
    (("p",), b"<p>a</p>"),
    (("--text", "p"), b"<p>a</p>"),
    (("--md", "p"), b"<p>a</p>"),
    (("--json", "p"), b"<p>a</p>"),
    (("--csv", "table"), b"<table><tr><td>a</table>"),
    (("--count", "p"), b"<p>a</p>"),
    (("--tree",), b"<p>a</p>"),
    (("--document",), b"<p>a</p>"),
    (("--document",), PAGE),
    (("--script", "select p", "--script", "html"), b"<p>a</p>"),
    (("--jsonl", "p"), b'{"html":"<p>a</p>"}\n'),
    (("--warc", "p"), WARC % (len(RECORD), RECORD)),
)


def ways_to_nowhere():
    """Each way of printing into a pipe that nobody reads, which ends quietly, and onto a device that is full."""
    for words, markup in WAYS:
        name = f"hq {' '.join(words)}, {len(markup)} bytes"
        yield f"{name}: a pipe that nobody reads", to_nobody(markup, ("hq", *words)), (0, b"")
        if pathlib.Path("/dev/full").is_char_device():
            yield f"{name}: a full device", to_device(markup, ("hq", *words)), HQ_WROTE


def streams():
    """Returns how many endings are as they must be, and how many aren't."""
    null = subprocess.DEVNULL
    endings = [
        ("a closed output", ended(b"<p></p>", null, closed=1), WROTE),
        ("a closed output, much text", ended(PAGE, null, closed=1), WROTE),
        ("a pipe that nobody reads", to_nobody(b"<p></p>"), WROTE),
        ("a pipe that nobody reads, much text", to_nobody(PAGE), WROTE),
        ("a pipe whose reader leaves", to_reader_that_leaves(), WROTE),
        ("a pipe that nobody reads, hq", to_nobody(b"<p></p>", ("hq", "p")), (0, b"")),
        ("a closed input", ended(None, null, closed=0), (5, b"dq: read failed\n")),
        ("a closed standard error", ended(b"<p>", null, closed=2, stderr=null), (3, None)),
    ]
    if pathlib.Path("/dev/full").is_char_device():
        endings.append(("a full device", to_device(b"<p></p>"), WROTE))
        endings.append(("a full device, much text", to_device(PAGE), WROTE))
        endings.append(("a full device, hq", to_device(b"<p></p>", ("hq", "p")), HQ_WROTE))
        with open("/dev/full", "wb") as full:
            endings.append(("a full standard error", ended(b"<p>", null, stderr=full), (3, None)))
    else:
        print("no device that is full")
    endings += ways_to_nowhere()
    endings += in_pieces()
    endings.append(("a line that is flushed", flushed(), (b'{"count":1}\n', 0)))
    failed = [(name, got, wanted) for name, got, wanted in endings if got != wanted]
    for name, got, wanted in failed:
        print(f"{name}: wanted {wanted}, got {got}"[:1000])
    print(f"streams that fail or come in pieces: {len(endings) - len(failed)} passed, {len(failed)} failed")
    return len(endings) - len(failed), len(failed)


if __name__ == "__main__":
    sys.exit(1 if streams()[1] else 0)
