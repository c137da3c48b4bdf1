"""Decoders and labels of encodings, asked by the part `encodings` of the test program. tests/data/encodings.json.gz holds the labels and the
indexes of the Encoding Standard: each label, each byte of each single-byte encoding and each pointer of each index is asked.
The texts of pieces of any size are those of the whole, also of every prefix of a text, and what long hostile bytes take grows
no more than in proportion. Its part `batch` parses pages whole and in pieces that are cut at every place. `run()` returns
how many passed and how many failed."""
import os
import pathlib
import random
import struct
import subprocess
import sys
import tempfile

TESTS = pathlib.Path(__file__).resolve().parents[1]
for folder in ("tools", "second_definitions"):
    sys.path.insert(0, str(TESTS / folder))
import decoders  # noqa: E402
import prescan  # noqa: E402
from rows import SECONDS, started  # noqa: E402

PROGRAM = started("encodings")
DATA = prescan.ALL
ERROR = "\ufffd"
SOUPS = 4000
SEED = 1
# Times as long for ten times as many bytes, with room for a busy machine, and the seconds below which nothing is compared.
MOST, LITTLE = 40, 0.05
MULTI = "UTF-8 UTF-16LE UTF-16BE gb18030 GBK Big5 EUC-KR EUC-JP Shift_JIS ISO-2022-JP replacement".split()

# A text of each encoding in bytes, with errors in it: characters that are cut, wrong trail bytes, escapes that never end.
TEXTS = {
    "UTF-8": b"a\xc3\xa9\xe2\x82\xac\xf0\x9f\x98\x80\xc0\xaf\xed\xa0\x80\xf4\x90\x80\x80\xe2\x82<\xf0\x9f\x98<p>\xff",
    "UTF-16LE": b"a\x00\xe9\x00\x3d\xd8\x00\xde\x00\xd8a\x00\x00\xdc\x3d\xd8\x3d\xd8\x00\xde<",
    "UTF-16BE": b"\x00a\x00\xe9\xd8\x3d\xde\x00\xd8\x00\x00a\xdc\x00\xd8\x3d\xd8\x3d\xde\x00<",
    "gb18030": b"a\xc4\xe3\x80\x81\x30\x81\x30\x84\x31\xa4\x37\xff\x81<\x81\x30<\x81\x30\x81<\xe3\x32\x9a\x35\xe3\x32\x9a\x36\x81\x30\x81",
    "GBK": b"a\xc4\xe3\x80\xa2\xe3\xff\x81<\x81\x30<\x81\x30\x81<\x81",
    "Big5": b"a\xa7\x41\x88\x62\x88\x64\x88\xa3\x88\xa5\x87\x40\x81<\x81\xff\xff\x80\xa7",
    "EUC-KR": b"a\xb0\xa1\xc8\xfe\x81\x41\x81<\x81\xff\xff\x80\xc9\xa1\xb0",
    "EUC-JP": b"a\xa4\xa2\x8e\xb1\x8e\xe0\x8e<\x8f\xb0\xa1\x8f\xb0<\x8f<\x8f\xa1\xff\xa4<\xff\x80\x8f\xb0",
    "Shift_JIS": b"a\\~\x82\xa0\xb1\x80\xa0\xfd\xf0\x40\xf9\xfc\xfa\x40\x81<\x81\xff\x85\x40\x82",
    "ISO-2022-JP": b"a\x1b$B$\"\x1b(Ja\\~\x1b(I1!\x1b(B\x0e\x80\x1b$@$\x1b(B\x1b(B\x1b(Bx\x1b$x\x1b(x\x1b$B$\x1b$B\"$\n0!\x1b$",
    "replacement": b"abc",
}
# What bytes are decoded as, and how many replacements are in it.
ROWS = [
    ("utf-8", b"", "", 0),
    ("utf-8", b"\xef\xbf\xbd", ERROR, 0),
    ("utf-8", b"\xf0\x9f\x98", ERROR, 1),
    ("utf-8", b"\xf0\x9f\x98<", ERROR + "<", 1),
    ("utf-8", b"\xed\xa0\x80", ERROR * 3, 3),
    ("utf-8", b"\xe0\x9f\xbf\xf4\x90", ERROR * 5, 5),
    ("utf-16le", b"\x00\xd8a", ERROR, 1),
    ("utf-16le", b"\x00\xd8", ERROR, 1),
    ("utf-16le", b"a", ERROR, 1),
    ("utf-16le", b"\x00\xd8a\x00", ERROR + "a", 1),
    ("utf-16be", b"\xd8\x3d\xde\x00", "\U0001f600", 0),
    ("utf-16be", b"\xde\x00\xd8\x3d", ERROR * 2, 2),
    ("gb18030", b"\x81\x30\x81", ERROR, 1),
    ("gb18030", b"\x81\x30", ERROR, 1),
    ("gb18030", b"\x81\x30\x81<", ERROR + "0" + ERROR + "<", 2),
    ("gb18030", b"\x84\x31\xa4\x37", ERROR, 0),
    ("gb18030", b"\x81\x30<", ERROR + "0<", 1),
    ("gb18030", b"\xe3\x32\x9a\x35", "\U0010ffff", 0),
    ("gb18030", b"\xe3\x32\x9a\x36", ERROR, 1),
    ("gbk", b"\x80", "\u20ac", 0),
    ("gbk", b"\xff", ERROR, 1),
    ("big5", b"\x88\x62\x88\x64\x88\xa3\x88\xa5", "\xca\u0304\xca\u030c\xea\u0304\xea\u030c", 0),
    ("big5", b"\x81<", ERROR + "<", 1),
    ("big5", b"\x81\x80", ERROR, 1),
    ("big5", b"\xa7", ERROR, 1),
    ("euc-kr", b"\xb0\xa1", "\uac00", 0),
    ("euc-kr", b"\xb0<", ERROR + "<", 1),
    ("euc-kr", b"\xb0", ERROR, 1),
    ("euc-kr", b"\x80\xff", ERROR * 2, 2),
    ("euc-jp", b"\x8e\xb1", "\uff71", 0),
    ("euc-jp", b"\x8e\xe0", ERROR, 1),
    ("euc-jp", b"\x8f\xb0", ERROR, 1),
    ("euc-jp", b"\x8f\xb0<", ERROR + "<", 1),
    ("euc-jp", b"\x8f<", ERROR + "<", 1),
    ("shift_jis", b"\\~\x80\xb1", "\\~\x80\uff71", 0),
    ("shift_jis", b"\xf0\x40\xf9\xfc", "\ue000\ue757", 0),
    ("shift_jis", b"\xa0\xfd", ERROR * 2, 2),
    ("shift_jis", b"\x82", ERROR, 1),
    ("iso-2022-jp", b"\x1b$B$\"\x1b(Ba", "\u3042a", 0),
    ("iso-2022-jp", b"\x1b(J\\~", "\xa5\u203e", 0),
    ("iso-2022-jp", b"\x1b(I1", "\uff71", 0),
    ("iso-2022-jp", b"\x1b(B\x1b(B", ERROR, 1),
    ("iso-2022-jp", b"\x1b$", ERROR + "$", 1),
    ("iso-2022-jp", b"\x1b", ERROR, 1),
    ("iso-2022-jp", b"\x1b$B$", ERROR, 1),
    ("iso-2022-jp", b"\x1b$B$\x1b(Ba", ERROR + "a", 1),
    ("iso-2022-jp", b"\x0e\x0f\x80", ERROR * 3, 3),
    ("iso-2022-kr", b"", "", 0),
    ("iso-2022-kr", b"abc", ERROR, 1),
    ("x-user-defined", b"a\x80\xff", "a\uf780\uf7ff", 0),
    ("windows-1252", b"caf\xe9 \x80\x81", "caf\xe9 \u20ac\x81", 0),
    ("iso-8859-8", b"\xa1", ERROR, 1),
]
MARKS = [
    (b"\xef\xbb\xbfa", "UTF-8"),
    (b"\xff\xfea", "UTF-16LE"),
    (b"\xfe\xff", "UTF-16BE"),
    (b"\xef\xbb", ""),
    (b"\xff", ""),
    (b"a\xef\xbb\xbf", ""),
    (b"", ""),
]
DECLARED = [
    (b"<meta charset=gbk>", "GBK"),
    (b"<!-- <meta charset=gbk> --><meta charset='koi8-r'>", "KOI8-R"),
    (b"<!--><meta charset=gbk>", "GBK"),
    (b"<meta http-equiv=content-type content='text/html; charset=big5'>", "Big5"),
    (b"<meta content='text/html; charset=big5'>", ""),
    (b"<meta content='text/html; charset=big5' http-equiv=Content-Type>", "Big5"),
    (b"<meta charset=utf-16>", "UTF-8"),
    (b"<meta charset=x-user-defined>", "windows-1252"),
    (b"<meta charset=nosuch><meta charset=big5>", "Big5"),
    (b"<p title='<meta charset=gbk>'>", ""),
    (b"</p title='<meta charset=gbk>'><meta charset=big5>", "Big5"),
    (b"<?xml encoding='koi8-r'?><meta charset=big5>", "Big5"),
    (b"<meta charset=gbk", ""),
    (b"<meta charset=gbk charset=big5>", "GBK"),
    (b"<metax charset=gbk>", ""),
    (b"<?xml version='1.0' encoding='koi8-r'?><p>", "KOI8-R"),
    (b"<?xml encoding\x01=\x02\"utf-16\"?>", "UTF-8"),
    (b"<?xml encoding='koi8 r'?>", ""),
    (b"<?xml encoding='koi8-r'", ""),
    (b"<?xml encoding=koi8-r?>", ""),
    (b"<?xml encoding ?>encoding='koi8-r'>", ""),
    (b"<?xml encoding='koi8-r'?><p ", "KOI8-R"),
    (b" <?xml encoding='koi8-r'?>", ""),
    (b"<\0?\0x\0m\0l\0", "UTF-16LE"),
    (b"\0<\0?\0x\0m\0l", "UTF-16BE"),
    (b"<\0?\0y\0", ""),
    (b" " * 1006 + b"<meta charset=gbk>", "GBK"),
    (b" " * 1007 + b"<meta charset=gbk>", ""),
    (b"", ""),
]


# Undeclared pages in pieces: the bytes, and the encoding that the first 1,024 bytes or the first that aren't ASCII decide.
BOTH = "caf\xe9"
GUESSED = [
    (b"", "UTF-8"),
    (b"<p>", "UTF-8"),
    (BOTH.encode(), "UTF-8"),
    (BOTH.encode("latin-1"), "windows-1252"),
    (b"caf\xc3", "windows-1252"),
    (b" " * 1020 + BOTH.encode(), "UTF-8"),
    (b" " * 1020 + BOTH.encode() + b"\xe9", "UTF-8"),
    (b" " * 1019 + BOTH.encode() + b"\xe9", "UTF-8"),
    (b" " * 1018 + BOTH.encode() + b"\xe9" + b" " * 9, "UTF-8"),
    (b" " * 1018 + BOTH.encode() + b"\xff" + b" " * 9, "windows-1252"),
    (b" " * 1024 + BOTH.encode(), "UTF-8"),
    (b" " * 1024 + BOTH.encode("latin-1"), "windows-1252"),
    (b" " * 5000 + BOTH.encode() + b" \xe9", "UTF-8"),
    (b" " * 5000 + BOTH.encode() + b"\xe9 ", "windows-1252"),
    (b" " * 5000 + BOTH.encode("latin-1"), "windows-1252"),
    (b" " * 5000 + b"\xf0\x9f\x98\x80", "UTF-8"),
    (b" " * 5000 + b"\xf0\x9f\x98", "windows-1252"),
    (b" " * 5000, "UTF-8"),
]


def ask(words, records):
    """The program's answers: texts with the number of replacements in each, or names."""
    given = b"".join(struct.pack("<I", len(record)) + record for record in records)
    done = subprocess.run([*PROGRAM, *words], input=given, stdout=subprocess.PIPE, timeout=SECONDS)
    assert done.returncode == 0, (words, done.returncode)
    answers, at, out = [], 0, done.stdout
    while at < len(out):
        (count,) = struct.unpack_from("<I", out, at)
        text = out[at + 4 : at + 4 + count].decode()
        at += 4 + count
        if words[0] in ("decode", "pieces"):
            answers.append((text, *struct.unpack_from("<I", out, at)))
            at += 4
        else:
            answers.append(text)
    assert len(answers) == len(records), (words, len(answers), len(records))
    return answers


class Counts:
    def __init__(self):
        self.passed = self.failed = 0

    def note(self, what, good):
        if good:
            self.passed += 1
            return
        self.failed += 1
        if self.failed <= 20:
            print(f"encodings: {what}")

    def compare(self, what, records, got, wanted):
        for record, answer, expected in zip(records, got, wanted, strict=True):
            self.note(f"{what} of {record!r}: {answer!r}, not {expected!r}", answer == expected)


def two(lead, trail):
    """The two bytes of a pointer, where a row has so many cells."""
    return lambda pointer: bytes([lead(pointer), trail(pointer)])


def behind(first, gap, skipped):
    """The byte of a cell: from `first` on, and from a gap on so many later."""
    return lambda cell: cell + first + (skipped if cell >= gap else 0)


# By the name of an index: a label, and the bytes of a pointer.
INDEXES = {
    "gb18030": ("gb18030", two(lambda p: p // 190 + 0x81, lambda p: behind(0x40, 0x3F, 1)(p % 190))),
    "big5": ("big5", two(lambda p: p // 157 + 0x81, lambda p: behind(0x40, 0x3F, 0x22)(p % 157))),
    "euc-kr": ("euc-kr", two(lambda p: p // 190 + 0x81, lambda p: p % 190 + 0x41)),
    "jis0208": ("euc-jp", two(lambda p: p // 94 + 0xA1, lambda p: p % 94 + 0xA1)),
    "jis0208s": ("shift_jis", two(lambda p: behind(0x81, 0x1F, 0x40)(p // 188), lambda p: behind(0x40, 0x3F, 1)(p % 188))),
    "jis0212": ("euc-jp", lambda p: bytes([0x8F, p // 94 + 0xA1, p % 94 + 0xA1])),
}


def expected(codes, record):
    """What a pointer stands for: characters, or an error that leaves a last byte of ASCII."""
    if codes is not None:
        return "".join(map(chr, codes)), 0
    return ERROR + (chr(record[-1]) if record[-1] < 128 else ""), 1


def labels(counts):
    asked = DATA["labels"]
    for shown in (str, str.upper, lambda label: f" \t{label.title()}\r\n\x0c"):
        records = [shown(label).encode() for label in asked]
        counts.compare("label", records, ask(["labels"], records), list(asked.values()))
    wrong = [b"", b"utf", b"utf-88", b"utf 8", b"\xa0utf-8", b"utf-7", b"none", b"latin-1x", b"\x0butf-8", b"iso-8859-12"]
    counts.compare("label", wrong, ask(["labels"], wrong), [""] * len(wrong))


def pointers(counts):
    for name, codes in DATA["single"].items():
        records = [bytes([byte]) for byte in range(256)]
        wanted = [(chr(byte), 0) for byte in range(128)]
        wanted += [(ERROR, 1) if code == 0xFFFD else (chr(code), 0) for code in codes]
        counts.compare(name, records, ask(["decode", name], records), wanted)
    for name, (label, encode) in INDEXES.items():
        index = DATA["idx"][name]
        records = [encode(pointer) for pointer in range(len(index))]
        counts.compare(name, records, ask(["decode", label], records), list(map(expected, index, records)))
    records = [INDEXES["gb18030"][1](pointer) for pointer in range(len(DATA["idx"]["gb18030"]))]
    counts.note("GBK and gb18030", ask(["decode", "gbk"], records) == ask(["decode", "gb18030"], records))


def four(pointer):
    return bytes([pointer // 12600 + 0x81, pointer // 1260 % 10 + 0x30, pointer // 10 % 126 + 0x81, pointer % 10 + 0x30])


def ranges(counts):
    """The pointers of four bytes of gb18030: all below 39,500, and some of the others."""
    wanted = {}
    bounds = DATA["gb18030_ranges"] + [[39420, None]]
    for (first, code), (end, _) in zip(bounds, bounds[1:]):
        wanted |= {pointer: code + pointer - first for pointer in range(first, end)}
    wanted[7457] = 0xE7C7
    asked = list(range(39500)) + list(range(188990, 1587600, 1009)) + [1237575, 1237576]
    wanted |= {pointer: 0x10000 + pointer - 189000 for pointer in range(189000, 1237576)}
    records = [four(pointer) for pointer in asked]
    texts = [(chr(wanted[pointer]), 0) if pointer in wanted else (ERROR, 1) for pointer in asked]
    counts.compare("gb18030", records, ask(["decode", "gb18030"], records), texts)


def rows(counts):
    for label, record, text, replaced in ROWS:
        counts.compare(label, [record], ask(["decode", label], [record]), [(text, replaced)])
    for mode, cases in (("marks", MARKS), ("declared", DECLARED)):
        records = [record for record, _ in cases]
        counts.compare(mode, records, ask([mode], records), [name for _, name in cases])


def pieces(counts):
    """Every prefix of a text, and random bytes, in pieces of any size."""
    choice = random.Random(SEED)
    for name in MULTI + ["windows-1252", "x-user-defined"]:
        text = TEXTS.get(name, b"caf\xe9\x80\x81") * 3
        records = [text[:end] for end in range(len(text) + 1)] + [text[at:] for at in range(len(text))]
        records += [bytes(choice.choice(text) for _ in range(choice.randrange(60))) for _ in range(200)]
        whole = ask(["decode", name], records)
        counts.compare(name, records, whole, [decoders.decoded(name, record) for record in records])
        for size in (1, 2, 3, 5, 16):
            counts.compare(f"{name} by {size}", records, ask(["pieces", name, str(size)], records), whole)


def parsed(size, label, pages):
    """What the part `batch` prints of each page, in pieces of that size or whole (0)."""
    given = "".join(page.hex() + "\n" for page in pages).encode()
    words = [*started("batch"), "bulk", "encoded", str(size), *([label] if label else [])]
    done = subprocess.run(words, input=given, stdout=subprocess.PIPE, timeout=SECONDS)
    assert done.returncode == 0, (words, done.returncode)
    return done.stdout.decode().split("\n")[:-1]


def pages_in_pieces(counts):
    """Pages are the same whole and in pieces: those that come with an encoding, those that declare one, and those with a byte order
    mark, cut at every place. Where nothing says the encoding, it is decided by the first bytes."""
    for name in MULTI + ["windows-1252", "x-user-defined"]:
        text = b"<!DOCTYPE html><title>" + TEXTS.get(name, b"caf\xe9\x80\x81") + b"</title><p>b"
        pages = [text, b"<meta charset=" + name.encode() + b">" + text, b"\xef\xbb\xbf" + text, b"\xff\xfe" + text, text[:20], b""]
        for label in ("iso-2022-kr" if name == "replacement" else name, ""):
            whole = parsed(0, label, pages)
            for size in range(1, len(text) + 1):
                counts.compare(f"{name}, {label!r} by {size}", pages, parsed(size, label, pages), whole)
    pages = [page for page, _ in GUESSED]
    for size in (1, 2, 3, 1000, 1023, 1024, 1025, 4999, 9999):
        got = [answer.rsplit(" ", 2)[0].rsplit(" ", 1)[1] for answer in parsed(size, "", pages)]
        counts.compare(f"guessed by {size}", pages, got, [name for _, name in GUESSED])


def soups(counts):
    choice = random.Random(SEED)
    pages = [prescan.soup(choice) for _ in range(SOUPS)]
    counts.compare("declared", pages, ask(["declared"], pages), [prescan.declared(page) for page in pages])


def seconds(words, record):
    """The processor time that the program takes for a record."""
    with tempfile.TemporaryFile() as given:
        given.write(struct.pack("<I", len(record)) + record)
        given.seek(0)
        asked = subprocess.Popen([*PROGRAM, *words], stdin=given, stdout=subprocess.DEVNULL)
        _, status, used = os.wait4(asked.pid, 0)
    asked.returncode = os.waitstatus_to_exitcode(status)
    assert asked.returncode == 0, (words, asked.returncode)
    return used.ru_utime + used.ru_stime


def hostile(counts):
    """Bytes that are all errors or all cut: a million, and ten million."""
    shapes = [(name, b"\x81") for name in MULTI] + [(name, b"\x81\x30") for name in ("gb18030", "gbk")]
    shapes += [("UTF-8", b"\xf0\x9f\x98"), ("UTF-8", b"\xe2\x82<"), ("EUC-JP", b"\x8f"), ("UTF-16LE", b"\x00\xd8")]
    shapes += [("ISO-2022-JP", b"\x1b"), ("ISO-2022-JP", b"\x1b$"), ("ISO-2022-JP", b"\x1b$B"), ("windows-1252", b"\xe9")]
    for name, shape in shapes:
        short, long = (seconds(["decode", name], shape * (size // len(shape))) for size in (1_000_000, 10_000_000))
        counts.note(f"{name}, {shape!r}: {short:.2f} s, then {long:.2f} s", long < MOST * max(short, LITTLE))
    for page in (b"<!--", b"<meta ", b"<a ", b"<meta content=charset"):
        short, long = (seconds(["declared"], page * (size // len(page))) for size in (1_000_000, 10_000_000))
        counts.note(f"declared, {page!r}: {short:.2f} s, then {long:.2f} s", long < MOST * max(short, LITTLE))


def run():
    counts = Counts()
    for check in (labels, pointers, ranges, rows, pieces, pages_in_pieces, soups, hostile):
        check(counts)
    return counts.passed, counts.failed


if __name__ == "__main__":
    if len(sys.argv) > 1:
        PROGRAM = [sys.argv[1], "encodings"]
    print("%d passed, %d failed" % run())
