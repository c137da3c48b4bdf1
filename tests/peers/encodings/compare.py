"""Compares the decoders with encoding_rs, and the prescan with a transcription of it, outside the gate.

encoding_rs/ is a program of Rust over the crate `encoding_rs`. On Debian its source is the package librust-encoding-rs-dev, which
cargo takes without a network where its configuration replaces crates.io by the folder /usr/share/cargo/registry:

    cd tests/peers/encodings/encoding_rs && cargo build --offline --release --target-dir TARGET \\
        --config 'source.crates-io.replace-with="debian"' --config 'source.debian.directory="/usr/share/cargo/registry"'
    python3 tests/peers/encodings/compare.py TARGET/release/peer_encoding_rs [TEXTS [SOUPS]]

gb18030 of 2022 moved 18 pointers, which encoding_rs 0.8.31 has as before: texts with one of the characters that either edition
gives there are left out."""
import pathlib
import random
import subprocess
import struct
import sys

sys.path.insert(0, str(pathlib.Path(__file__).resolve().parents[2] / "checks"))
import encodings_of_pages as ours  # noqa: E402
import prescan  # noqa: E402

MOVED = set(range(0xE78D, 0xE797)) | {0xE81E, 0xE826, 0xE82B, 0xE82C, 0xE832, 0xE843, 0xE854, 0xE864}
MOVED |= set(range(0xFE10, 0xFE1A)) | {0x9FB4, 0x9FB5, 0x9FB6, 0x9FB7, 0x9FB8, 0x9FB9, 0x9FBA, 0x9FBB}
AT_ONCE = 20000


def peer(program, words, records):
    given = b"".join(struct.pack("<I", len(record)) + record for record in records)
    out = subprocess.run([program, *words], input=given, stdout=subprocess.PIPE, check=True).stdout
    answers, at = [], 0
    while at < len(out):
        (count,) = struct.unpack_from("<I", out, at)
        text = out[at + 4 : at + 4 + count].decode()
        at += 4 + count
        answers.append((text, *struct.unpack_from("<I", out, at)))
        at += 4
    return answers


def bytes_of(choice, name):
    """Random bytes: of all values, of those that begin and end characters, ASCII, escapes, and parts of a text."""
    text = ours.TEXTS.get(name, b"")
    out = b""
    for _ in range(choice.randrange(1, 24)):
        kind = choice.random()
        if kind < 0.25:
            out += bytes([choice.randrange(256)])
        elif kind < 0.55:
            out += bytes([choice.randrange(0x81, 0xFF)])
        elif kind < 0.7:
            out += bytes([choice.choice(b"0123456789@A[\\~\x7f\x80\xa0\xff<")])
        elif kind < 0.8 and name == "ISO-2022-JP":
            out += choice.choice([b"\x1b$B", b"\x1b$@", b"\x1b(B", b"\x1b(J", b"\x1b(I", b"\x1b", b"\x1b$", b"\x1b("])
        elif text:
            at = choice.randrange(len(text))
            out += text[at : at + choice.randrange(1, 6)]
        else:
            out += bytes([choice.randrange(32, 127)])
    return out


def texts(program, name, count):
    choice, differ, left_out = random.Random(name), 0, 0
    for begun in range(0, count, AT_ONCE):
        records = [bytes_of(choice, name) for _ in range(min(AT_ONCE, count - begun))]
        mine, theirs = ours.ask(["decode", name], records), peer(program, ["decode", name], records)
        for record, a, b in zip(records, mine, theirs):
            if a == b:
                continue
            if name in ("gb18030", "GBK") and any(ord(c) in MOVED for c in a[0] + b[0]):
                left_out += 1
                continue
            differ += 1
            if differ <= 5:
                print(name, record, a, b)
    print(f"{name}: {count} texts, {differ} differ, {left_out} left out", flush=True)


def soups(count):
    choice, differ = random.Random(2), 0
    for begun in range(0, count, AT_ONCE):
        pages = [prescan.soup(choice) for _ in range(min(AT_ONCE, count - begun))]
        wanted = [prescan.declared(page) for page in pages]
        for page, a, b in zip(pages, ours.ask(["declared"], pages), wanted):
            if a != b:
                differ += 1
                if differ <= 5:
                    print(page, a, b)
    print(f"prescan: {count} pages, {differ} differ", flush=True)


def main(program, count=100000, pages=400000):
    for name in ours.MULTI + list(ours.DATA["single"]):
        texts(program, name, int(count))
    soups(int(pages))


if __name__ == "__main__":
    main(*sys.argv[1:])
