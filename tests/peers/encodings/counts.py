"""Instructions (callgrind) that a byte takes to decode, by a proved program that calls `decode_page`, and by encoding_rs. Outside the gate.

    counts.py PEER      prints for each encoding the instructions of both, and their ratio; compare.py says how PEER is built

The libraries below `text_decoding` must have been proved here, as by `rt check text_decoding`; the program is proved and built over them in a
folder of its own. What a byte takes to be read is taken off: the program reads the same bytes as a page that says it is UTF-8 and is ASCII, which is
lent after one look at blocks of 16 bytes. Each number is the difference of 300 KB and of one piece of the text, so a start costs nothing."""
import pathlib
import re
import shutil
import subprocess
import sys
import tempfile

import times

PROGRAM = """//! Decodes the page on standard input. Its status is 0 where some text is left.
#![tactic(auto)]

use std::io::Read;
use std::process::ExitCode;
use text_decoding::{Charset, decode_page};

fn main(rt: HostRuntime) -> ExitCode {
    let mut bytes = Vec::new(rt.alloc());
    if rt.stdin().read_to_end(&mut bytes).is_err() {
        return ExitCode::from(1);
    }
    match decode_page(rt.alloc(), bytes.as_slice(), Charset::unknown()) {
        Ok(page) if !page.text.as_str().is_empty() => ExitCode::from(0),
        _ => ExitCode::from(1),
    }
}
"""
SIZE = 300_000
CHINESE = "茶是一種以茶樹的葉子製成的飲料，起源於中國，後來傳播到世界各地。 "
TEXTS = [*(it for it in times.TEXTS if not it[0].startswith("utf-16")), ("big5", "big5", CHINESE)]


def built(folder):
    """The program, proved and built in a workspace whose other crates are those of the repository."""
    (folder / "crates" / "decode_size" / "src").mkdir(parents=True)
    (folder / "crates" / "decode_size" / "src" / "main.rt").write_text(PROGRAM, encoding="utf-8")
    listed = (times.ROOT / "crates.txt").read_text(encoding="utf-8")
    (folder / "crates.txt").write_text(f"{listed}decode_size: text_decoding\n", encoding="utf-8")
    for crate in (times.ROOT / "crates").iterdir():
        (folder / "crates" / crate.name).symlink_to(crate)
    if (times.ROOT / "HANDLES").exists():
        shutil.copy(times.ROOT / "HANDLES", folder)
    ran = subprocess.run(["rt", "run", "--jobs", "1"], cwd=folder / "crates" / "decode_size", stdin=subprocess.DEVNULL, stdout=subprocess.PIPE, text=True)
    program = folder / "crates" / "decode_size" / "out" / "decode_size"
    return program if program.exists() else sys.exit(f"the program isn't built: {ran.stdout[-2000:]}")


def count(words, given):
    ran = subprocess.run(["valgrind", "--tool=callgrind", "--callgrind-out-file=/dev/null", *words], input=given, capture_output=True)
    return int(re.search(rb"Collected : (\d+)", ran.stderr)[1])


def of_program(program, label, piece):
    """Instructions for each byte of a page of that piece, reading included."""
    head, more = f"<meta charset={label}>".encode(), SIZE // len(piece)
    return (count([program], head + piece * more) - count([program], head + piece)) / (len(piece) * (more - 1))


def of_peer(peer, label, piece):
    """The same of encoding_rs, which decodes the bytes once and twice."""
    more = SIZE // len(piece)
    once, twice = ((count([peer, "time", label, runs], piece * more), count([peer, "time", label, runs], piece)) for runs in "12")
    return (twice[0] - once[0] - twice[1] + once[1]) / (len(piece) * (more - 1))


def main(peer):
    with tempfile.TemporaryDirectory() as folder:
        program = built(pathlib.Path(folder))
        reading = of_program(program, "utf-8", times.ENGLISH.encode())
        print(f"reading and looking at ASCII: {reading:.2f} a byte", flush=True)
        for label, codec, sample in TEXTS:
            piece = sample.encode(codec)
            ours, theirs = of_program(program, label, piece) - reading, of_peer(peer, label, piece)
            print(f"{label}, {sample[:8]!r}: {ours:.1f}, encoding_rs {theirs:.1f}: {ours / theirs:.2f}", flush=True)


if __name__ == "__main__":
    if len(sys.argv) != 2:
        sys.exit(__doc__)
    main(sys.argv[1])
