"""Instructions (callgrind) that programs execute to read a page: `hq`, gumbo and MyHTML. Outside the gate.

    instructions.py HQ PAGE..

prints for each page the millions of instructions of `hq --count a`, of gumbo.c and of myhtml.c, each a process that reads the page, counts
elements and ends. gumbo and MyHTML are Debian's packages libgumbo-dev and libmodest-dev; gcc builds the two programs."""
import pathlib
import re
import subprocess
import sys
import tempfile

HERE = pathlib.Path(__file__).resolve().parent
PEERS = {"gumbo": ["-lgumbo"], "myhtml": ["-lmodest", "-lm"]}


def counted(words, page):
    """Millions of instructions, and what the program printed."""
    counting = ["valgrind", "--tool=callgrind", "--callgrind-out-file=/dev/null", *words]
    with open(page, "rb") as given:
        ran = subprocess.run(counting, stdin=given, stdout=subprocess.PIPE, stderr=subprocess.PIPE, text=True)
    if ran.returncode:
        sys.exit(f"{words} failed on {page}")
    return int(re.search(r"Collected : (\d+)", ran.stderr)[1]) / 1e6, ran.stdout.strip()


def main(hq, *pages):
    with tempfile.TemporaryDirectory() as folder:
        programs = {"hq": [hq, "--count", "a"]}
        for name, libraries in PEERS.items():
            programs[name] = [f"{folder}/{name}"]
            subprocess.run(["gcc", "-O2", "-o", *programs[name], HERE / f"{name}.c", *libraries], check=True)
        for page in pages:
            for name, words in programs.items():
                millions, printed = counted(words, page)
                print(f"{page}: {name}: {millions:.1f} million instructions, {printed} elements", flush=True)


if __name__ == "__main__":
    if len(sys.argv) < 3:
        sys.exit(__doc__)
    main(*sys.argv[1:])
