"""Time, instructions and memory of cleaning whole pages: the test program's part `clean` beside ammonia, bleach and lxml's cleaner, in one run.

    times.py TEST_CALLS PEER RUNS PAGE..

PEER is the program of the folder ammonia; built by cargo from Debian's librust-ammonia-dev and librust-markup5ever-rcdom-dev:

    cd ammonia && cargo build --release --offline --config 'source.crates-io.replace-with="debian"' \\
        --config 'source.debian.directory="/usr/share/cargo/registry"'

Both programs read the page from standard input, clean it by their common rules (the test program's are those of ammonia but for few), and
print what is left. They take turns; the least processor time of the runs counts, the memory is the largest part that was resident, and
instructions are those that callgrind counts, if valgrind is there. What is the least for reading and printing without cleaning is
`PEER read`. bleach and lxml.html.clean run within Python, and the time of the call alone counts."""
import os
import pathlib
import re
import subprocess
import sys
import tempfile
import time


def once(words, page):
    """Processor time in ms, memory in MB and length of what is printed, of one run."""
    with open(page, "rb") as given, tempfile.TemporaryFile() as out:
        child = subprocess.Popen(words, stdin=given, stdout=out)
        _, status, usage = os.wait4(child.pid, 0)
        child.returncode = os.waitstatus_to_exitcode(status)
        if child.returncode:
            sys.exit(f"{words} failed on {page}")
        return (usage.ru_utime + usage.ru_stime) * 1000, usage.ru_maxrss / 1024, os.fstat(out.fileno()).st_size


def instructions(words, page):
    """Millions of instructions, or nothing without valgrind."""
    counting = ["valgrind", "--tool=callgrind", "--callgrind-out-file=/dev/null", *words]
    try:
        with open(page, "rb") as given:
            done = subprocess.run(counting, stdin=given, stdout=subprocess.DEVNULL, stderr=subprocess.PIPE, text=True)
    except OSError:
        return None
    return int(re.search(r"Collected : (\d+)", done.stderr)[1]) / 1e6


def in_python(page):
    """Prints for each cleaner of Python the time of one call, and the length of what is left."""
    text = pathlib.Path(page).read_text(encoding="utf-8", errors="replace")
    made = {}
    try:
        import bleach

        made["bleach"] = lambda: bleach.clean(text, strip=True)
    except ImportError:
        pass
    try:
        from lxml.html.clean import clean_html

        made["lxml.html.clean"] = lambda: clean_html(text)
    except ImportError:
        pass
    for name, call in made.items():
        began = time.process_time()
        try:
            left = len(call())
        except Exception as fault:
            left = repr(fault)[:80]
        print(f"  {name:20} {(time.process_time() - began) * 1000:9.1f} ms, {left} characters", flush=True)


def main(ours, peer, runs, *pages):
    programs = {"test_calls": [ours, "clean", "common"], "ammonia": [peer, "clean"], "html5ever, reading": [peer, "parse"], "no cleaning": [peer, "read"]}
    for page in pages:
        print(f"{page}: {os.path.getsize(page)} bytes")
        found = {name: [] for name in programs}
        for _ in range(int(runs)):
            for name, words in programs.items():
                found[name].append(once(words, page))
        best = {name: [min(it[at] for it in several) for at in range(3)] for name, several in found.items()}
        counts = {name: instructions(words, page) for name, words in programs.items()}
        for name, (took, memory, length) in best.items():
            print(f"  {name:20} {took:9.1f} ms {memory:8.1f} MB {counts[name] or 0:10.1f} million instructions {length:9} bytes")
        ratio = [a / b for a, b in zip(best["test_calls"][:2], best["ammonia"][:2])]
        of_counts = counts["test_calls"] / counts["ammonia"] if counts["ammonia"] else 0
        print(f"  test_calls / ammonia: time {ratio[0]:.2f}, memory {ratio[1]:.2f}, instructions {of_counts:.2f}", flush=True)
        # (in a process of its own, since the memory of this one counts for those that it starts)
        subprocess.run([sys.executable, __file__, "python", page])


if __name__ == "__main__":
    if sys.argv[1:2] == ["python"]:
        in_python(sys.argv[2])
    else:
        main(*sys.argv[1:])
