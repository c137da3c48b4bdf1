"""`hq --jsonl` over many pages, beside test_calls, pup and a program in Python with lxml. Outside the gate.

    jsonl.py make HQ FOLDER COUNT PAGES..        writes COUNT lines of JSON into FOLDER/pages.jsonl, each with a page of 12 to 30 KB from
                                                 the folders PAGES, as explicit markup by `hq --document`, and the first 400 pages as files
    jsonl.py times HQ TEST_CALLS FOLDER          the processor time of `hq --jsonl --text h1` over all lines; of lxml and of pup over the
                                                 same pages; and what test_calls takes in its process to read each page and to select `h1`
    jsonl.py instructions HQ TEST_CALLS FOLDER N the instructions (callgrind) of `hq --jsonl` for each of N pages, beside those of
                                                 test_calls for `parse_page` and for selecting
    jsonl.py memory HQ FOLDER TIMES..            the most memory that is resident while all lines are read that many times

pup and lxml are Debian's pup and python3-lxml."""
import json
import os
import pathlib
import random
import re
import subprocess
import sys
import tempfile
import time

SELECTOR = "h1"
# Debian's python3, which has python3-lxml; another one on the PATH may not.
PYTHON = "/usr/bin/python3"
LEAST, MOST = 12_000, 30_000
FILES = 400
BY_LXML = """
import json, sys, lxml.html
for line in sys.stdin:
    page = lxml.html.fromstring(json.loads(line)["html"])
    print(json.dumps({"matches": [it.text_content() for it in page.iter("h1")]}))
"""


def used(words, given):
    """Processor time in seconds, elapsed seconds and memory in MB of a process that reads a file."""
    began = time.monotonic()
    child = subprocess.Popen(words, stdin=given, stdout=subprocess.DEVNULL)
    _, status, usage = os.wait4(child.pid, 0)
    child.returncode = os.waitstatus_to_exitcode(status)
    if child.returncode not in (0, 1):
        sys.exit(f"{words} failed")
    return usage.ru_utime + usage.ru_stime, time.monotonic() - began, usage.ru_maxrss / 1024


def make(hq, folder, count, *pages):
    folder, count = pathlib.Path(folder), int(count)
    folder.mkdir(parents=True, exist_ok=True)
    names = [str(path) for of in pages for path in pathlib.Path(of).rglob("*.html") if LEAST <= path.stat().st_size <= MOST]
    names = random.Random(1).sample(sorted(names), min(len(names), count))
    size, done = 0, 0
    with open(folder / "pages.jsonl", "w", encoding="utf-8") as out:
        while done < count:
            for name in names[: count - done]:
                page = subprocess.run([hq, "--document", "--", name], stdout=subprocess.PIPE, check=True).stdout
                if done < FILES:
                    (folder / f"{done}.html").write_bytes(page)
                out.write(json.dumps({"id": done, "html": page.decode()}, ensure_ascii=False) + "\n")
                size, done = size + len(page), done + 1
    print(f"{count} pages of {len(names)} files, {size} bytes")


def of_test_calls(test_calls, call, page, runs):
    with open(page, "rb") as given:
        done = subprocess.run([test_calls, "times", call, str(runs), SELECTOR], stdin=given, stdout=subprocess.PIPE, text=True)
    return int(done.stdout.split()[1]) if done.returncode == 0 else None


def times(hq, test_calls, folder):
    folder = pathlib.Path(folder)
    lines = folder / "pages.jsonl"
    names = sorted(folder.glob("*.html"), key=lambda it: int(it.stem))
    with open(lines, "rb") as given:
        total = sum(1 for _ in given)
    found = {"hq": [], "lxml": []}
    for _ in range(3):
        for name, words in (("hq", [hq, "--jsonl", "--text", SELECTOR]), ("lxml", [PYTHON, "-c", BY_LXML])):
            with open(lines, "rb") as given:
                found[name].append(used(words, given))
    for name, runs in found.items():
        print(f"{name}: {min(it[0] for it in runs) / total * 1e6:.1f} microseconds of processor time a page, {min(it[1] for it in runs) / total * 1e6:.1f} elapsed, {max(it[2] for it in runs):.1f} MB")
    several = []
    for page in names:
        with open(page, "rb") as given:
            several.append(used(["pup", f"{SELECTOR} text{{}}"], given)[0])
    print(f"pup, a process for each of {len(names)} pages: {sum(several) / len(several) * 1e6:.1f} microseconds of processor time a page")
    several = []
    for page in names:
        with open(page, "rb") as given:
            several.append(used([hq, "--text", SELECTOR], given)[0])
    print(f"hq, a process for each of them: {sum(several) / len(several) * 1e6:.1f}")
    with tempfile.NamedTemporaryFile() as some:
        with open(lines, "rb") as given:
            some.writelines(line for _, line in zip(range(len(names)), given))
        some.flush()
        repeated = pathlib.Path(some.name).read_bytes() * 10
        some.write(repeated)
        some.flush()
        runs = []
        for _ in range(5):
            with open(some.name, "rb") as given:
                runs.append(used([hq, "--jsonl", "--text", SELECTOR], given)[0] / (11 * len(names)))
    by_call = {call: [of_test_calls(test_calls, call, page, 30) for page in names] for call in ("page", "drop", "select")}
    refused = sum(it is None for it in by_call["page"])
    sums = {call: sum(it for it in values if it is not None) / 1e3 / (len(names) - refused) for call, values in by_call.items()}
    print(f"test_calls over {len(names) - refused} pages ({refused} are refused as explicit markup), microseconds a page: {', '.join(f'{call} {took:.1f}' for call, took in sums.items())}")
    print(f"hq --jsonl over these pages: {min(runs) * 1e6:.1f}; by test_calls {min(runs) * 1e6 / sum(sums.values()):.2f}")


def counted(words, given):
    counting = ["valgrind", "--tool=callgrind", "--callgrind-out-file=/dev/null", *words]
    done = subprocess.run(counting, stdin=given, stdout=subprocess.DEVNULL, stderr=subprocess.PIPE, text=True)
    return int(re.search(r"Collected : (\d+)", done.stderr)[1])


def instructions(hq, test_calls, folder, number):
    folder, number = pathlib.Path(folder), int(number)
    with open(folder / "pages.jsonl", "rb") as given:
        lines = [line for _, line in zip(range(number), given)]
    costs = []
    for several in (1, 3):
        with tempfile.TemporaryFile() as some:
            some.writelines(lines * several)
            some.seek(0)
            costs.append(counted([hq, "--jsonl", "--text", SELECTOR], some))
    ours = (costs[1] - costs[0]) / 2 / number
    sums = {}
    for call in ("page", "select"):
        sums[call] = 0
        for at in range(number):
            few, more = (counted_file([test_calls, "times", call, str(runs), SELECTOR], folder / f"{at}.html") for runs in (1, 5))
            sums[call] += (more - few) / 4 / number
    print(f"instructions a page: hq --jsonl {ours:,.0f}; test_calls {', '.join(f'{call} {cost:,.0f}' for call, cost in sums.items())}; ratio {ours / sum(sums.values()):.2f}")


def counted_file(words, name):
    with open(name, "rb") as given:
        return counted(words, given)


def memory(hq, folder, *several):
    lines = pathlib.Path(folder) / "pages.jsonl"
    for repeats in map(int, several):
        feeder = subprocess.Popen(["cat", *[lines] * repeats], stdout=subprocess.PIPE)
        took, elapsed, resident = used([hq, "--jsonl", "--text", SELECTOR], feeder.stdout)
        feeder.stdout.close()
        feeder.wait()
        print(f"all lines {repeats} times: {resident:.1f} MB, {took:.1f} s of processor time, {elapsed:.1f} s", flush=True)


if __name__ == "__main__":
    ways = {"make": make, "times": times, "instructions": instructions, "memory": memory}
    if len(sys.argv) < 4 or sys.argv[1] not in ways:
        sys.exit(__doc__)
    ways[sys.argv[1]](*sys.argv[2:])
