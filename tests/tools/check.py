"""The test command. Its last line is 'N passed, M failed', and its status is 0 where nothing failed.

It does this, in this order:

1. It runs the gate, `rt ci` (through tests/tools/gate.py), which proves every crate and runs every program once. Beside it,
   tests/tools/edits.py tries the must-fail edits of each crate as soon as the gate has proved it, and tests/tools/programs.py builds
   the programs of tests/programs, which are not proved. A gate that fails is run once more, over what it proved; where it fails again,
   what it says of that stands before the last line, and 2 and 3 are left out.
2. It runs the built programs on rows. A row is a line of JSON in tests/rows/PROGRAM/*.jsonl (for a part of the test program, in
   tests/rows/test_calls/PART/*.jsonl), or in tests/html5lib/*.jsonl (html5lib's tests of tree construction, which are rows of the
   program `hq`).
3. It runs the checks of tests/checks, the comparisons with the second definitions of tests/second_definitions, and the
   callers of tests/must-not-compile.
4. Where nothing failed, it leaves a record of that for `./release` in out/gate-passed.json (tests/tools/passed.py).

`check --rows` leaves out the gate and the record. `check --quick` leaves them out, too, and builds the programs and the library for C without
proofs: it needs nothing that was built before, and leaves out what needs proved libraries: the files of a release, and the callers of
tests/must-not-compile. `check --edits` tries the must-fail edits, too, that were refused before over the same files, and then
writes tests/must-fail/refused.txt, where it finds them the next time. What an earlier run on this machine showed of the same files is kept; `check --anew`
shows all of it again.

The fields of a row: `markup` is the standard input; `args` is the list of arguments, or `script` is the only argument; `output`
and `error` are what the program must write to standard output and standard error; `status` is its exit status, 0 if the field is
missing. `markup_hex` and `script_hex` hold bytes in hexadecimal, for inputs that are not UTF-8. A text may also be a list of
pieces, each a text and how often it is repeated, in which {n} is replaced by the number of the repetition; an argument may be
a list of a text and how often it is repeated. `entry` names the rule or the entry of a table that the row is for
(tests/checks/tables.py). `read` is what another parser, parse5, made of the output as the contents of a `div`: the output itself,
or else the row fails.

tests/checks/documents.py says how the commands, programs and outputs in the documents are checked.

A caller that must not compile is a file tests/must-not-compile/CRATE-WHAT.txt, a program that uses that crate alone. One line of it
ends in '// refused: WORDS': with that line the compiler must refuse the program with those words, and without it, it must compile."""
import json
import os
import pathlib
import re
import resource
import shutil
import subprocess
import sys
import time
from concurrent.futures import ThreadPoolExecutor

sys.dont_write_bytecode = True
TESTS = pathlib.Path(__file__).resolve().parents[1]
for folder in ("tools", "checks", "second_definitions"):
    sys.path.insert(0, str(TESTS / folder))
import articles  # noqa: E402
import c_and_python  # noqa: E402
import clean  # noqa: E402
import coverage  # noqa: E402
import depth  # noqa: E402
import documents  # noqa: E402
import edits  # noqa: E402
import encodings_of_pages  # noqa: E402
import growth  # noqa: E402
import growth_python  # noqa: E402
import hostile  # noqa: E402
import in_place  # noqa: E402
import line_lengths  # noqa: E402
import minutes  # noqa: E402
import options  # noqa: E402
import passed as record  # noqa: E402
import paths  # noqa: E402
import pictures  # noqa: E402
import programs  # noqa: E402
import reading_files  # noqa: E402
import reference  # noqa: E402
import refusals  # noqa: E402
import releases  # noqa: E402
import standard  # noqa: E402
import standard_parsing  # noqa: E402
import standard_rules  # noqa: E402
import standard_trees  # noqa: E402
import streams  # noqa: E402
import tables as entries_of_tables  # noqa: E402
import ways  # noqa: E402
from rows import PARTS, ROOT, SECONDS, UNPROVED, built, folder_of, given, started, words_of  # noqa: E402

NO_FUNCTION = "no_function_of_this_name"
SEED, FORESTS, PATHS, WAYS = 1, 2000, 500, 400
# The memory, in bytes, that must be free for each proof at a time: a crate's took up to 3.2 GB, the largest before
# it was split took 4.8. `rt` reckons with up to 9, which leaves processors idle.
PROOF = 4_000_000_000


class Clock:
    """How long each part of a run took by the wall, and of a processor the gate and all: that of the programs that were started."""

    def __init__(self):
        self.parts, self.begun = [], time.monotonic()
        self.last_lines, self.faults = [], []  # of the gate

    def note(self, part, wall, processor):
        self.parts.append((part, wall, processor))

    def timed(self, part, call):
        """Does the call, notes how long it took, and returns what it returns."""
        begun = time.monotonic()
        counted = call()
        self.note(part, time.monotonic() - begun, None)
        return counted

    def show(self):
        for part, wall, processor in self.parts:
            took = "" if processor is None else f", {processor / 60:.1f} of a processor"
            print(f"time of {part}: {wall / 60:.1f} minutes{took}")
        print("".join(f"the gate failed: {line}\n" for line in self.faults), end="")


def used(of=None):
    """The processor time of a program that ended, or of all that ended so far, in seconds."""
    of = of or resource.getrusage(resource.RUSAGE_CHILDREN)
    return of.ru_utime + of.ru_stime


def clear_built():
    """Removes what was built of the libraries: `rt ci` puts back what it found, beside which what it builds itself may not fit."""
    for folder in ROOT.glob("crates/*/out/rlib"):
        shutil.rmtree(folder)


def faults_in(lines):
    """What the gate's lines say of each crate that it did not prove, and at their end, where it stopped there; without the functions
    that are proved."""
    found, section = [], []
    for line in lines:
        section = [line] if line.startswith("== ") else [*section, line]
        if re.match(r"rt: .*(NOT PROVED|FAILED|killed)", line):
            found += [*section[-30:], ""]
            section = []
    return found + section[-10:]


def run_gate(clock, trials, anew):
    """Runs the gate, shows what it says, and has the edits of each crate tried that it proved. Returns its status and its last line."""
    side_by_side = max(1, min(trials.processors, trials.rt.free() // PROOF))
    env = {"RT_JOBS": str(side_by_side), **os.environ}
    command, begun = [sys.executable, TESTS / "tools" / "gate.py", *anew], time.monotonic()
    ran = subprocess.Popen(command, cwd=ROOT, env=env, stdout=subprocess.PIPE, stderr=subprocess.STDOUT, text=True)
    last, proved_at, functions, others = "", begun, [], []
    for line in ran.stdout:
        function = re.match(r"fn (\w+)::(\S+): proved", line)
        if function:
            functions.append((function[1], function[2].split("::")))
        else:
            others.append(line.rstrip())
        kept = re.match(r"rt: (\w+) is kept: ", line)
        proved = re.fullmatch(r"rt: (\w+)(?:: its tests are)? proved", line.strip())
        if kept:
            trials.built(kept[1], [])
        if proved:
            proved_at = time.monotonic()
            line = f"{line.rstrip()} (after {(proved_at - begun) / 60:.1f} minutes)\n"
            if "tests" not in line:
                trials.built(proved[1], [path for name, path in functions if name == proved[1]])
        sys.stdout.write(line)
        sys.stdout.flush()
        last = line.strip() or last
    _, status, of_gate = os.wait4(ran.pid, 0)
    ran.returncode = os.waitstatus_to_exitcode(status)
    ended = time.monotonic()
    clock.last_lines, clock.faults = others[-10:], faults_in(others) if ran.returncode else []
    clock.note("the gate's proofs", proved_at - begun, None)
    clock.note("the gate's runs after them", ended - proved_at, None)
    clock.note("the gate", ended - begun, used(of_gate))
    return ran.returncode, last


def gate(clock):
    """Runs the gate, and runs it once more where it failed, since a proof may have been stopped for memory, or the disk was full: what it
    proved is kept. Returns how many of its checks passed and failed, and what waits for the edits and returns how many of them
    did."""
    rt = shutil.which("rt")
    if rt is None:
        print("check: no command rt: the kit's folder bin must be on the PATH")
        return (0, 1), lambda: (0, 0)
    clear_built()
    if "--anew" in sys.argv:
        minutes.FOUND.unlink(missing_ok=True)
    trials = edits.Trials(anew=bool({"--anew", "--edits"} & set(sys.argv)), writes="--edits" in sys.argv)
    # (a kit whose rt keeps nothing shows all anew each time, and has no such word)
    anew = ["--anew"] if "--anew" in sys.argv and trials.refusals.kept else []
    status, last = run_gate(clock, trials, anew)
    if status and trials.refusals.kept and trials.refusals.kept.at and not anew:
        print("\n".join(["check: the gate failed:", *clock.faults, "check: what it did not prove is tried once more"]), flush=True)
        status, last = run_gate(clock, trials, anew)
    if status == 0:
        c_and_python.keep_of_gate()
    counted = re.fullmatch(r"(\d+) passed, (\d+) failed", last)
    passed, failed = (int(counted[1]), int(counted[2])) if counted else (0, 1)
    return (passed, failed if status == 0 or failed else 1), trials.finish


def fault_of(program, case):
    """What is wrong with the program's answer, or None."""
    if case.get("read", case.get("output")) != case.get("output"):
        return f"another parser reads the output as {case['read']}"
    try:
        ran = subprocess.run(
            [*started(program), *words_of(case)], input=given(case, "markup"), capture_output=True, timeout=SECONDS, cwd=ROOT
        )
    except (OSError, subprocess.TimeoutExpired) as stopped:
        return str(stopped)
    wanted = given(case, "output"), given(case, "error"), case.get("status", 0)
    got = ran.stdout, ran.stderr, ran.returncode
    return None if got == wanted else f"wanted {wanted}, got {got}"[:2000]


def run_rows(what, program, files):
    """Has the program asked each line of the files, and returns how many passed and failed."""
    lines = [(file, *it) for file in sorted(files) for it in enumerate(file.read_text(encoding="utf-8").splitlines(), 1)]
    with ThreadPoolExecutor(os.cpu_count()) as pool:
        faults = list(pool.map(lambda it: fault_of(program, json.loads(it[2])), lines))
    for (file, number, _), fault in zip(lines, faults):
        if fault is not None:
            print(f"{file.relative_to(ROOT)}:{number}: {fault}")
    failed = sum(fault is not None for fault in faults)
    print(f"{what}: {len(faults) - failed} passed, {failed} failed", flush=True)
    return len(faults) - failed, failed if len(faults) > failed else failed + 1


def rows():
    """Runs each program on its rows, and returns how many passed and failed."""
    counts = [run_rows(f"rows of {name}", name, folder_of(name).glob("*.jsonl")) for name in ("dq", "hq", *PARTS)]
    counts.append(run_rows("html5lib's tests of tree construction", "hq", (TESTS / "html5lib").glob("*.jsonl")))
    return tuple(sum(column) for column in zip(*counts))


def built_unproved():
    """Builds the programs that are run unproved, and looks whether the sources of tests/programs are formatted; returns how much of
    this is well and how much isn't."""
    with ThreadPoolExecutor() as pool:
        is_built = list(pool.map(programs.build, sorted(UNPROVED)))
    is_formatted = programs.formatted("--check")
    if not is_formatted:
        print("tests/programs: tests/tools/programs.py --fmt formats these sources", flush=True)
    well = [*is_built, is_formatted]
    return sum(well), len(well) - sum(well)


def cleaned():
    """Compares random forests that the program cleaned with a clean of our own."""
    passed, failed = clean.compared(built("dq"), SEED, FORESTS)
    print(f"forests that were cleaned: {passed} passed, {failed} failed")
    return passed, failed


def asked_each_way():
    """Compares what selectors select in random forests by each way."""
    passed, failed = ways.compared(started("queries"), SEED, WAYS)
    print(f"selectors in random forests, each way: {passed} passed, {failed} failed")
    return passed, failed


def followed():
    """Compares what paths find in random forests with a meaning of our own."""
    passed, failed = paths.compared(started("queries"), SEED, PATHS)
    print(f"paths in random forests: {passed} passed, {failed} failed")
    return passed, failed


def decoded():
    """Asks the decoders, the labels and what pages declare."""
    passed, failed = encodings_of_pages.run()
    print(f"encodings: {passed} passed, {failed} failed")
    return passed, failed


def wrong_bodies():
    """Looks for each must-fail edit that docs/WRONG_BODIES.md names, and returns how many are there and how many aren't."""
    text = (ROOT / "docs" / "WRONG_BODIES.md").read_text(encoding="utf-8")
    there = {file.stem for file in (TESTS / "must-fail").rglob("*.edit")}
    named = set(re.findall(r"`(\w+-[\w-]+)`", text))
    for name in sorted(named - there):
        print(f"WRONG_BODIES.md: there is no must-fail edit {name}")
    passed, failed = len(named & there), len(named - there)
    print(f"wrong bodies: {passed} passed, {failed} failed")
    return passed, failed if passed else failed + 1


def front_end(rt, root, name, source):
    """Whether the compiler takes the source as a program that uses that crate, over the libraries that the gate built, and
    what it says. Nothing is proved: no function has the name that is passed, so the compiler ends once it has read them all."""
    caller = root / "crates" / "caller"
    (caller / "src").mkdir(parents=True, exist_ok=True)
    (caller / "src" / "main.rt").write_text(source, encoding="utf-8")
    listed = (ROOT / "crates.txt").read_text(encoding="utf-8")
    (root / "crates.txt").write_text(f"{listed}caller: {name}\n", encoding="utf-8")
    # (rt reads a list of crates once)
    rt.rtlib.listed.cache_clear()
    crate = next(it for it in rt.rtlib.crates_below(str(root)) if it.name == "caller")
    said = rt.checked(crate, {}, ["--start", NO_FUNCTION, "--jobs", "1"], None).stdout
    return f"no function `{NO_FUNCTION}`" in said, said


def caller_fault(rt, root, file):
    """What is wrong with a caller that must not compile, or None."""
    lines = file.read_text(encoding="utf-8").splitlines(keepends=True)
    marks = [line.partition("// refused:") for line in lines]
    words = [mark[2].strip() for mark in marks if mark[1]]
    if len(words) != 1 or not words[0]:
        return "one line must end in '// refused: WORDS'"
    name = file.name.partition("-")[0]
    compiles, said = front_end(rt, root, name, "".join(lines))
    if compiles or words[0] not in said:
        return f"it compiles, or is refused for another reason: {said[-2000:]}"
    compiles, said = front_end(rt, root, name, "".join(line for line, mark in zip(lines, marks) if not mark[1]))
    return None if compiles else f"without that line it doesn't compile either: {said[-2000:]}"


def refused_callers():
    """Tries the callers that must not compile in a copy of the workspace, and returns how many are refused and how many
    aren't."""
    files = sorted((TESTS / "must-not-compile").glob("*.txt"))
    trials, passed, failed = edits.Trials(), 0, 0
    for name in trials.crates:
        trials.lend(name)
    for file in files:
        fault = caller_fault(trials.rt, pathlib.Path(trials.room.name), file)
        if fault is None:
            passed += 1
        else:
            failed += 1
            print(f"{file.relative_to(ROOT)}: {fault}")
    trials.room.cleanup()
    print(f"callers that must not compile: {passed} passed, {failed} failed")
    return passed, failed


def summed(clock, counts, sources=None):
    """Shows the times and the sums, and returns the status. Leaves the record where nothing failed of all that there is."""
    clock.note("all", time.monotonic() - clock.begun, used())
    clock.show()
    passed, failed = (sum(column) for column in zip(*counts))
    if not failed and sources is not None:
        record.write(sources, clock.last_lines, f"{passed} passed, {failed} failed")
    print(f"{passed} passed, {failed} failed")
    return 1 if failed else 0


def main():
    if sys.argv[1:] not in ([], ["--quick"], ["--rows"], ["--edits"], ["--anew"]):
        print("usage: check [--quick | --rows | --edits | --anew]; the head of tests/tools/check.py says what it does", file=sys.stderr)
        return 2
    # (by default the prover returns its memory to the system again and again, which takes 2 % of its time)
    os.environ.setdefault("MIMALLOC_PURGE_DELAY", "-1")
    clock, is_quick = Clock(), "--quick" in sys.argv
    sources = None if is_quick or "--rows" in sys.argv else record.begin()
    UNPROVED.update(("dq", "hq", programs.ARCHIVE) if is_quick else ())
    with ThreadPoolExecutor(1) as pool:
        building = pool.submit(clock.timed, "building without proofs", built_unproved)
        counts, edits_left = (None, lambda: (0, 0)) if is_quick or "--rows" in sys.argv else gate(clock)
    built_well = building.result()
    tables = [rows, cleaned, followed, asked_each_way]
    tables += [c_and_python.unproved] if is_quick else [c_and_python.c_and_python, releases.releases]
    tables += [documents.documents, reference.reference, options.options, articles.articles, standard.standard]
    tables += [standard_rules.checked, standard_parsing.checked, standard_trees.checked, wrong_bodies, line_lengths.line_lengths, coverage.coverage]
    tables += [entries_of_tables.tables, hostile.hostile, decoded, pictures.checked]
    counts = [built_well, counts] if counts else [built_well]
    if clock.faults:
        # (most rows and checks run programs that it did not build)
        counts.append(edits_left())
        return summed(clock, counts)
    with ThreadPoolExecutor() as pool:
        # (what is done beside the edits neither measures the processor time of others nor changes a child before it starts)
        beside = [("the edits, once the gate had ended", edits_left), ("the refusals", refusals.refusals)]
        beside = [pool.submit(clock.timed, *part) for part in beside]
        counts += [] if is_quick else [clock.timed("the callers that must not compile", refused_callers)]
        counts += clock.timed("the rows and checks", lambda: [each() for each in tables])
        counts += [it.result() for it in beside]
    alone = [("streams that fail", streams.streams), ("files that are read", reading_files.reading_files)]
    alone += [("files written in place", in_place.in_place), ("small address spaces", refusals.limited)]
    alone += [("deep and wide trees", depth.depth), ("the growth of the work", growth.growth)]
    alone += [("the growth of the work through Python", growth_python.growth)]
    counts += [clock.timed(part, each) for part, each in alone]
    return summed(clock, counts, sources)


if __name__ == "__main__":
    sys.exit(main())
