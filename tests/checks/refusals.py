"""Each request for memory refused in turn. The counter refuse.c is built with `cc` and preloaded: it refuses the Nth request
of a run, and N is counted up until a run meets no refusal. A refusal is reported as one, on standard error and by status
5; what was written is then a beginning of the output, and all that was asked for is given back. Where a refusal is passed by,
as that of a cache or of room that was asked for in advance, the answer is the right one.

A line of the parts `calls`, `queries` and `batch` of the test program is asked between two lines `state`, which print all that the document holds and ask for nothing.
Where a request of that line is refused, each line that it prints says so, or is printed with ample memory too, and the
document is as it was before, or as it is where the line is asked of the first nodes alone.

Where there is no `cc`, or its library can't be preloaded, this says so and counts nothing. Lines that are asked in ever
larger address spaces (`limited`) need no counter."""
import json
import os
import pathlib
import re
import resource
import shutil
import subprocess
import sys
import tempfile
from concurrent.futures import ThreadPoolExecutor

sys.path.insert(0, str(pathlib.Path(__file__).resolve().parents[1] / "tools"))
from rows import ROOT, SECONDS, built, folder_of, given, started, words_of  # noqa: E402

REPORTED = (b"dq: out of memory\n", b"dq: write failed\n", b"dq: read failed\n")
MANY = 3_000
# The files whose rows are all run with each request refused.
WHOLE = {"first_path", "lines", "selectors"}
# The line that prints all that the document holds.
STATE = b"state"
# The parts of the test program, and the files of their rows whose lines are run.
FILES = {
    "calls": "memory apart changes documents moves pages reading sanitising sinks texts values".split(),
    "queries": "cached indexes minis selections selectors several".split(),
    "batch": ["lines"],
}
# What is run in small address spaces, with so many paragraphs.
LIMITED = [("batch", b"texts"), *(("calls", line) for line in (b"print", b"clone", b"to-fragment 0", b"htmls 0", b"md 0", b"walk 0"))]
LIMITED += [("calls", b"nodes 1,5,9 append_html " + b"<i>x</i>" * 2_000)]
LIMITED += [("queries", line) for line in (b"places", b"select p b", b"selection p, b", b"step b", b"find 0 p > b")]
PARAGRAPH, PARAGRAPHS = b"<p class='a'>text that a node keeps apart, for it is long<b>b</b></p>", 1_000
# Address spaces differ by whole pages. The heap grows by pages too, so that a small request is refused where the space ends.
PAGE, BELOW, ABOVE = 4096, 64, 4
LEAST, MOST = 1 << 20, 1 << 26
BY_PAGES = {"GLIBC_TUNABLES": "glibc.malloc.top_pad=0"}
# Groups of calls whose second word names the call.
NAMED = {b"move", b"make", b"change", b"copy", b"sink-make", b"sink-put", b"sink-change"}
# A line that says that memory was refused.
REFUSAL = re.compile(rb"out of memory|^Memory( true)?\n|: -\n|^select: refused\n|^validate: false\n|^forest true false\n|^tests: \d+\n")
# How a line ends of which a request is refused.
REFUSED, UNREAD, ANSWERED, DONE = "refused", "unread", "answered", "done"
# How many lines of a call are tried for that which makes most requests, and so many leaves after it.
TRIED, LEAF, LEAVES = 6, b"<p></p>", 9
# Calls that take no memory: no request is made, but for the words of the line.
MOVES = "replace_with wrap_node remove_from_parent unwrap_node insert_siblings_before insert_siblings_after".split()
OF_TREE = "append_child_of prepend_child_of insert_before_of insert_after_of append_children_of prepend_children_of".split()
OF_TREE += ["remove_children_of", "reparent_children_of", *MOVES]
OF_NODE = "append_child prepend_child insert_before insert_after append_children prepend_children remove_children".split()
OF_NODE += ["strip_elements", "remove_attr", "remove_attrs", "retain_attrs", "remove_all_attrs", "update", *MOVES]
OF_NODES = "remove strip_elements remove_attr remove_attrs retain_attrs remove_all_attrs".split()
WITHOUT = {f"{group} {call}" for group, calls in (("move", OF_TREE), ("node", OF_NODE), ("nodes", OF_NODES)) for call in calls}
WITHOUT |= {f"sink-change {call}" for call in ("reparent_children", "remove_from_parent")}
WITHOUT |= {"change strip_elements_of", "change update_node", "sink-ask", "around", "count", "kinds", "named", "pseudos", "tokens"}
WITHOUT |= {"fence", "mark", "faults", "position", "node-numbers", "state", "apart-ask", "child", "options", "sizes"}
# Calls that pass a refusal by at least once: where a cache can't grow, the answer is found without it.
PASSING = {"cached"}


def library(folder):
    """The counter, or None where it can't be had."""
    compiler = shutil.which("cc")
    if compiler is None:
        print("refusals: skipped, there is no cc")
        return None
    file = pathlib.Path(folder) / "refuse.so"
    ran = subprocess.run([compiler, "-O2", "-shared", "-fPIC", "-o", file, ROOT / "tests" / "checks" / "refuse.c"], capture_output=True)
    if ran.returncode == 0 and counts(file, [built("dq"), b""], b"")[3]:
        return file
    print("refusals: skipped, the counter can't be built or preloaded")
    return None


def counts(counter, words, markup, refuse=""):
    """Runs a program under the counter: status, output, error, and the requests, the refusals and the blocks kept."""
    reads, writes = os.pipe()
    environment = {"LD_PRELOAD": str(counter), "REFUSE": refuse, "REFUSE_TO": str(writes)}
    try:
        ran = subprocess.run(words, input=markup, capture_output=True, timeout=SECONDS, env=environment, pass_fds=[writes])
        os.close(writes)
        report = [int(word) for word in os.read(reads, 200).split()]
        return ran.returncode, ran.stdout, ran.stderr, report
    finally:
        os.close(reads)


def refused_row(counter, case):
    """Refuses each request of a row in turn, alone and with all after it. Returns how many runs there were, how many of them
    passed the refusal by, and what is wrong."""
    words, markup = [built("dq"), *words_of(case)], given(case, "markup")
    status, output, error, report = counts(counter, words, markup)
    if len(report) != 3 or report[2]:
        return 0, 0, [f"without a refusal: {report}"]
    runs, passed_by, faults = 0, 0, []
    for number in range(1, report[0] + 1):
        for refuse in (str(number), f"{number}+"):
            got = counts(counter, words, markup, refuse)
            runs += 1
            is_same = got[:3] == (status, output, error)
            is_reported = got[0] == 5 and got[2] in REPORTED and output.startswith(got[1])
            passed_by += is_same
            if not (is_same or is_reported) or len(got[3]) != 3 or not got[3][1] or got[3][2]:
                faults.append(f"request {refuse}: {got}")
    return runs, passed_by, faults


def chosen():
    """Rows: all scripts of the first path, of lines and of selectors, and from the other files one for each set of lines and
    each status."""
    seen = set()
    for name in ("first_path", "lines", "markup", "formatted", "md", "selectors"):
        for number, line in enumerate((ROOT / "tests" / "rows" / "dq" / f"{name}.jsonl").read_text(encoding="utf-8").splitlines(), 1):
            case = json.loads(line)
            if len(given(case, "markup")) > MANY:
                continue
            lines = given(case, "script").split(b"\n") if "args" not in case else case["args"]
            words = frozenset(line.split(b" " if isinstance(line, bytes) else " ")[0] for line in lines)
            key = words, case.get("status", 0), case.get("error")
            if name in WHOLE or key not in seen:
                yield f"{name}.jsonl:{number}", case
            seen.add(key)


def rows(counter):
    """Refuses each request of each chosen row; returns how many rows passed and failed."""
    passed = failed = runs = passed_by = 0
    with ThreadPoolExecutor(os.cpu_count()) as pool:
        refused = list(pool.map(lambda row: (row[0], *refused_row(counter, row[1])), chosen()))
    for name, more, hints, faults in refused:
        runs, passed_by = runs + more, passed_by + hints
        for fault in faults[:3]:
            print(f"{name}: {fault}"[:600])
        passed, failed = passed + (not faults), failed + bool(faults)
    print(f"rows with each request refused: {passed} passed, {failed} failed ({runs} refusals, {passed_by} of them passed by)")
    return passed, failed if runs else failed + 1


def group_of(line):
    """The call that a line makes: its first word, and the word that names a call of that group."""
    words = line.split(b" ")
    at = {b"node": 2, b"nodes": 2}.get(words[0], 1 if words[0] in NAMED else 0)
    return b" ".join(dict.fromkeys([words[0], *words[at : at + 1]])).decode()


def asked_lines(program):
    """The lines of the rows of a program by their calls: each with the program, the row's markup and the lines in front of it."""
    lines = {}
    for name in FILES[program]:
        for line in (folder_of(program) / f"{name}.jsonl").read_text(encoding="utf-8").splitlines():
            case = json.loads(line)
            words, markup = words_of(case), given(case, "markup")
            if len(markup) <= MANY and words[0] != b"bulk":
                for at, word in enumerate(words):
                    # (a line `snippet` edits each of several nodes, whatever the others answer)
                    if not re.match(rb"snippet \d+,", word):
                        lines.setdefault(group_of(word), []).append((program, markup, words[:at], word))
    return lines


class Asked:
    """A line that is run with enough memory: what is printed before it, its answer, the document after it, and the requests that
    it makes, by their numbers."""

    def __init__(self, counter, program, markup, before, line):
        self.program, self.markup, self.before, self.line = program, markup, before, line
        still = counts(counter, [*started(program), *before, STATE, STATE, STATE], markup)
        done = counts(counter, self.words(), markup)
        self.is_well = still[0] == done[0] == 0 and still[3][2] == done[3][2] == 0
        self.state = b"".join(still[1].splitlines(True)[-1:])
        self.front = still[1][: -2 * len(self.state)]
        self.answer, self.after = self.parts(done[1])
        self.requests = range(still[3][0] + 1, done[3][0] + 1) if self.is_well else range(0)

    def words(self, line=None):
        return [*started(self.program), *self.before, STATE, self.line if line is None else line, STATE]

    def parts(self, output):
        """The lines of the answer, and the document after it; None where that isn't printed."""
        lines = output[len(self.front) :].splitlines(True)
        return (lines[:-1], lines[-1]) if lines else ([], None)

    def state_after(self, count):
        """What the document contains if the line is run for so many of its nodes alone."""
        group, ids, rest = self.line.split(b" ", 2)
        line = b" ".join([group, b",".join(ids.split(b",")[:count]), rest])
        ran = subprocess.run(self.words(line), input=self.markup, capture_output=True, timeout=SECONDS)
        return self.parts(ran.stdout)[1]

    def ending(self, got):
        """How a run ended in which a request of the line was refused: what is wrong, or None; and whether the line says that memory was
        refused (REFUSED), couldn't be read for want of it (UNREAD), or is answered all the same (ANSWERED)."""
        status, output, _, report = got
        if not output.startswith(self.front) or len(report) != 3 or not report[1] or report[2]:
            return f"counted {report}, {output[-300:]}", ANSWERED
        answer, after = self.parts(output) if status == 0 else (output[len(self.front) :].splitlines(True), None)
        said = [line for line in answer if REFUSAL.search(line)]
        is_known = all(line in said or line in self.answer for line in answer)
        if status == 1:
            return (None if is_known else f"{answer}"[:600]), UNREAD
        wanted, kind = (self.state_refused(said), REFUSED) if said else (self.after, ANSWERED)
        is_known = is_known and (bool(said) or answer == self.answer)
        return (None if is_known and after == wanted and status == 0 else f"{status}, {answer}"[:600]), kind

    def state_refused(self, said):
        """What the document holds where the line says that memory was refused: what it held before, or where several nodes are edited
        in turn, what it holds with the first of them alone."""
        done = [int(count) for line in said for count in re.findall(rb"refused after (\d+) nodes", line)]
        return self.state_after(done[0]) if done else self.state


def chosen_line(counter, lines):
    """The line of a call that makes most requests, over a document that has as many more leaves as the nodes have room for."""
    asked = [Asked(counter, *line) for line in lines[:TRIED]]
    best = max(asked, key=lambda it: len(it.requests))
    grown = [Asked(counter, best.program, best.markup + LEAF * count, best.before, best.line) for count in range(1, LEAVES)]
    return max([best, *grown], key=lambda it: len(it.requests))


def refused_line(counter, name, lines):
    """Refuses each request of a line in turn, alone and with all after it. Returns how many were refused, and what is wrong."""
    asked = chosen_line(counter, lines)
    faults, kinds = [] if asked.is_well else ["not done with ample memory"], []
    for number in asked.requests:
        for refuse in (str(number), f"{number}+"):
            fault, kind = asked.ending(counts(counter, asked.words(), asked.markup, refuse))
            kinds.append(kind)
            faults += [f"request {refuse}: {fault}"] if fault else []
    if set(kinds) - {UNREAD} if name in WITHOUT else REFUSED not in kinds or name in PASSING and ANSWERED not in kinds:
        faults.append(f"of {len(kinds)} refusals {kinds.count(REFUSED)} are reported, {kinds.count(ANSWERED)} passed by")
    return len(kinds), faults


def calls(counter, program):
    """Refuses each request of a line of each call of a program; returns how many passed and failed."""
    passed = failed = refusals = 0
    for name, lines in asked_lines(program).items():
        refused, faults = refused_line(counter, name, lines)
        for fault in faults[:3]:
            print(f"{program} '{name}': {fault}"[:600])
        passed, failed, refusals = passed + (not faults), failed + bool(faults), refusals + refused
    print(f"lines of {program} with each request refused: {passed} passed, {failed} failed ({refusals} refusals)")
    return passed, failed if passed else failed + 1


def within(program, line, limit=None):
    """How a line is answered over many paragraphs, in an address space of so many bytes."""
    limited_to = (lambda: resource.setrlimit(resource.RLIMIT_AS, (limit, limit))) if limit else None
    words, markup = [*started(program), line], PARAGRAPH * PARAGRAPHS
    return subprocess.run(words, input=markup, capture_output=True, timeout=SECONDS, preexec_fn=limited_to, env={**os.environ, **BY_PAGES})


def ending_within(ran, ample):
    """How a line ended in a small address space: DONE, REFUSED where it says that memory was refused, UNREAD where the paragraphs couldn't be read or the
    program not be loaded, which has the status 127; or None where it is answered in another way."""
    answer = ran.stdout.splitlines(True)
    said, known = [line for line in answer if REFUSAL.search(line)], set(ample.stdout.splitlines(True))
    if ran.returncode == 0 and ran.stdout == ample.stdout:
        return DONE
    if ran.returncode in (1, 127) and not answer:
        return UNREAD
    is_refused = ran.returncode in (0, 1) and said and all(line in said or line in known for line in answer)
    return REFUSED if is_refused else None


def endings_of(program, line):
    """How a line ends in address spaces round the least one, to a page, in which it is answered, from the smallest on."""
    ample, least, enough = within(program, line), LEAST, MOST
    ending = lambda limit: ending_within(within(program, line, limit), ample)
    while enough - least > PAGE:
        middle = (least + enough) // 2
        least, enough = (least, middle) if ending(middle) == DONE else (middle, enough)
    return [ending(enough + pages * PAGE) for pages in range(-BELOW, ABOVE)]


def limited():
    """Asks lines in ever larger address spaces, without any counter: each says that memory was refused, and then is answered.
    Returns how many lines passed and failed."""
    passed = failed = 0
    for program, line in LIMITED:
        endings = endings_of(program, line)
        is_well = None not in endings and REFUSED in endings and endings[-1] == DONE
        passed, failed = passed + is_well, failed + (not is_well)
        if not is_well:
            print(f"in small address spaces: {line}: {endings}"[:600])
    print(f"lines in ever larger address spaces: {passed} passed, {failed} failed")
    return passed, failed if passed else failed + 1


def refusals():
    """Returns how many rows and calls passed and failed."""
    with tempfile.TemporaryDirectory() as folder:
        counter = library(folder)
        if counter is None:
            return 0, 0
        counted = [rows(counter), *(calls(counter, program) for program in FILES)]
    return tuple(sum(column) for column in zip(*counted))
