"""Tries the must-fail edits of tests/must-fail, many at once. An edit turns the meaning of one function, and the prover
must refuse that function: a function that calls it doesn't count, nor does the crate as a whole.

An edit is a file tests/must-fail/CRATE/NAME.edit, in the form of `rt must-fail`: a line 'file: src/FILE.rt', then pairs
of lines 'old: TEXT' and 'new: TEXT', where the file contains the old text once. The edits of different functions are
put into one copy of the crate, which is checked over the libraries that the gate built. A proof cites the contracts of
what it calls and no code, so in that copy every other function has an endless loop for a body and a hole for a proof,
which cost next to nothing; functions of a cycle of calls have one proof, and stay as they are where an edit changes one of
them. A caller of a function
that is refused says no more of itself, so what wasn't shown is tried again with what is left, and what is still not
shown, and an edit of no function (a constant), alone, as `rt must-fail` does it: over the whole crate, any refusal will
do, and it is reported as one elsewhere.

`edits.py --control [CRATE ..]` tries the same functions without their edits: the prover must refuse none of them.

`edits.py [CRATE ..]` tries the edits of these crates, or of all, with the libraries that are built in the workspace, but for those
that were refused before over the same files: on any machine, as tests/must-fail/refused.txt says, or on this one, where it keeps what
was refused, as `rt ci` does. `--anew` tries all again. `--record` writes refused.txt: what was refused now or before over the same
files, and nothing else. A line of it is the name of an edit and a checksum of the edit, of the kit, and of what its trial reads: of
the crate the definitions, the lemmas, the contracts, and the bodies and answers of the functions that it turns; of the crates below
the definitions, and the sources without bodies, private functions and comments. What is refused over the whole crate alone is
refused of all the crate's files. A library
says the paths of its public functions alone. With `--log=FILE`, the output of a gate that proved the crates, those of the
others are known, too; without it, an edit of another function is tried over the whole crate, which takes minutes."""
import functools
import hashlib
import importlib.machinery
import importlib.util
import itertools
import json
import os
import pathlib
import re
import shutil
import sys
import tempfile
import threading
import time
from concurrent.futures import ThreadPoolExecutor

sys.path.insert(0, str(pathlib.Path(__file__).resolve().parent))
import minutes  # noqa: E402

ROOT = pathlib.Path(__file__).resolve().parents[2]
EDITS = ROOT / "tests" / "must-fail"
RECORD = EDITS / "refused.txt"
HEAD = re.compile(r'(\s*)(?:pub(?:\([^)]*\))? )?(?:const )?(?:unsafe )?(?:extern "C" )?fn (\w+)')
NOTE = re.compile(r"(?:note: )?(?:\./)?(src/\S+?):(\d+):\d+: ")
IMPL = re.compile(r"impl\b(?:<(.*?)>)? (?:(\w+)(?:<(?:'\w+,? ?)*&?(\w*).*>)? for )?(\w+)")
ELSEWHERE = "elsewhere"
HOLE = "use Rattle.{0}.Statement.{{statement}}\n\npub {1}_spec : {{M : Type 1}} → statement M\n{1}_spec = ?\n"
FUNCTION = re.compile(r"fn (\S+): (?:no proof|not proved)")
CYCLE = re.compile(r"\s*#\[cycle\((\w+)\)")
CALLS = re.compile(r"it calls `.*`, which (?:is|are) not proved|a call of `.*`, which has no proof")
# what begins a block of functions, and the names of the files of one function's proof alone
BLOCK = re.compile(r"\s*(?:pub )?(?:unsafe )?(?:impl|trait)\b")
OF_ONE = {"Answers.antt", "Invariants.antt", "Proof.antt"}
OWN = re.compile(r"did not prove `|it stands on `")
STANDS = re.compile(r"`Rattle\.\w+\.proofs\.([^`]+)`")
MET = r'"(?:part/)?Rattle-{0}-proofs\.([\w.]+)\.Met"'


def toolchain():
    """The command `rt` as a module, which knows how the prover is called over what the gate built."""
    file = os.path.realpath(shutil.which("rt"))
    loader = importlib.machinery.SourceFileLoader("rt_command", file)
    module = importlib.util.module_from_spec(importlib.util.spec_from_loader("rt_command", loader))
    sys.modules["rt_command"] = module
    loader.exec_module(module)
    module.rtlib.Crate = module.Crate
    module.rtlib.guarded()
    return module


def linked(file, to):
    """Puts a file there: the file itself under a second name where that can be, or else a copy."""
    try:
        os.link(file, to)
    except OSError:
        shutil.copy2(file, to)


def function_at(lines, at):
    """The function that contains the line `at` (from 0): its name, its first line and its last, or None."""
    for first in range(at, -1, -1):
        head = HEAD.match(lines[first])
        if head:
            ends = (line for line in range(first, len(lines)) if lines[line] == f"{head[1]}}}")
            last = first if lines[first].endswith("}") else next(ends, first)
            if at <= last:
                return head[2], first, last
    return None


def owner_of(lines, first):
    """The name under which the prover knows the `impl` that contains the function at that line, or None: the type, and the
    trait with its first argument, if that is no parameter of the `impl`."""
    if not lines[first].startswith(" "):
        return None
    found = next((IMPL.match(line) for line in reversed(lines[:first]) if IMPL.match(line)), None)
    if found is None:
        return None
    generics, trait, argument, of = found.groups(default="")
    return of + trait + ("" if argument in re.findall(r"\w+", generics) else argument)


def body_of(lines, first):
    """The lines of the brace that opens the body of the function at that line, and of the one that closes it, or None."""
    indent, has_contract = HEAD.match(lines[first])[1], False
    for at in range(first, len(lines)):
        has_contract = has_contract or bool(re.match(r"\s*(requires|ensures|ghost)\b", lines[at]))
        if lines[at] == f"{indent}{{" or lines[at].endswith(" {") and not has_contract:
            return at, lines.index(f"{indent}}}", at)
        if not lines[at] or lines[at].endswith(("}", ";")) and not has_contract or lines[at] == f"{indent}}}":
            return None
    return None


def cycles_in(lines):
    """The functions of cycles of calls: for the first line of each, the line that names its cycle, and that name."""
    found = {}
    for first, line in enumerate(lines):
        above = range(first - 1, -1, -1) if HEAD.match(line) else ()
        for at in itertools.takewhile(lambda at: lines[at].strip().startswith(("#[", "///")), above):
            cycle = CYCLE.match(lines[at])
            if cycle:
                found[first] = at, cycle[1]
    return found


def calls_itself(lines, first):
    """Whether the function at that line calls itself, so that it is a cycle of calls alone, which no line names."""
    indent, name = HEAD.match(lines[first]).groups()
    call, body = re.compile(rf"\b[Ss]elf(?:\.|::){name}\(" if indent else rf"(?<![\w.:]){name}\("), body_of(lines, first)
    return body is not None and any(map(call.search, lines[body[0] + 1 : body[1]]))


def without_bodies(text, kept):
    """The text with an endless loop for the body of each function but those that begin at the lines kept, those that are of
    a cycle with one of them, and those that constants are made by. Also the names of the functions of the cycles that
    stay, and the names of the cycles that are none any more."""
    lines = text.split("\n")
    cycles = cycles_in(lines)
    held = {name for first, (_, name) in cycles.items() if first in kept}
    for first, line in enumerate(lines):
        stays = first in kept or " const fn " in f" {line}" or first in cycles and cycles[first][1] in held
        body = body_of(lines, first) if HEAD.match(line) and not stays else None
        if body and body[1] - body[0] > 1:
            indent = HEAD.match(line)[1]
            lines[body[0] + 1 : body[1]] = [f"{indent}    loop {{}}", *[""] * (body[1] - body[0] - 2)]
        if body and first in cycles:
            lines[cycles[first][0]] = ""
    names = {HEAD.match(lines[first])[2] for first, (_, name) in cycles.items() if name in held}
    names |= {HEAD.match(lines[first])[2] for first in kept if calls_itself(lines, first)}
    return "\n".join(lines), names, {name for _, name in cycles.values()} - held


class Edit:
    """An edit of one file: the lines that it changes, by their place, and the functions that it turns."""

    def __init__(self, file, folder):
        self.name, self.text = f"{file.parent.name}/{file.stem}", file.read_text(encoding="utf-8")
        self.path, self.lines, self.places, self.functions, self.fault, old = "", {}, set(), set(), None, ""
        for line in self.text.splitlines():
            key, _, text = line.partition(": ")
            if key == "file":
                self.path = text
                before = source = (folder / text).read_text(encoding="utf-8")
            elif key == "old":
                old = text
            elif key in ("new", "new:"):
                if source.count(old) != 1:
                    self.fault = f"{old!r} is in {self.path} {source.count(old)} times, and not once"
                    return
                source = source.replace(old, text)
        was, now = before.split("\n"), source.split("\n")
        self.lines = {at: line for at, line in enumerate(now) if line != was[at]}
        self.places = {function_at(was, at) for at in self.lines}
        self.owners = {place[0]: owner_of(was, place[1]) for place in self.places if place}
        if not self.lines:
            self.fault = "it changes nothing"

    def is_of(self, path):
        """Whether it changes the function of that path: one of its name in the `impl`, or in the module, of that
        file."""
        module = [it for it in pathlib.Path(self.path).with_suffix("").parts[1:] if it != "lib"]
        return path[-1] in self.owners and (self.owners[path[-1]] or "") in ("", *path) and (
            self.owners[path[-1]] is not None or path[:-1] == module
        )

    def is_apart(self, taken):
        """Whether it is of functions alone, and of none of those taken."""
        return None not in self.places and not any((self.path, place) in taken for place in self.places)

    def refusal(self, said):
        """The line by which the prover refuses what the edit turns, or None."""
        own = [line for line in said if not CALLS.search(line) or OWN.search(line)]
        for line in own:
            note = NOTE.match(line)
            if note and note[1] == self.path and any(it and it[1] < int(note[2]) <= it[2] + 1 for it in self.places):
                return line
        reported = (FUNCTION.match(line) for line in own)
        return next((it.string for it in reported if it and it[1] in self.functions and is_of_itself(it.string, it[1])), None)


def is_of_itself(line, function):
    """Whether the function is refused for an answer of its own, where the line names answers, and not for those of another
    function that an edit turned in the same copy alone. A function of a cycle has its answers in the cycle's file."""
    answers, path = STANDS.findall(line), function.split("::")[1:]
    return not answers or any(
        it.startswith(f"{'.'.join(path)}.") or re.search(rf"\.\+\w+\.Answers\.{path[-1]}-", it) for it in answers
    )


def apart(edits):
    """As many of the edits as turn different functions, from the first on, or else the first alone."""
    chosen, taken = [], set()
    for edit in edits:
        if edit.is_apart(taken):
            chosen.append(edit)
            taken.update((edit.path, place) for place in edit.places)
    return chosen or edits[:1]


def texts_with(edits, folder):
    """The texts of the files that the edits change."""
    texts = {}
    for path in {edit.path for edit in edits}:
        lines = (folder / path).read_text(encoding="utf-8").split("\n")
        for edit in edits:
            for at, line in edit.lines.items() if edit.path == path else ():
                lines[at] = line
        texts[path] = "\n".join(lines)
    return texts


def name_of_functions(crate):
    """The name under which the paths of a crate's functions are kept: a sum of its sources, which alone say what these are."""
    files = sorted((pathlib.Path(crate.folder) / "src").rglob("*.rt"))
    return hashlib.sha256(repr((crate.name, "functions", [it.read_bytes() for it in files])).encode()).hexdigest()


def seen_inside(text, kept):
    """What a trial reads of a source of its own crate: no comment, and no body but those of the functions at the lines kept."""
    return [line for line in without_bodies(text, kept)[0].split("\n") if line.strip() and not line.lstrip().startswith("//")]


def seen_outside(text):
    """What a check of a crate above reads of a source: no comment, no body, and no private function but those of a trait."""
    lines, seen, hidden, is_shown = seen_inside(text, set()), [], -1, False
    if "macro_rules!" in text:
        return text
    for at, line in enumerate(lines):
        if BLOCK.match(line):
            is_shown = " for " in line or not line.endswith("{") or "trait " in line
        if at > hidden and HEAD.match(line) and not (is_shown or line.lstrip().startswith("pub ") or " const fn" in f" {line}"):
            hidden = function_at(lines, at)[2]
        if at > hidden:
            seen.append(line)
    return seen


def sum_of(read):
    """A checksum of what can be printed."""
    return hashlib.sha256(repr(read).encode()).hexdigest()


def texts_in(folder, part):
    """The texts of the files in a part of a crate's folder, each with its path there."""
    files = sorted(it for it in pathlib.Path(folder, part).rglob("*") if it.is_file())
    return [(str(it.relative_to(folder)), it.read_text(encoding="utf-8")) for it in files]


def sum_below(folder):
    """A checksum of what the crates above read of the crate in this folder."""
    return sum_of([[(path, seen_outside(text)) for path, text in texts_in(folder, "src")], texts_in(folder, "specs")])


def sum_of_trial(folder, edit):
    """A checksum of what the trial of an edit of functions reads of its crate."""
    kept = {place[1] for place in edit.places}
    turned = {place[0] for place in edit.places}
    src = [(path, seen_inside(text, kept if path == edit.path else set())) for path, text in texts_in(folder, "src")]
    is_read = lambda path: path.name not in OF_ONE or not turned.isdisjoint(path.parts) or "+" in str(path)
    proofs = [(path, text) for path, text in texts_in(folder, "proofs") if is_read(pathlib.Path(path))]
    return sum_of([src, texts_in(folder, "specs"), proofs])


def sum_of_crate(folder):
    """A checksum of a crate's files."""
    return sum_of([texts_in(folder, part) for part in ("src", "specs", "proofs")])


class Refusals:
    """What earlier runs on this machine had refused, where `rt` keeps what it proved; a kit whose `rt` keeps nothing has every
    edit tried. The name of an entry is a sum of the edit, of the crate with those below it, and of this script. The paths of
    a crate's functions are kept beside them, since a library has no more of its private functions, and a gate that takes what
    was proved before doesn't print them."""

    def __init__(self, rt, crates, anew):
        self.kept = rt.Kept(crates, anew) if hasattr(rt, "Kept") else None
        self.stamp = lambda crate: rt.stamp_of(crate, {})
        self.rt, self.script = rt, pathlib.Path(__file__).read_bytes()

    def tried(self, name):
        """What is kept under that name, or None."""
        found = self.kept.tried(name) if self.kept else None
        return found and found[1]

    def keep_tried(self, name, text):
        if self.kept:
            self.kept.keep_tried(name, self.rt.REFUSED, text)

    def name(self, crate, *parts):
        """The name under which something of the crate is kept."""
        return hashlib.sha256(repr((self.stamp(crate), *parts)).encode()).hexdigest() if self.kept else ""

    def of(self, crate, edit):
        """The line by which an earlier run had the edit refused, or None."""
        return self.tried(self.name(crate, edit.name, edit.text, self.script))

    def keep(self, crate, edit, line):
        self.keep_tried(self.name(crate, edit.name, edit.text, self.script), line)

    def functions(self, crate, proved):
        """The paths of the crate's functions: those that the gate has just proved, or else those that it proved before of the
        same sources, whatever the crates below were then."""
        name = name_of_functions(crate)
        if proved:
            self.keep_tried(name, json.dumps(proved))
        return proved or json.loads(self.tried(name) or "[]")


class Record:
    """The record of the repository: the edits that were refused, each with a checksum of what it was tried on."""

    def __init__(self, rt, is_read):
        lines = RECORD.read_text(encoding="utf-8").splitlines() if RECORD.exists() else []
        self.lines, self.is_read, self.found = dict(line.split() for line in lines), is_read, {}
        self.kit = (pathlib.Path(rt.rtlib.KIT) / "KIT-ID").read_text(encoding="utf-8")
        self.below, self.whole = (functools.lru_cache(maxsize=None)(it) for it in (sum_below, sum_of_crate))

    def sum_of(self, crate, edit, is_whole):
        """The checksum of an edit and of what its trial reads, which may be the whole crate."""
        own = self.whole(crate.folder) if is_whole else sum_of_trial(crate.folder, edit)
        below = sorted((low.name, self.below(low.folder)) for low in crate.below())
        return sum_of([self.kit, edit.name, edit.text, own, below])[:24]

    def has(self, crate, edit):
        """Whether the edit was refused over the same files."""
        for is_whole in [True] if None in edit.places else [False, True]:
            if self.is_read and self.lines.get(edit.name) == self.sum_of(crate, edit, is_whole):
                self.found[edit.name] = self.lines[edit.name]
                return True
        return False

    def keep(self, crate, edit, line):
        """Notes that the edit was refused by this line over these files."""
        self.found[edit.name] = self.sum_of(crate, edit, line.startswith(ELSEWHERE) or None in edit.places)

    def write(self, names):
        """Writes the record: for these crates what was found, for others what was there."""
        others = {edit: of for edit, of in self.lines.items() if edit.partition("/")[0] not in names}
        lines = sorted(f"{edit} {of}\n" for edit, of in {**others, **self.found}.items())
        RECORD.write_text("".join(lines), encoding="utf-8")
        print(f"{RECORD.relative_to(ROOT)}: {len(lines)} edits, {len(self.found)} of them found now")


class Trial:
    """The edits of one crate, tried in rounds over what the rounds before proved."""

    def __init__(self, trials, crate, proved):
        self.rt, self.crate, self.jobs, self.is_control, self.wrong = trials.rt, crate, trials.jobs, trials.is_control, []
        self.refusals, self.record = trials.refusals, trials.record
        self.folder = pathlib.Path(crate.folder)
        # (what is derived may be in a cycle of calls, except `from`, and what is re-exported has no code here)
        owners, modules = {}, set()
        for file in (self.folder / "src").rglob("*.rt"):
            lines = file.read_text(encoding="utf-8").split("\n")
            modules.add(file.stem)
            for first, head in enumerate(map(HEAD.match, lines)):
                if head:
                    owners.setdefault(head[2], set()).update([owner_of(lines, first), file.stem])
        is_written = lambda path: not owners.get(path[-1], set()).isdisjoint(["lib", *path[:-1]])
        is_from = lambda path: path[-1] == "from" and path[0] in modules
        self.functions = [path for path in proved or self.kept_paths() if is_written(path) or is_from(path)]

    def kept_paths(self):
        """The paths of the functions whose proofs a library has that was built outside the gate; none of a static library, whose
        edits are then tried over the whole crate."""
        built = pathlib.Path(self.crate.rlib) / "toolchain" / "checked.json"
        text = built.read_text(encoding="utf-8") if built.exists() else ""
        return [path.split(".") for path in re.findall(MET.format(self.crate.name), text)]

    def has_proof(self, path):
        """Whether the function has a file of a proof of its own."""
        return any((self.folder / "proofs").joinpath(*path).glob("*.antt"))

    def asked_by(self, edits):
        """The functions that the edits change, by their paths; None where one of an edit isn't known."""
        asked = []
        for edit in edits:
            known = [path for path in self.functions if edit.is_of(path)]
            edit.functions = {"::".join([self.crate.name, *path]) for path in known}
            asked += known or [None]
        return asked

    def write_copy(self, room, edits, asked):
        """Writes the crate with the edits, and with holes in place of the other functions where some are asked for."""
        for part in ("src", "specs", "proofs"):
            shutil.copytree(self.folder / part, room / part)
        texts, cyclic = {} if self.is_control else texts_with(edits, self.folder), set()
        within = [[*path[:-1], "fn", path[-1]] for path in asked]
        for file in (room / "src").rglob("*.rt") if asked else ():
            path = str(file.relative_to(room))
            kept = {place[1] for edit in edits if edit.path == path for place in edit.places}
            texts[path], held, loose = without_bodies(texts.get(path) or file.read_text(encoding="utf-8"), kept)
            cyclic |= held
            for folder in [it for cycle in loose for it in (room / "proofs").rglob(f"+{cycle}")]:
                shutil.rmtree(folder)
        for path, text in texts.items():
            (room / path).write_text(text, encoding="utf-8")
        for path in self.functions if asked else ():
            proofs = room / "proofs" / pathlib.Path(*path)
            if path in asked and path[-1] not in cyclic and not self.is_control and not self.has_proof(path):
                # with a file of answers, if without any, the prover looks for none to offer
                proofs.mkdir(parents=True, exist_ok=True)
                (proofs / "Answers.antt").write_text("-- none\n", encoding="utf-8")
            elif not (
                path in asked
                or any(path[: len(it)] == it for it in within)
                or path[-1] in {"TheImpl", *cyclic}
                or "+" in str(proofs)
            ):
                shutil.rmtree(proofs, ignore_errors=True)
                proofs.mkdir(parents=True)
                module = f"{self.crate.name}.proofs.{'.'.join(path)}"
                (proofs / "Proof.antt").write_text(HOLE.format(module, path[-1]), encoding="utf-8")

    def said_of(self, edits, kept, is_whole=False):
        """What the prover says of the crate with these edits, in lines: none where it was not reached."""
        asked = [] if is_whole else [path for path in self.asked_by(edits) if path]
        only = [word for path in asked for word in ("--only", "::".join([self.crate.name, *path]))]
        with tempfile.TemporaryDirectory(prefix="edits-copy-") as room:
            crate = self.rt.copy.copy(self.crate)
            crate.folder = room
            self.write_copy(pathlib.Path(room), edits, asked)
            flags = [*only, *(["--allow-holes"] if asked else []), "--jobs", str(self.jobs())]
            ran = self.rt.checked(crate, {}, flags, kept)
        said = ran.stdout.splitlines() or [""]
        return said if ran.returncode in (0, 1) and re.match("logic=not-proved|only=", said[-1]) else []

    def tried(self, edits, kept):
        """Tries edits of different functions at once, tells of those that were refused, and returns the batches of those
        that are to be tried again."""
        begun = time.monotonic()
        said = self.said_of(edits, kept)
        shown = {it: it.refusal(said) for it in edits if it.refusal(said)}
        if len(edits) == 1 and not shown and any(self.asked_by(edits)):
            said = self.said_of(edits, kept, is_whole=True)
            shown = {it: it.refusal(said) for it in edits if it.refusal(said)}
        print(f"edits of {self.crate.name}: {len(edits)} at once, {time.monotonic() - begun:.0f} s", flush=True)
        if len(edits) == 1 and said and not shown:
            shown = {edits[0]: f"{ELSEWHERE}: {next(filter(NOTE.match, said), said[-1])}"}
        for edit, line in shown.items():
            print(f"must-fail {edit.name}: refused: {line[:160]}", flush=True)
            self.refusals.keep(self.crate, edit, line[:160])
            self.record.keep(self.crate, edit, line)
        if len(edits) == 1 and not shown:
            why = "NOT REFUSED" if said else "NOT TRIED, for the prover was not reached"
            print(f"must-fail {edits[0].name}: {why}", flush=True)
            self.wrong += edits
        missed = [it for it in edits if it not in shown and it not in self.wrong]
        if said and not shown:
            return [[it] for it in missed]
        half = len(missed) // 2 if not said else 0
        return [it for it in (missed[:half], missed[half:]) if it]

    def refused_without(self, edits):
        """The edits whose functions the prover refuses as they are, which would show nothing: there must be none."""
        with tempfile.TemporaryDirectory(prefix="edits-") as kept:
            said = self.said_of(edits, kept)
        refused = [it for it in edits if it.refusal(said)]
        for edit in refused if said else edits:
            print(f"must-fail {edit.name}: REFUSED WITHOUT IT: {edit.refusal(said) or 'the prover was not reached'}", flush=True)
        return refused if said else edits

    def not_refused(self, edits):
        """Tries the edits in rounds, and returns those that were not refused."""
        batches, over = [edits] if edits else [], None
        with tempfile.TemporaryDirectory(prefix="edits-") as kept:
            while batches:
                batch = batches.pop()
                now = apart(batch)
                later = [it for it in batch if it not in now]
                # (keeping what was proved takes time, and mostly one round is all)
                again, over = self.tried(now, over), kept
                # what a refused function hid joins what waited for it
                batches += [again[0] + later] if len(again) == 1 else [*again, later] if later else again
        return self.wrong


class Trials:
    """The edits of all crates, each crate's tried as soon as it is built, in a copy of the workspace."""

    def __init__(self, is_control=False, anew=False, writes=False):
        self.rt, self.room, self.is_control = toolchain(), tempfile.TemporaryDirectory(prefix="edits-workspace-"), is_control
        minutes.measured(self.rt, "edits")
        self.processors = self.rt.processors()
        # (the gate's own proofs wait for one another, so they go first)
        self.lanes, self.is_beside, self.counts = max(1, self.processors // 4), True, []
        self.turns = threading.Semaphore(self.lanes)
        self.pool = ThreadPoolExecutor(self.processors, initializer=os.nice, initargs=(10,))
        root = pathlib.Path(self.room.name)
        shutil.copy(ROOT / "crates.txt", root / "crates.txt")
        shutil.copytree(ROOT / "crates", root / "crates", ignore=shutil.ignore_patterns("out", "must-fail"))
        self.crates = {it.name: it for it in self.rt.rtlib.crates_below(str(root))}
        self.refusals, self.record = Refusals(self.rt, list(self.crates.values()), anew), Record(self.rt, not anew)
        self.left = {folder.name for folder in EDITS.iterdir() if folder.is_dir()}
        self.names, self.resting, self.writes = set(self.left), 0, writes

    def jobs(self):
        """How many jobs a check may take: one while the gate has the processors."""
        left = sum(not it.done() for it in self.counts)
        return 1 if self.is_beside else max(1, self.processors // max(1, left))

    def lend(self, name):
        """Takes what the gate built of a crate, if it is a library, into the copy of the workspace."""
        if (ROOT / "crates" / name / "out" / "rlib").is_dir():
            to = pathlib.Path(self.crates[name].folder) / "out" / "rlib"
            if not to.exists():
                shutil.copytree(ROOT / "crates" / name / "out" / "rlib", to, copy_function=linked)

    def built(self, name, proved):
        """Takes what the gate built of a crate, and has its edits tried: `proved` has the paths of its functions, or
        nothing where the library says them itself."""
        self.lend(name)
        if name in self.left:
            self.left.remove(name)
            functions = self.refusals.functions(self.crates[name], proved)
            self.counts.append(self.pool.submit(self.count_in_turn, self.crates[name], functions))

    def count_in_turn(self, crate, proved):
        """Tries a crate's edits when it is its turn: beside the gate few are tried at a time."""
        with self.turns:
            return self.count(crate, proved)

    def count(self, crate, proved):
        """Tries a crate's edits, and returns how many were refused and how many weren't."""
        files = sorted((EDITS / crate.name).glob("*.edit"))
        missing = [low.name for low in crate.below() if not os.path.isdir(low.rlib)]
        if missing:
            print(f"must-fail {crate.name}: not tried, for these libraries below it aren't built: {', '.join(missing)}", flush=True)
            return 0, len(files)
        try:
            edits = [Edit(file, pathlib.Path(crate.folder)) for file in files]
            bad = [it for it in edits if it.fault]
            for edit in bad:
                print(f"must-fail {edit.name}: BAD EDIT: {edit.fault}", flush=True)
            edits = [it for it in edits if not it.fault]
            edits = edits if self.is_control else [it for it in edits if not self.is_known(crate, it)]
            trial = Trial(self, crate, proved)
            wrong = trial.refused_without(edits) if self.is_control else trial.not_refused(edits)
        except (OSError, ValueError) as fault:
            print(f"must-fail {crate.name}: {fault}", flush=True)
            return 0, len(files)
        failed = len(bad) + len(wrong)
        return len(files) - failed, failed

    def is_known(self, crate, edit):
        """Whether the edit was refused before over the same files, as the record says, or as this machine keeps it."""
        if self.record.has(crate, edit):
            self.resting += 1
            return True
        line = self.refusals.of(crate, edit)
        if line:
            print(f"must-fail {edit.name}: refused by an earlier run: {line}", flush=True)
            self.record.keep(crate, edit, line)
        return bool(line)

    def finish(self):
        """Waits for the trials, and returns how many edits were refused and how many weren't: a crate that was not built
        counts as one."""
        self.is_beside = False
        self.turns.release(self.processors)
        counts = [it.result() for it in self.counts]
        for name in sorted(self.left):
            print(f"must-fail {name}: not tried, for the crate isn't built")
        self.pool.shutdown()
        self.room.cleanup()
        passed, failed = (sum(column) for column in zip(*counts, (0, len(self.left))))
        print(f"must-fail edits: {passed} refused, {failed} not; {self.resting} of them rest on {RECORD.relative_to(ROOT)}")
        if self.writes:
            self.record.write(self.names)
        return passed, failed


def proved_in(log):
    """The paths of the functions that the gate proved, by crate, as its output says them."""
    found = {}
    for line in pathlib.Path(log).read_text(encoding="utf-8", errors="replace").splitlines() if log else ():
        function = re.match(r"fn (\w+)::(\S+): proved", line)
        if function:
            found.setdefault(function[1], []).append(function[2].split("::"))
    return found


def main():
    trials = Trials(*(word in sys.argv for word in ("--control", "--anew", "--record")))
    names = [it for it in sys.argv[1:] if not it.startswith("--")] or sorted(trials.left)
    proved = proved_in(next((it[len("--log=") :] for it in sys.argv[1:] if it.startswith("--log=")), None))
    trials.left &= set(names)
    trials.names = set(names)
    for crate in list(trials.crates.values()):
        if crate.name in trials.left or any(crate in trials.crates[it].below() for it in names):
            trials.built(crate.name, proved.get(crate.name, []))
    return 1 if trials.finish()[1] else 0


if __name__ == "__main__":
    sys.exit(main())
