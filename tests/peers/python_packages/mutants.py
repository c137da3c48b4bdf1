"""Wrong bodies of the Python package, tried against its tests. Outside the test command.

    mutants.py FOLDER [PART OF]    puts one wrong body after the other into a copy of python/ in FOLDER, and runs the tests that call its function,
                                   the shortest first, until one fails; with PART and OF one of so many parts. Prints those that no test shows,
                                   and keeps the outcome in FOLDER/outcome*.jsonl: a run that was stopped goes on where it was
    mutants.py show FOLDER         prints the outcome of all parts

It needs the shared library in python/dom_query, where ./install-c puts it, or its path in DOM_QUERY_LIBRARY. Which functions a test calls is
observed first, and kept in FOLDER/calls.json for as long as the package and its tests are the same.

A wrong body leaves out a statement, turns a condition, takes one part of a condition, another comparison, number, text or name of a
constant, or returns None. wrong_bodies.txt names those that a user can't notice, with the reason: `show` doesn't print them where they survive."""
import ast
import collections
import hashlib
import importlib
import json
import os
import pathlib
import random
import resource
import select
import shutil
import signal
import sys
import threading
import time
import unittest

ROOT = pathlib.Path(__file__).resolve().parents[3]
KNOWN = pathlib.Path(__file__).resolve().parent / "wrong_bodies.txt"
COMPARISONS = {
    ast.Eq: ast.NotEq, ast.NotEq: ast.Eq, ast.Lt: ast.LtE, ast.LtE: ast.Lt, ast.Gt: ast.GtE, ast.GtE: ast.Gt,
    ast.Is: ast.IsNot, ast.IsNot: ast.Is, ast.In: ast.NotIn, ast.NotIn: ast.In,
}  # fmt: skip
# What the tests read.
COPIED = ("python", "include", "tests/tools", "tests/rows/dq", "tests/rows/test_calls/clean", "crates/dom_clean/src", "examples")


class Mutants(ast.NodeVisitor):
    """The wrong bodies of a file: for each what it is, its line, and how its text is made."""

    def __init__(self, name, text):
        self.name, self.tree, self.found, self.within = name, ast.parse(text), [], []
        # the first line of each function in which it is, the name that a statement outside of functions defines, and for each function
        # and each such name the names that it mentions
        self.begins, self.defines, self.mentions = [], "", collections.defaultdict(set)
        self.documentation = {id(it.value) for it in ast.walk(self.tree) if isinstance(it, ast.Expr) and isinstance(it.value, ast.Constant)}
        self.visit(self.tree)

    def note(self, node, kind, field, value):
        """Notes a wrong body: in the node the field, or an item of the list in it, is another."""

        def source():
            at, key = (node.__dict__, field) if isinstance(field, str) else (getattr(node, field[0]), field[1])
            before, at[key] = at[key], value
            text = ast.unparse(ast.fix_missing_locations(self.tree))
            at[key] = before
            return text

        shown = node if isinstance(field, str) or field[0] not in ("body", "orelse", "finalbody") else getattr(node, field[0])[field[1]]
        text = ast.unparse(shown).splitlines()[0][:90]
        begins = self.begins[-1] if self.begins else None
        where = {"file": self.name, "line": shown.lineno, "at": len(self.found), "function": ".".join(self.within) or self.defines, "begins": begins, "defines": self.defines}
        self.found.append({**where, "kind": kind, "text": text, "source": source})

    def visit_FunctionDef(self, node):
        self.within.append(node.name)
        self.begins.append(min(it.lineno for it in (node, *node.decorator_list)))
        self.generic_visit(node)
        self.begins.pop()
        self.within.pop()

    def visit_ClassDef(self, node):
        self.within.append(node.name)
        self.generic_visit(node)
        self.within.pop()

    def visit(self, node):
        """Notes what is mentioned, and by what."""
        outside = not self.within and isinstance(node, (ast.Assign, ast.AnnAssign))
        if outside:
            self.defines = ast.unparse(node.targets[0] if isinstance(node, ast.Assign) else node.target).strip("()")
        if isinstance(node, ast.Name):
            self.mentions[(self.name, self.begins[-1]) if self.begins else self.defines].add(node.id)
        super().visit(node)
        if outside:
            self.defines = ""

    def generic_visit(self, node):
        if self.within:
            self.statements(node)
            self.conditions(node)
            if isinstance(node, ast.Return) and node.value is not None and not (isinstance(node.value, ast.Constant) and node.value.value is None):
                self.note(node, "returns None", "value", ast.Constant(None))
            if isinstance(node, ast.BinOp) and isinstance(node.op, (ast.Add, ast.Sub)):
                self.note(node, "one side of a sum", "right", node.left)
        super().generic_visit(node)

    def statements(self, node):
        for field in ("body", "orelse", "finalbody"):
            listed = getattr(node, field, None)
            for at, it in enumerate(listed if isinstance(listed, list) else []):
                if isinstance(it, (ast.Expr, ast.Assign, ast.AugAssign, ast.Raise, ast.Delete)) and id(getattr(it, "value", None)) not in self.documentation:
                    self.note(node, "statement left out", (field, at), ast.Pass())

    def conditions(self, node):
        if isinstance(node, (ast.If, ast.While, ast.IfExp)):
            self.note(node, "condition turned", "test", ast.UnaryOp(ast.Not(), node.test))
        if isinstance(node, ast.BoolOp):
            for value in node.values:
                self.note(node, "part of a condition alone", "values", [value, value])
        if isinstance(node, ast.Compare) and type(node.ops[0]) in COMPARISONS:
            self.note(node, "another comparison", ("ops", 0), COMPARISONS[type(node.ops[0])]())

    def visit_Constant(self, node):
        if id(node) in self.documentation:
            return
        if isinstance(node.value, bool):
            self.note(node, "the other truth", "value", not node.value)
        elif isinstance(node.value, int):
            self.note(node, "another number", "value", node.value + 1)
        elif isinstance(node.value, str) and node.value:
            self.note(node, "another text", "value", node.value + "X")

    def visit_JoinedStr(self, node):
        pass  # texts of messages

    def visit_AnnAssign(self, node):
        if node.value is not None:
            self.visit(node.value)

    def visit_arg(self, node):
        pass  # types


def known():
    """What no user can notice: file, function, kind and text of each, with the reason."""
    lines = KNOWN.read_text(encoding="utf-8").splitlines() if KNOWN.exists() else []
    return [line.split(" | ") for line in lines if line and not line.startswith("#")]


def reason(mutant):
    for file, function, kind, text, why in known():
        if all(wanted in ("*", mutant[key]) for key, wanted in (("file", file), ("function", function), ("kind", kind), ("text", text))):
            return why
    return None


def made():
    """All wrong bodies, in a random order that is always the same. `functions` are those, as a file and a first line, whose tests may
    show it: the one in which it is, or those that mention the name that it defines; None where this isn't known."""
    found, mentions = [], {}
    for path in sorted((ROOT / "python" / "dom_query").glob("*.py")):
        of_file = Mutants(path.name, path.read_text(encoding="utf-8"))
        found += of_file.found
        mentions |= of_file.mentions
    for mutant in found:
        begins, defines = mutant.pop("begins"), mutant.pop("defines")
        mutant["functions"] = [[mutant["file"], begins]] if begins else mentioning(defines, mentions) if defines else None
    random.Random(1).shuffle(found)
    return found


def mentioning(name, mentions):
    """The functions that mention a name, or one that is made of it."""
    names = name.split(", ")
    for it in names:
        names += [one for by, mentioned in mentions.items() if isinstance(by, str) and it in mentioned for one in by.split(", ") if one not in names]
    return [list(by) for by, mentioned in mentions.items() if isinstance(by, tuple) and mentioned & set(names)]


def each_test(suite):
    for it in suite:
        if isinstance(it, unittest.TestSuite):
            yield from each_test(it)
        else:
            yield it


def observe(copied):
    """For each test how long it takes, and which functions of the package it calls, as a file and the first line of each. What the
    import calls stands under an empty name."""
    package, called, found = str(copied / "python" / "dom_query") + os.sep, set(), {}

    def note(frame, event, argument):
        code = frame.f_code
        if event == "call" and code.co_filename.startswith(package):
            called.add((code.co_filename[len(package) :], code.co_firstlineno))

    sys.setprofile(note)
    threading.setprofile(note)
    importlib.import_module("dom_query")
    found[""] = 0.0, sorted(called)
    for test in each_test(unittest.defaultTestLoader.discover(copied / "python" / "tests", top_level_dir=copied / "python")):
        called.clear()
        # (a test of a trace function leaves none behind)
        sys.setprofile(note)
        threading.setprofile(note)
        begun, result = time.process_time(), unittest.TestResult()
        unittest.TestSuite([test]).run(result)
        if not result.wasSuccessful():
            sys.exit(f"{test.id()} fails without a wrong body: {(result.failures + result.errors)[0][1]}")
        found[test.id()] = time.process_time() - begun, sorted(called)
    return found


def first_failing(tests):
    """The name of the first test that fails, or an empty text."""
    for name in tests:
        result = unittest.TestResult()
        unittest.defaultTestLoader.loadTestsFromName(name).run(result)
        if not result.wasSuccessful():
            return name
    return ""


def in_a_process(copied, call, seconds):
    """What the call returns in a process of its own, over the copy, as JSON has it; or how the process ended."""
    into, out = os.pipe()
    child = os.fork()
    if child == 0:
        os.setsid()
        os.chdir(copied / "python")
        os.environ |= {"PYTHONPATH": str(copied / "python"), "DOM_QUERY_OPERATIONS": "300", "PYTHONDONTWRITEBYTECODE": "1"}
        sys.path.insert(0, str(copied / "python"))
        resource.setrlimit(resource.RLIMIT_CPU, (int(seconds) + 1, int(seconds) + 2))
        nowhere = os.open(os.devnull, os.O_RDWR)
        for stream in (0, 1):
            os.dup2(nowhere, stream)
        try:
            os.write(out, json.dumps(call()).encode())
        except SystemExit as fault:
            print(fault, file=sys.stderr)
        except BaseException as fault:
            os.write(out, json.dumps(type(fault).__name__).encode())
        os._exit(0)
    os.close(out)
    with open(into, "rb") as pipe:
        is_ready = select.select([pipe], [], [], 60 + 20 * seconds * max(1, os.getloadavg()[0] / os.cpu_count()))[0]
        answered = pipe.read() if is_ready else b""
    try:
        os.killpg(child, signal.SIGKILL)
    except ProcessLookupError:
        pass
    _, status = os.waitpid(child, 0)
    if answered:
        try:
            return json.loads(answered)
        except ValueError:
            return "wrote something else"
    return "ended by a signal" if is_ready and os.WIFSIGNALED(status) else "ended" if is_ready else "waits for ever"


class Trials:
    """A copy of the package and its tests, in which wrong bodies are put."""

    def __init__(self, folder, part):
        self.copied = folder / f"part{part}"
        shutil.rmtree(self.copied, ignore_errors=True)
        for name in COPIED:
            shutil.copytree(ROOT / name, self.copied / name, ignore=shutil.ignore_patterns("__pycache__"))
        shutil.copy(ROOT / "VERSION", self.copied)
        files = sorted(it for it in (self.copied / "python").rglob("*.py"))
        self.of = hashlib.sha256(b"".join(it.read_bytes() for it in files)).hexdigest()
        kept = folder / "calls.json"
        if not kept.exists() or json.loads(kept.read_text(encoding="utf-8"))["of"] != self.of:
            found = in_a_process(self.copied, lambda: observe(self.copied), 3600)
            if not isinstance(found, dict):
                sys.exit(f"the tests: {found}")
            kept.write_text(json.dumps({"of": self.of, "tests": found}), encoding="utf-8")
        self.tests = json.loads(kept.read_text(encoding="utf-8"))["tests"]

    def tests_of(self, mutant):
        """The tests that call its functions, and how long they take; all where the import calls one, or where none is known."""
        functions = mutant["functions"]
        is_everywhere = not functions or any(it in self.tests[""][1] for it in functions)
        is_wanted = lambda called: is_everywhere or any(it in called for it in functions)
        found = sorted((took, name) for name, (took, called) in self.tests.items() if name and is_wanted(called))
        return [name for _, name in found], sum(took for took, _ in found)

    def shown(self, mutant):
        """The test that shows a wrong body, or how it ended; None where nothing shows it."""
        tests, took = self.tests_of(mutant)
        path = self.copied / "python" / "dom_query" / mutant["file"]
        whole = path.read_bytes()
        path.write_text(mutant["source"](), encoding="utf-8")
        try:
            return in_a_process(self.copied, lambda: first_failing(tests), 10 + 4 * took) or None
        finally:
            path.write_bytes(whole)


def outcomes(folder):
    """What showed each wrong body so far, by its name."""
    lines = [line for path in sorted(folder.glob("outcome*.jsonl")) for line in path.read_text(encoding="utf-8").splitlines()]
    return {it["name"]: it for it in map(json.loads, lines)}


def name_of(mutant, of):
    return " | ".join([mutant["file"], mutant["function"], mutant["kind"], mutant["text"], f"line {mutant['line']}", str(mutant["at"]), of[:16]])


def run(folder, part, of):
    trials = Trials(folder, part)
    done = outcomes(folder)
    with open(folder / f"outcome{part}.jsonl", "a", encoding="utf-8") as kept:
        for mutant in made()[part::of]:
            name = name_of(mutant, trials.of)
            if name in done:
                continue
            shown = trials.shown(mutant)
            print(json.dumps({"name": name, "shown": shown}), file=kept, flush=True)
            if not shown and not reason(mutant):
                print(name, flush=True)


def show(folder):
    """Prints how many of the wrong bodies that there are now were shown, by the last outcome of each, and those that weren't."""
    done = {name.rpartition(" | ")[0]: it["shown"] for name, it in outcomes(folder).items()}
    counts, survivors = collections.Counter(), []
    for mutant in made():
        name = name_of(mutant, "").rpartition(" | ")[0]
        kind = "not run" if name not in done else "shown" if done[name] else "named" if reason(mutant) else "survive"
        counts[kind] += 1
        survivors += [name] if kind == "survive" else []
    print(f"{sum(counts.values())} wrong bodies: {dict(counts)}")
    print(*sorted(survivors), sep="\n")


if __name__ == "__main__":
    if len(sys.argv) < 2:
        sys.exit(__doc__)
    if sys.argv[1] == "show":
        show(pathlib.Path(sys.argv[2]))
    else:
        FOLDER = pathlib.Path(sys.argv[1]).resolve()
        FOLDER.mkdir(parents=True, exist_ok=True)
        run(FOLDER, *(int(word) for word in sys.argv[2:4]) if len(sys.argv) > 3 else (0, 1))
