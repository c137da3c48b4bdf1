"""Which public functions the programs call themselves, as far as their texts show.

A public function is one that `dom_query` hands on by the `pub use` lines of its lib.rt: a function, a `pub fn` of a type,
or a method of a trait. Methods of the traits of std (`fmt`, `from`, `next`) are left out.

It is called where the source of a program, of its own library or of a part of the test program (ROOTS and PARTS) names
it: `name(..)`, in a file that imports the name; `Type::name`; or `x.name(..)`, where the text shows what x is. That is read from parameters, from
`let`, `for` and patterns, from the fields of structs, and from what the functions that are called return by their
declarations. The method is the type's own, or else that of a trait which it implements, or by which a type parameter is bound.
A call whose receiver isn't shown so counts for nothing, and neither does one that a function of the libraries makes. What a call
answers is compared by the rows of tests/; this finds only that it is made.

Of the other public functions of the crates, but for laws, it finds that something calls one of that name, in a library too."""
import collections
import dataclasses
import functools
import pathlib
import re
import sys

sys.path.insert(0, str(pathlib.Path(__file__).resolve().parents[1] / "tools"))
from rows import PARTS, ROOT  # noqa: E402

CRATES, TEST_PROGRAM = ROOT / "crates", ROOT / "tests" / "programs" / "test_calls" / "src"
# The crates that are programs, the library of `hq`, and the examples.
ROOTS = ("examples", "dq", "hq", "hq_pages")
# Public functions that no program calls, with the reason. One that a program calls is a fault here.
UNCALLED = {
    ("Tree", "move_allowed"): "its caller proves that the move is allowed, which only tree construction (page_trees) does",
}
# Comments, strings, characters, and imports of specs.
BLANK = re.compile(r'//[^\n]*|"(?:\\.|[^"\\])*"|\'(?:\\[^\']+|[^\'\\])\'|\bghost use [^;]*;', re.S)
GENERICS = re.compile(r"<(?:[^<>]|<[^<>]*>)*>")
BLOCK = re.compile(r"\b(impl|trait)\b([^{;()]*(?:\([^)]*\)[^{;()]*)*)\{")
FUNCTION = re.compile(r"(\bpub )?(?:\bconst )?\bfn (\w+)\s*(<[^{};(]*?(?:\([^)]*\)[^{};(]*?)*>)?\(")
STRUCT = re.compile(r"\bstruct (\w+)(?:<[^>{(;]*>)?\s*(?:where[^{]*)?([{(])")
ITEM = re.compile(r"\bimpl(?:<[^{]*?>)? Iterator for (\w+)[^{]*\{\s*type Item = ([^;]*);")
# What a program imports of the libraries.
IMPORT = re.compile(rf"\buse ((?:{'|'.join(sorted(folder.name for folder in CRATES.iterdir()))})::[^;]*);")
CLAUSE = re.compile(r"\s(where|requires|ensures|ghost)\b")
# The name of what is called, in a body.
CALLED = re.compile(r"\b([a-z_]\w*)\s*(?:::<[^(]*?>)?\(")
# What one step into a value unwraps: a `?`, a pattern, a step of a loop.
WRAPS = ("Result", "Option", "Vec", "Box")
# Methods of std that give the same, wrapped in the same way, and those that give one of the items, or none.
SAME = {"ok", "map_err", "ok_or", "as_ref", "as_mut", "as_slice", "iter", "enumerate", "rev", "skip", "copied"}
ONE = {"first", "last", "get", "pop", "next"}
# What a body does that shows a type, and what it calls.
EVENT = re.compile(
    r"\b(?P<let>let)\b|\b(?P<loop>for)\b|\b(?P<match>match)\b|\|(?P<closure>[^|]*?)\|"
    r"|\.\s*(?P<method>[a-z_]\w*)\s*(?:::<[^(]*?>)?\("
    r"|\b(?P<type>[A-Z]\w*)\s*(?:::<[^>]*>)?::\s*(?P<of_type>[a-z_]\w*)\b"
    r"|(?<![\w.:])(?:[a-z_]\w*\s*::\s*)*(?P<free>[a-z_]\w*)\s*(?:::<[^(]*?>)?\("
)


@dataclasses.dataclass(frozen=True)
class Shape:
    """The type of a value: the name of a type, and what wraps it, from the outside."""

    wraps: tuple
    name: str

    def inside(self):
        return Shape(self.wraps[1:], self.name)


@dataclasses.dataclass(frozen=True)
class Function:
    """A function: whose it is (the traits, then the type), whether of a block `impl` or `trait`, and its declaration."""

    owners: tuple
    block: str
    is_public: bool
    name: str
    bounds: dict
    params: list
    result: str
    body: str

    def shape(self, text):
        """The type that the function's text writes so."""
        return shape_of(text, {**self.bounds, "Self": self.owners[-1] if self.owners else None})


def end_of(text, at, opening="([{", closing=")]}"):
    """The place after the bracket that closes the one there."""
    depth = 0
    for place in range(at, len(text)):
        depth += text[place] in opening
        depth -= text[place] in closing and text[place - 1 : place + 1] not in ("->", "=>")
        if depth == 0:
            return place + 1
    return len(text)


def parts_of(text):
    """The texts between the commas of a list."""
    parts, depth, start = [], 0, 0
    for place, sign in enumerate(text):
        depth += sign in "([{<"
        depth -= sign in ")]}>" and text[place - 1 : place + 1] not in ("->", "=>")
        if sign == "," and depth == 0:
            parts.append(text[start:place])
            start = place + 1
    return [*parts, text[start:]] if text[start:].strip() else parts


def shape_of(text, names):
    """The type that is written so; None where it has no name."""
    wraps = []
    while True:
        text = re.sub(r"^\s*((&|'\w+|\bmut\b|\bimpl\b|\bdyn\b)\s*)*", "", text)
        if text.startswith("["):
            wraps.append("[")
            text = text[1 : end_of(text, 0) - 1].split(";")[0]
            continue
        found = re.match(r"(?:\w+::)*(\w+)\s*(<)?", text)
        if found is None:
            return None
        if found[1] not in WRAPS or not found[2]:
            name = names.get(found[1], found[1])
            return name and Shape(tuple(wraps), name)
        wraps.append(found[1])
        text = parts_of(text[found.end() : end_of(text, found.end() - 1, "<([", ">)]") - 1])[0]


def source_of(file):
    return BLANK.sub(" ", file.read_text(encoding="utf-8"))


def blocks_of(text):
    """The blocks that are an `impl` or a trait: where they are, which of the two, and for which type their methods are."""
    for found in BLOCK.finditer(text):
        head = GENERICS.sub("", re.sub(r"->|=>", "", found[2])).split(" where ")[0]
        owners = tuple(re.findall(r"\b[A-Z]\w*", head))
        yield found.start(), end_of(text, found.end() - 1), found[1], owners[:1] if found[1] == "trait" else owners


def body_at(text, at):
    """The body that begins there, after clauses, which have blocks of their own; None if there is none."""
    while found := re.compile(r"\b(requires|ensures|ghost)\b|\[[^][{}]*\]|[{;]").search(text, at):
        if found[0].startswith("["):
            at = found.end()
            continue
        if found[0] == ";":
            return None
        start = text.index("{", found.start())
        at = end_of(text, start)
        if not found[1]:
            return text[start + 1 : at - 1]
    return None


@functools.lru_cache(maxsize=None)
def functions_of(file):
    """The functions of a file."""
    text, functions = source_of(file), []
    blocks = list(blocks_of(text))
    for found in FUNCTION.finditer(text):
        _, _, block, owners = next((it for it in reversed(blocks) if it[0] <= found.start() < it[1]), (0, 0, "", ()))
        bounds = dict(re.findall(r"\b([A-Z]\w*)\s*:\s*([A-Z]\w*)", found[3] or ""))
        close = end_of(text, found.end() - 1)
        arrow = re.match(r"\s*->\s*", text[close:])
        result = re.split(r"[{;]", CLAUSE.split(text[close:])[0])[0].strip()[2:] if arrow else ""
        params = parts_of(text[found.end() : close - 1])
        functions.append(Function(owners, block, bool(found[1]), found[2], bounds, params, result, body_at(text, close)))
    return functions


class Known:
    """What the libraries and a program declare."""

    def __init__(self, libraries, program):
        self.results, self.fields, self.items, self.others = {}, {}, {}, {}
        self.own, self.of_traits, self.traits = set(), set(), collections.defaultdict(set)
        for file in [*libraries, *program]:
            self.add_names(source_of(file))
        for function in (function for file in libraries for function in functions_of(file)):
            self.add(function)

    def add_names(self, text):
        self.others.update((other, name) for name, other in re.findall(r"\bpub use [\w:]*?(\w+) as (\w+);", text))
        for found in STRUCT.finditer(text):
            held = parts_of(text[found.end() : end_of(text, found.end() - 1) - 1])
            for place, field in enumerate(held):
                name, _, kind = field.rpartition(":") if found[2] == "{" else (f"{place}:", ":", field)
                name = re.search(r"(\w+)\s*:*\s*$", name)
                self.fields[found[1], name[1] if name else ""] = shape_of(kind.replace("pub ", ""), {})
        self.items.update({found[1]: shape_of(found[2], {}) for found in ITEM.finditer(text)})

    def add(self, function):
        owner = function.owners[-1] if function.owners else ""
        whose = function.owners or ("",)
        self.results.update({(one, function.name): function.shape(function.result) for one in whose if function.result})
        if function.block == "trait":
            self.of_traits.add((owner, function.name))
        elif len(function.owners) == 1:
            self.own.add((owner, function.name))
        self.traits[owner].update(function.owners[:-1])

    def whose(self, kind, name):
        """Whose the method of that name is which a value of the type has."""
        kind = self.others.get(kind, kind)
        if (kind, name) in self.own:
            return [kind]
        return [one for one in (kind, *sorted(self.traits[kind])) if (one, name) in self.of_traits]


class Calls:
    """Reads the body of a function: which types its variables have, and what it calls."""

    def __init__(self, known, results, function):
        self.known, self.results, self.made = known, results, set()
        self.variables = {}
        self.owner = function.owners[-1] if function.owners else ""
        for param in function.params:
            name, colon, kind = param.partition(":")
            name = name.strip().removeprefix("mut ")
            self.variables[name] = function.shape(kind) if colon else Shape((), self.owner)
        self.body = function.body or ""
        for event in EVENT.finditer(self.body):
            self.read(event)

    def read(self, event):
        if event["let"]:
            self.read_let(event)
        elif event["loop"]:
            self.read_loop(event)
        elif event["match"]:
            self.read_match(event)
        elif event["closure"] is not None:
            for name, _, kind in (param.partition(":") for param in parts_of(event["closure"])):
                self.variables[name.strip()] = shape_of(kind, {})
        elif event["method"]:
            shape = self.shape(self.receiver(event.start()))
            if shape and not shape.wraps:
                self.made.update((one, event["method"]) for one in self.known.whose(shape.name, event["method"]))
        elif event["type"]:
            self.made.add((self.owner if event["type"] == "Self" else event["type"], event["of_type"]))
        else:
            self.made.add(("", event["free"]))

    def expression(self, at, ends):
        """The text from there up to one of these signs outside of brackets."""
        place = at
        while place < len(self.body) and self.body[place] not in ends + ")]}":
            place = end_of(self.body, place) if self.body[place] in "([{" else place + 1
        return self.body[at:place]

    def read_let(self, event):
        found = re.compile(r"\s*([^=;]*?)(?::\s*([^=;:]*))?=(?!=)").match(self.body, event.end())
        if found is None:
            return
        is_tested = re.search(r"\b(if|while)\s*$", self.body[: event.start()])
        value = self.expression(found.end(), "{" if is_tested else ";")
        value = value if is_tested else re.split(r"\belse\s*\{", value)[0]
        if found[2]:
            self.bind(found[1], shape_of(found[2], {}))
        else:
            self.bind_value(found[1], value)

    def bind_value(self, pattern, value):
        """Binds the names of a pattern to what a value has, part by part where both are tuples."""
        pattern, value = pattern.strip(), value.strip()
        if pattern.startswith("(") and value.startswith("("):
            for one, part in zip(parts_of(pattern[1:-1]), parts_of(value[1 : end_of(value, 0) - 1])):
                self.bind_value(one, part)
        else:
            self.bind(pattern, self.shape(value))

    def read_loop(self, event):
        found = re.compile(r"\s*(.*?)\s+in\s+", re.S).match(self.body, event.end())
        if found is None:
            return
        value = self.expression(found.end(), "{")
        shape, pattern = self.shape(value), found[1]
        if "enumerate" in value and pattern.startswith("("):
            pattern = parts_of(pattern[1:-1])[1]
        self.bind(pattern, shape and (shape.inside() if shape.wraps else self.known.items.get(shape.name)))

    def read_match(self, event):
        value = self.expression(event.end(), "{")
        shape, start = self.shape(value), event.end() + len(value)
        arms = self.body[start : end_of(self.body, start)]
        for pattern in re.findall(r"\b(?:Ok|Some)\s*\((?:[^()]|\([^()]*\))*\)", arms):
            self.bind(pattern, shape)

    def bind(self, pattern, shape):
        """Binds the names of a pattern; what the text doesn't show is forgotten."""
        pattern = pattern.strip()
        wrapped = re.fullmatch(r"(?:Some|Ok)\s*\((.*)\)", pattern, re.S)
        if wrapped:
            self.bind(wrapped[1], shape and shape.inside())
        elif name := re.fullmatch(r"(?:ref |mut |&)*\s*([a-z_]\w*)", pattern):
            self.variables[name[1]] = shape
        else:
            self.variables.update(dict.fromkeys(re.findall(r"\b[a-z_]\w*\b", pattern)))

    def receiver(self, dot):
        """The expression before a dot: a name or a call, with what follows it by dots."""
        place = dot
        while True:
            place = len(self.body[:place].rstrip().rstrip("?").rstrip())
            while place and self.body[place - 1] in ")]":
                depth, place = 1, place - 1
                while depth and place:
                    place -= 1
                    depth += (self.body[place] in ")]}") - (self.body[place] in "([{")
            name = re.search(r"[A-Za-z_0-9](?:[\w:]|::<[^<>]*>)*\s*$", self.body[:place])
            if name and not re.fullmatch(r"(in|if|match|return|else|while)\s*", name[0]):
                place = name.start()
            before = self.body[:place].rstrip()
            if not before.endswith("."):
                return self.body[place:dot]
            place = len(before) - 1

    def shape(self, text):
        """The type of an expression; None where the text doesn't show it."""
        text = re.sub(r"^\s*((&|\*|\bmut\b|\bmove\b)\s*)*", "", text)
        if text.startswith("("):
            end = end_of(text, 0)
            return self.behind(self.shape(text[1 : end - 1]), text[end:])
        if text.startswith("["):
            items = parts_of(text[1 : end_of(text, 0) - 1])
            one = self.shape(items[0]) if items else None
            return one and Shape(("[", *one.wraps), one.name)
        found = re.match(r"(?:[a-z_]\w*\s*::\s*)*(?:([A-Z]\w*)\s*(?:::<[^>]*>)?::\s*)?([a-z_]\w*)\s*(?:::<[^(]*>)?\(", text)
        if found:
            whose = self.owner if found[1] == "Self" else found[1] or ""
            made = Shape((), found[1]) if found[2] == "from" else None
            return self.behind(self.returned(whose, found[2]) or made, text[end_of(text, found.end() - 1) :])
        found = re.match(r"([A-Z]\w*)::[A-Z]\w*\s*(?=\.|$)", text)
        if found:
            return self.behind(Shape((), found[1]), text[found.end() :])
        found = re.match(r"([A-Z]\w*)\s*([({])", text)
        if found:
            end = end_of(text, found.end() - 1)
            one = self.shape(text[found.end() : end - 1]) if found[1] in ("Some", "Ok") else None
            return one and Shape(("Option", *one.wraps), one.name) or self.behind(Shape((), found[1]), text[end:])
        found = re.match(r"[a-z_]\w*", text)
        return self.behind(self.variables.get(found[0]), text[found.end() :]) if found else None

    def returned(self, whose, name):
        """What a function returns: one of this program, or of the libraries."""
        return self.results.get((whose, name)) or self.known.results.get((whose, name))

    def behind(self, shape, rest):
        """The type of what follows a value of that type: `?`, an index, fields and calls."""
        while shape and (rest := rest.strip()):
            if rest[0] in "?[":
                end = 1 if rest[0] == "?" else end_of(rest, 0)
                shape = shape if ".." in rest[:end] else shape.inside()
                rest = rest[end:]
                continue
            found = re.match(r"\.\s*(\w+)\s*(?:::<[^(]*>)?(\()?", rest)
            if found is None:
                return shape
            end = end_of(rest, found.end() - 1) if found[2] else found.end()
            shape = self.after_call(shape, found[1]) if found[2] else self.known.fields.get((shape.name, found[1]))
            rest = rest[end:]
        return shape

    def after_call(self, shape, name):
        whose = [] if shape.wraps else self.known.whose(shape.name, name)
        if whose:
            return self.known.results.get((whose[0], name))
        item = shape.inside() if shape.wraps else self.known.items.get(shape.name)
        if name in ONE and item:
            return Shape(("Option", *item.wraps), item.name)
        if name.startswith("unwrap_or") and shape.wraps:
            return item
        return shape if shape.wraps and name in SAME else self.results.get((shape.name, name))


def handed_on(known):
    """The names that `dom_query` hands on, and those which it hands on under other ones."""
    text = source_of(CRATES / "dom_query" / "src" / "lib.rt")
    names = set(re.findall(r"\bpub use (?:\w+::)*(\w+);", text))
    return names | {known.others.get(name, name) for name in names}


def calls_of(program, known):
    """What the functions of a program call."""
    by_file = {file: list(functions_of(file)) for file in program}
    declared = {}
    for file, functions in by_file.items():
        shapes = {(it.owners[-1] if it.owners else "", it.name): it.shape(it.result) for it in functions if it.result}
        declared[file] = shapes
    everywhere = {key: shape for shapes in declared.values() for key, shape in shapes.items()}
    for file, functions in by_file.items():
        imported = set(re.findall(r"\w+", " ".join(IMPORT.findall(source_of(file)))))
        for function in functions:
            for whose, name in Calls(known, {**everywhere, **declared[file]}, function).made:
                if whose or name in imported:
                    yield whose, name


def is_law(file, function):
    """Whether a function is a law: it has an empty body, or calls laws alone, as those in a crate or a module of that name do."""
    return function.body is not None and not function.body.strip("{} \n") or any(part.endswith("laws") for part in file.with_suffix("").parts)


def programs():
    """The files of each program, and of each part of the test program with what the parts share."""
    files = {name: sorted((CRATES / name / "src").rglob("*.rt")) for name in ROOTS}
    for part in PARTS:
        found = [file for name in ("lines", part) for file in [TEST_PROGRAM / f"{name}.rs", *sorted((TEST_PROGRAM / name).glob("*.rs"))]]
        files[part] = [file for file in found if file.exists()]
    return files


def uncalled_below(libraries, others, names):
    """The public functions of the libraries that `dom_query` doesn't hand on, and which of their names nothing calls."""
    every = [(file, function) for file in libraries for function in functions_of(file)]
    functions = [function for _, function in every] + [function for file in others for function in functions_of(file)]
    called = {name for function in functions for name in CALLED.findall(function.body or "")}
    below = set()
    for file, function in every:
        owner = function.owners[-1] if function.owners else ""
        is_own = function.is_public and len(function.owners) < 2 and not is_law(file, function)
        if is_own and (owner or function.name) not in names:
            below.add((owner, function.name))
    return below, {(owner, name) for owner, name in below if name not in called}


def coverage():
    """Prints the public functions that nothing calls, and returns how many are called and how many aren't."""
    libraries = [file for folder in sorted(CRATES.iterdir()) if folder.name not in ROOTS for file in sorted(folder.glob("src/**/*.rt"))]
    called, names, files = set(), set(), programs()
    for program in files.values():
        known = Known(libraries, program)
        called.update(calls_of(program, known))
        names.update(handed_on(known))
    public = set()
    for function in (function for file in libraries for function in functions_of(file)):
        owner = function.owners[-1] if function.owners else ""
        if (owner or function.name) in names and (function.is_public or function.block == "trait"):
            public.add((owner, function.name))
    below, unmet = uncalled_below(libraries, sum(files.values(), []), names)
    stale = set(UNCALLED) - (public - called) - unmet
    for owner, name in sorted(stale):
        print(f"{owner}{'::' if owner else ''}{name}: something calls it, but it is listed as uncalled")
    public, below, unmet = public - set(UNCALLED), below - set(UNCALLED), unmet - set(UNCALLED)
    for owner, name in sorted(public - called):
        print(f"{owner}{'::' if owner else ''}{name}: no test and no program calls it")
    for owner, name in sorted(unmet):
        print(f"{owner}{'::' if owner else ''}{name}: nothing calls it")
    passed, failed = len(public & called) + len(below - unmet), len(public - called) + len(unmet) + len(stale)
    print(f"public functions that are called: {passed} passed, {failed} failed")
    return passed, failed if public and below else failed + 1


if __name__ == "__main__":
    sys.exit(1 if coverage()[1] else 0)
