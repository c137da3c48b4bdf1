"""Runs the definitions of crates/standard_trees/specs as they stand in the .antt files, without the prover: a small evaluator of the part of
antt that they are written in (clauses, `elim`, `let`, `λ`, records, lists, numbers; no types are checked). The tokenizer is machine.py. So
the definitions that are written by hand are compared with the same texts as construction.py. `run(text, context, scripting)` is the
tree in the form of html5lib's tests."""
import functools
import pathlib
import re
import sys

import whole_parsing

SPECS = pathlib.Path(__file__).resolve().parents[3] / "crates" / "standard_trees" / "specs"
FILES = ("TreeStore", "RuleWords", "NameLists", "QuirksTexts", "TreeRules", "GrowingTree", "Formatting", "Building", "Parsing")
LEFT_OUT = ("after_step", "behind", "parsed", "parse", "parse_fragment", "step_of", "parser", "page_parser", "fragment_parser",
            "IsDocumentOf", "IsFragmentOf")  # of Parsing: the tokenizer is machine.py
sys.setrecursionlimit(200000)

# ---- values: numbers, booleans, tuples for lists, dicts for records, Con for constructors, Python functions of one argument


class Con(tuple):
    """A constructor's name, and its arguments."""


OPS = {"||": (1, 0), "&&": (2, 0), "==": (3, 0), "∷": (4, 1), "++": (4, 1), "+": (5, 0), "*": (6, 0)}
CONSTRUCTORS = {"Some": 1, "None": 0, "AChar": 1, "AComment": 1, "ADoctype": 1, "AStart": 3, "AnEnd": 1, "AnEof": 0,
                "RCDATA": 0, "RAWTEXT": 0, "ScriptData": 0, "PLAINTEXT": 0, "Data": 0}
CLAUSES, COMPILED = {}, {}


def lowercase(c):
    return c + 32 if 65 <= c <= 90 else c


def curried(n, f):
    """A function of n arguments as functions of one."""
    if n == 0:
        return f()
    if n == 1:
        return f
    return lambda x: curried(n - 1, lambda *rest: f(x, *rest))


BUILT_IN = {
    "map": (2, lambda f, xs: tuple(f(x) for x in xs)), "filter": (2, lambda f, xs: tuple(x for x in xs if f(x))), "reverse": (1, lambda xs: xs[::-1]),
    "length": (1, len), "take": (2, lambda n, xs: xs[:n]), "drop": (2, lambda n, xs: xs[n:]),
    "find": (2, lambda f, xs: next((Con(("Some", x)) for x in xs if f(x)), Con(("None",)))), "unwrap_or": (2, lambda o, d: o[1] if o[0] == "Some" else d),
    "bytes_eq": (2, lambda a, b: a == b), "nat_eq": (2, lambda a, b: a == b), "nat_lt": (2, lambda a, b: a < b), "not": (1, lambda b: not b),
    "cond": (3, lambda b, x, y: x if b else y), "list_any": (2, lambda f, xs: any(f(x) for x in xs)), "list_all": (2, lambda f, xs: all(f(x) for x in xs)),
    "starts_with": (3, lambda eq, xs, ys: len(xs) >= len(ys) and all(eq(x)(y) for x, y in zip(xs, ys))),
    "option_map": (2, lambda f, o: Con(("Some", f(o[1]))) if o[0] == "Some" else o),
    "option_and_then": (2, lambda f, o: f(o[1]) if o[0] == "Some" else o), "option_map_or": (3, lambda f, o, d: f(o[1]) if o[0] == "Some" else d), "to_ascii_lowercase": (1, lowercase), "suc": (1, lambda n: n + 1),
    "codes": (1, lambda text: tuple(map(ord, text))),
}

# ---- reading

TOKEN = re.compile(r'"(?:[^"\\]|\\.)*"|[(){};,.]|[^\s(){}.;,@"«»]+')


def tokens(text):
    """Tokens, and whether white space comes before each."""
    found = []
    for m in TOKEN.finditer(text):
        found.append((m.group(), m.start() == 0 or text[m.start() - 1].isspace()))
    return found


class Reader:
    def __init__(self, text):
        self.toks, self.at = tokens(text), 0

    def peek(self):
        return self.toks[self.at][0] if self.at < len(self.toks) else None

    def next(self):
        self.at += 1
        return self.toks[self.at - 1][0]

    def want(self, token):
        got = self.next()
        assert got == token, (got, token, self.toks[max(0, self.at - 12):self.at + 5])

    # expressions: ("var", x), ("num", n), ("str", s), ("app", f, [args]), ("lam", [x], e), ("let", x, e, e), ("elim", e, [(pattern, e)]),
    # ("record", base or None, [(field, e)]), ("proj", e, field), ("tuple", [e]), ("op", o, a, b)

    def expr(self, least=0):
        left = self.application()
        while self.peek() in OPS and OPS[self.peek()][0] >= least:
            op = self.next()
            level, right = OPS[op]
            left = ("op", op, left, self.expr(level if right else level + 1))
        return left

    def application(self):
        if self.peek() == "λ":
            self.next()
            names = []
            while self.peek() != ".":
                names.append(self.next())
            self.want(".")
            return ("lam", names, self.expr())
        if self.peek() == "let":
            self.next()
            name = self.next()
            while self.next() != "=":
                pass
            value = self.expr()
            self.want("in")
            return ("let", name, value, self.expr())
        if self.peek() == "elim":
            self.next()
            value = self.atom()
            self.want("[")
            cases = []
            while self.peek() != "]":
                if self.peek() == "|":
                    self.next()
                pattern = self.pattern()
                self.want("↦")
                cases.append((pattern, self.expr()))
            self.want("]")
            return ("elim", value, cases)
        head, args = self.atom(), []
        while self.peek() is not None and self.peek() not in OPS and self.peek() not in (")", "]", "}", ";", ",", "|", "in", "=", "↦"):
            if self.peek() == "{":  # an implicit argument
                while self.next() != "}":
                    pass
                continue
            args.append(self.application() if self.peek() in ("λ", "let", "elim") else self.atom())
        return ("app", head, args) if args else head

    def atom(self):
        token = self.next()
        if token == "(":
            parts = [self.expr()]
            while self.peek() == ",":
                self.next()
                parts.append(self.expr())
            self.want(")")
            found = parts[0] if len(parts) == 1 else ("tuple", parts)
        elif token == "record":
            base = None if self.peek() == "{" else self.atom()
            self.want("{")
            fields = []
            while self.peek() != "}":
                name = self.next()
                self.want("=")
                fields.append((name, self.expr()))
                if self.peek() == ";":
                    self.next()
            self.want("}")
            return ("record", base, fields)
        elif token[0] == '"':
            found = ("str", token[1:-1])
        elif re.fullmatch(r"\d+|0x[0-9a-f]+", token):
            found = ("num", int(token, 0))
        else:
            assert token not in ("=", "|", "↦", "]", ":"), (token, self.toks[max(0, self.at - 12):self.at + 5])
            found = ("var", token)
        while self.peek() == "." and not self.toks[self.at][1] and self.at + 1 < len(self.toks) and not self.toks[self.at + 1][1]:
            self.next()
            found = ("proj", found, self.next())
        return found

    def pattern(self):
        """A pattern at the head of a case: with arguments, and with ∷."""
        parts = [self.pattern_atom()]
        while self.peek() not in ("↦", ")", "∷", "="):
            parts.append(self.pattern_atom())
        found = parts[0] if len(parts) == 1 else ("con", parts[0][1], parts[1:])
        if self.peek() == "∷":
            self.next()
            return ("cons", found, self.pattern())
        return found

    def pattern_atom(self):
        token = self.next()
        if token == "(":
            found = self.pattern()
            self.want(")")
            return found
        if token == "[]":
            return ("nil",)
        return ("name", token)


def strip_comment(line):
    return re.sub(r"(^|\s)-- .*$", "", line) if "--" in line else line


def load(name, aliases):
    """Reads the definitions of a file."""
    items, type_name = [], None
    for line in (SPECS / f"{name}.antt").read_text(encoding="utf-8").splitlines():
        line = strip_comment(line)
        if not line.strip():
            continue
        if line[0] in " }":
            items[-1] += "\n" + line
        else:
            items.append(line)
    for item in items:
        first = item.split()[0]
        if first == "use":
            for new in re.findall(r"(\S+) as (\S+?)[,}]", item):
                aliases[new[1]] = new[0]
        elif item.startswith("pub data"):
            for line in item.splitlines()[1:]:
                names, _, kind = line.partition(" : ")
                for one in names.split():
                    CONSTRUCTORS[one] = kind.count("→")
        elif item.startswith("pub record") or first == "unfolding":
            pass
        elif first in ("abbrev", "unfoldable"):
            CLAUSES.setdefault(re.sub(r"^(abbrev|unfoldable) pub ", "", item).split()[0], [])
        elif first not in LEFT_OUT:
            clause(item)


def clause(item):
    if "\n  where\n" in item:
        item, _, helper = item.partition("\n  where\n")
        for line in helper.splitlines():
            if " : " in line:
                CLAUSES.setdefault(line.split()[0], [])
            else:
                clause(line.strip())
    reader = Reader(item)
    name, patterns = reader.next(), []
    while reader.peek() != "=":
        patterns.append(reader.pattern_atom())
    reader.want("=")
    body = reader.expr()
    assert reader.peek() is None, (name, reader.toks[reader.at:reader.at + 5])
    CLAUSES[name].append((patterns, body))


# ---- compiling into Python

class Compiler:
    def __init__(self, aliases):
        self.aliases, self.constants, self.code = aliases, {}, []

    def names_in(self, p):
        if p[0] == "name":
            n = self.aliases.get(p[1], p[1])
            return [] if p[1] == "_" or n in CONSTRUCTORS or n in ("true", "false", "zero") else [p[1]]
        return [n for q in (p[1:] if p[0] == "cons" else p[2] if p[0] == "con" else []) for n in self.names_in(q)]

    def test(self, p, at, out, bound):
        """Tests of a pattern at the Python expression `at`, and what its names are."""
        if p[0] == "nil":
            out.append(f"not {at}")
        elif p[0] == "cons":
            out.append(f"{at}")
            self.test(p[1], at + "[0]", out, bound)
            self.test(p[2], at + "[1:]", out, bound)
        elif p[0] == "con" and p[1] == "suc":
            out.append(f"{at} > 0")
            self.test(p[2][0], f"({at} - 1)", out, bound)
        elif p[0] == "con":
            name = self.aliases.get(p[1], p[1])
            assert len(p[2]) == CONSTRUCTORS[name], p
            out.append(f"{at}[0] == {name!r}")
            for i, q in enumerate(p[2], 1):
                self.test(q, f"{at}[{i}]", out, bound)
        else:
            name = self.aliases.get(p[1], p[1])
            if name in ("true", "false"):
                out.append(at if name == "true" else f"not {at}")
            elif name == "zero":
                out.append(f"{at} == 0")
            elif name in CONSTRUCTORS:
                out.append(f"{at}[0] == {name!r}")
            elif p[1] != "_":
                bound.append((p[1], at))

    def case(self, patterns, ats, body, scope):
        out, bound = [], []
        for p, at in zip(patterns, ats):
            self.test(p, at, out, bound)
        inner = {**scope, **{n: "v_" + n for n, _ in bound}}
        code = self.expr(body, inner)
        if bound:
            code = f"(lambda {', '.join('v_' + n for n, _ in bound)}: {code})({', '.join(at for _, at in bound)})"
        return " and ".join(out) or "True", code

    def constant(self, value):
        key = repr(value)
        if key not in self.constants:
            self.constants[key] = (f"k{len(self.constants)}", value)
        return self.constants[key][0]

    def expr(self, e, scope):
        kind = e[0]
        if kind == "num":
            return str(e[1])
        if kind == "str":
            return repr(e[1])
        if kind == "var":
            return self.applied(e, [], scope)
        if kind == "app":
            return self.applied(e[1], e[2], scope)
        if kind == "lam":
            inner = {**scope, **{n: "v_" + n for n in e[1]}}
            return "(" + "".join(f"lambda v_{n}: " for n in e[1]) + self.expr(e[2], inner) + ")"
        if kind == "let":
            return f"(lambda v_{e[1]}: {self.expr(e[3], {**scope, e[1]: 'v_' + e[1]})})({self.expr(e[2], scope)})"
        if kind == "elim":
            code = "fail()"
            for pattern, body in reversed(e[2]):
                test, value = self.case([pattern], ["e_"], body, scope)
                code = f"({value} if {test} else {code})"
            return f"(lambda e_: {code})({self.expr(e[1], scope)})"
        if kind == "record":
            fields = ", ".join(f"{n!r}: {self.expr(v, scope)}" for n, v in e[2])
            return "{" + (f"**{self.expr(e[1], scope)}, " if e[1] else "") + fields + "}"
        if kind == "proj":
            return f"{self.expr(e[1], scope)}[{int(e[2]) + 1 if e[2].isdigit() else repr(e[2])}]"
        if kind == "tuple":
            return "Con((',', " + ", ".join(self.expr(x, scope) for x in e[1]) + "))"
        a, b = self.expr(e[2], scope), self.expr(e[3], scope)
        return {"∷": f"({a},) + {b}", "++": f"{a} + {b}", "==": f"{a} == {b}", "+": f"{a} + {b}", "*": f"{a} * {b}", "&&": f"{a} and {b}", "||": f"{a} or {b}"}[e[1]].join("()")

    def applied(self, f, args, scope):
        values = [self.expr(a, scope) for a in args]
        if f[0] != "var" or f[1] in scope:
            head = self.expr(f, scope) if f[0] != "var" else scope[f[1]]
            return head + "".join(f"({v})" for v in values)
        name = self.aliases.get(f[1], f[1])
        if name in ("true", "false", "[]", "zero"):
            return {"true": "True", "false": "False", "[]": "()", "zero": "0"}[name]
        if f[1] in CLAUSES and f[1] not in self.aliases or name in CLAUSES and name not in CONSTRUCTORS:
            which = f[1] if f[1] in CLAUSES and f[1] not in self.aliases else name
            arity, call = len(CLAUSES[which][0][0]), "f_" + which
        elif name in CONSTRUCTORS:
            arity = CONSTRUCTORS[name]
            if len(values) == arity:
                return f"Con(({name!r}, {', '.join(values)}))" if values else f"Con(({name!r},))"
            return f"curried({arity}, lambda *x: Con(({name!r}, *x)))" + "".join(f"({v})" for v in values)
        elif name in BUILT_IN:
            arity, call = BUILT_IN[name][0], "b_" + name
            if name == "cond" and len(values) == 3:
                return f"({values[1]} if {values[0]} else {values[2]})"
        else:
            raise NameError(f[1])
        if arity == 0:
            return f"{call}()" + "".join(f"({v})" for v in values)
        if len(values) >= arity:
            return f"{call}({', '.join(values[:arity])})" + "".join(f"({v})" for v in values[arity:])
        return f"curried({arity}, {call})" + "".join(f"({v})" for v in values)

    def function(self, name):
        clauses = CLAUSES[name]
        arity = len(clauses[0][0])
        assert clauses and all(len(p) == arity for p, _ in clauses), name
        ats = [f"a{i}" for i in range(arity)]
        lines = [f"def f_{name}({', '.join(ats)}):"]
        for patterns, body in clauses:
            test, value = self.case(patterns, ats, body, {})
            lines.append(f"    if {test}: return {value}")
        lines.append(f"    fail({name!r})")
        if arity == 0:
            lines.insert(0, "@functools.cache")
        return "\n".join(lines)


def fail(*where):
    raise ValueError(where)


def compiled():
    aliases = {}
    for name in FILES:
        load(name, aliases)
    for name in LEFT_OUT:
        CLAUSES.pop(name, None)
    space = {"functools": functools, "Con": Con, "curried": curried, "fail": fail, **{"b_" + n: f for n, (_, f) in BUILT_IN.items()}}
    compiler = Compiler(aliases)
    code = "\n".join(compiler.function(name) for name in CLAUSES)
    exec(compile(code, "antt", "exec"), space)
    return space


SPACE = compiled()


# ---- tests

def text(codes):
    return "".join(map(chr, codes))


def codes_of(s):
    return tuple(map(ord, s))


def option(s):
    return Con(("None",)) if s is None else Con(("Some", codes_of(s)))


def token(t):
    if t[0] == "char":
        return Con(("AChar", ord(t[1])))
    if t[0] == "comment":
        return Con(("AComment", codes_of(t[1])))
    if t[0] == "doctype":
        return Con(("ADoctype", {"name": option(t[1]), "public_id": option(t[2]), "system_id": option(t[3]), "force_quirks": t[4]}))
    if t[0] == "start":
        return Con(("AStart", codes_of(t[1]), tuple({"name": codes_of(n), "value": codes_of(v)} for n, v in t[2]), t[3]))
    return Con(("AnEnd", codes_of(t[1]))) if t[0] == "end" else Con(("AnEof",))


def trees(t):
    found = []
    while t[0] != "no_trees":
        if t[0] == "element_tree":
            _, space, name, attrs, contents, below, later = t
            prefix = {"NoSpace": "", "XLink": "xlink ", "Xml": "xml ", "XmlNs": "xmlns "}
            listed = [(("" if a["space"][0] == "XmlNs" and text(a["name"]) == "xmlns" else prefix[a["space"][0]]) + text(a["name"]), text(a["value"])) for a in attrs]
            is_template = space[0] == "Html" and text(name) == "template"
            found.append(("element", {"Html": "", "Svg": "svg", "MathMl": "math"}[space[0]], text(name), listed, trees(contents) if is_template else None, trees(below)))
        elif t[0] == "doctype_tree":
            d, later = t[1], t[2]
            part = {k: text(d[k][1]) if d[k][0] == "Some" else "" for k in ("name", "public_id", "system_id")}
            found.append(("doctype", part["name"], (part["public_id"], part["system_id"])))
        else:
            found.append((t[0].split("_")[0], text(t[1])))
            later = t[2]
        t = later
    return found


def run(page, context=None, scripting=False, attrs=(), quirks="no-quirks", in_form=False):
    """The tree of a page, or of a fragment in a context, by the definitions; and the mode of its Document."""
    if context:
        space, _, name = context.rpartition(" ")
        around = {
            "space": Con(({"": "Html", "svg": "Svg", "math": "MathMl"}[space],)), "name": codes_of(name),
            "attrs": tuple({"space": Con(("NoSpace",)), "name": codes_of(n), "value": codes_of(v)} for n, v in attrs), "in_form": in_form,
            "quirks": Con(({"no-quirks": "NoQuirks", "limited-quirks": "LimitedQuirks", "quirks": "FullQuirks"}[quirks],)),
        }  # fmt: skip
        state, b = SPACE["f_first_state"](scripting, around)[0], SPACE["f_fragment_start"](scripting, around)
    else:
        state, b = "Data", SPACE["f_start"](scripting)
    m = whole_parsing.machine.Machine(page, state=state, switches=False)
    while not m.done:
        m.foreign = SPACE["f_is_foreign_now"](b)
        before = len(m.tokens)
        m.step()
        for t in m.tokens[before:]:
            for one in [("char", c) for c in t[1]] if t[0] == "chars" else [t]:
                after = SPACE["f_tree_step"](32 + 8 * len(page), b, token(one))
                assert after[0] == "Some", (page, context)
                b = after[1]
                if b["tokenizer"][0] == "Some":
                    m.state = SPACE["f_state_of"](b["tokenizer"][1])[0]
    mode = {"NoQuirks": "no-quirks", "LimitedQuirks": "limited-quirks", "FullQuirks": "quirks"}[b["quirks"][0]]
    return whole_parsing.printed(trees(SPACE["f_nodes_of"](b) if context else SPACE["f_document_of"](b)["children"])), mode
