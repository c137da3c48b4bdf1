"""The files of crates/standard_tokens that are made: of the tables in docs/standard the states, their entries, and the named character
references, and of tests/standard/texts.jsonl the examples and their proof. Run as a program it writes them; tests/checks/standard.py
makes them anew and compares."""
import json
import pathlib
import sys

import table

sys.path.insert(0, str(pathlib.Path(__file__).resolve().parents[1] / "tools"))
import sheets  # noqa: E402

CRATE = pathlib.Path(__file__).resolve().parents[2] / "crates" / "standard_tokens"
TEXTS = pathlib.Path(__file__).with_name("texts.jsonl")
# More steps than any of the texts takes.
STEPS = 300
CLASS = {"A-Z": "upper", "a-z": "lower", "0-9": "digit", "A-F": "upper_hex", "a-f": "lower_hex"}
GUARD = {
    None: "Always", "appropriate": "Appropriate", "script": "IsScript", "foreign": "InForeign", "attribute": "InAttribute",
    "historical": "Historical",
}  # fmt: skip
PLACE = {
    "tag": "TheTagName", "attr.name": "AttrName", "attr.value": "AttrValue", "comment": "Comment", "doctype.name": "DoctypeName",
    "public": "PublicId", "system": "SystemId", "buffer": "Buffer",
}  # fmt: skip
ACT = {
    "emit tag": "EmitTag", "emit comment": "EmitComment", "emit doctype": "EmitDoctype", "emit eof": "EmitEndOfFile",
    "new start": "NewTag Starting", "new end": "NewTag Ending", "new attr": "NewAttr", "new comment": "NewComment",
    "new doctype": "NewDoctype", "self-closing": "SelfClosing", "quirks": "ForceQuirks", "code = 0": "CodeZero",
    "number": "BufferNumber", "name": "BufferName", "flush": "Flush",
}  # fmt: skip
WHAT = {"cur": "Current", "low": "Lower", "buf": "TheBuffer"}
THEN = {"stay": "Stay", "stop": "Stop", "switch": "Switch", "reconsume": "Reconsume"}
# Of other types constructors have these names.
STATE = {"Comment": "CommentState", "DOCTYPE": "DOCTYPEState"}
WORDS = (
    "Entry, entry, Next, Word, AnyCase, Name, Else, End, chars, space, null, upper, lower, digit, upper_hex, lower_hex, "
    "Always, Appropriate, IsScript, InForeign, InAttribute, Historical, Current, Lower, TheBuffer, These, replacement, "
    "TheTagName, AttrName, AttrValue, Comment, DoctypeName, PublicId, SystemId, Buffer, Starting, Ending, "
    "Emit, EmitTag, EmitComment, EmitDoctype, EmitEndOfFile, NewTag, NewAttr, NewComment, NewDoctype, SelfClosing, ForceQuirks, "
    "Add, SetEmpty, ReturnTo, CodeZero, CodeDigit, BufferNumber, BufferName, Flush, Stay, Switch, Reconsume, SwitchBack, "
    "ReconsumeBack, Stop"
)


def state(name):
    return STATE.get(name, name)


def quoted(text):
    return '"' + text.replace("\\", "\\\\").replace('"', '\\"') + '"'


def in_list(items):
    return " ∷ ".join([*items, "[]"])


def run_of(chars):
    """The marks of characters next to one another in an entry."""
    if chars[:4] == table.SPACE:
        return ["space", *run_of(chars[4:])]
    if chars == [0]:
        return ["null"]
    return ["chars " + quoted("".join(map(chr, chars)))] if chars else []


def marks(on):
    found, chars = [], []
    for o in on:
        if o[0] == "char":
            chars.append(o[1])
        else:
            found += [*run_of(chars), "End" if o[0] == "eof" else CLASS[o[1]]]
            chars = []
    return found + run_of(chars)


def on(entry):
    first = entry.on[0]
    if first[0] == "else":
        return "Else"
    if first[0] == "name":
        return "Name"
    if first[0] == "word":
        return f"({'AnyCase' if first[2] else 'Word'} (codes {quoted(first[1])}))"
    return f"(Next ({in_list(marks(entry.on))}))"


def what(w):
    if w[0] != "text":
        return WHAT[w[0]]
    return "replacement" if w[1] == "\ufffd" else f"(These (codes {quoted(w[1])}))"


def act(a):
    if a[0] == "emit":
        return "Emit " + what(a[1])
    if a[0] == "add":
        return f"Add {PLACE[a[1]]} {what(a[2])}"
    if a[0] == "clear":
        return "SetEmpty " + PLACE[a[1]]
    if a[0] == "return":
        return "ReturnTo " + state(a[1])
    if a[0] == "digit":
        return f"CodeDigit {a[1]} 0x{a[2]:x}"
    return ACT[a[0]]


def then(t):
    if t[0] in ("stay", "stop"):
        return THEN[t[0]]
    return THEN[t[0]] + "Back" if t[1] == "return" else f"({THEN[t[0]]} {state(t[1])})"


def entry(e):
    acts = in_list(act(a) for a in e.do)
    return f"entry {on(e)} {GUARD[e.guard]} {acts if acts == '[]' else f'({acts})'} {then(e.then)}"


def states_file(states):
    lines = [
        "-- The 80 states of the tokenizer (13.2.5). Made from docs/standard/tokenizer.txt by tests/standard/definitions.py.",
        "pub data State : Type 0 where",
        *(f"  {state(name)} : State  -- 13.2.5.{number}" for number, name in enumerate(states, 1)),
    ]
    return "\n".join(lines) + "\n"


def table_file(states):
    lines = [
        "-- What each state of the tokenizer does (13.2.5.1 to 13.2.5.80). Made from docs/standard/tokenizer.txt by"
        " tests/standard/definitions.py.",
        "use Rattle.std.specs.Prelude.{List, [], ◌∷◌, codes}",
        f"use Rattle.standard_tokens.specs.States.{{State, {', '.join(map(state, states))}}}",
        f"use Rattle.standard_tokens.specs.Entries.{{{WORDS}}}",
        "",
        "-- the entries of each state; the first that fits is taken",
        "unfoldable pub entries : State → List Entry",
    ]
    for number, (name, entries) in enumerate(states.items(), 1):
        lines += [f"-- 13.2.5.{number}", f"entries {state(name)} ="]
        lines += [f"    {'∷ ' if k else ''}{entry(e)}" for k, e in enumerate(entries)]
        lines.append("    ∷ []")
    return "\n".join(lines) + "\n"


def references_file(references):
    lines = [
        "-- The named character references (13.5): the names without their ampersand, and the one or two characters of each."
        " Made from docs/standard/named_references.txt by tests/standard/definitions.py.",
        "use Rattle.std.specs.Prelude.{ℕ, List, [], ◌∷◌, codes}",
        "use Prim.Native.String.{String}",
        "",
        "pub record NamedReference : Type 0 where",
        "  pub name : List ℕ",
        "  pub characters : List ℕ",
        "",
        "abbrev pub one : String → ℕ → NamedReference",
        "one name c = record { name = codes name; characters = c ∷ [] }",
        "",
        "abbrev pub two : String → ℕ → ℕ → NamedReference",
        "two name c d = record { name = codes name; characters = c ∷ d ∷ [] }",
        "",
        "unfoldable pub named_references : List NamedReference",
        "named_references =",
    ]
    for k, (name, characters) in enumerate(references.items()):
        numbers = " ".join(f"0x{ord(c):x}" for c in characters)
        lines.append(f"    {'∷ ' if k else ''}{'one' if len(characters) == 1 else 'two'} {quoted(name)} {numbers}")
    return "\n".join([*lines, "    ∷ []"]) + "\n"


def characters(text):
    """The characters of a text: as a string where each is printable ASCII, and else as numbers."""
    if text and text.isascii() and text.isprintable():
        return f"codes {quoted(text)}"
    return in_list(str(ord(c)) for c in text)


def in_words(text):
    """A comment that shows a text of which the definition has numbers."""
    return [] if characters(text).startswith("codes") else [f"-- {json.dumps(text)}"]


def maybe(text):
    return "None" if text is None else f"Some ({characters(text)})"


def tokens_of(token):
    """The tokens of the definitions, one character at a time, that represent one of machine.py."""
    kind, *parts = token
    if kind == "chars":
        return [f"AChar {ord(c)}" for c in parts[0]]
    if kind == "start":
        name, attrs, closing = parts
        attrs = in_list(f"record {{ name = {characters(n)}; value = {characters(v)} }}" for n, v in attrs)
        return [f"AStart ({characters(name)}) ({attrs}) {str(closing).lower()}"]
    if kind == "doctype":
        name, public, system = map(maybe, parts[:3])
        ids = f"name = {name}; public_id = {public}; system_id = {system}"
        return [f"ADoctype (record {{ {ids}; force_quirks = {str(parts[3]).lower()} }})"]
    return {"end": lambda: [f"AnEnd ({characters(*parts)})"], "comment": lambda: [f"AComment ({characters(*parts)})"]}.get(
        kind, lambda: ["AnEof"]
    )()


def examples_file(rows):
    lines = [
        "-- Pages that take every entry of the table, with their tokens. Made from tests/standard/texts.jsonl by"
        " tests/standard/definitions.py.",
        "use Rattle.std.specs.Prelude.{ℕ, Bool, true, false, List, [], ◌∷◌, None, Some, codes}",
        "use Rattle.standard_tokens.specs.Tokens.{Token, AChar, AComment, ADoctype, AStart, AnEnd, AnEof}",
        "",
        "pub record Example : Type 0 where",
        "  pub text : List ℕ",
        "  pub foreign : Bool  -- whether it is read in foreign content",
        "  pub tokens : List Token",
        "",
        "abbrev pub page : Bool → List ℕ → List Token → Example",
        "page foreign text tokens = record { text = text; foreign = foreign; tokens = tokens }",
    ]
    for number, r in enumerate(rows):
        tokens = in_list(x for t in r["tokens"] for x in tokens_of(t))
        lines += ["", *in_words(r["text"]), f"abbrev pub example{number} : Example"]
        lines.append(f"example{number} = page {str(r['foreign']).lower()} ({characters(r['text'])}) ({tokens})")
    lines += ["", "abbrev pub examples : List Example"]
    lines.append("examples = " + in_list(f"example{number}" for number in range(len(rows))))
    return "\n".join(lines) + "\n"


def examples_proof(rows):
    lines = [
        "-- That the examples are read so, by computing. Made from tests/standard/texts.jsonl by tests/standard/definitions.py.",
        "use Rattle.std.specs.Prelude.{refl}",
        f"use Rattle.standard_tokens.specs.Examples.{{{', '.join(f'example{number}' for number in range(len(rows)))}}}",
        "use Rattle.standard_tokens.specs.Laws.{ExamplesAreRead, IsExampleRead}",
        "use Rattle.standard_tokens.specs.Machine.{longest_name, value_of}",
        "use Rattle.standard_tokens.specs.Reading.{run}",
        "use Rattle.standard_tokens.proofs.Running.{by_running}",
    ]
    for number in range(len(rows)):
        lines += ["", f"read{number} : IsExampleRead example{number}", "unfolding run longest_name value_of", f"read{number} = by_running {STEPS} example{number} refl"]
    lines += ["", "pub all_read : ExamplesAreRead", "all_read ="]
    lines.append("    " + "".join(f"(read{number}, " for number in range(len(rows))) + "tt" + ")" * len(rows))
    return "\n".join(lines) + "\n"


def files():
    """The text of each file that is made, by its path in the crate."""
    states = table.states()
    rows = [json.loads(line) for line in TEXTS.read_text(encoding="utf-8").splitlines()]
    made = {
        "specs/States.antt": states_file(states),
        "specs/Table.antt": table_file(states),
        "specs/NamedReferences.antt": references_file(table.named_references()),
        "specs/Examples.antt": examples_file(rows),
        "proofs/ReadExamples.antt": examples_proof(rows),
    }
    return {path: sheets.laid_out(text, sheets.WIDTH[path.partition("/")[0]]) for path, text in made.items()}


if __name__ == "__main__":
    for path, text in files().items():
        (CRATE / path).write_text(text, encoding="utf-8")
