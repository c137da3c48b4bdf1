"""What is made for the crate standard_trees of docs/standard/tree_construction.txt: specs/NameLists.antt and specs/QuirksTexts.antt, the lists of
names and texts; specs/TreeRules.antt, the rules and the two tables; and of rows.jsonl and fragments.jsonl specs/Examples.antt, pages and fragments
with the trees that construction.py gives, and proofs/ExamplesComputed.antt, in which the prover computes them. Run as a program it writes them;
`rt fmt` in the crate lays them out; tests/checks/standard_trees.py makes them anew and compares."""
import json
import pathlib
import re
import sys
import textwrap

import whole_parsing
from construction_rules import FIRST, MODES, NAMES, RESET, SECTIONS, TEXTS

HERE = pathlib.Path(__file__).resolve().parent
CRATE = HERE.parents[2] / "crates" / "standard_trees"
WIDTH = 140
SCOPES = {"in scope": "Scope", "in list item scope": "ListItemScope", "in button scope": "ButtonScope", "in table scope": "TableScope"}
OWN_WORDS = {
    "insert U+FFFD": "InsertReplacement", "end of file": "EndOfFile", "anything else": "Anything", "own before HTML": "OwnBeforeHtml",
}  # fmt: skip
TEXT_STATES = {"RCDATA": "RcdataText", "RAWTEXT": "RawText", "ScriptData": "ScriptText", "PLAINTEXT": "PlainText"}
NODE_TESTS = {(): "Always", ((False, "topmost"),): "NotTopmost", ((True, "head pointer set"),): "HeadPointerIsSet"}
WAYS = {"reprocess": "Reprocess", "use current mode": "UseCurrentMode"}
# lists that have a name of their own in the text
SHARED = {tuple(members): name.replace(" ", "_") for name, members in NAMES.items()}
SHARED[tuple(NAMES["fostering"])] = "fostering_names"


def camel(words):
    return OWN_WORDS.get(words) or "".join(w[0].upper() + w[1:].lower() for w in words.replace("-", " ").split())


def codes(text):
    plain = text and text.isascii() and text.isprintable() and '"' not in text and "\\" not in text
    return f'(codes "{text}")' if plain else "(" + " ∷ ".join([*(str(ord(c)) for c in text), "[]"]) + ")"


def listed(items):
    return " ∷ ".join([*items, "[]"])


def names(words):
    return SHARED.get(tuple(words)) or "(" + listed(f'codes "{w}"' for w in words) + ")"


def either(words):
    return "Own" if list(words) == ["own"] else f"(These {names(words)})"


def pattern(p):
    if p[0] in ("start", "end", "start but"):
        return {"start": "StartTagOf ", "end": "EndTagOf ", "start but": "StartTagBut "}[p[0]] + names(p[1])
    return camel(p[0])


def condition(c):
    if c[0] in SCOPES:
        return f"(InScope {SCOPES[c[0]]} {either(c[1])})"
    if c[0] == "any attribute":
        return f"(AnyAttribute {names(c[1])})"
    return camel(c[0]) if len(c) == 1 else f"({camel(c[0])} {either(c[1])})"


def tests(conditions):
    return "[]" if not conditions else "(" + listed(("is " if yes else "isnt ") + condition(c) for yes, c in conditions) + ")"


def action(a):
    kind, *rest = a
    if not rest:
        return camel(kind)
    if kind in ("insert element", "insert root element"):
        return {"insert element": "(InsertNamed ", "insert root element": "(InsertRootNamed "}[kind] + f'(codes "{rest[0][0]}"))'
    if kind in ("switch to", "push template mode"):
        return f"({camel(kind)} {camel(rest[0])})"
    if kind == "tokenizer to":
        return f"(TokenizerTo {TEXT_STATES[rest[0]]})"
    if kind == "rename":
        return f'(Rename (codes "{rest[0][0]}"))'
    return f"({camel(kind)} {names(rest[0]) if kind == 'close items' else either(rest[0])})"


def act(a, when):
    if a[0] in WAYS:
        assert not when, a
        return "goes " + WAYS[a[0]]
    if a[0] == "use":
        assert not when, a
        return f"goes (Use {camel(a[1])})"
    if a[0] == "use for each pending":
        return f"goes (UseForEachPending {camel(a[1])})"
    return f"does {action(a)} {tests(when)}"


def folded(text, indent, cut=r"(?<=∷) ", width=WIDTH):
    """The text in lines of at most that many columns, the first as it is and the others indented, cut at places that fit."""
    lines, line = [], ""
    for piece in re.split(cut, text):
        if line and len(line) + 1 + len(piece) > width:
            lines.append(line)
            line = indent + piece
        else:
            line = f"{line} {piece}" if line else piece
    return [*lines, line]


def without_layout(text):
    """What `rt fmt` leaves of a text: it chooses line breaks and white space, and closes lists that it breaks with a comma or semicolon."""
    return re.sub("[,;]}", "}", re.sub(r"\s", "", text))


def comment(text, indent=""):
    first, later = indent + "-- ", indent + "--    "
    return textwrap.wrap(text, WIDTH, initial_indent=first, subsequent_indent=later, break_long_words=False, break_on_hyphens=False)


def uses(body, modules):
    """Lines that import the words of a text: (module, words of that module)."""
    plain = re.sub(r'codes "[^"]*"', "codes", re.sub("--.*", "", body))
    found = set(re.findall(r"[^\s(){}.,;\[\]]+", plain))
    lines = []
    for module, words in modules:
        line = ""
        for word in sorted(w for w in words if w in found or w.startswith("◌") or w == "[]" and "[]" in plain):
            if line and len(line) + len(word) + 3 > WIDTH:
                lines.append(line + "}")
                line = ""
            line = f"{line}, {word}" if line else f"use Rattle.{module}.{{{word}"
        if line:
            lines.append(line + "}")
    return lines


def constructors(path):
    """The types, constructors and definitions of a file of specs/."""
    text = path.read_text(encoding="utf-8")
    found = set(re.findall(r"(?m)^(?:pub (?:data|record)|abbrev pub|unfoldable pub) (\S+)", text))
    for line in re.findall(r"(?m)^  ([^:\n]+) : ", text):
        words = {"is", "isnt", "does", "goes", "rule", "reset_to", "reset_to_template_mode"}
        found |= {word for word in line.split() if word[0].isupper() or word in words or word.endswith(("_tree", "_trees"))}
    return found


def name_lists():
    out = []
    for members, name in SHARED.items():
        out += ["", f"abbrev pub {name} : List (List ℕ)", *folded(f"{name} = " + listed(f'codes "{w}"' for w in members), "    ")]
    head = ["-- The lists of names of docs/standard/tree_construction.txt; made by tests/standard/trees/definition.py.",
            "use Rattle.std.specs.Prelude.{ℕ, List, [], ◌∷◌, codes}"]
    return "\n".join(head + out) + "\n"


def quirks_texts():
    out = []
    for name, members in TEXTS.items():
        own = name.replace(" ", "_")
        out += ["", f"unfoldable pub {own} : List (List ℕ)", f"{own} ="] + [f"    {codes(t)} ∷" for t in members]
        out[-1] += " []"
    head = ["-- The identifiers of doctypes that set a Document to quirks mode (13.2.6.4.1), of docs/standard/tree_construction.txt; made by",
            "-- tests/standard/trees/definition.py.", "use Rattle.std.specs.Prelude.{ℕ, List, [], ◌∷◌, codes}"]
    return "\n".join(head + out) + "\n"


def rule(r):
    acts = listed(act(a, when) for a, when in r.actions)
    return [*comment(r.line, "    "), *folded(f"    rule ({listed(map(pattern, r.patterns))}) {tests(r.conditions)} ({acts}) ∷", "        ")]


def tree_rules():
    out = ["", "unfoldable pub rules : Mode → List Rule"]
    for mode, rules in MODES.items():
        out += ["", f"-- {SECTIONS[mode]}", f"rules {camel(mode)} ="] + [line for r in rules for line in rule(r)]
        out[-1] += " []"
    out += ["", f"-- reset the insertion mode appropriately, {SECTIONS['reset mode']}; for the topmost element of another name it is in body",
            "abbrev pub resets : List Reset", "resets ="]
    for what, when, mode in RESET:
        if what is not None:
            test = NODE_TESTS[tuple((yes, c[0]) for yes, c in when)]
            to_template = mode.startswith("the current")
            out.append(f"    reset_to_template_mode {names(what)} ∷" if to_template else f"    reset_to {names(what)} {test} {camel(mode)} ∷")
    out[-1] += " []"
    out += ["", f"-- the state in which the tokenizer begins with a fragment, by the context element, {SECTIONS['first state']}; of others it is Data;",
            "-- the flag says whether scripting is enabled", "abbrev pub first_states : Bool → List (List (List ℕ) × State)", "first_states scripting ="]
    for what, when, state in FIRST:
        if what is not None:
            out.append(f"    ({names(what)}, {f'cond scripting {state} Data' if when else state}) ∷")
    out[-1] += " []"
    body = "\n".join(out) + "\n"
    head = ["-- The rules of tree construction (13.2.6), each behind its line of docs/standard/tree_construction.txt; made by",
            "-- tests/standard/trees/definition.py.",
            *uses(body, [("std.specs.Prelude", ["ℕ", "Bool", "cond", "List", "[]", "◌∷◌", "codes"]),
                         ("standard_tokens.specs.States", ["State", "Data", "RCDATA", "RAWTEXT", "ScriptData", "PLAINTEXT"]),
                         ("standard_trees.specs.NameLists", SHARED.values()),
                         ("standard_trees.specs.RuleWords", constructors(CRATE / "specs" / "RuleWords.antt"))])]
    return "\n".join(head) + "\n" + body


# ---- examples

def attributes(attrs):
    found = []
    for n, v in attrs:
        prefix, _, local = n.rpartition(" ")
        space = {"": "NoSpace", "xlink": "XLink", "xml": "Xml", "xmlns": "XmlNs"}[prefix]
        found.append(f"attr {space} {codes(local)} {codes(v)}")
    return "(" + listed(found) + ")" if found else "[]"


def trees(siblings):
    if not siblings:
        return "no_trees"
    t, later = siblings[0], trees(siblings[1:])
    if t[0] == "element":
        _, space, name, attrs, contents, below = t
        space = {"": "Html", "svg": "Svg", "math": "MathMl"}[space]
        if not attrs and contents is None:
            plain = {"Html": "element", "Svg": "svg_element", "MathMl": "math_element"}[space]
            return f"({plain} {codes(name)} {trees(below)} {later})"
        return f"(element_tree {space} {codes(name)} {attributes(attrs)} {trees(contents or [])} {trees(below)} {later})"
    if t[0] == "doctype":
        return f"(doctype_tree (plain_doctype {codes(t[1])}) {later})"
    return f"({t[0]}_tree {codes(t[1])} {later})"


MODES_OF_QUIRKS = {"no-quirks": "NoQuirks", "limited-quirks": "LimitedQuirks", "quirks": "FullQuirks"}


def example_rows():
    lines = [line for file in ("rows.jsonl", "fragments.jsonl") for line in (HERE / file).read_text(encoding="utf-8").splitlines()]
    return list(map(json.loads, lines))


def example_tree(row):
    """What the definition says of an example."""
    flag = "true" if row.get("scripting") else "false"
    if row["context"] is None:
        b = whole_parsing.page(row["text"], row["scripting"])
        return f"parse {flag} {codes(row['text'])} ≡ Some (document {MODES_OF_QUIRKS[b.quirks]} {trees(b.result())})"
    space, _, name = row["context"].rpartition(" ")
    space = {"svg": "Svg", "math": "MathMl"}.get(space, "Html")
    around = {key: row[key] for key in ("attrs", "in_form", "quirks") if key in row}
    b = whole_parsing.fragment(row["context"], row["text"], row.get("scripting", False), **around)
    call = f"(plain_context {space} {codes(name)})"
    if around:
        attrs, in_form = attributes(row["attrs"]), "true" if row["in_form"] else "false"
        call = f"(surroundings {space} {codes(name)} {attrs} {in_form} {MODES_OF_QUIRKS[row['quirks']]})"
    return f"parse_fragment {flag} {call} {codes(row['text'])} ≡ Some {trees(b.result())}"


# where a line of an example may end
NODES = "element|svg_element|math_element|element_tree|text_tree|comment_tree|doctype_tree"
EXAMPLE_CUT = rf" (?=\((?:{NODES}) )|(?<=∷) |(?<=≡ Some) |(?<=\)\)) (?=\(codes|no_trees)|(?<=Quirks\)) "
EXAMPLE_HEAD = """
abbrev pub plain_doctype : List ℕ → Doctype
plain_doctype name = record { name = Some name; public_id = None; system_id = None; force_quirks = false }

abbrev pub attr : AttrSpace → List ℕ → List ℕ → NodeAttr
attr of name value = record { space = of; name = name; value = value }

-- an element without attributes: its children, and the siblings after it
abbrev pub element : List ℕ → Trees → Trees → Trees
element name below later = element_tree Html name [] no_trees below later

abbrev pub svg_element : List ℕ → Trees → Trees → Trees
svg_element name below later = element_tree Svg name [] no_trees below later

abbrev pub math_element : List ℕ → Trees → Trees → Trees
math_element name below later = element_tree MathMl name [] no_trees below later

abbrev pub document : QuirksMode → Trees → Document
document mode nodes = record { quirks = mode; children = nodes }

abbrev pub surroundings : Space → List ℕ → List NodeAttr → Bool → QuirksMode → Surroundings
surroundings around name attrs is_in_form mode =
    record { space = around; name = name; attrs = attrs; in_form = is_in_form; quirks = mode }

-- an element without attributes, in a document that is not in quirks mode, and in no form
abbrev pub plain_context : Space → List ℕ → Surroundings
plain_context around name = surroundings around name [] false NoQuirks

pub record PagesAreParsed : Type 0 where"""


def examples():
    """The pages and fragments of rows.jsonl with their trees."""
    out = [EXAMPLE_HEAD]
    for i, row in enumerate(example_rows(), 1):
        out += folded(f"  pub page{i} : {example_tree(row)}", "      ", EXAMPLE_CUT, 130)
    body = "\n".join(out) + "\n"
    head = ["-- Pages and fragments with their trees by tests/standard/trees/construction.py; made by tests/standard/trees/definition.py.",
            *uses(body, [("std.specs.Prelude", ["◌≡◌", "ℕ", "Bool", "true", "false", "List", "[]", "◌∷◌", "None", "Some", "codes"]),
                         ("standard_tokens.specs.Tokens", ["Doctype"]),
                         ("standard_trees.specs.TreeStore", constructors(CRATE / "specs" / "TreeStore.antt") | {"XLink", "Xml", "XmlNs"}),
                         ("standard_trees.specs.Building", ["QuirksMode", "NoQuirks", "LimitedQuirks", "FullQuirks", "Surroundings"]),
                         ("standard_trees.specs.Parsing", ["Document", "parse", "parse_fragment"])])]
    return "\n".join(head) + "\n" + body


UNFOLDED = [("standard_tokens.specs.Machine", ["longest_name", "step", "taken as taken_entry", "value_of"]),
            ("standard_tokens.specs.NamedReferences", ["named_references"]), ("standard_tokens.specs.Table", ["entries"]),
            ("standard_trees.specs.QuirksTexts", [name.replace(" ", "_") for name in TEXTS]), ("standard_trees.specs.TreeRules", ["rules"]),
            ("standard_trees.specs.Building", ["perform", "run", "taken", "tree_step"]), ("standard_trees.specs.Parsing", ["parsed"])]


def examples_computed():
    opened = "unfolding " + " ".join(w.split()[-1] for _, words in UNFOLDED for w in words)
    fields = "; ".join(f"page{i} = refl" for i in range(1, len(example_rows()) + 1))
    out = ["-- The trees of the examples, computed by the prover; made by tests/standard/trees/definition.py.", "use Rattle.std.specs.Prelude.{refl}"]
    for module, words in UNFOLDED:
        out += folded(f"use Rattle.{module}.{{{', '.join(words)}}}", "    ", "(?<=,) ")
    out += ["use Rattle.standard_trees.specs.Examples.{PagesAreParsed}", "", "pub pages_are_parsed : PagesAreParsed", *folded(opened, "    ", " "),
            *folded(f"pages_are_parsed = record {{ {fields} }}", "    ", "(?<=;) ")]
    return "\n".join(out) + "\n"


def targets():
    """The files that are made, and the text that each must have."""
    return {CRATE / "specs" / "NameLists.antt": name_lists(), CRATE / "specs" / "QuirksTexts.antt": quirks_texts(),
            CRATE / "specs" / "TreeRules.antt": tree_rules(), CRATE / "specs" / "Examples.antt": examples(),
            CRATE / "proofs" / "ExamplesComputed.antt": examples_computed()}


if __name__ == "__main__":
    sys.setrecursionlimit(10000)
    for path, text in targets().items():
        path.write_text(text, encoding="utf-8")
