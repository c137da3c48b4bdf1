"""What is made for the crate standard_rules: the definition specs/TreeRules.antt from rules.txt, and proofs/TreeAgreement.antt, in which the
prover computes the trees of rows.jsonl, from those rows; proofs/RuleFacts.antt is what it computes for each name."""
import json
import pathlib
import sys

from name_facts import rule_facts
from read_rules import MODES, SETS

HERE = pathlib.Path(__file__).resolve().parent
sys.path.insert(0, str(HERE.parents[1] / "tools"))
import sheets  # noqa: E402

WORDS = {"white space": "WhiteSpace", "null": "Null", "character": "Character", "comment": "Comment", "doctype": "Doctype",
         "end of file": "EndOfFile", "anything else": "AnythingElse", "any start tag": "AnyStart", "any end tag": "AnyEnd",
         "always": "Always", "no form element pointer": "NoForm", "type is hidden": "Hidden", "no listed": "NoListed",
         "current node": "CurrentNode", "in scope": "Scope", "in button scope": "ButtonScope", "in list item scope": "ListItemScope",
         "in table scope": "TableScope", "insert character": "InsertCharacter", "insert comment": "InsertComment",
         "append doctype": "AppendDoctype", "pop": "Pop", "frameset not ok": "FramesetNotOk", "reconstruct formatting": "Reconstruct",
         "close p": "CloseP", "implied end tags": "ImpliedEndTags", "implied end tags but": "ImpliedEndTagsBut",
         "list element": "ListElement", "list marker": "ListMarker", "clear list to marker": "ClearToMarker",
         "adoption agency": "AdoptionAgency", "set form pointer": "SetForm", "end form": "EndForm",
         "any other end tag": "AnyOtherEndTag", "drop next line feed": "DropLineFeed", "pop if": "PopIf", "pop until": "PopUntil",
         "close items": "CloseItems", "clear stack to": "ClearStackTo", "stay": "Stay", "switch": "SwitchTo", "reprocess": "ReprocessIn",
         "use": "UseRulesFor", "read text": "ReadText", "switch back": "SwitchBack", "reset mode": "ResetMode",
         "reset mode and reprocess": "ResetAndReprocess", "stop": "Stop", "no rule": "NoRule"}
IMPORTED = ("Own", "These", "InScope", "DoctypeOf", "StartOf", "EndOf", "InsertElement", "InsertNamed", "Mode", "Rule", "rule")


def mode_name(mode):
    return "".join(word.capitalize() for word in mode.split())


def names(words):
    """The names as a list; a list of rules.txt by its own name."""
    parts = [word[1:] for word in words if word.startswith("$")]
    plain = ['codes "%s"' % word for word in words if not word.startswith("$")]
    if plain or not parts:
        parts.append(" ∷ ".join([*plain, "[]"]))
    return parts[0] if parts[0].isalpha() and len(parts) == 1 else "(" + " ++ ".join(parts) + ")"


def either(words):
    return "Own" if words == "own name" else "(These " + names(words) + ")"


def pattern(p):
    if p[0] in ("start", "end"):
        return "(%sOf %s)" % (p[0].capitalize(), names(p[1]))
    return '(DoctypeOf (codes "%s"))' % p[1][0] if p[0] == "doctype named" else WORDS[p[0]]


def condition(c):
    if len(c) == 1:
        return WORDS[c[0]]
    return ("(InScope %s %s)" if c[0].endswith("scope") else "(%s %s)") % (WORDS[c[0]], either(c[1]))


def action(a):
    if a[0] == "insert element":
        return "InsertElement" if len(a) == 1 else 'InsertNamed (codes "%s")' % a[1][0]
    if len(a) == 1:
        return WORDS[a[0]]
    return WORDS[a[0]] + " " + (either(a[1]) if a[0] in ("pop until", "implied end tags but") else names(a[1]))


def goes(g):
    return WORDS[g[0]] if len(g) == 1 else "(%s %s)" % (WORDS[g[0]], mode_name(g[1]))


def tree_rules():
    words = sorted({*WORDS.values(), *IMPORTED, *map(mode_name, MODES)})
    out = ["-- The rules of tree construction (13.2.6.4), written by generate.py from rules.txt.",
           "use Rattle.std.specs.Prelude.{ℕ, List, [], ◌∷◌, ◌++◌, codes}",
           "use Rattle.standard_rules.specs.RuleWords.{%s}" % ", ".join(words)]
    for name, members in SETS.items():
        out += ["", "abbrev pub %s : List (List ℕ)" % name, "%s = %s" % (name, names(members)[1:-1])]
    out += ["", "unfoldable pub rules : Mode → List Rule"]
    for mode, rules in MODES.items():
        out.append("rules %s =" % mode_name(mode))
        for p, c, acts, g in rules:
            acts = " ∷ ".join([*map(action, acts), "[]"])
            out.append("    rule %s %s (%s) %s ∷" % (pattern(p), condition(c), acts, goes(g)))
        out[-1] += " []"
    return "\n".join(out) + "\n"


# ---- the rows

def codes(text):
    return '(codes "%s")' % text if text and text.isascii() and text.isprintable() else "(" + " ∷ ".join([*map(str, map(ord, text)), "[]"]) + ")"


def attributes(attrs):
    return "(" + " ∷ ".join(["record { name = %s; value = %s }" % (codes(n), codes(v)) for n, v in attrs] + ["[]"]) + ")" if attrs else "[]"


def token(t):
    if t[0] == "char":
        return "AChar %d" % ord(t[1])
    if t[0] == "start":
        return "AStart %s %s false" % (codes(t[1]), attributes(t[2]))
    if t[0] == "doctype":
        return "ADoctype (doctype_named %s)" % codes(t[1])
    return {"comment": "AComment ", "end": "AnEnd "}[t[0]] + codes(t[1])


def trees(siblings):
    if not siblings:
        return "no_trees"
    t, later = siblings[0], trees(siblings[1:])
    if t[0] == "element":
        return "(element_node %s %s %s %s)" % (codes(t[1]), attributes(t[2]), trees(t[3]), later)
    return "(%s_node %s %s)" % (t[0], codes(t[1]), later)


def rows():
    return [json.loads(line) for line in (HERE / "rows.jsonl").read_text().splitlines()]


def agreement():
    out = ["-- The trees of the rows of rows.jsonl, computed from the rules; written by generate.py.",
           "use Rattle.std.specs.Prelude.{◌≡◌, false, [], ◌∷◌, None, Some, codes, refl}",
           "use Rattle.standard_rules.specs.Building.{built, built_fragment, tree_step, run, taken, act, in_scope}",
           "use Rattle.standard_rules.specs.TreeRules.{rules}",
           "use Rattle.standard_rules.specs.TreeTokens.{no_trees, text_node, comment_node, doctype_named, doctype_node, element_node}",
           "use Rattle.standard_tokens.specs.Tokens.{AChar, AComment, ADoctype, AStart, AnEnd}"]
    for i, row in enumerate(rows(), 1):
        call = "built_fragment " + codes(row["context"]) if row["context"] else "built"
        tree = "None" if row["tree"] is None else "Some " + trees(row["tree"])
        out += ["", "row%d : %s (%s) ≡ %s" % (i, call, " ∷ ".join([*map(token, row["tokens"]), "[]"]), tree),
                "unfolding tree_step run taken act in_scope rules", "row%d = refl" % i]
    return "\n".join(out) + "\n"


def targets(crate):
    """The files that are made, and the text that each must have."""
    made = {crate / "specs" / "TreeRules.antt": tree_rules(), crate / "proofs" / "TreeAgreement.antt": agreement(),
            crate / "proofs" / "RuleFacts.antt": rule_facts(crate)}
    return {path: sheets.laid_out(text, sheets.WIDTH[path.parent.name]) for path, text in made.items()}


if __name__ == "__main__":
    for path, text in targets(HERE.parents[2] / "crates" / "standard_rules").items():
        path.write_text(text)
