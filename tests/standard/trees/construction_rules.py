"""Reads docs/standard/tree_construction.txt: `NAMES` (lists of names), `TEXTS` (lists of texts), `MODES` (for each mode, "dispatcher" and "foreign content"
included, its rules), `RESET` (the table of "reset mode") and `FIRST` (the table of first states).

A rule is Rule(patterns, conditions, actions). A pattern, a condition or an action is a tuple whose first part says what it is. An action is
a pair (action, its conditions); a condition is (positive, condition)."""
import pathlib
import re
from typing import NamedTuple

TEXT = pathlib.Path(__file__).resolve().parents[3] / "docs" / "standard" / "tree_construction.txt"
CHARACTERS = ("white space", "null", "character", "comment", "doctype", "end of file", "any start tag", "any end tag", "anything", "anything else")
NAMED_CONDITIONS = ("in scope", "in list item scope", "in button scope", "in table scope", "current node", "adjusted current node",
                    "second element", "context", "listed", "any attribute")
PLAIN_CONDITIONS = ("no open elements", "adjusted current node in HTML", "adjusted current node in MathML", "at a MathML text integration point",
                    "at an HTML integration point", "template open", "template mode set", "form pointer set", "head pointer set", "scripting",
                    "frameset-ok", "quirks", "fragment", "self-closing", "current node is topmost", "attribute type hidden",
                    "pending all white space", "own before HTML", "topmost")
NAMED_ACTIONS = ("insert element", "insert root element", "implied end tags but", "pop until", "pop up to", "close items", "find listed", "rename")
PLAIN_ACTIONS = ("insert character", "insert U+FFFD", "insert comment", "insert comment in document", "insert comment in html", "append doctype",
                 "set quirks by doctype", "set quirks", "insert element", "insert root element", "insert MathML element", "insert SVG element",
                 "set head pointer", "push head pointer", "remove head from stack", "set form pointer", "pop", "pop to topmost", "pop foreign elements",
                 "pop until own in any case", "frameset not ok", "keep mode", "switch back", "reset mode", "pop template mode", "list marker",
                 "list element", "clear list to marker", "reconstruct formatting", "adoption agency", "drop found", "close p", "implied end tags",
                 "all implied end tags", "end form", "any other end tag", "skip next line feed", "merge attributes into html",
                 "merge attributes into body", "remove body", "adjust MathML attributes", "adjust SVG attributes", "adjust SVG name",
                 "adjust foreign attributes", "foster on", "foster off", "empty pending", "add to pending", "insert pending",
                 "reprocess", "stop", "use current mode", "as anything else")


class Rule(NamedTuple):
    patterns: list
    conditions: list
    actions: list
    line: str


NAMES, TEXTS, MODES, RESET, FIRST, SECTIONS = {}, {}, {}, [], [], {}


def names_in(text):
    """A list of names, with each $list written out; "svg:desc" becomes "svg desc", which is no name of an HTML element."""
    found = []
    for word in text.split():
        found += NAMES[word[1:]] if word.startswith("$") else [re.sub("^(svg|math):", r"\1 ", word)]
    return found


def with_names(text, words):
    for word in sorted(words, key=len, reverse=True):
        if text.startswith(word + " "):
            return (word, names_in(text[len(word) + 1:]))
    raise ValueError(text)


def pattern(text):
    if text.startswith("</"):
        return ("end", names_in(text[2:-1]))
    if text.startswith("<"):
        return ("start", names_in(text[1:-1]))
    if text.startswith("start tag but "):
        return ("start but", names_in(text[len("start tag but "):]))
    if text not in CHARACTERS:
        raise ValueError(text)
    return (text,)


def condition(text):
    positive = not text.startswith("not ")
    text = text.removeprefix("not ")
    return (positive, (text,) if text in PLAIN_CONDITIONS else with_names(text, NAMED_CONDITIONS))


def conditions(text):
    return [condition(one) for one in text.split(" and ")] if text else []


def action(text):
    text, _, when = text.partition(" if ")
    found = re.fullmatch(r'(switch to|push template mode|use) "([a-z ]+)"( for each pending)?', text)
    if found:
        one = (found.group(1) + (found.group(3) or ""), found.group(2))
    elif text.startswith("tokenizer to "):
        one = ("tokenizer to", text.split()[-1])
    else:
        one = (text,) if text in PLAIN_ACTIONS else with_names(text, NAMED_ACTIONS)
    return (one, conditions(when))


def rule(line):
    left, right = line.strip().split(": ")
    what, _, when = left.partition(" if ")
    acts = [action(part) for part in right.split(", ") if part != "ignore"]
    return Rule([pattern(one) for one in what.split(" or ")], conditions(when), acts, line.strip())


def table_line(line):
    left, right = line.strip().split(": ")
    what, _, when = left.partition(" if ")
    return (None if what == "anything" else names_in(what), conditions(when), right.strip('"'))


def expand(rules):
    """With what the lines "anything else" say in place of "as anything else"."""
    others = [r for r in rules if r.patterns == [("anything else",)]]
    found = []
    for r in rules:
        if r.actions == [(("as anything else",), [])]:
            found += [Rule(r.patterns, r.conditions + o.conditions, o.actions, r.line) for o in others]
        else:
            found.append(r)
    return found


def read(path=TEXT):
    into = None
    for line in path.read_text(encoding="utf-8").splitlines():
        if line.startswith("#") or not line.strip():
            continue
        head = re.fullmatch(r'(?:mode "([a-z ]+)"|(dispatcher|reset mode|first state)) ([0-9.]+)', line)
        if head:
            name = head.group(1) or head.group(2)
            SECTIONS[name] = head.group(3)
            into, read_line = {"reset mode": (RESET, table_line), "first state": (FIRST, table_line)}.get(name) or (MODES.setdefault(name, []), rule)
        elif line.startswith("names "):
            name, members = line[len("names "):].split(": ")
            NAMES[name] = names_in(members)
        elif line.startswith("texts "):
            into, read_line = TEXTS.setdefault(line[len("texts "):].strip(), []), str.strip
        else:
            assert line.startswith("  "), line
            into.append(read_line(line))
    for name in MODES:
        MODES[name] = expand(MODES[name])
        for r in MODES[name]:
            for (one, _) in r.actions:
                if one[0].startswith(("switch to", "push template", "use")) and len(one) > 1:
                    assert one[1] in MODES, one


read()

if __name__ == "__main__":
    lines = {name: len({r.line for r in rules}) for name, rules in MODES.items()}
    print(len(MODES), "sections,", sum(lines.values()), "rules,", len(RESET) + len(FIRST), "lines of the two tables;", lines)
    acts = {a[0] for rules in MODES.values() for r in rules for a, _ in r.actions}
    conds = {c[0] for rules in MODES.values() for r in rules for _, c in r.conditions + [x for _, cs in r.actions for x in cs]}
    print(len(acts), "kinds of action,", len(conds), "kinds of condition")
    print("unused:", sorted(({*NAMED_ACTIONS, *PLAIN_ACTIONS} - acts) | ({*NAMED_CONDITIONS, *PLAIN_CONDITIONS} - conds)))
