"""Reads rules.txt, the rules of tree construction: `SETS`, the lists of names, and `MODES`, for each insertion mode its rules.

A rule is `(pattern, condition, actions, goes)`: the token that it is for, its condition, what is done, and where the token goes next.
Each part is a tuple whose first item says what it is, as ('end', ['p', '$blocks']) or ('switch', 'in body')."""
import pathlib
import re

HERE = pathlib.Path(__file__).resolve().parent
CHARACTERS = ("white space", "null", "character", "comment", "doctype", "end of file", "anything else", "any start tag", "any end tag")
SCOPES = ("in scope", "in button scope", "in list item scope", "in table scope")
PLAIN_CONDITIONS = ("no form element pointer", "type is hidden")
PLAIN_ACTIONS = ("insert character", "insert comment", "append doctype", "insert element", "pop", "frameset not ok",
                 "reconstruct formatting", "close p", "implied end tags", "list element", "list marker", "clear list to marker",
                 "adoption agency", "set form pointer", "end form", "any other end tag", "drop next line feed")
NAMED_ACTIONS = ("implied end tags but", "pop if", "pop until", "close items", "clear stack to", "insert element")
PLAIN_GOES = ("read text", "switch back", "reset mode", "reset mode and reprocess", "stop", "no rule")


def names_in(text):
    """A list of names, or 'own name'."""
    return text if text == "own name" else text.split()


def with_names(text, words):
    """The one of `words` that `text` begins with, and the names after it."""
    for word in words:
        if text.startswith(word + " "):
            return (word, names_in(text[len(word) + 1:]))
    raise ValueError(text)


def pattern(text):
    if text.startswith("</"):
        return ("end", text[2:-1].split())
    if text.startswith("<"):
        return ("start", text[1:-1].split())
    if text == "doctype html":
        return ("doctype named", ["html"])
    if text not in CHARACTERS:
        raise ValueError(text)
    return (text,)


def condition(text):
    if not text:
        return ("always",)
    if text in PLAIN_CONDITIONS:
        return (text,)
    return with_names(text, ("no listed", "current node", *SCOPES))


def goes(text):
    """Where the token goes after the actions, or None where the text is an action."""
    found = re.fullmatch(r'(switch to|use the rules for) "([a-z ]+)"( and reprocess)?', text)
    if found:
        verb, mode, again = found.groups()
        return ("use" if verb != "switch to" else "reprocess" if again else "switch", mode)
    return (text,) if text in PLAIN_GOES else None


def rule(line):
    left, right = line.strip().split(": ")
    what, _, when = left.partition(" if ")
    parts = [part for part in right.split(", ") if part != "ignore"]
    then = goes(parts[-1]) if parts else None
    if then:
        parts.pop()
    actions = [(part,) if part in PLAIN_ACTIONS else with_names(part, NAMED_ACTIONS) for part in parts]
    return pattern(what), condition(when), actions, then or ("stay",)


def read(path=HERE / "rules.txt"):
    sets, modes, mode = {}, {}, None
    for line in path.read_text().splitlines():
        line = line.split("#")[0].rstrip()
        if line.startswith("names "):
            name, members = line[len("names "):].split(":")
            sets[name] = members.split()
        elif line.startswith("mode "):
            mode = line[len("mode "):].strip('"')
            modes[mode] = []
        elif line:
            modes[mode].append(rule(line))
    for rules in modes.values():
        for _, _, _, then in rules:
            if len(then) > 1 and then[1] not in modes:
                raise ValueError(then)
    return sets, modes


SETS, MODES = read()


def expanded(names):
    """The names, with each $list replaced by its members."""
    out = []
    for name in names:
        out += SETS[name[1:]] if name.startswith("$") else [name]
    return out
