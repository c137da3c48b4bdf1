"""Reads the table of the tokenizer's states, docs/standard/tokenizer.txt, and the table of the named character references,
docs/standard/named_references.txt. How the tables are written is said at their heads, and in docs/RULES.md."""
import pathlib
import re
from typing import NamedTuple

FOLDER = pathlib.Path(__file__).resolve().parents[2] / "docs" / "standard"
SPACE = [9, 10, 12, 32]
CLASSES = ["A-Z", "a-z", "0-9", "A-F", "a-f"]
GUARDS = ["appropriate", "script", "foreign", "attribute", "historical"]
PLACES = ["tag", "attr.name", "attr.value", "comment", "doctype.name", "public", "system", "buffer"]
WORDS = ["self-closing", "quirks", "number", "name", "flush", "code = 0"]
NEW = ["new start", "new end", "new attr", "new comment", "new doctype"]


class Entry(NamedTuple):
    """One line of a state: on what it is taken, under which condition, what is done, and where the tokenizer goes on."""

    on: list
    guard: str | None
    do: list
    then: tuple


def read_on(text):
    """A list of ("char", number), ("class", name), ("eof",), ("else",), ("word", text, any_case), ("name",); and the condition."""
    text, _, guard = text.partition(" if ")
    assert guard in ["", *GUARDS], guard
    found = []
    for word in text.split():
        if word == "SP":
            found += [("char", c) for c in SPACE]
        elif word == "NUL":
            found.append(("char", 0))
        elif word in CLASSES:
            found.append(("class", word))
        elif word in ("EOF", "else", "name"):
            found.append((word.lower(),))
        elif len(word) == 1:
            found.append(("char", ord(word)))
        else:
            in_quotes = re.fullmatch(r'(i?)"(.+)"', word)
            assert in_quotes, word
            found.append(("word", in_quotes.group(2), in_quotes.group(1) == "i"))
    assert len(found) == 1 or not any(o[0] in ("else", "word", "name") for o in found), text
    return found, guard or None


def read_what(text):
    """Which characters: ("cur",), ("low",), ("buf",) or ("text", characters)."""
    if text in ("cur", "low", "buf"):
        return (text,)
    if text == "FFFD":
        return ("text", "\ufffd")
    assert text[0] == '"' == text[-1] and len(text) > 2, text
    return ("text", text[1:-1])


def read_act(text):
    """What is done, as a tuple whose first part says what."""
    if text.startswith("emit "):
        what = text[5:]
        return (text,) if what in ("tag", "comment", "doctype", "eof") else ("emit", read_what(what))
    if text in WORDS or text in NEW:
        return (text,)
    digit = re.fullmatch(r"code \* (\d+) - (0x\w+)", text)
    if digit:
        return ("digit", int(digit.group(1)), int(digit.group(2), 16))
    back = re.fullmatch(r"return = (\w+)", text)
    if back:
        return ("return", back.group(1))
    clear = re.fullmatch(r'(buffer|public|system) = ""', text)
    if clear:
        return ("clear", clear.group(1))
    add = re.fullmatch(r"([\w.]+) \+ (.+)", text)
    assert add and add.group(1) in PLACES, text
    return ("add", add.group(1), read_what(add.group(2)))


def read_then(text):
    """("stay",), ("stop",), ("switch", state) or ("reconsume", state); the state is "return" for the return state."""
    if text in ("", "stop"):
        return (text or "stay",)
    arrow, target = text.split()
    return ({"->": "switch", "@": "reconsume"}[arrow], target)


def states(text=None):
    """For each state, in the Standard's order, the list of its entries."""
    found, name = {}, None
    for line in (text or (FOLDER / "tokenizer.txt").read_text(encoding="utf-8")).splitlines():
        if line.startswith("== "):
            number, name = line[3:].split()
            assert int(number) == len(found) + 1, line
            found[name] = []
        elif name is not None and line.strip():
            on, do, then = [part.strip() for part in line.split("|")]
            acts = [read_act(a.strip()) for a in do.split(",")] if do else []
            found[name].append(Entry(*read_on(on), acts, read_then(then)))
    for entries in found.values():
        assert entries[-1].on == [("else",)] and entries[-1].guard is None
        for e in entries:
            assert e.then[0] in ("stay", "stop") or e.then[1] in ("return", *found), e.then
    return found


def named_references():
    """For each name, its one or two characters."""
    found = {}
    for line in (FOLDER / "named_references.txt").read_text(encoding="utf-8").splitlines():
        if not line.startswith("#"):
            name, *numbers = line.split()
            found[name] = "".join(chr(int(n[2:], 16)) for n in numbers)
    return found
