"""Random texts for the tokenizer, each with the state in which it is read: {"text", "state", "last", "foreign", "switches"}, which are
the arguments of machine.Machine."""
import random

import machine

PIECES = [
    "<", ">", "/", "</", "<!", "<!--", "-->", "--!>", "-", "--", "!", "=", '"', "'", "`", "&", "&#", "&#x", ";", " ", "\t", "\n", "\f",
    "\r", "\r\n", "\0", "a", "B", "z", "p", "P", "1", "0", "f", "F", "[", "]", "]]", "]]>", "?", "[CDATA[", "<![CDATA[", "<!DOCTYPE",
    "<!doctype ", "DOCTYPE", "html", " PUBLIC ", " public", " SYSTEM ", "sysTem", "PUBLI", "script", "title", "<title>", "</title>",
    "</TITLE ", "<script>", "</script>", "</script", "<style>", "</style/", "</style>", "<xmp>", "<plaintext>", "<textarea>",
    "</textarea>", "<!--<script>", "<!-- <script ", "&amp", "&amp;", "&lt", "&not", "&notit;", "&notin;", "&ampx", "&copy=", "&nosuch;",
    "&nosuch", "&#65;", "&#x41;", "&#0;", "&#x80;", "&#xD800;", "&#x110000;", "&#99999999999999999999;", "&#13;", "<a href=", '<a b="',
    "<a b='", "<p a=b a=c>", "<br/>", "<br / >", "é", "𝒳", "İ", "\u212a", "x=y", "</", "</p>", "</p a=b>", "<p", " a", '"x"', "'y'",
    "&NotEqualTilde;", "&acE", "&", "amp;",
]  # fmt: skip
FRONTS = [
    "", "<", "<a", "<a b", "<a b=", "<!", "<!--", "<!----", "<!--<!", "<!DOCTYPE", "<!DOCTYPE x ", "<!DOCTYPE x PUBLIC",
    '<!DOCTYPE x PUBLIC "', '<!DOCTYPE x PUBLIC "y"', "<!DOCTYPE x SYSTEM", "<!DOCTYPE x SYSTEM '", "<script><!--",
    "<script><!--<script>", "<script><!--<script><", "&", "&#", "&#x", '<a b="&',
]  # fmt: skip
BACKS = [
    "", "", "", ">x", '"x>y', "'>z", "-->z", "-->z</script>y", "</script >y", "!-->", "--!>", "<!-->", ">-->", "/>", " a>", ' "b">', ' ">',
    "--><script></script>y", "-><script></script>y", "><script></script>y", "<script></script>y", "-x><script></script>y",
    "</sCript>--><script></script>y", "</SCRIPT></script>y", "/></script>y",
]  # fmt: skip
STATES = ["Data"] * 8 + ["RCDATA", "RAWTEXT", "ScriptData", "ScriptData", "PLAINTEXT", "CDATASection"]
LAST = {"RCDATA": "title", "RAWTEXT": "style", "ScriptData": "script"}
# What random texts show too seldom.
SELDOM = [
    "<script><!--x-\0-><script></script>y", "<script><!--<scr ipt></script>y", "<script><!--<script>-\0-></script>y",
    "<script><!--<script></scr ipt>x</script>y</script>z", "<script><!--<script></ script>x</script>y</script>z",
    "<script><!--x-y-><script></script>z", "<script><!--<script>--\0></script>y", '<!DOCTYPE x y PUBLIC "a">',
    '<!DOCTYPE x PUBLIC "a" b "c">',
]  # fmt: skip


def in_data(text):
    return {"text": text, "state": "Data", "last": None, "foreign": False, "switches": True}


def mixed(count, seed):
    """Pieces of markup in a row, and references that are cut off."""
    rng, names, found = random.Random(seed), sorted(machine.NAMES), [in_data(text) for text in SELDOM]
    for _ in range(count):
        state = rng.choice(STATES)
        pieces = rng.sample(PIECES, rng.randint(3, 14)) if rng.random() < 0.5 else PIECES
        text = "".join(rng.choice(pieces) for _ in range(rng.randint(1, 24)))
        if rng.random() < 0.15:
            name, front = rng.choice(names), rng.choice(["", "<a b=", '<a b="'])
            text += front + "&" + name[: rng.randint(1, len(name))] + rng.choice(["", ";", "=", "x", "1", "<", " "])
        foreign, switches = rng.random() < 0.3, rng.random() < 0.7
        found.append({"text": text, "state": state, "last": LAST.get(state), "foreign": foreign, "switches": switches})
    return found


def references():
    """Every named character reference: alone, in a value, before `=` in a value, and before a letter."""
    around = (("", ""), ('<a b="', '"x>'), ("<a b=", "=>"), ("", "x"))
    return [in_data(f"{before}&{name}{behind}") for name in sorted(machine.NAMES) for before, behind in around]


def witness(rng, entry):
    """Characters that fit the entry; None at the end of the file."""
    o = rng.choice(entry.on)
    if o[0] == "char":
        return chr(o[1])
    if o[0] == "class":
        return chr(rng.randint(ord(o[1][0]), ord(o[1][2])))
    if o[0] == "word":
        return "".join(rng.choice([c.lower(), c]) for c in o[1]) if o[2] else o[1]
    if o[0] == "name":
        names = ["amp", "lt", "not", "copy", "NotEqualTilde;", "para", "notin;", "acE;", "gt;"]
        return rng.choice(names) + rng.choice(["", "=", "x", " "])
    return None if o[0] == "eof" else rng.choice("x<>-\"'=!/ ?Z9]\0é")


def walk(rng):
    """A text each of whose steps takes a random entry of the state in which the tokenizer is."""
    state = rng.choice(STATES)
    last, text = LAST.get(state), ""
    if state == "Data":
        text = rng.choice(FRONTS)
    elif state == "ScriptData":
        text = rng.choice(["", "<", "<!--", "<!--<script", "<!--<script>", "<!--<SCRIPT>-", "<!--<script></", "<!--</"])
    case = {"text": text, "state": state, "last": last, "foreign": rng.random() < 0.3, "switches": rng.random() < 0.7}
    for _ in range(rng.randint(1, 30)):
        m = machine.Machine(**case)
        while m.at < len(m.text):
            m.step()
        more = witness(rng, rng.choice(machine.STATES[m.state]))
        if more is None:
            break
        if rng.random() < 0.1 and last:
            more = "</" + last + rng.choice(">/ ")
        case["text"] += more
    if last and rng.random() < 0.3:
        case["text"] += "</" + "".join(rng.choice([x, x.upper()]) for x in last)
    case["text"] += rng.choice(BACKS)
    return case


def walks(count, seed):
    rng = random.Random(seed)
    return [walk(rng) for _ in range(count)]
