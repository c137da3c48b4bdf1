"""The grammars of markup, selectors, mini selectors and scripts in docs/RULES.md, written from that document
alone, so that hostile.py can ask what each input is to be read as. Each reader takes a text and returns what the program
`test_calls batch bulk inputs` must print for it: `read ..`, or the name of a fault."""
import re

WHITE = "\t\n\f\r "
NAMED = {"amp": "&", "lt": "<", "gt": ">", "quot": '"', "nbsp": "\xa0"}
VOID = set(
    "area base basefont bgsound br col embed frame hr img input keygen link meta param source track wbr".split()
)
RAW = set("style script xmp iframe noembed noframes plaintext".split())
NAME = r"[^\t\n\f\r />\"'<=\0]"
SPACE = r"[\t\n\f\r ]"
QUOTED = "(?:\"[^\"]*\"|'[^']*')"
ATTRIBUTE = rf"{SPACE}+(?P<key>{NAME}+)(?:{SPACE}*={SPACE}*(?P<value>\"[^\"]*\"|'[^']*'|[^\t\n\f\r >\"'][^\t\n\f\r >]*))?"
DOCTYPE = re.compile(
    rf"<!(?i:doctype){SPACE}+({NAME}+)"
    rf"(?:{SPACE}+(?i:public){SPACE}+{QUOTED}(?:{SPACE}+{QUOTED})?|{SPACE}+(?i:system){SPACE}+{QUOTED})?{SPACE}*>"
)
TEXT = re.compile(r"(?:[^<]|<(?![A-Za-z/!?]))+")
REFERENCE = re.compile(r"&(?:(amp|lt|gt|quot|nbsp)|#(?:([0-9]+)|[xX]([0-9a-fA-F]+)));")


class Refused(Exception):
    """Why a text is outside its grammar: the name of the fault."""


def folded(name):
    return "".join(chr(ord(c) + 32) if "A" <= c <= "Z" else c for c in name)


def character(found):
    """The character that a reference stands for, or the reference itself if its number isn't that of a character."""
    name, decimal, hexadecimal = found.groups()
    if name:
        return NAMED[name]
    number = int(decimal) if decimal else int(hexadecimal, 16)
    bad = number == 0 or 0x80 <= number <= 0x9F or 0xD800 <= number <= 0xDFFF or number > 0x10FFFF
    return found[0] if bad else chr(number)


def decoded(text):
    return REFERENCE.sub(character, text)


def escaped(text):
    return text.replace("&", "&amp;").replace("\xa0", "&nbsp;").replace("<", "&lt;").replace(">", "&gt;")


def escaped_value(text):
    return text.replace("&", "&amp;").replace("\xa0", "&nbsp;").replace('"', "&quot;")


def start_tag(text, at):
    """Where the start tag ends that begins there, its name, and what is written for it."""
    name = re.compile(rf"<([A-Za-z]{NAME}*)").match(text, at)
    at, tag, known = name.end(), folded(name[1]), {}
    while found := re.compile(ATTRIBUTE).match(text, at):
        value = found["value"] or ""
        value = value[1:-1] if value[:1] in ('"', "'") else value
        known.setdefault(folded(found["key"]), decoded(value))
        at = found.end()
    end = re.compile(rf"{SPACE}*(/?)>").match(text, at)
    if end is None:
        raise Refused("BadTag")
    if end[1] and tag not in VOID:
        raise Refused("SlashOnOpen")
    attrs = "".join(f' {key}="{escaped_value(value)}"' for key, value in known.items())
    return end.end(), tag, f"<{tag}{attrs}>"


def raw_text(text, at, tag):
    """The text of a raw element, a title or a textarea, and where its end tag ends."""
    end = re.compile(rf"</{tag}{SPACE}*>", re.I | re.A).search(text, at)
    if end is None:
        raise Refused("Unclosed")
    inner = text[at : end.start()]
    return (inner if tag in RAW else escaped(decoded(inner))), end.end()


def item_at(text, at, is_open):
    """The item that begins with the `<` there: where it ends, what is written for it, and the tag that it opens or ends."""
    if text.startswith("<!--", at):
        end = text.find("-->", at + 4)
        if end < 0:
            raise Refused("BadComment")
        return end + 3, text[at : end + 3], None, None
    if text.startswith("<!", at):
        found = DOCTYPE.match(text, at)
        if found is None:
            raise Refused("BadDeclaration")
        if is_open:
            raise Refused("MisplacedDoctype")
        return found.end(), f"<!DOCTYPE {folded(found[1])}>", None, None
    if text.startswith("<?", at):
        raise Refused("Instruction")
    if text.startswith("</", at):
        found = re.compile(rf"</([A-Za-z]{NAME}*){SPACE}*>").match(text, at)
        if found is None:
            raise Refused("BadTag")
        return found.end(), f"</{folded(found[1])}>", None, folded(found[1])
    end, tag, out = start_tag(text, at)
    if tag in RAW or tag in ("title", "textarea"):
        inner, end = raw_text(text, end, tag)
        return end, f"{out}{inner}</{tag}>", None, None
    return end, out, (None if tag in VOID else tag), None


def markup(text):
    """The HTML of the trees that the text is read as, or the fault."""
    out, opened, at = [], [], 0
    while at < len(text):
        run = TEXT.match(text, at)
        if run:
            out.append(escaped(decoded(run[0])))
            at = run.end()
            continue
        at, written, opens, ends = item_at(text, at, bool(opened))
        out.append(written)
        if ends and not opened:
            raise Refused("StrayEnd")
        if ends and opened.pop() != ends:
            raise Refused("MismatchedEnd")
        opened += [opens] if opens else []
    if opened:
        raise Refused("Unclosed")
    return "read " + "".join(out)


class Selector:
    """A reader of selectors. It says whether a text is a selector list, not what is wrong with it."""

    WITHOUT = set(
        "root scope link any-link empty only-text first-child last-child only-child first-of-type last-of-type"
        " only-of-type visited active focus hover enabled disabled checked indeterminate".split()
    )
    ESCAPE = r"\\(?:[0-9a-fA-F]{1,6}(?:\r\n|[\t\n\f\r ])?|[^\n\r\f0-9a-fA-F])"
    IDENTIFIER = re.compile(
        rf"(?:--|-?(?:[A-Za-z_\u0080-\U0010ffff]|{ESCAPE}))(?:[A-Za-z0-9_\-\u0080-\U0010ffff]|{ESCAPE})*"
    )
    STRING = re.compile(rf"\"(?:[^\"\\\n\r\f]|\\(?:\r\n|[\n\r\f])|{ESCAPE})*\"|'(?:[^'\\\n\r\f]|\\(?:\r\n|[\n\r\f])|{ESCAPE})*'")
    NTH = re.compile(
        r"(?i:even|odd|(?P<a>[+-]?[0-9]*)n(?:[\t\n\f\r ]*[+-][\t\n\f\r ]*(?P<b>[0-9]+))?|(?P<c>[+-]?[0-9]+))"
    )

    def __init__(self, text):
        self.text, self.at = text, 0
        if "\0" in text:
            raise Refused("Syntax")

    def take(self, pattern):
        found = pattern.match(self.text, self.at) if hasattr(pattern, "match") else None
        if found is None and isinstance(pattern, str) and self.text.startswith(pattern, self.at):
            self.at += len(pattern)
            return pattern
        if found:
            self.at = found.end()
        return found[0] if found else None

    def need(self, pattern):
        taken = self.take(pattern)
        if taken is None:
            raise Refused("Syntax")
        return taken

    def space(self):
        begun = self.at
        while self.text[self.at : self.at + 1] and self.text[self.at] in WHITE:
            self.at += 1
        return self.at > begun

    def list(self, depth, in_has, relative=False):
        while True:
            self.space()
            self.selector(depth, in_has, relative)
            self.space()
            if not self.take(","):
                return

    def selector(self, depth, in_has, relative):
        if relative and self.take(re.compile("[>+~]")):
            self.space()
        while True:
            self.compound(depth, in_has)
            had = self.space()
            if self.take(re.compile("[>+~]")):
                self.space()
            elif not had or self.at == len(self.text) or self.text[self.at] in ",)":
                return

    def compound(self, depth, in_has):
        begun = self.at
        if not self.take("*"):
            self.take(self.IDENTIFIER)
        while mark := self.take(re.compile(r"[#.\[:]")):
            if mark in "#.":
                self.need(self.IDENTIFIER)
            elif mark == "[":
                self.attribute()
            else:
                self.pseudo(depth, in_has)
        if self.at == begun:
            raise Refused("Syntax")

    def attribute(self):
        self.space()
        self.need(self.IDENTIFIER)
        self.space()
        if self.take(re.compile(r"[~|^$*]?=")):
            self.space()
            if self.take(self.STRING) is None:
                self.need(self.IDENTIFIER)
            self.space()
            if (flag := self.take(self.IDENTIFIER)) and flag.lower() not in ("i", "s"):
                raise Refused("Syntax")
            self.space()
        self.need("]")

    def pseudo(self, depth, in_has):
        name = folded(self.need(self.IDENTIFIER))
        if not self.take("("):
            if name not in self.WITHOUT:
                raise Refused("Syntax")
            return
        if depth == 64:
            raise Refused("Syntax")
        self.space()
        if name in ("is", "where", "not"):
            self.list(depth + 1, in_has)
        elif name == "has" and not in_has:
            self.list(depth + 1, True, True)
        elif name in ("nth-child", "nth-last-child", "nth-of-type", "nth-last-of-type"):
            found = self.NTH.match(self.text, self.at)
            digits = [int(d.lstrip("+-") or 0) for d in (found.groups() if found else ()) if d]
            if found is None or any(digit > 2147483647 for digit in digits):
                raise Refused("Syntax")
            self.at = found.end()
        elif name in ("has-text", "contains"):
            self.need(self.STRING)
        else:
            raise Refused("Syntax")
        self.space()
        self.need(")")


def selector(text):
    reader = Selector(text)
    reader.list(0, False)
    if reader.at < len(text):
        raise Refused("Syntax")
    return "read"


BLANK = r"[ \t\n\r]*"
MINI = re.compile(rf"(?:[>+~]{BLANK})?(?:[A-Za-z0-9-]+)?(?:#[A-Za-z0-9-]+)?(?:\.[A-Za-z0-9-]+)*")
TEST = re.compile(rf"\[(?P<word>[A-Za-z0-9-]+)(?P<test>{BLANK}[~|^$*]?={BLANK})?")


def attribute_end(text, at):
    """Where an attribute of a mini selector ends, or None where none can be read."""
    found = TEST.match(text, at)
    if found is None:
        return None
    end = found.end()
    if found["test"]:
        quote = text[end : end + 1]
        if quote and quote in "\"'":
            close = text.find(quote, end + 1)
            if close <= end + 1:
                raise Refused("BadQuotedValue")
            end = close + 1
        else:
            close = text.find("]", end)
            if close <= end:
                return None
            end = close
    if text[end : end + 1] != "]" or text[end + 1 : end + 2] == "]":
        return None
    return end + 1


def mini_end(text, at):
    """Where a mini selector ends, or None where none can be read."""
    found = MINI.match(text, at)
    at, has_part = found.end(), bool(found[0])
    while (end := attribute_end(text, at)) is not None:
        at, has_part = end, True
    return at if has_part else None


def path(text):
    """How many mini selectors are read, and how many bytes are left."""
    count, at, blank = 0, 0, re.compile(BLANK)
    while (end := mini_end(text, blank.match(text, at).end())) is not None:
        count, at = count + 1, blank.match(text, end).end()
    return f"read {count} {len(text[at:].encode())}"


BARE = set(
    "parent children ancestors next prev first last remove unwrap normalize count text formatted html inner-html document".split()
)
SELECTS = {"select", "find", "filter", "add"}
MARKUPS = {"set-html", "append-html", "prepend-html", "before-html", "after-html", "replace-html"}
TEXTS = {"add-class", "remove-class", "set-text"}
NAMES = re.compile(rf"{NAME}+\Z")


def is_line(line):
    """Whether a line of a script is in the grammar."""
    word, space, rest = line.partition(" ")
    try:
        if line == "" or word in TEXTS or word in BARE and not space:
            return True
        if word in SELECTS:
            return selector(rest) == "read"
        if word in MARKUPS:
            return markup(rest) is not None
    except Refused:
        return False
    if word == "set-attr":
        return bool(NAMES.match(rest.partition(" ")[0]))
    if word in ("remove-attr", "rename", "attr"):
        return bool(NAMES.match(rest))
    return word == "strip" and all(NAMES.match(name) for name in rest.split(" "))


def first_bad_line(script):
    """The number of the first line outside the grammar, or None."""
    lines = script.split("\n")
    lines = lines[:-1] if lines[-1] == "" else lines
    return next((number for number, line in enumerate(lines, 1) if not is_line(line)), None)
