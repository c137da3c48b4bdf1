"""The tokenizer that the table of states describes: runs the table over a text. It is written for clearness, and not for speed."""
import table

STATES = table.states()
NAMES = table.named_references()
LENGTHS = sorted({len(name) for name in NAMES}, reverse=True)
# The characters of the numbers 128 to 159 in a numeric character reference.
WINDOWS = [
    0x20AC, 0x81, 0x201A, 0x192, 0x201E, 0x2026, 0x2020, 0x2021, 0x2C6, 0x2030, 0x160, 0x2039, 0x152, 0x8D, 0x17D, 0x8F,
    0x90, 0x2018, 0x2019, 0x201C, 0x201D, 0x2022, 0x2013, 0x2014, 0x2DC, 0x2122, 0x161, 0x203A, 0x153, 0x9D, 0x17E, 0x178,
]  # fmt: skip
VALUES = ("AttributeValueDoubleQuoted", "AttributeValueSingleQuoted", "AttributeValueUnquoted")
# The states to which tree construction switches the tokenizer behind start tags, in HTML elements and without scripting.
SWITCHES = {
    "title": "RCDATA", "textarea": "RCDATA", "style": "RAWTEXT", "xmp": "RAWTEXT", "iframe": "RAWTEXT", "noembed": "RAWTEXT",
    "noframes": "RAWTEXT", "script": "ScriptData", "plaintext": "PLAINTEXT",
}  # fmt: skip


def normalized(text):
    """The text with LF for CR LF and for CR (13.2.3.5)."""
    return text.replace("\r\n", "\n").replace("\r", "\n")


def character(code):
    """The character of the number of a character reference."""
    if code == 0 or code > 0x10FFFF or 0xD800 <= code <= 0xDFFF:
        return "\ufffd"
    return chr(WINDOWS[code - 0x80] if 0x80 <= code < 0xA0 else code)


def joined(tokens):
    """The tokens with neighbouring characters in one."""
    found = []
    for token in tokens:
        if token[0] == "chars" and found and found[-1][0] == "chars":
            found[-1] = ("chars", found[-1][1] + token[1])
        else:
            found.append(token)
    return found


class Machine:
    """A tokenizer in the middle of a text. `last` is the name of the last start tag, `foreign` whether the adjusted current node is
    outside the HTML namespace, and `switches` whether the state is switched behind start tags, as tree construction does."""

    def __init__(self, text, state="Data", last=None, foreign=False, switches=True):
        self.text, self.at = normalized(text), 0
        self.state, self.back, self.last, self.foreign = state, "Data", last, foreign
        self.tag = self.comment = self.doctype = None
        self.buffer, self.code = "", 0
        self.tokens, self.done, self.switches = [], False, switches
        self.taken, self.steps = set(), 0

    def holds(self, guard, cur):
        if guard is None:
            return True
        if guard == "appropriate":
            return self.last is not None and self.tag["name"] == self.last
        if guard == "script":
            return self.buffer == "script"
        if guard == "foreign":
            return self.foreign
        if guard == "attribute":
            return self.back in VALUES
        behind = self.text[self.at + len(cur) : self.at + len(cur) + 1]
        goes_on = behind == "=" or behind.isascii() and behind.isalnum()
        return self.back in VALUES and cur[-1] != ";" and goes_on

    def fits(self, on):
        """The characters that are consumed, or None."""
        c = self.text[self.at : self.at + 1]
        for o in on:
            if o[0] == "else" or o[0] == "eof" and c == "" or o[0] == "char" and c == chr(o[1]):
                return c
            if o[0] == "class" and c and o[1][0] <= c <= o[1][2]:
                return c
            if o[0] == "word":
                cur = self.text[self.at : self.at + len(o[1])]
                if cur == o[1] or o[2] and cur.isascii() and cur.upper() == o[1]:
                    return cur
            if o[0] == "name":
                for length in LENGTHS:
                    if self.text[self.at : self.at + length] in NAMES and self.at + length <= len(self.text):
                        return self.text[self.at : self.at + length]
        return None

    def what(self, what, cur):
        return {"cur": cur, "low": cur.lower(), "buf": self.buffer}[what[0]] if what[0] != "text" else what[1]

    def put(self, place, text):
        if place == "tag":
            self.tag["name"] += text
        elif place.startswith("attr."):
            self.tag["attrs"][-1][place == "attr.value"] += text
        elif place in ("comment", "buffer"):
            setattr(self, place, getattr(self, place) + text)
        else:
            key = place.split(".")[-1]
            self.doctype[key] = (self.doctype[key] or "") + text

    def emit(self, text):
        if text:
            self.tokens.append(("chars", text))

    def emit_tag(self):
        """A start tag with its attributes, or an end tag, which has none: a tag's later attributes of one name are dropped."""
        name, attrs = self.tag["name"], {}
        if self.tag["kind"] == "end":
            self.tokens.append(("end", name))
            return
        for n, v in self.tag["attrs"]:
            attrs.setdefault(n, v)
        self.tokens.append(("start", name, list(attrs.items()), self.tag["closing"]))
        self.last = name

    def act(self, a, cur):
        k = a[0]
        if k == "emit":
            self.emit(self.what(a[1], cur))
        elif k == "emit tag":
            self.emit_tag()
        elif k == "emit comment":
            self.tokens.append(("comment", self.comment))
        elif k == "emit doctype":
            d = self.doctype
            self.tokens.append(("doctype", d["name"], d["public"], d["system"], d["quirks"]))
        elif k == "emit eof":
            self.tokens.append(("eof",))
        elif k in ("new start", "new end"):
            self.tag = {"kind": k[4:], "name": "", "attrs": [], "closing": False}
        elif k == "new attr":
            self.tag["attrs"].append(["", ""])
        elif k == "new comment":
            self.comment = ""
        elif k == "new doctype":
            self.doctype = {"name": None, "public": None, "system": None, "quirks": False}
        elif k == "self-closing":
            self.tag["closing"] = True
        elif k == "quirks":
            self.doctype["quirks"] = True
        elif k == "add":
            self.put(a[1], self.what(a[2], cur))
        elif k == "clear" and a[1] == "buffer":
            self.buffer = ""
        elif k == "clear":
            self.doctype[a[1]] = ""
        elif k == "return":
            self.back = a[1]
        else:
            self.refer(a, cur)

    def refer(self, a, cur):
        """What is done in a character reference."""
        k = a[0]
        if k == "code = 0":
            self.code = 0
        elif k == "digit":
            self.code = self.code * a[1] + ord(cur) - a[2]
        elif k == "number":
            self.buffer = character(self.code)
        elif k == "name":
            self.buffer = NAMES[cur]
        else:
            assert k == "flush", k
            if self.back in VALUES:
                self.put("attr.value", self.buffer)
            else:
                self.emit(self.buffer)

    def step(self):
        for number, e in enumerate(STATES[self.state]):
            cur = self.fits(e.on)
            if cur is not None and self.holds(e.guard, cur):
                break
        self.taken.add((self.state, number))
        self.steps += 1
        before = len(self.tokens)
        for a in e.do:
            self.act(a, cur)
        if e.then[0] != "reconsume":
            self.at += len(cur)
        if e.then[0] == "stop":
            self.done = True
        elif e.then[0] != "stay":
            self.state = self.back if e.then[1] == "return" else e.then[1]
        if self.switches:
            for t in self.tokens[before:]:
                if t[0] == "start" and t[1] in SWITCHES:
                    self.state = SWITCHES[t[1]]

    def run(self):
        """The tokens of the text, in a list of tuples whose first part is the kind."""
        while not self.done:
            self.step()
        return joined(self.tokens)


if __name__ == "__main__":
    import sys

    for found in Machine(sys.stdin.read()).run():
        print(found)
