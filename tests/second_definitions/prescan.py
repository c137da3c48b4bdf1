"""The prescan of the HTML Standard for the encoding that a page declares, written step by step from the
standard, over the first 1,024 bytes. `declared(page)` returns a name, or an empty text. `soup(random)` makes
a page of pieces that the prescan looks at."""
import gzip
import json
import pathlib

DATA = pathlib.Path(__file__).resolve().parents[1] / "data" / "encodings.json.gz"
ALL = json.loads(gzip.open(DATA).read())
LABELS = ALL["labels"]
WHITE = b"\t\n\x0c\r "
PIECES = (
    "<meta |<META\t|charset=|charset = |CHARSET=\"|content=|content=\"text/html; |http-equiv=|http-equiv=\"Content-Type\" "
    "|http-equiv='content-type'|content-type|\"|'|>|/>|<|</|<!|<!--|-->|--|->|<?|?>|<p a=\"|<a href='x'>|</p x=1>|<title>"
    "|utf-8|koi8-r|latin1|gbk|utf-16|x-user-defined|big5|nosuch| |\n|=|;|charset|charset=euc-kr;|charset=\"shift_jis\"|x"
    "|<metax |<script>|</script>|a=b |b='c>d' |\x0c|\r|<!doctype html>|<!-->|&|\xe9"
).split("|")

XML = " encoding='koi8-r'?>|encoding = \"utf-16\" ?>|encoding|encoding=|encoding='|encoding=big5?>|?>|\nencoding='nosuch'>".split("|")


class Ended(Exception):
    """The bytes ended."""


def of_label(label):
    return LABELS.get(label.strip(WHITE).decode("latin-1").lower(), "")


class Scan:
    def __init__(self, page):
        self.page, self.at = page, 0

    def byte(self, ahead=0):
        if self.at + ahead >= len(self.page):
            raise Ended
        return self.page[self.at + ahead]

    def front(self, count):
        return self.page[self.at : self.at + count]

    def attribute(self):
        """"Get an attribute": a name and a value in lower case, or None at the end of the tag."""
        while self.byte() in WHITE + b"/":
            self.at += 1
        if self.byte() == ord(">"):
            return None
        name = bytearray()
        while True:
            byte = self.byte()
            if byte == ord("=") and name:
                self.at += 1
                break
            if byte in WHITE:
                while self.byte() in WHITE:
                    self.at += 1
                if self.byte() != ord("="):
                    return bytes(name).lower(), b""
                self.at += 1
                break
            if byte in b"/>":
                return bytes(name).lower(), b""
            name.append(byte)
            self.at += 1
        return bytes(name).lower(), self.value().lower()

    def value(self):
        while self.byte() in WHITE:
            self.at += 1
        first = self.byte()
        begun = self.at
        if first in b"\"'":
            self.at += 1
            while self.byte() != first:
                self.at += 1
            self.at += 1
            return self.page[begun + 1 : self.at - 1]
        while self.byte() not in WHITE + b">":
            self.at += 1
        return self.page[begun : self.at]

    def skip_to(self, text, start):
        found = self.page.find(text, start)
        if found < 0:
            raise Ended
        self.at = found + len(text) - 1


def of_content(value):
    """The encoding that the attribute `content` names."""
    at = 0
    while True:
        found = value.find(b"charset", at)
        if found < 0:
            return ""
        rest = value[found + 7 :].lstrip(WHITE)
        if rest.startswith(b"="):
            rest = rest[1:].lstrip(WHITE)
            break
        at = found + 7
    if rest[:1] in (b'"', b"'") and rest:
        end = rest.find(rest[:1], 1)
        return "" if end < 0 else of_label(rest[1:end])
    end = 0
    while end < len(rest) and rest[end] not in WHITE + b";":
        end += 1
    return of_label(rest[:end]) if rest else ""


def of_meta(scan):
    """What a `meta` declares, whose attributes come next."""
    names, pragma, needs, found = set(), False, None, None
    while (attribute := scan.attribute()) is not None:
        name, value = attribute
        if name in names:
            continue
        names.add(name)
        if name == b"http-equiv" and value == b"content-type":
            pragma = True
        elif name == b"content" and found is None and of_content(value):
            found, needs = of_content(value), True
        elif name == b"charset":
            found, needs = of_label(value), False
    if needs is None or (needs and not pragma) or not found:
        return ""
    return {"UTF-16BE": "UTF-8", "UTF-16LE": "UTF-8", "x-user-defined": "windows-1252"}.get(found, found)


def is_letter(byte):
    return bytes([byte]).isalpha()


def step(scan):
    """What the place declares, and the scan goes to the last byte of what is there."""
    if scan.front(4) == b"<!--":
        scan.skip_to(b"-->", scan.at + 2)
    elif scan.front(5).lower() == b"<meta" and scan.byte(5) in WHITE + b"/":
        scan.at += 5
        return of_meta(scan)
    elif scan.front(1) == b"<" and (is_letter(scan.byte(1)) or (scan.byte(1) == ord("/") and is_letter(scan.byte(2)))):
        while scan.byte() not in WHITE + b">":
            scan.at += 1
        while scan.attribute() is not None:
            pass
    elif scan.front(2) in (b"<!", b"</", b"<?"):
        scan.skip_to(b">", scan.at)
    return ""


def of_xml(page):
    """The encoding of an XML declaration at the start ("get an XML encoding")."""
    blank = bytes(range(0x21))
    front, end, _ = page.partition(b">")
    _, word, rest = front.partition(b"encoding")
    rest = rest.lstrip(blank)
    if not (front.startswith(b"<?xml") and end and word and rest.startswith(b"=")):
        return ""
    rest = rest[1:].lstrip(blank)
    label, closed, _ = rest[1:].partition(rest[:1] or b"'")
    if rest[:1] not in (b'"', b"'") or not closed or any(byte in blank for byte in label):
        return ""
    found = of_label(label)
    return "UTF-8" if found in ("UTF-16BE", "UTF-16LE") else found


def declared(page):
    page = page[:1024]
    for front, name in ((b"<\0?\0x\0", "UTF-16LE"), (b"\0<\0?\0x", "UTF-16BE")):
        if page.startswith(front):
            return name
    return of_metas(page) or of_xml(page)


def of_metas(page):
    """What the first `meta` declares that declares something."""
    scan = Scan(page)
    try:
        while scan.at < len(scan.page):
            found = step(scan)
            if found:
                return found
            scan.at += 1
    except Ended:
        pass
    return ""


def soup(random):
    page = "".join(random.choice(PIECES) for _ in range(random.randrange(1, 26)))
    if random.random() < 0.7:
        page += "<meta charset=%s>" % random.choice("koi8-r gbk utf-8 x utf-16 iso-8859-2".split())
    if random.random() < 0.3:
        page += '<meta http-equiv=content-type content="a;charset = %s">' % random.choice("koi8-u big5 x".split())
    if random.random() < 0.2:
        page = "<?xml version='1.0'" + random.choice(XML) + page
    whole = (page + "\"'>--><p>").encode("latin-1")
    return whole[: random.randrange(len(whole) + 1)] if random.random() < 0.2 else whole
