"""Pages for every state of the tokenizer (13.2.5 of the HTML Standard), with each character that a state may name, and for every
insertion mode with characters, comments, a doctype and the end of the page."""

# A page's text up to each state, and the text after the character, which ends what the state began.
RAW = {
    "RCDATA": ("<title>", "y</title>z<p>"),
    "RAWTEXT": ("<style>", "y</style>z<p>"),
    "script data": ("<script>", "y</script>z<p>"),
}
TWENTY = "abcdefghij0123456789"
STATES = {
    "data": ("<b>x", "y</b>z"),
    "data, long": (f"<b>{TWENTY}", f"{TWENTY}</b>z"),
    "PLAINTEXT": ("<plaintext>x", "y</plaintext>z"),
    "PLAINTEXT, long": (f"<plaintext>{TWENTY}", f"{TWENTY}z"),
    "tag open": ("x<", "y a=b>z"),
    "end tag open": ("<b>x</", "b>z"),
    "tag name": ("<b", "r c=d>z"),
    "tag name, long": (f"<b-{TWENTY}", f"{TWENTY} c=d>z"),
    "end tag name": ("<b>x</b", "r c=d>z"),
    "before attribute name": ("<b ", "c=d e>z"),
    "attribute name": ("<b c", "d=e f>z"),
    "attribute name, long": (f"<b {TWENTY}", f"{TWENTY}=e f>z"),
    "after attribute name": ("<b c ", "d=e f>z"),
    "before attribute value": ("<b c=", "d e=f>z"),
    "before attribute value, behind a space": ("<b c= ", "d e=f>z"),
    "attribute value, double-quoted": ('<b c="x', 'y" d=e>z'),
    "attribute value, double-quoted, long": (f'<b c="{TWENTY}', f'{TWENTY}" d=e>z'),
    "attribute value, single-quoted": ("<b c='x", "y' d=e>z"),
    "attribute value, single-quoted, long": (f"<b c='{TWENTY}", f"{TWENTY}' d=e>z"),
    "attribute value, unquoted": ("<b c=x", "y d=e>z"),
    "attribute value, unquoted, long": (f"<b c={TWENTY}", f"{TWENTY} d=e>z"),
    "after attribute value, quoted": ('<b c="x"', "y d=e>z"),
    "after attribute value, single-quoted": ("<b c='x'", "y d=e>z"),
    "self-closing start tag": ("<b c/", "y d=e>z"),
    "self-closing start tag, foreign": ("<svg><g/", "y d=e>z<g>"),
    "bogus comment": ("<?x", "y>z"),
    "bogus comment, long": (f"<?{TWENTY}", f"{TWENTY}>z"),
    "bogus comment, end tag": ("</?x", "y>z"),
    "markup declaration open": ("<!", "y>z"),
    "markup declaration open, dash": ("<!-", "y-->z"),
    "markup declaration open, D": ("<!D", "octype html>z<p><table>"),
    "markup declaration open, DOCTYP": ("<!doctyp", " html>z<p><table>"),
    "markup declaration open, bracket": ("<svg><![", "y]]>z"),
    "markup declaration open, CDATA": ("<svg><![CDATA", "y]]>z"),
    "markup declaration open, CDATA in HTML": ("<![CDATA[", "y]]>z"),
    "comment start": ("<!--", "y-->z"),
    "comment start dash": ("<!---", "y-->z"),
    "comment": ("<!--x", "y-->z"),
    "comment, long": (f"<!--{TWENTY}", f"{TWENTY}-->z"),
    "comment less-than sign": ("<!--x<", "y-->z"),
    "comment less-than sign bang": ("<!--x<!", "y-->z"),
    "comment less-than sign bang dash": ("<!--x<!-", "y-->z"),
    "comment less-than sign bang dash dash": ("<!--x<!--", "y-->z"),
    "comment end dash": ("<!--x-", "y-->z"),
    "comment end": ("<!--x--", "y-->z"),
    "comment end bang": ("<!--x--!", "y-->z"),
    "DOCTYPE": ("<!doctype", "html>z<p><table>"),
    "before DOCTYPE name": ("<!doctype ", "html>z<p><table>"),
    "DOCTYPE name": ("<!doctype ht", "ml>z<p><table>"),
    "DOCTYPE name, whole": ("<!doctype html", ">z<p><table>"),
    "after DOCTYPE name": ("<!doctype html ", "y>z<p><table>"),
    "after DOCTYPE name, PUBLI": ("<!doctype html PUBLI", " 'y'>z<p><table>"),
    "after DOCTYPE name, SYSTE": ("<!doctype html systE", " 'y'>z<p><table>"),
    "after DOCTYPE public keyword": ("<!doctype html public", "'y'>z<p><table>"),
    "before DOCTYPE public identifier": ("<!doctype html public ", "'y'>z<p><table>"),
    "DOCTYPE public identifier, double-quoted": ('<!doctype html public "x', 'y">z<p><table>'),
    "DOCTYPE public identifier, double-quoted, long": (f'<!doctype html public "{TWENTY}', f'{TWENTY}">z<p><table>'),
    "DOCTYPE public identifier, single-quoted": ("<!doctype html public 'x", "y'>z<p><table>"),
    "DOCTYPE public identifier, single-quoted, long": (f"<!doctype html public '{TWENTY}", f"{TWENTY}'>z<p><table>"),
    "after DOCTYPE public identifier": ("<!doctype html public 'x'", "'y'>z<p><table>"),
    "between DOCTYPE public and system identifiers": ("<!doctype html public 'x' ", "'y'>z<p><table>"),
    "after DOCTYPE system keyword": ("<!doctype html system", "'y'>z<p><table>"),
    "before DOCTYPE system identifier": ("<!doctype html system ", "'y'>z<p><table>"),
    "DOCTYPE system identifier, double-quoted": ('<!doctype html system "x', 'y">z<p><table>'),
    "DOCTYPE system identifier, single-quoted": ("<!doctype html system 'x", "y'>z<p><table>"),
    "DOCTYPE system identifier, behind a public one": ("<!doctype html public '' 'x", "y'>z<p><table>"),
    "after DOCTYPE system identifier": ("<!doctype html system 'x'", "y>z<p><table>"),
    "after DOCTYPE system identifier, behind a space": ("<!doctype html system 'x' ", "y>z<p><table>"),
    "bogus DOCTYPE": ("<!doctype html public 'x' 'y' z", "w>z<p><table>"),
    "bogus DOCTYPE, quirks": ("<!doctype html z", "w>z<p><table>"),
    "CDATA section": ("<svg><![CDATA[x", "y]]>z"),
    "CDATA section, long": (f"<svg><![CDATA[{TWENTY}", f"{TWENTY}]]>z"),
    "CDATA section bracket": ("<svg><![CDATA[x]", "y]]>z"),
    "CDATA section end": ("<svg><![CDATA[x]]", "y]]>z"),
}
for _name, (_tag, _end) in RAW.items():
    _element = _tag[1:-1]
    STATES |= {
        _name: (f"{_tag}x", _end),
        f"{_name}, long": (f"{_tag}{TWENTY}", f"{TWENTY}{_end}"),
        f"{_name} less-than sign": (f"{_tag}x<", _end),
        f"{_name} end tag open": (f"{_tag}x</", _end),
        f"{_name} end tag name, part": (f"{_tag}x</{_element[:3]}", f"{_element[3:]}{_end}"),
        f"{_name} end tag name, whole": (f"{_tag}x</{_element.upper()}", f"y>w{_end}"),
        f"{_name} end tag name, another": (f"{_tag}x</b", f">w{_end}"),
    }
_SCRIPT, _END = "<script>", "y</script>z</script>w-->v"
STATES |= {
    "script data escape start": (f"{_SCRIPT}x<!", _END),
    "script data escape start dash": (f"{_SCRIPT}x<!-", f"-<script>{_END}"),
    "script data escaped": (f"{_SCRIPT}<!--x", f"<script>{_END}"),
    "script data escaped, long": (f"{_SCRIPT}<!--{TWENTY}", f"{TWENTY}<script>{_END}"),
    "script data escaped dash": (f"{_SCRIPT}<!--x-", f"<script>{_END}"),
    "script data escaped dash dash": (f"{_SCRIPT}<!--x--", f"<script>{_END}"),
    "script data escaped less-than sign": (f"{_SCRIPT}<!--x<", f"cript>{_END}"),
    "script data escaped end tag open": (f"{_SCRIPT}<!--x</", f"cript>{_END}"),
    "script data escaped end tag name": (f"{_SCRIPT}<!--x</script", f">z{_END}"),
    "script data escaped end tag name, another": (f"{_SCRIPT}<!--x</scrip", f">z{_END}"),
    "script data double escape start": (f"{_SCRIPT}<!--x<SCRIPT", f">{_END}"),
    "script data double escape start, part": (f"{_SCRIPT}<!--x<scrip", f">{_END}"),
    "script data double escaped": (f"{_SCRIPT}<!--<script>x", _END),
    "script data double escaped, long": (f"{_SCRIPT}<!--<script>{TWENTY}", f"{TWENTY}{_END}"),
    "script data double escaped dash": (f"{_SCRIPT}<!--<script>x-", _END),
    "script data double escaped dash dash": (f"{_SCRIPT}<!--<script>x--", _END),
    "script data double escaped less-than sign": (f"{_SCRIPT}<!--<script>x<", f"script>{_END}"),
    "script data double escape end": (f"{_SCRIPT}<!--<script>x</SCRIPT", f">{_END}"),
    "script data double escape end, part": (f"{_SCRIPT}<!--<script>x</scrip", f">{_END}"),
}
# Character references in each place in which they may be.
PLACES = {
    "": ("<b>", "</b>"),
    " in RCDATA": ("<title>", "</title>"),
    " in a double-quoted value": ('<b a="', '" c=d>z'),
    " in a single-quoted value": ("<b a='", "' c=d>z"),
    " in an unquoted value": ("<b a=", " c=d>z"),
}
REFERENCES = {
    "character reference": "x&",
    "named character reference": "x&am",
    "named character reference, whole": "x&amp",
    "named character reference, longer": "x&noti",
    "ambiguous ampersand": "x&zz",
    "numeric character reference": "x&#",
    "hexadecimal character reference start": "x&#x",
    "hexadecimal character reference": "x&#x4",
    "decimal character reference": "x&#6",
}
for _name, _text in REFERENCES.items():
    for _place, (_front, _behind) in PLACES.items():
        STATES[_name + _place] = (_front + _text, "1y;" + _behind)
NUMBERS = (
    "0 x0 1 9 10 12 13 x1F 32 x7F x80 x9F xA0 xD7FF xD800 xDFFF xE000 xFDD0 xFDEF xFFFD xFFFE xFFFF x10000 x1FFFF x10FFFF x110000 "
    "99999999999 xFFFFFFFFF"
)

MARKS = [*"-!/<>&\"'=?`[]; ", "\t", "\n", "\f", "\r", "\r\n", "\r \n\t\f ", "\0"]
# What else is put into most states, into those of character references, and into those that look for words.
LETTERS = ["a", "Z", "0", "é", "--"]
REFERENCE_LETTERS = ["a", "f", "g", "x", "X", "Z", "0", "9", "#", "é", ":", "@"]
WORD_LETTERS = ["a", "s", "S", "p", "P", "d", "D", "[", "0", "z", "--", "é", "\u212a"]


def characters(state):
    """The characters that a state has rows for."""
    if "reference" in state or "ampersand" in state:
        return [*MARKS, *REFERENCE_LETTERS]
    if any(it in state for it in ("DOCTYPE", "declaration", "end tag", "double escape")) or state == "tag open":
        return list(dict.fromkeys([*MARKS, *WORD_LETTERS]))
    return [*MARKS, *LETTERS]


def shown(character):
    """A character in the name of a row."""
    return {" ": "space", "\0": "NUL"}.get(character) or repr(character).strip("'\"") or "quote"


def states(pages):
    """Each state with each character and the end of the page."""
    for name, (front, behind) in STATES.items():
        pages.add(f"{name}: end of the page", front)
        for character in characters(name):
            pages.add(f"{name}: {shown(character)}", f"{front}{character}{behind}")
    for number in NUMBERS.split():
        for end in (";", "", "z"):
            pages.add(f"numeric character reference end: {number}", f'<b a="&#{number}{end}">&#{number}{end}')


RUNS = (
    *(" ", "\t", "\n", "\f", "\r", "\0", "1", " 1", "1 ", "1 2", " 1 2\n3", "\0 1", "1\0", "1\0 \0", "\n1"),
    *("<!--1-->", "<!doctype x>", " <!--1--> 2"),
)


def mode_characters(pages, modes):
    """Each insertion mode with characters, a comment, a doctype, and the end of the page."""
    for mode, (front, behind) in modes.items():
        pages.add(f"{mode}: end of the page", front)
        for run in RUNS:
            pages.add(f"{mode}: {run!r}", f"{front}{run}{behind}")
    for front in ("<pre>", "<listing>", "<textarea>", "<p>", "<pre a=1><b>", "<title>"):
        behind = ("<!--1-->\n2", "<!doctype x>\n2", "1<!doctype x>\n2", "1<!--2-->\n3", "1</x>\n2", "1<b>\n2", "</x>\n1")
        for run in ("\n1", "\n\n1", "\r\n1", "\r1", "1\n", "\n", "&#10;1", "\n<b>1", *behind):
            pages.add(f"skipped line feed: {front} {run!r}", f"<!doctype html>{front}{run}")
