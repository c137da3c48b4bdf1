"""Reading documents and their nodes."""

import pathlib
import unittest

import dom_query
from dom_query import CharsetError, MarkupError, SelectorError

ENCODINGS = pathlib.Path(__file__).resolve().parents[2] / "examples" / "encodings"

# The pages of examples/encodings: their encoding, what says so, and Python's name of it.
PAGES = {
    "big5": ("Big5", "page", "big5"),
    "euc-jp": ("EUC-JP", "page", "euc_jp"),
    "euc-kr": ("EUC-KR", "page", "euc_kr"),
    "gb18030": ("gb18030", "page", "gb18030"),
    "iso-2022-jp": ("ISO-2022-JP", "page", "iso2022_jp"),
    "koi8-r": ("KOI8-R", "page", "koi8_r"),
    "shift_jis": ("Shift_JIS", "page", "shift_jis"),
    "undeclared": ("windows-1252", "guess", "cp1252"),
    "utf-16be": ("UTF-16BE", "mark", "utf_16"),
    "utf-16le": ("UTF-16LE", "mark", "utf_16"),
    "utf-8": ("UTF-8", "page", "utf_8"),
    "windows-1251": ("windows-1251", "page", "cp1251"),
    "windows-1252": ("windows-1252", "page", "cp1252"),
}

PAGE = """<!doctype html><title>Tea</title><main><h1>Tea &amp; milk</h1>
<p id=first class="a  b">One <b>two</b><br>three<p>Four<!-- five --></main>"""


class Reading(unittest.TestCase):
    def setUp(self):
        self.document = dom_query.parse(PAGE)
        self.first = self.document.select_one("p")

    def test_parse(self):
        self.assertEqual(dom_query.parse("<p>a").html, "<html><head></head><body><p>a</p></body></html>")
        self.assertEqual(dom_query.parse(b"<p>\xc3\xa9").text, "é")
        self.assertEqual(dom_query.parse(b"<p>\xe9").text, "é")
        self.assertEqual(dom_query.parse(bytearray(b"<p>a")).text, "a")
        self.assertEqual(dom_query.parse(memoryview(b"<p>a")).text, "a")
        self.assertEqual(dom_query.parse("").text, "")
        self.assertEqual(dom_query.parse("a\ud800b").text, "a\ufffdb")
        self.assertEqual(dom_query.parse("\ufeff<p>a").text, "a")
        self.assertEqual(dom_query.parse("a\0b").text, "ab")

    def test_depth(self):
        deep = dom_query.parse("<div>" * 2000)
        self.assertLessEqual(len(deep.select("div")[-1].ancestors), 513)
        free = dom_query.parse("<div>" * 2000, max_depth=0)
        self.assertEqual(len(free.select("div")[-1].ancestors), 2002)
        with self.assertRaises(ValueError):
            dom_query.parse("", max_depth=-1)

    def test_parse_bytes(self):
        self.assertEqual(dom_query.parse_bytes("<p>é".encode("latin-1"), "latin1").text, "é")
        self.assertEqual(dom_query.parse_bytes("<p>é".encode()).text, "é")
        self.assertEqual(dom_query.parse_bytes(b"\x93a\x94", "windows-1252").text, "“a”")
        self.assertEqual(dom_query.parse_bytes(memoryview(b"a\xff"), "utf-8").text, "a\ufffd")
        self.assertEqual(dom_query.parse_bytes(b"a\0b", "").text, "ab")
        with self.assertRaises(TypeError):
            dom_query.parse_bytes("<p>a")
        with self.assertRaises(ValueError):
            dom_query.parse_bytes(b"", max_depth=-1)

    def test_unknown_charsets(self):
        for charset, text in (
            ("no-such-encoding", "no encoding has that label: 'no-such-encoding'"),
            ("latin-1", "no encoding has that label: 'latin-1'; write 'iso8859-1'"),
            ("euc_kr", "no encoding has that label: 'euc_kr'; write 'euc-kr'"),
            ("é\0", "no encoding has that label: 'é\\x00'"),
        ):
            with self.assertRaises(CharsetError) as caught:
                dom_query.parse_bytes(b"", charset)
            self.assertEqual((caught.exception.code, caught.exception.charset, str(caught.exception)), (-40, charset, text))
            self.assertIsInstance(caught.exception, LookupError)

    def test_how_bytes_were_decoded(self):
        page = "<meta charset=koi8-r><p>Чай".encode("koi8_r")
        for charset, encoding, source, text, replaced in (
            (None, "KOI8-R", "page", "Чай", 0),
            ("windows-1251", "windows-1251", "charset", "юБК", 0),
            (" UTF-8 ", "UTF-8", "charset", "\ufffd" * 3, 3),
        ):
            document = dom_query.parse_bytes(page, charset)
            found = (document.encoding, document.encoding_source, document.text, document.replaced)
            self.assertEqual(found, (encoding, source, text, replaced))
        marked = dom_query.parse_bytes("\ufeffЧ".encode(), "koi8-r")
        self.assertEqual((marked.encoding, marked.encoding_source, marked.text), ("UTF-8", "mark", "Ч"))
        for document in (dom_query.parse("<p>a"), dom_query.parse_strict("<p>a</p>"), dom_query.parse_fragment("a")):
            self.assertEqual((document.encoding, document.encoding_source, document.replaced), (None, None, None))

    def test_a_page_of_each_family(self):
        self.assertEqual(sorted(PAGES), sorted(path.stem for path in ENCODINGS.iterdir()))
        for name, (encoding, source, codec) in PAGES.items():
            with self.subTest(page=name):
                data = (ENCODINGS / f"{name}.html").read_bytes()
                document = dom_query.parse_bytes(data)
                self.assertEqual((document.encoding, document.encoding_source), (encoding, source))
                self.assertEqual(document.html, dom_query.parse(data.decode(codec)).html)
                self.assertEqual(document.replaced, 0)
                self.assertEqual(dom_query.parse(data).html, document.html)

    def test_parse_strict(self):
        document = dom_query.parse_strict("<p>a</p>")
        self.assertEqual(document.html, "<p>a</p>")
        with self.assertRaises(MarkupError) as caught:
            dom_query.parse_strict("<p>é</b>")
        self.assertEqual((caught.exception.code, caught.exception.byte), (-32, 5))
        self.assertEqual(str(caught.exception), "an end tag does not match the open element at line 1, column 5 (byte 5)")
        with self.assertRaises(ValueError):
            dom_query.parse_strict("<p>")

    def test_parse_fragment(self):
        row = dom_query.parse_fragment("<td>1<td>2", "tr")
        self.assertEqual(row.select_texts("td"), ["1", "2"])
        self.assertEqual(dom_query.parse_fragment("<td>1<td>2").text, "12")
        self.assertEqual(dom_query.parse_fragment("<td>1<td>2").select("td"), [])

    def test_select(self):
        self.assertEqual([node.text for node in self.document.select("p")], ["One twothree", "Four"])
        self.assertEqual([node.name for node in self.first.select("*")], ["b", "br"])
        self.assertEqual(self.document.select("table"), [])
        self.assertEqual(self.document.select_one("p, b").name, "p")
        self.assertIsNone(self.document.select_one("table"))
        self.assertEqual(len(dom_query.parse("<b>" * 20000, 0).select("b")), 20000)
        for wrong in ("", "p:", "p[", ":nope", "p:nth-child(99999999999)", ":has(:has(b))"):
            with self.assertRaises(SelectorError, msg=wrong):
                self.document.select(wrong)
        for wrong, at in (("é(", 1), ("ul > li[", 7), ("[", 0), ("é, é:nope", 4)):
            with self.assertRaises(SelectorError) as caught:
                self.document.select_texts(wrong)
            self.assertEqual((caught.exception.selectors, caught.exception.position), (wrong, at))
        self.assertEqual(str(caught.exception), "unknown pseudo-class, or a pseudo-class in the wrong form: 'é, é:nope', after character 4")

    def test_select_many(self):
        self.assertEqual(self.document.select_texts("p"), ["One twothree", "Four"])
        self.assertEqual(self.document.select_html("b, br"), ["<b>two</b>", "<br>"])
        self.assertEqual(self.document.select_attrs("p", "id"), ["first", None])
        self.assertEqual(self.first.select_texts("b"), ["two"])
        self.assertEqual(self.document.select_texts("table"), [])
        many = dom_query.parse("<p class=é>ü" * 9000)
        self.assertEqual(many.select_texts("p"), ["ü"] * 9000)
        self.assertEqual(many.select_attrs("p", "class"), ["é"] * 9000)

    def test_matches(self):
        self.assertTrue(self.first.matches("main > p.a"))
        self.assertFalse(self.first.matches("p.c"))
        self.assertFalse(self.first.first_child.matches("*"))

    def test_texts(self):
        self.assertEqual(self.first.text, "One twothree")
        self.assertEqual(self.first.html, '<p id="first" class="a  b">One <b>two</b><br>three</p>')
        self.assertEqual(self.first.inner_html, "One <b>two</b><br>three")
        self.assertEqual(self.document.select_one("b").markdown, "**two**")
        self.assertEqual(self.document.select_one("b").md, "two")
        self.assertTrue(self.document.select_one("main").markdown.startswith("# Tea"))
        self.assertTrue(self.document.select_one("main").md.startswith("# Tea"))
        self.assertEqual(self.first.formatted_text, "One two\nthree")
        self.assertEqual(self.document.select_one("b").text, "two")
        self.assertEqual(self.document.text[:3], "Tea")
        self.assertIn("# Tea", self.document.markdown)
        self.assertIn("# Tea", self.document.md)
        self.assertIn("Four", self.document.formatted_text)
        long = dom_query.parse("é" * 100_000)
        self.assertEqual(long.text, "é" * 100_000)

    def test_what_nodes_are(self):
        kinds = [node.kind for node in self.document.root.children]
        self.assertEqual(kinds, ["doctype", "element"])
        self.assertEqual(self.document.root.kind, "document")
        self.assertEqual(self.first.first_child.kind, "text")
        self.assertEqual(self.document.select("p")[1].last_child.kind, "comment")
        self.assertEqual(self.first.name, "p")
        self.assertIsNone(self.first.first_child.name)
        self.assertIsNone(self.document.root.name)

    def test_attributes(self):
        self.assertEqual(self.first["id"], "first")
        self.assertEqual(self.first.get("id"), "first")
        self.assertIsNone(self.first.get("href"))
        self.assertEqual(self.first.get("href", "/"), "/")
        self.assertIn("id", self.first)
        self.assertNotIn("href", self.first)
        with self.assertRaises(KeyError):
            self.first["href"]
        self.assertEqual(dict(self.first.attrs), {"id": "first", "class": "a  b"})
        self.assertEqual(list(self.first.attrs), ["id", "class"])
        self.assertEqual(list(self.first.attrs.items()), [("id", "first"), ("class", "a  b")])
        self.assertEqual(list(self.first.attrs.values()), ["first", "a  b"])
        self.assertEqual(len(self.first.attrs), 2)
        self.assertIn("id", self.first.attrs)
        self.assertNotIn(1, self.first.attrs)
        self.assertEqual(repr(self.first.attrs), "{'id': 'first', 'class': 'a  b'}")
        self.assertEqual(dict(self.first.first_child.attrs), {})
        self.assertEqual(self.first.classes, ["a", "b"])
        self.assertEqual(self.first.first_child.classes, [])

    def test_neighbours(self):
        second = self.document.select("p")[1]
        self.assertEqual(self.first.parent.name, "main")
        self.assertIsNone(self.document.root.parent)
        self.assertEqual(self.first.first_child.text, "One ")
        self.assertEqual(self.first.last_child.text, "three")
        self.assertEqual(self.first.next, second)
        self.assertEqual(second.previous, self.first)
        self.assertIsNone(second.next)
        self.assertEqual(self.first.first_element.name, "b")
        self.assertEqual(self.first.first_element.next_element.name, "br")
        self.assertEqual(self.first.previous_element.name, "h1")
        self.assertEqual([node.kind for node in self.first.children], ["text", "element", "element", "text"])
        self.assertEqual([node.name for node in self.first.ancestors], ["main", "body", "html", None])
        self.assertEqual(len(self.first.descendants), 5)
        self.assertEqual(list(self.first), self.first.children)
        self.assertEqual(len(self.first), 4)
        self.assertEqual(list(self.document), self.document.root.children)
        self.assertTrue(self.first.select_one("br"))

    def test_equality(self):
        again = self.document.select_one("#first")
        self.assertEqual(self.first, again)
        self.assertEqual(hash(self.first), hash(again))
        self.assertNotEqual(self.first, dom_query.parse(PAGE).select_one("p"))
        self.assertNotEqual(self.first, self.first.number)
        self.assertEqual(self.document.node(self.first.number), self.first)
        self.assertEqual(repr(self.document), "<Document 'Tea'>")


if __name__ == "__main__":
    unittest.main()
