"""Edits."""

import unittest

import dom_query
from dom_query import EditError, MarkupError


class Editing(unittest.TestCase):
    def setUp(self):
        self.document = dom_query.parse_strict('<div><p class="x">a<b>b</b></p><p>c</p></div>')
        self.div = self.document.select_one("div")
        self.first, self.second = self.document.select("p")

    def html(self):
        return self.document.html

    def test_attributes(self):
        self.first["id"] = 'k"<'
        self.first["class"] = ""
        self.assertEqual(self.first.html, '<p class="" id="k&quot;<">a<b>b</b></p>')
        del self.first["class"]
        self.first.attrs["title"] = "t"
        del self.first.attrs["id"]
        self.assertEqual(self.first.html, '<p title="t">a<b>b</b></p>')
        self.first.attrs.update({"a": "1", "b": "2"})
        self.assertEqual(dict(self.first.attrs), {"title": "t", "a": "1", "b": "2"})
        self.first.attrs.clear()
        self.assertEqual(self.first.html, "<p>a<b>b</b></p>")
        with self.assertRaises(KeyError):
            del self.first["id"]

    def test_texts(self):
        self.first.text = "1 < 2"
        self.second.set_text("")
        self.assertEqual(self.html(), '<div><p class="x">1 &lt; 2</p><p></p></div>')
        text = self.first.first_child
        text.text = "z"
        self.assertEqual(self.first.text, "z")

    def test_names(self):
        self.first.name = "section"
        self.assertEqual(self.first.html, '<section class="x">a<b>b</b></section>')

    def test_markup_at_each_place(self):
        self.second.inner_html = "<i>1</i>"
        self.second.append_html("<i>2</i>")
        self.second.prepend_html("0")
        self.second.before_html("<hr>")
        self.second.after_html("<br>")
        self.first.replace_with_html("<u>u</u>v")
        self.assertEqual(self.html(), "<div><u>u</u>v<hr><p>0<i>1</i><i>2</i></p><br></div>")

    def test_texts_at_each_place(self):
        self.second.append("<2>")
        self.second.prepend("0")
        self.second.before("&amp;")
        self.second.after("")
        self.first.replace_with("<script>")
        self.assertEqual(self.html(), "<div>&lt;script&gt;&amp;amp;<p>0c&lt;2&gt;</p></div>")
        self.assertEqual(str(self.second), "<p>0c&lt;2&gt;</p>")
        self.assertEqual(str(self.document), self.html())

    def test_nodes_at_each_place(self):
        b = self.first.select_one("b")
        self.second.append(b)
        self.assertEqual(self.html(), '<div><p class="x">a</p><p>c<b>b</b></p></div>')
        self.second.prepend(b)
        self.assertEqual(self.second.html, "<p><b>b</b>c</p>")
        self.second.before(b)
        self.assertEqual(self.html(), '<div><p class="x">a</p><b>b</b><p>c</p></div>')
        self.second.after(b)
        self.assertEqual(self.html(), '<div><p class="x">a</p><p>c</p><b>b</b></div>')
        self.first.replace_with(b)
        self.assertEqual(self.html(), "<div><b>b</b><p>c</p></div>")
        self.assertIsNone(self.first.parent)
        self.div.append(self.first)
        self.assertEqual(self.html(), '<div><b>b</b><p>c</p><p class="x">a</p></div>')

    def test_new_nodes(self):
        link = self.document.new_element("a", {"href": "/x?y&z"})
        link.append(self.document.new_text("a < b"))
        self.assertIsNone(link.parent)
        self.second.append(link)
        self.assertEqual(self.second.html, '<p>c<a href="/x?y&amp;z">a &lt; b</a></p>')

    def test_removal(self):
        self.first.remove()
        self.assertEqual(self.html(), "<div><p>c</p></div>")
        self.assertIsNone(self.first.parent)
        self.assertEqual(self.first.text, "ab")
        self.div.append(self.first)
        self.assertEqual(self.html(), '<div><p>c</p><p class="x">a<b>b</b></p></div>')

    def test_unwrap(self):
        self.first.unwrap()
        self.assertEqual(self.html(), "<div>a<b>b</b><p>c</p></div>")
        self.document.select_one("b").unwrap()
        self.div.unwrap()
        self.assertEqual(self.html(), "ab<p>c</p>")
        self.second.set_text("")
        self.second.unwrap()
        self.assertEqual(self.html(), "ab")
        self.document.normalize()
        self.assertEqual(len(self.document.root), 1)

    def test_normalize(self):
        self.second.append("d")
        self.second.append("e")
        self.assertEqual(len(self.second), 3)
        self.second.normalize()
        self.assertEqual((len(self.second), self.second.text), (1, "cde"))

    def test_sanitize(self):
        document = dom_query.parse("<p class=a onclick=x>a<script>b</script><i>c<!-- d --></i><u>e</u>")
        document.sanitize(["html", "body", "p", "i"], ["class"])
        self.assertEqual(document.html, '<html><body><p class="a">a<i>c</i>e</p></body></html>')
        document.sanitize([], [], ["i"])
        self.assertEqual(document.html, "ae")
        for wrong in ("p", ["a b"], [""]):
            with self.assertRaises((TypeError, ValueError)):
                document.sanitize(wrong)

    def test_refused(self):
        before = self.html()
        text = self.first.first_child
        for edit in (
            lambda: self.first.append(self.div),
            lambda: self.first.append(self.first),
            lambda: text.append("x"),
            lambda: text.append_html("x"),
            lambda: self.document.root.remove() or self.document.root.before("x"),
            lambda: self.div.append(self.document.root),
        ):
            with self.assertRaises(EditError):
                edit()
            self.assertEqual(self.html(), before)
        with self.assertRaises(MarkupError) as caught:
            self.first.append_html("<i>1<i>")
        self.assertEqual(caught.exception.byte, 7)
        self.assertEqual(self.html(), before)


if __name__ == "__main__":
    unittest.main()
