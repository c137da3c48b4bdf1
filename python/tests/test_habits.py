"""What users try: names, types, paths, iteration, templates, names and texts from strangers."""

import codecs
import gc
import io
import pathlib
import pickle
import tempfile
import unittest

import dom_query
from dom_query import EditError, Node, NodeError, PageReader, Policy, PolicyError, Selector, SelectorError

RAW = ("script", "style", "xmp", "iframe", "noembed", "noframes")


class Arguments(unittest.TestCase):
    def test_paths(self):
        with tempfile.TemporaryDirectory() as folder:
            path = pathlib.Path(folder) / "page.html"
            path.write_bytes("<meta charset=koi8-r><p>Чай".encode("koi8_r"))
            document = dom_query.parse(path)
            self.assertEqual((document.text, document.encoding), ("Чай", "KOI8-R"))
            self.assertEqual(len(dom_query.parse(pathlib.Path(path), 3).select("p")), 1)
            with self.assertRaises(FileNotFoundError):
                dom_query.parse(pathlib.Path(folder) / "none.html")
            document.write_html(path)
            self.assertEqual(path.read_bytes(), document.html_bytes())
            document.select_one("p").write_html(str(path))
            self.assertEqual(path.read_text(encoding="utf-8"), "<p>Чай</p>")
        self.assertEqual(dom_query.parse("page.html").text, "page.html")

    def test_files_that_are_open(self):
        document = dom_query.parse_strict("<p>é</p>")
        binary, text = io.BytesIO(), io.StringIO()
        document.write_html(binary)
        document.write_html(text)
        self.assertEqual((binary.getvalue(), text.getvalue()), ("<p>é</p>".encode(), "<p>é</p>"))
        # (what these return is no io.TextIOBase)
        with tempfile.NamedTemporaryFile("w+", encoding="utf-16") as named, tempfile.NamedTemporaryFile() as unnamed:
            document.write_html(named)
            document.write_html(unnamed)
            named.seek(0)
            unnamed.seek(0)
            self.assertEqual((named.read(), unnamed.read()), ("<p>é</p>", "<p>é</p>".encode()))
        with tempfile.TemporaryDirectory() as folder, codecs.open(f"{folder}/page", "w", "utf-8") as old:
            document.write_html(old)
        for wrong in (5, None, b"page.html"):
            with self.assertRaisesRegex(TypeError, "a path or a file that is open is wanted"):
                document.write_html(wrong)
        self.assertEqual(document.html_bytes(), "<p>é</p>".encode())
        self.assertEqual(document.select_one("p").html_bytes(), "<p>é</p>".encode())
        document.close()
        with self.assertRaises(dom_query.ClosedError):
            document.html_bytes()

    def test_other_types(self):
        document = dom_query.parse("<p>a")
        node = document.select_one("p")
        for use in (
            lambda: dom_query.parse(5),
            lambda: dom_query.parse(None),
            lambda: dom_query.parse(["<p>"]),
            lambda: dom_query.parse("", max_depth=1.5),
            lambda: dom_query.parse("", max_depth="1"),
            lambda: dom_query.parse_bytes("<p>"),
            lambda: dom_query.parse_bytes(5),
            lambda: dom_query.parse_bytes(b"", b"utf-8"),
            lambda: dom_query.parse_bytes(b"", 5),
            lambda: dom_query.parse_bytes(b"", None, "1"),
            lambda: dom_query.parse_strict(5),
            lambda: dom_query.parse_strict(pathlib.Path("x")),
            lambda: dom_query.parse_fragment(5),
            lambda: dom_query.parse_fragment("", 5),
            lambda: node.append(5),
            lambda: node.append(None),
            lambda: node.prepend(b"x"),
            lambda: node.append_html(b"x"),
            lambda: node.set_text(5),
            lambda: setattr(node, "name", 5),
            lambda: node.__setitem__("id", 1),
            lambda: node.__setitem__(1, "id"),
            lambda: node.get(5),
            lambda: node.select(5),
            lambda: node.select(b"p"),
            lambda: node.select_one(None),
            lambda: node.matches(5),
            lambda: node.closest(5),
            lambda: node.wrap("div"),
            lambda: node.select("p", limit="1"),
            lambda: document.node("1"),
            lambda: document.node(1.5),
            lambda: document.new_element(5),
            lambda: document.new_element("p", {"a": 1}),
            lambda: document.new_element("p", {1: "a"}),
            lambda: document.new_text(5),
            lambda: document.sanitize([5]),
            lambda: document.sanitize("p"),
            lambda: Policy(link_rel=["nofollow"]),
            lambda: Policy(relative=None),
            lambda: Policy(id_prefix=5),
            lambda: Policy(max_depth=1.5),
            lambda: Policy(max_depth="1"),
            lambda: Policy(tag_attribute_values={5: {}}),
            lambda: Policy(attributes={5: {"id"}}),
            lambda: Policy(tag_attribute_values={"p": {"id": "x"}}),
            lambda: Selector(5),
            lambda: Selector(b"p"),
            lambda: PageReader(5),
            lambda: PageReader(b"utf-8"),
            lambda: PageReader().feed("x"),
            lambda: PageReader().feed(5),
        ):
            with self.assertRaises(TypeError) as caught:
                use()
            self.assertNotIn("ctypes", str(caught.exception))
            self.assertNotIn("argument 2", str(caught.exception))
        with self.assertRaisesRegex(TypeError, r"\.read\(\)"):
            dom_query.parse(io.BytesIO(b"<p>"))
        for wrong in (lambda: node.select("p", -1), lambda: dom_query.parse("", -1), lambda: Policy(max_depth=-1)):
            with self.assertRaises(ValueError):
                wrong()

    def test_bytes_of_other_kinds(self):
        import array
        import mmap

        self.assertEqual(dom_query.parse(bytearray(b"<p>a")).text, "a")
        self.assertEqual(dom_query.parse(memoryview(b"<p>abc")[:4]).text, "a")
        self.assertEqual(dom_query.parse(memoryview(b"<-p->-a-")[::2]).text, "a")
        self.assertEqual(dom_query.parse(array.array("B", b"<p>a")).text, "a")
        with mmap.mmap(-1, 4) as mapped:
            mapped.write(b"<p>a")
            self.assertEqual(dom_query.parse(mapped).text, "a")

    def test_half_pairs_of_surrogates(self):
        """One rule: they become U+FFFD, as in browsers."""
        document = dom_query.parse("a\ud800<p>")
        node = document.select_one("p")
        self.assertEqual(document.text, "a\ufffd")
        node["title"] = "\ud800"
        node.append("b\udfff")
        node.append_html("c\ud800")
        self.assertEqual((node["title"], node.text), ("\ufffd", "b\ufffdc\ufffd"))
        node.text = "\ud83d\ude00\ud800"
        self.assertEqual(node.text, "\ufffd\ufffd\ufffd")
        self.assertIsNone(node.get("\ud800"))
        self.assertNotIn("\ud800", node)
        self.assertEqual(document.select("[title='\ud800']"), [node])
        self.assertEqual(document.new_text("\ud800").text, "\ufffd")
        self.assertEqual(document.new_element("p", {"a\ud800": "\ud800"}).get("a\ufffd"), "\ufffd")
        self.assertEqual(dom_query.parse_strict("<p>\ud800</p>").text, "\ufffd")
        self.assertEqual(dom_query.parse_fragment("\ud800", "p").text, "\ufffd")
        self.assertEqual(dom_query.clean("\ud800"), "\ufffd")
        with self.assertRaises(SelectorError):
            document.select("p[\ud800")
        with self.assertRaises(dom_query.CharsetError):
            dom_query.parse_bytes(b"", "\ud800")

    def test_positions_and_depths(self):
        self.assertEqual(len(dom_query.parse_bytes(b"<div>" * 2000).select("div")[-1].ancestors), 512)
        self.assertEqual(len(dom_query.parse_bytes(b"<div>" * 2000, None, 0).select("div")[-1].ancestors), 2002)
        self.assertEqual(len(dom_query.parse(b"<div>" * 2000, 0).select("div")[-1].ancestors), 2002)
        self.assertEqual(len(dom_query.parse(b"<div>" * 2000).select("div")[-1].ancestors), len(dom_query.parse("<div>" * 2000).select("div")[-1].ancestors))


class Nodes(unittest.TestCase):
    def setUp(self):
        self.document = dom_query.parse_strict('<div><p class="x" id="i">a<b>b</b><!-- c --></p><p>d</p></div>')
        self.div = self.document.select_one("div")
        self.first, self.second = self.document.select("p")

    def test_membership(self):
        self.assertIn(self.first, self.div)
        self.assertNotIn(self.div, self.first)
        self.assertNotIn(self.first.first_child, self.div)
        self.assertIn("id", self.first)
        for other in (None, 5, b"id", object()):
            self.assertNotIn(other, self.first)
            self.assertNotIn(other, self.document)
            self.assertNotIn(other, self.first.attrs)
        self.assertIn(self.first, self.document)
        self.assertIn(self.document.root, self.document)
        self.assertNotIn(dom_query.parse("<p>").select_one("p"), self.document)
        self.assertNotIn("p", self.document)
        self.first.remove()
        self.assertNotIn(self.first, self.document)
        self.assertNotIn(self.first, self.div)
        self.assertNotIn(self.first.first_child, self.document)

    def test_order(self):
        self.assertEqual(list(reversed(self.div)), [self.second, self.first])
        self.assertEqual(list(reversed(self.document)), [self.div])
        self.assertEqual([node.kind for node in self.first.next_siblings], ["element"])
        self.assertEqual(list(self.second.previous_siblings), [self.first])
        text = self.first.first_child
        self.assertEqual([node.kind for node in text.next_siblings], ["element", "comment"])
        self.assertEqual([node.kind for node in self.first.last_child.previous_siblings], ["element", "text"])
        self.assertEqual(list(self.first.iter_descendants()), self.first.descendants)
        self.assertEqual(list(self.document.iter_descendants()), self.document.root.descendants)
        self.assertEqual(list(self.second.first_child.iter_descendants()), [])
        self.assertIs(iter(siblings := self.first.next_siblings), siblings)

    def test_limits(self):
        self.assertEqual(self.document.select("p", limit=1), [self.first])
        self.assertEqual(self.document.select("p", limit=0), [])
        self.assertEqual(self.document.select("p", limit=5), [self.first, self.second])
        self.assertEqual(self.document.select("p, b", limit=2), [self.first, self.first.select_one("b")])
        self.assertEqual(self.document.select("u", limit=1), [])
        self.assertEqual(self.div.select("p", 1), [self.first])

    def test_selectors(self):
        paragraphs = Selector("p.x")
        self.assertEqual(paragraphs.select(self.document), [self.first])
        self.assertEqual(Selector("p").select(self.div, 1), [self.first])
        self.assertEqual(paragraphs.select_one(self.div), self.first)
        self.assertTrue(paragraphs.matches(self.first))
        self.assertFalse(paragraphs.matches(self.second))
        self.assertEqual(self.document.select(paragraphs, limit=1), [self.first])
        self.assertEqual(self.document.select_texts(paragraphs), ["ab"])
        self.assertEqual(self.document.select_attrs(paragraphs, "id"), ["i"])
        self.assertEqual(self.document.select_html(Selector("b")), ["<b>b</b>"])
        self.assertEqual(self.first.closest(Selector("div")), self.div)
        self.assertEqual((repr(paragraphs), str(paragraphs)), ("Selector('p.x')", "p.x"))
        self.assertEqual(pickle.loads(pickle.dumps(paragraphs)), paragraphs)
        self.assertEqual(hash(Selector("p.x")), hash(paragraphs))
        self.assertNotEqual(paragraphs, Selector("p"))
        self.assertNotEqual(paragraphs, "p.x")
        with self.assertRaises(SelectorError) as caught:
            Selector("ul > li[")
        self.assertEqual((caught.exception.selectors, caught.exception.position), ("ul > li[", 7))

    def test_what_selectors_can_not_say(self):
        """What the manual names as not supported is refused, and not read as something else."""
        for text in (":nth-child(1 of p)", ":lang(de)", "//p"):
            with self.assertRaises(SelectorError, msg=text):
                self.document.select(text)

    def test_closest_and_wrap(self):
        b = self.first.select_one("b")
        self.assertEqual(b.closest("b"), b)
        self.assertEqual(b.closest("p, div"), self.first)
        self.assertIsNone(b.closest("u"))
        self.assertEqual(b.first_child.closest("b"), b)
        section = self.document.new_element("section")
        self.assertEqual(b.wrap(section), section)
        self.assertEqual(self.first.inner_html, "a<section><b>b</b></section><!-- c -->")
        section.unwrap()
        self.assertEqual(self.first.inner_html, "a<b>b</b><!-- c -->")
        before = self.document.html
        for wrong in (self.div, self.first, b, b.first_child, self.document.root):
            with self.assertRaises(EditError):
                (b if wrong is not b else b).wrap(wrong)
            self.assertEqual(self.document.html, before)
        with self.assertRaises(EditError):
            self.first.wrap(b)
        self.first.clear()
        self.assertEqual((self.first.html, len(self.first)), ('<p class="x" id="i"></p>', 0))
        self.assertEqual(self.second.strings + self.div.strings, ["d", "d"])

    def test_shown(self):
        self.assertEqual(repr(self.first), f"<Node {self.first.number} <p class='x' id='i'> 'ab'>")
        self.assertEqual(repr(self.first.first_child), f"<Node {self.first.first_child.number} text 'a'>")
        self.assertEqual(repr(self.first.last_child), f"<Node {self.first.last_child.number} comment>")
        self.assertEqual(repr(self.document.new_element("hr")), f"<Node {len(self.document.root.descendants) + 1} <hr>>")
        self.second.text = "x" * 100
        self.second["title"] = "y" * 100
        self.assertIn("x" * 29 + "…", repr(self.second))
        self.assertLess(len(repr(self.second)), 120)
        self.assertEqual(repr(self.document), "<Document>")
        self.assertEqual(repr(dom_query.parse("<title>Tea</title>")), "<Document 'Tea'>")
        attrs = self.first.attrs
        self.document.close()
        self.assertIn("closed", repr(attrs))
        self.assertIn("closed", repr(self.first))
        self.assertIn("closed", repr(self.document))

    def test_nodes_of_other_documents(self):
        other = dom_query.parse("<i>").select_one("i")
        before = self.document.html
        for use in (self.first.append, self.first.prepend, self.first.before, self.first.after, self.first.replace_with):
            with self.assertRaises(NodeError) as caught:
                use(other)
            self.assertEqual(caught.exception.code, -6)
            self.assertIsInstance(caught.exception, ValueError)
        with self.assertRaises(NodeError):
            self.first.wrap(other)
        self.assertEqual(self.document.html, before)

    def test_what_has_no_text_or_attributes(self):
        comment, text, root = self.first.last_child, self.first.first_child, self.document.root
        before = self.document.html
        for use in (
            lambda: comment.set_text("x"),
            lambda: setattr(comment, "text", "x"),
            lambda: setattr(root, "text", "x"),
            lambda: text.__setitem__("id", "x"),
            lambda: comment.attrs.__setitem__("id", "x"),
            lambda: root.__setitem__("id", "x"),
            lambda: setattr(text, "name", "p"),
            lambda: setattr(root, "name", "p"),
        ):
            with self.assertRaises(EditError) as caught:
                use()
            self.assertEqual(caught.exception.code, -15)
        with self.assertRaises(KeyError):
            del text["id"]
        self.assertEqual(self.document.html, before)

    def test_a_refused_text_leaves_no_node(self):
        made = self.document.new_text("").number
        for use in (
            lambda: self.first.first_child.append("x"),
            lambda: self.first.last_child.prepend("x"),
            lambda: self.document.root.before("x"),
            lambda: self.document.root.after("x"),
            lambda: self.document.root.replace_with("x"),
            lambda: self.document.new_element("p", {"a b": "x"}),
            lambda: self.document.new_element("p", {"a": "x", "": "y"}),
        ):
            with self.assertRaises(EditError):
                use()
        self.assertEqual(self.document.new_text("").number, made + 1)

    def test_numbers(self):
        self.assertEqual(self.document.node(0), self.document.root)
        self.assertEqual(self.document.root.number, 0)
        self.assertEqual(self.document.node(self.first.number), self.first)
        self.assertEqual(self.document.node(True), self.div)
        for number in (-1, 2**32, 2**70):
            with self.assertRaises(IndexError):
                self.document.node(number)
        for number in (10_000, 2**32 - 1):
            with self.assertRaises(NodeError):
                self.document.node(number)

    def test_unknown_attributes(self):
        for thing in (self.first, self.document, Policy(), Selector("p"), self.first.attrs):
            with self.assertRaises(AttributeError):
                thing.frobnicate
            with self.assertRaises(AttributeError):
                thing.frobnicate = 1
        with self.assertRaisesRegex(AttributeError, "^Document has no 'frobnicate'$"):
            self.document.frobnicate
        self.assertIsInstance(self.first, Node)

    def test_templates(self):
        document = dom_query.parse("<template><b>1</b><i>2</i></template><p>3")
        template, paragraph = document.select_one("template"), document.select_one("p")
        self.assertEqual(template.inner_html, "<b>1</b><i>2</i>")
        self.assertEqual((template.children, template.text), ([], ""))
        contents = template.template_contents
        self.assertEqual((contents.kind, contents.select_texts("b, i")), ("fragment", ["1", "2"]))
        self.assertIsNone(paragraph.template_contents)
        template.inner_html = "<u>4</u>"
        template.append_html("<s>5</s>")
        template.prepend_html("0")
        self.assertEqual(template.inner_html, "0<u>4</u><s>5</s>")
        self.assertEqual(template.html, "<template>0<u>4</u><s>5</s></template>")
        self.assertEqual(dom_query.parse(document.html).select_one("template").inner_html, template.inner_html)
        self.assertEqual(template.children, [])

    def test_dropped_by_default(self):
        names = ("script", "style", "iframe", "object", "embed", "template", "noscript")
        for name in names:
            document = dom_query.parse_fragment(f"<{name}>a</{name}>b" if name != "embed" else "<embed>b")
            document.sanitize(["p"])
            self.assertEqual(document.text, "b", name)
        for name in ("xmp", "svg", "title"):
            document = dom_query.parse_fragment(f"<{name}>a</{name}>b")
            document.sanitize(["p"])
            self.assertEqual(document.text, "ab", name)


class Strangers(unittest.TestCase):
    """A text, a name or a value from strangers can't bring elements or attributes with it."""

    TEXTS = ("</script><b>x</b>", "<!--<script>", "</style >", "</xmp\n", "<b>", "a=b", "p><img src=x", "x onclick=y()", "]]>", "-->", "\0", "a/b", "", "&lt;")

    def shape(self, document):
        return [(node.name, sorted(node.attrs)) for node in document.root.descendants if node.kind == "element"]

    def test_names(self):
        document = dom_query.parse("<p>a")
        node = document.select_one("p")
        for name in ("p><img src=x", "p x", "p/", "p\0", "", "1p", "é", "p\n", "p\f", "<p", "!--"):
            with self.assertRaises(EditError, msg=name) as caught:
                node.name = name
            self.assertEqual(caught.exception.code, -14)
            with self.assertRaises(EditError, msg=name):
                document.new_element(name)
        for name in ("x onclick=y()", "a=b", "a>b", "a/b", "a\tb", "", "a\0", "="):
            with self.assertRaises(EditError, msg=name) as caught:
                node[name] = ""
            self.assertEqual(caught.exception.code, -14)
            with self.assertRaises(EditError, msg=name) as caught:
                document.new_element("p", {name: ""})
            self.assertEqual(caught.exception.code, -14)
        self.assertEqual(node.html, "<p>a</p>")
        for name in ("x-y", "svg:a", "h1", "a\"b", "aé", "a<b", "a=b"):
            node.name = name
            self.assertEqual(dom_query.parse_fragment(node.html).select("*")[1].name, name)
        for name in ("data-x", "é", "@click", ":to", "a\"b", "1", "a<b"):
            other = document.new_element("p", {name: "v"})
            self.assertEqual(dict(dom_query.parse(other.html).select_one("p").attrs), {name: "v"})

    def test_raw_texts(self):
        document = dom_query.parse("<p>a")
        for name in RAW:
            node = document.new_element(name)
            for text in (f"</{name}><b>x</b>", f"a</{name.upper()} >", f"</{name}/", f"</{name}\n"):
                with self.assertRaises(EditError) as caught:
                    node.text = text
                self.assertEqual(caught.exception.code, -14)
                for put in (node.append, node.prepend):
                    with self.assertRaises(EditError):
                        put(text)
                    with self.assertRaises(EditError):
                        put(document.new_text(text))
            self.assertEqual(node.html, f"<{name}></{name}>")
            for text in ("<b>", "</b>", f"</{name}x>", "<!-- a -->", "a < b && c"):
                node.text = text
                self.assertEqual(dom_query.parse_fragment(node.html).select_one(name).text, text)
            child = node.first_child
            with self.assertRaises(EditError):
                child.text = f"</{name}>"
            child.text = f"</{name}"
            for put in (child.after, node.append):
                with self.assertRaises(EditError):
                    put(">")
            with self.assertRaises(EditError):
                child.replace_with(f"x</{name}>")
            with self.assertRaises(EditError):
                child.before(f"</{name}>")
            child.before("1")
            child.after("2")
            self.assertEqual(node.text, f"1</{name}2")
        script = document.new_element("script")
        for text in ("<!--<script>", "a<!-- <script ", "<!--<!--<SCRIPT/"):
            with self.assertRaises(EditError):
                script.text = text
        for text in ("<!-- a --><script>", "<!--><script>", "<!--<scriptx>", "<script>"):
            script.text = text
            self.assertEqual(dom_query.parse(script.html).select_one("script").text, text)
        for text in ("<!--" * 200_000, "<!-- <scriptx " * 100_000):  # each part of a text is looked at once
            script.text = text
            self.assertEqual(script.text, text)
        holder = document.new_element("div")
        holder.text = "</script>"
        with self.assertRaises(EditError):
            holder.name = "script"
        holder.text = "a"
        holder.name = "script"
        self.assertEqual(holder.html, "<script>a</script>")
        title = document.new_element("title")
        title.text = "</title><b>"
        self.assertEqual(dom_query.parse(title.html).select_one("title").text, "</title><b>")

    def test_no_text_brings_elements(self):
        for text in self.TEXTS:
            for name in (*RAW, "p", "title", "textarea", "div"):
                document = dom_query.parse("<body>")
                node = document.new_element(name)
                document.select_one("body").append(node)
                wanted = self.shape(document)
                for use in (node.set_text, node.append, node.prepend):
                    try:
                        use(text)
                    except EditError:
                        pass
                    self.assertEqual(self.shape(dom_query.parse(document.html)), wanted, (name, text))
                try:
                    node["title"] = text
                    node[text] = "x"
                except EditError:
                    pass
                again = dom_query.parse(document.html)
                self.assertEqual([it[0] for it in self.shape(again)], [it[0] for it in self.shape(document)], (name, text))


class Policies(unittest.TestCase):
    def test_rules_for_every_element(self):
        policy = Policy(tags={"b", "i"}, attributes={}, tag_attribute_values={"*": {"dir": {"rtl"}}, "b": {"lang": {"de"}}})
        source = "<b dir=rtl lang=de>1</b><i dir=rtl lang=de>2</i><b dir=ltr lang=fr>3</b>"
        self.assertEqual(policy.clean(source), '<b dir="rtl" lang="de">1</b><i dir="rtl">2</i><b>3</b>')

    def test_upper_case(self):
        lower = Policy(tags={"b", "a"}, clean_content_tags={"nav"}, attributes={"a": {"href"}, "*": {"id"}}, url_schemes={"https"}, tag_attribute_values={"b": {"dir": {"rtl"}}})
        upper = Policy(tags={"B", "A"}, clean_content_tags={"NAV"}, attributes={"A": {"HREF"}, "*": {"ID"}}, url_schemes={"HTTPS"}, tag_attribute_values={"B": {"DIR": {"rtl"}}})
        self.assertEqual(upper, lower)
        self.assertEqual((upper.tags, upper.attributes), (frozenset({"a", "b"}), {"a": frozenset({"href"}), "*": frozenset({"id"})}))
        source = "<nav>0</nav><b dir=rtl id=x>1</b><a href=https://h/>2</a><a href=http://h/>3</a>"
        self.assertEqual(upper.clean(source), lower.clean(source))
        self.assertEqual(upper.clean(source), '<b dir="rtl" id="x">1</b><a href="https://h/" rel="noopener noreferrer">2</a><a rel="noopener noreferrer">3</a>')
        both = Policy(attributes={"a": {"href"}, "A": {"title"}})
        self.assertEqual(both.attributes, {"a": frozenset({"href", "title"})})

    def test_rules_that_could_never_apply(self):
        for rules, rule, name in (
            ({"tags": {"b c"}}, "tags", "b c"),
            ({"tags": {""}}, "tags", ""),
            ({"clean_content_tags": {"na v"}}, "clean_content_tags", "na v"),
            ({"clean_content_tags": {"<nav>"}}, "clean_content_tags", "<nav>"),
            ({"clean_content_tags": {"*"}}, "clean_content_tags", "*"),
            ({"attributes": {"b": {"a b"}}}, "attributes", "a b"),
            ({"attributes": {"b": {""}}}, "attributes", ""),
            ({"attributes": {"<b>": {"id"}}}, "attributes", "<b>"),
            ({"tag_attribute_values": {"b c": {"id": {"x"}}}}, "tag_attribute_values", "b c"),
            ({"url_schemes": {"https:"}}, "url_schemes", "https:"),
            ({"url_schemes": {"https://"}}, "url_schemes", "https://"),
            ({"url_schemes": {""}}, "url_schemes", ""),
        ):
            with self.assertRaises(PolicyError, msg=rules) as caught:
                Policy(**rules)
            self.assertEqual((caught.exception.rule, caught.exception.name, caught.exception.code), (rule, name, -14))
        with self.assertRaisesRegex(PolicyError, "write 'https'"):
            Policy(url_schemes={"https://"})


class Pieces(unittest.TestCase):
    def test_a_page_in_pieces(self):
        page = "<meta charset=koi8-r><title>Чай</title><p class=a>мате<b>2".encode("koi8_r")
        wanted = dom_query.parse(page)
        for size in (1, 3, 7, 1000):
            reader = PageReader()
            for at in range(0, len(page), size):
                reader.feed(page[at : at + size])
            document = reader.finish()
            self.assertEqual((document.html, document.encoding, document.encoding_source), (wanted.html, "KOI8-R", "page"))
        named = PageReader("koi8-r", max_depth=0)
        named.feed(memoryview(page))
        self.assertEqual(named.finish().encoding_source, "charset")
        self.assertEqual(PageReader().finish().html, "<html><head></head><body></body></html>")

    def test_misuse(self):
        reader = PageReader()
        reader.finish()
        for use in (reader.finish, lambda: reader.feed(b"x")):
            with self.assertRaises(dom_query.ClosedError):
                use()
        with self.assertRaises(dom_query.CharsetError) as caught:
            PageReader("euc_kr")
        self.assertEqual(caught.exception.charset, "euc_kr")
        with self.assertRaises(ValueError):
            PageReader(max_depth=-1)
        deep = PageReader(max_depth=0)
        deep.feed(b"<div>" * 2000)
        self.assertEqual(len(deep.finish().select("div")[-1].ancestors), 2002)
        gc.collect()


class Whole(unittest.TestCase):
    """Calls on a whole document, and arguments of another type."""

    def test_bytes_and_texts(self):
        with self.assertRaisesRegex(TypeError, r"bytes are wanted, not a str; write parse\(html\)"):
            dom_query.parse_bytes("<p>")
        for rule in ("relative", "link_rel", "id_prefix"):
            with self.subTest(rule=rule), self.assertRaisesRegex(TypeError, f"{rule} is a str, and not 5"):
                dom_query.Policy(**{rule: 5})

    def test_a_whole_document_is_written(self):
        page = dom_query.parse("<!doctype html><p>é")
        whole = "<!DOCTYPE html><html><head></head><body><p>é</p></body></html>"
        self.assertEqual((page.html, page.html_bytes()), (whole, whole.encode()))
        written = io.BytesIO()
        page.write_html(written)
        self.assertEqual(written.getvalue(), whole.encode())

    def test_a_document_is_closed_after_a_block(self):
        with dom_query.parse("<p>") as page:
            self.assertEqual(page.select_one("p").name, "p")
        with self.assertRaises(dom_query.ClosedError):
            page.select("p")

    def test_every_exported_name_is_there(self):
        for name in dom_query.__all__:
            self.assertTrue(hasattr(dom_query, name), name)
        for name in ("Node", "Document", "Policy", "Selector", "PageReader", "EditError", "parse", "clean"):
            self.assertIn(name, dom_query.__all__)


if __name__ == "__main__":
    unittest.main()
