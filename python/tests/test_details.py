"""What the package says where something is refused, where its limits are, and which library it takes."""

import copy
import gc
import io
import os
import pathlib
import pickle
import re
import shutil
import subprocess
import sys
import tempfile
import unittest
import unittest.mock
import weakref

import dom_query
from dom_query import DomError, EditError, MarkupError, NodeError, PageReader, Policy, PolicyError, SelectorError
from dom_query import _library as library
from dom_query import document as reading

from .test_misuse import used


class Said(unittest.TestCase):
    """The texts of exceptions that the package itself raises."""

    def setUp(self):
        self.document = dom_query.parse_strict('<div><p id="i">a<b>b</b><!-- c --></p></div>')
        self.node = self.document.select_one("p")

    def said(self, kind, text, use):
        with self.subTest(text=text):
            with self.assertRaises(kind) as caught:
                use()
            self.assertEqual((type(caught.exception), str(caught.exception)), (kind, text))
            return caught.exception

    def test_types_of_pages(self):
        wanted = "a str, bytes or a path is wanted, not "
        self.said(TypeError, wanted + "int", lambda: dom_query.parse(5))
        self.said(TypeError, wanted + "object", lambda: dom_query.parse_bytes(object()))
        self.said(TypeError, wanted + "BytesIO; write .read()", lambda: dom_query.parse(io.BytesIO(b"<p>")))
        self.said(TypeError, wanted + "StringIO; write .read()", lambda: dom_query.parse_strict(io.StringIO("<p>")))
        wanted = "bytes are wanted, not a str; write parse(html)"
        self.said(TypeError, wanted, lambda: dom_query.parse_bytes("<p>"))
        self.said(TypeError, wanted, lambda: PageReader().feed("<p>"))
        wanted = "charset is a str or None, not "
        self.said(TypeError, wanted + "bytes", lambda: dom_query.parse_bytes(b"", b"utf-8"))
        self.said(TypeError, wanted + "int", lambda: PageReader(5))

    def test_depths(self):
        for use in (lambda depth: dom_query.parse("", depth), lambda depth: PageReader(max_depth=depth), lambda depth: Policy(max_depth=depth)):
            self.said(TypeError, "max_depth is a whole number, not float", lambda: use(1.5))
            self.said(TypeError, "max_depth is a whole number, not str", lambda: use("1"))
            self.said(ValueError, "max_depth is 0 or more", lambda: use(-1))

    def test_nodes(self):
        other = dom_query.parse("<i>").select_one("i")
        self.said(TypeError, "a str is wanted, not int", lambda: self.node.get(5))
        self.said(TypeError, "a str or a Selector is wanted, not bytes", lambda: self.node.select(b"p"))
        self.said(ValueError, "limit is 0 or more", lambda: self.node.select("p", limit=-1))
        self.said(TypeError, "a str or a Node is wanted, not int", lambda: self.node.append(5))
        wanted = "the node is one of another document; give its html to append_html or the like"
        self.assertEqual(self.said(NodeError, wanted, lambda: self.node.append(other)).code, -6)
        self.said(TypeError, "a path or a file that is open is wanted, not int", lambda: self.node.write_html(5))
        self.said(IndexError, "no node has the number -1", lambda: self.document.node(-1))
        self.said(KeyError, "'href'", lambda: self.node["href"])
        self.said(KeyError, "'href'", lambda: self.node.__delitem__("href"))

    def test_wrapping(self):
        wanted = "a Node is wanted, not str; write wrap(document.new_element(name))"
        self.said(TypeError, wanted, lambda: self.node.wrap("div"))
        wanted = "a node cannot be wrapped into itself, or into one above or below it"
        for wrong in (self.node, self.document.select_one("div"), self.document.select_one("b")):
            self.assertEqual(self.said(EditError, wanted, lambda: self.node.wrap(wrong)).code, -5)
        for wrong in (self.node.first_child, self.node.last_child, self.document.root):
            self.assertEqual(self.said(EditError, library.message(-15), lambda: self.node.wrap(wrong)).code, -15)

    def test_documents(self):
        self.said(TypeError, "a document can't be copied; read its html again", lambda: copy.copy(self.document))
        self.said(TypeError, "a document can't be copied; read its html again", lambda: copy.deepcopy(self.document))
        self.said(TypeError, "a document can't be pickled; send its html, and read it again", lambda: pickle.dumps(self.document))
        self.said(TypeError, "a list of names is wanted, not the text 'p'", lambda: self.document.sanitize("p"))
        self.said(TypeError, "a list of names is wanted, and 5 is none", lambda: self.document.sanitize(["p"], [5]))
        for name in ("a b", "", " "):
            self.said(ValueError, f"{name!r} is not a name", lambda: self.document.sanitize(["p"], [], [name]))

    def test_policies(self):
        self.said(TypeError, "tags is a set of names, and not 'b'", lambda: Policy(tags="b"))
        self.said(TypeError, "classes is a set of names, and not 5", lambda: Policy(classes=5))
        self.said(TypeError, "tags is a set of names, and 1 is none", lambda: Policy(tags={1}))
        wanted = "attributes is a dict from names of elements, or '*' for every element, and not ['id']"
        self.said(TypeError, wanted, lambda: Policy(attributes=["id"]))
        wanted = "tag_attribute_values['b'] is a dict from names of elements, or '*' for every element, and not ['id']"
        self.said(TypeError, wanted, lambda: Policy(tag_attribute_values={"b": ["id"]}))
        wanted = wanted.replace("['b']", "")
        self.said(TypeError, wanted, lambda: Policy(tag_attribute_values=["id"]))
        self.said(TypeError, "attributes is a dict from names of elements, and 5 is none", lambda: Policy(attributes={5: {"id"}}))
        self.said(TypeError, "attributes['b'] is a set of names, and not 'id'", lambda: Policy(attributes={"b": "id"}))
        self.said(TypeError, "attributes['b'] is a set of names, and 5 is none", lambda: Policy(attributes={"b": {5}}))
        self.said(TypeError, "tag_attribute_values['b']['id'] is a set of names, and not 'x'", lambda: Policy(tag_attribute_values={"b": {"id": "x"}}))
        wanted = "classes is None or has a class; for no class at all, leave class out of attributes"
        self.said(ValueError, wanted, lambda: Policy(classes=()))
        wanted = "no page can have the element '<b>', which attributes has"
        fault = self.said(PolicyError, wanted, lambda: Policy(attributes={"<b>": {"id"}}))
        self.assertEqual((fault.code, fault.rule, fault.name), (-14, "attributes", "<b>"))
        self.said(PolicyError, "no page can have 'a b', which attributes['b'] has", lambda: Policy(attributes={"b": {"a b"}}))
        self.said(PolicyError, "no page can have 'ht tp', which url_schemes has", lambda: Policy(url_schemes={"ht tp"}))
        self.said(PolicyError, "no page can have 'mailto:', which url_schemes has; write 'mailto'", lambda: Policy(url_schemes={"mailto:"}))
        wanted = "a str is wanted, and not bytes; decode bytes first, or read them by parse_bytes"
        for use in (dom_query.clean, dom_query.clean_page, Policy().clean, Policy().clean_page):
            self.said(TypeError, wanted, lambda: use(b"<b>"))
        self.said(TypeError, "a Policy is wanted, and not {'b'}; write Policy(tags=..)", lambda: dom_query.clean("<b>", {"b"}))

    def test_a_closed_document(self):
        attrs, node = self.node.attrs, self.node
        self.document.close()
        self.assertEqual(repr(attrs), "<attributes of a node of a closed document>")
        self.assertEqual(repr(node), f"<Node {node.number} of a closed document>")
        self.assertEqual(repr(self.document), "<Document, closed>")

    def test_labels_that_only_python_has(self):
        for label in ("utf_7", "rot13", "punycode", "IDNA"):
            self.said(dom_query.CharsetError, f"no encoding has that label: {label!r}", lambda: dom_query.parse_bytes(b"", label))
        wanted = "no encoding has that label: 'Shift-JIS-2004x'"
        self.said(dom_query.CharsetError, wanted, lambda: PageReader("Shift-JIS-2004x"))


class Limits(unittest.TestCase):
    def depth(self, document):
        return len(document.select("div")[-1].ancestors)

    def test_default_depths(self):
        deep = b"<div>" * 2000
        reader = PageReader()
        reader.feed(deep)
        free = PageReader(None, 0)
        free.feed(deep)
        self.assertEqual((self.depth(reader.finish()), self.depth(free.finish())), (512, 2002))
        self.assertEqual((self.depth(dom_query.parse(deep)), self.depth(dom_query.parse_bytes(deep))), (512, 512))
        self.assertEqual(self.depth(dom_query.parse(deep, 2**70)), 2002)

    def test_depths_of_policies(self):
        presets = {"inline": 128, "comment": 64, "article": 256, "email": 256, "empty": 128}
        for name, depth in presets.items():
            self.assertEqual(getattr(Policy, name)().max_depth, depth, name)
        self.assertEqual(Policy().max_depth, 256)
        lib, handle = library.lib, library.PolicyHandle()
        deep = "<b>" * 300 + "x"
        for number, name in enumerate(("empty", "inline", "comment", "article", "email")):
            self.assertEqual((lib.dq_policy_preset(handle, number), lib.dq_policy_finish(handle, None)), (0, 0))
            of_library = library.text_of(lib.dq_clean, handle, deep.encode(), len(deep))
            self.assertEqual(getattr(Policy, name)().clean(deep), of_library, name)
            self.assertEqual(of_library.count("<b>"), 0 if name == "empty" else presets[name], name)
        lib.dq_policy_free(handle)

    def test_when_the_interpreter_is_let_go(self):
        """A call that may take long lets it go where 32 KiB or more were read, whatever read them."""

        def in_pieces(page):
            reader = PageReader("utf-8")
            for at in range(0, len(page), 1000):
                reader.feed(page[at : at + 1000].encode())
            return reader.finish()

        for read in (
            dom_query.parse,
            lambda page: dom_query.parse(page.encode()),
            lambda page: dom_query.parse_bytes(page.encode()),
            dom_query.parse_strict,
            dom_query.parse_fragment,
            in_pieces,
        ):
            for size, wanted in ((0, library.lib), (32_767, library.lib), (32_768, library.unlocked), (40_000, library.unlocked)):
                document = read("<p>" + "a" * (size - 7) + "</p>" if size else "")
                self.assertIs(document._slow, wanted, size)
        self.assertEqual(reading.LARGE, 32_768)

    def test_what_is_shown_of_long_texts(self):
        page = dom_query.parse_strict("<title></title><p></p>")
        self.assertEqual(repr(page), "<Document>")
        page.select_one("title").text = "x" * 40
        self.assertEqual(repr(page), f"<Document {'x' * 40!r}>")
        page.select_one("title").text = "x" * 41
        self.assertEqual(repr(page), f"<Document {'x' * 40!r}>")
        node = page.select_one("p")
        for length, shown in ((29, "y" * 29), (30, "y" * 30), (31, "y" * 29 + "…")):
            node.text = "y" * length
            node["a"] = "y" * length
            self.assertEqual(repr(node), f"<Node {node.number} <p a={shown!r}> {shown!r}>")
        node.text = ""
        del node["a"]
        for number in range(9):
            node[f"a{number}"] = "z"
        self.assertEqual(len(" a1='z'") * 9, 63)
        node["bb"] = "z" * 10
        written = "".join(f" a{number}='z'" for number in range(9)) + f" bb={'z' * 10!r}"
        self.assertEqual((len(written), repr(node)), (79, f"<Node {node.number} <p{written}>>"))
        node["bb"] += "z"
        self.assertEqual(repr(node), f"<Node {node.number} <p{written[:-1]}z'>>")
        node["bb"] += "z"
        self.assertEqual(repr(node), f"<Node {node.number} <p{(written[:-1] + 'zz')[:79]}…>>")


class Memory(unittest.TestCase):
    def test_long_answers_are_given_back(self):
        """What is too long to be kept for the next call is freed."""
        page = dom_query.parse_strict("<p>" + "x" * 200_000 + "</p>" + "<b>y</b>" * 70_000)
        handle, lib = page._handle, library.lib
        uses = {
            "a text": lambda: library.text_of(lib.dq_text, handle, 0),
            "bytes": page.html_bytes,
            "nodes": lambda: library.numbers_of(lib.dq_select, handle, 0, b"b", 1),
            "texts": lambda: library.texts_of(lib.dq_select_texts, handle, 0, b"b", 1),
            "texts that aren't there": lambda: library.texts_of(lib.dq_select_attrs, handle, 0, b"b", 1, b"id", 2),
            "a long text in a list": lambda: page.select_texts("p"),
        }
        for name, use in uses.items():
            with self.subTest(use=name):
                for _ in range(3):
                    use()
                gc.collect()
                before = used()
                for _ in range(8):
                    use()
                gc.collect()
                self.assertLess(used() - before, 200_000)
                kept = [it.room for it in (*library._strings, *library._nodes, *library._pieces)]
                self.assertLessEqual(max([0, *kept, *(it.joined.room for it in library._pieces)]), library.KEPT)

    def test_none_is_left(self):
        """Where the library finds no memory, or too many nodes, that is what is raised, and nothing comes back half read."""
        reader, page = PageReader(), dom_query.parse("<p>")
        uses = {
            "dq_parse_page": lambda: dom_query.parse("<p>"),
            "dq_parse_bytes": lambda: dom_query.parse(b"<p>"),
            "dq_parse": lambda: dom_query.parse_strict("<p></p>"),
            "dq_parse_fragment": lambda: dom_query.parse_fragment("<p>"),
            "dq_reader_begin": PageReader,
            "dq_reader_feed": lambda: reader.feed(b"<p>"),
            "dq_reader_end": reader.finish,
            "dq_policy_empty": Policy,
            "dq_matches": lambda: dom_query.Selector("p"),
            "dq_select": lambda: page.select("p"),
            "dq_text": lambda: page.text,
            "dq_select_texts": lambda: page.select_texts("p"),
            "dq_html": lambda: page.html_bytes(),
            "dq_new_text": lambda: page.new_text("a"),
            "dq_clean": lambda: dom_query.clean("<p>"),
        }
        dom_query.clean("")
        for name, use in uses.items():
            for code, kind in ((library.MEMORY, MemoryError), (library.TOO_MANY_NODES, dom_query.LimitError)):
                refusing = lambda *_, code=code: code
                with unittest.mock.patch.object(library.lib, name, refusing), unittest.mock.patch.object(library.unlocked, name, refusing):
                    with self.subTest(call=name, code=code), self.assertRaises(kind):
                        use()
        with unittest.mock.patch.object(library.lib, "dq_parse", lambda *_: library.MEMORY), unittest.mock.patch("dom_query.selector._blank", []):
            with self.assertRaises(MemoryError):
                dom_query.Selector("p")


class Codes(unittest.TestCase):
    """Each fault has the class of its family."""

    MARKUP = {
        -30: "<p",
        -31: "<p>",
        -32: "<p></b>",
        -33: "</p>",
        -34: "<p/>",
        -35: "<!-- -- ",
        -36: "<!foo>",
        -37: "<p><!DOCTYPE html></p>",
        -38: "<?x?>",
    }
    SELECTORS = {-20: "p[", -21: ":nope", -22: "p:nth-child(99999999999)", -23: ":has(:has(b))", -24: ":not(" * 65 + "x" + ")" * 65}

    def test_markup(self):
        node = dom_query.parse_strict("<p></p>").select_one("p")
        for code, text in self.MARKUP.items():
            for use in (dom_query.parse_strict, node.append_html):
                with self.subTest(text=text), self.assertRaises(MarkupError) as caught:
                    use(text)
                self.assertEqual(caught.exception.code, code)
        with self.assertRaises(DomError) as caught:
            dom_query.parse_strict(b"<p>\xff</p>")
        self.assertEqual((type(caught.exception), caught.exception.code), (DomError, -4))

    def test_selectors(self):
        document = dom_query.parse("<p>")
        for code, text in self.SELECTORS.items():
            for use in (document.select, document.select_one, document.select_texts, document.root.matches, document.root.closest, dom_query.Selector):
                with self.subTest(text=text), self.assertRaises(SelectorError) as caught:
                    use(text)
                self.assertEqual((caught.exception.code, caught.exception.selectors), (code, text))

    def test_places_near_the_front(self):
        for text, at in (("p(", 1), ("pp(", 2), ("[[", 0), ("é[", 1), (":nope", 0), ("", 0), ("p,", 1)):
            with self.assertRaises(SelectorError) as caught:
                dom_query.Selector(text)
            self.assertEqual((text, caught.exception.position), (text, at))


class Edits(unittest.TestCase):
    def setUp(self):
        self.document = dom_query.parse_strict("<div><script></script><p>a</p></div>")
        self.script, self.node = self.document.select_one("script"), self.document.select_one("p")

    def refused(self, code, use, *given):
        before, made = self.document.html, self.document.new_text("").number
        with self.assertRaises(EditError) as caught:
            use(*given)
        self.assertEqual((caught.exception.code, self.document.html), (code, before))
        return self.document.new_text("").number - made - 1

    def test_an_end_tag_in_two_texts(self):
        """Where a text is put decides whether it ends the element."""
        self.script.text = "script> x"
        self.refused(-14, self.script.prepend, "</")
        self.refused(-14, self.script.first_child.before, "</")
        self.refused(-14, self.script.first_child.replace_with, "</script>")
        self.script.append("</")
        self.script.first_child.after("</")
        self.assertEqual(self.script.text, "script> x</</")
        self.script.text = "x</"
        self.refused(-14, self.script.append, "script>")
        self.refused(-14, self.script.first_child.after, "script>")
        self.refused(-14, self.script.append, self.document.new_text("script "))
        self.script.prepend("script>")
        self.script.first_child.before("script>")
        self.assertEqual(self.script.text, "script>script>x</")
        self.script.append(self.document.new_element("script"))
        self.refused(-14, self.script.last_child.before, "script>")
        self.script.last_child.replace_with("S")
        self.refused(-14, self.script.last_child.set_text, "Script/")
        self.assertEqual(self.script.text, "script>script>x</S")

    def test_names_of_raw_elements(self):
        self.node.text = "</script>"
        for name in ("script", "SCRIPT", "Script"):
            self.refused(-14, setattr, self.node, "name", name)
        self.node.name = "style"
        self.assertEqual(self.node.html, "<style></script></style>")
        text = self.document.new_text("</script>")
        for name in ("script", "p"):
            self.refused(-15, setattr, text, "name", name)

    def test_texts_around_the_contents_of_a_template(self):
        page = self.document = dom_query.parse_fragment("<template><b>1</b></template>")
        contents = page.select_one("template").template_contents
        for use in (contents.before, contents.after, contents.replace_with):
            self.assertEqual(self.refused(-11, use, "x"), 0)
        contents.append("2")
        contents.prepend("0")
        self.assertEqual(page.select_one("template").html, "<template>0<b>1</b>2</template>")

    def test_an_empty_text(self):
        text = self.document.new_text("")
        self.assertEqual((text.text, text.html, text.html_bytes(), text.markdown, text.classes, text.children), ("", "", b"", "", [], []))
        self.assertEqual(dom_query.parse_fragment("").html_bytes(), dom_query.parse_fragment("").html.encode())
        self.assertEqual(dom_query.parse_strict("").html_bytes(), b"")

    def test_what_other_raw_elements_hold(self):
        for name in ("style", "xmp", "iframe", "noembed", "noframes"):
            node = self.document.new_element(name)
            node.text = "<!--<script> "
            self.assertEqual(dom_query.parse_fragment(node.html).select_one(name).text, "<!--<script> ")

    def test_what_stands_in_the_document(self):
        top = self.document.root.first_child
        inside = [self.document.root, top, self.node, self.node.first_child]
        self.assertEqual([it in self.document for it in inside], [True] * 4)
        top.remove()
        self.assertEqual([it in self.document for it in inside], [True, False, False, False])

    def test_what_plaintext_holds(self):
        self.node.name = "plaintext"
        for text in ("</plaintext>", "a</PLAINTEXT >"):
            self.refused(-14, self.node.set_text, text)
            self.refused(-14, self.node.append, text)
        self.node.text = "</p>"
        self.assertEqual(self.node.html, "<plaintext></p></plaintext>")

    def test_a_refused_value_leaves_no_node(self):
        made = self.document.new_text("").number
        for attrs in ({"a": 1}, {"a": "x", "b": None}, {1: "a"}):
            with self.assertRaises(TypeError):
                self.document.new_element("p", attrs)
        self.assertEqual(self.document.new_text("").number, made + 1)

    def test_texts_at_the_root(self):
        root = self.document.root
        root.append("after")
        root.prepend("before")
        self.assertEqual(self.document.html, "before<div><script></script><p>a</p></div>after")
        text = root.first_child
        self.assertEqual([self.refused(-10, use, "x") for use in (text.append, text.prepend)], [0, 0])
        self.assertEqual([self.refused(-11, use, "x") for use in (root.before, root.after, root.replace_with)], [0, 0, 0])

    def test_what_is_referred_to_weakly(self):
        for thing in (dom_query.parse("<p>"), self.node, PageReader(), Policy()):
            kept = weakref.ref(thing)
            self.assertIs(kept(), thing)
            with self.assertRaises(AttributeError):
                thing.frobnicate = 1

    def test_policies_beside_other_things(self):
        policy = Policy(tags={"b"})
        self.assertEqual([policy == other for other in (5, None, "Policy()", Policy(), Policy(tags={"b"}))], [False, False, False, False, True])
        with self.assertRaises(PolicyError) as caught:
            Policy(tags={"X@[Z"})
        self.assertEqual((caught.exception.code, caught.exception.name), (-50, "x@[z"))

    def test_attributes_as_a_mapping(self):
        self.node["id"] = "é"
        self.assertNotIn(self.node.first_child, self.node.attrs)
        self.assertEqual(["id" in self.node.attrs, "none" in self.node.attrs, "" in self.node.attrs], [True, False, False])
        self.assertIn(self.node.first_child, self.node)
        self.assertEqual(self.node.attrs.get("none", "x"), "x")
        self.assertEqual(self.node.attrs.setdefault("id", "y"), "é")
        self.assertEqual(self.node.attrs.pop("id"), "é")
        self.assertEqual((self.node.attrs, len(self.node.attrs)), ({}, 0))

    def test_many_values_that_are_not_ascii(self):
        page = dom_query.parse("<a href=é>1</a><a>2</a><a href=ü>€</a><a href>4</a>")
        self.assertEqual(page.select_attrs("a", "href"), ["é", None, "ü", ""])
        self.assertEqual(page.select_texts("a"), ["1", "2", "€", "4"])
        page = dom_query.parse("<a href=e>1</a><a>2</a><a href=u>3</a><a href>4</a>")
        self.assertEqual(page.select_attrs("a", "href"), ["e", None, "u", ""])


class Libraries(unittest.TestCase):
    """Which shared library the package takes, in a copy of it."""

    def setUp(self):
        self.room = tempfile.TemporaryDirectory()
        self.addCleanup(self.room.cleanup)
        self.folder = pathlib.Path(self.room.name)
        self.package = self.folder / "dom_query"
        shutil.copytree(pathlib.Path(dom_query.__file__).parent, self.package, ignore=shutil.ignore_patterns("*.so*", "__pycache__"))

    def printed(self, **given):
        script = "import dom_query, dom_query._library as l; print(l.lib._name, dom_query.parse('<p>a').text)"
        env = {name: value for name, value in os.environ.items() if name not in ("DOM_QUERY_LIBRARY", "PYTHONPATH", "LD_LIBRARY_PATH")}
        env |= {"PYTHONPATH": str(self.folder), "PYTHONDONTWRITEBYTECODE": "1", **given}
        ran = subprocess.run([sys.executable, "-c", script], cwd=self.folder, env=env, stdout=subprocess.PIPE, stderr=subprocess.STDOUT, text=True)
        return ran.stdout.strip().splitlines()[-1]

    def path(self):
        return os.path.abspath(library.lib._name)

    def test_the_installed_one(self):
        (self.folder / "libdom_query.so.0").symlink_to(self.path())
        self.assertEqual(self.printed(LD_LIBRARY_PATH=str(self.folder)), "libdom_query.so.0 a")

    def test_the_one_beside(self):
        shutil.copy(self.path(), self.package / "libdom_query.so")
        self.assertEqual(self.printed(), f"{self.package.resolve() / 'libdom_query.so'} a")
        self.assertEqual(self.printed(DOM_QUERY_LIBRARY=self.path()), f"{self.path()} a")
        self.assertEqual(self.printed(DOM_QUERY_LIBRARY=""), f"{self.package.resolve() / 'libdom_query.so'} a")

    def test_another_version(self):
        text = (self.package / "_library.py").read_text(encoding="utf-8")
        text, count = re.subn(r"(?m)^VERSION = .*$", "VERSION = '9.8.7'", text)
        self.assertEqual(count, 1)
        (self.package / "_library.py").write_text(text, encoding="utf-8")
        said = self.printed(DOM_QUERY_LIBRARY=self.path())
        self.assertEqual(
            said, f"ImportError: dom_query 9.8.7 can't use version 1.0.0 of its shared library, {self.path()}. Run ./install-c again."
        )


if __name__ == "__main__":
    unittest.main()
