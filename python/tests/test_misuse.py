"""Closed documents, foreign nodes, threads, names of other libraries, and many documents."""

import copy
import ctypes
import gc
import pickle
import re
import threading
import unittest

import dom_query
from dom_query import ClosedError, NodeError, PageReader, PolicyError, SelectorError
from dom_query import _library as library
from dom_query import names

DEEP = 1_000_000
# What each name of another library is told to be here.
HINTS = {
    "find_all": "select('p.note')",
    "find": "select_one('p.note')",
    "findAll": "select('p.note')",
    "css": "select(selectors)",
    "css_first": "select_one(selectors)",
    "cssselect": "select(selectors)",
    "xpath": "select(selectors), with CSS selectors",
    "get_text": "text, or formatted_text",
    "text_content": "text",
    "string": "text",
    "stripped_strings": "formatted_text.split('\\n')",
    "prettify": "html, or formatted_text",
    "tostring": "html",
    "textContent": "text",
    "inner_text": "formatted_text",
    "write": "write_html(file)",
    "tail": "next.text",
    "innerHTML": "inner_html",
    "outerHTML": "html",
    "decode": "html",
    "decode_contents": "inner_html",
    "decompose": "remove()",
    "extract": "remove()",
    "detach": "remove()",
    "replaceWith": "replace_with(content)",
    "querySelector": "select_one(selectors)",
    "querySelectorAll": "select(selectors)",
    "getAttribute": "get(name)",
    "set": "node[name] = value",
    "drop_tree": "remove()",
    "drop_tag": "unwrap()",
    "tag": "name",
    "contents": "children",
    "getparent": "parent",
    "getchildren": "children",
    "iterdescendants": "descendants",
    "iterancestors": "ancestors",
    "parents": "ancestors",
    "next_sibling": "next",
    "previous_sibling": "previous",
    "getnext": "next_element",
    "getprevious": "previous_element",
    "find_next_sibling": "next_element",
    "find_previous_sibling": "previous_element",
    "attributes": "attrs",
    "attrib": "attrs",
    "has_attr": "the operator in: 'href' in node",
    "insert_before": "before(content)",
    "insert_after": "after(content)",
    "new_tag": "new_element(name)",
    "new_string": "new_text(text)",
}
TAGS = (
    "a article body button code div footer form h1 h2 h3 h4 head header img input label li main nav ol option p pre section "
    "span table tbody td th title tr ul"
)
LIBC = ctypes.CDLL(None)


class Usage(ctypes.Structure):
    """What mallinfo2 of the C library returns."""

    _fields_ = [(name, ctypes.c_size_t) for name in "arena ordblks smblks hblks hblkhd usmblks fsmblks uordblks fordblks keepcost".split()]


def used():
    """How many bytes of memory from malloc are in use."""
    LIBC.mallinfo2.restype = Usage
    usage = LIBC.mallinfo2()
    return usage.uordblks + usage.hblkhd


class Misuse(unittest.TestCase):
    def test_closed(self):
        document = dom_query.parse("<p>a")
        node = document.select_one("p")
        with document as same:
            self.assertIs(same, document)
        document.close()
        self.assertTrue(document.closed)
        for use in (
            lambda: node.text,
            lambda: node.html,
            lambda: node.name,
            lambda: node.kind,
            lambda: node.parent,
            lambda: node.children,
            lambda: node["id"],
            lambda: node.attrs["id"],
            lambda: dict(node.attrs),
            lambda: node.classes,
            lambda: node.select("p"),
            lambda: node.select_texts("p"),
            lambda: node.matches("p"),
            lambda: node.remove(),
            lambda: node.append("x"),
            lambda: node.set_text("x"),
            lambda: node.template_contents,
            lambda: node.next,
            lambda: node.get("id"),
            lambda: node.select_attrs("p", "id"),
            lambda: node.__setitem__("id", "x"),
            lambda: setattr(node, "inner_html", "x"),
            lambda: list(node.iter_descendants()),
            lambda: document.root,
            lambda: document.node(1),
            lambda: document.html,
            lambda: document.encoding,
            lambda: document.encoding_source,
            lambda: document.replaced,
            lambda: dom_query.clean(document),
            lambda: document.select_one("p"),
            lambda: document.new_element("p"),
            lambda: document.sanitize([]),
        ):
            with self.assertRaises(ClosedError):
                use()
        self.assertEqual(repr(document), "<Document, closed>")
        self.assertIn("closed", repr(node))
        self.assertEqual(node, node)

    def test_a_node_keeps_its_document(self):
        node = dom_query.parse("<p>a").select_one("p")
        self.assertEqual(node.text, "a")

    def test_nodes_of_other_documents(self):
        one, two = dom_query.parse("<p>a"), dom_query.parse("<p>b")
        with self.assertRaises(NodeError):
            one.select_one("p").append(two.select_one("p"))

    def test_numbers_past_the_end(self):
        document = dom_query.parse("<p>a")
        with self.assertRaises(NodeError):
            document.node(10_000)
        for number in (-1, 2**32):
            with self.assertRaises(IndexError):
                document.node(number)
        with self.assertRaises(NodeError):
            dom_query.Node(document, 10_000).text

    def test_arguments(self):
        document = dom_query.parse("<p>a")
        node = document.select_one("p")
        with self.assertRaises(TypeError):
            node.select(b"p")
        with self.assertRaises(TypeError):
            node["id"] = 1
        handle, text, nodes = document._handle, library.String(), library.Nodes()
        self.assertEqual(library.lib.dq_step(handle, 0, 99), library.ARGUMENT)
        self.assertEqual(library.lib.dq_list(handle, 0, 99, nodes), library.ARGUMENT)
        self.assertEqual(library.lib.dq_put_html(handle, 1, 99, b"", 0, None), library.ARGUMENT)
        self.assertEqual(library.lib.dq_move(handle, 1, 0, 1), library.ARGUMENT)
        self.assertEqual(library.lib.dq_set_text(handle, 1, b"\xff", 1), library.NOT_UTF8)
        self.assertEqual(library.lib.dq_select_first(handle, 0, b"\xff", 1), library.NOT_UTF8)
        self.assertEqual(library.lib.dq_text(handle, node.number, text), 1)
        self.assertEqual(ctypes.string_at(text.bytes), b"a")
        self.assertEqual(library.lib.dq_text(None, 0, text), -8)
        self.assertEqual(library.lib.dq_text(handle, 0, None), -8)
        self.assertEqual(library.lib.dq_fault_text(1, None, 0), 0)

    def test_nul(self):
        document = dom_query.parse_strict("<p>a</p>")
        node = document.select_one("p")
        node["title"] = "a\0b"
        node.set_text("c\0d")
        self.assertEqual((node["title"], node.text), ("a\0b", "c\0d"))

    def test_copies(self):
        document = dom_query.parse("<p>a")
        for use in (copy.copy, copy.deepcopy, pickle.dumps):
            with self.assertRaises(TypeError):
                use(document)

    def test_names_of_other_libraries(self):
        node = dom_query.parse("<p>a").select_one("p")
        with self.assertRaisesRegex(AttributeError, r"write select\('p.note'\)"):
            node.find_all("p")
        with self.assertRaisesRegex(AttributeError, "write text"):
            node.document.get_text()
        with self.assertRaisesRegex(AttributeError, r"write select_one\('h1'\)"):
            node.document.h1
        with self.assertRaisesRegex(AttributeError, "Node has no 'frobnicate'$"):
            node.frobnicate
        self.assertFalse(hasattr(node, "xpath"))

    def test_every_hint(self):
        node = dom_query.parse("<p>a").select_one("p")
        self.assertEqual((names.ELSEWHERE, names.TAGS), (HINTS, set(TAGS.split())))
        for owner in (node, node.document):
            for name, hint in HINTS.items() | {(name, f"select_one({name!r})") for name in TAGS.split()}:
                if hasattr(type(owner), name):
                    continue
                with self.subTest(name=name), self.assertRaises(AttributeError) as caught:
                    getattr(owner, name)
                self.assertEqual(str(caught.exception), f"{type(owner).__name__} has no {name!r}; write {hint}")
        for hint in HINTS.values():
            for word in re.findall(r"^(\w+)(?=$|[(.,])|, or (\w+)$", hint):
                self.assertTrue(any(hasattr(it, "".join(word)) for it in (node, node.document)), hint)

    def test_threads_with_a_document_each(self):
        def work(answers):
            for _ in range(20):
                document = dom_query.parse("<p>é</p>" * 500)
                answers.append(document.select_texts("p") == ["é"] * 500)

        answers: list[bool] = []
        threads = [threading.Thread(target=work, args=(answers,)) for _ in range(4)]
        for thread in threads:
            thread.start()
        for thread in threads:
            thread.join()
        self.assertEqual(answers, [True] * 80)

    def test_threads_with_one_document(self):
        document = dom_query.parse("".join(f"<p>{'x' * 9000}{number}</p>" for number in range(4)))
        nodes = document.select("p")
        wrong: list[str] = []

        def work(number):
            for _ in range(50):
                text = nodes[number].text
                if not text.endswith(f"x{number}"):
                    wrong.append(text[-9:])

        threads = [threading.Thread(target=work, args=(number,)) for number in range(4)]
        for thread in threads:
            thread.start()
        for thread in threads:
            thread.join()
        self.assertEqual(wrong, [])

    def test_deep_in_a_small_stack(self):
        done: list[int] = []

        def work():
            document = dom_query.parse("<div>" * DEEP, max_depth=0)
            done.append(len(document.html))
            done.append(len(document.select("div div")))
            done.append(len(document.text + document.markdown + document.formatted_text))
            document.sanitize(["div"])
            document.normalize()
            done.append(len(document.html))
            document.close()

        old = threading.stack_size(256 * 1024)
        try:
            thread = threading.Thread(target=work)
            thread.start()
            thread.join()
        finally:
            threading.stack_size(old)
        self.assertEqual(done, [11 * DEEP + len("<html><head></head><body></body></html>"), DEEP - 1, 0, 11 * DEEP])

    def test_memory_is_given_back(self):
        """Nothing is left of documents, answers, refused calls, policies and hints, as malloc counts it."""
        page = dom_query.parse("<p id=a>é<b>c</b>" * 50)
        node, policy = page.select_one("p"), dom_query.Policy(tags={"b"})

        def refused(kind, call):
            try:
                call()
            except kind:
                return
            raise AssertionError(kind)

        def leave_a_reader():
            reader = PageReader()
            reader.feed(b"<p>a")

        uses = {
            "a document": lambda: dom_query.parse("<p>a<b>c").select("b"),
            "a document in bytes": lambda: dom_query.parse_bytes(b"<p>a", "koi8-r").encoding,
            "a text": lambda: node.text,
            "long texts": lambda: (page.html, page.html_bytes(), page.markdown),
            "nodes": lambda: (page.select("p"), page.root.descendants),
            "texts": lambda: (page.select_texts("p"), page.select_attrs("p", "id"), dict(node.attrs), node.classes),
            "a policy": lambda: dom_query.Policy(tags={"b"}).clean("<b>1</b><i>2</i>"),
            "cleaning": lambda: (policy.clean("<b>1" * 3000), policy.clean_page("<b>"), policy.clean(page)),
            "a refused policy": lambda: refused(PolicyError, lambda: dom_query.Policy(tags={"svg"})),
            "a refused base": lambda: refused(PolicyError, lambda: dom_query.Policy(relative="/x")),
            "a refused rule": lambda: refused(PolicyError, lambda: dom_query.Policy(tags={"b c"})),
            "a hint": lambda: refused(LookupError, lambda: dom_query.parse_bytes(b"", "euc_kr")),
            "a wrong selector": lambda: refused(SelectorError, lambda: page.select("p:nope")),
            "a wrong checked selector": lambda: refused(SelectorError, lambda: dom_query.Selector("p[")),
            "wrong markup": lambda: refused(ValueError, lambda: dom_query.parse_strict("<p>")),
            "a refused edit": lambda: refused(ValueError, lambda: node.first_child.append("x")),
            "a refused name": lambda: refused(ValueError, lambda: page.new_element("a b")),
            "a closed document": lambda: dom_query.parse("<p>").close(),
            "a reader": lambda: PageReader("koi8-r").finish(),
            "a reader that isn't finished": leave_a_reader,
            "a refused reader": lambda: refused(LookupError, lambda: PageReader("koi9")),
        }
        for name, use in uses.items():
            with self.subTest(use=name):
                for _ in range(10):
                    use()
                gc.collect()
                before = used()
                for _ in range(60):
                    use()
                gc.collect()
                # A block that is lost each time is 60 * 16 bytes at least; a page of malloc's own may come in between.
                once = used() - before
                for _ in range(600):
                    use()
                gc.collect()
                self.assertLess(used() - before - once, 600 * 16 // 4)


if __name__ == "__main__":
    unittest.main()
