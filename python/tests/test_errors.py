"""Exceptions: each fault has its class, and each can be pickled and copied."""

import concurrent.futures
import copy
import multiprocessing
import os
import pathlib
import pickle
import subprocess
import sys
import unittest

import dom_query
from dom_query import CharsetError, ClosedError, DomError, EditError, LimitError, MarkupError, NodeError, Policy, PolicyError, SelectorError
from dom_query import _library as library


def closed():
    document = dom_query.parse("<p>")
    document.close()
    document.html


def past_the_limit():
    raise library.fault(library.TOO_MANY_NODES, library.Handle())


# What raises an exception of each class.
RAISING = {
    ClosedError: closed,
    SelectorError: lambda: dom_query.parse("<p>").select("ul > li["),
    MarkupError: lambda: dom_query.parse_strict("<p>\n é</b>"),
    EditError: lambda: dom_query.parse("<p>").root.remove() or dom_query.parse("<p>").root.before("x"),
    NodeError: lambda: dom_query.parse("<p>").node(10_000),
    LimitError: past_the_limit,
    CharsetError: lambda: dom_query.parse_bytes(b"", "koi9"),
    PolicyError: lambda: Policy(tags={"svg"}),
}


def caught(kind):
    try:
        RAISING[kind]()
    except kind as fault:
        return fault
    raise AssertionError(kind)


def raises(name):
    """Raises the exception of that class, in another process."""
    next(call for kind, call in RAISING.items() if kind.__name__ == name)()


class Errors(unittest.TestCase):
    def same(self, fault, other):
        self.assertIs(type(other), type(fault))
        self.assertEqual((str(other), other.args, other.__dict__), (str(fault), fault.args, fault.__dict__))

    def test_each_class_is_copied(self):
        for kind in RAISING:
            fault = caught(kind)
            with self.subTest(kind=kind.__name__):
                self.assertIs(type(fault), kind)
                self.assertIsInstance(fault, DomError)
                for protocol in range(pickle.HIGHEST_PROTOCOL + 1):
                    self.same(fault, pickle.loads(pickle.dumps(fault, protocol)))
                self.same(fault, copy.copy(fault))
                self.same(fault, copy.deepcopy(fault))
        self.same(DomError("a", -5), pickle.loads(pickle.dumps(DomError("a", -5))))

    def test_pools_of_processes(self):
        with concurrent.futures.ProcessPoolExecutor(2, multiprocessing.get_context("spawn")) as pool:
            for kind, future in [(kind, pool.submit(raises, kind.__name__)) for kind in RAISING]:
                with self.assertRaises(kind) as found:
                    future.result(timeout=60)
                self.same(caught(kind), found.exception)
        with multiprocessing.get_context("spawn").Pool(2) as pool:
            for kind, answer in [(kind, pool.apply_async(raises, (kind.__name__,))) for kind in RAISING]:
                with self.assertRaises(kind) as found:
                    answer.get(timeout=60)
                self.same(caught(kind), found.exception)

    def test_attributes(self):
        fault = caught(MarkupError)
        self.assertEqual((fault.code, fault.byte, fault.line, fault.column), (-32, 7, 2, 3))
        self.assertEqual(str(fault), "an end tag does not match the open element at line 2, column 3 (byte 7)")
        fault = caught(SelectorError)
        self.assertEqual((fault.code, fault.selectors, fault.position), (-20, "ul > li[", 7))
        fault = caught(CharsetError)
        self.assertEqual((fault.code, fault.charset, str(fault)), (-40, "koi9", "no encoding has that label: 'koi9'"))
        self.assertIsInstance(fault, LookupError)
        self.assertEqual(caught(LimitError).code, -7)
        self.assertEqual(str(caught(LimitError)), "too many nodes")
        self.assertEqual(caught(ClosedError).code, -2)
        self.assertEqual(caught(NodeError).code, -6)
        for kind in (SelectorError, MarkupError, EditError, NodeError, PolicyError):
            self.assertIsInstance(caught(kind), ValueError)

    def test_places_in_markup(self):
        for text, byte, line, column in (("<p>", 3, 1, 4), ("\n\n<p></b>", 5, 3, 4), ("<p>é\r\né</i></p>", 9, 2, 2), ("</p>", 0, 1, 1)):
            with self.assertRaises(MarkupError) as found:
                dom_query.parse_strict(text)
            self.assertEqual((found.exception.byte, found.exception.line, found.exception.column), (byte, line, column))
        node = dom_query.parse_strict("<p></p>").select_one("p")
        with self.assertRaises(MarkupError) as found:
            node.append_html("a\n<i>")
        self.assertEqual((found.exception.byte, found.exception.line, found.exception.column), (5, 2, 4))

    def test_places_in_selectors(self):
        document = dom_query.parse("<p>")
        for text, at in (
            ("é(", 1),
            ("ul > li[", 7),
            ("[", 0),
            ("é, é:nope", 4),
            ("€" * 60 + "(", 60),
            ("€" * 90 + "(", 85),
            ("p" * 255 + "(", 255),
            ("p" * 256 + "(", 256),
            ("p" * 300 + "(", 256),
            ("p" * 1000 + "(", 256),
        ):
            with self.assertRaises(SelectorError) as found:
                document.select(text)
            self.assertEqual((found.exception.selectors, found.exception.position), (text, at), text[:20])

    def test_no_memory(self):
        fault = library.fault(library.MEMORY, library.Handle())
        self.assertEqual((type(fault), str(fault)), (MemoryError, "out of memory"))
        fault = library.policy_fault(library.MEMORY, "")
        self.assertEqual((type(fault), str(fault)), (MemoryError, "out of memory"))
        fault = library.policy_fault(library.TOO_MANY_NODES, "")
        self.assertEqual((type(fault), fault.code), (LimitError, -7))
        fault = library.policy_fault(library.CLOSED, "")
        self.assertEqual((type(fault), fault.code), (ClosedError, -2))
        fault = library.policy_fault(library.NOT_UTF8, "")
        self.assertEqual((type(fault), fault.code), (DomError, -4))
        fault = library.fault(library.NOT_UTF8, library.Handle())
        self.assertEqual((type(fault), fault.code), (DomError, -4))

    def test_every_fault_has_a_text(self):
        codes = [*range(-8, 0), *range(-15, -9), *range(-24, -19), *range(-38, -29), *range(-43, -39), *range(-58, -49)]
        texts = [library.message(code) for code in codes]
        self.assertFalse([text for text in texts if text.startswith("fault")])
        self.assertEqual(len(set(texts)), len(codes))
        self.assertEqual(library.message(-2), "the document or the policy is closed")
        self.assertEqual(library.message(5), "fault 5")


class Importing(unittest.TestCase):
    """The package, when its library isn't there, and where another one is named."""

    def run_with(self, script, **environment):
        env = {**os.environ, "PYTHONPATH": str(pathlib.Path(dom_query.__file__).resolve().parents[1]), **environment}
        return subprocess.run([sys.executable, "-c", script], env=env, stdout=subprocess.PIPE, stderr=subprocess.STDOUT, text=True)

    def test_no_library(self):
        ran = self.run_with("import dom_query", DOM_QUERY_LIBRARY="/nonexistent/libdom_query.so")
        self.assertNotEqual(ran.returncode, 0)
        for words in ("ImportError: dom_query can't load its shared library", "./install-c", "DOM_QUERY_LIBRARY"):
            self.assertIn(words, ran.stdout)

    def test_another_library(self):
        import ctypes.util

        ran = self.run_with("import dom_query", DOM_QUERY_LIBRARY=ctypes.util.find_library("c"))
        self.assertIn("ImportError: dom_query can't load its shared library", ran.stdout)

    def test_the_named_library(self):
        script = "import dom_query, dom_query._library as l; print(l.lib._name, dom_query.parse('<p>a').text)"
        ran = self.run_with(script, DOM_QUERY_LIBRARY=library.lib._name)
        self.assertEqual(ran.stdout, f"{library.lib._name} a\n")

    def test_the_version(self):
        version = (pathlib.Path(__file__).resolve().parents[2] / "VERSION").read_text(encoding="utf-8").strip()
        self.assertEqual(version, dom_query.__version__)
        self.assertEqual(library.lib.dq_version().decode(), dom_query.__version__)
        header = (pathlib.Path(__file__).resolve().parents[2] / "include" / "dom_query.h").read_text(encoding="utf-8")
        self.assertIn(f'#define DQ_VERSION "{dom_query.__version__}"', header)
        self.assertEqual(library.VERSION, dom_query.__version__)


if __name__ == "__main__":
    unittest.main()
