"""Each answer is its own call's: while signals come, while a trace function and finalizers use the package, and in threads.

DOM_QUERY_OPERATIONS says how many random calls are made (4,000 if it isn't set)."""

import gc
import os
import random
import signal
import sys
import threading
import unittest
import weakref

import dom_query
from dom_query import Policy, Selector, SelectorError

OPERATIONS = int(os.environ.get("DOM_QUERY_OPERATIONS", "4000"))
LINKS = Selector("a[href]")


class Page:
    """A document whose answers are known, and differ from those of every other one."""

    def __init__(self, number):
        self.word = f"é{number}" + "x" * (number % 7) * 3000
        word = self.word
        self.inner = f'<p class="c{word} d" title="{word}">{word}<b>{word}b</b></p><a href="/{word}">{word}a</a><a>n</a>'
        self.document = dom_query.parse(f"<title>{word}t</title><body>{self.inner}")
        self.first = self.document.select_one("p")
        self.policy = Policy(tags={"b"}, classes=None, id_prefix=f"u{number}-", attributes={"b": {"id"}})
        self.number = number

    def asked(self, way):
        """An answer, and what it should be."""
        word, first, document = self.word, self.first, self.document
        if way == 0:
            return first.text, f"{word}{word}b"
        if way == 1:
            return first.html, f'<p class="c{word} d" title="{word}">{word}<b>{word}b</b></p>'
        if way == 2:
            return first["title"], word
        if way == 3:
            return first.classes, [f"c{word}", "d"]
        if way == 4:
            return document.select_texts("p, a"), [f"{word}{word}b", f"{word}a", "n"]
        if way == 5:
            return document.select_attrs("a", "href"), [f"/{word}", None]
        if way == 6:
            return [node.text for node in LINKS.select(document)], [f"{word}a"]
        if way == 7:
            return dict(first.attrs), {"class": f"c{word} d", "title": word}
        if way == 8:
            return self.policy.clean(f"<b id=1>{word}</b><i>"), f'<b id="u{self.number}-1">{word}</b>'
        if way == 9:
            return self.policy.clean(document), f"{word}<b>{word}b</b>{word}an"
        if way == 10:
            return dom_query.parse(self.inner).select_one("body").inner_html, self.inner
        if way == 11:
            return [node.kind for node in first.children], ["text", "element"]
        if way == 12:
            return document.select_html("b"), [f"<b>{word}b</b>"]
        if way == 13:
            return first.inner_html, f"{word}<b>{word}b</b>"
        if way == 14:
            return first.select_one("b").markdown, f"**{word}b**"
        return first.next_element.name, "a"

    WAYS = 16

    def failed(self, way):
        got, wanted = self.asked(way)
        return None if got == wanted else f"{way}: {str(got)[:40]} and not {str(wanted)[:40]}"


class Answers(unittest.TestCase):
    def setUp(self):
        self.pages = [Page(number) for number in range(14)]
        self.wrong = []
        self.others = random.Random(2)
        self.uses = self.depth = 0
        dom_query.clean("")

    def use(self, *_):
        """Uses the package in the middle of something else. A handler may come in the middle of another one, but not without end."""
        if self.depth > 2:
            return
        self.depth += 1
        try:
            self.use_once()
        finally:
            self.depth -= 1

    def use_once(self):
        self.uses += 1
        page, way = self.others.choice(self.pages), self.others.randrange(Page.WAYS)
        wrong = page.failed(way)
        if wrong:
            self.wrong.append(f"inside {wrong}")

    def work(self, seed, times, pages=None):
        """Random calls, each of which is compared."""
        chosen = random.Random(seed)
        for _ in range(times):
            page, way = chosen.choice(pages or self.pages), chosen.randrange(Page.WAYS)
            wrong = page.failed(way)
            if wrong:
                self.wrong.append(wrong)

    def with_signals(self, work):
        """Does the work while a signal comes every millisecond, whose handler uses the package."""
        before = signal.signal(signal.SIGALRM, self.use)
        signal.setitimer(signal.ITIMER_REAL, 0.001, 0.001)
        try:
            work()
        finally:
            signal.setitimer(signal.ITIMER_REAL, 0)
            signal.signal(signal.SIGALRM, before)

    def test_signals(self):
        self.with_signals(lambda: self.work(1, OPERATIONS))
        self.assertEqual(self.wrong, [])
        self.assertGreater(self.uses, 5)

    def test_an_answer_is_not_another_one_s(self):
        """The two cases in which a buffer of each thread was overwritten."""
        one, two = dom_query.parse("<p>A").select_one("p"), dom_query.parse("<p>B").select_one("p")
        found, cleaned = set(), set()

        def handler():
            self.uses += two.text == "B"
            dom_query.clean("<i>B</i>")

        def work():
            for _ in range(OPERATIONS):
                found.add(one.text)
                cleaned.add(dom_query.clean("<b>A</b>"))

        self.use_once = handler
        self.with_signals(work)
        self.assertEqual((found, cleaned), ({"A"}, {"<b>A</b>"}))

    def test_a_trace_function(self):
        inside = threading.local()

        def trace(frame, event, argument):
            if "dom_query" not in frame.f_code.co_filename or getattr(inside, "is_", False):
                return None
            inside.is_ = True
            try:
                if self.others.random() < 0.05:
                    self.use()
            finally:
                inside.is_ = False
            return trace

        before = sys.gettrace()
        threading.settrace(trace)
        sys.settrace(trace)
        try:
            threads = [threading.Thread(target=self.work, args=(seed, OPERATIONS // 40)) for seed in range(6)]
            for thread in threads:
                thread.start()
            self.work(7, OPERATIONS // 40)
            for thread in threads:
                thread.join()
        finally:
            sys.settrace(before)
            threading.settrace(None)
        self.assertEqual(self.wrong, [])
        self.assertGreater(self.uses, 50)

    def test_finalizers(self):
        class Cycle:
            def __init__(self, use):
                self.itself, self.use = self, use

            def __del__(self):
                self.use()

        old = gc.get_threshold()
        gc.set_threshold(20, 2, 2)
        try:
            for seed in range(OPERATIONS // 10):
                Cycle(self.use)
                self.work(seed, 3)
        finally:
            gc.set_threshold(*old)
        gc.collect()
        self.assertEqual(self.wrong, [])
        self.assertGreater(self.uses, OPERATIONS // 20)

    def test_threads_and_signals(self):
        def work():
            threads = [threading.Thread(target=self.work, args=(seed, OPERATIONS // 4)) for seed in range(6)]
            for thread in threads:
                thread.start()
            self.work(9, OPERATIONS // 4)
            for thread in threads:
                thread.join()

        self.with_signals(work)
        self.assertEqual(self.wrong, [])
        self.assertGreater(self.uses, 3)

    def test_edits_by_threads(self):
        """Threads that edit one document: none of the edits is lost."""
        document = dom_query.parse("<ul></ul>")
        target = document.select_one("ul")

        def work(number):
            for turn in range(100):
                item = document.new_element("li", {"id": f"{number}-{turn}"})
                item.append(f"{number}")
                target.append(item)

        threads = [threading.Thread(target=work, args=(number,)) for number in range(6)]
        for thread in threads:
            thread.start()
        for thread in threads:
            thread.join()
        self.assertEqual(sorted(document.select_attrs("li", "id")), sorted(f"{n}-{t}" for n in range(6) for t in range(100)))
        self.assertEqual(sorted(document.select_texts("li")), sorted(str(n) for n in range(6) for t in range(100)))

    def test_an_interrupt_leaves_no_answer_behind(self):
        """An exception that comes between a call and its answer takes nothing from the next call."""

        class Interrupt(Exception):
            pass

        def handler(*_):
            raise Interrupt

        page = self.pages[3]
        before, caught = signal.signal(signal.SIGALRM, handler), 0
        try:
            for _ in range(OPERATIONS // 20):
                try:
                    try:
                        signal.setitimer(signal.ITIMER_REAL, 0.0002)
                        for way in range(Page.WAYS):
                            page.asked(way)
                    finally:
                        # (on a busy machine it may come as late as here)
                        signal.setitimer(signal.ITIMER_REAL, 0)
                except Interrupt:
                    caught += 1
                for way in (0, 2, 4, 8, 11):
                    wrong = page.failed(way)
                    if wrong:
                        self.wrong.append(wrong)
        finally:
            signal.setitimer(signal.ITIMER_REAL, 0)
            signal.signal(signal.SIGALRM, before)
        self.assertEqual(self.wrong, [])
        self.assertGreater(caught, 5)

    def test_an_answer_that_fails_is_none(self):
        document = self.pages[1].document
        for _ in range(100):
            with self.assertRaises(SelectorError):
                document.select("p[")
            self.assertIsNone(self.pages[1].failed(4))
            self.assertIsNone(document.root.first_child.get("none"))

    def test_threads_read_side_by_side(self):
        """While a thread reads a page, others run: the interpreter's lock is let go."""
        page = "<p>" + "<b>x</b>" * 600_000
        turns, done = [], threading.Event()

        def count():
            while not done.is_set():
                turns.append(1)
                done.wait(0.0005)

        thread = threading.Thread(target=count)
        for call in (lambda: dom_query.parse(page), lambda: dom_query.clean(page), document_of(page)):
            turns.clear()
            done.clear()
            thread = threading.Thread(target=count)
            thread.start()
            call()
            done.set()
            thread.join()
            self.assertGreater(len(turns), 3)

    def test_weak_references(self):
        node = self.pages[0].document.select_one("p")
        kept = weakref.ref(node)
        self.assertIs(kept(), node)
        del node
        gc.collect()
        self.assertIsNone(kept())


def document_of(page):
    """A call that works long on a document that is there already."""
    document = dom_query.parse(page)
    return lambda: document.html


if __name__ == "__main__":
    unittest.main()
