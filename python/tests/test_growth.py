"""How the time of calls grows with their page. Where four times the page takes four times as long, it is linear; sixteen times is
quadratic. (tests/checks/growth.py asks `hq` the same of some hundred pages.)"""

import time
import unittest

import dom_query

MOST, TRIES, LITTLE = 9, 4, 0.01
TEA = "<p>Tea, as it is grown here, is picked by hand, leaf by leaf, in the cool of the morning."


def parsed(html):
    return dom_query.parse(html, max_depth=0)


def in_pieces(html):
    reader = dom_query.PageReader()
    data = html.encode()
    for at in range(0, len(data), 100):
        reader.feed(data[at : at + 100])
    return reader.finish()


def article(page):
    found = page.article()
    return found.html, found.markdown, found.text


def linked(n):
    authors = ",".join(['{"name":"Asha"}'] * n)
    return parsed(f'<script type="application/ld+json">{{"@type":"Article","author":[{authors}]}}</script>{TEA}')


# What is made of n, not timed, and the call that is; n takes some hundredths of a second.
ROWS = {
    "article: paragraphs": (lambda n: parsed(TEA * n), article, 6000),
    "article: nested div": (lambda n: parsed("<div>a" * n), article, 8000),
    "article: lists of links": (lambda n: parsed("<ul><li><a href=/tea>Tea</a></ul>" * n), article, 5000),
    "article: a long class": (lambda n: parsed(f'<div class="{"sidebar-tea " * n}">{TEA}'), article, 40000),
    "article: authors in JSON-LD": (linked, article, 15000),
    "parse": (lambda n: "<p>Tea <b>hot</b>" * n, parsed, 12000),
    "a page in pieces": (lambda n: "<p>Tea <b>hot</b>" * n, in_pieces, 9000),
    "select": (lambda n: parsed("<p>Tea <b>hot</b>" * n), lambda page: page.select("p > b"), 24000),
    "texts of elements": (lambda n: parsed("<p>Tea" * n), lambda page: page.select_texts("p"), 40000),
    "values of an attribute": (lambda n: parsed("<p id=a>Tea" * n), lambda page: page.select_attrs("p", "id"), 50000),
    "texts of nodes": (lambda n: parsed("<p>Tea" * n).select("p"), lambda nodes: [node.text for node in nodes], 8000),
    "all nodes": (lambda n: parsed("<p>Tea" * n), lambda page: sum(1 for _ in page.iter_descendants()), 2500),
    "attributes": (lambda n: parsed("<p " + "".join(f"a{i}=b " for i in range(n)) + ">"), lambda page: list(page.select_one("p").attrs.items()), 6000),
    "markdown": (lambda n: parsed("<p>Tea <b>hot</b>" * n), lambda page: page.markdown, 24000),
    "html": (lambda n: parsed("<p>Tea <b>hot</b>" * n), lambda page: page.html, 40000),
    "clean": (lambda n: "<p onclick=x()>Tea <b>hot</b>" * n, dom_query.clean, 5000),
    "append": (lambda n: (parsed("<ul>"), n), lambda pair: [pair[0].select_one("ul").append(pair[0].new_element("li")) for _ in range(pair[1])], 2000),
}  # fmt: skip


def seconds(make, call, n):
    given = make(n)
    begun = time.process_time()
    call(given)
    return time.process_time() - begun


class Growth(unittest.TestCase):
    def test_rows(self):
        for name, (make, call, n) in ROWS.items():
            with self.subTest(name):
                ratios = []
                for _ in range(TRIES):
                    small, large = seconds(make, call, n), seconds(make, call, 4 * n)
                    ratios.append(large / max(small, LITTLE))
                    if ratios[-1] < MOST:
                        break
                self.assertLess(ratios[-1], MOST, f"{name}: {ratios}")


if __name__ == "__main__":
    unittest.main()
