"""How the work of the Python package grows with its input: every pattern of growth.py, asked of the package, and patterns of the package's
own calls. The cost is the processor time of the calls, without the start of Python and without making the page.

    growth_python.py          prints the exponents of all patterns, and then those over STEEP
    growth_python.py WORD..   the same of the patterns whose names have one of these words

The package must find its library: beside it, where ./install-c puts it, or by DOM_QUERY_LIBRARY. GROWTH_N=n sets the smallest size.

`hq --count` is `select` here, `--text` and `--html` are `select_texts` and `select_html`, `--md` is `markdown` of each node, `--json` its
name, attributes and text, `--sanitize` is `clean`, and so would be the patterns of the call `clean`, which are left out. `--article` is `article`. The
package has no call for `--tree`: there all nodes are gone through.

`growth()` is the part of it that runs in `check`, as in growth.py: four times the input must take less than MOST times as long."""
import functools
import gc
import math
import os
import pathlib
import subprocess
import sys
import time

sys.path.insert(0, str(pathlib.Path(__file__).resolve().parent))
from growth import CALL, MOST, PATTERNS, SMALL, STEEP, TRIES, is_known  # noqa: E402

PACKAGE = pathlib.Path(__file__).resolve().parents[2] / "python"
# Seconds of processor time below which a time says nothing. (No process is started for a pattern.)
LITTLE = 0.01
# The patterns of the package that grow too fast for the check; docs/PERFORMANCE.md says why.
KNOWN = {
    "edits: texts appended to a script",
    "attributes: all of one element, as a dict",
    "attributes: each of one element, by its name",
    "attributes: set on one element",
}


def gone_through(document, *_):
    """What each node is."""
    return [(node.kind, node.name, len(node.attrs)) for node in document.iter_descendants()]


def without(document, dropped, _, kept):
    for node in document.select(dropped):
        node.remove()
    return document.select_html(kept)


# What the package is asked for the first word that `hq` is given, with the words behind it.
CALLS = {
    "--count": lambda document, selectors: document.select(selectors),
    "--text": lambda document, selectors: document.select_texts(selectors),
    "--html": lambda document, selectors, *_: document.select_html(selectors),
    "--md": lambda document, selectors: [node.markdown for node in document.select(selectors)],
    "--md=crate": lambda document, selectors: [node.md for node in document.select(selectors)],
    "--json": lambda document, selectors: [(node.name, dict(node.attrs), node.text) for node in document.select(selectors)],
    "--remove": without,
    "--tree": gone_through,
    "--article": lambda document, *_: document.article(),
}


def asked(made, words, n):
    """A call that asks the package what `hq` is asked."""
    import dom_query

    page, (word, *others) = made(n), words
    if word == "--sanitize":
        return lambda: dom_query.clean(page.decode())
    return lambda: CALLS[word](dom_query.parse(page), *others)


def edited(part, each):
    """A pattern: something is done with each of n items of a list."""

    def of(n):
        import dom_query

        def call():
            document = dom_query.parse("<ul>" + part * n)
            above = document.select_one("ul")
            for node in document.select("li"):
                each(document, above, node)
            return document.html

        return call

    return of


def repeated(each, name="ul"):
    """A pattern: n times something is done with an element of that name."""

    def of(n):
        import dom_query

        def call():
            document = dom_query.parse(f"<{name}></{name}>")
            element = document.select_one(name)
            for number in range(n):
                each(document, element, number)
            return document.html

        return call

    return of


def fed(piece):
    """A pattern: a page that comes in n pieces."""

    def of(n):
        import dom_query

        def call():
            reader = dom_query.PageReader()
            for _ in range(n):
                reader.feed(piece)
            return reader.finish().html

        return call

    return of


def of_page(made, ask):
    """A pattern: something is asked of a document that is there."""

    def of(n):
        import dom_query

        document = dom_query.parse(made(n))
        return lambda: ask(document)

    return of


def items(n):
    return "<ul>" + "<li>é<b>b</b>" * n


def attributes(n):
    return "<p " + " ".join(f"a{i}=b" for i in range(n)) + ">"


# The package's own calls.
OWN = {
    "edits: items appended": repeated(lambda document, element, i: element.append(document.new_element("li", {"id": str(i)}))),
    "edits: items put in front": repeated(lambda document, element, i: element.prepend(document.new_element("li"))),
    "edits: items put before": repeated(lambda document, element, i: element.before(document.new_element("li"))),
    "edits: items put after": repeated(lambda document, element, i: element.after(document.new_element("li"))),
    "edits: texts appended": repeated(lambda document, element, i: element.append("a")),
    "edits: texts appended to a script": repeated(lambda document, element, i: element.append("a"), "script"),
    "edits: markup appended": repeated(lambda document, element, i: element.append_html("<li>a</li>")),
    "edits: markup put in front": repeated(lambda document, element, i: element.prepend_html("<li>a</li>")),
    "edits: markup put in the place of the children": repeated(lambda document, element, i: setattr(element, "inner_html", "<li>a</li>")),
    "edits: one text, set again": repeated(lambda document, element, i: element.set_text("a")),
    "edits: one attribute, set again": repeated(lambda document, element, i: element.__setitem__("id", str(i))),
    "edits: each replaced by a text": edited("<li>a", lambda document, above, node: node.replace_with("b")),
    "edits: each replaced by markup": edited("<li>a", lambda document, above, node: node.replace_with_html("<p>b</p>")),
    "edits: each wrapped": edited("<li>a", lambda document, above, node: node.wrap(document.new_element("div"))),
    "edits: each unwrapped": edited("<li>a", lambda document, above, node: node.unwrap()),
    "edits: each removed": edited("<li>a", lambda document, above, node: node.remove()),
    "edits: each moved to the end": edited("<li>a", lambda document, above, node: above.append(node)),
    "edits: each moved to the front": edited("<li>a", lambda document, above, node: above.prepend(node)),
    "edits: each renamed": edited("<li>a", lambda document, above, node: setattr(node, "name", "p")),
    "edits: the text of each": edited("<li>a", lambda document, above, node: node.set_text("b")),
    "edits: the text of each script": edited("<li><script>a</script>", lambda document, above, node: node.first_child.set_text("b")),
    "edits: an attribute of each": edited("<li id=a>a", lambda document, above, node: node.__setitem__("id", "b")),
    "edits: an attribute of each, taken away": edited("<li id=a>a", lambda document, above, node: node.__delitem__("id")),
    "edits: children taken out": of_page(items, lambda document: document.select_one("ul").clear()),
    "edits: normalised": of_page(items, lambda document: document.normalize()),
    "edits: sanitised": of_page(items, lambda document: document.sanitize(["p"])),
    "nodes: gone through": of_page(items, gone_through),
    "nodes: siblings": of_page(items, lambda document: sum(1 for _ in document.select_one("li").next_siblings)),
    "nodes: siblings, backwards": of_page(items, lambda document: sum(1 for _ in document.select("li")[-1].previous_siblings)),
    "nodes: children": of_page(items, lambda document: [node.name for node in document.select_one("ul")]),
    "nodes: texts": of_page(items, lambda document: document.root.strings),
    "nodes: shown": of_page(items, lambda document: [repr(node) for node in document.select("li")]),
    "nodes: in the document": of_page(items, lambda document: all(node in document for node in document.select("li"))),
    "nodes: nearest ancestors": of_page(items, lambda document: [node.closest("ul").number for node in document.select("b")]),
    "nodes: equal, in a set": of_page(items, lambda document: len(set(document.select("*") + document.root.descendants))),
    "selectors: the first, again": repeated(lambda document, element, i: document.select_one("ul")),
    "selectors: matches": of_page(items, lambda document: [node.matches("ul > li") for node in document.select("li")]),
    "selectors: texts that aren't ASCII": of_page(items, lambda document: document.select_texts("li")),
    "selectors: attributes that aren't there": of_page(items, lambda document: document.select_attrs("li", "id")),
    "selectors: a limit": of_page(items, lambda document: document.select("li", limit=10)),
    "attributes: all of one element": of_page(attributes, lambda document: list(document.select_one("p").attrs.items())),
    "attributes: all of one element, as a dict": of_page(attributes, lambda document: dict(document.select_one("p").attrs)),
    "attributes: each of one element, by its name": of_page(
        attributes, lambda document: [document.select_one("p")[f"a{i}"] for i in range(len(document.select_one("p").attrs))]
    ),
    "attributes: set on one element": repeated(lambda document, element, i: element.__setitem__(f"a{i}", "b")),
    "classes: of one element": of_page(lambda n: f"<p class='{' a' * n}'>", lambda document: document.select_one("p").classes),
    "pieces: of one byte": fed(b"a"),
    "pieces: tags": fed(b"<p>a</p>"),
    "pieces: half a tag": fed(b"<p a=b c=d"),
    "cleaning: a document": of_page(items, lambda document: __import__("dom_query").clean(document)),
}
ALL = {**{name: functools.partial(asked, *pattern) for name, pattern in PATTERNS.items() if pattern[1] != CALL}, **OWN}


def seconds(call):
    """The processor time of the call; what it answers is dropped afterwards."""
    gc.collect()
    begun = time.process_time()
    answer = call()
    took = time.process_time() - begun
    del answer
    return took


def ratio(name):
    """How many times as long four times the input takes, where that says something; the least of some tries, if the first is too much."""
    found = []
    while len(found) < TRIES:
        small, large = (seconds(ALL[name](SMALL * times)) for times in (1, 4))
        found.append(large / max(small, LITTLE / 4) if large > LITTLE else 0)
        if found[-1] <= MOST:
            break
    return min(found)


def tried():
    """The patterns that the check measures."""
    return [name for name in ALL if not is_known(name) and name not in KNOWN]


def count():
    """Measures the patterns, and prints which grow too fast, which grows fastest, and how many passed and failed."""
    ratios = {name: ratio(name) for name in tried()}
    steep = [name for name, found in ratios.items() if found > MOST]
    for name in [*steep, max(ratios, key=ratios.__getitem__)]:
        print(f"growth through Python: {name}: four times the input costs {ratios[name]:.1f} times as much")
    print(f"growth through Python: {len(ratios) - len(steep)} patterns passed, {len(steep)} failed")
    return 1 if steep else 0


def growth():
    """Passed and failed, in a process of its own, with the library that the package finds."""
    env = {**os.environ, "PYTHONPATH": str(PACKAGE)}
    ran = subprocess.run([sys.executable, __file__, "--check"], env=env, stdout=subprocess.PIPE, stderr=subprocess.STDOUT, text=True)
    print(ran.stdout, end="", flush=True)
    *_, last = ran.stdout.splitlines() or [""]
    words = last.split()
    if last.startswith("growth through Python: ") and words[-1] == "failed" and ran.returncode in (0, 1):
        return int(words[3]), int(words[-2])
    return 0, 1


def main(words):
    sys.path.insert(0, str(PACKAGE))
    if words == ["--check"]:
        return count()
    n = int(os.environ.get("GROWTH_N", SMALL))
    print(f"seconds at {n}, {2 * n} and {4 * n} repetitions", flush=True)
    chosen = [name for name in ALL if not words or any(word in name for word in words)]
    over = []
    for name in chosen:
        costs = [min(seconds(ALL[name](n * times)) for _ in range(TRIES)) for times in (1, 2, 4)]
        found = math.log(max(costs[2], 1e-9) / max(costs[0], 1e-9), 4)
        print(f"{found:6.2f} {' '.join(f'{it:8.4f}' for it in costs)}  {name}", flush=True)
        if found > STEEP and costs[2] > LITTLE:
            over.append((found, name))
    print(f"{len(chosen)} patterns, {len(over)} with an exponent over {STEEP} where the largest takes more than {LITTLE} s:")
    for found, name in sorted(over, reverse=True):
        print(f"{found:6.2f} {name}")
    return 0


if __name__ == "__main__":
    sys.exit(main(sys.argv[1:]))
