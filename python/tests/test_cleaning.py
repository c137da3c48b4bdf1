"""Policies, and what they leave; and the rows of the test program's part `clean`, asked again through Python."""

import copy
import json
import pathlib
import pickle
import re
import sys
import threading
import unittest

import dom_query
from dom_query import ClosedError, Policy, PolicyError
from dom_query import _library as library

ROOT = pathlib.Path(__file__).resolve().parents[2]
sys.path.insert(0, str(ROOT / "tests" / "tools"))
from rows import given  # noqa: E402

COMMENT = "<p onclick=x()>Tea <a href=javascript:x()>free</a> <a href='/t?a=1&b=2'>here</a><script>x()</script><!-- c -->"


class Cleaning(unittest.TestCase):
    def test_clean(self):
        here = '<a href="/t?a=1&amp;b=2" rel="noopener noreferrer">here</a>'
        self.assertEqual(dom_query.clean(COMMENT), f'<p>Tea <a rel="noopener noreferrer">free</a> {here}</p>')
        self.assertEqual(dom_query.clean(""), "")
        self.assertEqual(dom_query.clean("a\0b\ud800"), "ab\ufffd")
        self.assertEqual(dom_query.clean("<b>é" * 50_000, Policy(tags=())), "é" * 50_000)
        again = dom_query.clean(COMMENT)
        self.assertEqual(dom_query.clean(again), again)
        self.assertEqual(Policy().clean(COMMENT), again)

    def test_clean_page(self):
        page = '<!DOCTYPE html><html><head><meta charset="utf-8"></head><body><p>a</p></body></html>'
        self.assertEqual(dom_query.clean_page("<title>t</title><p onclick=x()>a"), page)
        self.assertEqual(Policy().clean_page("<p>a"), page)
        self.assertEqual(dom_query.clean_page("<p>a", Policy.empty()), page.replace("<p>", "").replace("</p>", ""))

    def test_a_document(self):
        document = dom_query.parse("<title>t</title><p onclick=x()>a<script>x()</script>")
        self.assertEqual(dom_query.clean(document), "<p>a</p>")
        self.assertEqual(Policy(tags={"b"}).clean(document), "a")
        self.assertEqual(document.select_one("p")["onclick"], "x()")
        document.close()
        with self.assertRaises(ClosedError):
            dom_query.clean(document)

    def test_rules(self):
        cases = (
            ({"tags": {"b"}}, "<b>1</b><i>2</i>", "<b>1</b>2"),
            ({"clean_content_tags": {"b"}}, "<b>1</b><i>2</i>", "<i>2</i>"),
            ({"attributes": {"*": {"id"}, "b": {"dir"}}}, "<b id=1 dir=rtl lang=de>1</b><i dir=rtl>2</i>", '<b id="1" dir="rtl">1</b><i>2</i>'),
            ({"tag_attribute_values": {"b": {"dir": {"rtl", "ltr"}}}}, "<b dir=rtl>1</b><b dir=x>2</b>", '<b dir="rtl">1</b><b>2</b>'),
            ({"url_schemes": {"https"}}, "<img src=https://a/><img src=http://a/>", '<img src="https://a/"><img>'),
            ({"relative": "keep"}, "<img src=/a>", '<img src="/a">'),
            ({"relative": "drop"}, "<img src=/a>", "<img>"),
            ({"relative": "https://t.example/b/"}, "<img src=a>", '<img src="https://t.example/b/a">'),
            ({"link_rel": "nofollow"}, "<a>1</a>", '<a rel="nofollow">1</a>'),
            ({"link_rel": None}, "<a rel=x>1</a>", "<a>1</a>"),
            ({"id_prefix": "u-", "attributes": {"*": {"id"}}}, "<b id=x>1</b>", '<b id="u-x">1</b>'),
            ({"classes": {"x", "y"}}, "<b class='x z y'>1</b>", '<b class="x y">1</b>'),
            ({"classes": {"x"}, "attributes": {"i": {"class"}}}, "<b class=x>1</b><i class='x y'>2</i>", '<b>1</b><i class="x">2</i>'),
            ({"data_attributes": True}, "<b data-a=1>1</b>", '<b data-a="1">1</b>'),
            ({"max_depth": 1}, "<b><i>1</i></b>", "<b>1</b>"),
            ({"max_depth": 0}, "<b><i>1</i></b>", "1"),
        )
        for rules, source, wanted in cases:
            with self.subTest(rules=rules):
                self.assertEqual(dom_query.clean(source, Policy(**rules)), wanted)
                self.assertEqual(dom_query.clean(source, Policy().changed(**rules)), wanted)

    def test_less_than_common(self):
        common = Policy()
        less = common.changed(
            tags=common.tags - {"img"},
            url_schemes=common.url_schemes - {"ftp"},
            attributes={**common.attributes, "a": common.attributes["a"] - {"hreflang"}},
        )
        source = "<img src=/x><a href=ftp://h/ hreflang=h>1</a><a href=/y title=t>2</a>"
        self.assertEqual(less.clean(source), '<a rel="noopener noreferrer">1</a><a href="/y" title="t" rel="noopener noreferrer">2</a>')

    def test_copies(self):
        policy = Policy(tags={"b"}, attributes={"b": ["id"]}, classes=["x"])
        self.assertEqual(policy.tags, frozenset({"b"}))
        self.assertEqual(policy.attributes, {"b": frozenset({"id"})})
        self.assertEqual(policy.classes, frozenset({"x"}))
        more = policy.changed(tags=policy.tags | {"i"})
        self.assertEqual((more.tags, policy.tags), (frozenset({"b", "i"}), frozenset({"b"})))
        self.assertEqual(more.attributes, policy.attributes)
        policy.attributes["i"] = frozenset({"id"})
        self.assertEqual(policy.attributes, {"b": frozenset({"id"})})
        for same in (copy.copy(policy), copy.deepcopy(policy), pickle.loads(pickle.dumps(policy)), policy.changed()):
            self.assertEqual((same, hash(same)), (policy, hash(policy)))
            self.assertEqual(same.clean("<b id=1>1</b><i>2</i>"), '<b id="1">1</b>2')
        self.assertEqual(policy.__replace__(tags={"i"}), policy.changed(tags={"i"}))  # (copy.replace of Python 3.13)
        self.assertNotEqual(policy, more)
        self.assertEqual(repr(Policy()), "Policy()")
        self.assertEqual(repr(Policy(max_depth=3, link_rel=None)), "Policy(link_rel=None, max_depth=3)")
        self.assertEqual(eval(repr(policy)), policy)
        empty = Policy.empty()
        self.assertEqual((empty.tags, empty.clean_content_tags, empty.attributes), (frozenset(), frozenset(), {}))
        self.assertEqual((empty.tag_attribute_values, empty.url_schemes, empty.relative), ({}, frozenset(), "drop"))
        self.assertEqual((empty.link_rel, empty.id_prefix, empty.data_attributes, empty.max_depth), (None, "", False, 128))
        with self.assertRaises(AttributeError):
            policy.tags = {"i"}

    def test_refused(self):
        cases = (
            ({"tags": {"b", "svg"}}, -50, "tags", "svg", "element `svg` can't be kept safely"),
            ({"tags": {"table", "tr", "td"}}, -51, "tags", "tbody", "`table` is allowed without `tbody`"),
            ({"attributes": {"b": {"onclick"}}}, -52, "attributes", "onclick", "attribute `onclick` can't be kept safely"),
            ({"attributes": {"*": {"a`b"}}}, -52, "attributes", "a`b", "attribute `a`b` can't be kept safely"),
            ({"tag_attribute_values": {"b": {"style": {""}}}}, -52, "attributes", "style", "attribute `style` can't be kept safely"),
            ({"url_schemes": {"javascript"}}, -53, "url_schemes", "javascript", "scheme `javascript` can't be kept safely"),
            ({"relative": "gopher://a/"}, -54, "relative", None, "the scheme of the base isn't allowed"),
            ({"relative": "/shop/"}, -41, "relative", None, "the base is not an absolute URL"),
            ({"link_rel": '"'}, -55, "link_rel", None, "the `rel` of links can't be written"),
            ({"attributes": {"a": {"rel"}}}, -55, "link_rel", None, "links get a `rel`, but attribute `rel` is allowed, too"),
            ({"classes": {"a b"}}, -56, "classes", "a b", "class `a b` can't be written"),
            ({"id_prefix": " "}, -57, "id_prefix", None, "the prefix of ids can't be written"),
            ({"max_depth": 257}, -58, "max_depth", None, "the depth is above 256"),
            ({"max_depth": 2**70}, -58, "max_depth", None, "the depth is above 256"),
        )
        for rules, code, rule, name, text in cases:
            with self.subTest(rules=rules), self.assertRaises(PolicyError) as caught:
                Policy(**rules)
            fault = caught.exception
            self.assertEqual((fault.code, fault.rule, fault.name, str(fault)), (code, rule, name, text))
            self.assertIsInstance(fault, ValueError)

    def test_arguments(self):
        for rules in (
            {"tags": "b"},
            {"tags": {1}},
            {"tags": {"b": {"id"}}},
            {"attributes": ["id"]},
            {"attributes": {"b": "id"}},
            {"tag_attribute_values": {"b": {"id"}}},
            {"classes": "x"},
            {"protocols": {"http"}},
        ):
            with self.subTest(rules=rules), self.assertRaises(TypeError):
                Policy(**rules)
        for rules in ({"classes": ()}, {"max_depth": -1}):
            with self.subTest(rules=rules), self.assertRaises(ValueError):
                Policy(**rules)
        for html in (b"<b>", None, 1):
            with self.assertRaises(TypeError):
                dom_query.clean(html)
            with self.assertRaises(TypeError):
                dom_query.clean_page(html)
        with self.assertRaises(TypeError):
            dom_query.clean("<b>", {"b"})
        with self.assertRaises(TypeError):
            Policy({"b"})

    def test_a_closed_policy(self):
        lib, handle, text = library.lib, library.PolicyHandle(), library.String()
        for call in (
            lambda: lib.dq_policy_rule(handle, 0, b"b", 1),
            lambda: lib.dq_policy_attribute_of(handle, b"b", 1, b"id", 2),
            lambda: lib.dq_policy_value(handle, b"b", 1, b"id", 2, b"x", 1),
            lambda: lib.dq_policy_base(handle, b"http://a/", 9),
            lambda: lib.dq_policy_set(handle, 0, 1),
            lambda: lib.dq_policy_finish(handle, None),
            lambda: lib.dq_clean(handle, b"<b>", 3, text),
            lambda: lib.dq_clean_page(handle, b"<b>", 3, text),
            lambda: lib.dq_clean_document(handle, dom_query.parse("<b>")._handle, text),
        ):
            self.assertEqual(call(), library.CLOSED)
        lib.dq_policy_free(handle)
        lib.dq_policy_free(handle)
        self.assertEqual(lib.dq_policy_common(handle), 0)
        self.assertEqual(lib.dq_clean(handle, b"<b>", 3, text), library.UNFINISHED)
        self.assertEqual(lib.dq_policy_finish(handle, None), 0)
        self.assertEqual(lib.dq_clean(handle, b"\xff", 1, text), library.NOT_UTF8)
        self.assertEqual(lib.dq_policy_finish(handle, None), library.FINISHED)
        self.assertEqual(lib.dq_clean(handle, b"<b>", 3, text), library.FINISHED)
        lib.dq_policy_free(handle)

    def test_the_common_rules(self):
        """The rules of Policy() are those of the library."""
        source = (ROOT / "crates" / "dom_clean" / "src" / "common.rt").read_text(encoding="utf-8")
        listed = {name: items for name, items in re.findall(r"static (\w+): .*? = \[(.*?)\];", source, re.DOTALL)}
        names = {name: re.findall(r'"([^"]*)"', items) for name, items in listed.items()}
        policy = Policy()
        self.assertEqual(policy.tags, frozenset(names["ELEMENTS"]))
        self.assertEqual(policy.clean_content_tags, frozenset(names["DROPPED"]))
        self.assertEqual(policy.url_schemes, frozenset(names["SCHEMES"]))
        own = set(zip(names["OWN_ATTRIBUTES"][::2], names["OWN_ATTRIBUTES"][1::2], strict=True))
        own |= {("*", name) for name in names["ATTRIBUTES"]}
        self.assertEqual({(tag, name) for tag, found in policy.attributes.items() for name in found}, own)
        handle, lib = library.PolicyHandle(), library.lib
        self.assertEqual((lib.dq_policy_common(handle), lib.dq_policy_finish(handle, None)), (0, 0))
        for case in rows("common"):
            html = given(case, "markup")
            self.assertEqual(library.text_of(lib.dq_clean, handle, html, len(html)), policy.clean(html.decode()))
        lib.dq_policy_free(handle)

    def test_the_presets(self):
        """The rules of each preset are those of the library: the same lists, and the same texts for the rows of the library's own."""
        source = (ROOT / "crates" / "dom_clean" / "src" / "presets.rt").read_text(encoding="utf-8")
        listed = {name: items for name, items in re.findall(r"static (\w+): .*? = \[(.*?)\];", source, re.DOTALL)}
        names = {name: re.findall(r'"([^"]*)"', items) for name, items in listed.items()}
        presets = {"inline": Policy.inline(), "comment": Policy.comment(), "article": Policy.article(), "email": Policy.email()}
        for name, policy in presets.items():
            with self.subTest(preset=name):
                self.assertEqual(policy.tags, frozenset(names[name.upper()]))
                own = names[f"{name.upper()}_OWN"]
                found = {(tag, one) for tag, ones in policy.attributes.items() if tag != "*" for one in ones}
                self.assertEqual(found, set(zip(own[::2], own[1::2], strict=True)))
        lib, handle = library.lib, library.PolicyHandle()
        for number, name in enumerate(("text", *presets, "common")):
            policy = presets.get(name) or {"text": Policy.empty(), "common": Policy()}[name]
            self.assertEqual((lib.dq_policy_preset(handle, number), lib.dq_policy_finish(handle, None)), (0, 0))
            for case in [*rows("common"), *rows("presets")]:
                html = given(case, "markup")
                self.assertEqual(library.text_of(lib.dq_clean, handle, html, len(html)), policy.clean(html.decode()), name)
        self.assertEqual(lib.dq_policy_preset(handle, 6), library.ARGUMENT)
        lib.dq_policy_free(handle)

    def test_threads_with_one_policy(self):
        policy = Policy(tags={"b"})
        wrong: list[str] = []

        def work(number):
            for _ in range(50):
                text = policy.clean(f"<b onclick=x()>{'é' * 9000}{number}</b><i>")
                if text != f"<b>{'é' * 9000}{number}</b>":
                    wrong.append(text[-20:])

        threads = [threading.Thread(target=work, args=(number,)) for number in range(4)]
        for thread in threads:
            thread.start()
        for thread in threads:
            thread.join()
        self.assertEqual(wrong, [])
        self.assertLessEqual(len(policy._idle), 4)

    def test_deep_in_a_small_stack(self):
        done: list[int] = []

        def work():
            done.append(len(dom_query.clean("<div>" * 200_000)))

        old = threading.stack_size(256 * 1024)
        try:
            thread = threading.Thread(target=work)
            thread.start()
            thread.join()
        finally:
            threading.stack_size(old)
        self.assertEqual(done, [256 * len("<div></div>")])


def rows(name):
    path = ROOT / "tests" / "rows" / "test_calls" / "clean" / f"{name}.jsonl"
    return [json.loads(line) for line in path.read_text(encoding="utf-8").splitlines()]


def rules_of(lines):
    """The arguments of a policy with these rules."""
    start = next((PRESETS[line]() for line in lines if line in PRESETS), Policy.empty())
    rules = {name: getattr(start, name) for name in start._rules}
    for line in lines:
        word, _, rest = line.partition(" ")
        if word in ("element", "drop", "scheme"):
            name = {"element": "tags", "drop": "clean_content_tags", "scheme": "url_schemes"}[word]
            rules[name] |= {rest}
        elif word in ("attribute", "attribute-of"):
            tag, name = ("*", rest) if word == "attribute" else rest.split(" ", 1)
            rules["attributes"][tag] = rules["attributes"].get(tag, frozenset()) | {name}
        elif word == "value":
            tag, name, value = rest.split(" ", 2)
            values = rules["tag_attribute_values"].setdefault(tag, {})
            values[name] = values.get(name, frozenset()) | {value}
        elif word == "class":
            rules["classes"] = (rules["classes"] or frozenset()) | {rest}
        elif word in WORDS:
            name, value = WORDS[word]
            rules[name] = type(value)(rest) if rest else value
        elif word in TAKEN_BACK:
            take_back(rules, word, rest)
        else:
            assert word in PRESETS, word
    return rules


PRESETS = {
    "text": Policy.empty,
    "inline": Policy.inline,
    "comment": Policy.comment,
    "article": Policy.article,
    "email": Policy.email,
    "common": Policy,
}

TAKEN_BACK = {
    "disallow-element": "tags",
    "undrop-element": "clean_content_tags",
    "disallow-scheme": "url_schemes",
    "disallow-class": "classes",
    "disallow-attribute": "attributes",
    "disallow-attribute-of": "attributes",
}


def take_back(rules, word, rest):
    """Takes a name back from the arguments of a policy."""
    name = TAKEN_BACK[word]
    if name != "attributes":
        rules[name] = None if rules[name] is None else rules[name] - {rest}
        if rules["classes"] == frozenset():
            # No class is left, so that the attribute never stays.
            rules["classes"] = None
            rules["attributes"] = {tag: names - {"class"} for tag, names in rules["attributes"].items()}
        return
    tag, attribute = ("*", rest) if word == "disallow-attribute" else rest.split(" ", 1)
    rules["attributes"][tag] = rules["attributes"].get(tag, frozenset()) - {attribute}
    rules["tag_attribute_values"].get(tag, {}).pop(attribute, None)


WORDS = {
    "data-attributes": ("data_attributes", True),
    "keep-relative": ("relative", "keep"),
    "drop-relative": ("relative", "drop"),
    "resolve-relative": ("relative", ""),
    "rel": ("link_rel", ""),
    "no-rel": ("link_rel", None),
    "id-prefix": ("id_prefix", ""),
    "depth": ("max_depth", 0),
}


def named(text):
    """The names that a text quotes."""
    return re.findall("`([^`]*)`", text)


def unnamed(text):
    """A text without the names that it quotes."""
    return re.sub("`[^`]*`", "``", text)


class Names(unittest.TestCase):
    def test_names_that_are_folded_or_refused(self):
        """Capital letters count as small ones, as in a page; a name that no page can have is refused, and the error shows it."""
        self.assertEqual(Policy(tags={"DIV"}).clean("<div>x</div>"), "<div>x</div>")
        policy = Policy(tags={"a"}, attributes={"*": {"HREF"}}, link_rel=None)
        self.assertEqual(policy.clean("<a href=/x>y</a>"), '<a href="/x">y</a>')
        refused = [({"tags": {name}}, name) for name in ("", "a b")]
        refused += [({"attributes": {"*": {name}}}, name) for name in ("", "a b", "a=b")]
        for rules, name in refused:
            with self.subTest(rules=rules):
                with self.assertRaises(PolicyError) as caught:
                    Policy(**rules)
                self.assertIn(repr(name), str(caught.exception))


# A rule whose name is empty, has capital letters or has signs that no name has.
FOLDED = re.compile(r"^(?:element|attribute) (?:.*[A-Z=].*|\S+ \S+|)$")


class Rows(unittest.TestCase):
    def test_rows(self):
        asked, made = 0, {}
        for path in sorted((ROOT / "tests" / "rows" / "test_calls" / "clean").glob("*.jsonl")):
            if path.stem in ("ways", "removals"):
                # (calls that the package doesn't have: into a writer, to a document, and what is taken out)
                continue
            for number, case in enumerate(rows(path.stem), 1):
                if any(FOLDED.search(word) for word in case["args"]):
                    # (names that the package itself folds or refuses: test_names_that_are_folded_or_refused)
                    continue
                with self.subTest(row=f"{path.name}:{number}"):
                    way, lines = ways(case["args"])
                    html, wanted = given(case, "markup").decode(), given(case, "output").decode()
                    try:
                        if lines not in made:
                            made[lines] = Policy(**rules_of(lines))
                    except PolicyError as fault:
                        # Sets have no order: of several names at fault, another may be the first.
                        self.assertEqual(unnamed(f"{fault}\n"), unnamed(wanted))
                        self.assertTrue(all(name in " ".join(lines) or name in wanted for name in named(str(fault))))
                        asked += 1
                        continue
                    policy = made[lines]
                    if way == "page":
                        self.assertEqual(dom_query.clean_page(html, policy), wanted)
                    elif way == "tree":
                        self.assertEqual(dom_query.clean(dom_query.parse(html, max_depth=0), policy), wanted)
                    else:
                        self.assertEqual(dom_query.clean(html, policy), wanted)
                        # What is left can be put into a document, and what that writes is read as the same.
                        again = dom_query.parse_strict(wanted).html
                        self.assertEqual(dom_query.parse_fragment(again).html, dom_query.parse_fragment(wanted).html)
                    asked += 1
        self.assertGreater(asked, 900)


def ways(words):
    """Whether a fragment, a page or a tree is cleaned, and the rules."""
    if words and words[0] in ("page", "tree"):
        return words[0], tuple(words[1:])
    return "fragment", tuple(words)


if __name__ == "__main__":
    unittest.main()
