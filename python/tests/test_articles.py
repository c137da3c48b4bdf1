"""Articles of pages."""

import json
import pathlib
import unittest

import dom_query
from dom_query import ClosedError

ROOT = pathlib.Path(__file__).resolve().parents[2]
NEWS = ROOT / "examples" / "news.html"
FIELDS = ("title", "byline", "published", "language", "site", "description", "image")
TEXT = "<p>" + "Tea, as it is grown here, is picked by hand, leaf by leaf, in the cool of the morning. " * 8


class Articles(unittest.TestCase):
    def test_fields(self):
        article = dom_query.parse(NEWS).article()
        self.assertEqual(
            [getattr(article, name) for name in FIELDS],
            ["How a tea garden came back", "Asha Rao", "2026-03-14", "en", "The Hill Post", None, None],
        )
        self.assertIs(article.sure, True)
        self.assertEqual(repr(article), "<Article 'How a tea garden came back'>")

    def test_as_html_markdown_and_text(self):
        article = dom_query.parse(NEWS).article()
        self.assertTrue(article.html.startswith('<div class="story">\n\n<p>For eleven years nobody'), article.html)
        self.assertTrue(article.html.endswith("</p>\n</div>"), article.html)
        self.assertTrue(article.markdown.startswith("For eleven years nobody picked a leaf"))
        self.assertIn("\n\n## The first spring\n\nThey cut every second row", article.markdown)
        self.assertEqual(str(article), article.markdown)
        self.assertIn("\n\nThe first spring\n\nThey cut", article.text)
        for part in ("Home", "Most read", "Lovely story", "Terms", "track"):
            self.assertNotIn(part, article.text)

    def test_its_document(self):
        page = dom_query.parse(NEWS)
        before = page.html
        article = page.article()
        self.assertEqual([it.text for it in article.document.select("h2")], ["The first spring"])
        article.document.select_one("h2").remove()
        self.assertNotIn("The first spring", article.markdown)
        self.assertEqual(page.html, before)
        page.close()
        self.assertIn("eleven years", article.text)
        self.assertIs(article.document.closed, False)

    def test_cleaned(self):
        page = dom_query.parse(f"<main><h1>Tea</h1>{TEXT}<a href=/more onclick=x()>More</a></main>")
        policy = dom_query.Policy.article().changed(relative="https://tea.example/")
        cleaned = policy.clean(page.article().document)
        self.assertIn('<a href="https://tea.example/more" rel="noopener noreferrer">More</a>', cleaned)
        self.assertNotIn("onclick", cleaned)

    def test_json_ld_counts_first(self):
        data = {
            "@type": ["NewsArticle"], "headline": "Tea é", "author": [{"name": "Asha"}, {"name": "Ben"}], "datePublished": "2026",
            "publisher": {"name": "Hill"}, "description": "On tea", "image": {"url": "/tea.png"},
        }  # fmt: skip
        script = f'<script type="application/ld+json">{json.dumps(data)}</script>'
        article = dom_query.parse(f"<html lang=de><title>Other</title>{script}<body>{TEXT}").article()
        self.assertEqual([getattr(article, name) for name in FIELDS], ["Tea é", "Asha, Ben", "2026", "de", "Hill", "On tea", "/tea.png"])

    def test_not_sure(self):
        article = dom_query.parse("<html><head></head>\n<body>Tea</body>").article()
        self.assertIs(article.sure, False)
        self.assertEqual([getattr(article, name) for name in FIELDS], [None] * 7)
        self.assertEqual((article.html, article.markdown, article.text), ("Tea", "Tea", "Tea"))
        self.assertEqual(repr(article), "<Article>")

    def test_nothing_is_shown(self):
        for page in ("", "<script>x()</script>", "<p hidden>Tea", "<title>Tea</title> \n"):
            self.assertIsNone(dom_query.parse(page).article(), page)

    def test_closed(self):
        page = dom_query.parse("<p>Tea")
        page.close()
        with self.assertRaises(ClosedError):
            page.article()

    def test_large_pages(self):
        page = dom_query.parse(f"<body><div>{TEXT * 200}</div>")
        self.assertEqual(len(page.article().document.select("p")), 200)

    def test_names_of_other_libraries(self):
        article = dom_query.parse(NEWS).article()
        with self.assertRaisesRegex(AttributeError, "Article has no 'get_text'; write text"):
            article.get_text()


if __name__ == "__main__":
    unittest.main()
