"""Measures the articles that `hq --article` prints for the pages of tests/articles: the words of each against the expected words.
A page fails if its F1 is below the least one of pages.jsonl. `articles.py` alone prints the F1 of each page."""
import collections
import json
import pathlib
import re
import subprocess
import sys
from concurrent.futures import ThreadPoolExecutor

sys.path.insert(0, str(pathlib.Path(__file__).resolve().parents[1] / "tools"))
from rows import ROOT, SECONDS, built  # noqa: E402

PAGES = ROOT / "tests" / "articles"
# A Chinese or Japanese character is a word of its own.
CJK = "\u3040-\u30ff\u3400-\u9fff\uf900-\ufaff"
WORD = re.compile(f"[{CJK}]|(?:(?![{CJK}])[^\\W_])+")


def words(text):
    """How often each word is in a text."""
    return collections.Counter(WORD.findall(text.lower()))


def f1(found, wanted):
    """The F1 of words against the expected ones, in hundredths, rounded down."""
    common = sum((found & wanted).values())
    return 0 if not common else int(200 * common / (sum(found.values()) + sum(wanted.values())))


def article(page):
    """The text of the article of a page; empty where none is found. The pages are stored in UTF-8, whatever they declare."""
    command = [built("hq"), "--article", "--any", "--text", "--charset", "utf-8", page]
    return subprocess.run(command, capture_output=True, timeout=SECONDS, text=True).stdout


def measured(row):
    """The F1 of a page."""
    wanted = (PAGES / "texts" / f"{row['page']}.txt").read_text(encoding="utf-8")
    return f1(words(article(PAGES / "pages" / f"{row['page']}.html")), words(wanted))


def articles():
    """Returns how many pages are as good as they have to be, and how many aren't."""
    rows = [json.loads(line) for line in (PAGES / "pages.jsonl").read_text(encoding="utf-8").splitlines()]
    with ThreadPoolExecutor() as pool:
        got = list(pool.map(measured, rows))
    worse = [(row, score) for row, score in zip(rows, got) if score < row["least"]]
    for row, score in worse:
        print(f"tests/articles: {row['page']}: F1 {score}, and at least {row['least']} is wanted")
    known = {row["page"] for row in rows}
    unknown = [file.name for file in (PAGES / "pages").iterdir() if file.stem not in known]
    for name in unknown:
        print(f"tests/articles: {name} isn't in pages.jsonl")
    print(f"articles: {len(rows) - len(worse)} passed, {len(worse) + len(unknown)} failed; F1 {sum(got) / len(got):.1f} of 100 on average")
    return len(rows) - len(worse), len(worse) + len(unknown)


if __name__ == "__main__":
    for line in (PAGES / "pages.jsonl").read_text(encoding="utf-8").splitlines():
        print(measured(json.loads(line)), json.loads(line)["page"])
    sys.exit(articles()[1] > 0)
