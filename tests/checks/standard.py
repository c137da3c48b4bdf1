"""The tables of docs/standard, the definitions of crates/standard_tokens that are made from them, the texts of tests/standard, and the
rows that show tokens of page_tokens."""
import json
import pathlib
import re
import sys

ROOT = pathlib.Path(__file__).resolve().parents[2]
sys.path.insert(0, str(ROOT / "tests" / "standard"))
import definitions  # noqa: E402
import machine  # noqa: E402

sys.path.insert(0, str(ROOT / "tests" / "tools"))
from rows import folder_of  # noqa: E402

# The rows of the test program's part `calls` whose argument asks for tokens, which are printed a line each, after which other lines follow.
ASKING = "web-tokens "
# A comment in a tree that `hq --tree` shows.
COMMENT = re.compile(r"^\| *<!-- (.*?) -->$", re.S | re.M)
NO_TOKEN = "end: -"
KINDS = ("start", "end", "comment", "doctype")


def stale(path, text):
    """Whether the file of the crate isn't the one that is made from the tables."""
    file = definitions.CRATE / path
    return f"{file.relative_to(ROOT)} isn't what tests/standard/definitions.py makes" if not definitions.sheets.same(text, file) else None


def rows():
    """The texts of tests/standard/texts.jsonl with their tokens."""
    return [json.loads(line) for line in definitions.TEXTS.read_text(encoding="utf-8").splitlines()]


def not_taken(texts):
    """The entries of the table that none of the texts takes."""
    left = {(state, number) for state, entries in machine.STATES.items() for number in range(len(entries))}
    for row in texts:
        m = machine.Machine(row["text"], foreign=row["foreign"])
        m.run()
        left -= m.taken
    return sorted(left)


def other_tokens(row):
    """The tokens of a text by the table, if they aren't those of its row."""
    tokens = json.loads(json.dumps(machine.Machine(row["text"], foreign=row["foreign"]).run()))
    return f"{row['text']!r}: {tokens}, and not {row['tokens']}" if tokens != row["tokens"] else None


def tokens_asked():
    """The texts of which rows ask the tokens of page_tokens, with what is printed."""
    for file in sorted(folder_of("calls").glob("*.jsonl")):
        for line in file.read_text(encoding="utf-8").splitlines():
            row = json.loads(line)
            if str(row.get("args", [""])[0]).startswith(ASKING):
                yield row["args"][0].removeprefix(ASKING), row["output"]


def other_lines(text, output):
    """The tokens of a text by the table, if the row prints others before its text."""
    tokens = [f"{t[0]}: {t[1] or ''}" for t in machine.Machine(text).run() if t[0] in KINDS]
    printed = [line for line in output.splitlines() if line.partition(":")[0] in KINDS and line != NO_TOKEN]
    # (the first token is printed once more, at the end)
    first = tokens[:1]
    return f"{text!r}: {tokens}, and not {printed}" if tokens + first != printed else None


def comments_shown():
    """The pages of tests/html5lib with the comments in their trees. A page with a CDATA section is left out: outside foreign content
    such a section is a comment, and which it is the tree construction decides."""
    for file in sorted((ROOT / "tests" / "html5lib").glob("*.jsonl")):
        for line in file.read_text(encoding="utf-8").splitlines():
            row = json.loads(line)
            page = row.get("markup")
            if row.get("args") == ["--tree"] and isinstance(page, str) and "[cdata[" not in page.lower():
                yield page, sorted(COMMENT.findall(row["output"]))


def other_comments(page, comments):
    """The comments of a page by the table, if they aren't those of its tree."""
    found = sorted(t[1] for t in machine.Machine(page).run() if t[0] == "comment")
    return f"{page!r}: the comments {found}, and not {comments}" if found != comments else None


def standard():
    """Compares the definitions, the entries and the texts, and returns how many comparisons passed and failed."""
    texts = rows()
    faults = [stale(path, text) for path, text in definitions.files().items()]
    left = not_taken(texts)
    faults.append(f"no text takes these entries: {left}" if left else None)
    faults += [other_tokens(row) for row in texts]
    faults += [other_lines(text, output) for text, output in tokens_asked()]
    faults += [other_comments(page, comments) for page, comments in comments_shown()]
    found = [fault for fault in faults if fault]
    for fault in found:
        print(f"the HTML Standard: {fault}")
    print(f"the HTML Standard's tables and texts: {len(faults) - len(found)} passed, {len(found)} failed")
    return len(faults) - len(found), len(found)


if __name__ == "__main__":
    sys.exit(1 if standard()[1] else 0)
