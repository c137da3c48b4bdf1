"""Looks whether every entry of every table of the crates that read pages, and of the crate that finds articles, has a row: each name
in an array or in a function that matches names of elements, each identifier, reference, attribute, option and word.
tools/source_tables.py reads the tables, and tools/table_rows.py and tools/article_rows.py make the rows. A new entry, array or
function that has no rows fails, and so does a name in the lists of source_tables.py that no source has any more. `tables.py` alone prints how many rows each table has."""
import collections
import json
import pathlib
import re
import sys

sys.path.insert(0, str(pathlib.Path(__file__).resolve().parents[1] / "tools"))
import source_tables  # noqa: E402
from rows import ROOT  # noqa: E402

ROWS = ROOT / "tests" / "rows" / "hq"


def rows_of(pattern):
    """The rows of these files."""
    for file in sorted(ROWS.glob(pattern)):
        for line in file.read_text(encoding="utf-8").splitlines():
            yield json.loads(line)


def named_faults(known):
    """The names in functions and arrays that have no row, and functions that source_tables.py doesn't know or knows no more."""
    for question, name in source_tables.named_entries():
        if name is None:
            yield f"the function {question} matches names of elements, and source_tables.py doesn't say which rows it has"
        elif not {f"{question}: {name}", f"{question}: <{name}>"} & known:
            yield f"{question}: {name} has no row"
        elif f"{question}: <{name}>" in known and f"{question}: </{name}>" not in known:
            yield f"{question}: </{name}> has no row"
    for name in sorted(set(source_tables.FUNCTIONS) - source_tables.known_functions()):
        yield f"source_tables.py: there is no function {name} that matches names of elements"
    for name in source_tables.names():
        if not {f"in body: <{name}>", f"fragment: {name}", f"special: {name}"} <= known:
            yield f"the name {name} has no rows"


def is_shown(array, text, rows, known):
    """Whether a text in an array or a function has a row."""
    if array == "FORMATS":
        return any(text in row.get("error", "") for row in rows)
    if array == "SHOWN":
        return f"OPTIONS: {text}" in known
    if array == "OPTIONS" and text not in source_tables.OTHER_OPTIONS:
        used = any(f"--{text}" in row.get("args", []) and "error" not in row for row in rows)
        return used or f"OPTIONS: {text}" in known
    return f"{array}: {text}" in known or array == "OPTIONS"


def text_faults(known, rows):
    """The texts in arrays and functions that have no row, and arrays that source_tables.py names and no source has."""
    for array, text in source_tables.text_entries():
        if not is_shown(array, text, rows, known):
            yield f"{array}: {text} has no row"
    arrays = {name for _, name, _ in source_tables.arrays()}
    listed = {*source_tables.OTHER_ARRAYS, *source_tables.NAME_ARRAYS} - {"LETTERS"}
    yield from (f"source_tables.py: there is no array {name}" for name in sorted(listed - arrays))


def article_faults(known):
    """The entries of the arrays of `dom_article` that have no row, and those that source_tables.py names and no array has."""
    entries = list(source_tables.article_entries())
    for array, text, rest in entries:
        entry = source_tables.article_entry(array, text, rest)
        if entry not in known and not source_tables.shows_in_no_article(array, text):
            yield f"{entry} has no row"
    there = {(array, text) for array, text, _ in entries} | {(array, "*") for array, _, _ in entries}
    for array, (texts, _) in source_tables.NOT_IN_ARTICLES.items():
        yield from (f"source_tables.py: {array} has no entry {text}" for text in texts if (array, text) not in there)


def page_faults():
    """The beginnings of entries in docs/STANDARD.md that no row has, and those that rows have and the page hasn't."""
    page = (ROOT / "docs" / "STANDARD.md").read_text(encoding="utf-8").partition("## The rows for each rule")[2]
    named = set(re.findall(r"`([^`]+)`", "".join(re.findall(r"^\| 13.*\| (.*) \|$", page, re.M))))
    states = {row["entry"].partition(":")[0] for row in rows_of("tables_states.jsonl")}
    others = {row["entry"].partition(":")[0] for file in PEERS for row in rows_of(f"tables_{file}.jsonl")}
    for name in sorted(others - named):
        yield f"docs/STANDARD.md doesn't name the rows {name}"
    for name in sorted(named - others - states - {"end of the page"}):
        yield f"docs/STANDARD.md names rows {name}, and there are none"


# The files whose rows are named in docs/STANDARD.md.
PEERS = ("modes", "names", "fragments", "texts", "characters", "rules")


def tables():
    """Returns how many entries have rows, and how many haven't."""
    rows = list(rows_of("*.jsonl"))
    known = {row["entry"] for row in rows if "entry" in row}
    faults = list(dict.fromkeys([*named_faults(known), *text_faults(known, rows), *article_faults(known), *page_faults()]))
    for fault in faults[:40]:
        print(f"tables: {fault}")
    articles = {source_tables.article_entry(*entry) for entry in source_tables.article_entries()}
    entries = {*source_tables.named_entries(), *source_tables.text_entries(), *articles}
    passed = len(entries) - len(faults)
    print(f"entries of tables with rows: {passed} passed, {len(faults)} failed")
    return (passed, len(faults)) if passed > 500 else (0, 1)


if __name__ == "__main__":
    failed = tables()[1]
    counts = collections.Counter(row["entry"].partition(":")[0] for row in rows_of("*.jsonl") if "entry" in row)
    for table, count in sorted(counts.items()):
        print(f"{count:6} {table}")
    sys.exit(1 if failed else 0)
