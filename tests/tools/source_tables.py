"""Reads the tables of the crates that read and clean pages: arrays of names and identifiers, and functions that match names.

An entry is a text such as `QUIRKY: -//SQ//DTD HTML 2.0 HoTMetaL + extensions//` or `in table: td`. Each has a row in
tests/rows/hq/tables_*.jsonl, whose field `entry` is that text (`in table: <td>` and `in table: </td>` for a start and an end tag).
table_rows.py makes the rows, and tests/checks/tables.py looks for an entry that has none."""
import re

from rows import ROOT

CRATES = ("page_tokens", "page_trees", "dom_clean", "hq_pages")
ARRAY = re.compile(r"^[ ]*(?:pub )?(?:static|const) (\w+): \[(?:[^;\]]|\[[^\]]*\])+; ?\w+\] = \[(.*?)\];", re.M | re.S)
FUNCTION = re.compile(r"^( *)(?:pub(?:\(\w+\))? )?fn (\w+)", re.M)
STRING = re.compile(r'"((?:[^"\\]|\\.)*)"')

# Which rows the entries of a function have that matches names of elements: the insertion modes that use it, or the question
# that it answers. A function that isn't here is new, and so is one that is gone.
HEAD = ["before html", "before head", "in head", "after head"]
TABLE = ["in table", "in table body", "in row"]
FUNCTIONS = {
    # chars.rt, growing/placing.rt
    "is_foster_target": ["table text"],
    "is_table": ["foster parent"],
    "is_template": ["foster parent"],
    # attributes.rt, inserting.rt, growing.rt, growing/edits.rt
    "local_name": ["in body"],
    "holds_html": ["foreign"],
    "insert_implied": ["before html"],
    "insert_html": ["before html"],
    "is_template_named": ["in body"],
    "ignores_form": ["form in table"],
    "is_in_form": ["in body"],
    "close_form": ["in body"],
    # foreign.rt
    "is_text_point": ["in math"],
    "is_html_point": ["in svg"],
    "is_glyph": ["text point"],
    "takes_svg": ["text point"],
    "ends_foreign": ["in svg"],
    "is_foreign_break": ["in svg"],
    # modes
    "imply_html": ["before html"],
    "before_html_tag": ["before html"],
    "is_early_end": ["before html"],
    "imply_head": ["before head"],
    "before_head_tag": ["before head"],
    "start_head": ["before head"],
    "add_html_attrs": ["html in template"],
    "close_template": ["in head"],
    "head_tag": ["in head"],
    "before_head_element": ["in head"],
    "after_head_element": ["in head"],
    "leave_template": ["in head"],
    "start_in_head": ["in head"],
    "start_head_noscript": ["in head"],
    "is_outer": ["in head"],
    "noscript_tag": ["in head noscript"],
    "start_in_noscript": ["in head noscript"],
    "is_in_noscript": ["in head noscript"],
    "imply_body": ["after head"],
    "after_head_tag": ["after head"],
    "start_after_head": ["after head"],
    "start_body_after_head": ["after head"],
    "after_body_tag": ["after body"],
    "start_after_after_body": ["after after body"],
    "frameset_tag": ["in frameset"],
    "after_frameset_tag": ["after frameset"],
    "start_in_frameset": ["in frameset"],
    "leave_framesets": ["in frameset"],
    "start_after_framesets": ["after after frameset"],
    "template_tag": ["in template"],
    "content_mode": ["in template"],
    "is_table_part": [*TABLE, "in caption", "in cell"],
    "is_section": ["in table body", "in row", "in cell"],
    "is_cell": ["in row", "in cell"],
    "is_dropped_end": [*TABLE, "in caption", "in cell"],
    "end_table": ["in table"],
    "start_table_part": ["in table"],
    "end_caption": ["in caption"],
    "leave_column_group": ["in column group"],
    "leave_row": ["in row"],
    "start_in_table": ["in table"],
    "end_in_table": ["in table"],
    "start_other_in_table": ["in table"],
    "is_hidden_content": ["in table"],
    "names_image": ["in table"],
    "insert_table_form": ["form in table"],
    "end_in_caption": ["in caption"],
    "start_in_group": ["in column group"],
    "end_in_group": ["in column group"],
    "has_section": ["in table body"],
    "start_in_table_body": ["in table body"],
    "end_in_table_body": ["in table body"],
    "imply_row": ["in table body"],
    "end_in_row": ["in row"],
    "has_cell": ["in cell"],
    "ends_cell": ["in cell"],
    "is_cell_element": ["in cell"],
    "mode_named": ["fragment"],
    "state_in": ["fragment"],
    "begin_fragment": ["fragment"],
    "push_own_mode": ["fragment"],
    "set_own_form": ["fragment"],
    # "in body"
    "end_paragraph": ["in body"],
    "close_nobr": ["in body"],
    "drop_a": ["in body"],
    "end_body": ["in body"],
    "imply_paragraph": ["in body"],
    "end_option": ["in a select"],
    "start_inline": ["in body"],
    "start_body": ["in body"],
    "start_frameset": ["frameset behind"],
    "insert_form": ["in body", "in p"],
    "start_button": ["in body"],
    "start_a": ["in body"],
    "start_nobr": ["in body"],
    "start_table": ["in p"],
    "start_select": ["in body", "in a select"],
    "start_input": ["in body", "in a select"],
    "insert_input": ["in body"],
    "start_image": ["in body"],
    "start_hr": ["in a select"],
    "close_select": ["in a select"],
    "start_ruby": ["in body"],
    "end_html": ["in body"],
    "end_br": ["in body"],
    "end_other": ["in body"],
    "end_form": ["in body"],
    "is_block": ["in body", "in p", "formatting closed", "frameset behind"],
    "common_group_of": ["in body", "in p", "formatting closed", "frameset behind"],
    "rare_group_of": ["in body", "in p", "formatting closed", "frameset behind"],
    # sets.rt, stack.rt
    "is_heading": ["in heading"],
    "ends_default_scope": ["scope"],
    "ends_at": ["table context"],
    "is_special_name": ["special"],
    "is_crossed_by_items": ["in li", "in dd"],
    "has_implied_end": ["implied end"],
    "breaks_out": ["in svg", "in math"],
    "top_item": ["in li", "in dd"],
    "has_body": ["frameset behind"],
    "scope_end": ["button scope", "item scope"],
}
# The arrays of names that are checked like functions.
NAME_ARRAYS = {"ASKING": ["fragment"], "HEADINGS": ["in heading"]}
# Arrays whose entries have rows in other files, or are no names, with the reason.
OTHER_ARRAYS = {
    "LETTERS": "the names of character references, which are proved to be those of the standard; `references` has a row for each",
    "STARTS": "as LETTERS",
    "FIRSTS": "as LETTERS",
    "SECONDS": "as LETTERS",
    "CODES": "parse errors; tests/rows/test_calls/batch/noted.jsonl has each",
    "NAMED": "the categories of element_kinds.rt; the names in each have the rows `calm`",
    "KNOWN": "names by their number in the tree; each name has rows",
    "VOID_NAMES": "they are proved to be those of the writer of HTML",
}
# Options that no row can show, with what shows them.
OTHER_OPTIONS = {
    "in-place": "it writes files; tests/checks/documents.py runs it in docs/HQ.md",
    "verbose": "it writes to standard error; tests/rows/hq/charset.jsonl",
    "report": "it writes to standard error; tests/rows/hq/reports.jsonl",
    "progress": "it prints a time; tests/rows/hq/lines.jsonl and tests/checks/documents.py",
}


def element(variant):
    """The element name that a variant of the enum `Name` stands for."""
    if variant == "Other":
        return "x-y"
    return re.sub(r"(?<!^)([A-Z])", r"-\1", variant).lower()


def plain(literal):
    """The text that a string literal stands for."""
    return literal.replace('\\"', '"').replace("\\\\", "\\")


def sources():
    """Each file of the crates, with its text."""
    for crate in CRATES:
        for file in sorted((ROOT / "crates" / crate / "src").rglob("*.rt")):
            yield crate, file, file.read_text(encoding="utf-8")


def functions(text):
    """The name and the text of each function in a file; the files are formatted, so a function ends at its own indentation."""
    for found in FUNCTION.finditer(text):
        end = text.find(f"\n{found[1]}}}\n", found.end())
        yield found[2], text[found.end() : end]


def variants(text):
    """The variants of the enum `Name` that a text mentions."""
    return sorted(set(re.findall(r"\bName::([A-Z]\w*)", text)) - {"Other"})


def arrays():
    """The name and the contents of each array of the crates, with its crate."""
    for crate, _, text in sources():
        for name, inside in ARRAY.findall(text):
            yield crate, name, inside


def names():
    """All element names that the rules of tree construction mention."""
    text = (ROOT / "crates" / "page_trees" / "src" / "name.rt").read_text(encoding="utf-8")
    inside = re.search(r"pub enum Name \{(.*?)\n\}", text, re.S)[1]
    return [element(it) for it in re.findall(r"^    (\w+),$", inside, re.M)]


def named_entries():
    """The entries of the functions and arrays that hold names of elements: pairs of a question and a name. Functions that aren't
    in FUNCTIONS come as pairs of their name and None."""
    for crate, _, text in sources():
        if crate != "page_trees":
            continue
        for name, body in functions(text):
            found = variants(body)
            if found and name not in FUNCTIONS:
                yield name, None
            for question in FUNCTIONS.get(name, []) if found else []:
                yield from ((question, element(it)) for it in found)
    for _, name, inside in arrays():
        for question in NAME_ARRAYS.get(name, []):
            yield from ((question, element(it)) for it in variants(inside))


def known_functions():
    """The names of all functions of page_trees that mention names of elements."""
    return {name for crate, _, text in sources() if crate == "page_trees" for name, body in functions(text) if variants(body)}


def text_entries():
    """The entries of the arrays of texts and characters, each as (array, text); of an array of tuples it is the first text, and of
    the attributes of one element both."""
    for crate, name, inside in arrays():
        if name in OTHER_ARRAYS or name in NAME_ARRAYS:
            continue
        label = "--base ADDRESSES" if name == "ADDRESSES" else name
        if name.endswith("_OWN") or name == "OWN_ATTRIBUTES":
            texts = [f"{element} {attribute}" for element, attribute in pairs(inside)]
        elif "(" in inside and name not in ("FORMATS",):
            texts = [STRING.search(line)[1] for line in re.findall(r"\(\s*\"[^)]*", inside)]
        elif name in ("WINDOWS", "SPACES"):
            texts = [str(at) for at in range(len(re.findall(r"'(?:[^'\\]|\\.[^']*)'", inside)))]
        elif name == "FORMATS":
            texts = STRING.findall("".join(re.findall(r'(?<=, )"[^"]*"', inside)))
        else:
            texts = STRING.findall(inside)
        yield from ((label, plain(text)) for text in texts)
    yield from matched_texts()


def matched_texts():
    """The texts that functions match."""
    for _, file, text in sources():
        for name, body in functions(text):
            if name == "names" and file.name == "element_kinds.rt":
                yield from (("calm", it) for it in STRING.findall(body))
            if name in ("is_refused_attribute", "may_lead", "mathml_attr"):
                found = dict.fromkeys(STRING.findall(body))
                yield from ((name, it) for it in found if it != "definitionURL")


# The entries of the arrays of `dom_article` that no row of a page shows, with the reason; `*` stands for all of an array.
NOT_IN_ARTICLES = {
    "BASES": (["*"], "the points that an element begins with are one part of a score among others"),
    "TAGS": (["*"], "the elements that other rules name one by one"),
    "FRAMES": (["*"], "their attribute `hidden` has rows in articles.jsonl"),
    "NEVER": (["head", "frame", "frameset"], "the parser drops or moves such a tag in `body`"),
    "NEVER_BAD": (["body", "html"], "all that is shown is in them"),
    "NOT_BY_WORDS": (["html"], "the row of `body` has both rules"),
    "PLACES": (["a", "td", "tr"], "words don't leave these out, so that an id only adds to a score"),
    "ROWS": (["tr"], "a block that is never bad, so that it stays in any case"),
    "BLOCKS": (
        "blockquote body caption dd dialog dt figcaption h1 h2 h3 h4 h5 h6 hr html li main menu nav p pre summary tbody td tfoot th thead".split(),
        "a block that is never bad or never in an article, a heading, or empty",
    ),
}


def shows_in_no_article(array, text):
    """Whether an entry of an array of `dom_article` is one that no row of a page shows."""
    texts, _ = NOT_IN_ARTICLES.get(array, ([], ""))
    return "*" in texts or text in texts


def article_arrays():
    """The name and the contents of each array of `dom_article`."""
    for file in sorted((ROOT / "crates" / "dom_article" / "src").rglob("*.rt")):
        yield from ARRAY.findall(file.read_text(encoding="utf-8").replace("pub(crate) static", "static"))


def article_entries():
    """The entries of the arrays of `dom_article`: the array, the text, and what else the entry has."""
    for name, inside in article_arrays():
        if name == "WORDS":
            for word, way, group in re.findall(r'\("([^"]+)", Way::(\w+), List::(\w+)\)', inside):
                yield name, word, (way, group)
        elif name == "NAMES":
            for field, text in re.findall(r'\(Field::(\w+), "([^"]+)"\)', inside):
                yield name, text, (field,)
        else:
            for text in STRING.findall(inside):
                yield name, plain(text), ()


def article_entry(array, text, rest):
    """The text that rows have as the entry."""
    return f"article {array}: {text}" + (f" {rest[1]}" if array == "WORDS" else "")


def whole_words():
    """The words that count as whole words alone and in no other list as parts, each with how it counts and its list."""
    words = [(text, rest) for array, text, rest in article_entries() if array == "WORDS"]
    parts = [text for text, rest in words if rest[0] == "Part"]
    return [(text, rest) for text, rest in words if rest[0] == "Whole" and not any(part in text for part in parts)]


def options(text):
    """The long name and the short one, or an empty text, of each option of `hq`."""
    found = re.findall(r'^    \("([a-z-]+)", (NONE|\'.\'),', text, re.M)
    return [(name, "" if short == "NONE" else short.strip("'")) for name, short in found]


def pairs(text):
    """The pairs of texts in an array of pairs."""
    found = re.findall(r'\(\s*("(?:[^"\\]|\\.)*"),\s*("(?:[^"\\]|\\.)*"),?\s*\)', text)
    return [(plain(one[1:-1]), plain(other[1:-1])) for one, other in found]
