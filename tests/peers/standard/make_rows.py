"""make_rows.py COUNT SEED: writes lists of tokens and their trees by the rules. Those of tests/standard/rules/rows.jsonl take every rule. For
each name in a rule, and in the lists of scopes, implied end tags and special elements, one of both files has another tree without
that name; those of names.jsonl are for that alone. Where the rules give a tree, parse5 has to give the same; where a rule is not written,
the tree is null. Names of which no row was found are printed. With COUNT 0 the rows of rows.jsonl stay."""
import json
import pathlib
import random
import sys

from compare_calm import listed, parse5
from compare_soup import soup, written
import tree_builder
from tree_builder import IMPLIED, RULES, SCOPES, SPECIAL, TAKEN

ROWS = pathlib.Path(tree_builder.__file__).resolve().with_name("rows.jsonl")
NAMES = ROWS.with_name("names.jsonl")
# tokens that random tags seldom bring to a mode
SELDOM = {
    "initial": [" ", "!c", "!d", "<html", "</html"],
    "before html": ["!d", " ", "!d", "!c", "</head", "</p", "<p", "<html"],
    "before head": ["!d", "<html", " ", "!d", "!c", "<html", "<head", "</head", "</p", "<p"],
    "in head": ["!d", "<html", "<head", " ", "!d", "!c", "<link", "<title", "<html", "<head", "</head", "</body", "</template", "</p", "<p"],
    "after head": ["!d", "<html", "<head", "</head", " ", "!d", "!c", "<html", "<head", "<body", "</body", "</template", "</p", "<p", "x"],
    "in body": ["\0", "<html", "<template", "</template", "</body", "</html", "</br", "<a", "<a", "<frameset", "<rb", "<rt", "<ruby", "<pre", "\n"],
    "text": ["<title", " ", "x"],
    "in table": ["<table", "<template", "</table", "</html", "<style", "<table", "!d", " "],
    "in caption": ["<table", "<caption", "</caption", "<td", "</table", "</td", "x"],
    "in column group": ["<table", "<colgroup", " ", "!d", "!c", "<html", "<col", "</colgroup", "</col", "</template", "x", "<td"],
    "in table body": ["<table", "<tbody", "<tr", "</tr", "<td", "</tfoot", "</tbody", "<caption", "</table", "</td"],
    "in row": ["<table", "<tr", "<td", "</td", "</tr", "<tr", "</table", "</tbody", "</tfoot", "</td", " "],
    "in cell": ["<table", "<tr", "<td", "</th", "</td", "<td", "</caption", "</table", "</tfoot", "x"],
    "after body": ["</body", " ", "!d", "!c", "</html", "x"],
    "after after body": ["</body", "</html", " ", "!d", "!c", "x"],
}
PAGE = [("doctype", "html"), ("start", "html", []), ("start", "head", []), ("end", "head"), ("start", "body", [])]
CONTEXTS = ["body", "div", "li", "td", "blockquote", "table", "tbody", "tr", "caption", "colgroup"]
# lists of tokens in which a name replaces NAME
BEFORE_BODY = ["!d <NAME x", "!d </NAME x", "!d <html <NAME x", "!d <html </NAME x", "!d <html <head <NAME x", "!d <html <head </NAME x",
               "!d <html <head </head <NAME x", "!d <html <head </head </NAME x"]
AROUND = ["%s", "<p %s", "<div %s", "<b %s", "<span %s", "<ul <li %s", "<dl <dd %s", "<h1 %s", "<button %s", "<object %s", "<ruby %s", "<form %s", "<table %s",
          "<table <caption %s", "<table <colgroup %s", "<table <tbody %s", "<table <tbody <tr %s", "<table <tbody <tr <td %s"]
INSIDE = ["<NAME x", "</NAME x", "<NAME x </NAME y", "<NAME <p x </NAME y", "<NAME <span x </NAME y", "<NAME </p x", "<NAME </span x", "<NAME </div x",
          "<NAME </b x", "<NAME </li x", "<NAME </dd x", "<NAME </h2 x", "<NAME </button x", "<NAME </object x", "<NAME <p x", "<NAME <li x", "<NAME <dt x",
          "<NAME <h2 x", "<NAME <button x", "<NAME <rt x", "<NAME <rb x", "<NAME </table x", "<NAME </td x", "<NAME </tr x", "<NAME <td x", "<NAME <tr x",
          "<NAME </caption x", "<NAME <caption x", "<NAME </tbody x", "<NAME \n", "<NAME </form x", "<NAME <form x", "</NAME </body !c", "</body <NAME x"]


def token(piece):
    if piece in ("!c", "!d"):
        return ("comment", "c") if piece == "!c" else ("doctype", "html")
    if piece.startswith("</"):
        return ("end", piece[2:])
    return ("start", piece[1:], []) if piece.startswith("<") else ("char", piece)


def closed(tokens):
    """The tokens, with an end tag after each start tag behind which the tokenizer reads text alone."""
    out = []
    for t in tokens:
        out.append(t)
        if t[0] == "start" and t[1] in ("title", "style", "script", "noframes"):
            out += [("char", "q"), ("end", t[1])]
    return out


def walk(rng):
    mode = rng.choice(list(SELDOM))
    tokens = closed([token(rng.choice(SELDOM[mode])) for _ in range(rng.choice([0, 1, 2, 3, 5, 8]))])
    return tokens if list(RULES).index(mode) < 5 else PAGE + tokens


def with_name(name):
    texts = [(False, text) for text in BEFORE_BODY] + [(True, around % inside) for around in AROUND for inside in INSIDE]
    for inside, text in texts:
        pieces = text.replace("NAME", name).replace(" \n", " \1").split(" ")
        tokens = closed([token(piece.replace("\1", "\n")) for piece in pieces])
        yield PAGE + tokens if inside else tokens


def tree_of(context, tokens):
    TAKEN.clear()
    return tree_builder.build_fragment(context, tokens) if context else tree_builder.build(tokens)


def entries():
    """Each set of names that the rules ask, with what it is."""
    for mode, rules in RULES.items():
        for i, (pattern, condition, actions, _) in enumerate(rules):
            for part in (pattern, condition, *actions):
                if len(part) > 1 and isinstance(part[1], (list, set)) and part[0] != "insert element":
                    yield '"%s" %d %s' % (mode, i + 1, part[0]), part[1]
    yield "implied end tags", IMPLIED
    yield "special elements", SPECIAL
    for name, names in SCOPES.items():
        yield name, names


def without(names, name):
    if isinstance(names, set):
        names.discard(name)
    else:
        names.remove(name)


def base_rows(count, rng):
    """Rows that take every rule that random tags take."""
    rows, seen = [], set()
    for _ in range(count):
        context = rng.choice(CONTEXTS) if rng.random() < 0.1 else None
        tokens = walk(rng) if rng.random() < 0.5 else soup(rng)
        if context:
            tokens = [t for t in tokens if t[0] != "doctype"][4 if len(tokens) > 4 else 0:]
        tree = tree_of(context, tokens)
        fresh = TAKEN | ({(context, 0)} if context and tree is not None else set())
        if tree is None:  # only the rule that stops it is shown
            fresh = {(mode, i) for mode, i in TAKEN if RULES[mode][i][3][0] == "no rule"}
        if not fresh <= seen and (tree is None or parse5([(context, written(tokens))])[0] == listed(tree)):
            seen |= fresh
            rows.append((context, tokens, tree))
    for mode, rules in RULES.items():
        for i in range(len(rules)):
            if (mode, i) not in seen:
                print('no row takes "%s" %d' % (mode, i + 1))
    return rows


def names_shown(rows):
    """More rows, so that for each name in a list one of all the rows has another tree without that name."""
    more, pools = [], {}
    for what, names in entries():
        for name in list(names):
            if name not in pools:
                pools[name] = [(None, tokens, tree_of(None, tokens)) for tokens in with_name(name)]
            kept = list(names)
            without(names, name)
            told = [row for row in [*rows, *more] if any(t[1:2] == (name,) for t in row[1])]
            shown = next((row for row in [*told, *pools[name]] if tree_of(row[0], row[1]) != row[2]), None)
            if isinstance(names, set):
                names.update(kept)
            else:
                names[:] = kept
            if shown is None:
                print("no row shows", name, "in", what)
            elif shown not in rows and shown not in more:
                more.append(shown)
    right = parse5([(None, written(tokens)) for _, tokens, _ in more])
    for (_, tokens, tree), theirs in zip(more, right):
        if tree is not None and listed(tree) != theirs:
            print("parse5 differs:", written(tokens))
    return [row for row, theirs in zip(more, right) if row[2] is None or listed(row[2]) == theirs]


def stored(path):
    rows = [json.loads(line) for line in path.read_text().splitlines()]
    return [(row["context"], [tuple(t) for t in row["tokens"]], row["tree"]) for row in rows]


def main():
    count, seed = int(sys.argv[1]), int(sys.argv[2])
    if count:
        rows = base_rows(count, random.Random(seed))
    else:
        rows = [(context, tokens, tree_of(context, tokens)) for context, tokens, _ in stored(ROWS)]
    for path, kept in ((ROWS, rows), (NAMES, names_shown(rows))):
        path.write_text("".join(json.dumps({"context": c, "tokens": t, "tree": r}, ensure_ascii=False) + "\n" for c, t, r in kept))
        print(path.name, len(kept), "rows")


if __name__ == "__main__":
    main()
