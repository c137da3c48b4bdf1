"""Cleaned texts at places of pages, read by the interpreter of the Standard's tables (docs/standard), where hosts.js reads them by parse5:

    hosts.py FILE COUNT                  the first COUNT pages of FILE, which `hosts.js PROGRAM COUNT SEED FILE` wrote
    hosts.py FILE COUNT BEFORE AFTER     their texts between these two parts of a page

A page with the text must be the page with a comment at its place, with the text's trees in place of the comment. Prints how many pages differ,
and the shortest of them; the status is 1 if one differs."""
import itertools
import json
import pathlib
import sys

ROOT = pathlib.Path(__file__).resolve().parents[3]
sys.dont_write_bytecode = True
sys.path.insert(0, str(ROOT / "tests" / "standard" / "trees"))
import whole_parsing  # noqa: E402

MARK = "here"


def joined(trees):
    """The trees with each run of texts as one text."""
    for is_text, run in itertools.groupby(trees, lambda tree: tree[0] == "text"):
        if is_text:
            yield "text", "".join(text for _, text in run)
        else:
            yield from run


def put(trees, given):
    """The trees with the given ones in place of the comment."""
    found = []
    for tree in trees:
        if tree == ("comment", MARK):
            found += given
        elif tree[0] == "element":
            kind, space, name, attrs, contents, below = tree
            found.append((kind, space, name, attrs, contents and put(contents, given), put(below, given)))
        else:
            found.append(tree)
    return list(joined(found))


def is_same(before, text, after, scripting):
    page = whole_parsing.page(before + text + after, scripting)
    marked = whole_parsing.page(f"{before}<!--{MARK}-->{after}", scripting)
    given = whole_parsing.fragment("div", text, scripting).result()
    return page.quirks == marked.quirks and put(page.result(), []) == put(marked.result(), given)


def main(file, count, *around):
    sys.setrecursionlimit(100_000)
    pages, other = 0, []
    with open(file, encoding="utf-8") as lines:
        for line in itertools.islice(lines, int(count)):
            before, text, after, scripting = json.loads(line)
            if around:
                before, after = around
            pages += 1
            if not is_same(before, text, after, scripting):
                other.append((before, text, after, scripting))
            if pages % 500 == 0:
                print(f"{pages} pages, {len(other)} differ", flush=True)
    print(f"{pages} pages, {len(other)} differ")
    if other:
        print(min(other, key=lambda one: sum(map(len, one[:3]))))
    return 1 if other else 0


if __name__ == "__main__":
    sys.exit(main(*sys.argv[1:]))
