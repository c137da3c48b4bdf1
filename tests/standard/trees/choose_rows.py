"""choose_rows.py SOUPS: chooses short pages and fragments that together take every rule that can be taken, of html5lib's tests, the rows of `hq`
and so many random soups, and writes them without trees into rows.jsonl. tests/peers/standard/trees_of_browsers.py adds the trees that
browsers have."""
import json
import pathlib
import random
import sys

import construction
import soups
import whole_parsing

HERE = pathlib.Path(__file__).resolve().parent


def candidates(count):
    for file in sorted((HERE.parents[1] / "html5lib").glob("*.jsonl")):
        for line in filter(None, file.read_text(encoding="utf-8").split("\n")):
            row = json.loads(line)
            args = row.get("args") or []
            if isinstance(row["markup"], str):
                yield row["markup"], args[args.index("--context") + 1] if "--context" in args else None, "--scripting" in args
    for file in sorted((HERE.parents[1] / "rows" / "hq").glob("*.jsonl")):
        for line in filter(None, file.read_text(encoding="utf-8").split("\n")):
            row = json.loads(line)
            args = row.get("args") or []
            context = args[args.index("--context") + 1] if "--context" in args else None
            if args[:1] == ["--tree"] and isinstance(row.get("markup"), str) and set(args) <= {"--tree", "--context", "--scripting", context}:
                yield row["markup"], context, "--scripting" in args
    rng = random.Random(11)
    for _ in range(count):
        yield soups.test(rng)


def plain(text):
    """The text can be written in a definition as it is."""
    return len(text) <= 90 and '"' not in text and "\\" not in text and text.isascii() and "\r" not in text


def main():
    found = []
    for text, context, scripting in candidates(int(sys.argv[1])):
        # (in browsers that run scripts a page is read by scripting, and a fragment without it)
        if not plain(text) or scripting and context:
            continue
        construction.TAKEN.clear()
        b = whole_parsing.fragment(context, text, scripting) if context else whole_parsing.page(text, scripting)
        trees = str(b.result())
        if "'doctype'" in trees and "('doctype', 'html', ('', ''))" not in trees or "xmlns" in trees:
            continue
        found.append((set(construction.TAKEN), text, context, scripting))
    chosen, covered = [], set()
    while True:
        best = max(found, key=lambda f: len(f[0] - covered) / (25 + len(f[1])))
        if not best[0] - covered:
            break
        covered |= best[0]
        chosen.append(best)
    every = [(m, i) for m, rules in construction.MODES.items() for i in range(len(rules))]
    print(len(chosen), "texts,", sum(len(c[1]) for c in chosen), "characters,", len(covered), "of", len(every), "rules; not taken:",
          [(m, construction.MODES[m][i].line) for m, i in every if (m, i) not in covered])
    with open(HERE / "rows.jsonl", "w", encoding="utf-8") as out:
        for _, text, context, scripting in chosen:
            out.write(json.dumps({"text": text, "context": context, "scripting": scripting}) + "\n")


if __name__ == "__main__":
    main()
