"""Parsing by the HTML Standard's tables (tests/standard/parsing.py), compared with the trees of tests/html5lib, which `hq --tree` prints.
The rules begin with a doctype, so a page without one is compared with the same page after a doctype. Left out are rows with other
options, and texts for which tree construction has no rule; how many are compared is checked, too."""
import json
import pathlib
import sys

ROOT = pathlib.Path(__file__).resolve().parents[2]
sys.dont_write_bytecode = True
sys.path.insert(0, str(ROOT / "tests" / "standard"))
import parsing  # noqa: E402

# how many rows have a tree by the tables
COMPARED = 487
DOCTYPE = "<!DOCTYPE html>"


def lines(trees, depth=0):
    """The lines of trees as html5lib's tests have them."""
    for t in trees:
        indent = "| " + "  " * depth
        if t[0] == "text":
            yield f'{indent}"{t[1]}"'
        elif t[0] == "comment":
            yield f"{indent}<!-- {t[1]} -->"
        elif t[0] == "doctype":
            yield f"{indent}<!DOCTYPE {t[1]}>"
        else:
            yield f"{indent}<{t[1]}>"
            yield from (f'{indent}  {name}="{value}"' for name, value in sorted(t[2]))
            yield from lines(t[3], depth + 1)


def rows():
    """The texts of tests/html5lib with their contexts (None for a page) and the printed trees."""
    for file in sorted((ROOT / "tests" / "html5lib").glob("*.jsonl")):
        for line in file.read_text(encoding="utf-8").splitlines():
            row = json.loads(line)
            args = row.get("args")
            if not isinstance(row.get("markup"), str):
                continue
            if args == ["--tree"]:
                yield row["markup"], None, row["output"]
            elif args and args[:2] == ["--tree", "--context"] and len(args) == 3 and " " not in args[2]:
                yield row["markup"], args[2], row["output"]


def checked():
    """Compares the trees, prints those that differ, and returns how many are the same and how many differ."""
    same, failed = 0, []
    for text, context, output in rows():
        if context is None and not output.startswith("| <!DOCTYPE"):
            text, output = DOCTYPE + text, f"| {DOCTYPE}\n{output}"
        trees = parsing.fragment(context, text) if context else parsing.page(text)
        if trees is None:
            continue
        found = "".join(line + "\n" for line in lines(trees))
        if found == output:
            same += 1
        else:
            failed.append(f"{text!r} in {context}: the tables give\n{found}and not\n{output}")
    if same + len(failed) != COMPARED:
        failed.append(f"{same + len(failed)} rows have a tree by the tables, and not {COMPARED}")
    for fault in failed:
        print(f"parsing by the HTML Standard's tables: {fault}")
    print(f"parsing by the HTML Standard's tables: {same} passed, {len(failed)} failed")
    return same, len(failed)


if __name__ == "__main__":
    sys.exit(1 if checked()[1] else 0)
