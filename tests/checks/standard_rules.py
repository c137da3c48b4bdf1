"""The rules of tree construction: what is made from tests/standard/rules/rules.txt is what the crate standard_rules holds, and the stored
rows have the trees that the rules give, and take every rule. `checked()` prints what failed, and returns how many of these passed and
how many failed."""
import json
import pathlib
import re
import sys

ROOT = pathlib.Path(__file__).resolve().parents[2]
sys.dont_write_bytecode = True
sys.path.insert(0, str(ROOT / "tests" / "standard" / "rules"))
import generate  # noqa: E402
import tree_builder  # noqa: E402


# lists that a definition and the interpreter both write out
LISTS = [("ElementNames.antt", "scope_names", tree_builder.SCOPE), ("ElementNames.antt", "implied_names", tree_builder.IMPLIED),
         ("ElementNames.antt", "special_names", tree_builder.SPECIAL), ("TreeTokens.antt", "void_names", tree_builder.VOID)]


def plain(value):
    """A tree as JSON has it, with lists in place of tuples."""
    return [plain(item) for item in value] if isinstance(value, (list, tuple)) else value


def checked():
    passed, failed = 0, []
    for path, text in generate.targets(ROOT / "crates" / "standard_rules").items():
        if generate.sheets.same(text, path):
            passed += 1
        else:
            failed.append("%s is not what tests/standard/rules/generate.py makes" % path.relative_to(ROOT))
    tree_builder.TAKEN.clear()
    for number, row in enumerate(generate.rows(), 1):
        tokens = [tuple(token) for token in row["tokens"]]
        context = row["context"]
        tree = tree_builder.build_fragment(context, tokens) if context else tree_builder.build(tokens)
        if plain(tree) == row["tree"]:
            passed += 1
        else:
            failed.append("tests/standard/rules/rows.jsonl, line %d: the rules give %s" % (number, plain(tree)))
    names = ROOT / "tests" / "standard" / "rules" / "names.jsonl"
    for line in names.read_text().splitlines() if names.exists() else []:
        row = json.loads(line)
        if plain(tree_builder.build([tuple(token) for token in row["tokens"]])) == row["tree"]:
            passed += 1
        else:
            failed.append("tests/standard/rules/names.jsonl: other trees are given for %s" % row["tokens"])
    for file, name, want in LISTS:
        found = re.search(r"^%s =(.*?)(?=\n\S|\n\n|\Z)" % name, (ROOT / "crates" / "standard_rules" / "specs" / file).read_text(), re.M | re.S)
        if sorted(re.findall('codes "([^"]*)"', found[1])) == sorted(want):
            passed += 1
        else:
            failed.append("%s in specs/%s is another list than the interpreter's" % (name, file))
    for mode, rules in tree_builder.RULES.items():
        for i in range(len(rules)):
            if (mode, i) in tree_builder.TAKEN:
                passed += 1
            else:
                failed.append('no row takes rule %d of the mode "%s"' % (i + 1, mode))
    for fault in failed:
        print(fault)
    print("rules of tree construction: %d passed, %d failed" % (passed, len(failed)))
    return passed, len(failed)


if __name__ == "__main__":
    sys.exit(1 if checked()[1] else 0)
