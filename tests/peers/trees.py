"""Trees of pages by `hq --tree` beside those of parse5, outside the gate.

    trees.py files HQ COUNT SEED FOLDER..      COUNT files `*.html` below the folders, by chance (all, if COUNT is 0)
    trees.py random HQ COUNT SEED [CALM]       COUNT random pages and fragments: tags in any order, attributes, texts, references; with
                                               the word `calm`, random calm pages and fragments (tests/standard/rules/calm_trees.py)

Each page is read as UTF-8, since only the trees are compared. A random page that differs is made smaller while it differs. parse5 is
Debian's node-parse5 7.1.2, mended by mend_trees.py; NODE_PATH names the folder with the mended one, and /usr/share/nodejs for what it
uses. parse5 7.1.2 doesn't know the element `search` and has the rules of `select` of before 2025, so random pages don't have them, and
files that have a `select` are left out: browsers/compare.py is for those."""
import collections
import json
import pathlib
import random
import re
import subprocess
import sys
import tempfile

HERE = pathlib.Path(__file__).resolve().parent
sys.dont_write_bytecode = True
sys.path.insert(0, str(HERE.parent / "standard" / "rules"))
import calm_trees  # noqa: E402

CONTEXTS = [None] * 12 + ["div", "body", "td", "tr", "tbody", "table", "template", "li", "p", "html", "colgroup", "caption", "svg path", "svg foreignObject", "math mi", "math annotation-xml", "title", "script", "noscript"]
NAMES = (
    "a a abbr address article b b big blockquote body br button caption center code col colgroup dd details dialog div div dl dt em fieldset font form frame frameset "
    "h1 h2 head hr html i i iframe image img input keygen li li link listing main marquee menu meta nobr noembed noframes noscript object ol optgroup option option p p p param "
    "plaintext pre rb rp rt rtc ruby s script section small source span strike strong style sub summary sup svg svg table table tbody td td template template textarea tfoot th "
    "thead title tr tr tt u ul ul var wbr xmp x-y math math mi mo mn ms mtext mglyph malignmark annotation-xml foreignObject desc g path clipPath feDropShadow"
).split()
ATTRS = ["a=b", "class=x", "href=y", "type=hidden", "type=text", "encoding=text/html", "encoding='application/xhtml+xml'", "xlink:href=z", "xml:lang=e", "viewbox=v", "definitionurl=d", "color=red", "id", "a=c", "B='&amp;&lt'", "c=\"&notit;\"", "xmlns=q"]
TEXTS = ["t", " ", "\n", "\n\nx", "x y", "\0", "&amp;", "&lt", "&notit;", "&#x80;", "&#0;", "é", "\U0001f600", "\r\n", "<!--c-->", "<!-->", "<!doctype html>", "<!DOCTYPE a PUBLIC 'x'>", "<![CDATA[q]]>", "<?p>", "</>", "<", "</br>", "</p>", "--!>", "]]>"]


def random_page(rng, contexts=CONTEXTS, texts=TEXTS):
    """A list of pieces, and the context in which they are read."""
    context, parts = rng.choice(contexts), []
    if context is None and rng.random() < 0.5:
        parts.append(rng.choice(["<!DOCTYPE html>", "<!DOCTYPE html>", "<!doctype>", '<!DOCTYPE html PUBLIC "-//W3C//DTD HTML 3.2//EN">']))
    few = rng.sample(NAMES, rng.choice([3, 6, len(NAMES)]))
    return [*parts, *random_parts(rng, few, texts)], context


def random_parts(rng, few, texts=TEXTS):
    """Pieces of a page: some of these texts, and tags with these names."""
    parts = []
    for _ in range(rng.choice([2, 5, 10, 20, 40])):
        kind = rng.random()
        if kind < 0.25:
            parts.append(rng.choice(texts))
        elif kind < 0.55:
            parts.append(f"</{rng.choice(few)}>")
        else:
            attrs = "".join(f" {rng.choice(ATTRS)}" for _ in range(rng.choice([0, 0, 0, 1, 2])))
            parts.append(f"<{rng.choice(few)}{attrs}{rng.choice(['', '', '', '/'])}>")
    return parts


def calm_page(rng):
    """A random calm page or fragment as it is written in some spelling."""
    kinds = {"body": "Body", "div": "Block", "td": "Cell", "li": "Item", "blockquote": "Block"}
    maker = calm_trees.Maker(rng)
    if rng.random() < 0.3:
        context = rng.choice(list(kinds))
        return [calm_trees.spelled(rng, maker.trees(calm_trees.top(kinds[context]), 0))], context
    return [calm_trees.spelled(rng, maker.page())], None


def by_parse5(cases):
    """The trees of texts in contexts."""
    given = json.dumps([[text, context, False] for text, context in cases])
    done = subprocess.run(["node", HERE / "trees_parse5.js"], input=given, stdout=subprocess.PIPE, text=True, encoding="utf-8", check=True)
    return [found[0] for found in json.loads(done.stdout)]


def words_for(context):
    return ["--tree", "--charset", "utf-8", *([] if context is None else ["--context", context])]


def by_hq(program, context, texts, room):
    """What the program prints for texts in one context, one tree after the other."""
    names = []
    for at, text in enumerate(texts):
        names.append(str(room / str(at)))
        pathlib.Path(names[-1]).write_bytes(text.encode("utf-8"))
    done = subprocess.run([program, *words_for(context), "--", *names], stdout=subprocess.PIPE, stderr=subprocess.PIPE)
    return done.stdout.decode("utf-8")


def differing(program, cases, room):
    """The numbers of the cases whose trees differ from those of parse5."""
    return unlike(program, cases, by_parse5(cases), room)


def unlike(program, cases, theirs, room):
    """The numbers of the cases whose trees aren't these."""
    bad, groups = [], collections.defaultdict(list)
    for at, (_, context) in enumerate(cases):
        groups[context].append(at)
    for context, found in groups.items():
        parts = [found]
        while parts:
            part = parts.pop()
            if by_hq(program, context, [cases[at][0] for at in part], room) == "".join(theirs[at] for at in part):
                continue
            if len(part) == 1:
                bad += part
            else:
                parts += [part[: len(part) // 2], part[len(part) // 2 :]]
    return sorted(bad)


def smaller(program, parts, context, room):
    """The least list of pieces that still differs, found by leaving out one piece at a time."""
    while len(parts) > 1:
        tries = [parts[:at] + parts[at + 1 :] for at in range(len(parts))]
        bad = differing(program, [("".join(it), context) for it in tries], room)
        if not bad:
            break
        parts = tries[bad[0]]
    return parts


def shown(ours, theirs):
    """The first line in which two trees differ, with the line before."""
    ours, theirs = ours.split("\n"), theirs.split("\n")
    at = next((it for it, (a, b) in enumerate(zip(ours, theirs)) if a != b), min(len(ours), len(theirs)))
    cut = [it[:160] for it in (ours[max(0, at - 1)], *ours[at : at + 1], "(end)")][:2], [it[:160] for it in (theirs[max(0, at - 1)], *theirs[at : at + 1], "(end)")][:2]
    return f"    hq:     {cut[0]}\n    parse5: {cut[1]}"


def compare_random(program, count, seed, calm, room):
    rng, done, bad, characters = random.Random(seed), 0, 0, 0
    while done < count:
        made = [(calm_page if calm else random_page)(rng) for _ in range(min(2000, count - done))]
        cases = [("".join(parts), context) for parts, context in made]
        characters += sum(len(text) for text, _ in cases)
        for at in differing(program, cases, room):
            bad += 1
            if bad <= 40:
                parts, context = made[at]
                text = "".join(smaller(program, parts, context, room))
                print(f"  {json.dumps(text)} in {context}")
                print(shown(by_hq(program, context, [text], room), by_parse5([(text, context)])[0]), flush=True)
        done += len(made)
        print(f"{done} pages, {characters} characters, {bad} differ", flush=True)
    return bad


def compare_files(program, count, seed, folders, room):
    names = sorted(str(path) for folder in folders for path in pathlib.Path(folder).rglob("*.html") if path.is_file() and not path.is_symlink())
    if count:
        names = sorted(random.Random(seed).sample(names, min(count, len(names))))
    names = [name for name in names if b"<select" not in pathlib.Path(name).read_bytes().lower()]
    bad, size, of = 0, 0, collections.Counter()
    for begin in range(0, len(names), 20):
        chosen = names[begin : begin + 20]
        raw = [pathlib.Path(name).read_bytes() for name in chosen]
        texts = [re.sub("^\ufeff", "", it.decode("utf-8", "replace")) for it in raw]
        theirs = by_parse5([(text, None) for text in texts])
        for name, data, tree in zip(chosen, raw, theirs):
            ours = subprocess.run([program, *words_for(None), "--", name], stdout=subprocess.PIPE, stderr=subprocess.PIPE).stdout.decode("utf-8")
            size += len(data)
            of["/".join(name.split("/")[:6])] += 1
            if ours != tree:
                bad += 1
                print(f"  {name}\n{shown(ours, tree)}", flush=True)
    print(f"{len(names)} files, {size} bytes, {bad} differ; {dict(of)}")
    return bad


def main(way, program, count, seed, *more):
    with tempfile.TemporaryDirectory() as room:
        if way == "files":
            bad = compare_files(program, int(count), int(seed), more, pathlib.Path(room))
        else:
            bad = compare_random(program, int(count), int(seed), more == ("calm",), pathlib.Path(room))
    return 1 if bad else 0


if __name__ == "__main__":
    if len(sys.argv) < 5 or sys.argv[1] not in ("files", "random"):
        sys.exit(__doc__)
    sys.exit(main(*sys.argv[1:]))
