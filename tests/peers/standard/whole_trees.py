"""Trees by docs/standard/tree_construction.txt (tests/standard/trees/construction.py) beside those of others, outside the gate:

    whole_trees.py rows                     adds to tests/standard/trees/rows.jsonl the trees that Chromium and Firefox have, and parse5 with scripting
    whole_trees.py browsers COUNT SEED      random soups, without scripting, by Chromium and Firefox; left out are those of `is_asked`
    whole_trees.py parse5 COUNT SEED        random soups by parse5 (NODE_PATH: a copy that mend_trees.py made); left out are those with `select` and
                                            what stands in it, whose rules are newer than parse5 7.1.2, and with `search`, which it does not know
    whole_trees.py around COUNT SEED        the same as fragments in forms, in documents in quirks mode, and of contexts with attributes
    whole_trees.py files COUNT SEED SIZE FOLDER..   COUNT files `*.html` below the folders, by chance, of at most SIZE bytes, by parse5; left out are
                                            the same, and files that have the text of one before
    whole_trees.py seeds COUNT SEED..       the digests of soups for tests/standard/trees/soups.jsonl, where parse5 has the same trees
    whole_trees.py selects COUNT SEED..     the same of soups with `select`, where Chromium and Firefox have the same trees

Texts that differ are printed, made shorter. tests/peers/browsers/ask.py says how browsers are asked."""
import collections
import itertools
import json
import pathlib
import random
import re
import subprocess
import sys

ROOT = pathlib.Path(__file__).resolve().parents[3]
sys.dont_write_bytecode = True
sys.path.insert(0, str(ROOT / "tests" / "standard" / "trees"))
sys.path.insert(0, str(ROOT / "tests" / "peers" / "browsers"))
import soups  # noqa: E402
from whole_parsing import by_rules  # noqa: E402

ROWS = ROOT / "tests" / "standard" / "trees" / "rows.jsonl"
BATCH = 2000


def by_parse5(batch):
    """Trees with the quirks mode; of a fragment parse5 tells none."""
    program = str(ROOT / "tests" / "peers" / "trees_parse5.js")
    done = subprocess.run(["node", program], input=json.dumps(batch), text=True, capture_output=True, check=True)
    return [(tree, quirks) for tree, quirks, _ in json.loads(done.stdout)]


def by_browser(browser, batch):
    import ask

    return [tree for tree, _ in ask.ask(browser, [[text, context] for text, context, _ in batch])]


def shrunk(differ, text):
    """A shorter text for which `differ`, a function of a list of texts, is still true."""
    while True:
        pieces = re.findall("<[^<]*|^[^<]+", text)
        shorter = ["".join(pieces[:i] + pieces[i + 1 :]) for i in range(len(pieces))]
        shorter += ["".join(pieces[:i] + [re.sub(r"(<[^\s>/]*)[^>]*(>.*)", r"\1\2", p, flags=re.S)] + pieces[i + 1 :]) for i, p in enumerate(pieces)]
        shorter += ["".join(pieces[:i] + [re.sub(r">.+", ">", p, flags=re.S)] + pieces[i + 1 :]) for i, p in enumerate(pieces)]
        shorter = [s for s in shorter if len(s) < len(text)]
        found = differ(shorter) if shorter else []
        if True not in found:
            return text
        text = shorter[found.index(True)]


def trees_of(test):
    """The tree and the mode by the rules. A test may have a fourth part: what is around the fragment."""
    text, context, scripting, *around = test
    return by_rules(text, context, scripting, **dict(*around))


def test_soups(rng, count, fits, made=soups.test):
    while count > 0:
        batch = []
        while len(batch) < min(BATCH, count):
            test = made(rng)
            if fits(test):
                batch.append(test)
        count -= len(batch)
        yield batch


def differs(found, by_peer):
    """Whether they are two trees, or two modes where the peer tells one."""
    tree, quirks = by_peer
    return found != (tree, quirks or found[1])


def parse5(count, seed, made=soups.test):
    seen = collections.Counter()
    for batch in test_soups(random.Random(seed), count, soups.is_older, made):
        for test, by_peer in zip(batch, by_parse5(batch)):
            seen["fragments" if test[1] else "pages"] += 1
            if differs(trees_of(test), by_peer):
                seen["differ"] += 1

                def differ(texts):
                    tests = [[text, *test[1:]] for text in texts]
                    return [differs(trees_of(one), peer) for one, peer in zip(tests, by_parse5(tests))]

                short = [shrunk(differ, test[0]), *test[1:]]
                print("DIFFERS", *map(repr, short), *trees_of(short), "parse5", *by_parse5([short])[0], sep="\n", flush=True)
        print(dict(seen), flush=True)


def around(count, seed):
    parse5(count, seed, soups.surrounded)


def texts_of_files(names):
    """The pages that are read: each text once, and none with what parse5 doesn't know."""
    seen = set()
    for name in names:
        text = pathlib.Path(name).read_bytes().decode("utf-8", "replace").removeprefix("\ufeff")
        if hash(text) not in seen and soups.is_older((text, None)):
            yield name, text
        seen.add(hash(text))


def files(count, seed, size, folders):
    names = sorted(str(path) for folder in folders for path in pathlib.Path(folder).rglob("*.html") if path.is_file() and not path.is_symlink())
    names = [name for name in names if pathlib.Path(name).stat().st_size <= size]
    random.Random(seed).shuffle(names)
    print(len(names), "files", flush=True)
    pages, seen = texts_of_files(names), collections.Counter()
    while batch := list(itertools.islice(pages, min(100, count - seen["pages"]))):
        for (name, text), by_peer in zip(batch, by_parse5([(text, None, False) for _, text in batch])):
            found = by_rules(text, None, False)
            seen["pages"] += 1
            seen["characters"] += len(text)
            if found != by_peer:
                seen["differ"] += 1
                ours, theirs = found[0].split("\n"), by_peer[0].split("\n")
                at = next((i for i, (a, b) in enumerate(zip(ours, theirs)) if a != b), 0)
                print("DIFFERS", name, found[1], ours[at : at + 1], "parse5", by_peer[1], theirs[at : at + 1], flush=True)
        print(dict(seen), flush=True)


def is_asked(test):
    """Browsers and the Standard agree on such texts: Chromium makes processing instructions, Firefox takes `noscript` as with scripting in a
    fragment, and both drop null characters where a fragment is the text of an element."""
    text, context, _ = test
    return "<?" not in text and "noscript" not in text + (context or "") and not ("\0" in text and context)


def browsers(count, seed):
    seen = collections.Counter()
    for batch in test_soups(random.Random(seed), count, is_asked):
        batch = [(text, context, False) for text, context, _ in batch]
        own = [by_rules(*test)[0] for test in batch]
        peers = {browser: by_browser(browser, batch) for browser in ("chromium", "firefox")}
        for i, test in enumerate(batch):
            same = [browser for browser in peers if peers[browser][i] == own[i]]
            seen["as " + " and ".join(same) if same else "as none"] += 1
            if not same:
                alike = peers["chromium"][i] == peers["firefox"][i]
                print("DIFFERS from both" if alike else "THREE WAYS", test, own[i], "chromium", peers["chromium"][i], "firefox", peers["firefox"][i], sep="\n", flush=True)
        print(dict(seen), flush=True)


def rows():
    found = [json.loads(line) for line in ROWS.read_text(encoding="utf-8").splitlines()]
    tests = [(row["text"], row["context"], row["scripting"]) for row in found]
    peers = {browser: by_browser(browser, tests) for browser in ("chromium", "firefox")}
    peers["parse5"] = [tree for tree, _ in by_parse5(tests)]
    counts = collections.Counter()
    for i, row in enumerate(found):
        own = by_rules(*tests[i])[0]
        same = [peer for peer in peers if peers[peer][i] == own]
        row["by"] = [peer for peer in same if not row["scripting"] or peer == "parse5"]
        row["tree"] = own if row["by"] else None
        counts[", ".join(row["by"])] += 1
        if len(row["by"]) < (1 if row["scripting"] else 2):
            print("only by", row["by"], tests[i], own, *(f"{p}\n{t[i]}" for p, t in peers.items()), sep="\n")
    ROWS.write_text("".join(json.dumps(row, ensure_ascii=True) + "\n" for row in found), encoding="utf-8")
    print(dict(counts))


def seeds(count, every):
    for seed in every:
        tests = soups.seeded(seed, count)
        peer = by_parse5(tests)
        if all(f == (p, q or f[1]) for f, (p, q) in zip((by_rules(*t) for t in tests), peer)):
            print(json.dumps({"seed": seed, "count": count, "digest": soups.digest(tests)}))


def selects(count, every):
    for seed in every:
        tests = soups.seeded(seed, count, True)
        own = [by_rules(*one)[0] for one in tests]
        peers = {browser: by_browser(browser, tests) for browser in ("chromium", "firefox")}
        other = [(one, *(peers[browser][i] for browser in peers)) for i, one in enumerate(tests) if any(own[i] != trees[i] for trees in peers.values())]
        for one in other:
            print(*one, sep="\n", file=sys.stderr)
        if not other:
            print(json.dumps({"seed": seed, "count": count, "selects": True, "digest": soups.digest(tests)}), flush=True)


if __name__ == "__main__":
    what, *numbers = sys.argv[1:]
    if what == "rows":
        rows()
    elif what == "files":
        files(*map(int, numbers[:3]), numbers[3:])
    elif what in ("seeds", "selects"):
        {"seeds": seeds, "selects": selects}[what](int(numbers[0]), map(int, numbers[1:]))
    else:
        {"parse5": parse5, "around": around, "browsers": browsers}[what](*map(int, numbers))
