"""Compares the table of the tokenizer's states (docs/standard/tokenizer.txt) with other tokenizers of HTML, on random texts: parse5
(Debian's node-parse5) and html5lib (python3-html5lib). Run outside the gate:
compare.py [--count N] [--seed N] [--python PYTHON_WITH_HTML5LIB] [--pages FOLDER]"""
import argparse
import json
import os
import pathlib
import subprocess
import sys

HERE = pathlib.Path(__file__).resolve().parent
sys.path.insert(0, str(HERE.parents[1] / "standard"))
import machine  # noqa: E402
import random_texts  # noqa: E402

NODE = {**os.environ, "NODE_PATH": os.environ.get("NODE_PATH", "/usr/share/nodejs")}


def as_html5lib(tokens):
    """Without two things in which html5lib departs from the Standard: NUL in CDATA sections is U+FFFD there, and a doctype's missing
    name is empty."""
    found = []
    for t in tokens:
        if t[0] == "chars":
            t = ["chars", t[1].replace("\0", "\ufffd")]
        elif t[0] == "doctype":
            t = ["doctype", t[1] or "", *t[2:]]
        found.append(t)
    return found


def differing(name, cases, mine, theirs, same):
    """Shows how many texts have other tokens by the peer, and the first of them."""
    bad = [(c, a, b) for c, a, b in zip(cases, mine, theirs, strict=True) if same(a) != same(b)]
    print(f"{name}: {len(cases)} texts, {len(bad)} differ", flush=True)
    for c, a, b in bad[:8]:
        at = next((i for i, (x, y) in enumerate(zip(same(a), same(b))) if x != y), min(len(a), len(b)))
        print("  ", json.dumps(c)[:300])
        print("     table:", same(a)[max(0, at - 1) : at + 2])
        print("     peer: ", same(b)[max(0, at - 1) : at + 2])
    return bad


def answer(command, data, **more):
    return json.loads(subprocess.run(command, input=data, capture_output=True, text=True, check=True, **more).stdout)


def main():
    parser = argparse.ArgumentParser()
    parser.add_argument("--count", type=int, default=20000)
    parser.add_argument("--seed", type=int, default=1)
    parser.add_argument("--python", default="/usr/bin/python3")
    parser.add_argument("--pages", type=pathlib.Path)
    args = parser.parse_args()
    pages = sorted(args.pages.rglob("*.html")) if args.pages else []
    texts = [path.read_text(encoding="utf-8", errors="replace") for path in pages]
    cases = random_texts.mixed(args.count, args.seed) + random_texts.walks(args.count, args.seed) + random_texts.references()
    cases += [random_texts.in_data(text) for text in texts]
    mine, taken = [], set()
    for c in cases:
        m = machine.Machine(**c)
        mine.append(json.loads(json.dumps(m.run())))
        taken |= m.taken
    entries = {(state, i) for state, found in machine.STATES.items() for i in range(len(found))}
    print(f"entries taken: {len(taken)} of {len(entries)}; not: {sorted(entries - taken)}", flush=True)
    data = json.dumps(cases)
    differing("parse5", cases, mine, answer(["node", HERE / "parse5_tokens.js"], data, env=NODE), lambda x: x)
    differing("html5lib", cases, mine, answer([args.python, HERE / "html5lib_tokens.py"], data), as_html5lib)


if __name__ == "__main__":
    main()
