"""Chooses, from random texts, some that take every entry of the table, and writes tests/standard/texts.jsonl: a line each, the text,
whether it is read in foreign content, and its tokens by machine.py. Each line is read from the data state on."""
import json
import pathlib

import machine
import random_texts

FILE = pathlib.Path(__file__).with_name("texts.jsonl")
FRONTS = {"Data": "", "RCDATA": "<title>", "RAWTEXT": "<style>", "ScriptData": "<script>", "PLAINTEXT": "<plaintext>"}
BY_HAND = ["&notin;&ampx", '<a b="&ampx&notit;&amp=">', "<a b='&amp;&lt'>", "<a b=&NotEqualTilde;x c=&#x>", "a\r\nb\rc"]


def row(text, foreign):
    return {"text": text, "foreign": foreign, "tokens": machine.Machine(text, foreign=foreign).run()}


def taken(r):
    m = machine.Machine(r["text"], foreign=r["foreign"])
    m.run()
    return m.taken


def chosen():
    """Those by hand, and then again and again the text that takes most of the entries that are left, for its length."""
    walks = [c for c in random_texts.walks(40000, 3) if c["state"] in FRONTS]
    rows = [{"text": FRONTS[c["state"]] + c["text"], "foreign": c["foreign"]} for c in walks]
    rows = [(r, taken(r)) for r in sorted(rows, key=lambda r: len(r["text"])) if len(r["text"]) < 70]
    found = [row(text, False) for text in BY_HAND]
    left = {(state, i) for state, entries in machine.STATES.items() for i in range(len(entries))}
    left = left.difference(*(taken(r) for r in found))
    while left:
        best, entries = max(rows, key=lambda pair: len(pair[1] & left) / (12 + len(pair[0]["text"])))
        assert entries & left, left
        found.append(row(best["text"], best["foreign"]))
        left -= entries
    return found


if __name__ == "__main__":
    FILE.write_text("".join(json.dumps(r, ensure_ascii=True) + "\n" for r in chosen()), encoding="utf-8")
