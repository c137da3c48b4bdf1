"""program_tokens.py TEST_CALLS COUNT SEED: tokens of random texts by page_tokens, as test_calls prints them for `web-tokens`, beside
those of the table of the tokenizer's states (tests/standard/machine.py). Compared are the kinds of the tokens, the names of tags and
doctypes, the texts of comments, and the characters, all in the data state; test_calls prints no attributes, and it doesn't switch
states, which the trees of `hq --tree` show."""
import pathlib
import random
import subprocess
import sys

sys.dont_write_bytecode = True
sys.path.insert(0, str(pathlib.Path(__file__).resolve().parents[2] / "standard"))
import machine  # noqa: E402
import random_texts  # noqa: E402

KINDS = ("start", "end", "comment", "doctype")


def expected(text):
    """What is printed, with the last token before or behind the characters: at the end of the text an open comment or doctype is behind."""
    tokens = machine.Machine(text, switches=False).run()
    lines = [f"{t[0]}: {t[1] or ''}\n" for t in tokens if t[0] in KINDS]
    characters = "text: " + "".join(t[1] for t in tokens if t[0] == "chars") + "\n"
    found = ["".join(lines) + characters + "end: -\n"]
    return found + (["".join(lines[:-1]) + characters + lines[-1]] if lines else [])


def main(program, count, seed):
    rng, bad, done = random.Random(int(seed)), 0, 0
    while done < int(count):
        pieces = rng.sample(random_texts.PIECES, rng.randint(3, 14)) if rng.random() < 0.5 else random_texts.PIECES
        text = "".join(rng.choice(pieces) for _ in range(rng.randint(1, 24))).replace("\0", "")
        # (what is printed is the text before the end of the input, so the text doesn't end in a reference)
        text += " ."
        ran = subprocess.run([program, "calls", f"web-tokens {text}"], input=b"", stdout=subprocess.PIPE)
        printed = ran.stdout.decode("utf-8")
        done += 1
        if not any(printed.startswith(it) for it in expected(text)):
            bad += 1
            if bad <= 10:
                print(f"{text!r}\n  program: {printed!r}\n  table:   {expected(text)!r}", flush=True)
    print(f"{done} texts, {bad} differ")
    return 1 if bad else 0


if __name__ == "__main__":
    if len(sys.argv) != 4:
        sys.exit(__doc__)
    sys.exit(main(*sys.argv[1:]))
