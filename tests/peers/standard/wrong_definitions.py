"""Changes the tables and definitions of crates/standard_tokens, one place at a time, and sees that the laws are then no longer proved: each
place is one that the laws rest on. Run outside the gate, since each change takes a check of the crate: wrong_definitions.py [WORD..] tries
those changes whose description has one of the words."""
import pathlib
import shutil
import subprocess
import sys
import tempfile

ROOT = pathlib.Path(__file__).resolve().parents[3]
TABLE = "docs/standard/tokenizer.txt"
PLAIN = "crates/standard_tokens/specs/PlainMarkup.antt"
# What is changed, in which file, text before the change by which it is found, the old text, and the new.
CHANGES = [
    ("a writer that leaves < in a text", PLAIN, "is_text_char c = ", "|| 60 == c)", ")"),
    ("a writer that leaves a quote in a value", PLAIN, "is_value_char c = ", "34 == c || ", ""),
    ("a writer that leaves & in a value", PLAIN, "is_value_char c = ", " || 38 == c)", ")"),
    ("a writer that leaves --!> in a comment", PLAIN, "", ' || contains_word eqb (codes "--!>") text)', ")"),
    ("a writer that leaves <!-- in a script", PLAIN, "lacks_end Script name text = ", ' || contains_word eqb (codes "<!--") text)', ")"),
    ("< is a character of text", TABLE, "== 1 Data\n", "< | | -> TagOpen", "< | emit cur |"),
    ("a quote stays in a value", TABLE, "== 36 AttributeValueDoubleQuoted\n", '" | | -> AfterAttributeValueQuoted', '" | attr.value + cur |'),
    ("a tag's end goes to PLAINTEXT", TABLE, "== 8 TagName\n", "> | emit tag | -> Data", "> | emit tag | -> PLAINTEXT"),
    ("an end tag in a script is text", TABLE, "== 17 ScriptDataEndTagName\n", "> if appropriate | emit tag | -> Data\n", ""),
    ("a comment goes on behind -->", TABLE, "== 51 CommentEnd\n", "> | emit comment | -> Data", "> | emit comment | -> Comment"),
    ("a reference loses its character", TABLE, "== 73 NamedCharacterReference\n", "name | name, flush | -> return", "name | name | -> return"),
]  # fmt: skip


def changed(text, before, old, new):
    """The text with one place changed, the first behind `before`."""
    start = text.index(before)
    at = text.index(old, start)
    return text[:at] + new + text[at + len(old) :]


def copy_to(folder):
    """The crate, with its tables and what makes its definitions, as a workspace of its own."""
    crate = "crates/standard_tokens"
    shutil.copytree(ROOT / crate, folder / crate, ignore=shutil.ignore_patterns("out"))
    for part in ("docs/standard", "tests/standard"):
        shutil.copytree(ROOT / part, folder / part)
    shutil.copy(ROOT / "HANDLES", folder)
    (folder / "crates.txt").write_text("standard_tokens:\n")


def proved(folder):
    ran = subprocess.run(["rt", "check", "--jobs", "1"], cwd=folder / "crates/standard_tokens", capture_output=True, text=True)
    return "logic=proved" in ran.stdout + ran.stderr


def main():
    words, missed, tried = sys.argv[1:], 0, 0
    with tempfile.TemporaryDirectory() as room:
        folder = pathlib.Path(room)
        copy_to(folder)
        for what, file, before, old, new in CHANGES:
            if words and not any(word in what for word in words):
                continue
            tried += 1
            kept = (folder / file).read_text(encoding="utf-8")
            (folder / file).write_text(changed(kept, before, old, new), encoding="utf-8")
            subprocess.run([sys.executable, folder / "tests/standard/definitions.py"], check=True)
            still = proved(folder)
            missed += still
            print(f"{what}: {'STILL PROVED' if still else 'no longer proved'}", flush=True)
            (folder / file).write_text(kept, encoding="utf-8")
        subprocess.run([sys.executable, folder / "tests/standard/definitions.py"], check=True)
    print(f"{tried} changes, {missed} of them still proved")
    return 1 if missed else 0


if __name__ == "__main__":
    sys.exit(main())
