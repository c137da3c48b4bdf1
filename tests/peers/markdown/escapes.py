"""Random texts that look like Markdown, escaped and put between neighbours, read by cmark-gfm and cmark: is each read as the text?

    escapes.py COUNT [SEED]        prints the texts that are read otherwise, and how many there were

What is compared is the words of the paragraph, and its elements: those of the neighbours and no others. Addresses of mail are left
out, of which GFM makes links whatever stands before them. Needs Debian's cmark-gfm, cmark and python3-html5lib (run it with
/usr/bin/python3), and the test program, which `tests/tools/programs.py test_calls` builds."""
import pathlib
import random
import subprocess
import sys

import html5lib

PROGRAM = pathlib.Path(__file__).resolve().parents[2] / "programs" / "out" / "test_calls"
PIECES = (
    "a b c w ww www www. . * ** _ __ ` `` [ ] ( ) ! < > & &amp; &# ; # 3 x : / // http:// https://x.org ftp:// ~ ~~ \\ | - + = ' \" é 中"
    " \u00a0 “ word a_b <b> </b> <!-- <? {x} $ % ^ , ? @"
).split(" ") + [" ", " ", " ", " "]
NEIGHBOURS = [
    ("", ""),
    ("**", "**"),
    ("*", "*"),
    ("[", "](u)"),
    ("<sup>", "</sup>"),
    ("`c`", "`d`"),
    ("![i](j)", "[l](u)"),
]
READERS = {
    "cmark-gfm": ["cmark-gfm", "--unsafe", "-e", "table", "-e", "strikethrough", "-e", "tasklist", "-e", "autolink"],
    "cmark": ["cmark", "--unsafe"],
}


def run(command, text):
    return subprocess.run(command, input=text.encode(), stdout=subprocess.PIPE, check=True).stdout.decode()


def seen(paragraph):
    return " ".join("".join(paragraph.itertext()).split()), sorted(it.tag for it in paragraph.iter() if it is not paragraph)


def paragraphs(html):
    return [seen(it) for it in html5lib.parse(html, namespaceHTMLElements=False).find("body")]


def main(words):
    count, r = int(words[0]), random.Random(int(words[1]) if len(words) > 1 else 1)
    texts = []
    while len(texts) < count:
        text = "".join(r.choice(PIECES) for _ in range(r.randint(1, 8))).strip(" \u00a0")
        if text and "@" not in text and "  " not in text and "\u00a0" not in (text[0], text[-1]):
            texts.append(text)
    wrong = total = 0
    for before, after in NEIGHBOURS:
        link = ["link"] if after.startswith("[") else []
        made = [run([PROGRAM, "commonmark", "escape", *link], text) for text in texts]
        page = "\n\n".join(f"x {before}{text}{after} y" for text in made)
        plain = "\n\n".join(f"x {before}w{after} y" for _ in texts[:1])
        for name, reader in READERS.items():
            shape = paragraphs(run(reader, plain))[0]
            for text, written, found in zip(texts, made, paragraphs(run(reader, page)), strict=True):
                total += 1
                front, back = shape[0].split("w", 1)
                wanted = " ".join(f"{front}{text}{back}".split()), shape[1]
                if found != wanted:
                    wrong += 1
                    if wrong < 10:
                        print(f"{name}: {before}{written}{after}\n  page {wanted}\n  read {found}")
    print(f"{wrong} of {total} texts are read otherwise")


if __name__ == "__main__":
    main(sys.argv[1:])
