"""Every way to mark some words as strong and emphasised, written as CommonMark and read back by cmark-gfm: is the text the same?

    marks.py [COUNT]        prints texts that are read otherwise, and how many are: of all ways to mark COUNT words, 4 if it isn't given

Each word is in no mark, in one, or in both in either order, and between two words is a space or nothing. Readers decide on stars by
what stands beside them, so each way is read by itself, as a paragraph. With a second argument the words are punctuation in turn with
letters: `marks.py 3 x`. It needs what commonmark.py needs; PROGRAM names another command than the test program's."""
import itertools
import os
import shlex
import sys

from commonmark import PROGRAM, READER, run, tree_of

COMMAND = shlex.split(os.environ.get("PROGRAM", "")) or [str(PROGRAM), "commonmark", "page"]
MARKS = ("{}", "<i>{}</i>", "<b>{}</b>", "<b><i>{}</i></b>", "<i><b>{}</b></i>", "<s><b>{}</b></s>")
PER_PAGE = 200


def ways(count, words):
    """The fragments: every way to mark that many words, with and without spaces between them."""
    for marks in itertools.product(MARKS, repeat=count):
        for gaps in itertools.product(("", " "), repeat=count - 1):
            for texts in words:
                yield "".join(mark.format(text) + gap for mark, text, gap in zip(marks, texts, (*gaps, "")))


def texts_of(html):
    return ["".join(it.itertext()).split() for it in tree_of(html).iter("p")]


def main(given):
    count = int(given[0]) if given else 4
    words = ["abcd"[:count]] if len(given) < 2 else ["".join(it) for it in itertools.product("a(", repeat=count)]
    total = wrong = 0
    every = ways(count, words)
    while batch := list(itertools.islice(every, PER_PAGE)):
        page = "".join(f"<p>{it}</p>" for it in batch)
        made = run(COMMAND, page)
        for fragment, one, two in zip(batch, texts_of(page), texts_of(run(READER, made)), strict=True):
            total += 1
            wrong += one != two
            if one != two and wrong <= 20:
                print(f"{fragment}\n  page {' '.join(one)}\n  read {' '.join(two)}", flush=True)
    print(f"{wrong} of {total} texts are read otherwise")
    return 1 if wrong else 0


if __name__ == "__main__":
    sys.exit(main(sys.argv[1:]))
