"""Compares how well programs find the articles of pages.

    articles.py FOLDER NAME=COMMAND ..

FOLDER has the folders pages and texts (or gold), as tests/articles has: NAME.html and NAME.txt. Each COMMAND is run with the name
of a page behind it, and prints the text of the article; `hq --article --any --text` is such a command. For each of them the script
prints precision, recall and F1 of the words, averaged over the pages, the pages below 80, and the time of all runs; then each page
on which two commands differ by more than 5."""
import pathlib
import shlex
import subprocess
import sys
import time

sys.path.insert(0, str(pathlib.Path(__file__).resolve().parents[1] / "checks"))
from articles import words  # noqa: E402


def scores(found, wanted):
    """Precision, recall and F1, as shares of 100."""
    common = sum((found & wanted).values())
    precision = 100 * common / max(1, sum(found.values()))
    recall = 100 * common / max(1, sum(wanted.values()))
    return precision, recall, 2 * precision * recall / (precision + recall) if common else 0.0


def run(command, page):
    """The text that a command prints for a page; empty if it takes more than a minute."""
    try:
        ran = subprocess.run([*shlex.split(command), page], capture_output=True, timeout=60)
    except subprocess.TimeoutExpired:
        return ""
    return ran.stdout.decode("utf-8", "replace")


def main(folder, *programs):
    """Measures all programs on all pages of a folder."""
    folder = pathlib.Path(folder)
    texts = folder / "texts" if (folder / "texts").is_dir() else folder / "gold"
    wanted = {file.stem: words(file.read_text(encoding="utf-8")) for file in sorted(texts.glob("*.txt"))}
    wanted = {name: text for name, text in wanted.items() if text}
    of_all = {}
    for program in programs:
        label, command = program.split("=", 1)
        begun = time.monotonic()
        got = {name: scores(words(run(command, folder / "pages" / f"{name}.html")), text) for name, text in wanted.items()}
        took = time.monotonic() - begun
        average = [sum(score[part] for score in got.values()) / len(got) for part in range(3)]
        low = sum(score[2] < 80 for score in got.values())
        print(f"{label}: precision {average[0]:.1f}, recall {average[1]:.1f}, F1 {average[2]:.1f}; {low} of {len(got)} below 80; {took:.1f} s")
        of_all[label] = got
    for name in wanted:
        row = {label: got[name][2] for label, got in of_all.items()}
        if max(row.values()) - min(row.values()) > 5:
            print(f"{name}: " + ", ".join(f"{label} {score:.0f}" for label, score in row.items()))


if __name__ == "__main__":
    if len(sys.argv) < 3:
        sys.exit(__doc__)
    main(*sys.argv[1:])
