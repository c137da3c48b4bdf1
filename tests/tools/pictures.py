"""Draws the pictures of README.md: docs/pictures/road.svg, what happens to a page, and docs/pictures/times.svg, times beside other
libraries. Both are made of docs/pictures/figures.json alone.

    pictures.py           draws them anew
    pictures.py --check   compares them with what would be drawn; its status is 1 where one differs

Each figure of times must stand in docs/PERFORMANCE.md, which says how it was measured."""
import json
import math
import pathlib
import re
import sys
from xml.sax.saxutils import escape

ROOT = pathlib.Path(__file__).resolve().parents[2]
FOLDER = ROOT / "docs" / "pictures"
PERFORMANCE = ROOT / "docs" / "PERFORMANCE.md"
COLOURS = {"proved": "#2e7d32", "both": "#7cb342", "outside": "#90a4ae"}
OURS, THEIRS, INK = "#2e7d32", "#90a4ae", "#263238"
FONT = 'font-family="Helvetica, Arial, sans-serif"'


def text(x, y, words, size=14, anchor="start", colour=INK, weight="normal"):
    """A line of text that begins, ends or has its middle at that place."""
    return f'<text x="{x}" y="{y}" {FONT} font-size="{size}" font-weight="{weight}" text-anchor="{anchor}" fill="{colour}">{escape(words)}</text>'


def box(x, y, width, height, colour):
    """A filled box with round corners."""
    return f'<rect x="{x}" y="{y}" width="{width:g}" height="{height}" rx="6" fill="{colour}"/>'


def drawing(width, height, title, parts):
    """A whole picture, with its title for those who don't see it."""
    head = f'<svg xmlns="http://www.w3.org/2000/svg" viewBox="0 0 {width} {height}" width="{width}" height="{height}" role="img">'
    lines = [head, f"<title>{escape(title)}</title>", f'<rect width="{width}" height="{height}" fill="#ffffff"/>', *parts, "</svg>"]
    return "\n".join(lines) + "\n"


def road(figures):
    """The steps from bytes to what is written, one below the other, and what the colours mean."""
    parts, y = [text(20, 32, figures["title"], 18, weight="bold")], 52
    for number, step in enumerate(figures["steps"]):
        parts.append(box(20, y, 230, 44, COLOURS[step["state"]]))
        parts.append(text(135, y + 28, step["name"], 16, "middle", "#ffffff", "bold"))
        parts.append(text(270, y + 28, step["note"]))
        if number + 1 < len(figures["steps"]):
            parts.append(f'<path d="M135 {y + 44} v16 m-6 -7 l6 7 l6 -7" stroke="{INK}" stroke-width="2" fill="none"/>')
        y += 60
    y += 8
    for state in figures["states"]:
        parts += [box(20, y, 22, 16, COLOURS[state["state"]]), text(52, y + 13, state["says"])]
        y += 24
    parts.append(text(20, y + 16, figures["trusted"], 13))
    return drawing(800, y + 34, figures["title"], parts)


def bar(value, most):
    """The length of a bar in a scale in which each factor of ten is as long as the others; the scale begins at 1."""
    return 400 * math.log10(value) / math.log10(most)


def times(figures):
    """A group of bars for each task, ours first."""
    most = max(it["ms"] for group in figures["groups"] for it in group["bars"])
    parts, y = [text(20, 32, figures["title"], 18, weight="bold"), text(20, 54, "The scale is logarithmic.", 13)], 76
    for group in figures["groups"]:
        parts.append(text(20, y + 14, group["what"], 14, weight="bold"))
        y += 24
        for number, it in enumerate(group["bars"]):
            length = bar(it["ms"], most)
            parts += [text(20, y + 14, it["name"], 13), box(140, y, length, 18, THEIRS if number else OURS)]
            parts.append(text(round(148 + length), y + 14, f"{it['ms']:,g}", 13))
            y += 23
        y += 12
    return drawing(680, y + 8, figures["title"], parts)


def pictures():
    """The text of each picture, by its file's name."""
    figures = json.loads((FOLDER / "figures.json").read_text(encoding="utf-8"))
    return {"road.svg": road(figures["road"]), "times.svg": times(figures["times"])}


def unmeasured():
    """The figures of times that PERFORMANCE.md doesn't have."""
    figures = json.loads((FOLDER / "figures.json").read_text(encoding="utf-8"))
    measured = set(re.findall(r"\d[\d,]*(?:\.\d+)?", PERFORMANCE.read_text(encoding="utf-8")))
    shown = [f"{it['ms']:,}" for group in figures["times"]["groups"] for it in group["bars"]]
    return [it for it in shown if it not in measured]


def checked():
    """Returns how many pictures and figures are as they must be, and how many aren't."""
    wrong = [name for name, drawn in pictures().items() if not (FOLDER / name).is_file() or (FOLDER / name).read_text(encoding="utf-8") != drawn]
    for name in wrong:
        print(f"docs/pictures/{name} isn't what tests/tools/pictures.py draws of figures.json")
    lost = unmeasured()
    for figure in lost:
        print(f"docs/pictures/figures.json: {figure} isn't in docs/PERFORMANCE.md")
    figures = json.loads((FOLDER / "figures.json").read_text(encoding="utf-8"))
    total = len(pictures()) + sum(len(group["bars"]) for group in figures["times"]["groups"])
    failed = len(wrong) + len(lost)
    print(f"pictures: {total - failed} passed, {failed} failed")
    return total - failed, failed


def main():
    if sys.argv[1:] == ["--check"]:
        return 1 if checked()[1] else 0
    for name, drawn in pictures().items():
        (FOLDER / name).write_text(drawn, encoding="utf-8")
    return 0


if __name__ == "__main__":
    sys.exit(main())
