"""Lays out long lines of definitions (specs/*.antt, at most 140 columns) and of proofs (proofs/*.antt, at most 300).

    sheets.py FILE ..   lays the files out anew

A line is broken where its parentheses are nested least: before an operator, after an arrow, an equals sign or a semicolon, or else at a
space. What follows is indented by four columns more. A list of imports becomes several. Run `rt fmt` afterwards. The generators of
definitions call `laid_out`, and their checks `same`."""
import pathlib
import re
import sys

WIDTH = {"specs": 140, "proofs": 300}
# Operators that begin a line, and signs that end one.
BEGIN = ("∷", "++", "∙", "×", "||", "&&", "⊎", "+", "|", "then", "else", "in")
END = ("→", "=", "↦", ";", ",")
IMPORTS = re.compile(r"((?:pub )?use \S+\.)\{(.*)\}(.*)")


def places(line, start):
    """The places after `start` at which a line may be broken, each with how deep it is nested and whether it is a plain space."""
    depth, quoted, at = 0, False, 0
    while at < len(line):
        sign = line[at]
        if quoted:
            at += sign == "\\"
            quoted = sign != '"' or line[at - (sign == "\\")] == "\\"
        elif sign == '"':
            quoted = True
        elif sign in "([{":
            depth += 1
        elif sign in ")]}":
            depth -= 1
        elif sign == " " and at > start:
            before, after = line[:at].rsplit(" ", 1)[-1], line[at + 1 :].split(" ", 1)[0]
            yield at, depth, not (after in BEGIN or before in END or before.endswith((";", ",")))
        at += 1


def in_lines(line, width):
    """The line in several of at most that width, where that can be."""
    indent = len(line) - len(line.lstrip())
    made, more = [], " " * (indent + 4)
    while len(line) > width:
        found = [it for it in places(line, len(more)) if it[0] <= width]
        if not found:
            break
        at = min(found, key=lambda it: (it[1] * 2 + it[2], -it[0]))[0]
        made.append(line[:at].rstrip())
        line = more + line[at + 1 :].lstrip()
    return [*made, line]


def imports(line, width):
    """A list of imports in several."""
    head, names, tail = IMPORTS.fullmatch(line).groups()
    rows, room = [[]], width - len(head) - len(tail) - 2
    for name in re.split(r", (?![^()]*\))", names):
        if rows[-1] and len(", ".join([*rows[-1], name])) > room:
            rows.append([])
        rows[-1].append(name)
    return [f"{head}{{{', '.join(row)}}}{tail}" for row in rows]


def comment(line, width):
    """A comment in several lines."""
    indent, rows = line[: line.index("--")], [""]
    for word in line[line.index("--") + 2 :].split():
        if rows[-1] and len(indent) + 3 + len(rows[-1]) + 1 + len(word) > width:
            rows.append("")
        rows[-1] = f"{rows[-1]} {word}".strip()
    return [f"{indent}-- {row}" for row in rows]


def laid_out(text, width):
    """The text with no line over that width, where that can be."""
    made = []
    for line in text.split("\n"):
        if len(line) <= width:
            made.append(line)
        elif line.lstrip().startswith("--"):
            made += comment(line, width)
        elif IMPORTS.fullmatch(line):
            made += imports(line, width)
        else:
            made += in_lines(line, width)
    return "\n".join(made)


def same(made, file):
    """Whether the file has what was made, whatever the layout that `rt fmt` has given it: it may indent otherwise, break more lines and
    end a list in parentheses with a comma."""
    return squeezed(made) == squeezed(file.read_text(encoding="utf-8"))


def squeezed(text):
    """A text without white space and without commas before a closing parenthesis."""
    return re.sub(r",(?=[)\]])", "", "".join(text.split()))


def main():
    for name in sys.argv[1:]:
        file = pathlib.Path(name)
        folder = next((it for it in WIDTH if it in file.parts), "specs")
        text = file.read_text(encoding="utf-8")
        laid = laid_out(text, WIDTH[folder])
        if laid != text:
            file.write_text(laid, encoding="utf-8")


if __name__ == "__main__":
    main()
