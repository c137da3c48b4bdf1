"""The list of what programs rely on that were built with the C library: include/dom_query.abi.

Each line is a function, a constant, or the fields of a struct, as include/dom_query.h declares them, with the version that it came with:

    library libdom_query.so.0
    DOM_QUERY_1.0 function int64_t dq_kind(dq_document *, uint32_t)
    DOM_QUERY_1.0 constant DQ_ELEMENT = 1
    DOM_QUERY_1.0 struct dq_document { void *at; int64_t fault; size_t byte; bool full; }

A line of a released version is never changed or removed: programs that were built with it would break, and such a change needs a new
name for the library. What is new gets the version of the release that it comes with, and a function's symbol has that version.

    abi.py             compares the header with the list; the status is 1 where they differ
    abi.py --write     writes the lines of the version that isn't released yet; those of released versions stay
    abi.py --map       prints the script by which the linker gives the symbols their versions"""
import pathlib
import re
import sys
from typing import NamedTuple

ROOT = pathlib.Path(__file__).resolve().parents[2]
HEADER, LIST, VERSION, CHANGES = (ROOT / it for it in ("include/dom_query.h", "include/dom_query.abi", "VERSION", "CHANGELOG.md"))
LIBRARY = "libdom_query.so.0"


class Line(NamedTuple):
    """A line of the list: a version, `function`, `constant` or `struct`, and what the header declares."""

    version: str
    kind: str
    text: str

    def name(self):
        """The name that is declared."""
        return re.search(r"\bdq_\w+(?=\()|\bDQ_\w+|\bdq_\w+", self.text)[0]

    def in_words(self):
        return " ".join(self)


def next_version():
    """The version of what comes with the next release: DOM_QUERY_1.0 for 1.0.0."""
    return "DOM_QUERY_" + ".".join(VERSION.read_text().strip().split(".")[:2])


def is_released():
    """Whether the version is released: the first heading of the changelog doesn't say that it isn't."""
    heading = re.search(r"(?m)^## .*$", CHANGES.read_text(encoding="utf-8"))
    return "not released yet" not in heading[0]


def plain(text):
    """A header without comments, directives and needless space."""
    text = re.sub(r"/\*.*?\*/", " ", text, flags=re.S)
    text = re.sub(r'(?m)^\s*#.*$|extern "C" \{|\bDQ_API\b', " ", text)
    return re.sub(r"\s+", " ", text)


def parameter(text):
    """The type of a parameter."""
    words = text.strip()
    return re.sub(r"\s*\b\w+$", "", words).strip() if re.search(r"[\w*]\s*\b\w+$", words) else words


def declared(header):
    """What a header declares, as lines of the next version."""
    text, found = plain(header), []
    for kind, name, given in re.findall(r"([\w ]+[\w*] ?\*?)\b(dq_\w+)\(([^()]*)\);", text):
        found.append(("function", f"{kind.strip()} {name}({', '.join(parameter(it) for it in given.split(','))})"))
    found += [("struct", f"{name} {{ {fields.strip()} }}") for name, fields in re.findall(r"typedef struct (\w+) \{([^}]*)\}", text)]
    for body in re.findall(r"enum \w+ \{([^}]*)\}", text):
        found += [("constant", f"{name} = {value}") for name, value in re.findall(r"(DQ_\w+) = (-?\w+)", body)]
    # (each release has a version of its own)
    defined = re.findall(r"(?m)^#define (DQ_(?!VERSION|API\b)\w+) (.+?)\s*(?:/\*.*)?$", header)
    found += [("constant", f"{name} = {value}") for name, value in defined]
    return [Line(next_version(), *it) for it in found]


def listed():
    """The lines of the list."""
    rows = re.findall(r"(?m)^(DOM_QUERY_\S+) (function|constant|struct) (.*)$", LIST.read_text(encoding="utf-8"))
    return [Line(*row) for row in rows]


def order(version):
    return [int(it) for it in re.findall(r"\d+", version)]


def faults():
    """How the header differs from the list."""
    header, old = declared(HEADER.read_text(encoding="utf-8")), listed()
    there, known = {line[1:] for line in header}, {line[1:] for line in old}
    yield from (f"{line.in_words()}: a program may rely on this, and the header doesn't have it" for line in old if line[1:] not in there)
    yield from (f"{line.in_words()}: not in the list (tools/release/abi.py --write)" for line in header if line[1:] not in known)


def write():
    """Writes the list: what was released stays, and what else the header declares comes with the next release. Returns why it can't."""
    kept = [line for line in listed() if line.version != next_version() or is_released()] if LIST.exists() else []
    known = {line[1:] for line in kept}
    new = [line for line in declared(HEADER.read_text(encoding="utf-8")) if line[1:] not in known]
    if new and is_released():
        return f"{next_version()} is released, and {new[0].text} is new: raise VERSION first, and begin its part of CHANGELOG.md"
    lines = sorted([*kept, *new], key=lambda it: (order(it.version), it.kind, it.name()))
    LIST.write_text("\n".join([f"library {LIBRARY}", *(line.in_words() for line in lines)]) + "\n", encoding="utf-8")
    return None


def functions():
    """The functions of the list with their versions."""
    return {line.name(): line.version for line in listed() if line.kind == "function"}


def script():
    """The linker's script of versions. Each version has those before it below it."""
    found, lines, below = functions(), [], ""
    for version in sorted(set(found.values()), key=order):
        names = " ".join(f"{name};" for name in sorted(found) if found[name] == version)
        hidden = "" if below else " local: *;"
        lines.append(f"{version} {{ global: {names}{hidden} }}{below};")
        below = f" {version}"
    return "\n".join(lines) + "\n"


def main(words):
    found = []
    if words == ["--write"]:
        found = [it for it in [write()] if it]
    elif words == ["--map"]:
        print(script(), end="")
    elif words:
        print(__doc__, file=sys.stderr)
        return 2
    else:
        found = list(faults())
    for line in found:
        print(line)
    return 1 if found else 0


if __name__ == "__main__":
    sys.exit(main(sys.argv[1:]))
