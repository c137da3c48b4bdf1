"""What a release takes of the kit: its tools, and the libraries of it that are linked in, with their licences."""
import pathlib
import re
import subprocess
import sys
from typing import NamedTuple

HERE = pathlib.Path(__file__).resolve().parent
ROOT = HERE.parents[1]
sys.path.insert(0, str(ROOT / "tests" / "tools"))
import passed  # noqa: E402


class Stop(Exception):
    """Why no release is made."""


class Part(NamedTuple):
    """A library of the kit: what it follows, and under which licence."""

    name: str
    follows: str
    version: str
    licence: str
    files: tuple


def folder():
    found = passed.kit()
    if found is None:
        raise Stop("no command rt: put the folder bin of rattle-kit-13f on the PATH")
    return found


def tool(name, *words):
    """What a tool of LLVM prints; the kit's clang is all of them, by the name that it is started under."""
    clang = folder() / "toolchain" / "bin" / "clang"
    ran = subprocess.run([name, *map(str, words)], executable=str(clang), stdout=subprocess.PIPE, stderr=subprocess.PIPE)
    if ran.returncode:
        raise Stop(f"{name}: {ran.stderr.decode(errors='replace').strip()}")
    return ran.stdout.decode()


def named():
    """What crates.txt says: the crates that each crate names."""
    lines = (ROOT / "crates.txt").read_text(encoding="utf-8").splitlines()
    pairs = [line.split(":", 1) for line in lines if ":" in line and not line.startswith("#")]
    return {name.split()[0]: uses.split() for name, uses in pairs}


def linked(*crates):
    """The names of the kit's libraries that these crates are made of."""
    ours, found, of_kit = named(), list(crates), ["std"]
    for name in found:
        found += [it for it in ours[name] if it in ours and it not in found]
        of_kit += [it for it in ours[name] if it not in ours and it not in of_kit]
    for name in of_kit:
        uses = (folder() / "rlibs" / f"{name}.rlib" / "format").read_text(encoding="utf-8")
        of_kit += [it for it in re.findall(r"(?m)^dep (\w+)$", uses) if it not in of_kit]
    return sorted(of_kit)


def listed():
    """The parts that kit_crates.txt lists, by their names."""
    lines = (HERE / "kit_crates.txt").read_text(encoding="utf-8").splitlines()
    rows = [[it.strip() for it in line.split("|")] for line in lines if not line.startswith("#")]
    return {row[0]: Part(*row[:4], tuple(row[4].split())) for row in rows}


def parts(*crates):
    """The parts of the kit that these crates are linked from."""
    known, names = listed(), linked(*crates)
    lacking = [name for name in names if name not in known]
    if lacking:
        raise Stop(f"tools/release/kit_crates.txt doesn't say under which licence {', '.join(lacking)} is")
    return [known[name] for name in names]


def text_of(part, file):
    return (folder() / "rattle" / part.name / file).read_text(encoding="utf-8").strip() + "\n"


APACHE = "On Debian systems the text of the Apache License 2.0 is in /usr/share/common-licenses/Apache-2.0.\n"
CHOSEN = "Where a work may be used under one licence or another, the one whose text stands below was chosen.\n"


def licences(found, on_debian=False):
    """The licences of these parts as one text, each text once, with the names of the parts that are under it."""
    texts = {}
    for part in found:
        for file in part.files:
            text = text_of(part, file)
            if on_debian and "Apache License" in text[:200]:
                continue
            texts.setdefault(text, []).append(f"{part.follows} {part.version}".strip())
    silent = [part.name for part in found if not part.files]
    lines = ["What is linked in besides the project's own code", "", "Libraries of Rattle's kit, which follow these works:", ""]
    lines += [f"  {it.name}: follows {it.follows} {it.version}, {it.licence}" for it in found if it.files]
    lines += ["", f"Libraries of the kit for which it states no licence: {', '.join(silent)}."]
    lines += ["", "The start files of glibc and of GCC, under the exceptions of their licences for linked programs.", "", CHOSEN]
    lines += [APACHE] if on_debian else []
    for text, names in texts.items():
        lines += ["-" * 78, "", f"For {', '.join(dict.fromkeys(names))}:", "", text]
    return "\n".join(lines)
