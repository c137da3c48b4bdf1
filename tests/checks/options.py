"""Compares the options that `hq --help` lists with those of the man page, of docs/HQ.md and of the completions for bash and zsh,
asks mandoc, where it is installed, whether it accepts the man pages, and looks whether `hq --help` and `hq --version` print every
text of the source of the command line."""
import pathlib
import re
import shutil
import subprocess
import sys

sys.path.insert(0, str(pathlib.Path(__file__).resolve().parents[1] / "tools"))
from rows import ROOT, built  # noqa: E402

HELP = re.compile(r"^ +(?:-(\w), )?--([a-z-]+)", re.M)


def listed():
    """The options of `hq --help`, long and short."""
    text = subprocess.run([built("hq"), "--help"], capture_output=True, check=True, text=True).stdout
    return [f"--{name}" for _, name in HELP.findall(text)] + [f"-{short}" for short, _ in HELP.findall(text) if short]


def missing():
    """The options that a file lacks, each with the file."""
    pages = {
        "docs/man/hq.1": lambda option: "Fl " + option[1:].replace("-", "\\-"),
        "docs/HQ.md": lambda option: option,
        "docs/completions/hq.bash": lambda option: option,
        "docs/completions/_hq": lambda option: option,
    }
    for file, written in pages.items():
        text = (ROOT / file).read_text(encoding="utf-8")
        known = set(re.findall(r"(?<![\w-])--?[\w-]*\w", text.replace("\\-", "-").replace("Fl -", "--").replace("Fl ", "-")))
        for option in listed():
            known_by_all = option in ("-h", "-V", "--help", "--version")
            if option not in known and not (known_by_all and file != "docs/man/hq.1"):
                yield f"{file}: the option {option} isn't there"


def unprinted():
    """The texts of the command line's source that `--help` doesn't print, and the version, if `--version` doesn't print it."""
    source = (ROOT / "crates" / "hq_pages" / "src" / "command.rt").read_text(encoding="utf-8")
    says = lambda option: subprocess.run([built("hq"), option], capture_output=True, check=True, text=True).stdout
    helped = " ".join(says("--help").split())
    texts = re.findall(r'(?:\.(?:about|help)\(|const (?:USAGE|AFTER): &str = |^    \("[a-z-]+",.*, )"((?:[^"\\]|\\.)*)"[);]', source, re.M)
    for text in texts:
        shown = " ".join(text.replace('\\"', '"').split())
        if shown and shown not in helped:
            yield f"hq --help doesn't print {shown!r}"
    if len(texts) < 20:
        yield f"command.rt has {len(texts)} texts"
    version = re.search(r'VERSION: &str = "([^"]*)"', source)[1]
    if says("--version") != f"hq {version}\n":
        yield f"hq --version doesn't print {version}"


def options():
    """Returns how many comparisons are right and wrong."""
    faults = [*missing(), *unprinted()]
    if shutil.which("mandoc"):
        for name in ("hq", "dq"):
            said = subprocess.run(["mandoc", "-Tlint", ROOT / "docs" / "man" / f"{name}.1"], capture_output=True, text=True).stdout
            faults += [line for line in said.splitlines() if "referenced manual not found" not in line]
    for fault in faults:
        print(fault)
    passed = 4 * len(listed()) - len(faults)
    print(f"options of hq in its pages: {passed} passed, {len(faults)} failed")
    return passed, len(faults)


if __name__ == "__main__":
    sys.exit(1 if options()[1] else 0)
