"""Runs the commands that README.md and the pages of docs/ show, and compares the programs and outputs that they quote.

A fenced block is checked by the words after its fence:

- `sh`: each line is a command. The block is run as it stands, by `bash -e`, in a folder that holds a copy of examples/, with the
  built programs `hq` and `dq` on the PATH. It must end with status 0 (a line may end in `|| true` where it is meant to fail).
- `sh build`: commands that build something, which aren't run here.
- `text output`, or another word before `output`: what the `sh` block before it must print, on standard output and standard error.
- `rust`: part of a file of crates/examples/src, line for line, apart from its indentation.
- `text`: part of tests/programs/print_examples/stdout, which is what the program `print_examples` must print.
- `python`: run by python3, where the Python package has its library, or DOM_QUERY_LIBRARY names one (`python output` is compared
  like `text output`).
- `c` and `c output`: built and run by tests/checks/c_and_python.py.
- Any other word (`ebnf`, `toml`, `html`, `css`): shown, not checked.

A block without a word is a fault, and so is a link to a file or a heading that isn't there."""
import os
import pathlib
import re
import shutil
import subprocess
import sys
import tempfile
import textwrap

sys.path.insert(0, str(pathlib.Path(__file__).resolve().parents[1] / "tools"))
from rows import ROOT, built  # noqa: E402

EXAMPLES = ROOT / "crates" / "examples"
PRINTED = ROOT / "tests" / "programs" / "print_examples" / "stdout"
SHOWN = {"ebnf", "shown", "toml", "html", "css", "json", "yaml", "make", "diff", "markdown", "antt", "contracts"}
SECONDS = 120


def pages():
    """README.md and the other pages for readers."""
    return [ROOT / "README.md", *sorted(ROOT.glob("[A-Z]*.md")), *sorted((ROOT / "docs").glob("*.md"))]


def blocks(page):
    """The fenced blocks of a page: the words after the fence, the number of the first line, and the lines."""
    words, start, held = None, 0, []
    for number, line in enumerate(page.read_text(encoding="utf-8").splitlines(), 1):
        if not line.lstrip().startswith("```"):
            held.append(line)
        elif words is None:
            words, start, held = line.strip()[3:].split(), number, []
        else:
            yield words, start, held
            words = None


def is_part_of(block, text):
    """Whether the text contains the block's lines one after the other, apart from their indentation."""
    lines = text.splitlines()
    wanted = textwrap.dedent("\n".join(block))
    pieces = (lines[at : at + len(block)] for at in range(len(lines) - len(block) + 1))
    return any(textwrap.dedent("\n".join(piece)) == wanted for piece in pieces)


def run(command, words, folder):
    """What a block prints, and its status."""
    folders = [str(built(name).parent) for name in ("hq", "dq")]
    env = {**os.environ, "PATH": ":".join([*folders, os.environ["PATH"]]), "LC_ALL": "C.UTF-8", "PYTHONPATH": str(ROOT / "python")}
    program = ["python3", "-c"] if words[0] == "python" else ["bash", "-e", "-o", "pipefail", "-c"]
    try:
        ran = subprocess.run(
            [*program, command], cwd=folder, env=env, stdout=subprocess.PIPE, stderr=subprocess.STDOUT, timeout=SECONDS
        )
    except subprocess.TimeoutExpired:
        return f"nothing after {SECONDS} seconds", 1
    return ran.stdout.decode("utf-8", "replace"), ran.returncode


def fault_of_run(block, words, folder):
    """What a block printed, and what is wrong with it, if anything."""
    printed, status = run("\n".join(block), words, folder)
    return printed, None if status == 0 else f"this block ended with status {status}: {printed[-500:]}"


def has_python():
    """Whether the Python package and its library are there."""
    package = ROOT / "python" / "dom_query"
    return (package / "__init__.py").exists() and (any(package.glob("*.so")) or "DOM_QUERY_LIBRARY" in os.environ)


def faults_of(page, sources, printed_by_examples, counted):
    """The faults of a page's blocks; adds to `counted` how many blocks were checked."""
    with tempfile.TemporaryDirectory() as folder:
        shutil.copytree(ROOT / "examples", pathlib.Path(folder) / "examples")
        printed = None
        for words, start, block in blocks(page):
            where, fault = f"{page.relative_to(ROOT)}:{start}", None
            if not words:
                fault = "this block has no word after its fence"
            elif words[0] == "c" or (words[0] == "python" and not has_python()):
                continue
            elif words[-1] == "output":
                wanted = "\n".join(block) + "\n"
                if printed is None:
                    fault = "there is no command before this output"
                elif printed != "" and printed.rstrip("\n") != wanted.rstrip("\n"):
                    fault = f"the command prints {printed!r}"
                elif printed == "" and wanted.strip():
                    fault = "the command prints nothing"
            elif words == ["sh"]:
                printed, fault = fault_of_run(block, words, folder)
            elif words == ["python"]:
                printed, fault = fault_of_run(block, words, folder)
            elif words[0] == "rust":
                fault = None if any(is_part_of(block, text) for text in sources) else "no file of crates/examples/src has this"
            elif words == ["text"]:
                fault = None if is_part_of(block, printed_by_examples) else "the program `print_examples` doesn't print this"
            elif words[0] not in {"sh", "python", *SHOWN}:
                fault = f"unknown word {words[0]!r} after the fence"
            else:
                continue
            counted[0] += 1
            if fault:
                yield f"{where}: {fault}"


def anchor(heading):
    """The name by which a link finds a heading."""
    return re.sub(r"[^\w\- ]", "", heading.strip().lower().replace("`", "")).replace(" ", "-")


def headings(page):
    """The anchors of a page."""
    return {anchor(line.lstrip("#")) for line in page.read_text(encoding="utf-8").splitlines() if line.startswith("#")}


def broken_links(page, counted):
    """The links of a page to files of the repository, or headings, that aren't there."""
    text = re.sub(r"```.*?```", "", page.read_text(encoding="utf-8"), flags=re.S)
    for target in re.findall(r"\]\(([^)\s]+)\)", text):
        if re.match(r"[a-z]+:", target):
            continue
        counted[0] += 1
        file, _, heading = target.partition("#")
        to = (page.parent / file).resolve() if file else page
        if not to.exists():
            yield f"{page.relative_to(ROOT)}: a link to {target}, which isn't there"
        elif heading and to.suffix == ".md" and heading not in headings(to):
            yield f"{page.relative_to(ROOT)}: a link to {target}: there is no such heading"


def documents():
    """Checks all pages, and returns how many blocks and links are right and wrong."""
    sources = [file.read_text(encoding="utf-8") for file in sorted((EXAMPLES / "src").rglob("*.rt"))]
    printed = PRINTED.read_text(encoding="utf-8")
    ran = subprocess.run([built("print_examples")], stdin=subprocess.DEVNULL, capture_output=True, timeout=SECONDS)
    is_printed = ran.returncode == 0 and ran.stdout.decode("utf-8", "replace") == printed
    counted, faults = [1], [] if is_printed else [f"print_examples doesn't print {PRINTED.relative_to(ROOT)}"]
    for page in dict.fromkeys(pages()):
        faults += faults_of(page, sources, printed, counted)
        faults += broken_links(page, counted)
    for fault in faults:
        print(fault)
    print(f"blocks and links of documents: {counted[0] - len(faults)} passed, {len(faults)} failed")
    return counted[0] - len(faults), len(faults)


if __name__ == "__main__":
    sys.exit(1 if documents()[1] else 0)
