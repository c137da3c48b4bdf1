"""How many minutes of a processor each crate takes in the gate, and how much memory.

gate.py and edits.py start the prover through this script (`measured`): it runs the command, and adds a line to out/minutes.txt: the
kind of work (`proof` or `edits`), the crate, the seconds of a processor, and the most memory of one process, in MB. So these numbers are
those of the runs since that file was removed; `./check --anew` begins with removing it.

`minutes.py` prints them as a table, the longest first. `minutes.py --write` puts the table into CONTRIBUTING.md."""
import os
import pathlib
import re
import signal
import subprocess
import sys

ROOT = pathlib.Path(__file__).resolve().parents[2]
FOUND = ROOT / "out" / "minutes.txt"
PAGE = ROOT / "CONTRIBUTING.md"
TABLE = re.compile(r"(?<=<!-- minutes -->\n).*?(?=<!-- end of minutes -->)", re.S)
# A crate below this is counted with others in the last row.
LITTLE = 0.5


def measured(rt, kind):
    """Has the command `rt` start the prover through this script."""
    FOUND.parent.mkdir(exist_ok=True)
    before = rt.rtlib.guarded
    rt.rtlib.guarded = lambda: [*before(), sys.executable, __file__, "run", kind]


def run(kind, *words):
    """Runs a command, and notes what it took; ends as it does."""
    child = subprocess.Popen(words)
    _, status, used = os.wait4(child.pid, 0)
    crate = words[words.index("--crate-name") + 1] if "--crate-name" in words else ""
    if crate:
        line = f"{kind} {crate} {used.ru_utime + used.ru_stime:.1f} {used.ru_maxrss // 1024}\n"
        with open(FOUND, "a", encoding="utf-8") as out:
            out.write(line)
    if os.WIFSIGNALED(status):
        # (`rt` asks which signal ended the prover)
        signal.signal(os.WTERMSIG(status), signal.SIG_DFL) if os.WTERMSIG(status) != signal.SIGKILL else None
        os.kill(os.getpid(), os.WTERMSIG(status))
    return os.waitstatus_to_exitcode(status)


def sums():
    """For each crate: the minutes of its proofs, those of its edits, and the most memory in MB."""
    found = {}
    for line in FOUND.read_text(encoding="utf-8").splitlines():
        kind, crate, seconds, memory = line.split()
        was = found.get(crate, (0, 0, 0))
        more = (float(seconds) / 60, 0) if kind == "proof" else (0, float(seconds) / 60)
        found[crate] = was[0] + more[0], was[1] + more[1], max(was[2], int(memory))
    return found


def table():
    """The numbers as a table of Markdown."""
    found = sorted(sums().items(), key=lambda it: -it[1][0] - it[1][1])
    rows = [(f"`{name}`", *it) for name, it in found if it[0] + it[1] >= LITTLE]
    rest = [it for _, it in found if it[0] + it[1] < LITTLE]
    rows += [(f"{len(rest)} others", *map(sum, list(zip(*rest))[:2]), max(it[2] for it in rest))] if rest else []
    rows.append(("all", *(sum(it[at] for _, it in found) for at in (0, 1)), max(it[2] for _, it in found)))
    lines = [f"| {name} | {proofs:.1f} | {edits:.1f} | {memory} |" for name, proofs, edits, memory in rows]
    head = "| crate | proofs, minutes of a processor | must-fail edits | most memory, MB |\n|---|---|---|---|\n"
    return head + "\n".join(lines) + "\n"


def main():
    if sys.argv[1:2] == ["run"]:
        return run(*sys.argv[2:])
    print(table(), end="")
    if sys.argv[1:] == ["--write"]:
        PAGE.write_text(TABLE.sub(lambda _: table(), PAGE.read_text(encoding="utf-8")), encoding="utf-8")
    return 0


if __name__ == "__main__":
    sys.exit(main())
