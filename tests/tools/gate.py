"""Runs `rt ci` with the words that it is given, as the command does, but for three things:

- Where there are four processors, the crates for which all others wait are checked by three processes each: `rt`, told how many proofs
  to run at a time, gives each one.
- A static library is built from the check that proves it, as `rt ci` builds a program. Else it would be proved a second time
  when tests/checks/c_and_python.py builds it.
- What each crate takes is noted (minutes.py).

Where this kit's `rt` isn't made as we know it, all three are left out: `rt ci` proves the same without this script."""
import inspect
import os
import shutil
import subprocess
import sys
import tempfile

sys.dont_write_bytecode = True
import edits  # noqa: E402
import minutes  # noqa: E402

FIRST = {"dom_nodes", "dom_links", "dom_trees", "dom_article", "page_tokens", "page_trees", "standard_laws", "dom_clean", "hq_pages", "c_state", "dom_query_c"}


def has(owner, call, *names):
    """Whether there is a call of that name whose parameters have these names."""
    return callable(getattr(owner, call, None)) and tuple(inspect.signature(getattr(owner, call)).parameters) == names


def without(words, *flags):
    """The words without these flags and their values."""
    return [word for before, word in zip(["", *words], words) if word not in flags and before not in flags]


def prove_static(rt, crate, flags):
    """Proves a static library, and builds it from that check."""
    words = crate.words(flags, keeps=False)
    with tempfile.TemporaryDirectory(prefix=f"rt-proved-{os.getpid()}-") as room:
        status = crate.prove(["check", *words, "-o", f"{room}/checked"])
        if status:
            return status
        building = [*without(words, "--logic-built", "--jobs"), "--crate-checked", f"{room}/checked", "--toolchain", f"{rt.KIT}/toolchain"]
        building = [*rt.rtlib.guarded(), rt.rtlib.RATTLE, "build", *building, "-o", f"out/lib{crate.name}.a"]
        ran = subprocess.run(building, cwd=crate.folder, stdout=subprocess.PIPE, stderr=subprocess.STDOUT, errors="replace")
        print(ran.stdout if ran.returncode else "", end="", file=crate.out, flush=True)
        return ran.returncode


def main():
    rt = edits.toolchain()
    known = [(rt, "main", "words"), (rt.Crate, "build_rlib", "self", "flags", "anew"), (rt.Crate, "ci", "self", "flags", "tests")]
    if not all(has(*it) for it in known):
        os.execv(shutil.which("rt"), ["rt", "ci", *sys.argv[1:]])
    minutes.measured(rt, "proof")
    build, ci = rt.Crate.build_rlib, rt.Crate.ci
    if rt.processors() >= 4:
        jobs = lambda crate, flags: ["--jobs", "3"] if crate.name in FIRST else flags
        rt.Crate.build_rlib = lambda crate, flags, anew: build(crate, jobs(crate, flags), anew)
    rt.Crate.ci = lambda crate, flags, tests: (
        prove_static(rt, crate, flags) if crate.is_static and not tests else ci(crate, flags, tests)
    )
    return rt.main(["ci", *sys.argv[1:]])


if __name__ == "__main__":
    sys.exit(main())
