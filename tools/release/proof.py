"""PROVED.txt: which sources and which prover stand behind a release."""
import hashlib
import time

from kit import ROOT, Stop, passed

HEAD = """dom_query in Rattle {version}: what stands behind these files

All files here were made by ./release of one commit, after its gate had passed: the command ./check proved every crate, tried wrong
bodies that the prover must refuse, and ran every test.
"""
UNPROVED = """dom_query in Rattle {version}: NOT PROVED

These files were made to try ./release out. They are of programs and a library that the gate has not passed: {why}.
Nothing is promised of them. Don't give them to anybody.
"""
SOURCES = """
Sources
  commit              {commit}
  date of the commit  {date}
  checksum of all     {sources}
"""
KIT = """
Compiler and prover
{kit}
"""
GATE = """
The last lines of the gate's proofs
{gate}

The last line of all tests
  {tests}
"""
BUILT = """
What was built, and what stands in the files: the same without the data for debuggers (sha256)
{built}
"""
CHECK = """
How to see it for yourself: clone the repository, check out the commit, and run ./check with that kit. Then ./release --check DIR,
where DIR is the folder of these files, makes them anew and compares them. docs/CLAIMS.md says what is proved, what is only tested and
what is trusted.
"""


def sum_of(data):
    return hashlib.sha256(data).hexdigest()


def epoch():
    """The time of the commit, in seconds, which all files of a release have."""
    said = passed.git("log", "-1", "--format=%ct")
    if not said:
        raise Stop("there is no git, or no commit: a release is made of a commit")
    return int(said)


def refuse_changes():
    """Stops where a file isn't as it is in the commit."""
    changed = passed.git("status", "--porcelain")
    if changed is None or changed.strip():
        raise Stop("files are not as they are in the commit: commit them, or take a clean clone")


def commit_words():
    when = time.strftime("%Y-%m-%d %H:%M:%S UTC", time.gmtime(epoch()))
    return {"commit": passed.commit(), "date": when, "sources": passed.sum_of_sources()}


def indented(lines):
    return "\n".join(f"  {line}" for line in lines)


def text(version, pairs, why_not):
    """PROVED.txt. `pairs` are the names, the files that were built, and what became of them; `why_not` says why the gate hasn't passed."""
    built = [f"{sum_of(made)}  {name} as built\n  {sum_of(kept)}  {name} here" for name, made, kept in pairs]
    parts = [SOURCES.format(**commit_words()), KIT.format(kit=indented(passed.kit_identity()))]
    if why_not:
        return "".join([UNPROVED.format(version=version, why=why_not), *parts, BUILT.format(built=indented(built))])
    said = passed.read()
    parts.append(GATE.format(gate=indented(said["gate"]), tests=said["tests"]))
    return "".join([HEAD.format(version=version), *parts, BUILT.format(built=indented(built)), CHECK])


def version():
    """The version of the release."""
    return (ROOT / "VERSION").read_text(encoding="utf-8").strip()
