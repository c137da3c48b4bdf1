"""The record of a gate that passed: out/gate-passed.json at the top of the repository.

`check` writes it where nothing failed, and `./release` reads it: a release is made only of the very files that the gate saw. The
record has the commit, a checksum of all files that belong to the repository, the identity of the kit, the last lines of the gate and
of all tests, and the checksums of the programs and of the library that were built."""
import hashlib
import json
import os
import pathlib
import re
import shutil
import subprocess

ROOT = pathlib.Path(__file__).resolve().parents[2]
RECORD = ROOT / "out" / "gate-passed.json"
BUILT = ("crates/hq/out/hq", "crates/dq/out/dq", "crates/dom_query_c/out/libdom_query_c.a")


def git(*words):
    """What git prints, or None where it fails or isn't there."""
    try:
        ran = subprocess.run(["git", *words], cwd=ROOT, stdout=subprocess.PIPE, stderr=subprocess.DEVNULL)
    except OSError:
        return None
    return ran.stdout if ran.returncode == 0 else None


def sum_of_file(path):
    """The SHA-256 of a file, or None where there is none."""
    try:
        return hashlib.sha256(path.read_bytes()).hexdigest()
    except OSError:
        return None


def sum_of_sources():
    """A checksum of the names, the contents and the modes of all files that git has or would add; None without git."""
    listed = git("ls-files", "-z", "--cached", "--others", "--exclude-standard")
    if listed is None:
        return None
    digest = hashlib.sha256()
    for name in sorted(set(listed.split(b"\0")) - {b""}):
        path = ROOT / os.fsdecode(name)
        runs = b"x" if os.access(path, os.X_OK) else b"-"
        digest.update(b"%s %s %s\n" % ((sum_of_file(path) or "gone").encode(), runs, name))
    return digest.hexdigest()


def commit():
    """The commit that is checked out, or None."""
    said = git("rev-parse", "HEAD")
    return said.decode().strip() if said else None


def kit():
    """The kit's folder, or None where no command rt is on the PATH."""
    rt = shutil.which("rt")
    return pathlib.Path(os.path.realpath(rt)).parents[1] if rt else None


def kit_identity():
    """The lines by which the kit names itself: its name, and the checksums of its archive, its sources and its compiler."""
    folder = kit()
    files = [folder / name for name in ("KIT-ID", "WHAT")] if folder else []
    return [line for file in files for line in file.read_text(encoding="utf-8").splitlines()]


def of_gate(lines):
    """The lines of `rt ci` that say the same in each run over the same files: how many proofs were kept from earlier runs is left out."""
    wanted = [line for line in lines if re.match(r"rt: ok;|\d+ passed, \d+ failed", line)]
    return [re.sub(r"; (done in this run: .*|every proof and must-fail edit was done in this run)$", "", line) for line in wanted]


def write(sources, gate_lines, last):
    """Writes the record, unless the files changed while the gate ran. `sources` is their checksum from before."""
    RECORD.parent.mkdir(exist_ok=True)
    if sources is None or sources != sum_of_sources():
        print("check: out/gate-passed.json is not written: there is no git, or files changed while the gate ran")
        return
    said = {"commit": commit(), "sources": sources, "kit": kit_identity(), "gate": of_gate(gate_lines), "tests": last}
    said["built"] = {name: sum_of_file(ROOT / name) for name in BUILT}
    RECORD.write_text(json.dumps(said, indent=1) + "\n", encoding="utf-8")


def begin():
    """A run of the gate begins: there is no record until it has passed. Returns the checksum of the files as they are now."""
    if RECORD.exists():
        RECORD.unlink()
    return sum_of_sources()


def fault():
    """Why the gate hasn't passed on exactly these files with what is built now, or None."""
    if not RECORD.exists():
        return "no run of ./check has passed here: there is no out/gate-passed.json"
    said = json.loads(RECORD.read_text(encoding="utf-8"))
    if said["sources"] != sum_of_sources():
        return "files changed since ./check passed (out/gate-passed.json has the checksum of other files)"
    for name in BUILT:
        if said["built"].get(name) != sum_of_file(ROOT / name) or not said["built"].get(name):
            return f"{name} is not the one that ./check built and tested"
    return None


def read():
    """The record."""
    return json.loads(RECORD.read_text(encoding="utf-8"))
