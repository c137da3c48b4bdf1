"""The version, the list of what C programs rely on, and `./release`, over the programs and the library that the gate built.

`releases()` returns how many checks passed and failed:

- Each place that names the version of the project names that of the file VERSION.
- include/dom_query.h and the shared library have exactly the functions, constants, structs and versions of symbols that
  include/dom_query.abi lists.
- In a copy of the repository `./release` refuses to make files without a record of a gate, after a change of a source, and with a
  program that the gate didn't build. With a record it makes them, and from another folder, in another place of the world and under another
  umask it makes the same bytes again.
- `./install` says how far it is, stops at a crate that isn't proved, and goes on from there (with an `rt` that proves nothing).
- In the files: the checksums hold, the programs run, the packages are as Debian wants them, the wheel can be installed and works, the
  list of what is inside is whole, and no path of this machine is named.

What needs root and a bare system is in tests/peers/bare_debian.py."""
import base64
import hashlib
import importlib.machinery
import importlib.util
import io
import json
import os
import pathlib
import re
import shutil
import subprocess
import sys
import tarfile
import tempfile
import zipfile

ROOT = pathlib.Path(__file__).resolve().parents[2]
sys.path[:0] = [str(ROOT / "tests" / "tools"), str(ROOT / "tools" / "release")]
import abi  # noqa: E402
import passed as gate  # noqa: E402
import symbols  # noqa: E402
from kit import Stop  # noqa: E402

VERSION = (ROOT / "VERSION").read_text(encoding="utf-8").strip()
# Where the version stands: a file, and what comes before and after it there.
PLACES = [
    ("crates/hq_pages/src/command.rt", r'const VERSION: &str = "(\S+) '),
    ("python/dom_query/__init__.py", r'(?m)^__version__ = "(.*)"'),
    ("python/dom_query/_library.py", r'(?m)^VERSION = "(.*)"'),
    ("CHANGELOG.md", r"(?m)\A(?:.*\n)*?## (\S+)"),
]
# Where it may stand, too: in each match of these it is the version.
NAMED = r"(?:\bhq[-_]|\bdom_query-|\blibdom_query-|\blibdom-query(?:0|-dev)_)(\d+\.\d+\.\d+)"
OTHERS = [
    ("crates/dom_query_c/src/*.rt", r'VERSION[^"\n]*"(\d+\.\d+\.\d+)'),
    ("crates/c_state/src/*.rt", r'VERSION[^"\n]*"(\d+\.\d+\.\d+)'),
    ("include/dom_query.h", r'#define DQ_VERSION\w* "(\d+\.\d+\.\d+)"'),
    ("README.md", NAMED),
    ("SECURITY.md", NAMED),
    ("docs/*.md", NAMED),
    ("docs/man/*.1", r"\b[Vv]ersion (\d+\.\d+\.\d+)"),
]
SECONDS = 600
ID = re.compile(r"SPDXRef-[A-Za-z0-9.-]+")


class Checks:
    """What passed, and what failed."""

    def __init__(self):
        self.passed, self.failed = 0, 0

    def check(self, name, is_right, said=""):
        self.passed += bool(is_right)
        self.failed += not is_right
        if not is_right:
            print(f"releases: {name}: {said[-1500:]}")
        return is_right


def run(words, **more):
    """How a command ended, and what it printed."""
    ran = subprocess.run([str(it) for it in words], stdout=subprocess.PIPE, stderr=subprocess.STDOUT, timeout=SECONDS, **more)
    return ran.returncode, ran.stdout.decode("utf-8", "replace")


def versions(checks):
    """Each place that names the version."""
    for name, pattern in PLACES:
        found = re.search(pattern, (ROOT / name).read_text(encoding="utf-8"))
        checks.check(f"the version in {name}", found and found[1] == VERSION, f"{found and found[1]}, and VERSION says {VERSION}")
    for names, pattern in OTHERS:
        for file in sorted(ROOT.glob(names)):
            for found in re.findall(pattern, file.read_text(encoding="utf-8")):
                checks.check(f"the version in {file.relative_to(ROOT)}", found == VERSION, f"{found}, and VERSION says {VERSION}")
    numbers = dict(re.findall(r"#define DQ_VERSION_(MAJOR|MINOR|PATCH) (\d+)", abi.HEADER.read_text(encoding="utf-8")))
    checks.check("the version in numbers in dom_query.h", list(numbers.values()) in ([], VERSION.split(".")), f"{numbers}")
    whole = re.search(r"#define DQ_VERSION_NUMBER (\d+)", abi.HEADER.read_text(encoding="utf-8"))
    major, minor, patch = map(int, VERSION.split("."))
    checks.check("the version as a number in dom_query.h", not whole or int(whole[1]) == 10_000 * major + 100 * minor + patch)
    hq = ROOT / "crates" / "hq" / "out" / "hq"
    _, said = run([hq, "--version"])
    checks.check("hq --version", said.startswith(f"hq {VERSION} "), said)


def interface(checks, library):
    """The header and the library against the list of what programs rely on."""
    faults = list(abi.faults())
    checks.check("dom_query.h and dom_query.abi", not faults, "\n".join(faults))
    wanted = abi.functions()
    found = {name: version for name, version in symbols.exported(library).items() if name not in wanted.values()}
    checks.check("the symbols of the library", found == wanted, f"{sorted(found.items() ^ wanted.items())}")
    checks.check("what the library needs", set(symbols.needs(library)) <= {"libc.so.6"}, f"{symbols.needs(library)}")


def command():
    """./release as a module."""
    loader = importlib.machinery.SourceFileLoader("release_command", str(ROOT / "release"))
    module = importlib.util.module_from_spec(importlib.util.spec_from_loader("release_command", loader))
    loader.exec_module(module)
    return module


class Copy:
    """A copy of the repository with what is built, in which all is committed."""

    def __init__(self, folder):
        self.at = pathlib.Path(folder)
        listed = subprocess.run(["git", "ls-files", "-z", "-co", "--exclude-standard"], cwd=ROOT, stdout=subprocess.PIPE, check=True)
        names = [os.fsdecode(name) for name in listed.stdout.split(b"\0") if name]
        # (the gate's own: what is built isn't among the files of the repository)
        for name in [*names, *gate.BUILT]:
            if (ROOT / name).is_file():
                (self.at / name).parent.mkdir(parents=True, exist_ok=True)
                shutil.copy2(ROOT / name, self.at / name)
        self.git("init", "-q")
        self.git("add", "-A")
        self.git("commit", "-q", "-m", "all")

    def git(self, *words):
        who = ["-c", "core.hooksPath=", "-c", "user.name=a", "-c", "user.email=a@b.example", "-c", "commit.gpgsign=false"]
        env = {**os.environ, "GIT_COMMITTER_DATE": "1800000000 +0000", "GIT_AUTHOR_DATE": "1800000000 +0000"}
        subprocess.run(["git", *who, *words], cwd=self.at, env=env, stdout=subprocess.DEVNULL, check=True)

    def record(self):
        """Writes the record of a gate, as `check` does."""
        script = "import passed; passed.write(passed.sum_of_sources(), ['rt: ok; handles allowed: none', '3 passed, 0 failed'], '5 passed, 0 failed')"
        env = {**os.environ, "PYTHONPATH": str(self.at / "tests" / "tools"), "PYTHONDONTWRITEBYTECODE": "1"}
        return run([sys.executable, "-c", script], env=env)

    def release(self, *words, **env):
        """Runs ./release there, from a folder elsewhere."""
        return run([sys.executable, self.at / "release", *words], cwd="/", env={**os.environ, **env})


RT = """#!/bin/sh
[ "$1" = run ] && echo "rt: running out/${PWD##*/}; to give it other input" && exit 3
[ "${PWD##*/}" = dom_clean ] && [ ! -e {0}/again ] && touch {0}/again && echo no proof of it && exit 1
[ -e out/rlib/stamp ] && exit 0
mkdir -p out/rlib && echo proved > out/rlib/stamp
"""


def installs(checks, copy, folder):
    """./install with an `rt` that proves nothing, and fails once."""
    rt, to = pathlib.Path(folder) / "bin" / "rt", pathlib.Path(folder) / "home" / "bin"
    rt.parent.mkdir()
    rt.write_text(RT.replace("{0}", str(folder)))
    rt.chmod(0o755)
    env = {**os.environ, "PATH": f"{rt.parent}:{os.environ['PATH']}"}
    status, said = run([copy.at / "install", to], env=env)
    first = re.search(r"(\d+) of (\d+)  dom_clean: not proved", said)
    checks.check("./install stops", status != 0 and first and "no proof of it" in said and not (to / "hq").exists(), said)
    status, said = run([copy.at / "install", to], env=env)
    lines = re.findall(r"(?m)^install: +(\d+) of (\d+)  (\w+): (proved before|proved in)", said)
    is_whole = first and [int(it[0]) for it in lines] == list(range(1, int(first[2]) + 1))
    # (the stamps of the first run are of the same second, so what was before is told by rt alone)
    checks.check("./install goes on", status == 0 and is_whole and lines[-1][2] == "dq", said)
    checks.check("./install installs", run([to / "hq", "--version"])[1].startswith("hq ") and (to.parent / "share/man/man1/dq.1").exists())


def refusals(checks, copy, into):
    """Without a record, after a change, and with another program nothing is made."""

    def refuses(name, why):
        status, said = copy.release(into)
        checks.check(name, status == 2 and why in said and not into.exists(), f"status {status}: {said}")

    refuses("./release without a gate", "no run of ./check has passed here")
    copy.record()
    source = copy.at / "docs" / "HQ.md"
    text = source.read_bytes()
    source.write_bytes(text + b"\n")
    refuses("./release after a change", "files are not as they are in the commit")
    copy.git("commit", "-q", "-a", "-m", "more")
    refuses("./release of another commit", "files changed since ./check passed")
    source.write_bytes(text)
    copy.git("reset", "-q", "--hard", "HEAD~1")
    program = copy.at / "crates" / "dq" / "out" / "dq"
    built = program.read_bytes()
    program.write_bytes(built + b"\0")
    refuses("./release with another program", "is not the one that ./check built")
    program.write_bytes(built)


def same_again(checks, copy, folder, made):
    """Another folder, another umask, another place of the world: the same bytes. A changed file is found."""
    other = pathlib.Path(folder) / "elsewhere" / "of another name"
    shutil.copytree(copy.at, other)
    script = f"umask 077; exec '{sys.executable}' '{other}/release' --check '{made}'"
    env = {**os.environ, "TZ": "Pacific/Auckland", "LC_ALL": "C", "HOME": "/nonexistent", "PYTHONHASHSEED": "7"}
    status, said = run(["sh", "-c", script], cwd="/", env=env)
    checks.check("the same bytes again", status == 0 and "all are equal byte for byte" in said, said)
    files = {file.name: file.read_bytes() for file in made.iterdir()}
    differences, name = command().differences, f"hq_{VERSION}_amd64.deb"
    checks.check("no difference", not list(differences(files, made)))
    changed = {**files, name: files[name][:-9] + b"?" + files[name][-8:]}
    checks.check("a changed byte is found", list(differences(changed, made)) == [f"{name}: differs"])
    del changed["PROVED.txt"]
    checks.check("a file too many is found", len(list(differences(changed, made))) == 2)


def members_of(data):
    """The members of a Debian package."""
    found, at = {}, 8
    while at < len(data):
        name, size = data[at : at + 16].decode().strip(), int(data[at + 48 : at + 58])
        found[name] = data[at + 60 : at + 60 + size]
        at += 60 + size + size % 2
    return found


def entries_of(data):
    """The entries of a tar archive: their heads and contents."""
    with tarfile.open(fileobj=io.BytesIO(data)) as archive:
        return {info.name.removeprefix("./"): (info, archive.extractfile(info).read() if info.isfile() else b"") for info in archive}


def is_plain(info):
    """Whether an entry has root's name and one of the modes that are meant."""
    modes = {tarfile.DIRTYPE: {0o755}, tarfile.SYMTYPE: {0o777}}.get(info.type, {0o644, 0o755})
    return (info.uid, info.gid, info.uname, info.gname) == (0, 0, "root", "root") and info.mode in modes and info.mtime == 1800000000


def package(checks, made, name, wanted):
    """A Debian package: its parts, its checksums, and the files that it must have."""
    members = members_of((made / f"{name}_{VERSION}_amd64.deb").read_bytes())
    checks.check(f"{name}: the parts", list(members) == ["debian-binary", "control.tar.xz", "data.tar.xz"], f"{list(members)}")
    control, data = entries_of(members["control.tar.xz"]), entries_of(members["data.tar.xz"])
    fields = dict(re.findall(r"(?m)^([\w-]+): (.*)$", control["control"][1].decode()))
    checks.check(f"{name}: the version", (fields["Package"], fields["Version"], fields["Architecture"]) == (name, VERSION, "amd64"))
    sums = dict(reversed(line.split("  ", 1)) for line in control["md5sums"][1].decode().splitlines())
    right = {path: hashlib.md5(text).hexdigest() for path, (info, text) in data.items() if info.isfile()}
    checks.check(f"{name}: the checksums", sums == right)
    lacking = [path for path in [*wanted, f"usr/share/doc/{name}/copyright", f"usr/share/doc/{name}/changelog.gz"] if path not in data]
    checks.check(f"{name}: the files", not lacking, f"{lacking}")
    checks.check(f"{name}: owners and modes", all(is_plain(info) for info, _ in [*control.values(), *data.values()]))
    return fields, data


def packages(checks, made):
    fields, _ = package(checks, made, "hq", ["usr/bin/hq", "usr/bin/dq", "usr/share/man/man1/hq.1.gz", "usr/share/bash-completion/completions/hq"])
    needs = symbols.glibc(ROOT / "crates" / "hq" / "out" / "hq")
    least = ".".join(map(str, needs))
    checks.check("hq: what it depends on", f"libc6 (>= {least})" in fields["Depends"], fields["Depends"])
    text = re.sub(r"\s+", " ", (ROOT / "README.md").read_text(encoding="utf-8"))
    checks.check("README.md: the least glibc of hq", f"The programs need glibc {least} or later" in text, least)
    lib = "usr/lib/x86_64-linux-gnu"
    package(checks, made, "libdom-query0", [f"{lib}/libdom_query.so.0"])
    fields, data = package(checks, made, "libdom-query-dev", [f"{lib}/libdom_query.a", f"{lib}/pkgconfig/dom_query.pc", "usr/include/dom_query.h"])
    checks.check("libdom-query-dev: the link", data[f"{lib}/libdom_query.so"][0].linkname == "libdom_query.so.0")
    checks.check("libdom-query-dev: what it depends on", fields["Depends"] == f"libdom-query0 (= {VERSION})", fields["Depends"])


def programs(checks, made, folder):
    """The programs from the tar archive."""
    with tarfile.open(made / f"hq-{VERSION}-linux-x86_64.tar.gz") as archive:
        checks.check("tar: owners and modes", all(is_plain(info) for info in archive))
        archive.extractall(folder)
    at = pathlib.Path(folder) / f"hq-{VERSION}-linux-x86_64"
    hq, shop = at / "bin" / "hq", ROOT / "examples" / "shop.html"
    checks.check("tar: hq", run([hq, "--text", "h1", shop], env={}) == (0, "Café & tea\n"))
    checks.check("tar: dq", run([at / "bin" / "dq", "--help"], env={})[1].startswith(run([ROOT / "crates/dq/out/dq", "--help"])[1][:40]))
    lacking = [name for name in ("share/man/man1/hq.1", "share/doc/hq/LICENSES.txt", "share/doc/hq/PROVED.txt") if not (at / name).exists()]
    checks.check("tar: the files", not lacking, f"{lacking}")


def wheel(checks, made, folder):
    """The wheel: its names, its checksums, its metadata; and a program over it, installed."""
    files = sorted(made.glob("*.whl"))
    tags = re.fullmatch(rf"dom_query-{VERSION}-(py3-none-manylinux_2_(\d+)_x86_64)\.whl", files[0].name) if len(files) == 1 else None
    if not checks.check("wheel: the name", tags, f"{files}"):
        return
    with zipfile.ZipFile(files[0]) as archive:
        texts = {name: archive.read(name) for name in archive.namelist()}
    info = f"dom_query-{VERSION}.dist-info"
    rows = [line.rsplit(",", 2) for line in texts[f"{info}/RECORD"].decode().splitlines()]
    right = {path: "sha256=" + base64.urlsafe_b64encode(hashlib.sha256(text).digest()).decode().rstrip("=") for path, text in texts.items()}
    wrong = [path for path, digest, size in rows if digest and (right[path], str(len(texts[path]))) != (digest, size)]
    checks.check("wheel: RECORD", {row[0] for row in rows} == texts.keys() and not wrong, f"{wrong}")
    checks.check("wheel: the tag", f"\nTag: {tags[1]}\n" in texts[f"{info}/WHEEL"].decode(), texts[f"{info}/WHEEL"].decode())
    metadata(checks, "wheel", texts[f"{info}/METADATA"])
    library = pathlib.Path(folder) / "libdom_query.so"
    library.write_bytes(texts["dom_query/libdom_query.so"])
    named(checks, files[0].name)
    needs = symbols.glibc(library)
    checks.check("wheel: the least glibc", int(tags[2]) == needs[1] or needs < (2, 5), f"{tags[2]}, and the library needs {needs}")
    installed(checks, files[0], folder)


def named(checks, name):
    """The documents name the wheel by its whole name."""
    for page in ("README.md", "docs/PYTHON.md"):
        found = set(re.findall(r"dom_query-\S*?\.whl", (ROOT / page).read_text(encoding="utf-8")))
        checks.check(f"{page}: the name of the wheel", found == {name}, f"{found}, and it is {name}")


def metadata(checks, what, text):
    """The head of a wheel's or a source archive's description."""
    head, _, body = text.decode().partition("\n\n")
    fields = dict(line.split(": ", 1) for line in head.splitlines())
    python = re.search(r'(?m)^requires-python = "(.*)"', (ROOT / "python" / "pyproject.toml").read_text(encoding="utf-8"))[1]
    wanted = {"Metadata-Version": "2.1", "Name": "dom_query", "Version": VERSION, "License": "MIT", "Requires-Python": python}
    is_right = wanted.items() <= fields.items() and fields["Description-Content-Type"] == "text/markdown" and body.startswith("# dom_query")
    checks.check(f"{what}: the metadata", is_right, head)


def installed(checks, file, folder):
    """A program over the wheel, installed without a network."""
    pip = [sys.executable, "-m", "pip", "--disable-pip-version-check"]
    if run([*pip, "--version"])[0] != 0:
        return
    target = pathlib.Path(folder) / "installed"
    # (of this machine's glibc: pip takes a wheel for an older one)
    status, said = run([*pip, "install", "-q", "--no-index", "--no-deps", "--target", target, file])
    if checks.check("wheel: pip install", status == 0, said):
        script = f"import dom_query as d; print(d.parse('<p>a<p>b').select_texts('p'), d.__version__ == '{VERSION}', d.__file__)"
        status, said = run([sys.executable, "-c", script], env={"PYTHONPATH": str(target)}, cwd=folder)
        checks.check("wheel: a program", said.startswith("['a', 'b'] True") and str(target) in said, said)


def sources(checks, made):
    """The source archive of the package."""
    found = entries_of((made / f"dom_query-{VERSION}.tar.gz").read_bytes())
    names = {name.partition("/")[2] for name in found}
    lacking = {"pyproject.toml", "PKG-INFO", "LICENSE", "VERSION", "build_dom_query.py", "dom_query/__init__.py", "dom_query/py.typed"} - names
    checks.check("source archive: the files", not lacking, f"{lacking}")
    metadata(checks, "source archive", found[f"dom_query-{VERSION}/PKG-INFO"][1])


def inside(checks, made):
    """The list of what is inside: SPDX 2.3."""
    said = json.loads((made / f"dom_query-{VERSION}.spdx.json").read_text(encoding="utf-8"))
    ids = [it["SPDXID"] for it in said["packages"]]
    named = {it[end] for it in said["relationships"] for end in ("spdxElementId", "relatedSpdxElement")}
    checks.check("SPDX: ids", len(ids) == len(set(ids)) and all(ID.fullmatch(it) for it in ids) and named - {"SPDXRef-DOCUMENT"} <= set(ids))
    sums = {it["packageFileName"]: it["checksums"][0]["checksumValue"] for it in said["packages"] if "packageFileName" in it}
    right = {file.name: hashlib.sha256(file.read_bytes()).hexdigest() for file in made.iterdir()}
    apart = {"PROVED.txt", "SHA256SUMS", f"dom_query-{VERSION}.spdx.json"}
    checks.check("SPDX: the files", sums == {name: it for name, it in right.items() if name not in apart})
    links = {(it["spdxElementId"], it["relatedSpdxElement"]) for it in said["relationships"] if it["relationshipType"] == "STATIC_LINK"}
    some = {("SPDXRef-hq", "SPDXRef-kit-clap"), ("SPDXRef-libdom-query", "SPDXRef-kit-url"), ("SPDXRef-dq", "SPDXRef-kit-memchr")}
    checks.check("SPDX: what is linked in", some <= links and ("SPDXRef-libdom-query", "SPDXRef-kit-clap") not in links)


def texts(checks, made):
    """SHA256SUMS, PROVED.txt, and that no path of this machine is named anywhere."""
    lines = (made / "SHA256SUMS").read_text().splitlines()
    right = [f"{hashlib.sha256(file.read_bytes()).hexdigest()}  {file.name}" for file in sorted(made.iterdir()) if file.name != "SHA256SUMS"]
    checks.check("SHA256SUMS", lines == right)
    proved = (made / "PROVED.txt").read_text(encoding="utf-8")
    wanted = [gate.kit_identity()[0], "rt: ok; handles allowed: none", "5 passed, 0 failed", "hq as built"]
    checks.check("PROVED.txt", all(it in proved for it in wanted) and "NOT PROVED" not in proved, proved)
    paths = {str(ROOT), str(gate.kit()), str(pathlib.Path.home())} - {"/"}
    packed = {file.name: file.read_bytes() for file in made.iterdir()}
    for name in sorted(packed):
        if name.endswith(".deb"):
            inner = entries_of(members_of(packed[name])["data.tar.xz"])
            found = {path for path in paths for _, text in inner.values() if re.search(re.escape(path.encode()) + rb"\b", text)}
            checks.check(f"{name}: no path of this machine", not found, f"{found}")


def tried(checks, folder):
    """All checks of what ./release makes."""
    copy, made = Copy(pathlib.Path(folder) / "copy"), pathlib.Path(folder) / "made"
    installs(checks, copy, folder)
    refusals(checks, copy, made)
    copy.record()
    status, said = copy.release(made)
    if not checks.check("./release", status == 0 and made.is_dir(), said):
        return
    same_again(checks, copy, folder, made)
    packages(checks, made)
    programs(checks, made, folder)
    wheel(checks, made, folder)
    sources(checks, made)
    inside(checks, made)
    texts(checks, made)


def releases():
    """Checks all, and returns how many checks passed and failed."""
    checks = Checks()
    versions(checks)
    lacking = [name for name in gate.BUILT if not (ROOT / name).exists()]
    if checks.check("what is built", not lacking, f"there is no {', '.join(lacking)}"):
        with tempfile.TemporaryDirectory() as folder:
            env = {**os.environ, "DOM_QUERY_ARCHIVE": str(ROOT / gate.BUILT[2]), "DOM_QUERY_PYTHON": "no"}
            status, said = run([ROOT / "install-c", pathlib.Path(folder) / "c"], env=env)
            if checks.check("./install-c", status == 0, said):
                interface(checks, pathlib.Path(folder) / "c" / "lib" / abi.LIBRARY)
        try:
            with tempfile.TemporaryDirectory() as folder:
                tried(checks, folder)
        except (Stop, subprocess.SubprocessError, OSError, KeyError, ValueError) as fault:
            checks.check("an end of all checks", False, repr(fault))
    print(f"releases: {checks.passed} passed, {checks.failed} failed")
    return checks.passed, checks.failed


if __name__ == "__main__":
    sys.exit(releases()[1] != 0)
