"""The library for C and the package for Python, over the archive that the gate built.

`c_and_python()` returns how many checks passed and how many failed:

- The archive is the one that the gate built, or an earlier run on this machine of the same; what was built last is kept in
  ~/.cache/dom_query. Where there is none, it is built over the libraries that the gate left in crates/*/out, which proves it once more.
  `unproved()` takes the archive that tests/tools/programs.py built, and leaves the library in python/dom_query as it was.
- `./install-c` links the archive into a folder of its own, by gcc and, where it is there, by the kit's clang.
- tests/checks/c_exports.c asks every function of include/dom_query.h: as C99 and as C++, linked statically, under Valgrind, under the sanitizers
  for addresses and for undefined behaviour, with c/dom_query.c compiled with them too, and with each request for memory refused in turn
  (tests/checks/refuse.c), after which no block may be left. tests/checks/c_threads.c shares handles between threads, also under ThreadSanitizer.
- Each function of the header is one that the shared library shows, and the other way around, each proved function is called by
  c/dom_query.c, and c_exports.c and the package name each.
- The programs of examples/c are built with the pkg-config file and run, and so is each program that docs/C.md shows.
- The tests of the package (python/tests), which ask the rows of `dq` and of the test program's part `clean` again, and the programs of
  examples/python are run; those of edits, exceptions and habits also with each other Python from 3.10 on that the machine has. The package's
  types are checked, where mypy is there. A wheel is made and installed."""
import hashlib
import os
import pathlib
import re
import shutil
import subprocess
import sys
import tempfile

sys.path.insert(0, str(pathlib.Path(__file__).resolve().parents[1] / "tools"))
sys.path.insert(0, str(pathlib.Path(__file__).resolve().parents[2] / "tools" / "release"))
import contents  # noqa: E402
import documents  # noqa: E402
import programs as unproved_programs  # noqa: E402
from rows import ROOT  # noqa: E402

HERE = pathlib.Path(__file__).resolve().parent
ARCHIVE = ROOT / "crates" / "dom_query_c" / "out" / "libdom_query_c.a"
SECONDS = 1200


def run(words, **more):
    """How a command ended, and what it printed."""
    more.setdefault("env", os.environ)
    ran = subprocess.run([str(word) for word in words], stdout=subprocess.PIPE, stderr=subprocess.STDOUT, timeout=SECONDS, **more)
    return ran.returncode, ran.stdout.decode("utf-8", "replace")


class Checks:
    """What passed, and what failed."""

    def __init__(self):
        self.passed, self.failed = 0, 0

    def check(self, name, is_right, printed=""):
        if is_right:
            self.passed += 1
        else:
            self.failed += 1
            print(f"c_and_python: {name}: {printed[-1500:]}")
        return is_right

    def runs(self, name, words, **more):
        status, printed = run(words, **more)
        return self.check(name, status == 0, f"status {status}: {printed}")


def install(checks, archive, folder, compiler):
    env = {**os.environ, "DOM_QUERY_ARCHIVE": str(archive)}
    if compiler:
        env |= {"CC": compiler, "DOM_QUERY_PYTHON": "no"}
    return checks.runs(f"install-c with {compiler or 'gcc'}", [ROOT / "install-c", folder], env=env)


def names(checks, folder):
    """The header, the library, the test program and the package agree on the functions, and c/dom_query.c calls all that are proved."""
    header = set(re.findall(r"\b(dq_[a-z0-9_]+)\(", (ROOT / "include" / "dom_query.h").read_text()))
    status, printed = run(["nm", "-D", "--defined-only", folder / "lib" / "libdom_query.so"])
    built = set(re.findall(r" T (\w+)", printed))
    checks.check("functions of the header", status == 0 and header == built, f"{sorted(header ^ built)}")
    for path in (HERE / "c_exports.c", ROOT / "python" / "dom_query" / "_library.py"):
        missing = {name for name in header if not re.search(rf"\b{name}\b", path.read_text())}
        checks.check(f"functions in {path.name}", not missing, f"{sorted(missing)}")
    sources = "".join(it.read_text() for it in sorted((ROOT / "crates" / "dom_query_c" / "src").glob("*.rt")))
    proved = set(re.findall(r'pub extern "C" fn (\w+)', sources))
    missing = {name for name in proved if len(re.findall(rf"\b{name}\b", (ROOT / "c" / "dom_query.c").read_text())) < 2}
    checks.check("proved functions in dom_query.c", len(proved) > 60 and not missing, f"{sorted(missing)}")


def build(checks, folder, name, words, source=HERE / "c_exports.c", link=None):
    program = folder / name
    flags = ["-Wall", "-Wextra", "-I", folder / "include", "-o", program, source]
    flags += link or ["-L", folder / "lib", "-ldom_query", f"-Wl,-rpath,{folder / 'lib'}"]
    return program if checks.runs(f"building {name}", [*words, *flags, "-pthread"]) else None


def programs(checks, folder, archive, kit):
    """The test programs, in each way."""
    plain = build(checks, folder, "c_exports", ["gcc", "-std=c99", "-pedantic", "-O1", "-g"])
    if not plain:
        return
    checks.runs("c_exports", [plain])
    threads = build(checks, folder, "c_threads", ["gcc", "-std=c11", "-O1", "-g"], HERE / "c_threads.c")
    if threads:
        checks.runs("c_threads", [threads])
    static = build(checks, folder, "c_exports_static", ["gcc", "-std=c11"], link=[folder / "lib" / "libdom_query.a"])
    if static:
        checks.runs("c_exports, linked statically", [static])
    if shutil.which("g++"):
        as_cpp = build(checks, folder, "c_exports_cpp", ["g++", "-std=c++17", "-x", "c++"])
        if as_cpp:
            checks.runs("c_exports as C++", [as_cpp])
    if shutil.which("valgrind"):
        checks.runs("c_exports under Valgrind", ["valgrind", "-q", "--error-exitcode=9", "--leak-check=full", plain])
    below = [ROOT / "c" / "dom_query.c", archive, kit / "c" / "liblibc_c.a"]
    for kind, source in (("address,undefined", "c_exports.c"), ("thread", "c_threads.c")):
        name = source.replace(".c", "_") + kind.replace(",", "_")
        words = ["gcc", "-std=c11", "-g", f"-fsanitize={kind}", "-fno-sanitize-recover=all"]
        sanitized = build(checks, folder, name, words, HERE / source, below)
        if sanitized:
            checks.runs(f"{source} with -fsanitize={kind}", [sanitized])
    refusals(checks, folder, plain)


def refusals(checks, folder, program):
    """Each request for memory is refused in turn; every block is given back."""
    counter = folder / "refuse.so"
    if not checks.runs("building refuse.c", ["gcc", "-shared", "-fPIC", "-O2", "-o", counter, HERE / "refuse.c"]):
        return
    at, wrong = 0, []
    while at < 100_000:
        at += 1
        into, out = os.pipe()
        env = {**os.environ, "LD_PRELOAD": str(counter), "REFUSE": str(at), "REFUSE_TO": str(out)}
        ran = subprocess.run([program, "refusing"], env=env, pass_fds=[out], stdout=subprocess.PIPE, timeout=SECONDS)
        os.close(out)
        counts = os.read(into, 100).split()
        os.close(into)
        _, refused, left = (int(count) for count in counts)
        # stdio keeps its buffer where the program printed
        if ran.returncode != 0 or (left > 0 and not ran.stdout):
            wrong.append(f"request {at}: status {ran.returncode}, {left} blocks left, {ran.stdout.decode()}")
        if refused == 0:
            break
    checks.check("each request for memory refused", not wrong and at > 100, "; ".join(wrong[:5]) or f"{at} requests alone")


EXAMPLES = {
    "links": (b'<p><a href="/tea">Tea <b>hot</b></a><a>no</a><a href="/milk">Milk</a>', b"Tea hot: /tea\nMilk: /milk\n"),
    "clean": (
        b"<p onclick=x()>Tea <a href=javascript:x()>free</a> <a href=HTTPS://tea.example>here</a><script>x()</script>",
        b'<p>Tea <a rel="nofollow noopener">free</a> <a href="HTTPS://tea.example" rel="nofollow noopener">here</a></p>\n',
    ),
}


def examples(checks, folder):
    """The examples in C, built by the pkg-config file."""
    env = {**os.environ, "PKG_CONFIG_PATH": str(folder / "lib" / "pkgconfig")}
    for name, (page, wanted) in EXAMPLES.items():
        source, program = ROOT / "examples" / "c" / f"{name}.c", folder / name
        if not shutil.which("pkg-config"):
            if not build(checks, folder, name, ["gcc", "-std=c11"], source):
                continue
        else:
            _, flags = run(["pkg-config", "--cflags", "--libs", "dom_query"], env=env)
            command = ["gcc", "-std=c11", "-Wall", "-o", program, source, *flags.split(), f"-Wl,-rpath,{folder / 'lib'}"]
            if not checks.runs(f"building {name}.c by pkg-config", command):
                continue
        ran = subprocess.run([program], input=page, stdout=subprocess.PIPE, timeout=SECONDS)
        checks.check(f"{name}.c", ran.stdout == wanted and ran.returncode == 0, ran.stdout.decode())


def documented(checks, folder):
    """The C programs that docs/C.md shows, and what they print."""
    shown = documents.blocks(ROOT / "docs" / "C.md")
    program, source = None, folder / "documented.c"
    for words, start, lines in shown:
        if words == ["c"]:
            source.write_text("\n".join(lines) + "\n", encoding="utf-8")
            program = build(checks, folder, "documented", ["gcc", "-std=c11"], source)
        elif words == ["c", "output"] and program:
            status, printed = run([program])
            checks.check(f"C.md:{start}", status == 0 and printed == "\n".join(lines) + "\n", printed)


def pythons():
    """This Python, and each other one from 3.10 on that the machine has, by its version."""
    found = {sys.version_info[:2]: sys.executable}
    names = [f"python3.{minor}" for minor in range(10, 30)]
    names += sorted(str(it) for it in pathlib.Path.home().glob(".pyenv/versions/3.*/bin/python3"))
    for name in names:
        path = shutil.which(name)
        if path:
            status, printed = run([path, "-c", "import sys; print(*sys.version_info[:2])"])
            if status == 0 and (version := tuple(int(word) for word in printed.split())) >= (3, 10):
                found.setdefault(version, path)
    return found


def package(checks, folder):
    """The tests of the Python package, with each Python, and its types."""
    env = {**os.environ, "PYTHONPATH": str(ROOT / "python"), "DOM_QUERY_LIBRARY": str(folder / "lib" / "libdom_query.so")}
    for version, python in sorted(pythons().items()):
        is_this = version == sys.version_info[:2]
        words = [python, "-W", "error::ResourceWarning", "-m", "unittest", "discover", "-s", ROOT / "python" / "tests", "-t", ROOT / "python"]
        # All tests take minutes, so the other versions are asked what they may read otherwise: edits, exceptions, habits.
        words += [] if is_this else ["-p", "test_[e-h]*.py"]
        status, printed = run(words, env=env)
        count = re.search(r"Ran (\d+) tests?", printed)
        name = ".".join(str(number) for number in version)
        checks.check(f"tests of the package with Python {name}", status == 0 and count and int(count[1]) >= (70 if is_this else 10), printed)
        checks.passed += int(count[1]) - 1 if status == 0 and count else 0
    scripts(checks, env)
    wheel(checks, folder)
    if shutil.which("mypy"):
        checks.runs("types of the package", ["mypy", "--strict", "--cache-dir", folder / "mypy", ROOT / "python" / "dom_query"])


SCRIPTS = {
    "clean": [
        '<a rel="nofollow noopener">Home</a> <a rel="nofollow noopener">About us</a>',
        "",
        "Café &amp; tea",
        "<ul>",
        '<li><a rel="nofollow noopener">Maté</a> <b>3 €</b>',
        '</li><li><a href="https://tea.example/green?a=1&amp;b=2" rel="nofollow noopener">Green</a> <b>2 €</b>',
        "</li></ul>",
        "<p>Open <i>daily</i>",
        "</p>MonTue",
        "",
        '<a rel="nofollow noopener">More</a>',
        "",
    ],
    "extract": [
        "examples/shop.html: Tea & more",
        "  h1 Café & tea",
        "  Home -> /",
        "  About us -> ../about",
        "  Maté -> mate",
        "  Green -> https://tea.example/green?a=1&b=2",
        "  More -> javascript:alert(1)",
    ],
    "crawl_stats": ["     26 elements      19 words     5 links  examples/shop.html"],
}


def scripts(checks, env):
    """The examples in Python."""
    for name, wanted in SCRIPTS.items():
        script = ROOT / "examples" / "python" / f"{name}.py"
        _, printed = run([sys.executable, script, "examples/shop.html"], env={**env, "LC_ALL": "C.UTF-8"}, cwd=ROOT)
        checks.check(f"{name}.py", printed.splitlines() == wanted, printed)


def wheel(checks, folder):
    """A wheel is made and installed without a network, and works."""
    pip = [sys.executable, "-m", "pip", "--disable-pip-version-check"]
    if run([*pip, "--version"])[0] != 0:
        return
    env = {**os.environ, "PIP_NO_INDEX": "1"}
    if checks.runs("pip wheel ./python", [*pip, "wheel", "-w", folder / "wheels", ROOT / "python"], env=env):
        made = sorted((folder / "wheels").glob("dom_query-*.whl"))
        checks.runs("installing the wheel", [*pip, "install", "--target", folder / "installed", *made], env=env)
        script = "import dom_query; assert 'installed' in dom_query.__file__; assert dom_query.parse('<p>a').text == 'a'"
        checks.runs("the installed package", [sys.executable, "-c", script], env={"PYTHONPATH": str(folder / "installed")}, cwd=folder)


def built_libraries():
    """The libraries that the gate left, by their names."""
    return {rlib.stem: rlib for rlib in sorted((ROOT / "crates").glob("*/out/rlib/*.rlib"))}


def named(name):
    """The libraries that crates.txt names for a crate; none for one of the kit."""
    line = re.search(rf"(?m)^{name}(?: staticlib)?:(.*)$", (ROOT / "crates.txt").read_text())
    return line[1].split() if line else []


def below(name):
    """The names of the crates that a crate stands on."""
    found = [name]
    for crate in found:
        found += [it for it in named(crate) if it not in found]
    return found[1:]


def inputs(kit):
    """What the archive is built from: a checksum of the kit, of the crate's own files, and of the libraries below it."""
    crate, made = ROOT / "crates" / "dom_query_c", built_libraries()
    files = [kit / "KIT-ID"]
    files += sorted(it for name in ("src", "specs", "proofs") for it in (crate / name).rglob("*") if it.is_file())
    for name in sorted(below("dom_query_c")):
        if name in made:
            files += [made[name] / "toolchain" / it for it in ("mir.json", "checked.json")]
    digest = hashlib.sha256()
    for file in files:
        digest.update(f"{file.name}\0".encode() + hashlib.sha256(file.read_bytes()).digest())
    return digest.hexdigest()


def kept_archive(of):
    """The place of the archive that was built of these inputs, on this machine."""
    folder = pathlib.Path(os.environ.get("XDG_CACHE_HOME") or pathlib.Path.home() / ".cache")
    return folder / "dom_query" / f"libdom_query_c-{of[:32]}.a"


def keep(archive, kept):
    """Keeps the archive, and of older ones the last two."""
    kept.parent.mkdir(parents=True, exist_ok=True)
    shutil.copy2(archive, f"{kept}.{os.getpid()}")
    os.replace(f"{kept}.{os.getpid()}", kept)
    for old in sorted(kept.parent.glob("libdom_query_c-*.a"), key=lambda it: it.stat().st_mtime)[:-3]:
        old.unlink(missing_ok=True)


def keep_of_gate():
    """Keeps the archive that the gate has just built, if it built one: where it proved the library before, it didn't."""
    if ARCHIVE.exists():
        keep(ARCHIVE, kept_archive(inputs(pathlib.Path(run(["rt", "doc"])[1].strip()).parent)))


def build_archive(archive):
    """Builds the static library over the libraries that the gate left, which proves it once more, unless that was done before."""
    kit = pathlib.Path(run(["rt", "doc"])[1].strip()).parent
    kept, made = kept_archive(inputs(kit)), built_libraries()
    archive.parent.mkdir(exist_ok=True)
    if kept.exists():
        shutil.copy2(kept, archive)
        return 0, ""
    found = {name: made.get(name, kit / "rlibs" / f"{name}.rlib") for name in ["std", *named("dom_query_c")]}
    words = [kit / "bin" / "rattle", "build", "--crate-name", "dom_query_c", "src/lib.rt", "--crate-type", "staticlib"]
    words += [word for name, rlib in found.items() for word in ("--extern", f"{name}={rlib}")]
    words += ["-L", f"dependency={kit / 'rlibs'}"]
    words += [word for rlib in made.values() for word in ("-L", f"dependency={rlib.parent}")]
    words += ["--antt-project", kit / "rattle" / "logic" / "antt-project.json", "--logic-built", kit / "logic_built"]
    words += ["--links", "dom_query_c=", "--toolchain", kit / "toolchain", "-o", archive]
    status, printed = run(words, cwd=ROOT / "crates" / "dom_query_c")
    if status == 0:
        keep(archive, kept)
    return status, printed


def c_and_python(archive=None):
    checks = Checks()
    if archive is None:
        archive = ARCHIVE
        status, printed = build_archive(archive)
        checks.check("building the archive", status == 0, printed)
    if checks.check("the archive", archive.exists(), f"there is no {archive}"):
        with tempfile.TemporaryDirectory() as made:
            linked(checks, archive, pathlib.Path(made))
    print(f"C and Python: {checks.passed} passed, {checks.failed} failed")
    return checks.passed, checks.failed


def unproved():
    """All checks over the archive that was built without proofs. The package keeps the library that it has; what asks for one later
    finds the unproved one by its path."""
    beside, copied = ROOT / "python" / "dom_query" / "libdom_query.so", unproved_programs.OUT / "libdom_query.so"
    kept = beside.read_bytes() if beside.exists() else None
    try:
        counts = c_and_python(unproved_programs.OUT / unproved_programs.ARCHIVE)
        if beside.exists():
            shutil.copy2(beside, copied)
            os.environ["DOM_QUERY_LIBRARY"] = str(copied)
        return counts
    finally:
        beside.unlink(missing_ok=True)
        if kept is not None:
            beside.write_bytes(kept)


def linked(checks, archive, folder):
    """All checks of what is linked from the archive."""
    if install(checks, archive, folder, None):
        names(checks, folder)
        programs(checks, folder, archive, pathlib.Path(run(["rt", "doc"])[1].strip()).parent)
        examples(checks, folder)
        documented(checks, folder)
        package(checks, folder)
    kit = pathlib.Path(run(["rt", "doc"])[1].strip()).parent
    clang = kit / "toolchain" / "bin" / "clang"
    if clang.exists():
        install(checks, archive, folder / "by_clang", contents.compiler())


if __name__ == "__main__":
    _, FAILED = c_and_python(*(pathlib.Path(word).resolve() for word in sys.argv[1:2]))
    sys.exit(FAILED != 0)
