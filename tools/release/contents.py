"""What is in the files of a release: the programs and the library without data for debuggers, and all that goes with them."""
import os
import pathlib
import shutil
import subprocess
import tempfile
from typing import NamedTuple

import abi
import debian
import kit
import proof
import python_files
import spdx
import symbols
from archives import Entry, gz, tar
from kit import ROOT, Stop

MULTIARCH = "usr/lib/x86_64-linux-gnu"
README = """hq and dq {version} for Linux on x86-64-v2, with glibc {glibc} or later

  bin/hq      prints what a CSS selector matches in pages of the web: bin/hq --text h1 page.html, or bin/hq --help
  bin/dq      runs a script over explicit markup
  share/man   their manuals: man share/man/man1/hq.1

Copy bin and share to {home}, say, and hq, dq, their manuals and the completions for bash and zsh are found. Nothing else is needed.
PROVED.txt says which sources and which prover stand behind the programs, LICENSES.txt what is linked in.
"""
README_C = """libdom_query {version} for Linux on x86-64-v2, with glibc {glibc} or later: HTML documents for C

  PKG_CONFIG_PATH=$PWD/lib/pkgconfig; export PKG_CONFIG_PATH
  gcc -o links share/doc/libdom_query/examples/links.c $(pkg-config --cflags --libs dom_query) -Wl,-rpath,$PWD/lib

Copy include and lib to where your compiler looks, run ldconfig, and -ldom_query is all that is needed. include/dom_query.h describes
each function. PROVED.txt says which sources and which prover stand behind the library, LICENSES.txt what is linked in.
"""
PC = """prefix={prefix}
libdir={libdir}
Name: dom_query
Description: HTML documents: CSS selectors, edits, HTML, Markdown and text
Version: {version}
Cflags: {cflags}
Libs: {libs}
Libs.private: -pthread
"""


def read(name):
    return (ROOT / name).read_bytes()


class Built(NamedTuple):
    """What the gate built: the places of the programs and of the archive of the library."""

    hq: pathlib.Path
    dq: pathlib.Path
    archive: pathlib.Path


class Parts(NamedTuple):
    """What goes into the files of a release."""

    version: str
    epoch: int
    hq: bytes
    dq: bytes
    shared: bytes
    static: bytes
    proved: bytes
    needs: dict  # for each of hq, dq and library: the least glibc, what a Debian package depends on, and the tag of a wheel
    exported: dict
    linked: dict


def stripped(file, folder, *words):
    """The bytes of a file without what only debuggers read."""
    made = pathlib.Path(folder) / f"stripped-{file.name}"
    kit.tool("llvm-strip", *words, "--remove-section=.comment", "-o", made, file)
    return made, made.read_bytes()


def compiler():
    """The kit's own clang, so that no other compiler has to be the same, with the headers of this machine's C library."""
    words = [str(kit.folder() / "toolchain" / "bin" / "clang"), "-fuse-ld=lld"]
    own = subprocess.run(["gcc", "-print-file-name=include"], stdout=subprocess.PIPE).stdout.decode().strip() if shutil.which("gcc") else ""
    return " ".join(words + [f"-isystem {it}" for it in (own, "/usr/include/x86_64-linux-gnu", "/usr/include") if it])


def library(archive, folder):
    """The shared library and the archive that ./install-c makes of what was built."""
    env = {**os.environ, "CC": compiler(), "DOM_QUERY_ARCHIVE": str(archive), "DOM_QUERY_PYTHON": "no"}
    words = [ROOT / "install-c", pathlib.Path(folder) / "c"]
    ran = subprocess.run([str(it) for it in words], env=env, stdout=subprocess.PIPE, stderr=subprocess.STDOUT)
    if ran.returncode:
        raise Stop(f"./install-c failed: {ran.stdout.decode(errors='replace').strip()}")
    lib = pathlib.Path(folder) / "c" / "lib"
    return lib / abi.LIBRARY, lib / "libdom_query.a"


def needs_of(file):
    glibc = ".".join(str(it) for it in symbols.glibc(file))
    return {"glibc": glibc, "depends": symbols.depends(file), "platform": symbols.platform(file)}


def parts(built, why_not):
    """All that goes into a release of what was built."""
    lacking = [str(file) for file in built if not file.exists()]
    if lacking:
        raise Stop(f"there is no {', '.join(lacking)}")
    with tempfile.TemporaryDirectory() as folder:
        hq, hq_bytes = stripped(built.hq, folder, "--strip-all")
        dq, dq_bytes = stripped(built.dq, folder, "--strip-all")
        so, a = library(built.archive, folder)
        shared, shared_bytes = stripped(so, folder, "--strip-unneeded")
        _, static_bytes = stripped(a, folder, "--strip-debug", "--enable-deterministic-archives")
        pairs = [("hq", built.hq.read_bytes(), hq_bytes), ("dq", built.dq.read_bytes(), dq_bytes)]
        pairs.append((abi.LIBRARY, built.archive.read_bytes(), shared_bytes))
        version = proof.version()
        proved = proof.text(version, pairs, why_not).encode()
        needs = {"hq": needs_of(hq), "dq": needs_of(dq), "library": needs_of(shared)}
        linked = {"hq": kit.parts("hq"), "dq": kit.parts("dq"), "libdom_query": kit.parts("dom_query_c")}
        exported = {name: of for name, of in symbols.exported(shared).items() if name.startswith("dq_")}
        return Parts(version, proof.epoch(), hq_bytes, dq_bytes, shared_bytes, static_bytes, proved, needs, exported, linked)


def notes(made, owners):
    """The texts about licences and proofs that go with what `owners` name."""
    found = {part.name: part for owner in owners for part in made.linked[owner]}
    return [
        Entry("LICENSE", read("LICENSE")),
        Entry("LICENSES.txt", kit.licences([found[name] for name in sorted(found)]).encode()),
        Entry("PROVED.txt", made.proved),
        Entry("CHANGELOG.md", read("CHANGELOG.md")),
    ]


def in_folder(folder, entries):
    return [entry._replace(path=f"{folder}/{entry.path}") for entry in entries]


def tar_of_programs(made):
    """The name and the bytes of the archive of the programs."""
    stem = f"hq-{made.version}-linux-x86_64"
    text = README.format(version=made.version, glibc=made.needs["hq"]["glibc"], home="~/.local")
    entries = [Entry("bin/hq", made.hq, True), Entry("bin/dq", made.dq, True)]
    entries += [Entry(f"share/man/man1/{name}.1", read(f"docs/man/{name}.1")) for name in ("hq", "dq")]
    entries.append(Entry("share/bash-completion/completions/hq", read("docs/completions/hq.bash")))
    entries.append(Entry("share/zsh/site-functions/_hq", read("docs/completions/_hq")))
    entries += in_folder("share/doc/hq", [*notes(made, ("hq", "dq")), Entry("README.txt", text.encode())])
    return f"{stem}.tar.gz", gz(tar(in_folder(stem, entries), made.epoch))


def examples():
    return [Entry(f"examples/{name}", read(f"examples/c/{name}")) for name in ("clean.c", "links.c")]


def tar_of_library(made):
    """The name and the bytes of the archive of the C library."""
    stem = f"libdom_query-{made.version}-linux-x86_64"
    text = README_C.format(version=made.version, glibc=made.needs["library"]["glibc"])
    flags = {"libdir": "${prefix}/lib", "cflags": "-I${prefix}/include", "libs": "-L${libdir} -ldom_query"}
    pc = PC.format(prefix="${pcfiledir}/../..", version=made.version, **flags)
    entries = [Entry(f"lib/{abi.LIBRARY}", made.shared), Entry("lib/libdom_query.so", to=abi.LIBRARY)]
    entries += [Entry("lib/libdom_query.a", made.static), Entry("lib/pkgconfig/dom_query.pc", pc.encode())]
    entries.append(Entry("include/dom_query.h", read("include/dom_query.h")))
    more = [*notes(made, ["libdom_query"]), *examples(), Entry("README.txt", text.encode())]
    entries += in_folder("share/doc/libdom_query", more)
    return f"{stem}.tar.gz", gz(tar(in_folder(stem, entries), made.epoch))


def documents_of(made, name, owners):
    """What each Debian package has in /usr/share/doc."""
    found = {part.name: part for owner in owners for part in made.linked[owner]}
    texts = kit.licences([found[it] for it in sorted(found)], on_debian=True)
    licence = debian.copyright_of(read("LICENSE").decode(), texts, made.epoch)
    changes = debian.changelog(read("CHANGELOG.md").decode(), made.version, made.epoch)
    entries = [Entry("copyright", licence), Entry("changelog.gz", changes), Entry("PROVED.txt", made.proved)]
    return in_folder(f"usr/share/doc/{name}", entries)


def deb_of_programs(made):
    entries = [Entry("usr/bin/hq", made.hq, True), Entry("usr/bin/dq", made.dq, True)]
    entries += [Entry(f"usr/share/man/man1/{name}.1.gz", gz(read(f"docs/man/{name}.1"))) for name in ("hq", "dq")]
    entries.append(Entry("usr/share/bash-completion/completions/hq", read("docs/completions/hq.bash")))
    entries.append(Entry("usr/share/zsh/vendor-completions/_hq", read("docs/completions/_hq")))
    entries += documents_of(made, "hq", ("hq", "dq"))
    return debian.package(debian.Package("hq", made.version, made.needs["hq"]["depends"], made.epoch), entries)


def deb_of_library(made, name):
    entries = [Entry(f"{MULTIARCH}/{abi.LIBRARY}", made.shared), *documents_of(made, name, ["libdom_query"])]
    more = debian.shared(name, made.version, abi.LIBRARY)
    more.append(debian.symbols(name, abi.LIBRARY, made.exported))
    return debian.package(debian.Package(name, made.version, made.needs["library"]["depends"], made.epoch), entries, more)


def deb_of_headers(made, name, of):
    flags = {"prefix": "/usr", "libdir": f"${{prefix}}/{MULTIARCH[4:]}", "cflags": "-I${prefix}/include"}
    pc = PC.format(version=made.version, libs="-L${libdir} -ldom_query", **flags)
    entries = [Entry(f"{MULTIARCH}/libdom_query.so", to=abi.LIBRARY), Entry(f"{MULTIARCH}/libdom_query.a", made.static)]
    entries.append(Entry(f"{MULTIARCH}/pkgconfig/dom_query.pc", pc.encode()))
    entries.append(Entry("usr/include/dom_query.h", read("include/dom_query.h")))
    entries += documents_of(made, name, ["libdom_query"]) + in_folder(f"usr/share/doc/{name}", examples())
    return debian.package(debian.Package(name, made.version, f"{of} (= {made.version})", made.epoch), entries)


def debs(made):
    """The names and the bytes of the Debian packages."""
    library = f"libdom-query{abi.LIBRARY.rpartition('.')[2]}"
    found = {"hq": deb_of_programs(made), library: deb_of_library(made, library)}
    found["libdom-query-dev"] = deb_of_headers(made, "libdom-query-dev", library)
    return {f"{name}_{made.version}_amd64.deb": data for name, data in found.items()}


def files(built, why_not):
    """The files of a release by their names."""
    made = parts(built, why_not)
    found = dict([tar_of_programs(made), tar_of_library(made)])
    found.update(debs(made))
    texts = kit.licences(made.linked["libdom_query"])
    found.update([python_files.wheel(made.shared, texts, made.needs["library"]["platform"], made.epoch), python_files.sdist(made.epoch)])
    listed = spdx.document(made.version, kit.passed.commit(), made.epoch, found, made.linked)
    found.update({"PROVED.txt": made.proved, f"dom_query-{made.version}.spdx.json": listed.encode()})
    sums = "".join(f"{proof.sum_of(data)}  {name}\n" for name, data in sorted(found.items()))
    return {**found, "SHA256SUMS": sums.encode()}
