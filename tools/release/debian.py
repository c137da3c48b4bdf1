"""Debian packages: hq, libdom-query0 and libdom-query-dev."""
import hashlib
import re
import time
from email.utils import formatdate
from typing import NamedTuple

from archives import Entry, ar, folders_of, gz, tar, xz

MAINTAINER = "The authors of dom_query in Rattle <maintainers@dom-query.invalid>"
ABOUT = {
    "hq": (
        "print what a CSS selector matches in pages of the web",
        """hq reads HTML as browsers do, finds nodes with CSS selectors, and prints them
as HTML, text, Markdown, JSON lines or CSV. It changes pages, cleans HTML from
strangers by a policy, and reads the archives of crawls (WARC). dq runs a
script over explicit markup.
.
That no call panics, that every call ends, and what selectors, edits and
the cleaner do is proved. A processor of x86-64-v2 (SSE 4.2) is needed.""",
    ),
    "libdom-query0": (
        "HTML documents: CSS selectors, edits, HTML, Markdown and text",
        """A library for C that reads HTML pages as browsers do, finds nodes with CSS
selectors, changes them, cleans HTML from strangers by a policy, and writes
HTML, Markdown or text.
.
That no call panics, that every call ends, and what selectors, edits and
the cleaner do is proved. A processor of x86-64-v2 (SSE 4.2) is needed.""",
    ),
    "libdom-query-dev": (
        "HTML documents: CSS selectors and edits, files for C programs",
        """The header, the pkg-config file, and the library for static linking, which
programs are built with that use libdom-query0, a library for C that reads
HTML pages, finds nodes with CSS selectors, changes them and writes them.""",
    ),
}
SECTION = {"hq": "text", "libdom-query0": "libs", "libdom-query-dev": "libdevel"}
MULTI = {"hq": "foreign", "libdom-query0": "same", "libdom-query-dev": "same"}


class Package(NamedTuple):
    """What a package is."""

    name: str
    version: str
    depends: str
    epoch: int


def control(of, entries):
    """The file control of a package."""
    short, long = ABOUT[of.name]
    # (in units of 1,024 bytes, one for each folder and link, as dpkg-gencontrol counts)
    size = sum(max(1, -(-len(entry.data) // 1024)) for entry in entries) + len(folders_of(it.path for it in entries))
    fields = {
        "Package": of.name,
        "Version": of.version,
        "Architecture": "amd64",
        "Multi-Arch": MULTI[of.name],
        "Maintainer": MAINTAINER,
        "Installed-Size": size,
        "Depends": of.depends,
        "Section": SECTION[of.name],
        "Priority": "optional",
        "Description": short + "".join(f"\n {line}" for line in long.splitlines()),
    }
    return "".join(f"{field}: {value}\n" for field, value in fields.items()).encode()


def items_of(changes, version):
    """The items of a version in CHANGELOG.md, each as one line."""
    part = re.split(r"(?m)^## ", changes)
    part = next((it for it in part if it.startswith(version)), "")
    return [re.sub(r"[*`]|\]\([^)]*\)|\[", "", re.sub(r"\s+", " ", it)).strip() for it in re.split(r"(?m)^- ", part)[1:]]


def wrapped(text, first, rest, width=78):
    """The words of a text in lines."""
    lines, line = [], first
    for word in text.split():
        if len(line) + len(word) > width:
            lines.append(line.rstrip())
            line = rest
        line += word + " "
    return [*lines, line.rstrip()]


def changelog(changes, version, epoch):
    """CHANGELOG.md's part on this version, as Debian writes such files."""
    lines = [f"dom-query ({version}) unstable; urgency=medium", ""]
    for item in items_of(changes, version):
        lines += wrapped(item, "  * ", "    ")
    lines += ["", f" -- {MAINTAINER}  {formatdate(epoch)}", ""]
    return gz("\n".join(lines).encode())


def copyright_of(licence, licences, epoch):
    """The file copyright of a package."""
    head = f"This package was made on {time.strftime('%Y-%m-%d', time.gmtime(epoch))} by ./release of dom_query in Rattle.\n"
    return f"{head}\n{licence}\n{licences}".encode()


def shared(name, version, soname):
    """The files by which packages that use the library find which version they need, and ldconfig is run."""
    library, number = re.fullmatch(r"(.*)\.so\.(\d+)", soname).groups()
    return [Entry("shlibs", f"{library} {number} {name} (>= {version})\n".encode()), Entry("triggers", b"activate-noawait ldconfig\n")]


def symbols(name, soname, exported):
    """The file symbols: since which version of the package each symbol has been there, which its own version says."""
    since = {node: node.rpartition("_")[2] for node in exported.values()}
    lines = [f"{soname} {name} #MINVER#"] + [f" {node}@{node} {since[node]}" for node in sorted(since)]
    lines += [f" {symbol}@{node} {since[node]}" for symbol, node in sorted(exported.items())]
    return Entry("symbols", ("\n".join(lines) + "\n").encode())


def package(of, entries, more=()):
    """A package with these entries; `more` are further files of its control archive."""
    sums = "".join(f"{hashlib.md5(it.data).hexdigest()}  {it.path}\n" for it in sorted(entries) if not it.to)
    members = [Entry("control", control(of, entries)), Entry("md5sums", sums.encode()), *more]
    # (dpkg wants the names in the archives to begin with ./)
    made = [xz(tar(part, of.epoch, before="./")) for part in (members, entries)]
    return ar([("debian-binary", b"2.0\n"), ("control.tar.xz", made[0]), ("data.tar.xz", made[1])], of.epoch)
