"""Builds the wheel and the source archive of dom_query. It needs nothing but Python, so `pip install ./python` works without a network.

The shared library is dom_query/libdom_query.so: ./install-c puts it there. A wheel that is built without it, as from the source archive,
uses the library libdom_query.so.0 of the system, such as that of the Debian package libdom-query0.
"""

from __future__ import annotations

import base64
import gzip
import hashlib
import io
import pathlib
import re
import sysconfig
import tarfile
import zipfile

HERE = pathlib.Path(__file__).resolve().parent
MODULES = ("*.py", "py.typed")
SOURCES = ("pyproject.toml", "build_dom_query.py", "README.md")
FIRST = (1980, 1, 1, 0, 0, 0)


def _above(name: str) -> bytes:
    """A file that stands at the top of the repository, and in the source archive beside this one."""
    beside = HERE / name
    return (beside if beside.exists() else HERE.parent / name).read_bytes()


def version() -> str:
    """The version of the release, which is in the file VERSION."""
    return _above("VERSION").decode().strip()


def project() -> tuple[dict[str, str], list[str]]:
    """The texts of the table `project` of pyproject.toml, and its classifiers. (Python 3.10 has no reader of TOML.)"""
    table = (HERE / "pyproject.toml").read_text(encoding="utf-8").partition("[project]\n")[2].partition("\n[")[0]
    return dict(re.findall(r'(?m)^([\w-]+) = "([^"]*)"$', table)), re.findall(r'(?m)^    "([^"]*)",$', table)


def metadata() -> bytes:
    """The file METADATA of the wheel, and PKG-INFO of the source archive."""
    said, classifiers = project()
    fields = [
        ("Metadata-Version", "2.1"),
        ("Name", said["name"]),
        ("Version", version()),
        ("Summary", said["description"]),
        ("License", said["license"]),
        *(("Classifier", it) for it in classifiers),
        ("Requires-Python", said["requires-python"]),
        ("Description-Content-Type", "text/markdown"),
    ]
    head = "".join(f"{name}: {value}\n" for name, value in fields)
    return head.encode() + b"\n" + (HERE / "README.md").read_bytes()


def _modules() -> dict[str, bytes]:
    files = [file for pattern in MODULES for file in sorted((HERE / "dom_query").glob(pattern))]
    return {f"dom_query/{file.name}": file.read_bytes() for file in files}


def _record(files: dict[str, bytes], name: str) -> bytes:
    lines = []
    for path, data in files.items():
        digest = base64.urlsafe_b64encode(hashlib.sha256(data).digest()).rstrip(b"=").decode()
        lines.append(f"{path},sha256={digest},{len(data)}\n")
    return "".join([*lines, f"{name},,\n"]).encode()


def contents(library: bytes | None, tag: str, licences: dict[str, bytes]) -> dict[str, bytes]:
    """The files of the wheel by their paths, with this library, or without one, and further files about licences."""
    info, files = f"dom_query-{version()}.dist-info", _modules()
    if library is not None:
        files["dom_query/libdom_query.so"] = library
    pure = "true" if library is None else "false"
    files[f"{info}/METADATA"] = metadata()
    files[f"{info}/WHEEL"] = f"Wheel-Version: 1.0\nGenerator: build_dom_query\nRoot-Is-Purelib: {pure}\nTag: {tag}\n".encode()
    for name, data in {"LICENSE": _above("LICENSE"), **licences}.items():
        files[f"{info}/licenses/{name}"] = data
    files[f"{info}/RECORD"] = _record(files, f"{info}/RECORD")
    return files


def wheel_name(tag: str) -> str:
    return f"dom_query-{version()}-{tag}.whl"


def build_wheel(wheel_directory: str, config_settings: object = None, metadata_directory: str | None = None) -> str:
    """Writes the wheel for machines as this one into the folder, and returns its name."""
    file = HERE / "dom_query" / "libdom_query.so"
    library = file.read_bytes() if file.exists() else None
    platform = sysconfig.get_platform().replace("-", "_").replace(".", "_") if library is not None else "any"
    name = wheel_name(f"py3-none-{platform}")
    with zipfile.ZipFile(pathlib.Path(wheel_directory) / name, "w", zipfile.ZIP_DEFLATED) as wheel:
        for path, data in contents(library, f"py3-none-{platform}", {}).items():
            wheel.writestr(zipfile.ZipInfo(path, FIRST), data, zipfile.ZIP_DEFLATED)
    return name


def source_contents() -> dict[str, bytes]:
    """The files of the source archive by their paths: the package without its library."""
    files = {name: (HERE / name).read_bytes() for name in SOURCES} | {name: _above(name) for name in ("VERSION", "LICENSE")}
    files |= {**_modules(), "PKG-INFO": metadata()}
    return {f"dom_query-{version()}/{path}": data for path, data in files.items()}


def sdist_name() -> str:
    return f"dom_query-{version()}.tar.gz"


def build_sdist(sdist_directory: str, config_settings: object = None) -> str:
    """Writes the source archive into the folder, and returns its name."""
    with gzip.GzipFile(pathlib.Path(sdist_directory) / sdist_name(), "wb", mtime=0) as packed:
        with tarfile.open(fileobj=packed, mode="w", format=tarfile.USTAR_FORMAT) as archive:
            for path, data in source_contents().items():
                info = tarfile.TarInfo(path)
                info.size, info.mode = len(data), 0o644
                archive.addfile(info, io.BytesIO(data))
    return sdist_name()
