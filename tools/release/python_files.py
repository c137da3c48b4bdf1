"""The wheel and the source archive of the Python package, by its own build script."""
import importlib.util

from archives import Entry, gz, tar, zipped
from kit import ROOT

SOURCES = ROOT / "python"


def builder():
    """python/build_dom_query.py as a module."""
    spec = importlib.util.spec_from_file_location("build_dom_query", SOURCES / "build_dom_query.py")
    module = importlib.util.module_from_spec(spec)
    spec.loader.exec_module(module)
    return module


def wheel(library, licences, platform, epoch):
    """The name and the bytes of the wheel with this library, for these machines."""
    build, tag = builder(), f"py3-none-{platform}"
    files = build.contents(library, tag, {"LICENSES.txt": licences.encode()})
    entries = [Entry(path, data, path.endswith(".so")) for path, data in files.items()]
    return build.wheel_name(tag), zipped(entries, epoch)


def sdist(epoch):
    """The name and the bytes of the source archive."""
    build = builder()
    entries = [Entry(path, data) for path, data in build.source_contents().items()]
    return build.sdist_name(), gz(tar(entries, epoch))
