"""Archives that are equal byte for byte wherever they are made: each entry has the same time, the same owner and one of two modes,
and the entries are sorted by their names."""
import calendar
import io
import lzma
import struct
import tarfile
import time
import zipfile
import zlib
from typing import NamedTuple


class Entry(NamedTuple):
    """A file of an archive; with `to`, a symbolic link to that path."""

    path: str
    data: bytes = b""
    runs: bool = False
    to: str = ""

    def mode(self):
        return 0o755 if self.runs else 0o644


def folders_of(paths):
    """The folders above these paths, each after those that it is in."""
    found = set()
    for path in paths:
        parts = path.split("/")[:-1]
        found |= {"/".join(parts[: count + 1]) for count in range(len(parts))}
    return sorted(found)


def head(name, epoch):
    """The head of an entry of a tar archive, before its kind and size are known."""
    info = tarfile.TarInfo(name)
    info.mtime, info.uid, info.gid, info.uname, info.gname = epoch, 0, 0, "root", "root"
    return info


def tar(entries, epoch, before=""):
    """A tar archive of the entries and their folders, each with `before` in front of its name."""
    made = io.BytesIO()
    with tarfile.open(fileobj=made, mode="w", format=tarfile.USTAR_FORMAT) as archive:
        if before:
            entries = [entry._replace(path=before + entry.path) for entry in entries]
        named = {path: None for path in folders_of(entry.path for entry in entries)}
        named.update({entry.path: entry for entry in entries})
        for path in sorted(named):
            entry, info = named[path], head(path, epoch)
            if entry is None:
                info.type, info.mode = tarfile.DIRTYPE, 0o755
            elif entry.to:
                info.type, info.mode, info.linkname = tarfile.SYMTYPE, 0o777, entry.to
            else:
                info.size, info.mode = len(entry.data), entry.mode()
            archive.addfile(info, io.BytesIO(entry.data) if entry else None)
    return made.getvalue()


def gz(data):
    """The data compressed by gzip, with no name and no time in its head (and so the same for each version of Python)."""
    packer = zlib.compressobj(9, zlib.DEFLATED, -15)
    packed = packer.compress(data) + packer.flush()
    return b"\x1f\x8b\x08\0\0\0\0\0\x02\x03" + packed + struct.pack("<II", zlib.crc32(data), len(data) & 0xFFFFFFFF)


def xz(data):
    return lzma.compress(data, format=lzma.FORMAT_XZ, check=lzma.CHECK_CRC64, preset=6)


def ar(members, epoch):
    """An archive of `ar` in the given order, which is what a Debian package is."""
    made = b"!<arch>\n"
    for name, data in members:
        made += f"{name:<16}{epoch:<12}{0:<6}{0:<6}{'100644':<8}{len(data):<10}`\n".encode() + data + b"\n" * (len(data) % 2)
    return made


def zipped(entries, epoch):
    """A zip archive of the entries in the given order."""
    made = io.BytesIO()
    with zipfile.ZipFile(made, "w", zipfile.ZIP_DEFLATED, compresslevel=9) as archive:
        for entry in entries:
            # (zip has no time before 1980)
            info = zipfile.ZipInfo(entry.path, time.gmtime(max(epoch, calendar.timegm((1980, 1, 1, 0, 0, 0))))[:6])
            info.compress_type, info.create_system, info.external_attr = zipfile.ZIP_DEFLATED, 3, (0o100000 | entry.mode()) << 16
            archive.writestr(info, entry.data)
    return made.getvalue()
