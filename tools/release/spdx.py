"""The list of what is inside of a release, as SPDX 2.3 has it."""
import hashlib
import json
import time

NOTHING = "NOASSERTION"
RUN_TIME = [
    ("start-files-of-glibc", "LGPL-2.1-or-later WITH GCC-exception-2.0", "glibc's start files (crt1.o, crti.o, crtn.o, libc_nonshared.a)"),
    ("start-files-of-GCC", "GPL-3.0-or-later WITH GCC-exception-3.1", "GCC's start files (crtbeginS.o, crtendS.o, libgcc.a)"),
]


def package(name, version, licence, **more):
    """A package of the list."""
    said = {"name": name, "SPDXID": f"SPDXRef-{name.replace('_', '-')}", "downloadLocation": NOTHING, "filesAnalyzed": False}
    if version:
        said["versionInfo"] = version
    return {**said, "licenseConcluded": licence, "licenseDeclared": licence, "copyrightText": NOTHING, **more}


def of_kit(part):
    """A library of the kit."""
    more = {"comment": f"A library of the kit that follows {part.follows} {part.version}."} if part.follows else {}
    licence = part.licence
    # (where one may choose, the text that is shipped is the one that was chosen: the declared licence stays as it is)
    return package(f"kit-{part.name}", "", licence, **more)


def relation(one, kind, other):
    return {"spdxElementId": one, "relationshipType": kind, "relatedSpdxElement": other}


def file_of(name, data):
    """A file of the release."""
    sums = [{"algorithm": "SHA256", "checksumValue": hashlib.sha256(data).hexdigest()}]
    return package(f"file-{name}", "", "MIT", packageFileName=name, checksums=sums)


def document(version, commit, epoch, files, linked):
    """The list as text: the files with their checksums, and what is linked into each of the programs and the library."""
    parts = {part.name: part for found in linked.values() for part in found}
    source = package("dom_query-in-Rattle", version, "MIT", sourceInfo=f"commit {commit}")
    ours = [package(name, version, "MIT") for name in linked]
    packages = [source, *ours, *(of_kit(parts[name]) for name in sorted(parts))]
    packages += [package(name, "", licence, summary=summary) for name, licence, summary in RUN_TIME]
    packages += [file_of(name, data) for name, data in sorted(files.items())]
    relations = [relation("SPDXRef-DOCUMENT", "DESCRIBES", source["SPDXID"])]
    relations += [relation(source["SPDXID"], "GENERATES", f"SPDXRef-file-{name}".replace("_", "-")) for name in sorted(files)]
    for name, found in linked.items():
        owner = f"SPDXRef-{name}".replace("_", "-")
        relations += [relation(source["SPDXID"], "CONTAINS", owner)]
        relations += [relation(owner, "STATIC_LINK", f"SPDXRef-kit-{part.name}".replace("_", "-")) for part in found]
        relations += [relation(owner, "STATIC_LINK", f"SPDXRef-{it}") for it, _, _ in RUN_TIME]
    said = {
        "spdxVersion": "SPDX-2.3",
        "dataLicense": "CC0-1.0",
        "SPDXID": "SPDXRef-DOCUMENT",
        "name": f"dom_query in Rattle {version}",
        "documentNamespace": f"https://spdx.org/spdxdocs/dom_query-in-Rattle-{version}-{commit}",
        "creationInfo": {"created": time.strftime("%Y-%m-%dT%H:%M:%SZ", time.gmtime(epoch)), "creators": ["Tool: release"]},
        "packages": packages,
        "relationships": relations,
    }
    return json.dumps(said, indent=1, ensure_ascii=False) + "\n"
