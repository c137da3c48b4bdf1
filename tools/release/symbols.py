"""What a program or a library needs of the system: libraries, and the versions of their symbols."""
import re

import kit

# What every Linux of the last ten years has, so that a wheel may need it (PEP 600).
EVERYWHERE = {"libc.so.6", "libm.so.6", "libgcc_s.so.1", "ld-linux-x86-64.so.2"}


def needs(file):
    """The names of the libraries that a file is linked with."""
    return re.findall(r"(?m)^\s*NEEDED\s+(\S+)", kit.tool("llvm-objdump", "-p", file))


def versions(file):
    """The highest version of the symbols that a file needs, for each kind: {'GLIBC': (2, 34), 'GCC': (3, 0)}."""
    highest = {}
    for kind, version in re.findall(r"@(\w+?)_([0-9.]+)", kit.tool("llvm-nm", "-D", "--undefined-only", file)):
        found = tuple(int(it) for it in version.split("."))
        highest[kind] = max(found, highest.get(kind, ()))
    return highest


def glibc(file):
    """The least glibc that a file runs with: (2, 34), say."""
    return versions(file).get("GLIBC", (2, 2, 5))


def exported(file):
    """The names that a library gives, each with the version of its symbol, or '' where it has none."""
    lines = kit.tool("llvm-nm", "-D", "--defined-only", file).splitlines()
    words = [line.split()[-1] for line in lines if re.search(r" [TDBRVW] \S+$", line)]
    return {name: version for name, _, version in (word.replace("@@", "@").partition("@") for word in words)}


def platform(file):
    """The tag of a wheel with this library: manylinux_2_N_x86_64, with the least N that is right."""
    beyond = set(needs(file)) - EVERYWHERE
    kinds = set(versions(file)) - {"GLIBC", "GCC"}
    if beyond or kinds:
        raise kit.Stop(f"{file} needs {', '.join(sorted(beyond | kinds))}, which no wheel may rely on")
    # (no pip looks for a glibc below 2.5)
    major, minor = max(glibc(file)[:2], (2, 5))
    return f"manylinux_{major}_{minor}_x86_64"


def depends(file):
    """What a Debian package with this file depends on."""
    version = ".".join(str(it) for it in glibc(file))
    found = [f"libc6 (>= {version})"]
    if "libgcc_s.so.1" in needs(file):
        gcc = ".".join(str(it) for it in versions(file).get("GCC", (3, 0)))
        found.append(f"libgcc-s1 (>= {gcc})")
    return ", ".join(found)
