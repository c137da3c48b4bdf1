"""Tries the files of a release where there is nothing else: in bare Debian systems that debootstrap makes.

    bare_debian.py DIR [SUITE ..]      DIR is what ./release made; the suites are bookworm, trixie and bullseye if none is named

It needs root, debootstrap, unshare and the network (for debootstrap and for gcc, man and Python in the bare system). In each system, then
without a network, with a home that can't be written and in a Turkish locale, it

- installs the .deb files by `apt install`, runs hq, dq, `man hq` and the completion of bash,
- builds examples/c/links.c by pkg-config, and again with the static library, and runs both,
- unpacks the tar archives, and runs hq and a C program from them,
- installs the wheel in a venv, runs a program, and does the same with the source archive over the library of the .deb,
- removes the packages, and compares which files are there with those from before.

Before that, lintian and twine look at the files, where they are there, and another user makes them anew: of a clone in another folder, under
another umask, with what the gate built here (for files of `./release --unproved`: with what is built).

In bullseye, whose glibc is 2.31, hq must be refused for that, and the C library must work; its Python is too old for the package.
Last it looks whether a mount, a process or a file is left. Each command's time is printed; the last line is 'N passed, M failed'."""
import os
import pathlib
import re
import shutil
import subprocess
import sys
import tempfile
import time

sys.dont_write_bytecode = True
ROOT = pathlib.Path(__file__).resolve().parents[2]
sys.path.insert(0, str(ROOT / "tests" / "tools"))
import passed  # noqa: E402

MIRROR = "http://deb.debian.org/debian"
SUITES = ("bookworm", "trixie", "bullseye")
OLD = ("bullseye",)
TOOLS = "man-db bsdextrautils gcc libc6-dev pkg-config python3-venv locales"
HOME = {"HOME": "/home", "LC_ALL": "tr_TR.UTF-8", "PATH": "/sbin:/usr/bin:/bin", "DEBIAN_FRONTEND": "noninteractive"}
PROGRAM = """import dom_query
page = dom_query.parse(open("/try/shop.html", "rb").read())
for item in page.select("ul li"):
    print(item.select_one("a").text, "costs", item.select_one("b").text)
print(dom_query.clean("<p onclick=x()>Tea<script>x()</script>"), dom_query.__version__)"""
LINKS = "Home: /\nAbout us: ../about\nMaté: mate\nGreen: https://tea.example/green?a=1&b=2\nMore: javascript:alert(1)\n"


class Room:
    """A bare system in a folder of its own."""

    def __init__(self, suite, folder):
        self.suite, self.at = suite, pathlib.Path(folder) / suite
        self.passed = self.failed = 0

    def within(self, command, *, network=False, user=False):
        """Runs a command in the system, in namespaces of its own, whose mounts and processes end with it."""
        head = "mount -t proc proc proc && mount --bind /dev dev && mount -t tmpfs tmpfs tmp && exec chroot . "
        as_user = "setpriv --reuid=1234 --regid=1234 --clear-groups --no-new-privs " if user else ""
        # (a home that can't be written, by nobody who runs as a user)
        words = ["unshare", "--mount", "--pid", "--fork", "--kill-child", *([] if network else ["--net"])]
        words += ["sh", "-c", f'cd "$0" && {head}{as_user}sh -c "$1"', str(self.at), f"cd /tmp && {command}"]
        env = {**HOME, **({"LC_ALL": "C.UTF-8"} if network else {})}
        begun = time.monotonic()
        ran = subprocess.run(words, env=env, stdin=subprocess.DEVNULL, stdout=subprocess.PIPE, stderr=subprocess.STDOUT, timeout=1800)
        return ran.returncode, ran.stdout.decode("utf-8", "replace"), time.monotonic() - begun

    def check(self, what, is_right, said=""):
        self.passed += bool(is_right)
        self.failed += not is_right
        print(f"{self.suite}: {what}: " + ("well" if is_right else f"WRONG: {said[-1500:]}"), flush=True)
        return is_right

    def tries(self, what, command, wanted=None, status=0, **how):
        """Runs a command, which must end with that status and print what is wanted: a text, or words that are part of it."""
        ended, said, took = self.within(command, **how)
        right = ended == status if status is not None else ended != 0
        right &= wanted is None or (said == wanted if wanted.endswith("\n") else wanted in said)
        return self.check(f"{what} ({took:.1f} s)", right, f"status {ended}: {said}")

    def make(self):
        """Makes the system, with what the tries need, but nothing of the release."""
        begun = time.monotonic()
        words = ["debootstrap", "--variant=minbase", self.suite, str(self.at), MIRROR]
        ran = subprocess.run(words, stdout=subprocess.PIPE, stderr=subprocess.STDOUT)
        if not self.check("debootstrap", ran.returncode == 0, ran.stdout.decode("utf-8", "replace")):
            return False
        shutil.copy2("/etc/resolv.conf", self.at / "etc" / "resolv.conf")
        more = "apt-get -qq update && apt-get -qq install -y --no-install-recommends " + TOOLS + " >/dev/null"
        more += " && localedef -i tr_TR -f UTF-8 tr_TR.UTF-8 && mkdir -p /try && chmod 555 /home && ldd --version | head -1"
        status, said, _ = self.within(more, network=True)
        print(f"{self.suite}: {said.strip().splitlines()[-1] if said.strip() else ''}; made in {time.monotonic() - begun:.0f} s", flush=True)
        return self.check("gcc, man and Python", status == 0, said)

    def fill(self, release):
        """Puts the release, the examples and the programs into the system."""
        shutil.copytree(release, self.at / "release")
        for name in ("examples/shop.html", "examples/c/links.c"):
            shutil.copy2(ROOT / name, self.at / "try")
        (self.at / "try" / "program.py").write_text(PROGRAM, encoding="utf-8")
        subprocess.run(["chmod", "-R", "a+rX", str(self.at / "release"), str(self.at / "try")], check=True)

    def files(self):
        """The files of the system, but for the lists of packages and what others write."""
        found = subprocess.run(["find", ".", "-xdev", "-not", "-type", "d"], cwd=self.at, stdout=subprocess.PIPE).stdout.decode().split("\n")
        # (dpkg, apt, ldconfig and man-db have lists and logs of their own; Python keeps its modules compiled)
        own = r"\./(var/lib/dpkg|var/lib/apt|var/log|var/cache|etc/ld.so.cache|release|try|tmp|proc|dev)\b|.*/__pycache__/"
        return {path for path in found if not re.match(own, path)}


def of_programs(room, version):
    """The programs by apt, with their manuals."""
    room.tries("apt install ./hq_*.deb", "apt-get install -y /release/hq_*.deb")
    room.tries("hq --version", "hq --version", f"hq {version}", user=True)
    room.tries("hq --text h1", "hq --text h1 /try/shop.html", "Café & tea\n", user=True)
    room.tries("hq from standard input", "printf '<p>a<p>b' | hq --count p", "2\n", user=True)
    room.tries("hq --sanitize", "printf '<p onclick=x()>Tea<script>x()</script>' | hq --sanitize --inner body", "<p>Tea</p>\n", user=True)
    room.tries("dq", "printf '<p>a</p>' | dq 'select p'", user=True)
    room.tries("man hq", "MANWIDTH=80 man hq | col -b | head -20", "print what a CSS selector matches", user=True)
    room.tries("man dq", "MANWIDTH=80 man dq | col -b | head -20", "run the lines of a script", user=True)
    room.tries("completion of bash", "bash -c '. /usr/share/bash-completion/completions/hq; complete -p hq'", "_hq", user=True)
    room.tries("a home that can't be written", "touch $HOME/x", status=None, user=True)


def of_library(room):
    """The C library by apt, with a program that is built by pkg-config."""
    room.tries("apt install ./libdom-query*.deb", "apt-get install -y /release/libdom-query*.deb")
    build = "gcc -Wall -Werror -o links /try/links.c $(pkg-config --cflags --libs dom_query)"
    room.tries("links.c by pkg-config", f"{build} && ./links < /try/shop.html", LINKS, user=True)
    static = "gcc -o links /try/links.c -l:libdom_query.a && ! ldd links | grep -q dom_query"
    room.tries("links.c by the static library", f"{static} && ./links < /try/shop.html", LINKS, user=True)
    tar = "tar xzf /release/libdom_query-*.tar.gz && cd libdom_query-* && export PKG_CONFIG_PATH=$PWD/lib/pkgconfig"
    build = "gcc -o links share/doc/libdom_query/examples/links.c $(pkg-config --cflags --libs dom_query) -Wl,-rpath,$PWD/lib"
    room.tries("links.c over the tar archive", f"{tar} && {build} && ldd links | grep -q $PWD/lib && ./links < /try/shop.html", LINKS, user=True)


def of_python(room, version):
    """The wheel in a venv, and the source archive over the library of the .deb."""
    wanted = f"Maté costs 3 €\nGreen costs 2 €\n<p>Tea</p> {version}\n"
    for what, file in (("the wheel", "/release/dom_query-*.whl"), ("the source archive", "/release/dom_query-*[0-9].tar.gz")):
        install = f"python3 -m venv v && v/bin/pip -q --no-cache-dir install --no-index {file}"
        # (venv needs a home for nothing, and pip warns where it can't keep a cache)
        room.tries(f"{what} in a venv", f"{install} && v/bin/python /try/program.py", wanted, user=True)


def of_tar(room, version):
    room.tries("the tar archive", "tar xzf /release/hq-*.tar.gz && hq-*/bin/hq --text h1 /try/shop.html", "Café & tea\n", user=True)
    room.tries("SHA256SUMS", "cd /release && sha256sum --quiet -c SHA256SUMS", user=True)


def of_suite(room, release, version):
    """All tries in one system."""
    if not room.make():
        return
    room.fill(release)
    before = room.files()
    if room.suite in OLD:
        room.tries("hq is refused for glibc", "apt-get install -y /release/hq_*.deb", "libc6", status=None)
    else:
        of_programs(room, version)
        of_tar(room, version)
    of_library(room)
    if room.suite not in OLD:
        of_python(room, version)
    room.tries("apt purge", "apt-get purge -y $(dpkg-query -W -f '${Package}\\n' hq 'libdom-query*' 2>/dev/null | sort -u)")
    left = sorted(room.files() ^ before)
    room.check("nothing is left of the packages", not left, f"{left[:20]}")


def lintian(release):
    """The complaints of lintian about the packages that are errors."""
    if not shutil.which("lintian"):
        return 0, 0
    ran = subprocess.run(["lintian", "--allow-root", *map(str, sorted(release.glob("*.deb")))], stdout=subprocess.PIPE, stderr=subprocess.STDOUT)
    said = ran.stdout.decode("utf-8", "replace")
    errors = re.findall(r"(?m)^E: .*", said)
    print((said.strip() + "\n" if said.strip() else "") + f"lintian: {len(errors)} errors")
    return int(not errors), int(bool(errors))


def metadata(release):
    """What twine says of the wheel and the source archive."""
    twine = shutil.which("twine", path="/usr/bin") or shutil.which("twine")
    if not twine:
        return 0, 0
    files = [*release.glob("*.whl"), *(it for it in release.glob("dom_query-*.tar.gz"))]
    ran = subprocess.run([twine, "check", *map(str, files)], stdout=subprocess.PIPE, stderr=subprocess.STDOUT)
    print(ran.stdout.decode("utf-8", "replace").strip())
    return int(ran.returncode == 0), int(ran.returncode != 0)


def other_user(release):
    """Another user makes the same bytes, in another folder and under another umask."""
    unproved = "NOT PROVED" in (release / "PROVED.txt").read_text(encoding="utf-8")
    with tempfile.TemporaryDirectory(prefix="other-user-") as folder:
        os.chmod(folder, 0o755)
        clone = pathlib.Path(folder) / "a clone"
        subprocess.run(["git", "clone", "-q", "--no-hardlinks", str(ROOT), str(clone)], check=True)
        for name in [*passed.BUILT, *([] if unproved else ["out/gate-passed.json"])]:
            (clone / name).parent.mkdir(parents=True, exist_ok=True)
            shutil.copy2(ROOT / name, clone / name)
        subprocess.run(["chown", "-R", "65534:65534", str(clone)], check=True)
        words = ["setpriv", "--reuid=65534", "--regid=65534", "--clear-groups", "--no-new-privs", "sh", "-c"]
        words += ['umask 077; exec python3 "$0"/release "$@"', str(clone), *["--unproved"] * unproved, "--check", str(release)]
        env = {"PATH": f"/usr/bin:/bin:{passed.kit() / 'bin'}", "HOME": "/nonexistent", "TZ": "Asia/Kathmandu", "LC_ALL": "C"}
        ran = subprocess.run(words, cwd="/", env=env, stdout=subprocess.PIPE, stderr=subprocess.STDOUT)
        print("another user:", ran.stdout.decode("utf-8", "replace").strip())
        return int(ran.returncode == 0), int(ran.returncode != 0)


def left_behind(folder):
    """What is still there of the systems."""
    mounts = pathlib.Path("/proc/mounts").read_text().count(str(folder))
    rooted = 0
    for process in pathlib.Path("/proc").glob("[0-9]*"):
        try:
            rooted += os.readlink(process / "root").startswith(str(folder))
        except OSError:
            pass
    return bool(mounts or rooted or pathlib.Path(folder).exists())


def main(words):
    if not words or os.geteuid() != 0 or not shutil.which("debootstrap"):
        print(__doc__, file=sys.stderr)
        return 2
    release, suites = pathlib.Path(words[0]).resolve(), words[1:] or SUITES
    version = (ROOT / "VERSION").read_text(encoding="utf-8").strip()
    counts = [lintian(release), metadata(release), other_user(release)]
    for suite in suites:
        # (it is removed also where a try is stopped)
        with tempfile.TemporaryDirectory(prefix="bare-debian-") as folder:
            os.chmod(folder, 0o755)
            room = Room(suite, folder)
            try:
                of_suite(room, release, version)
            except subprocess.TimeoutExpired as stopped:
                room.check("an end", False, str(stopped))
        is_left = left_behind(folder)
        print(f"{suite}: " + ("something is LEFT BEHIND" if is_left else "nothing is left behind"))
        counts += [(room.passed, room.failed), (int(not is_left), int(is_left))]
    right, wrong = (sum(column) for column in zip(*counts))
    print(f"{right} passed, {wrong} failed")
    return 1 if wrong else 0


if __name__ == "__main__":
    sys.exit(main(sys.argv[1:]))
