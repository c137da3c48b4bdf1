"""Files that `hq --in-place` writes: what stays of a file is its mode, its owner and each link to it, and a run that fails or is
killed leaves it as it was. What another program writes to a file meanwhile isn't lost."""
import os
import pathlib
import random
import resource
import shutil
import signal
import subprocess
import sys
import tempfile
import time

sys.path.insert(0, str(pathlib.Path(__file__).resolve().parents[1] / "tools"))
from rows import SECONDS, built  # noqa: E402

OLD = "<!DOCTYPE html><html><head></head><body><p>old</p><script>x</script></body></html>"
NEW = "<!DOCTYPE html><html><head></head><body><p>old</p></body></html>"
WORDS = ("--document", "-r", "script", "-i")
# A page that takes long enough to be killed while it is written, and what is left of it.
LONG = "".join(f"<p>{number}</p><script>x</script>" for number in range(60_000))
KILLS, STOPS, SEED, NOBODY = 10, 5, 1, 65534


def hq(*words, program=None, **how):
    """Runs `hq`, or a copy of it, and returns its status and what it says."""
    ran = subprocess.run([program or built("hq"), *WORDS, *words], capture_output=True, timeout=SECONDS, text=True, **how)
    return ran.returncode, ran.stdout + ran.stderr


def page(folder, name="page.html", text=OLD, mode=0o644):
    """Makes a page in the folder."""
    made = pathlib.Path(folder) / name
    made.write_text(text)
    made.chmod(mode)
    return made


def names(folder):
    """The files in a folder."""
    return sorted(it.name for it in pathlib.Path(folder).iterdir())


def modes(folder):
    """Each mode stays."""
    for mode in (0o600, 0o640, 0o664, 0o755, 0o444):
        made = page(folder, f"{mode:o}.html", mode=mode)
        said = hq(made)
        got = said, made.read_text(), made.stat().st_mode & 0o7777
        yield f"mode {mode:o}", got, ((0, ""), NEW, mode)


def owners(folder):
    """The owner and the group stay, where the test may choose them."""
    if os.geteuid() != 0:
        return
    made = page(folder, "owned.html", mode=0o640)
    os.chown(made, NOBODY, NOBODY)
    said = hq(made)
    state = made.stat()
    yield "an owner", (said, made.read_text(), state.st_uid, state.st_gid), ((0, ""), NEW, NOBODY, NOBODY)


def symbolic_links(folder):
    """The file that a link leads to is written, and the link stays, also through a second link and another folder."""
    below = pathlib.Path(folder) / "below"
    below.mkdir()
    made = page(below, mode=0o600)
    link, again = pathlib.Path(folder) / "link.html", pathlib.Path(folder) / "again.html"
    link.symlink_to("below/page.html")
    again.symlink_to("link.html")
    said = hq(again)
    got = said, made.read_text(), link.is_symlink(), again.is_symlink(), names(below), made.stat().st_mode & 0o777
    yield "a symbolic link", got, ((0, ""), NEW, True, True, ["page.html"], 0o600)
    lost = pathlib.Path(folder) / "lost.html"
    lost.symlink_to("nowhere.html")
    yield "a link to nowhere", hq(lost), (2, f"hq: {lost}: No such file or directory (os error 2)\n")


def hard_links(folder):
    """A file with another name is refused, and the next file is written."""
    made = page(folder, "first.html")
    os.link(made, pathlib.Path(folder) / "second.html")
    other = page(folder, "third.html")
    said = hq(made, other)
    why = f"hq: {made}: not written: it has other names (hard links), which would keep the old contents\n"
    yield "a hard link", (said, made.read_text(), other.read_text()), ((2, why), OLD, NEW)


def left_files(folder):
    """A new file that a killed run left beside the page is neither used nor removed."""
    made = page(folder, "left.html")
    left = page(folder, "left.html.hq-new1", "left")
    said = hq(made)
    yield "a file that was left", (said, made.read_text(), left.read_text()), ((0, ""), NEW, "left")


def other_kinds(folder):
    """What isn't a regular file is refused."""
    pipe = pathlib.Path(folder) / "pipe"
    os.mkfifo(pipe)
    with subprocess.Popen([built("hq"), *WORDS, pipe], stdout=subprocess.PIPE, stderr=subprocess.PIPE, text=True) as ran:
        pipe.write_text(OLD)
        _, said = ran.communicate(timeout=SECONDS)
    yield "a pipe", (ran.returncode, said), (2, f"hq: {pipe}: not written: it isn't a regular file\n")


def refused_folder(folder):
    """In a folder that may not be written the file stays as it was."""
    shut = pathlib.Path(folder) / "shut"
    shut.mkdir()
    made = page(shut, mode=0o666)
    shut.chmod(0o555)
    # Root may write everywhere, so it runs a copy of the program as another user, who may not be let into this checkout.
    copy = pathlib.Path(folder) / "hq"
    shutil.copyfile(built("hq"), copy)
    copy.chmod(0o755)
    as_nobody = {"user": NOBODY, "group": NOBODY, "extra_groups": [], "cwd": folder} if os.geteuid() == 0 else {}
    said = hq(made, program=copy, **as_nobody)
    got = said, made.read_text(), names(shut)
    shut.chmod(0o755)
    yield "a folder without write permission", got, ((2, f"hq: {made}: Permission denied (os error 13)\n"), OLD, ["page.html"])


def limited():
    """Lets the program write files of 1,000 bytes, as a disk that is full."""
    signal.signal(signal.SIGXFSZ, signal.SIG_IGN)
    resource.setrlimit(resource.RLIMIT_FSIZE, (1000, 1000))


def full_disk(folder):
    """Where the new file can't be written whole the old one stays, and nothing is left beside it."""
    text = OLD.replace("old", "old" * 1000)
    room = pathlib.Path(folder) / "full"
    room.mkdir()
    made = page(room, text=text)
    said = hq(made, preexec_fn=limited)
    got = said, made.read_text(), names(room)
    yield "a full disk", got, ((2, "hq: write failed: File too large (os error 27)\n"), text, ["page.html"])


def long_page(folder, name):
    """A long page in a folder of its own, what is left of it, and how long that takes."""
    room = pathlib.Path(folder) / name
    room.mkdir()
    made = page(room, text=LONG)
    begun = time.monotonic()
    hq(made)
    return made, made.read_text(), time.monotonic() - begun


def killed(folder):
    """A run that a signal ends at any moment leaves the old page or the new one, whole."""
    chance = random.Random(SEED)
    made, new, took = long_page(folder, "killed")
    for sent in (signal.SIGKILL, signal.SIGTERM, signal.SIGINT, signal.SIGHUP):
        whole = 0
        for _ in range(KILLS):
            made.write_text(LONG)
            with subprocess.Popen([built("hq"), *WORDS, made], stderr=subprocess.DEVNULL) as ran:
                time.sleep(chance.uniform(0.3, 1.0) * took)
                ran.send_signal(sent)
                ran.wait()
            whole += made.read_text() in (LONG, new)
        yield f"runs that {sent.name} ended", whole, KILLS


def stopped(folder):
    """A run that is stopped and goes on, again and again, ends as any other."""
    made, new, took = long_page(folder, "stopped")
    made.write_text(LONG)
    with subprocess.Popen([built("hq"), *WORDS, made], stderr=subprocess.PIPE, text=True) as ran:
        for _ in range(STOPS):
            time.sleep(took / STOPS)
            ran.send_signal(signal.SIGSTOP)
            time.sleep(took / STOPS)
            ran.send_signal(signal.SIGCONT)
        _, said = ran.communicate(timeout=SECONDS)
    got = ran.returncode, said, made.read_text() == new, names(made.parent)
    yield "a run that was stopped", got, (0, "", True, ["page.html"])


def changed(folder):
    """A file that another program writes to while `hq` is at it is refused, and loses nothing."""
    made, _, _ = long_page(folder, "changed")
    made.write_text(LONG)
    added = 0
    with subprocess.Popen([built("hq"), *WORDS, made], stderr=subprocess.PIPE, text=True) as ran:
        with made.open("a") as end:
            while ran.poll() is None:
                end.write("<p>")
                end.flush()
                added += 1
                time.sleep(0.001)
        _, said = ran.communicate(timeout=SECONDS)
    why = f"hq: {made}: not written: it changed meanwhile\n"
    got = ran.returncode, said, made.read_text() == LONG + "<p>" * added, names(made.parent)
    yield "a file that changes", got, (2, why, True, ["page.html"])


def many(folder):
    """Many files in one call."""
    room = pathlib.Path(folder) / "many"
    room.mkdir()
    made = [page(room, f"{number}.html") for number in range(2_000)]
    said = hq(*made)
    yield "2,000 files", (said, {it.read_text() for it in made}, len(names(room))), ((0, ""), {NEW}, 2_000)


CASES = (modes, owners, symbolic_links, hard_links, left_files, other_kinds, refused_folder, full_disk, killed, stopped, changed, many)


def in_place():
    """Returns how many files are as they must be, and how many aren't."""
    passed = failed = 0
    with tempfile.TemporaryDirectory() as folder:
        os.chmod(folder, 0o755)
        for case in CASES:
            for name, got, wanted in case(folder):
                passed, failed = passed + (got == wanted), failed + (got != wanted)
                if got != wanted:
                    print(f"{name}: wanted {wanted}, got {got}"[:2000])
    print(f"files written in place: {passed} passed, {failed} failed")
    return passed, failed


if __name__ == "__main__":
    sys.exit(1 if in_place()[1] else 0)
