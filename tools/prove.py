"""Proves and builds crates for ./install and ./install-c, and says how far it is.

    prove.py WHO CRATE ..      WHO is what begins each line; each CRATE is proved after the crates that it stands on

Each crate is proved by `rt lib` in its folder, and a program is built by `rt run`. What is proved stays in crates/*/out, and half of a
crate's proofs too, so a run that was stopped goes on there. What `rt` says is in out/install.log."""
import pathlib
import signal
import subprocess
import sys
import time

sys.dont_write_bytecode = True
ROOT = pathlib.Path(__file__).resolve().parents[1]
LOG = ROOT / "out" / "install.log"
MOST = 9  # the minutes after which a line says again that a proof is still going on


def listed():
    """The lines of crates.txt: the name of each crate with its kind, and the crates that it names."""
    lines = (ROOT / "crates.txt").read_text(encoding="utf-8").splitlines()
    return [line.split(":", 1) for line in lines if ":" in line and not line.startswith("#")]


def named():
    """The crates that each crate names."""
    return {head.split()[0]: uses.split() for head, uses in listed()}


def in_order(names, uses):
    """The crates of these names and all that they stand on, each after those that it uses."""
    found = []

    def add(name):
        for below in uses[name]:
            if below in uses and below not in found:
                add(below)
        if name not in found:
            found.append(name)

    for name in names:
        add(name)
    return found


def made_of(name):
    """What is there once the crate is proved: the stamp of its library, the program, or the archive."""
    folder = ROOT / "crates" / name
    if (folder / "src" / "main.rt").exists():
        return folder / "out" / name
    is_archive = any(head.split() == [name, "staticlib"] for head, _ in listed())
    return folder / "out" / f"lib{name}.a" if is_archive else folder / "out" / "rlib" / "stamp"


def spoken(seconds):
    """A time in words: 7 s, 3 min 20 s, 1 h 5 min."""
    minutes, seconds = divmod(int(seconds), 60)
    hours, minutes = divmod(minutes, 60)
    if hours:
        return f"{hours} h {minutes} min"
    return f"{minutes} min {seconds} s" if minutes else f"{seconds} s"


def wait(child, begun, head):
    """Waits for the command, and shows on a terminal how long it has been working. Returns its status."""
    shows = sys.stdout.isatty()
    while True:
        try:
            return child.wait(timeout=1 if shows else MOST * 60)
        except subprocess.TimeoutExpired:
            line = f"{head} for {spoken(time.monotonic() - begun)} now"
            print(f"\r{line}\033[K" if shows else line, end="" if shows else "\n", flush=True)


def proved(name, head, log):
    """Proves a crate, and returns whether it is proved and a word on it. Ctrl-C stops `rt`, which keeps what it has."""
    program = (ROOT / "crates" / name / "src" / "main.rt").exists()
    words = ["rt", "run", "--", "--help"] if program else ["rt", "lib"]
    made, begun, at, start = made_of(name), time.monotonic(), time.time(), LOG.stat().st_size
    child = subprocess.Popen(words, cwd=ROOT / "crates" / name, stdin=subprocess.DEVNULL, stdout=log, stderr=log)
    try:
        status = wait(child, begun, head)
    except KeyboardInterrupt:
        # (at a terminal it was stopped by the same Ctrl-C)
        child.terminate()
        child.wait()
        raise
    if sys.stdout.isatty():
        print("\r\033[K", end="")
    # (a program is run only once it is proved, and then its own status doesn't matter)
    is_proved = f"rt: running out/{name};".encode() in LOG.read_bytes()[start:] if program else status == 0
    if not is_proved or not made.exists():
        return False, "not proved"
    kept = made.stat().st_mtime < at - 1
    return True, "proved before" if kept else f"proved in {spoken(time.monotonic() - begun)}"


def begin(who, names, crates):
    """Says what is about to be done."""
    stand = len(crates) - len(names)
    print(f"{who}: {' and '.join(names)} will be proved and built, and before them the {stand} crates below, one after the other.")
    print(f"{who}: The first time this takes an hour or more; crates that were proved before are taken as they are.")
    print(f"{who}: Ctrl-C stops it, and the next run goes on from there. What rt says goes to {LOG.relative_to(ROOT)}.", flush=True)


def main(words):
    if len(words) < 2:
        print(__doc__, file=sys.stderr)
        return 2
    who, names = words[0], words[1:]
    crates, begun = in_order(names, named()), time.monotonic()
    begin(who, names, crates)
    LOG.parent.mkdir(exist_ok=True)
    with open(LOG, "w", encoding="utf-8") as log:
        for number, name in enumerate(crates, 1):
            head = f"{who}: {number:2} of {len(crates)}  {name}"
            well, word = proved(name, head, log)
            print(f"{head}: {word}", flush=True)
            if not well:
                print(f"{who}: {name} was not proved. The last lines of {LOG.relative_to(ROOT)}:", file=sys.stderr)
                print(*LOG.read_text(encoding="utf-8", errors="replace").splitlines()[-12:], sep="\n", file=sys.stderr)
                return 1
    print(f"{who}: all {len(crates)} are proved, in {spoken(time.monotonic() - begun)}.", flush=True)
    return 0


def stopped(who):
    print(f"\n{who}: stopped. Run it again to go on from here.", file=sys.stderr)
    return 128 + signal.SIGINT


if __name__ == "__main__":
    try:
        sys.exit(main(sys.argv[1:]))
    except KeyboardInterrupt:
        sys.exit(stopped(sys.argv[1]))
