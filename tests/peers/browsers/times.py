"""Times of Chromium's own `DOMParser`, `outerHTML`, `textContent` and `querySelectorAll` on pages. Outside the gate.

    times.py PAGE..     prints for each page, read as UTF-8, and each call the best and the middle of nine runs in milliseconds, those of the
                        library, and how many characters (the library: bytes) or elements they answered

Chromium is Debian's package, as in ask.py. It has no window; the text of the page is there before a run begins, what an earlier run left is
collected before the next one, and the page that measures is isolated from other origins, so that its clock tells 5 microseconds. Times are those of
a clock, so other work on the machine makes a run longer: the middle beside the best says by how much.

Where the Python package finds its library (by DOM_QUERY_LIBRARY, say), the library's own calls are measured on the same page after Chromium has ended, by
processor time: dq_parse_page with a depth of 512, as in browsers, dq_html, dq_text and dq_select."""
import json
import os
import pathlib
import statistics
import subprocess
import sys
import tempfile
import threading
import time

import ask

sys.path.insert(0, str(pathlib.Path(__file__).resolve().parents[3] / "python"))

RUNS = 9
SELECTORS = [
    "a",
    "div p a",
    "div p:not(:first-child) a:is([href], [id])",
    "div:has(> p + p) > p:nth-child(even) a, li li",
    "div:has(> p)",
    "h1, h2, p",
    "li ~ li",
    "dt + dd a",
]
PAGE = """<!doctype html><meta charset="utf-8"><script>
const measured = (call) => {
  const times = [];
  let answer;
  for (let run = 0; run < RUNS; run++) {
    answer = undefined;
    gc();
    const begun = performance.now();
    answer = call();
    times.push(performance.now() - begun);
  }
  return [times, answer];
};
(async () => {
  const text = await (await fetch("/text")).text();
  const [times, page] = measured(() => new DOMParser().parseFromString(text, "text/html"));
  const found = { DOMParser: [times, text.length] };
  const calls = { outerHTML: () => page.documentElement.outerHTML, textContent: () => page.documentElement.textContent };
  for (const selector of SELECTORS) calls[selector] = () => page.querySelectorAll(selector);
  for (const [name, call] of Object.entries(calls)) {
    const [times, answer] = measured(call);
    found[name] = [times, answer.length];
  }
  await fetch("/found", { method: "POST", body: JSON.stringify([found, crossOriginIsolated]) });
})();
</script>""".replace("RUNS", str(RUNS)).replace("SELECTORS", json.dumps(SELECTORS))
CHROMIUM = [*ask.BROWSERS["chromium"][:-1], "--js-flags=--expose-gc", "{page}"]
# A browser of the superuser would raise its own priority; without this capability it can't.
STARTED = [] if os.getuid() else ["setpriv", "--bounding-set", "-sys_nice", "--inh-caps", "-sys_nice"]


class Handler(ask.Handler):
    def end_headers(self):
        self.send_header("Cross-Origin-Opener-Policy", "same-origin")
        self.send_header("Cross-Origin-Embedder-Policy", "require-corp")
        super().end_headers()

    def do_GET(self):
        if self.path == "/text":
            self.answer(self.server.text, "text/plain; charset=utf-8")
        else:
            self.answer(PAGE.encode() if self.path == "/" else b"", "text/html")


def measured(text, seconds=900):
    """For each call its times in milliseconds and the size of its answer, and whether the clock is the finer one."""
    server = ask.Server(("127.0.0.1", 0), Handler)
    server.text, server.trees, server.done = text, None, threading.Event()
    threading.Thread(target=server.serve_forever, daemon=True).start()
    with tempfile.TemporaryDirectory(ignore_cleanup_errors=True) as room:
        words = [it.format(room=room, page=f"http://127.0.0.1:{server.server_port}/") for it in CHROMIUM]
        started = subprocess.Popen([*STARTED, *words], stdout=subprocess.DEVNULL, stderr=subprocess.DEVNULL, env={**os.environ, "HOME": room})
        try:
            if not server.done.wait(seconds):
                sys.exit("Chromium didn't answer")
        finally:
            started.kill()
            started.wait()
            server.shutdown()
    return server.trees


def ours(text):
    """The same of the library: for each call its times in milliseconds and what it answers, a number of bytes or of nodes."""
    try:
        from dom_query import _library as library
    except ImportError as fault:
        print(f"the library is left out: {fault}")
        return {}
    lib, page, string, nodes = library.unlocked, library.Handle(), library.String(), library.Nodes()
    calls = {
        "DOMParser": lambda: lib.dq_parse_page(page, text, len(text), 512),
        "outerHTML": lambda: lib.dq_html(page, 0, string),
        "textContent": lambda: lib.dq_text(page, 0, string),
        **{it: lambda it=it.encode(): lib.dq_select(page, 0, it, len(it), nodes) for it in SELECTORS},
    }
    found = {}
    for name, call in calls.items():
        times = []
        for _ in range(RUNS):
            begun = time.thread_time()
            answer = call()
            times.append((time.thread_time() - begun) * 1000)
        found[name] = times, answer
    return found


def main(pages):
    for page in pages:
        text = pathlib.Path(page).read_bytes().decode("utf-8", "replace").encode()
        (found, is_fine), here = measured(text), ours(text)
        print(f"{page}: {len(text)} bytes{'' if is_fine else ', by the coarse clock'}")
        for name, (times, size) in found.items():
            both = [f"{min(it):9.3f} {statistics.median(it):9.3f}" for it in (times, here.get(name, [[0]])[0])]
            print(f"  {'  '.join(both)}  {name}: {size} {here[name][1] if name in here else ''}", flush=True)


if __name__ == "__main__":
    if len(sys.argv) < 2:
        sys.exit(__doc__)
    main(sys.argv[1:])
