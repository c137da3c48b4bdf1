"""The trees that Chromium and Firefox make of texts, without scripting: a page by `DOMParser`, a fragment by `innerHTML`.

Debian's packages do: `apt-get install --no-install-recommends chromium firefox-esr`. A page that runs in the browser (read.html) takes
the texts from a server on this machine, and sends the trees back in the form of html5lib's tests."""
import http.server
import json
import os
import pathlib
import subprocess
import tempfile
import threading

PAGE = (pathlib.Path(__file__).resolve().parent / "read.html").read_bytes()
BROWSERS = {
    "chromium": ["chromium", "--headless", "--no-sandbox", "--disable-gpu", "--user-data-dir={room}", "{page}"],
    "firefox": ["firefox-esr", "--headless", "--no-remote", "--profile", "{room}", "{page}"],
}


class Handler(http.server.BaseHTTPRequestHandler):
    """Gives the page and the cases, and takes the trees."""

    def answer(self, body, kind):
        self.send_response(200)
        self.send_header("Content-Type", kind)
        self.send_header("Content-Length", str(len(body)))
        self.end_headers()
        self.wfile.write(body)

    def do_GET(self):
        if self.path == "/read.html":
            self.answer(PAGE, "text/html")
        elif self.path == "/cases.json":
            self.answer(self.server.cases, "application/json")
        else:
            self.answer(b"", "text/plain")

    def do_POST(self):
        self.server.trees = json.loads(self.rfile.read(int(self.headers["Content-Length"])))
        self.answer(b"", "text/plain")
        self.server.done.set()

    def log_message(self, *words):
        pass


class Server(http.server.ThreadingHTTPServer):
    def handle_error(self, request, address):
        """Says nothing of a browser that was ended while it asked for something."""


def ask(browser, cases, seconds=900):
    """What a browser makes of a list of [text, context or None]: a list of [tree, HTML]."""
    server = Server(("127.0.0.1", 0), Handler)
    server.cases, server.trees, server.done = json.dumps(cases).encode("ascii"), None, threading.Event()
    threading.Thread(target=server.serve_forever, daemon=True).start()
    try:
        with tempfile.TemporaryDirectory(ignore_cleanup_errors=True) as room:
            words = [it.format(room=room, page=f"http://127.0.0.1:{server.server_port}/read.html") for it in BROWSERS[browser]]
            started = subprocess.Popen(words, stdout=subprocess.DEVNULL, stderr=subprocess.DEVNULL, env={**os.environ, "HOME": room})
            try:
                if not server.done.wait(seconds):
                    raise TimeoutError(f"{browser} sent no trees within {seconds} seconds")
            finally:
                started.terminate()
                started.wait()
    finally:
        server.shutdown()
        server.server_close()
    return server.trees


def version(browser):
    return subprocess.run([BROWSERS[browser][0], "--version"], stdout=subprocess.PIPE, stderr=subprocess.DEVNULL, text=True, check=True).stdout.strip()
