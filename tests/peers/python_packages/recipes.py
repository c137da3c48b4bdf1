"""Runs the recipes of docs/PYTHON.md that need other packages: requests, httpx, Jinja, Django, pandas. Outside the test command.

    recipes.py    takes each recipe's code from the page, runs it over a server on this machine, and compares what comes out;
                  the last line is 'N passed, M failed', and the status 1 if one failed

It needs these packages (Debian's python3-requests, python3-httpx, python3-jinja2, python3-django, python3-pandas and its /usr/bin/python3), and the
shared library in python/dom_query, where ./install-c puts it, or its path in DOM_QUERY_LIBRARY."""
import http.server
import pathlib
import re
import sys
import threading

ROOT = pathlib.Path(__file__).resolve().parents[3]
sys.path.insert(0, str(ROOT / "python"))
import dom_query  # noqa: E402

TEXT = "Привет, Tea"
# Each page by its path: the header and the bytes. A page says its encoding in the header, in itself, or nowhere.
PAGES = {
    "/header": ("text/html; charset=windows-1251", f"<h1>{TEXT}</h1>".encode("cp1251")),
    "/meta": ("text/html", f"<meta charset=koi8-r><h1>{TEXT}</h1>".encode("koi8-r")),
    "/utf8": ("text/html; charset=utf-8", f"<h1>{TEXT}</h1>".encode()),
    "/no-type": (None, f"<meta charset=utf-8><h1>{TEXT}</h1>".encode()),
}
COMMENT = "<p onclick=x()>1 < 2 <b>Tea</b><script>x()</script>"
CLEANED = "<p>1 &lt; 2 <b>Tea</b></p>"


class Pages(http.server.BaseHTTPRequestHandler):
    """The server: it sends the pages, in small pieces."""

    def do_GET(self):
        kind, body = PAGES[self.path]
        self.send_response(200)
        if kind:
            self.send_header("content-type", kind)
        self.send_header("content-length", str(len(body)))
        self.end_headers()
        for at in range(0, len(body), 5):
            self.wfile.write(body[at : at + 5])

    def log_message(self, *_):
        pass


def recipes():
    """The code of the page that is shown and not run by the test command."""
    page = (ROOT / "docs" / "PYTHON.md").read_text(encoding="utf-8")
    return re.findall(r"^```shown\n(.*?)^```", page, re.S | re.M)


def parts(code):
    """The parts of a recipe, which empty lines separate; the import of one is for the whole recipe."""
    return [it for it in re.split(r"\n\n+(?=\S)", code) if it.strip()]


def fetched(code, address):
    """What each part of the recipe that fetches pages makes of the page: the text of its heading."""
    import httpx
    import requests

    names, found = {"requests": requests, "httpx": httpx, "dom_query": dom_query, "url": address}, []
    for part in parts(code):
        names.pop("page", None)
        exec(part, names)
        if "page" in names:
            found.append(names["page"].select_one("h1").text)
    return found


class Rendered:
    """A function that notes what it returns."""

    def __init__(self, called):
        self.called, self.results = called, []

    def __call__(self, *args, **named):
        self.results.append(self.called(*args, **named))
        return self.results[-1]


def shown_in_templates(code):
    """What the recipes of Jinja, Django and pandas make of a comment."""
    import django
    import jinja2
    import pandas
    from django.conf import settings
    from django.shortcuts import render
    from django.test import RequestFactory

    loaders = [("django.template.loaders.locmem.Loader", {"page.html": "<i>{{ comment }}</i>{{ plain }}"})]
    backend = {"BACKEND": "django.template.backends.django.DjangoTemplates", "OPTIONS": {"loaders": loaders}}
    settings.configure(TEMPLATES=[backend])
    django.setup()
    template = jinja2.Environment(autoescape=True).from_string("<i>{{ comment }}</i>")
    rendered, answered = Rendered(template.render), Rendered(render)
    frame = pandas.DataFrame({"html": ["<main>Tea</main>", "<main>Maté<i>!</i></main>"], "comment": [COMMENT, "<u>x</u>"]})
    names = {"dom_query": dom_query, "comment": COMMENT, "render": answered, "request": RequestFactory().get("/"), "frame": frame}
    names["template"] = type("Template", (), {"render": staticmethod(rendered)})
    exec(code, names)
    return [
        ("Jinja", rendered.results, [f"<i>{CLEANED}</i>"]),
        ("Django", [it.content.decode() for it in answered.results], [f"<i>{CLEANED}</i>"]),
        ("pandas, texts", list(frame["text"]), ["Tea", "Maté!"]),
        ("pandas, comments", list(frame["comment"]), ["1 &lt; 2 <b>Tea</b>", "x"]),
    ]


def main():
    network, templates = recipes()
    server = http.server.ThreadingHTTPServer(("127.0.0.1", 0), Pages)
    threading.Thread(target=server.serve_forever, daemon=True).start()
    outcomes = []
    for path in PAGES:
        found = fetched(network, f"http://127.0.0.1:{server.server_port}{path}")
        outcomes.append((f"requests and httpx, {path}", found, [TEXT] * 3))
    outcomes += shown_in_templates(templates)
    failed = [it for it in outcomes if it[1] != it[2]]
    for name, found, wanted in failed:
        print(f"{name}: {found!r} instead of {wanted!r}")
    print(f"{len(outcomes) - len(failed)} passed, {len(failed)} failed")
    return 1 if failed else 0


if __name__ == "__main__":
    sys.exit(main())
