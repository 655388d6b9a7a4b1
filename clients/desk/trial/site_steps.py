"""Steps about the desk where the program itself hands it out, without nginx and passwords."""

import http.client
import json
import re
import subprocess

from common import STATE, keep_files, until
from office import ROOT, SITE, free_port
from steps import TITLE, fill, search, step

TYPES = {
    "/": "text/html", "/index.html": "text/html", "/sw.js": "text/javascript",
    "/js/main.js": "text/javascript", "/js/views/card.js": "text/javascript",
    "/style/base.css": "text/css", "/manifest.json": "application/json",
    "/icon.svg": "image/svg+xml", "/icon-192.png": "image/png",
}
POLICY = re.compile(r"default-src 'none';[^\"]*")
LIST = "document.querySelector('#empty')"


class Alone:
    """`contacts run` with the desk's files, at a port of its own."""

    def __init__(self, office, name="alone"):
        self.program = office.program
        self.file = office.folder / f"{name}.db"
        self.logged = office.folder / f"{name}.log"
        self.port = free_port()
        self.front = f"http://127.0.0.1:{self.port}/"
        self.begin()

    def begin(self):
        with open(self.logged, "ab") as log:
            self.process = subprocess.Popen(
                [self.program, "run", self.file, "--create", "--port", str(self.port), "--log",
                 "--site", SITE], stdout=subprocess.PIPE, stderr=log,
            )
        self.process.stdout.readline()

    def log(self):
        """A line for each request."""
        return self.logged.read_text()

    def end(self):
        self.process.terminate()
        self.process.wait()

    def request(self, method, path, body=None):
        connection = http.client.HTTPConnection("127.0.0.1", self.port, timeout=30)
        connection.request(method, path, body)
        reply = connection.getresponse()
        body = reply.read()
        connection.close()
        return reply, body

    def ask(self, method, path, body=None):
        return self.request(method, path, body)[1]


def has_site(program):
    said = subprocess.run([program, "run", "--help"], stdout=subprocess.PIPE,
                          stderr=subprocess.STDOUT)
    return b"--site" in said.stdout


def heads(alone):
    """The files are those of the folder, with the fields that the desk needs."""
    policy = POLICY.search((ROOT / "examples/nginx.conf").read_text())[0]
    for path, kind in TYPES.items():
        reply, body = alone.request("GET", path)
        name = "index.html" if path == "/" else path[1:]
        assert reply.status == 200 and body == (SITE / name).read_bytes(), path
        fields = {key.lower(): value for key, value in reply.getheaders()}
        assert fields["content-type"].split(";")[0] == kind, (path, fields)
        assert fields["content-security-policy"] == policy, (path, fields)
        assert fields["x-content-type-options"] == "nosniff", (path, fields)
        assert fields["cache-control"] == "no-cache", (path, fields)
    for path in ("/nothing", "/../README.md", "/js", "/js/", "/versions/a/b/index.json"):
        assert alone.request("GET", path)[0].status == 404, path
    assert alone.request("GET", "/books")[0].getheader("content-type") == "application/json"


@step
def one_program(trial):
    """The desk from `contacts run --site`: a first book and card, a start without the server."""
    if not has_site(trial.office.program):
        print("  this program has no --site: nothing was tried")
        return
    alone = Alone(trial.office)
    try:
        heads(alone)
        page = trial.browser.page(trial.browser.context())
        page.go(alone.front)
        page.press("Add a book", LIST)
        fill(page, "Name of the book", "staff")
        page.key("Enter")
        page.press("Make it", "document.querySelector('dialog')")
        page.press("New card", LIST)
        fill(page, "Given name", "Ada")
        fill(page, "Family name", "Alone")
        page.press("Save")
        page.wait(f"{TITLE} === 'Ada Alone'")
        until(lambda: b"Ada Alone" in alone.request("GET", "/books/staff/sync")[1])
        page.picture(trial.pictures / "one-program.png")
        errors = page.call("Page.getInstallabilityErrors")["installabilityErrors"]
        assert not [it for it in errors if it["errorId"] != "in-incognito"], errors
        keep_files(page)
        alone.end()
        page.go(alone.front)
        page.wait(f"{STATE}.startsWith('Offline')")
        search(page, "ada alone")
        page.wait(f"{TITLE} === 'Ada Alone'")
        page.key("F2")
        fill(page, "Position", "Without the server")
        page.press("Save")
        page.wait("!document.querySelector('#waiting').hidden")
        alone.begin()
        page.run("dispatchEvent(new Event('online'))")
        until(lambda: b"Without the server" in alone.request("GET", "/books/staff/sync")[1])
        # The page by its other names, and its first file by its own.
        for address in (f"http://localhost:{alone.port}/", f"{alone.front}index.html"):
            page.go(address)
            page.wait(f"{STATE}.startsWith('Up to date')")
        loud = [it for it in page.said if "Failed to load resource" not in it]
        assert not loud, loud
        far = [it for it in page.asked if not it.startswith((
            alone.front, f"http://localhost:{alone.port}/", "data:", "blob:", "about:"))]
        assert not far, json.dumps(far)
    finally:
        alone.end()
