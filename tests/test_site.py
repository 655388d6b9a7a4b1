"""`contacts run --site DIR`: the files of a folder beside the books.

The replies with a file are written here by hand; what isn't for a file gets the model's reply.
"""

import os
import re
import time
import unittest

from dialogue import ServedTest
from http_requests import books, card, create, get, put, request, tally
from model.http import Session
from order_trials import OrderTest
from program import ROOT, Ended, Server

OFFICE = ["--host", "office"]
SITE = ROOT / "clients/desk/site"
# 16 MiB, the most octets of all files of a site.
MOST = 16 << 20

POLICY = (
    "default-src 'none'; script-src 'self'; style-src 'self'; img-src 'self' data:; "
    "connect-src 'self'; manifest-src 'self'; worker-src 'self'; base-uri 'none'; "
    "form-action 'none'; frame-ancestors 'none'; require-trusted-types-for 'script'; "
    "trusted-types desk"
)
# The media type of each ending (IANA's registry).
TYPES = {
    "page.html": "text/html; charset=utf-8",
    "code.js": "text/javascript; charset=utf-8",
    "look.css": "text/css; charset=utf-8",
    "note.txt": "text/plain; charset=utf-8",
    "data.json": "application/json",
    "app.webmanifest": "application/manifest+json",
    "icon.svg": "image/svg+xml",
    "icon.png": "image/png",
    "photo.jpg": "image/jpeg",
    "photo.jpeg": "image/jpeg",
    "photo.webp": "image/webp",
    "favicon.ico": "image/vnd.microsoft.icon",
    "face.woff2": "font/woff2",
    # Endings are compared exactly, and only at the end.
    "rest": "application/octet-stream",
    "page.HTML": "application/octet-stream",
    "page.html.gz": "application/octet-stream",
    "html": "application/octet-stream",
    "rest.xhtml": "application/octet-stream",
    "a-b_c.min.js": "text/javascript; charset=utf-8",
}
FILES = {
    "index.html": b"<!doctype html>\n<title>home</title>\n",
    "sub/index.html": b"<!doctype html>\n<title>sub</title>\n",
    "sub/deep/er/code.js": b"let x = 1;\n",
    "empty.txt": b"",
    "octets.bin": bytes(range(256)) * 9,
    # Names that begin like the API's, and are other ones.
    "books.html": b"not the books\n",
    "booksx": b"nor these\n",
    "book": b"nor this\n",
    # These can't be asked for: the paths are the API's.
    "books/index.html": b"hidden by the API\n",
    "books/staff/tally": b"hidden by the API\n",
    # Hidden files and folders are left out.
    ".secret": b"secret",
    ".git/config": b"secret",
    "sub/.index.html.swp": b"secret",
}
# The API's reply to a wrong method, with the one method that a file has.
BAD_METHOD = (
    b"HTTP/1.1 405 Method Not Allowed\r\nContent-Type: application/json\r\nAllow: GET\r\n"
    b"Content-Length: 34\r\nConnection: keep-alive\r\n\r\n"
    b'{"fault":"bad-method","number":28}'
)


def found(octets, media, connection="keep-alive"):
    """The whole reply with a file."""
    return (
        f"HTTP/1.1 200 OK\r\nContent-Type: {media}\r\nContent-Length: {len(octets)}\r\n"
        f"Connection: {connection}\r\nContent-Security-Policy: {POLICY}\r\n"
        "X-Content-Type-Options: nosniff\r\nCache-Control: no-cache\r\n\r\n"
    ).encode() + octets


HOME = found(FILES["index.html"], "text/html; charset=utf-8")


def page(target, method="GET", **options):
    return request(method, target, **options)


class SiteTest(ServedTest):
    """A test with `contacts run --site` over a new file with the book staff, and a model."""

    def renew(self):
        super().renew()
        self.server.kill()
        self.site = self.file.parent / "site"
        for name, octets in [*FILES.items(), *((it, it.encode()) for it in TYPES)]:
            (self.site / name).parent.mkdir(parents=True, exist_ok=True)
            (self.site / name).write_bytes(octets)
        self.server = self.run_file()
        for octets in create("staff"), put("staff", "a", "Ann"):
            self.compare(octets, Session(self.office).feed(octets), self.server.ask(octets))

    def run_file(self, *more):
        more = [*OFFICE, "--site", self.site, *more]
        server = Server(self.file, order="run", more=more)
        self.addCleanup(server.kill)
        self.assertIsNotNone(server.address, server.line)
        return server

    def wants(self, octets, wanted):
        with self.subTest(octets=octets[:60]):
            self.compare(octets, wanted, self.server.ask(octets))

    def wants_model(self, octets):
        """The request is handled as without a site."""
        self.wants(octets, Session(self.office).feed(octets))

    def end(self):
        """After a test the books are those of the model."""
        self.wants_model(books() + tally("staff") + get("staff", "a"))


class Files(SiteTest):
    def test_types(self):
        for name, media in TYPES.items():
            self.wants(page(f"/{name}"), found(name.encode(), media))

    def test_names(self):
        html = "text/html; charset=utf-8"
        for target, name, media in [
            ("/", "index.html", html),
            ("/index.html", "index.html", html),
            ("/sub/", "sub/index.html", html),
            ("/sub/index.html", "sub/index.html", html),
            ("/sub/deep/er/code.js", "sub/deep/er/code.js", "text/javascript; charset=utf-8"),
            ("/empty.txt", "empty.txt", "text/plain; charset=utf-8"),
            ("/octets.bin", "octets.bin", "application/octet-stream"),
            ("/books.html", "books.html", html),
            ("/booksx", "booksx", "application/octet-stream"),
            ("/book", "book", "application/octet-stream"),
        ]:
            self.wants(page(target), found(FILES[name], media))
            for query in "?", "?x=1", "?/books", "?a?b", "?%zz":
                self.wants(page(target + query), found(FILES[name], media))
        self.end()

    def test_unknown_names(self):
        """What names no file exactly gets the API's reply to a path without a route."""
        for target in [
            "/sub", "/sub/deep/", "/nothing", "/index.htm", "/index.htmlx", "/index.html/",
            "/INDEX.HTML", "/Index.html", "//", "//index.html", "/./index.html",
            "/sub/../index.html",
            "/../book", "/..", "/../", "/..%2fbook", "/%2e%2e/book", "/index%2ehtml",
            "/%69ndex.html", "/index.html%00", "/index.html%20", "/index.html#x", "/index.html;x",
            "/%", "index.html", "*", "?", "http://office/", "http://office/index.html",
            "/.secret", "/.git/config", "/.git/", "/sub/.index.html.swp", "/site/index.html",
            "/sub//index.html", "/sub\\index.html", "/book/",
        ]:
            for method in "GET", "POST", "PUT":
                self.wants_model(page(target, method))
        self.assertIn(b'{"fault":"no-route","number":27}', self.server.ask(page("/nothing")))
        self.end()

    def test_the_books_stay(self):
        """A path of the books is the API's, whatever is in the folder."""
        for target in [
            "/books", "/books?x", "/books/", "/books/index.html", "/books/staff/tally",
            "/books/staff/tally?x=1", "/books/staff", "/books//", "/books/../index.html",
        ]:
            for method in "GET", "POST", "DELETE":
                self.wants_model(page(target, method))
        self.end()

    def test_methods(self):
        for method in "POST", "PUT", "DELETE", "PATCH", "OPTIONS", "get", "GETX", "G":
            for target in "/", "/index.html?x", "/empty.txt":
                self.wants(page(target, method), BAD_METHOD)
                body = card("a", "Other")
                self.wants(page(target, method, body=body) + page("/"), BAD_METHOD + HOME)
        self.end()

    def test_head(self):
        """HEAD has no route of the API, and a file hasn't it either."""
        self.wants(page("/", "HEAD"), BAD_METHOD)
        self.wants_model(page("/books", "HEAD"))

    def test_a_body(self):
        """The body of a GET is passed over, as the API does."""
        self.wants(page("/", body="x" * 70_000) + page("/book"),
                   HOME + found(FILES["book"], "application/octet-stream"))

    def test_closing(self):
        html = "text/html; charset=utf-8"
        closed = found(FILES["index.html"], html, "close")
        self.wants(page("/", fields=["Connection: close"]) + page("/"), closed)
        self.wants(page("/", version="1.0") + page("/"), closed)
        self.wants(page("/", "POST", fields=["Connection: close"]),
                   BAD_METHOD.replace(b"keep-alive", b"close"))

    def test_faults_of_heads(self):
        """A head with a fault gets it, whatever it asks for."""
        for octets in [
            page("/", host=False),
            page("/", fields=["Host: office"]),
            page("/", fields=["Transfer-Encoding: chunked"]),
            page("/", fields=["Content-Length: 8388609"]),
            b"GET / HTTP/1.1\r\nHost : office\r\n\r\n",
        ]:
            self.wants_model(octets)

    def test_read_once(self):
        """What changes in the folder is seen after the next start."""
        (self.site / "index.html").write_bytes(b"changed")
        (self.site / "new.txt").write_bytes(b"new")
        (self.site / "book").unlink()
        self.wants(page("/"), HOME)
        self.wants_model(page("/new.txt"))
        self.wants(page("/book"), found(FILES["book"], "application/octet-stream"))
        self.server.kill()
        self.server = self.run_file()
        self.wants(page("/"), found(b"changed", "text/html; charset=utf-8"))
        self.wants(page("/new.txt"), found(b"new", "text/plain; charset=utf-8"))
        self.wants_model(page("/book"))

    def test_mixed(self):
        """Requests for files and for books on one connection are replied to in order."""
        octets, wanted = b"", b""
        session = Session(self.office)
        for at in range(40):
            for it in put("staff", f"u{at}", "Pat"), get("staff", f"u{at}"), tally("staff"):
                octets += page("/") + it + page("/books.html", "PUT")
                wanted += HOME + session.feed(it) + BAD_METHOD
        self.wants(octets, wanted)
        self.end()

    def test_octet_by_octet(self):
        octets = page("/") + page("/", "POST", body="x") + books()
        wanted = HOME + BAD_METHOD + Session(self.office).feed(books())
        with self.server.connect() as connection:
            for at in range(len(octets)):
                connection.send(octets[at:at + 1])
            self.compare(octets, wanted, connection.take(len(wanted)))

    def test_the_log(self):
        self.server.kill()
        self.server = self.run_file("--log")
        self.wants(page("/") + page("/nothing"), HOME + Session(self.office).feed(page("/nothing")))
        self.server.process.terminate()
        lines = self.server.end().err.splitlines()
        self.assertEqual(2, len(lines), lines)


class Guard(SiteTest):
    """The guard of `run` is asked first."""

    def test_hosts(self):
        refused = (
            b"HTTP/1.1 421 Misdirected Request\r\nContent-Type: application/json\r\n"
            b'Content-Length: 36\r\nConnection: close\r\n\r\n{"fault":"foreign-host","number":31}'
        )
        for target in "/", "/index.html", "/nothing":
            for method in "GET", "POST":
                octets = page(target, method, fields=["Host: evil.example"], host=False)
                self.wants(octets, refused)

    def test_sites(self):
        """A page of another site may link to a file, and sends no change."""
        cross = ["Sec-Fetch-Site: cross-site", "Sec-Fetch-Mode: navigate"]
        self.wants(page("/", fields=cross), HOME)
        reply = self.server.ask(page("/", "POST", fields=cross))
        self.assertTrue(reply.endswith(b'{"fault":"foreign-site","number":32}'), reply)


class Large(SiteTest):
    def renew(self):
        super().renew()
        self.server.kill()
        used = sum(len(octets) for name, octets in FILES.items() if "/." not in f"/{name}")
        self.octets = os.urandom(1 << 16) * 256
        self.octets = self.octets[:MOST - used - sum(map(len, TYPES))]
        (self.site / "large").write_bytes(self.octets)
        self.server = self.run_file()

    def test_the_most(self):
        self.wants(page("/large"), found(self.octets, "application/octet-stream"))

    def test_a_slow_client(self):
        """While one client takes a large file slowly, others are served."""
        wanted = found(self.octets, "application/octet-stream")
        with self.server.connect() as slow:
            slow.send(page("/large") + page("/"))
            got = slow.take(4096)
            for _ in range(50):
                self.wants(page("/"), HOME)
                self.wants_model(tally("staff"))
                got += slow.take(50_000)
                time.sleep(0.01)
            got += slow.take(len(wanted + HOME) - len(got))
            self.assertTrue(got == wanted + HOME)

    def test_many_at_once(self):
        wanted = found(self.octets, "application/octet-stream")
        clients = [self.server.connect() for _ in range(4)]
        for it in clients:
            self.addCleanup(it.socket.close)
            it.send(page("/large"))
        for it in clients:
            self.assertTrue(it.take(len(wanted)) == wanted)


class Refused(OrderTest):
    """What can't be a site is said in words, and no file is made."""

    def start(self, site, *more):
        more = ["--create", "--site", site, *more]
        server = Server("a.db", order="run", more=more, cwd=self.folder)
        self.addCleanup(server.kill)
        return server

    def refuses(self, words, site="site"):
        with self.subTest(words):
            ended = self.start(site).end()
            self.assertEqual(Ended(3, b"", f"{words}\nfault device 1\n".encode()), ended)
            self.assertFalse((self.folder / "a.db").exists())

    def make(self, name, octets=b""):
        path = self.folder / name
        path.parent.mkdir(parents=True, exist_ok=True)
        path.write_bytes(octets)
        return path

    def test_no_folder(self):
        self.refuses("none: no such folder", "none")
        self.refuses("none/site/: no such folder", "none/site/")
        self.make("file")
        self.refuses("file: can't be read as a folder", "file")

    def test_too_large(self):
        (self.folder / "site").mkdir()
        path = self.make("site/large")
        os.truncate(path, MOST + 1)
        self.refuses("site: more than 16 MiB")
        os.truncate(path, MOST)
        self.make("site/sub/more", b"x")
        self.refuses("site: more than 16 MiB")
        self.make("site/sub/more")
        self.assertIsNotNone(self.start("site").address)

    def test_names(self):
        words = "the name has more than letters, digits, dots, underscores and hyphens"
        for name in "a b.html", "a%20b", "b\u00fcro.html", "a+b", "a~", "a?b", "a\nb":
            path = self.make(f"site/{name}")
            self.refuses(f"site/{name}: {words}")
            path.unlink()
        (self.folder / "site/a b").mkdir()
        self.refuses(f"site/a b: {words}")

    def test_a_name_that_is_not_utf8(self):
        (self.folder / "site").mkdir()
        with open(os.fsencode(self.folder / "site") + b"/\xff", "wb"):
            pass
        self.refuses("site: can't be read, or has a name that isn't UTF-8")

    def test_links(self):
        """No link is followed, so nothing outside of the folder is served."""
        self.make("secret", b"secret")
        (self.folder / "site").mkdir()
        for target in self.folder / "secret", self.folder, "none":
            link = self.folder / "site/link"
            link.symlink_to(target)
            self.refuses("site/link: neither a file nor a folder")
            link.unlink()
        os.mkfifo(self.folder / "site/pipe")
        self.refuses("site/pipe: neither a file nor a folder")

    def test_a_link_to_the_folder(self):
        """The folder itself may be named by a link."""
        self.make("site/index.html", b"home")
        (self.folder / "link").symlink_to("site")
        server = self.start("link", *OFFICE)
        self.assertEqual(found(b"home", "text/html; charset=utf-8"), server.ask(page("/")))

    @unittest.skipIf(os.geteuid() == 0, "root may read all files")
    def test_unreadable(self):
        path = self.make("site/index.html")
        path.chmod(0)
        self.refuses("site/index.html: can't be read")

    def test_many_folders(self):
        for at in range(999):
            (self.folder / f"site/{at}").mkdir(parents=True)
        self.assertIsNotNone(self.start("site").address)
        (self.folder / "site/999").mkdir()
        (self.folder / "a.db").unlink()
        self.refuses("site: more than 1,000 folders")

    def test_an_empty_folder(self):
        (self.folder / "site").mkdir()
        server = self.start("site", *OFFICE)
        self.assertIn(b'"fault":"no-route"', server.ask(page("/")))
        self.assertIn(b" 200 OK", server.ask(books()))


class Desk(ServedTest):
    """The desk's own folder."""

    def test_its_files(self):
        self.server.kill()
        server = Server(self.file, order="run", more=[*OFFICE, "--site", SITE])
        self.addCleanup(server.kill)
        worker = (SITE / "sw.js").read_text(encoding="utf-8")
        names = re.findall(r'"([^"]+)"', worker[worker.index("FILES = ["):worker.index("];")])
        self.assertIn("js/main.js", names)
        endings = {it.rpartition(".")[2]: media for it, media in TYPES.items() if "." in it}
        for name in [*names, "index.html", "sw.js"]:
            path = SITE / ("index.html" if name == "./" else name)
            wanted = found(path.read_bytes(), endings[path.suffix[1:]])
            target = "/" if name == "./" else f"/{name}"
            with self.subTest(name):
                self.compare(page(target), wanted, server.ask(page(target)))

    def test_the_policy(self):
        """It is that of the page and of the example for nginx."""
        html = (SITE / "index.html").read_text(encoding="utf-8")
        inside = re.search(r'http-equiv="Content-Security-Policy" content="([^"]*)"', html)[1]
        self.assertEqual(inside, POLICY.replace("frame-ancestors 'none'; ", ""))
        front = (ROOT / "examples/nginx.conf").read_text(encoding="utf-8")
        self.assertIn(f'add_header Content-Security-Policy "{POLICY}" always;', front)


if __name__ == "__main__":
    unittest.main()
