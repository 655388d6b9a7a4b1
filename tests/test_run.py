"""`contacts run`: a server until it is stopped, behind a guard against pages of other sites.

The rows are in guard_rows. What passes gets the reply of the model, octet for octet, and what is
refused leaves the book as it is.
"""

import random
import signal
import time
import unittest

from dialogue import ServedTest
from guard_rows import CROSS, HOSTS, IN_ORDER, NAMES, OLD_HOSTS, ORIGINS, PRECONDITIONS
from guard_rows import SEVERAL_HOSTS, SITES
from http_requests import COLUMNS, books, card, create, export, get, put, request, tally
from model.http import Session, fault_message
from order_trials import OrderTest
from program import PATIENCE, Ended, Server, run

OFFICE = ["--host", "office"]
# The replies to what the guard refuses.
REFUSED = {
    31: b'HTTP/1.1 421 Misdirected Request\r\nContent-Type: application/json\r\n'
        b'Content-Length: 36\r\nConnection: close\r\n\r\n{"fault":"foreign-host","number":31}',
    32: b'HTTP/1.1 403 Forbidden\r\nContent-Type: application/json\r\n'
        b'Content-Length: 36\r\nConnection: close\r\n\r\n{"fault":"foreign-site","number":32}',
    33: b'HTTP/1.1 501 Not Implemented\r\nContent-Type: application/json\r\n'
        b'Content-Length: 36\r\nConnection: close\r\n\r\n{"fault":"precondition","number":33}',
}
# Fields that are refused, by the number.
FOREIGN = {
    31: ["Host: evil"],
    32: ["Host: localhost", CROSS],
    33: ["Host: localhost", "If-Match: *"],
}

# What Chromium sends for a form with enctype="text/plain" on a page of another site, in a frame
# without an origin. The form's only input has the rows up to the equals sign for its name.
FORM = """\
POST /books/staff/import?key=x HTTP/1.1
Host: 127.0.0.1:8080
Connection: keep-alive
Content-Length: 57
Cache-Control: max-age=0
sec-ch-ua: "Chromium";v="142", "Not_A Brand";v="99"
sec-ch-ua-mobile: ?0
sec-ch-ua-platform: "Linux"
Origin: null
Content-Type: text/plain
Upgrade-Insecure-Requests: 1
User-Agent: Mozilla/5.0 (X11; Linux x86_64) AppleWebKit/537.36 (KHTML, like Gecko) \
Chrome/142.0.0.0 Safari/537.36
Accept: text/html,application/xhtml+xml,application/xml;q=0.9,*/*;q=0.8
Sec-Fetch-Site: cross-site
Sec-Fetch-Mode: navigate
Sec-Fetch-User: ?1
Sec-Fetch-Dest: document
Accept-Encoding: gzip, deflate, br, zstd
Accept-Language: en-US,en;q=0.9

uid,fn,family,given,email,tel,org,note
x,Evil,,,,,,a=b
""".replace("\n", "\r\n").encode()

# The same by `fetch(.., {mode: "no-cors"})` of a browser that doesn't send Sec-Fetch-Site.
FETCH = """\
POST /books/staff/import?key=x HTTP/1.1
Host: 127.0.0.1:8080
User-Agent: Mozilla/5.0 (Macintosh; Intel Mac OS X 10_15_7) AppleWebKit/605.1.15 (KHTML, like \
Gecko) Version/16.0 Safari/605.1.15
Accept: */*
Accept-Language: en-US,en;q=0.9
Accept-Encoding: gzip, deflate
Content-Type: text/plain;charset=UTF-8
Origin: http://evil.example
Content-Length: 57
Connection: keep-alive
Referer: http://evil.example/

uid,fn,family,given,email,tel,org,note
x,Evil,,,,,,a=b
""".replace("\n", "\r\n").encode()


class RunTest(ServedTest):
    """A test with `contacts run` over a new file with the book staff, and a model."""

    names = NAMES

    def renew(self):
        super().renew()
        self.count = 0
        self.server.kill()
        run("book", self.file, "staff")
        Session(self.office).feed(create("staff"))
        self.server = self.run_file(*[it for name in self.names for it in ("--host", name)])

    def run_file(self, *more):
        server = Server(self.file, order="run", more=more)
        self.addCleanup(server.kill)
        self.assertIsNotNone(server.address, server.line)
        return server

    def requests(self, fields, methods, version="1.1"):
        """A request by each method, which changes the book unless it is refused."""
        self.count += 1
        uid, options = f"u{self.count}", {"fields": fields, "version": version, "host": False}
        made = {
            "GET": ["/books/staff/tally"],
            "HEAD": ["/books/staff/tally"],
            "OPTIONS": [f"/books/staff/cards/{uid}", card(uid, "Pat")],
            "PATCH": [f"/books/staff/cards/{uid}", card(uid, "Pat")],
            "put": [f"/books/staff/cards/{uid}", card(uid, "Pat")],
            "PUT": [f"/books/staff/cards/{uid}", card(uid, "Pat")],
            "POST": [f"/books/staff/import?key={uid}", COLUMNS + f"{uid}i,Pat,,,,,,\n"],
            "DELETE": [f"/books/staff/cards/{uid}i"],
        }
        return [request(method, *made[method], **options) for method in methods]

    def ask(self, octets):
        """The replies to requests that have a name of each server in place of `office`."""
        return self.server.ask(octets.replace(b"Host: office\r\n", b"Host: localhost\r\n"))

    def check(self, octets, number):
        """The octets of one request are refused for this fault, or get the reply of the model."""
        before = self.ask(tally("staff"))
        wanted = Session(self.office, self.names).feed(octets)
        if number is None:
            self.assertNotRegex(wanted, rb'"fault":"(foreign-|precondition)')
        else:
            self.assertEqual(fault_message({"number": number}, True), wanted)
        with self.connection() as connection:
            connection.send(octets)
            if number is None:
                connection.finish()
            self.compare(octets, wanted, connection.rest())
        if number is not None:
            self.assertEqual(before, self.ask(tally("staff")))

    def check_all(self, fields, methods, number, version="1.1"):
        for octets in self.requests(fields, methods, version):
            with self.subTest(fields=[it[:80] for it in fields], octets=octets[:20]):
                self.check(octets, number)

    def end(self):
        """After a test the book is that of the model."""
        octets = tally("staff") + export("staff")
        self.compare(octets, Session(self.office).feed(octets), self.ask(octets))


READING = ["GET", "HEAD", "OPTIONS", "PATCH", "put"]
WRITING = ["PUT", "POST", "DELETE"]


class Guard(RunTest):
    def test_the_bodies(self):
        for number, reply in REFUSED.items():
            self.assertEqual(reply, fault_message({"number": number}, True))
            for octets in self.requests(FOREIGN[number], WRITING):
                self.assertEqual(reply, self.server.ask(octets))

    def test_hosts(self):
        for host, number in HOSTS:
            self.check_all([f"Host: {host}"], READING + WRITING, number)
            self.check_all([f"hOST:{host}"], ["GET"], number, "1.0")
        self.end()

    def test_several_hosts(self):
        for hosts, number in SEVERAL_HOSTS:
            self.check_all([f"Host: {it}" for it in hosts], ["GET", *WRITING], number)
        for hosts, number in OLD_HOSTS:
            self.check_all([f"Host: {it}" for it in hosts], ["GET", *WRITING], number, "1.0")
        self.end()

    def test_sites(self):
        for fields, number in SITES:
            for version in "1.1", "1.0":
                self.check_all(["Host: localhost:8080", *fields], WRITING, number, version)
            self.check_all([*fields, "Host: localhost:8080"], WRITING, number)
        self.end()

    def test_origins(self):
        for host, origin, number in ORIGINS:
            self.check_all([f"Host: {host}", f"Origin: {origin}"], WRITING, number)
        # Of several hosts, which HTTP/1.0 allows, the first one counts.
        hosts = ["Host: localhost", "Host: 127.0.0.1"]
        self.check_all([*hosts, "Origin: http://localhost"], WRITING, None, "1.0")
        self.check_all([*hosts, "Origin: http://127.0.0.1"], WRITING, 32, "1.0")
        self.end()

    def test_preconditions(self):
        for fields, number in PRECONDITIONS:
            self.check_all(["Host: localhost:8080", *fields], WRITING, number)
        self.end()

    def test_other_methods_pass(self):
        for fields, _ in SITES + PRECONDITIONS:
            self.check_all(["Host: localhost:8080", *fields], READING, None)
        self.end()

    def test_order(self):
        for fields, number in IN_ORDER:
            self.check_all(fields, ["DELETE"], number)
        self.end()

    def test_drawn_fields(self):
        """Fields at random, in any order, against the model."""
        drawn = random.Random("guard")
        values = [
            [f"Host: {it}" for it, _ in HOSTS[:12] + HOSTS[15:30:3]],
            [it for fields, _ in SITES for it in fields],
            [it for fields, _ in PRECONDITIONS for it in fields] + ["X: y"] * 60,
        ]
        for _ in range(400):
            fields = [drawn.choice(values[0])]
            fields += [drawn.choice(values[1]) for _ in range(drawn.randrange(3))]
            fields += [drawn.choice(values[2]) for _ in range(drawn.randrange(2))]
            drawn.shuffle(fields)
            methods = [drawn.choice(READING + WRITING)]
            version = drawn.choice(["1.0", "1.1"])
            [octets] = self.requests(fields, methods, version)
            wanted = Session(self.office, self.names).feed(octets)
            with self.subTest(octets=octets):
                self.compare(octets, wanted, self.server.ask(octets))
        self.end()


class Connections(RunTest):
    """What a refused request does to its connection."""

    def test_before_the_body(self):
        """The reply comes as soon as the head is whole, and the connection is closed."""
        for number, fields in FOREIGN.items():
            head = request("PUT", "/books/staff/cards/a", fields=[
                *fields, "Content-Length: 8388608"], host=False)
            with self.subTest(number), self.connection() as connection:
                connection.send(head[:-1])
                time.sleep(0.05)
                connection.send(head[-1:])
                before = time.monotonic()
                self.assertEqual(REFUSED[number], connection.rest())
                # A server that waited for the body would close a silent connection after 60.
                self.assertLess(time.monotonic() - before, 30)
        self.end()

    def test_with_a_body(self):
        for number, fields in FOREIGN.items():
            text = card("a", "Ann", "NOTE:" + "x" * 200_000)
            octets = request("PUT", "/books/staff/cards/a", text, fields, host=False)
            for pieces in [octets], [octets[:300], octets[300:]]:
                with self.subTest(number), self.connection() as connection:
                    for piece in pieces:
                        connection.send(piece)
                    self.assertEqual(REFUSED[number], connection.rest())
        self.end()

    def test_octet_by_octet(self):
        for number, fields in FOREIGN.items():
            octets = request("PUT", "/books/staff/cards/a", card("a", "Ann"), fields, host=False)
            with self.subTest(number), self.connection() as connection:
                for place in range(len(octets)):
                    connection.send(octets[place:place + 1])
                self.assertEqual(REFUSED[number], connection.rest())
        self.end()

    def test_after_a_good_one(self):
        """Of three requests in a row the first is done, the second refused, and the third not."""
        for number, fields in FOREIGN.items():
            good, bad, after = put("staff", f"g{number}", "Good"), *(
                request("PUT", f"/books/staff/cards/{it}", card(it, "Bad"), more, host=False)
                for it, more in [("b", fields), ("c", ["Host: localhost"])])
            wanted = Session(self.office).feed(good)
            self.assertIn(b" 201 Created\r\n", wanted)
            with self.subTest(number), self.connection() as connection:
                connection.send(good + bad + after)
                self.compare(good + bad, wanted + REFUSED[number], connection.rest())
            with self.subTest(number), self.connection() as connection:
                connection.send(good)
                self.assertIn(b'"unchanged"', connection.reply())
                connection.send(bad)
                connection.send(after)
                self.assertEqual(REFUSED[number], connection.rest())
            Session(self.office).feed(good)
        self.end()

    def test_beside_others(self):
        """A refused request ends its own connection alone."""
        with self.connection() as other:
            other.send(books())
            first = other.reply()
            self.assertEqual(REFUSED[31], self.server.ask(request("GET", "/", fields=[
                "Host: evil"], host=False)))
            other.send(books())
            self.assertEqual(first, other.reply())


class Pages(RunTest):
    """What pages of other sites send, as browsers do."""

    names = []

    def test_a_form(self):
        self.assertEqual(REFUSED[32], self.server.ask(FORM))
        self.end()

    def test_a_fetch(self):
        self.assertEqual(REFUSED[32], self.server.ask(FETCH))
        self.end()

    def test_a_name_that_is_rebound(self):
        fields = ["Host: evil.example:8080", "Sec-Fetch-Site: same-origin"]
        for method in "GET", "PUT":
            octets = request(method, "/books", fields=fields, host=False)
            self.assertEqual(REFUSED[31], self.server.ask(octets))

    def test_serve_stores_them(self):
        """So these requests would be done if they weren't refused."""
        for octets in FORM, FETCH:
            self.renew()
            self.server.kill()
            with Server(self.file, order="serve") as server:
                self.assertIn(b'"new":1', server.ask(octets))

    def test_other_names(self):
        """Only the loopback's names are allowed without --host."""
        for host in "office", "contacts.example":
            self.check_all([f"Host: {host}"], ["GET", "PUT"], 31)
        self.check_all(["Host: localhost:1"], ["GET", "PUT"], None)


class Options(OrderTest):
    """The arguments of `run`, and how it ends."""

    def start(self, *more, file="a.db", **options):
        server = Server(file, order="run", more=more, cwd=self.folder, **options)
        self.addCleanup(server.kill)
        return server

    def test_a_file_is_created(self):
        server = self.start("--create", *OFFICE)
        self.assertRegex(server.line, rb"^listening 127\.0\.0\.1:[1-9][0-9]*\n\Z")
        self.assertIn(b'{"id":1}', server.ask(create("staff")))
        self.assertIn(b" 201 ", server.ask(put("staff", "a", "Ann")))
        server.kill()
        self.assertEqual(0, run("verify", "a.db", cwd=self.folder).status)
        for more in ["--create"], []:
            with self.subTest(more):
                server = self.start(*more, *OFFICE)
                self.assertIn(b"FN:Ann", server.ask(get("staff", "a")))
                server.kill()

    def test_no_file_is_created(self):
        for more in [], OFFICE, ["--log"]:
            server = self.start(*more)
            said = b"a.db: there is no such file; contacts run a.db --create makes it\n"
            self.assertEqual(Ended(3, b"", said + b"fault open 1\n"), server.end())
            self.assertEqual([], list(self.folder.iterdir()))

    def test_no_file_is_replaced(self):
        """What `run` can't open stays as it is, with `--create` too."""
        for octets in b"Dear office,\n" * 1_000, b"SQLite format 3\0" + bytes(4_080):
            for more in [], ["--create"]:
                with self.subTest(octets=octets[:20], more=more):
                    (self.folder / "a.db").write_bytes(octets)
                    server = self.start(*more)
                    ended = server.end()
                    self.assertEqual((3, b""), (ended.status, ended.out))
                    self.assertRegex(ended.err, rb"\Aa\.db: .*\nfault open [1-6]\n\Z")
                    self.assertEqual(octets, (self.folder / "a.db").read_bytes())

    def test_an_empty_file_becomes_a_store(self):
        """As with `init`; without `--create` it isn't taken for one."""
        (self.folder / "a.db").write_bytes(b"")
        server = self.start("--create", *OFFICE)
        self.assertIn(b'{"id":1}', server.ask(create("staff")))
        server.kill()
        self.assertEqual(0, run("verify", "a.db", cwd=self.folder).status)
        (self.folder / "b.db").write_bytes(b"")
        said = b"b.db: it isn't a file of this program, or its log isn't beside it\nfault open 2\n"
        self.assertEqual(Ended(3, b"", said), self.start(file="b.db").end())

    def test_a_file_that_cannot_be_made(self):
        for file, words in [(".", b"it is a folder; name a file"),
                            ("none/a.db", b"there is no folder for it; make that first")]:
            with self.subTest(file):
                server = self.start("--create", file=file)
                said = b"%s: %s\nfault open 1\n" % (file.encode(), words)
                self.assertEqual(Ended(3, b"", said), server.end())
                self.assertEqual([], list(self.folder.iterdir()))

    def test_a_file_that_is_served(self):
        self.start("--create")
        for more in [], ["--create"]:
            said = b"a.db: another program has it open\nfault open 1\n"
            self.assertEqual(Ended(3, b"", said), self.start(*more).end())

    def test_a_creation_that_was_stopped(self):
        """What a power failure leaves while a file is made: its first page or a part of it, whose
        first octet is written last, and the first octets of the log. The next start finishes it."""
        self.start("--create").kill()
        page, log = (self.folder / "a.db").read_bytes(), (self.folder / "a.db-wal").read_bytes()
        self.assertEqual(4_096, len(page))
        for octets in (page, bytes(1) + page[1:], bytes(1) + page[1:1_929], bytes(1)):
            with self.subTest(len(octets), begins=octets[:1]):
                (self.folder / "a.db").write_bytes(octets)
                (self.folder / "a.db-wal").write_bytes(log[:32] + bytes(9))
                server = self.start("--create", *OFFICE)
                self.assertEqual(b"HTTP/1.1 200", server.ask(books())[:12])
                server.kill()
                self.assertEqual((0, b"verified 0\n"), run("verify", "a.db", cwd=self.folder)[:2])

    def test_the_port(self):
        first = self.start("--create")
        second = Server("b.db", order="run", port=first.address[1], more=["--create"],
                        cwd=self.folder)
        port = first.address[1]
        said = b"port %d is taken; try --port %d\nfault device 1\n" % (port, port + 1)
        self.assertEqual(Ended(3, b"", said), second.end())
        # The file was made before the port was bound. It stays, and is served the next time.
        self.assertEqual((0, b"verified 0\n"), run("verify", "b.db", cwd=self.folder)[:2])

    def test_several_names(self):
        server = self.start("--create", "--host", "a.example", "--host=B.example",
                            "--host", "[2001:db8::1]")
        for host, status in [("A.example", 200), ("b.EXAMPLE:1", 200), ("localhost", 200),
                             ("[2001:DB8::1]", 200), ("[2001:db8::1]:443", 200),
                             ("c.example", 421), ("", 421), (":1", 421), ("2001:db8::1", 421)]:
            with self.subTest(host):
                reply = server.ask(request("GET", "/books", fields=[f"Host: {host}"], host=False))
                self.assertEqual(b"HTTP/1.1 %d" % status, reply[:12])

    def test_until_it_is_stopped(self):
        """It serves one connection after another, and ends by SIGTERM."""
        server = self.start("--create", *OFFICE)
        for _ in range(300):
            self.assertEqual(b"HTTP/1.1 200", server.ask(books())[:12])
        with server.connect() as silent, server.connect() as busy:
            silent.send(b"PUT /books/s")
            busy.send(books())
            busy.reply()
            self.assertIsNone(server.process.poll())
            server.process.terminate()
            ended = server.end()
        self.assertEqual((-signal.SIGTERM, b""), (ended.status, ended.err))

    def test_places(self):
        server = self.start("--create", *OFFICE, "--max-open", 2)
        with server.connect() as first, server.connect() as second, server.connect() as third:
            for it in first, second:
                it.send(books())
                self.assertEqual(b"HTTP/1.1 200", it.reply()[:12])
            third.send(books())
            third.socket.settimeout(0.5)
            with self.assertRaises(OSError):
                third.reply()
            third.socket.settimeout(PATIENCE)
            first.finish()
            self.assertEqual(b"HTTP/1.1 200", third.reply()[:12])
            second.send(books())
            self.assertEqual(b"HTTP/1.1 200", second.reply()[:12])

    def test_many_at_once(self):
        server = self.start("--create", *OFFICE)
        several = [server.connect() for _ in range(100)]
        for it in several + several:
            it.send(books())
        for it in several + several:
            self.assertEqual(b"HTTP/1.1 200", it.reply()[:12])
        for it in several:
            it.socket.close()

    def test_idle_connections(self):
        server = self.start("--create", *OFFICE, "--idle-timeout", 1)
        for octets in b"", b"GET /books HTTP/1.1\r\n", books():
            with self.subTest(octets):
                # A client that the machine stops for a second before it sends is given up, too.
                for _ in range(5):
                    before = time.monotonic()
                    with server.connect() as connection:
                        connection.send(octets)
                        is_in_time = time.monotonic() - before < 0.8
                        rest = connection.rest()
                    seconds = time.monotonic() - before
                    if is_in_time:
                        break
                self.assertEqual(octets == books(), rest.startswith(b"HTTP/1.1 200"))
                self.assertTrue(0.9 < seconds < 13)

    def test_the_log(self):
        server = self.start("--create", "--log")
        for number, fields in sorted(FOREIGN.items()):
            reply = server.ask(request("PUT", "/books/staff", fields=fields, host=False))
            self.assertEqual(REFUSED[number], reply)
        server.ask(request("PUT", "/books/staff", fields=["Host: localhost"], host=False))
        server.process.terminate()
        ended = server.end()
        lines = [b"refused foreign-host 31 status 421 octets %d\n" % len(REFUSED[31]),
                 b"refused foreign-site 32 status 403 octets %d\n" % len(REFUSED[32]),
                 b"refused precondition 33 status 501 octets %d\n" % len(REFUSED[33])]
        self.assertRegex(
            ended.err,
            rb"\A" + b"".join(lines)
            + rb"request PUT /books/staff status 201 octets [0-9]+ microseconds [0-9]+"
            + rb' reply \{"id":1\}\n\Z')

    def test_without_the_log(self):
        server = self.start("--create")
        server.ask(request("PUT", "/books/staff", fields=["Host: evil"], host=False))
        server.ask(b"GET\r\n\r\n")
        server.process.terminate()
        self.assertEqual(b"", server.end().err)


if __name__ == "__main__":
    unittest.main()
