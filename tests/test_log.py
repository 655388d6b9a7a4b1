"""`contacts run --log`: a line for each request on standard error.

The lines are put together here from the requests that were sent and the replies that came. The
times are only compared with a pattern.
"""

import os
import re
import signal
import unittest

from http_requests import books, create, get, put, remove, request
from order_trials import OrderTest
from program import Server, run

REQUESTS = [
    ("PUT", "/books/staff", create("staff")),
    ("PUT", "/books/staff/cards/a", put("staff", "a", "Ann")),
    ("GET", "/books/staff/cards/a", get("staff", "a")),
    ("DELETE", "/books/staff/cards/none", remove("staff", "none")),
    ("GET", "/books/staff/sync?limit=1", request("GET", "/books/staff/sync?limit=1")),
    ("PATCH", "/books", request("PATCH", "/books")),
    ("GET", "/nowhere", request("GET", "/nowhere")),
]

# A target that a client sends, and how it is printed.
TARGETS = [
    ("/books/é", rb"/books/\xc3\xa9"),
    ("/books/\\x0a", rb"/books/\x5cx0a"),
    ("/" + "b" * 199, b"/" + b"b" * 199),
    ("/" + "b" * 200, b"/" + b"b" * 199 + b".."),
    ("/" + "é" * 100, b"/" + rb"\xc3\xa9" * 99 + rb"\xc3" + b".."),
]

# The octets of a head with a fault, and the fault.
FAULTS = [
    (b"GET\r\n\r\n", b"bad-head 21"),
    (b"GET /books HTTP/1.1\r\n\r\n", b"bad-host 23"),
    (b"GET /books HTTP/1.1\r\nHost: a\r\nContent-Length: x\r\n\r\n", b"bad-length 25"),
    (b"GET /\x01request HTTP/1.1\r\nHost: a\r\n\r\n", b"bad-head 21"),
]


def split_replies(octets):
    """Each reply, by its Content-Length."""
    replies = []
    while octets:
        head, _, body = octets.partition(b"\r\n\r\n")
        length = len(head) + 4 + int(re.search(rb"Content-Length: (\d+)", head).group(1))
        replies.append(octets[:length])
        octets = octets[length:]
    return replies


def line_of(method, target, reply, user=b""):
    """The pattern of the line for a request with this reply."""
    words = b"request %s %s status %s octets %d microseconds " % (
        method.encode(), target, reply[9:12], len(reply))
    changed = method in ("PUT", "POST", "DELETE")
    more = b" reply " + reply.partition(b"\r\n\r\n")[2] if changed else b""
    return re.escape(words) + rb"[0-9]+" + re.escape(user + more) + rb"\n"


class Log(OrderTest):
    def setUp(self):
        super().setUp()
        self.assertEqual(0, run("init", "a.db", cwd=self.folder).status)

    def serve(self, octets, more=("--log",), **options):
        """The replies on one connection, and how the server ended."""
        with Server(self.folder / "a.db", more=more, **options) as server:
            replies = server.ask(octets)
            return split_replies(replies), server.stop()

    def test_a_line_for_each_request(self):
        replies, ended = self.serve(b"".join(octets for _, _, octets in REQUESTS))
        self.assertEqual((-signal.SIGTERM, len(REQUESTS)), (ended.status, len(replies)))
        lines = [line_of(method, target.encode(), reply)
                 for (method, target, _), reply in zip(REQUESTS, replies)]
        self.assertRegex(ended.err, b"^" + b"".join(lines) + rb"\Z")

    def test_the_replies_are_the_same_without_it(self):
        octets = b"".join(octets for _, _, octets in REQUESTS)
        logged, _ = self.serve(octets)
        (self.folder / "a.db").unlink()
        run("init", "a.db", cwd=self.folder)
        silent, ended = self.serve(octets, more=())
        self.assertEqual(logged, silent)
        self.assertEqual(b"", ended.err)

    def test_no_client_begins_a_line(self):
        for target, printed in TARGETS:
            with self.subTest(target[:20]):
                replies, ended = self.serve(request("GET", target))
                self.assertRegex(ended.err, b"^" + line_of("GET", printed, replies[0]) + rb"\Z")

    def test_a_long_method(self):
        replies, ended = self.serve(request("M" * 21, "/books"))
        pattern = line_of("M" * 20 + "..", b"/books", replies[0])
        self.assertRegex(ended.err, b"^" + pattern + rb"\Z")

    def test_faults_of_heads(self):
        for octets, fault in FAULTS:
            with self.subTest(octets):
                replies, ended = self.serve(octets)
                words = (fault, replies[0][9:12], len(replies[0]))
                self.assertEqual(b"refused %s status %s octets %d\n" % words, ended.err)

    def test_a_log_that_cannot_be_written(self):
        with open("/dev/full", "wb") as full:
            for options in {"preexec_fn": lambda: os.dup2(full.fileno(), 2)}, \
                    {"preexec_fn": lambda: os.close(2)}:
                replies, ended = self.serve(books() + books(), **options)
                self.assertEqual((-signal.SIGTERM, 2), (ended.status, len(replies)))

    def test_a_reader_that_is_gone(self):
        server = Server(self.folder / "a.db", more=["--log"])
        self.addCleanup(server.kill)
        server.process.stderr.close()
        self.assertEqual(2, len(split_replies(server.ask(books() + books()))))
        self.assertEqual(1, len(split_replies(server.ask(books()))))
        self.assertIsNone(server.process.poll())


if __name__ == "__main__":
    unittest.main()
