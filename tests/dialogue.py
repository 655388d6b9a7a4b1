"""A client's connection to the server, and the same connection to the model.

The server must reply what the model computes, octet for octet, and must close the connection
exactly if the model does.
"""

import os
import socket
import struct
import threading
import time
import unittest
from contextlib import contextmanager

from http_requests import books, card, create, get, request
from model.books import Office
from model.http import Session
from program import Folder, Server, run

# How often at most a test looks whether the server sleeps: then it has read what was sent.
LOOKS_MAX = 100
NOTES = ["NOTE:" + "x" * 70] * 3_000  # lines of a big card


class Pace:
    """The longest time between two marks, the first of which is the beginning."""

    def __init__(self):
        self.longest, self.last = 0, time.monotonic()

    def mark(self):
        now = time.monotonic()
        self.longest, self.last = max(self.longest, now - self.last), now


def reset(connection):
    """Closes it as a client does that crashes: without waiting for anything."""
    linger = struct.pack("ii", 1, 0)
    connection.socket.setsockopt(socket.SOL_SOCKET, socket.SO_LINGER, linger)
    connection.socket.close()


def again_if_slow(attempt, most):
    """Makes the attempt of a client that the server gives up if it is too slow. It marks its steps.

    If it fails, and a step took more than so many seconds, the machine was slow: then it is made
    again, up to five times in all.
    """
    for left in reversed(range(5)):
        pace = Pace()
        try:
            return attempt(pace)
        except AssertionError:
            pace.mark()
            if pace.longest < most or not left:
                raise


class ServedTest(unittest.TestCase):
    """A test with a server over a new file, and a model. `renew` starts again with new ones.

    The server is that of `contacts serve`, which looks at no Host and serves one connection after
    another, or with `order = "run"` that of `contacts run`.
    """

    order = "serve"

    def setUp(self):
        self.renew()

    def renew(self):
        self.doCleanups()
        folder = Folder(in_memory=True)
        self.file = folder.__enter__() / "book"
        self.addCleanup(folder.__exit__)
        self.assertEqual((0, b"made\n", b""), run("init", self.file))
        self.office = Office()
        self.start()

    def start(self, connections=None, more=()):
        """Starts the server of the file. `serve` ends after that many connections.

        `more` are further arguments.
        """
        names = ["--host", "office"] if self.order == "run" else []
        self.server = Server(self.file, connections, order=self.order, more=[*names, *more])
        self.addCleanup(self.server.kill)
        self.status = None
        if os.path.isdir("/proc/self"):
            self.status = os.open(f"/proc/{self.server.process.pid}/stat", os.O_RDONLY)
            self.addCleanup(os.close, self.status)

    def restart(self, connections=None, more=()):
        """Starts another server of the file in place of this one."""
        self.server.kill()
        self.start(connections, more)

    def serve(self, *pieces):
        """Sends the pieces on a connection of their own, and compares all replies.

        If the server has to close the connection, the client leaves its own side open.
        """
        octets = b"".join(pieces)
        session = Session(self.office)
        wanted = session.feed(octets)
        self.compare(octets, wanted, self.replies(pieces, finish=not session.closed))
        return wanted

    def serve_on(self, octets):
        """Sends the octets, and a further request in a segment of its own, on one connection.

        The further request is replied to exactly if the server has left the connection open.
        """
        session = Session(self.office)
        wanted = session.feed(octets)
        further = b"" if session.closed else session.feed(books())
        with self.connection() as connection:
            connection.send(octets)
            self.compare(octets, wanted, connection.take(len(wanted)))
            connection.send(books())
            if not session.closed:
                connection.finish()
            self.compare(octets, further, connection.rest())

    @contextmanager
    def connection(self):
        """A connection to the server, which is killed if it keeps its client waiting too long.

        Then all that follows in the test fails at once.
        """
        with self.server.connect() as connection:
            try:
                yield connection
            except socket.timeout:
                self.server.kill()
                raise

    def replies(self, pieces, finish):
        """All that the server replies to the pieces, up to the connection's end."""
        with self.connection() as connection:
            for piece in pieces:
                connection.send(piece)
                if len(pieces) > 1:
                    self.settle()
            if finish:
                connection.finish()
            return connection.rest()

    def let_finish(self):
        """Waits until the server has done what all clients sent before.

        It serves all connections that are ready, and then accepts others. So after three replies
        on a new connection it has gone through all of them since.
        """
        with self.connection() as connection:
            for _ in range(3):
                connection.send(books())
                connection.reply()

    def settle(self):
        """Waits until the server has most likely read what was sent, so that pieces stay apart.

        The expected replies don't depend on it.
        """
        for _ in range(LOOKS_MAX if self.status else 0):
            # After the program's name in brackets comes a letter: S if it sleeps.
            if b") S " in os.pread(self.status, 64, 0):
                break

    def compare(self, octets, wanted, replied):
        if wanted != replied:
            shown = octets if len(octets) < 2_000 else octets[:1_000] + b" .. " + octets[-1_000:]
            self.assertEqual(wanted[-4_000:], replied[-4_000:], f"after {shown!r}")
            self.fail(f"{len(replied)} octets in place of {len(wanted)} after {shown!r}")


class BigReplyTest(ServedTest):
    """Over a book with one big card. `octets` ask for it, and for the end of their connection."""

    def setUp(self):
        super().setUp()
        big = request("PUT", "/books/staff/cards/a", card("a", "Ann", *NOTES))
        self.serve(create("staff"), big)
        self.octets = get("staff", "a", fields=["Connection: close"])

    def send_and_read_slowly(self, octets, wanted):
        """Sends more than is replied to, on a connection that closes, and reads 4,096 at a time."""

        def attempt(pace):
            with self.connection() as connection:
                connection.socket.setsockopt(socket.SOL_SOCKET, socket.SO_RCVBUF, 4096)
                sender = threading.Thread(target=connection.send, args=[octets])
                sender.start()
                replied = b""
                while len(replied) < len(wanted):
                    time.sleep(0.001)
                    taken = connection.take(4096)
                    if not taken:
                        break
                    replied += taken
                replied += connection.rest()
                sender.join()
            self.compare(octets, wanted, replied)

        # The rest of what it sends is waited for for a second.
        again_if_slow(attempt, 0.8)


class Talk:
    """A connection that stays open, and the same connection to the model."""

    def __init__(self, test):
        self.test, self.session = test, Session(test.office)
        self.connection = test.server.connect()
        test.addCleanup(self.connection.socket.close)

    def ask(self, octets):
        """Sends a whole request, and waits for its reply."""
        self.connection.send(octets)
        self.hear(octets)

    def hear(self, octets):
        """Waits for the reply to a request that was sent."""
        try:
            self.test.compare(octets, self.session.feed(octets), self.connection.reply())
        except socket.timeout:
            self.test.server.kill()
            raise

    def end(self):
        """Ends the client's side. The server ends its own."""
        self.connection.finish()
        self.test.assertEqual(b"", self.connection.rest())
        self.connection.socket.close()
