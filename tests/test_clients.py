"""Clients that send much, break off, say nothing or don't read, each over raw sockets.

A request that isn't whole when its client stops has changed nothing, and all others are served. The
replies are those of the model. test_together has many clients at once.
"""

import copy
import signal
import socket
import threading
import time
import unittest

from dialogue import NOTES, BigReplyTest, ServedTest, Talk, again_if_slow, reset
from http_requests import COLUMNS, books, card, create, export, get, import_rows, put, request, sync
from http_requests import tally
from model.http import Session
from program import PATIENCE, Ended

SLACK = 20  # seconds that a busy machine may need beside what is measured
BODY_MAX = 8_388_608
NOTE = 240_000  # octets that a card's note may have, with its folds


def rows_of(octets):
    """Rows of cards with long notes, in exactly that many octets."""
    rows = [COLUMNS]
    left = octets - len(COLUMNS)
    while left:
        front = f"u{len(rows):02},Name,,,,,,"
        size = min(left, NOTE)
        rows.append(front + "x" * (size - len(front) - 1) + "\n")
        left -= size
    return "".join(rows)


class BigBodies(ServedTest):
    order = "run"

    def test_greatest_import(self):
        """Its head comes first, and then its body; what it stored is exported as it was sent."""
        rows = rows_of(BODY_MAX)
        octets = import_rows("staff", "k", rows)
        self.assertEqual(BODY_MAX, len(rows))
        self.serve(create("staff"))
        self.serve(octets[:-BODY_MAX], octets[-BODY_MAX:])
        self.serve(tally("staff"))
        exported = self.serve(export("staff", "columns"))
        self.assertTrue(exported.endswith(rows.encode()))
        self.break_off_while_read_from()

    def break_off_while_read_from(self):
        """A client resets while more is written to it than fits on the way. It ends alone."""
        self.restart()
        with self.server.connect() as connection:
            connection.socket.setsockopt(socket.SOL_SOCKET, socket.SO_RCVBUF, 4096)
            connection.send(export("staff") * 4)
            # Some of the first reply has come, so the server is writing.
            self.assertEqual(b"H", connection.take(1)[:1])
            reset(connection)
        self.serve(tally("staff"))
        self.assertEqual(Ended(-signal.SIGTERM, self.server.line, b""), self.server.stop())

    def test_one_octet_too_many(self):
        """It is refused before any of the body is sent, and whoever sends it sees the reply."""
        self.serve(create("staff"))
        octets = import_rows("staff", "k", rows_of(BODY_MAX + 1))
        self.serve(octets[:-BODY_MAX - 1])
        self.serve(octets)
        self.serve(tally("staff"))

    def test_greatest_card_and_more(self):
        """A body of any allowed size is read to its end, even if a card may not be as long."""
        self.serve(create("staff"))
        path = "/books/staff/cards/a"
        for octets in [262_143, 262_144, 262_145, 1_000_000, BODY_MAX]:
            with self.subTest(octets=octets):
                rest = octets - len(card("a", "Ann"))
                notes, last = divmod(rest, 77)
                # A line of 77 octets with its end, and a last one that has what is left.
                lines = ["NOTE:" + "x" * 70] * (notes - 1) + ["NOTE:" + "x" * (70 + last)]
                text = card("a", "Ann", *lines)
                self.assertEqual(octets, len(text))
                self.serve(request("PUT", path, text) + books())
        self.serve(tally("staff"))

    def test_bodies_that_are_dropped(self):
        """A body that nobody needs is read, and the next request comes after it."""
        self.serve(create("staff"))
        body = create("never") * 1_000
        for octets in [
            request("GET", "/books", body),
            request("GET", "/nothing", body),
            request("PATCH", "/books", body),
            request("GET", "/books/%FF/tally", body),
            request("GET", "/books?x", body),
            request("PUT", "/books/other", body),
            request("DELETE", "/books/staff/cards/a", body),
            request("POST", "/books/staff/forget?upto=0", body),
        ]:
            with self.subTest(octets[:30]):
                self.serve(octets + books())


class BreakingOff(ServedTest):
    """Clients that stop in the middle of a request."""

    order = "run"

    def setUp(self):
        super().setUp()
        self.serve(create("staff"), put("staff", "a", "Ann"))

    def test_end_in_the_middle(self):
        rows = COLUMNS + "p,Pat,,,,,,"
        for octets in [put("staff", "b", "Bob"), import_rows("staff", "k", rows)]:
            for place in range(len(octets)):
                self.serve(octets[:place])
            self.serve(tally("staff"), sync("staff"))

    def test_end_after_a_whole_request(self):
        first, second = put("staff", "b", "Bob"), put("staff", "c", "Cy")
        for place in range(1, len(second), 7):
            self.serve(first + second[:place])
        self.serve(tally("staff"), sync("staff"))

    def test_reset_in_the_middle(self):
        octets = put("staff", "b", "Bob")
        for place in range(len(octets)):
            with self.server.connect() as connection:
                connection.send(octets[:place])
                if place % 2:
                    self.settle()
                reset(connection)
        self.serve(tally("staff"), sync("staff"))

    def test_reset_after_a_whole_request(self):
        """It was done wholly or not at all: nobody waited for the reply."""
        for version, name in enumerate(["Bob", "Rob", "Rob", "Bob"]):
            done = copy.deepcopy(self.office)
            octets = put("staff", f"b{version}", name)
            Session(done).feed(octets)
            with self.server.connect() as connection:
                connection.send(octets)
                reset(connection)
            self.let_finish()
            replied = self.replies([tally("staff")], finish=True)
            if replied == Session(done).feed(tally("staff")):
                self.office = done
            self.serve(tally("staff") + sync("staff"))

    def test_end_of_the_server(self):
        """A connection that failed is none of the server's faults."""
        self.restart()
        self.serve(tally("staff"))
        with self.server.connect() as connection:
            connection.send(put("staff", "b", "Bob")[:-1])
            reset(connection)
        self.serve(tally("staff"))
        self.assertEqual(Ended(-signal.SIGTERM, self.server.line, b""), self.server.stop())

    def test_nothing_sent(self):
        for _ in range(3):
            self.server.connect().socket.close()
            self.serve(b"")
        self.serve(tally("staff"))


class Closing(BigReplyTest):
    """Connections that the server closes while the client still sends, or stays silent."""

    order = "run"

    def test_slow_client_that_sends_on(self):
        """A megabyte follows the request that closes. A client that reads slowly gets the reply."""
        octets = self.octets + b"x" * 1_000_000
        wanted = Session(self.office).feed(octets)
        self.assertGreater(len(wanted), len(NOTES) * len(NOTES[0]))

        self.send_and_read_slowly(octets, wanted)

    def close(self):
        """A connection that the server has closed, with all of its replies."""
        connection = self.server.connect()
        self.addCleanup(connection.socket.close)
        connection.send(self.octets)
        self.compare(self.octets, Session(self.office).feed(self.octets), connection.rest())
        return connection

    def send_to_end(self, connection, octets):
        """Sends on and on until the server takes no more of it.

        Returns the seconds, and how many octets it has taken.
        """
        begun, count = time.monotonic(), 0
        try:
            while time.monotonic() < begun + PATIENCE:
                connection.socket.sendall(octets)
                count += len(octets)
                time.sleep(0.001 if len(octets) == 1 else 0)
        except (BrokenPipeError, ConnectionResetError):
            pass
        return time.monotonic() - begun, count

    def test_silent_clients(self):
        """A client that neither sends nor closes after its last reply holds up nobody."""
        def attempt(pace):
            times = []
            for _ in range(11):
                self.close()
                begun = time.monotonic()
                self.serve(books())
                times.append(time.monotonic() - begun)
            # Each of the silent ones is dropped after a second.
            self.assertLess(sorted(times)[5], 0.8)

        # A machine that does other work may be as slow for a while.
        again_if_slow(attempt, 0)

    def test_client_that_sends_octet_by_octet(self):
        """A client that sends octets without end is given up after some 10 seconds. Meanwhile
        others are served."""
        ended = []
        sender = threading.Thread(
            target=lambda: ended.append(self.send_to_end(self.close(), b"x")))
        sender.start()
        while sender.is_alive():
            self.serve(books())
            sender.join(0.1)
        self.assertLess(ended[0][0], 10 + SLACK)

    def test_client_that_sends_much(self):
        """So is one that sends more than 16 MB. Beside them there is what is on the way."""
        seconds, count = self.send_to_end(self.close(), b"x" * 1_000_000)
        self.assertLess(seconds, 10 + SLACK)
        self.assertLess(count, 256_000_000)


class Waiting(ServedTest):
    """Clients that wait for replies, for each other, or for nothing."""

    order = "run"

    def test_silent_client_first(self):
        """The second client is served although the first is silent, and later the first is."""
        first, second = Talk(self), Talk(self)
        second.ask(books())
        first.ask(create("staff"))
        second.ask(books())
        first.end()
        second.ask(tally("staff"))

    def test_many_waiting_clients(self):
        """All of them send before any of them reads."""
        clients = [Talk(self) for _ in range(50)]
        for number, client in enumerate(clients):
            client.connection.send(create(f"book-{number}"))
            client.connection.finish()
        replies = {client.connection.rest(): create(f"book-{number}")
                   for number, client in enumerate(clients)}
        # The ids of the books say in which order they were made.
        session = Session(self.office)
        for replied in sorted(replies, key=lambda it: (len(it), it)):
            self.compare(replies[replied], session.feed(replies[replied]), replied)
        self.serve(books())

    def test_replies_one_by_one(self):
        """A client that waits for each reply before it asks on."""
        client = Talk(self)
        for octets in [create("staff"), put("staff", "a", "Ann"), get("staff", "a")] * 5:
            client.ask(octets)

    def test_many_requests_in_one_go(self):
        """Thousands of requests at once, and a client that reads while it writes."""
        octets = create("staff") + b"".join(
            put("staff", f"u{number % 7}", f"Name {number}") + get("staff", f"u{number % 5}")
            for number in range(1_000)
        )
        wanted = Session(self.office).feed(octets)
        with self.server.connect() as connection:
            def send():
                connection.send(octets)
                connection.finish()

            sender = threading.Thread(target=send)
            sender.start()
            replied = connection.rest()
            sender.join()
        self.compare(octets, wanted, replied)


if __name__ == "__main__":
    unittest.main()
