"""`contacts serve`: one connection after another, and the first fault of one told at the end.

A client that connects while another is served waits until that one has ended, however it does. The
program ends once the stated number of connections was served: with status 0, or with the fault of
the first that was aborted. `test_order_faults` has the faults, `test_orders` ports and counts.
"""

import select
import signal
import threading
import time
import unittest

from dialogue import NOTES, BigReplyTest, ServedTest, Talk, reset
from http_requests import books, card, create, export, get, put, request, tally
from model.http import Session
from program import PATIENCE, Ended

SLACK = 12  # seconds that a busy machine may need beside what is measured


def is_quiet(connection, seconds=0.3):
    return not select.select([connection.socket], [], [], seconds)[0]


class InTurn(ServedTest):
    """Clients that wait for their turn."""

    def test_the_second_waits_for_the_first(self):
        first, second = Talk(self), Talk(self)
        second.connection.send(books())
        for octets in create("staff"), put("staff", "a", "Ann"), tally("staff"):
            first.ask(octets)
            self.assertTrue(is_quiet(second.connection))
        first.end()
        second.hear(books())
        second.ask(get("staff", "a"))

    def test_a_silent_client_is_waited_for(self):
        """`serve` gives up nobody for being silent."""
        silent, second = Talk(self), Talk(self)
        second.connection.send(books())
        self.assertTrue(is_quiet(second.connection, 2))
        silent.connection.socket.close()
        second.hear(books())

    def test_many_in_the_order_in_which_they_came(self):
        """Each has sent all before the first is served."""
        holds = Talk(self)
        holds.ask(books())
        talks = [Talk(self) for _ in range(50)]
        for number, talk in enumerate(talks):
            talk.connection.send(create(f"book-{number}"))
            talk.connection.finish()
        holds.end()
        for number, talk in enumerate(talks):
            octets = create(f"book-{number}")
            self.compare(octets, talk.session.feed(octets), talk.connection.rest())
        self.serve(books())

    def test_clients_that_go(self):
        """Whatever it has done when it goes, the next one is served, and changes are whole."""
        whole = put("staff", "b", "Bob")
        self.serve(create("staff"))
        for octets in [b"", b"\r\n", b"GET /bo", whole[:60], whole[:-1], b"no head\r\n\r\n"]:
            for end in [reset, lambda it: it.socket.close(), lambda it: it.finish()]:
                with self.subTest(octets[:10]), self.server.connect() as connection:
                    connection.send(octets)
                    end(connection)
                    self.serve(tally("staff"), export("staff"))


class Ending(ServedTest):
    """How the program ends after the stated number of connections."""

    def end(self, status, err=b""):
        self.assertEqual(Ended(status, self.server.line, err), self.server.end())

    def restart(self, connections=None, more=()):
        super().restart(connections, more)
        self.serve(create("staff"))

    def test_after_the_last_one(self):
        self.restart(3)
        self.serve(tally("staff"))
        self.assertIsNone(self.server.process.poll())
        last = Talk(self)
        last.ask(put("staff", "a", "Ann"))
        self.assertIsNone(self.server.process.poll())
        late = self.server.connect()
        self.addCleanup(late.socket.close)
        last.end()
        self.end(0)
        self.assertEqual(b"", late.rest())

    def test_requests_that_are_not_whole(self):
        """The end of the input is no fault, wherever it comes."""
        self.restart(4)
        for octets in b"", b"GET / HT", put("staff", "a", "Ann")[:-1]:
            self.assertEqual(b"", self.server.ask(octets))
        self.end(0)

    def test_faults_of_requests_are_none_of_its_own(self):
        self.restart(3)
        self.serve(b"no head\r\n\r\n")
        self.serve(request("GET", "/nowhere"))
        self.end(0)

    def test_a_read_that_fails(self):
        """The fault is told at the end, and the connections after it are served."""
        self.restart(4)
        with self.server.connect() as connection:
            connection.send(put("staff", "b", "Bob")[:-1])
            reset(connection)
        self.serve(put("staff", "a", "Ann"))
        self.serve(tally("staff"))
        self.end(3, b"fault serve 1\n")

    def test_the_first_of_two_faults(self):
        """A client goes while it is written to, and then one in the middle of a request."""
        self.restart(5)
        self.serve(request("PUT", "/books/staff/cards/big", card("big", "Big", *NOTES)))
        with self.server.connect() as connection:
            connection.send(get("staff", "big") * 60)
            connection.take(1)
            reset(connection)
        with self.server.connect() as connection:
            connection.send(b"GET /books HTTP/1.1\r\nHo")
            reset(connection)
        self.serve(tally("staff"))
        self.end(3, b"fault serve 2\n")

    def test_until_it_is_stopped(self):
        self.assertEqual(-signal.SIGTERM, self.server.stop().status)


class Closing(BigReplyTest):
    """Connections that the server closes. It waits for their clients for a moment."""

    def test_slow_client_that_sends_on(self):
        """A megabyte follows the request that closes. A client that reads slowly gets the reply."""
        octets = self.octets + b"x" * 1_000_000
        wanted = Session(self.office).feed(octets)

        self.send_and_read_slowly(octets, wanted)

    def seconds_to_the_next(self, client):
        """The seconds until the next client is served, while the first one does something else."""
        with self.connection() as first:
            first.send(self.octets)
            self.compare(self.octets, Session(self.office).feed(self.octets), first.rest())
            stops = threading.Event()
            other = threading.Thread(target=client, args=[first, stops])
            other.start()
            begun = time.monotonic()
            try:
                self.serve(books())
            finally:
                stops.set()
                other.join()
            return time.monotonic() - begun

    def test_silent_client(self):
        """A client that neither sends nor closes holds the server for about a second."""
        self.assertLess(self.seconds_to_the_next(lambda connection, stops: stops.wait()), 1 + SLACK)

    def test_client_that_sends_octet_by_octet(self):
        """A client that sends octets without end holds the server for at most a thousand reads."""
        def send(connection, stops):
            while not stops.wait(0.001):
                connection.send(b"x")

        self.assertLess(self.seconds_to_the_next(send), PATIENCE / 2)


class Host(ServedTest):
    def test_no_guard(self):
        """`serve` looks at no Host, and at no field that a browser adds."""
        self.serve(create("staff"))
        for number, fields in enumerate([
                ["Host: evil.example"], ["Host: office", "Origin: http://evil.example"],
                ["Host: office", "If-Match: *"]], 1):
            with self.subTest(fields):
                text = card("a", f"Ann {number}")
                octets = request("PUT", "/books/staff/cards/a", text, fields, host=False)
                self.assertIn(b'"version":%d}' % number, self.serve(octets))


if __name__ == "__main__":
    unittest.main()
