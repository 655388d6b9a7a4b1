"""What all connections of `contacts run` hold together: `--max-held`.

Many clients announce bodies of 8,388,608 octets, or ask for long pages and take nothing. The server
admits what the bound allows and refuses the rest as busy, while small requests are served as ever.
What was taken is given back: the server's memory is looked at, too.
"""

import os
import unittest
from pathlib import Path

from dialogue import ServedTest
from http_requests import books, card, create, export, put, request, sync, tally
from program import PATIENCE

LARGEST = 8_388_608
MIB = 1 << 20
HEAD = b"PUT /books/staff/cards/b HTTP/1.1\r\nHost: office\r\nContent-Length: %d\r\n\r\n"
BUSY = (b"HTTP/1.1 503 Service Unavailable\r\nContent-Type: application/json\r\n"
        b"Retry-After: 1\r\nContent-Length: 28\r\nConnection: close\r\n\r\n"
        b'{"fault":"busy","number":34}')
# A card of about 200,000 octets. A page of 100 of them has 20.6 MB in JSON, where a line's end has
# two octets more.
LONG = ["NOTE:" + "x" * 70] * 2_600
HAS_PROC = os.path.isdir("/proc/self")


class HeldTest(ServedTest):
    order = "run"

    def setUp(self):
        super().setUp()
        self.serve(create("staff"), put("staff", "a", "Ann"))

    def start(self, connections=None, more=()):
        # No client is given up for silence, however slow the machine is.
        super().start(connections, ["--idle-timeout", 3600, *more])

    def connect(self):
        connection = self.server.connect()
        self.addCleanup(connection.socket.close)
        return connection

    def announce(self, length):
        """A client that sends the head of a request with a body of that length, and no body."""
        connection = self.connect()
        connection.send(HEAD % length)
        return connection

    def is_refused(self, connection):
        """Whether it was refused as busy, once all that was sent has been handled."""
        self.let_finish()
        return self.has_refusal(connection)

    def has_refusal(self, connection):
        connection.socket.setblocking(False)
        try:
            came = connection.socket.recv(1 << 16)
        except BlockingIOError:
            return False
        finally:
            connection.socket.settimeout(PATIENCE)
        self.assertEqual(BUSY, came)
        return True

    def serve_small(self):
        self.serve(put("staff", "a", "Anna"), tally("staff"), books())

    def memory(self):
        """The octets of memory that the server has now, or 0 where that can't be seen."""
        if not HAS_PROC:
            return 0
        lines = Path(f"/proc/{self.server.process.pid}/status").read_text().splitlines()
        return int([it for it in lines if it.startswith("VmRSS")][0].split()[1]) * 1024


class Bodies(HeldTest):
    def test_many_large_bodies(self):
        """Of 300 clients with the largest body seven fit into 64 MiB; the rest is told to wait."""
        self.restart(more=["--max-open", 400])
        clients = [self.announce(LARGEST) for _ in range(300)]
        self.let_finish()
        admitted = [it for it in clients if not self.has_refusal(it)]
        self.assertEqual(clients[:7], admitted)
        for connection in admitted:
            connection.send(b"x" * (LARGEST - 1))
        self.serve_small()
        # A vector may have room for twice what it holds.
        self.assertLess(self.memory(), 2 * 64 * MIB + 64 * MIB)
        # One that leaves makes room for another.
        admitted[0].socket.close()
        self.let_finish()
        self.assertFalse(self.is_refused(self.announce(LARGEST)))
        self.assertTrue(self.is_refused(self.announce(LARGEST)))
        # So does one that is whole.
        admitted[1].send(b"x")
        self.assertTrue(admitted[1].reply().startswith(b"HTTP/1.1 4"))
        self.assertFalse(self.is_refused(self.announce(LARGEST)))

    def test_small_bodies_are_always_admitted(self):
        self.restart(more=["--max-held", 16, "--max-open", 200])
        self.assertFalse(self.is_refused(self.announce(LARGEST)))
        self.assertTrue(self.is_refused(self.announce(LARGEST)))
        rest = 16_384 - len(HEAD % 16_000)
        small = [self.announce(rest) for _ in range(100)]
        self.let_finish()
        self.assertFalse(any(self.has_refusal(it) for it in small))
        for connection in small:
            connection.send(b"x" * (rest - 1))
        self.serve_small()
        # Large ones may fill what is left, to the octet.
        head = len(HEAD % LARGEST)
        self.assertTrue(self.is_refused(self.announce(LARGEST - 2 * head + 1)))
        self.assertFalse(self.is_refused(self.announce(LARGEST - 2 * head)))

    def test_a_whole_request_is_handled(self):
        """A body that is admitted and comes whole is handled as ever, and frees what it held."""
        self.restart(more=["--max-held", 16])
        for _ in range(5):
            self.serve(request("PUT", "/books/staff/cards/b", card("b", "Bob", *LONG)), tally("staff"))

    def test_no_body_stays_in_memory(self):
        """Clients that sent a large body, whose request was handled, and that stay silent since."""
        self.restart(more=["--max-held", 16])
        body = b"x" * LARGEST
        for _ in range(40):
            connection = self.connect()
            connection.send(HEAD % LARGEST + body + b"G")
            self.assertNotIn(b" 503 ", connection.reply())
        self.serve_small()
        self.assertLess(self.memory(), 150 * MIB)


class Replies(HeldTest):
    def setUp(self):
        super().setUp()
        for number in range(100):
            uid = f"n{number}"
            self.serve(request("PUT", f"/books/staff/cards/{uid}", card(uid, "Long", *LONG)))

    def ask(self):
        """A client that asks for a long page, which the server has tried to send."""
        taker = self.connect()
        taker.send(sync("staff"))
        self.let_finish()
        return taker

    def test_long_replies(self):
        """Of clients that ask for a long page and take nothing, those that fit are replied to."""
        self.restart(more=["--max-held", 48])
        takers = [self.ask() for _ in range(8)]
        self.serve_small()
        replies = []
        for taker in takers:
            taker.finish()
            replies.append(taker.rest())
        self.assertEqual([b"HTTP/1.1 200 OK"] * 2, [it[:15] for it in replies[:2]])
        self.assertEqual(replies[0], replies[1])
        self.assertEqual([BUSY] * 6, replies[2:])
        # Once they are taken there is room again.
        self.serve(sync("staff"))

    def test_a_reply_counts_until_all_of_it_is_taken(self):
        self.restart(more=["--max-held", 32])
        first = self.ask()
        half = first.take(8_000_000)
        self.assertTrue(half.startswith(b"HTTP/1.1 200 OK"))
        self.assertTrue(self.is_refused(self.ask()))
        self.serve_small()
        first.finish()
        self.assertGreater(len(first.rest()), 8_000_000)
        self.serve(sync("staff"))

    def test_the_only_long_reply(self):
        """A page that is larger than the bound is replied to while no other is large."""
        self.restart(more=["--max-held", 16])
        self.serve(sync("staff"))
        body = self.announce(LARGEST)
        self.assertFalse(self.is_refused(body))
        self.assertTrue(self.is_refused(self.ask()))
        body.socket.close()
        self.let_finish()
        self.serve(sync("staff"))

    def test_the_only_long_export(self):
        """So is an export of the whole book. Beside another large one it is refused, and alone again
        once that is gone."""
        self.restart(more=["--max-held", 16])
        self.serve(export("staff"))
        taker = self.connect()
        taker.send(export("staff"))
        self.let_finish()
        other = self.connect()
        other.send(export("staff"))
        self.assertTrue(self.is_refused(other))
        self.serve_small()
        taker.finish()
        self.assertGreater(len(taker.rest()), 16 * MIB)
        self.serve(export("staff"))

    def test_the_log(self):
        """A request whose reply was dropped has the line of that reply, and that of the refusal."""
        self.restart(more=["--max-held", 16, "--log"])
        body = self.announce(LARGEST)
        self.assertTrue(self.is_refused(self.announce(LARGEST)))
        self.assertTrue(self.is_refused(self.ask()))
        body.socket.close()
        lines = self.server.stop().err.splitlines()
        refused = b"refused busy 34 status 503 octets %d" % len(BUSY)
        told = [it for it in lines if b" /books status" not in it]
        self.assertEqual([refused, refused], [told[0], told[2]])
        self.assertRegex(told[1], rb"\Arequest GET /books/staff/sync\S* status 200 octets 2[0-9]{7} ")
        self.assertEqual(3, len(told))

    def test_no_reply_stays_in_memory(self):
        """Clients that took a long page, and stay silent since."""
        self.restart(more=["--max-held", 16])
        for _ in range(20):
            connection = self.connect()
            connection.send(sync("staff"))
            self.assertTrue(connection.reply().startswith(b"HTTP/1.1 200 OK"))
        self.serve_small()
        self.assertLess(self.memory(), 250 * MIB)


if __name__ == "__main__":
    unittest.main()
