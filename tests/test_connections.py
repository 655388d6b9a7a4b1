"""Connections over raw sockets: rows of requests, heads one by one, and drawn damage.

What a client sends comes whole, octet by octet, or in pieces, and the replies are those that the
model computes. The tests also check whether the server closes a connection or leaves it open. The
rules are those of the API's description and of RFC 9112.
"""

import json
import unittest

from damage import Drawing, drawn_rows
from dialogue import ServedTest
from exchanges import ROWS
from heads import CLOSING, TABLES
from http_requests import books, create, export, put

# A longer connection comes in drawn pieces where others come octet by octet.
BY_OCTETS_MAX = 2_000
PIECE_MAX = 40


def number_of(replies):
    """The number of the refusal or fault that the first reply has; 0 if it has none."""
    head, _, rest = replies.partition(b"\r\n\r\n")
    if b"Content-Type: application/json\r\n" not in head:
        return 0
    length = int(head.partition(b"Content-Length: ")[2].partition(b"\r\n")[0])
    body = json.loads(rest[:length].decode())
    return body["number"] if "fault" in body else 0


def small_pieces(octets):
    """Single octets, or drawn pieces of what is long."""
    if len(octets) > BY_OCTETS_MAX:
        return Drawing(len(octets)).pieces(octets, PIECE_MAX)
    return [octets[place:place + 1] for place in range(len(octets))]


class Rows(ServedTest):
    """Each row, of which each connection comes in one way to the row's server."""

    def each(self, rows, way):
        for row in rows:
            self.renew()
            with self.subTest(row.title):
                for sent in row.connections:
                    way(sent.octets)

    def test_whole(self):
        self.each(ROWS, self.serve)

    def test_octet_by_octet(self):
        self.each(ROWS, lambda octets: self.serve(*small_pieces(octets)))

    def test_left_open_or_closed(self):
        self.each(ROWS, self.serve_on)

    def test_damage(self):
        self.each(drawn_rows(), self.serve)

    def test_damage_in_pieces(self):
        drawing = Drawing(7)
        self.each(drawn_rows(), lambda octets: self.serve(*drawing.pieces(octets, PIECE_MAX)))


class Heads(ServedTest):
    """Each head on a connection of its own, with a request after it.

    If the head closes the connection, that request isn't done: the export shows it.
    """

    def each(self, way):
        self.serve(create("staff"))
        for table, heads in TABLES.items():
            for count, head in enumerate(heads):
                after = put("staff", f"{table.replace(' ', '-')}-{count}", "After")
                with self.subTest(table=table, head=head.title):
                    way(head, head.octets + after)
        self.serve(export("staff"), books())

    def test_number(self):
        def serve(head, octets):
            self.assertEqual(head.number, number_of(self.serve(octets)))

        self.each(serve)

    def test_octet_by_octet(self):
        self.each(lambda head, octets: self.serve(*small_pieces(octets)))

    def test_closing(self):
        self.serve(create("staff"))
        for closing in CLOSING:
            with self.subTest(closing.title):
                self.serve_on(closing.octets)
                replies = self.serve(closing.octets + put("staff", "after", closing.title))
                self.assertEqual(closing.closes, b"\r\nConnection: close\r\n" in replies)
                self.assertEqual(1 if closing.closes else 2, replies.count(b"HTTP/1.1 "))
        self.serve(export("staff"))


if __name__ == "__main__":
    unittest.main()
