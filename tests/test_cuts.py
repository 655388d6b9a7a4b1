"""However a connection's octets are cut, the replies are the same.

Connections are cut in two at each octet, over one server and one model, so that their requests are
done once more for each cut. The rows come in pieces that are drawn from fixed seeds.
"""

import unittest

from damage import Drawing
from dialogue import ServedTest
from exchanges import CLIENTS, GROUP, ROWS, STAFF
from heads import HOST, head, length
from http_requests import COLUMNS, books, card, export, forget, get, import_rows, move, people, put
from http_requests import remove, request, sync, tally

DRAWN = 3  # ways in which each row comes in drawn pieces
PIECE_MAX = 24  # octets of a drawn piece, if a connection isn't long


# What is sent on a connection, of which the number is that of the cut: of any length, so that
# cuts that come one after another don't ask for the same.

def put_and_report(number):
    return put("staff", "a", ["Ann", "Bob"][number % 2]) + sync("staff")


def card_that_moves(number):
    return b"".join(
        [
            put("staff", "b", f"Bob {number:03}"),
            get("staff", "b"),
            move("b", "staff", "clients"),
            remove("clients", "b"),
        ]
    )


def imports(number):
    rows = COLUMNS + f"p,Pat,,,,,,{number:03}\n\"q\",\"Quin, \"\"Q\"\"\",,,,,,\r\n"
    return import_rows("staff", f"k{number:03}", rows) + export("staff", "columns")


def books_and_groups(number):
    team = request("PUT", "/books/staff/cards/g", GROUP.replace("Team", f"Team {number:03}"))
    return STAFF + team + people("staff", "g") + books() + tally("clients")


def pages(number):
    news = put("staff", "a", f"Ann {number:03}") + forget("staff", 0)
    return news + sync("staff", None, 1) + sync("staff", "1/1/1", number % 10)


def faults_of_whole_requests(number):
    return b"".join(
        [
            request("GET", "/nothing", f"{number:03}"),
            request("DELETE", "/books"),
            request("GET", "/books/%FF/tally"),
            request("GET", f"/books/staff/sync?limit={number:03}x"),
            request("PUT", "/books/staff/cards/a", f"BEGIN:VCARD\nNOTE:{number:03}\n"),
            books(),
        ]
    )


def line_feeds_and_empty_lines(number):
    first = f"\n\r\nGET /books/staff/tally HTTP/1.1\nHost: x\r\nX:{number:03}\n\n".encode()
    return first + b"\r\n\n" + length("\t3 ", b"abc") + b"\r\n" + books()


def version_that_closes(number):
    first = put("staff", "c", f"Cy {number:03}")
    return first + books(version="1.0", host=False) + put("staff", "d", f"Dee {number:03}")


def word_that_closes(number):
    closing = remove("staff", "c").replace(b"\r\n\r\n", b"\r\nConnection: x, Close\r\n\r\n")
    return put("staff", "c", f"Cy {number:03}") + closing + put("staff", "d", f"Dee {number:03}")


def bad_head(number):
    return books() + head(f"GET /books/{number:03} HTTP/1.2", HOST) + put("staff", "d", "Dee")


def no_host(number):
    return books() + head(f"GET /books/{number:03}/tally HTTP/1.1") + put("staff", "d", "Dee")


def chunked_body(number):
    chunked = head(
        f"PUT /books/staff/cards/d?version={number:03} HTTP/1.1", HOST, "Transfer-Encoding: chunked"
    )
    return chunked + b"5\r\nBEGIN\r\n0\r\n\r\n" + put("staff", "d", "Dee")


def bad_length(number):
    return length(f" {number:03}x", b"abc") + put("staff", "d", "Dee")


def body_too_large(number):
    return length(f" 9000{number:03}", b"abc") + put("staff", "d", "Dee")


CONNECTIONS = [
    put_and_report,
    card_that_moves,
    imports,
    books_and_groups,
    pages,
    faults_of_whole_requests,
    line_feeds_and_empty_lines,
    version_that_closes,
    word_that_closes,
    bad_head,
    no_host,
    chunked_body,
    bad_length,
    body_too_large,
]


class Cuts(ServedTest):
    def each(self, serve_cuts):
        for connection in CONNECTIONS:
            self.renew()
            self.serve(STAFF + CLIENTS)
            with self.subTest(connection.__name__):
                serve_cuts(connection)
            self.serve(books(), export("staff"), export("clients"))

    def test_in_two_at_each_octet(self):
        def serve_cuts(connection):
            for place in range(1, len(connection(0))):
                octets = connection(place)
                self.serve(octets[:place], octets[place:])

        self.each(serve_cuts)

    def test_octet_by_octet(self):
        def serve_cuts(connection):
            octets = connection(0)
            self.serve(*[octets[place:place + 1] for place in range(len(octets))])

        self.each(serve_cuts)

    def test_a_long_body_in_pieces(self):
        """A body of 100,000 octets comes in pieces of 1,500, as a network cuts it."""
        self.renew()
        self.serve(STAFF)
        notes = [f"NOTE:{number:04} " + "x" * 65 for number in range(1_298)]
        octets = request("PUT", "/books/staff/cards/a", card("a", "Ann", *notes)) + books()
        self.assertLess(100_000, len(octets))
        self.serve(*[octets[place:place + 1_500] for place in range(0, len(octets), 1_500)])
        self.serve(get("staff", "a"))

    def test_in_drawn_pieces(self):
        def serve_cuts(connection):
            drawing = Drawing(len(connection(0)))
            for number in range(12):
                self.serve(*drawing.pieces(connection(number), 2 + 5 * number))

        self.each(serve_cuts)

    def test_rows_in_drawn_pieces(self):
        for row in ROWS:
            for seed in range(DRAWN):
                self.renew()
                drawing = Drawing(seed)
                with self.subTest(row.title, seed=seed):
                    for sent in row.connections:
                        self.serve(*drawing.pieces(sent.octets, PIECE_MAX))


if __name__ == "__main__":
    unittest.main()
