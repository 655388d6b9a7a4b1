"""Requests with some octets changed, dropped or inserted, and garbage, drawn from fixed seeds.

The draws are the same with each version of Python, since `Drawing` has its own generator.
"""

from exchanges import CLIENTS, STAFF, connection, row
from http_requests import COLUMNS, books, export, forget, get, import_rows, move, put, remove, sync
from http_requests import tally

# Octets that mean something in a head, and others.
OCTETS = b"\r\n :;,?&=/%+-.019azAZ\t\x00\x7f\x80\xc3\xa9\xff"
# Pieces of heads, of which garbage is made.
PIECES = [
    b"GET ",
    b"PUT ",
    b"/books",
    b"/staff",
    b"?limit=1",
    b" HTTP/1.1",
    b" HTTP/1.0",
    b"\r\n",
    b"\n",
    b"\r",
    b" ",
    b"\t",
    b"Host: office",
    b"Content-Length: 3",
    b"Content-Length:",
    b"Transfer-Encoding: chunked",
    b"Connection: close",
    b"abc",
    b"\x00",
    b"\xff",
    b"\r\n\r\n",
]
PARTS = 16
CONNECTIONS_OF_A_PART = 25


class Drawing:
    """A generator of numbers, the same from the same seed."""

    def __init__(self, seed=2_463_534_242):
        self.state = seed

    def below(self, bound):
        self.state = (self.state * 6_364_136_223_846_793_005 + 1) % 2**64
        return (self.state >> 33) % bound

    def one_of(self, items):
        return items[self.below(len(items))]

    def pieces(self, octets, most):
        """The octets in pieces of one to `most` octets, or in about 80 pieces if there are many."""
        most = max(most, len(octets) // 40)
        pieces = []
        while octets:
            size = 1 + self.below(most)
            pieces.append(octets[:size])
            octets = octets[size:]
        return pieces


def damaged(drawing, octets):
    """The octets with up to three of them changed, dropped or inserted."""
    octets = bytearray(octets)
    for _ in range(1 + drawing.below(3)):
        place = drawing.below(len(octets))
        octet = drawing.one_of(OCTETS)
        way = drawing.below(3)
        if way == 0:
            octets[place] = octet
        elif way == 1:
            del octets[place]
        else:
            octets.insert(place, octet)
    return bytes(octets)


def drawn_request(drawing):
    uid = drawing.one_of("abc")
    name = drawing.one_of(["Ann", "Bob", "Cy"])
    return drawing.one_of(
        [
            put("staff", uid, name),
            put("staff", uid, name, "?version=0"),
            remove("staff", uid),
            sync("staff", None, 2),
            sync("staff", "1/0/0", 1),
            tally("staff"),
            move(uid, "staff", "clients"),
            import_rows("staff", "k1", COLUMNS + "p,Pat,,,,,,\n"),
            export("staff", "columns"),
            forget("staff", 0),
            get("staff", uid, fields=["Connection: close"]),
            books(version="1.0"),
        ]
    )


def damaged_connections(drawing, count):
    """Damaged requests, each followed by a whole one on a connection of its own."""
    for number in range(1, count + 1):
        octets = damaged(drawing, drawn_request(drawing))
        if drawing.below(4) == 0:
            octets += tally("staff")
        yield connection(f"damaged {number}", octets)
        yield connection(f"whole {number}", books())


def garbage_connections(drawing, count):
    """Drawn octets, and pieces of heads in a drawn order, each followed by a whole request."""
    for number in range(1, count + 1):
        size = 1 + drawing.below(24)
        if number % 2:
            octets = b"".join(drawing.one_of(PIECES) for _ in range(size))
        else:
            octets = bytes(drawing.below(256) for _ in range(size)) + b"\r\n\r\n"
        yield connection(f"garbage {number}", octets)
        yield connection(f"whole {number}", books())


def drawn_rows():
    """The rows of damage, and one of garbage."""
    first = connection("books", STAFF, CLIENTS, put("staff", "a", "Ann"))
    drawing = Drawing()
    for part in range(1, PARTS + 1):
        connections = damaged_connections(drawing, CONNECTIONS_OF_A_PART)
        yield row(f"damage, part {part}", first, *connections)
    yield row("garbage", first, *garbage_connections(drawing, 200))
