"""Rows of connections, octet for octet: what clients send, without the replies.

A row has a server of its own over a new file. Its connections come to it one after another, and
the last often asks what the books hold. To add a row, copy one; to add a request, copy a line.
"""

from collections import namedtuple

from http_requests import COLUMNS, EACH_OF_A_BOOK, FULL_CARDS, books, card, create, export, forget
from http_requests import get, import_rows, move, people, put, remove, request, sync, tally

Row = namedtuple("Row", "title connections")
Sent = namedtuple("Sent", "title octets")


def row(title, *connections):
    return Row(title, connections)


def connection(title, *requests):
    """What a client sends on one connection."""
    return Sent(title, b"".join(requests))


def import_k(rows):
    return import_rows("staff", "k", rows)


def fields(*more):
    return request("GET", "/books", fields=more)


STAFF = create("staff")
CLIENTS = create("clients")
# It follows a request that closes the connection, so it is never done: see the list of books.
NEVER = create("never")
TWO_ROWS = COLUMNS + "p,Pat Lee,Lee,Pat,pat@example.test,,,\nq,Quin,,,,,,\n"
GROUP = card("g", "Team", "KIND:group", "MEMBER:g2", "MEMBER:urn:uuid:x", "MEMBER:nobody")
OTHER_GROUP = card("g2", "Half", "KIND:group", "MEMBER:g", "MEMBER:y")
THREE = [
    STAFF,
    put("staff", "a", "Ann"),
    put("staff", "b", "Bob"),
    put("staff", "c", "Cy"),
    put("staff", "a", "Anna"),
    remove("staff", "b"),
]

FIRST_DAYS = row(
    "staff and clients, from the first card on",
    connection("an empty book", STAFF, sync("staff")),
    connection(
        "three cards, an edit and a removal",
        *THREE[1:],
        tally("staff"),
        books(),
        get("staff", "a"),
    ),
    connection("pages of one member", sync("staff", None, 1), sync("staff", "1/3/5", 1)),
    connection(
        "pages with writes between",
        remove("staff", "c"),
        put("staff", "b", "Bob"),
        sync("staff", "1/3/5", 1),
        sync("staff", "1/4/5", 2),
        sync("staff", "1/4/5", 1),
        sync("staff", "1/6/6", 1),
    ),
    connection(
        "a card that came and went",
        put("staff", "d", "Dee"),
        remove("staff", "d"),
        sync("staff", "1/7/7"),
    ),
    connection(
        "a move",
        CLIENTS,
        move("a", "staff", "clients"),
        tally("staff"),
        tally("clients"),
    ),
    connection(
        "moves that are refused",
        move("a", "staff", "clients"),
        put("clients", "b", "Bob"),
        move("b", "staff", "clients"),
        move("b", "staff", "staff"),
    ),
    connection(
        "an equal card, no news, and another version",
        put("staff", "b", "Bob"),
        sync("staff", "1/10/10"),
        put("staff", "b", "Rob", "?version=6"),
    ),
    connection(
        "limits and tokens",
        sync("staff", None, 0),
        sync("staff", "2/1/1"),
        sync("staff", "1/99/99"),
        sync("staff", "1/07/7"),
        sync("staff", "1/5/4"),
        sync("staff", "1/3/5"),
        sync("staff", "1/3/99999999999999"),
    ),
    connection(
        "imports",
        import_rows("clients", "k1", TWO_ROWS + "r,,,,,,,\n"),
        import_rows("clients", "k1", TWO_ROWS + "r,Rae,,,,,,\n"),
        import_rows("clients", "k1", "anything"),
        get("clients", "p"),
        tally("clients"),
        import_rows("clients", "k/3", ""),
    ),
)
FORGETTING = row(
    "forgetting",
    connection("the rows of a book", *THREE, sync("staff", None, 1)),
    connection(
        "what was forgotten",
        forget("staff", 5),
        sync("staff", "1/3/5", 1),
        sync("staff", "1/4/4"),
        forget("staff", 4),
        forget("staff", 6),
        tally("staff"),
    ),
)
GROUPS = row(
    "groups",
    connection(
        "whom a group reaches",
        STAFF,
        request("PUT", "/books/staff/cards/g", GROUP),
        request("PUT", "/books/staff/cards/g2", OTHER_GROUP),
        put("staff", "x", "Xe"),
        put("staff", "y", "Yo"),
        people("staff", "g"),
        people("staff", "x"),
        people("staff", "z"),
    ),
)
EXPORTS = row(
    "exports",
    connection(
        "cards and columns",
        STAFF,
        put("staff", "a", "Ann"),
        export("staff"),
        export("staff", "columns"),
        export("staff", "xml"),
    ),
    connection(
        "an export is imported",
        create("other"),
        import_rows("other", "k", FULL_CARDS + f'a,"{card("a", "Ann")}"\n'),
        get("other", "a"),
    ),
)
REFUSALS = row(
    "refusals of cards, books and rows",
    connection(
        "books",
        create("Staff"),
        STAFF,
        STAFF,
        create("a" * 41),
        tally("a" * 41),
        tally("none"),
    ),
    connection(
        "cards",
        request("PUT", "/books/staff/cards/a", card("b", "Bob")),
        request("PUT", "/books/staff/cards/a", card("a", "Ann").replace("4.0", "3.0")),
        request("PUT", "/books/staff/cards/a", ""),
        request("PUT", "/books/none/cards/a", ""),
        get("staff", "a"),
        remove("staff", "a"),
        put("staff", "a", "Ann", "?version=1"),
        put("staff", "a", "Ann", "?version=0"),
    ),
    connection(
        "rows",
        import_k(""),
        import_k(COLUMNS + "p,Pat,,,,,\n"),
        import_k(b"\xef\xbb\xbf\xef\xbb\xbf" + COLUMNS.encode()),
        tally("staff"),
    ),
)
TARGETS = row(
    "targets",
    connection(
        "no route",
        request("GET", "/"),
        request("GET", "books"),
        request("GET", "/books/staff/cards/"),
        request("GET", "*"),
        request("GET", "/nothing"),
    ),
    connection(
        "other methods",
        request("POST", "/books"),
        request("GET", "/books/staff"),
        request("PATCH", "/books/staff/cards/a"),
        request("GET", "/books/staff/cards/a/move"),
        request("DELETE", "/books/staff"),
        request("POST", "/books/staff/cards/a"),
    ),
    connection(
        "parts that aren't UTF-8",
        request("GET", "/books/%FF/tally"),
        request("GET", "/books/staff/cards/%C3"),
    ),
    connection(
        "queries",
        STAFF,
        sync("staff", None, "1&limit=2"),
        sync("staff", None, "1e3"),
        request("GET", "/books/staff/sync?page=1"),
        request("POST", "/books/staff/forget"),
        sync("staff", None, "0007"),
        sync("staff", None, "1234567890123456"),
    ),
)
HEADS_THAT_CLOSE = row(
    "heads that close",
    connection("no head", b"hello\r\n\r\n", NEVER),
    connection("another version", b"GET /books HTTP/9.1\r\nHost: office\r\n\r\n", NEVER),
    connection("sixty-four fields", fields(*[f"X-{n}: 1" for n in range(63)])),
    connection("sixty-five fields", fields(*[f"X-{n}: 1" for n in range(64)]), NEVER),
    connection("no host", request("GET", "/books", host=False), NEVER),
    connection("two hosts", fields("Host: office"), NEVER),
    connection(
        "a transfer encoding beside a length",
        fields("Transfer-Encoding: chunked", "Content-Length: 5"),
        NEVER,
    ),
    connection("a length with a sign", fields("Content-Length: +5"), NEVER),
    connection("two lengths", fields("Content-Length: 5", "Content-Length: 5"), NEVER),
    connection("a length of 16 digits", fields("Content-Length: 1234567890123456"), NEVER),
    connection(
        "a length of 15 digits, and 5 octets",
        fields("Content-Length: 000000000000005") + b"abcde",
    ),
    connection("a length above the most", fields("Content-Length: 8388609"), NEVER),
    connection("the greatest length, and no body yet", fields("Content-Length: 8388608")),
    connection("a target that isn't UTF-8", b"GET /\xff HTTP/1.1\r\nHost: office\r\n\r\n", NEVER),
    connection("what was done", books()),
)
BEGUN = b"GET /books HTTP/1.1\r\nX: "
LONG_HEADS = row(
    "heads at the most octets",
    connection("a head of 16,384 octets that goes on", BEGUN.ljust(16384, b"x")),
    connection("one octet less", BEGUN.ljust(16383, b"x")),
    connection("empty lines alone", b"\n" * 16384),
    connection(
        "a whole head of 16,384 octets",
        b"GET /".ljust(16384 - 28, b"a") + b" HTTP/1.1\r\nHost: x\r\n\r\n",
    ),
    connection(
        "a head that is bad from its first line on, and goes on",
        BEGUN.replace(b"1.1", b"7.1").ljust(16384, b"x"),
    ),
    connection("what was done", books()),
)
CONNECTIONS = row(
    "connections",
    connection("two requests in a row", *THREE[:2], sync("staff")),
    connection(
        "a version without keeping alive",
        sync("staff", "1/1/1"),
        books(version="1.0", host=False),
        NEVER,
    ),
    connection("a field that closes", fields("Connection: keep-alive, Close"), NEVER),
    connection("a body that isn't whole", put("staff", "b", "Bob")[:-1]),
    connection("what was done", books(), tally("staff")),
)
IN_PIECES = row(
    "edges of requests",
    connection(
        "an empty line first, a body of line feeds, and the beginning of a request",
        b"\nPUT /a HTTP/1.1\r\nHost: office\r\ncontent-length:5\r\n\r\nab\n\nc",
        b"GET /books HTTP/1.1\nhost: office\n\nGE",
    ),
    connection("nothing after version 1.0", STAFF, books(version="1.0", host=False), NEVER),
    connection("nothing after the last word", fields("Connection: upgrade , CLOSE"), NEVER),
    connection("4 octets of 5", fields("Content-Length: 000000000000005") + b"abcd"),
    connection("a target of 16,369 octets", b"GET /" + 16_368 * b"a" + b" HTTP/1.0\n\n"),
    connection("what was done", books()),
)
THREE_REQUESTS = row(
    "devices",
    connection("three requests", *THREE[:2], sync("staff")),
    connection("the books", books(), tally("staff")),
)
EACH_COMMAND = row(
    "each command, over a book and without one",
    connection(
        "each command",
        books(),
        tally("staff"),
        STAFF,
        *EACH_OF_A_BOOK,
    ),
    connection(
        "what doesn't reach the store",
        request("GET", "/"),
        request("DELETE", "/books"),
        request("GET", "/books/staff/sync?limit=x"),
    ),
)
# Requests that reach a limit if the books were filled before; else all of them are done.
AT_MOST_THREE_CHANGES = row(
    "at most three changes of a book",
    connection(
        "puts",
        STAFF,
        put("staff", "a", "Ann"),
        put("staff", "b", "Bob"),
        put("staff", "a", "Anna"),
        put("staff", "c", "Cy"),
        put("staff", "b", "Bob"),
    ),
    connection(
        "what else is a change",
        CLIENTS,
        remove("staff", "a"),
        move("a", "staff", "clients"),
        import_k(TWO_ROWS),
        import_k(COLUMNS),
        tally("staff"),
        tally("clients"),
    ),
)
AT_MOST_TWO_CARDS = row(
    "at most two cards of a book, and one book",
    connection(
        "puts",
        STAFF,
        put("staff", "a", "Ann"),
        put("staff", "b", "Bob"),
        put("staff", "c", "Cy"),
        put("staff", "a", "Anna"),
        import_k(TWO_ROWS),
    ),
    connection("books", STAFF, CLIENTS, books()),
)
AT_MOST_ONE_CARD = row(
    "at most one card of a book, and one of a page",
    connection(
        "a move to a full book, and pages",
        STAFF,
        CLIENTS,
        put("staff", "a", "Ann"),
        put("clients", "b", "Bob"),
        move("a", "staff", "clients"),
        remove("clients", "b"),
        move("a", "staff", "clients"),
        sync("clients", None, 2),
        sync("clients", "2/1/1", 2),
        sync("clients", "2/2/2", 2),
    ),
)

ROWS = [
    FIRST_DAYS,
    FORGETTING,
    GROUPS,
    EXPORTS,
    REFUSALS,
    TARGETS,
    HEADS_THAT_CLOSE,
    LONG_HEADS,
    CONNECTIONS,
    IN_PIECES,
    THREE_REQUESTS,
    EACH_COMMAND,
    AT_MOST_THREE_CHANGES,
    AT_MOST_TWO_CARDS,
    AT_MOST_ONE_CARD,
]
