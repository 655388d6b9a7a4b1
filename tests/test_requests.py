"""Requests and their replies, octet for octet: each route, each kind of reply, each fault.

All expected replies were written by hand from docs/API.md, the formats' descriptions and from RFC
9112 (heads) and RFC 6578 (pages). To add a row, copy a line: a title, a request, a status, a body.
"""

import unittest

import test_worked_rows
from http_requests import COLUMNS, FULL_CARDS, books, card, create, export, forget, get, import_rows
from http_requests import move, people, put, remove, request, sync, tally
from model.books import Office
from model.http import Session
from replies import WalkTest, card_text, fault, page, removed_member, reply, stored_member

OK, CREATED, BAD = "200 OK", "201 Created", "400 Bad Request"
NOT_FOUND, CONFLICT = "404 Not Found", "409 Conflict"

PUT_CREATED = '{"put":"created","version":%d}'
PAT = "p,Pat Lee,Lee,Pat,pat@example.test,,,\n"
PAT_TEXT = card_text("p", "Pat Lee", "N:Lee;Pat;;;", "EMAIL:pat@example.test")
GROUP = card("g", "Team", "KIND:group", "MEMBER:g2", "MEMBER:urn:uuid:x", "MEMBER:nobody")
OTHER_GROUP = card("g2", "Half", "KIND:group", "MEMBER:g", "MEMBER:y")
ANN = card("a", "Ann")
# It follows a request that closes the connection, so it is never done.
NEVER = create("never")


def with_length(value):
    return request("GET", "/books", fields=[f"Content-Length: {value}"])


# Whole replies, to compare with those that `reply` makes of a status and a body.
WHOLE_REPLIES = [
    (
        "a card is created",
        put("staff", "a", "Ann"),
        b"HTTP/1.1 201 Created\r\nContent-Type: application/json\r\nContent-Length: 29\r\n"
        b'Connection: keep-alive\r\n\r\n{"put":"created","version":1}',
    ),
    (
        "a card under another UID",
        request("PUT", "/books/staff/cards/a", card("b", "Bob")),
        b"HTTP/1.1 409 Conflict\r\nContent-Type: application/json\r\nContent-Length: 35\r\n"
        b'Connection: keep-alive\r\n\r\n{"fault":"uid-mismatch","number":6}',
    ),
    (
        "another version",
        put("staff", "a", "Anna", "?version=7"),
        b"HTTP/1.1 412 Precondition Failed\r\nContent-Type: application/json\r\n"
        b"Content-Length: 47\r\nConnection: keep-alive\r\n\r\n"
        b'{"fault":"version-mismatch","has":1,"number":7}',
    ),
    (
        "no route",
        request("GET", "/nothing"),
        b"HTTP/1.1 404 Not Found\r\nContent-Type: application/json\r\nContent-Length: 32\r\n"
        b'Connection: keep-alive\r\n\r\n{"fault":"no-route","number":27}',
    ),
    (
        "another method, where one is right",
        request("DELETE", "/books/staff"),
        b"HTTP/1.1 405 Method Not Allowed\r\nContent-Type: application/json\r\nAllow: PUT\r\n"
        b"Content-Length: 34\r\nConnection: keep-alive\r\n\r\n"
        b'{"fault":"bad-method","number":28}',
    ),
    (
        "another method, where three are right",
        request("POST", "/books/staff/cards/a"),
        b"HTTP/1.1 405 Method Not Allowed\r\nContent-Type: application/json\r\n"
        b"Allow: GET, PUT, DELETE\r\nContent-Length: 34\r\nConnection: keep-alive\r\n\r\n"
        b'{"fault":"bad-method","number":28}',
    ),
    (
        "an initial report, by an empty token",
        request("GET", "/books/staff/sync?token="),
        b"HTTP/1.1 200 OK\r\nContent-Type: application/json\r\nContent-Length: 185\r\n"
        b'Connection: keep-alive\r\n\r\n{"members":[{"card":"BEGIN:VCARD\\r\\nVERSION:4.0\\r\\n'
        b'UID:a\\r\\nFN:Ann\\r\\nEND:VCARD\\r\\n","status":200,"uid":"a","version":1}],'
        b'"token":"http://contacts.invalid/sync/1/1/1","truncated":false}',
    ),
    (
        "a removal",
        remove("staff", "a"),
        b"HTTP/1.1 200 OK\r\nContent-Type: application/json\r\nContent-Length: 12\r\n"
        b'Connection: keep-alive\r\n\r\n{"number":2}',
    ),
    (
        "a page with a removed member",
        b"GET /books/staff/sync?token=http%3A%2F%2Fcontacts.invalid%2Fsync%2F1%2F1%2F1 HTTP/1.1\r\n"
        b"Host: office\r\n\r\n",
        b"HTTP/1.1 200 OK\r\nContent-Type: application/json\r\nContent-Length: 101\r\n"
        b'Connection: keep-alive\r\n\r\n{"members":[{"status":404,"uid":"a"}],'
        b'"token":"http://contacts.invalid/sync/1/2/2","truncated":false}',
    ),
    (
        "a token that isn't accepted",
        sync("staff", "2/1/1"),
        b"HTTP/1.1 403 Forbidden\r\nContent-Type: application/json\r\nContent-Length: 50\r\n"
        b'Connection: keep-alive\r\n\r\n{"cause":2,"fault":"valid-sync-token","number":10}',
    ),
    (
        "a limit that can't be kept",
        sync("staff", limit=0),
        b"HTTP/1.1 507 Insufficient Storage\r\nContent-Type: application/json\r\n"
        b"Content-Length: 55\r\nConnection: keep-alive\r\n\r\n"
        b'{"fault":"number-of-matches-within-limits","number":11}',
    ),
    (
        "rows",
        export("staff", "columns"),
        b"HTTP/1.1 200 OK\r\nContent-Type: text/csv\r\nContent-Length: 39\r\n"
        b"Connection: keep-alive\r\n\r\nuid,fn,family,given,email,tel,org,note\n",
    ),
]

EACH_REPLY = [
    ("no books", books(), OK, '{"books":[]}'),
    ("a book", create("staff"), CREATED, '{"id":1}'),
    ("a book before it by name", create("clients"), CREATED, '{"id":2}'),
    ("an empty book", sync("staff"), OK, page("1/0/0")),
    ("a card is created", put("staff", "a", "Ann"), CREATED, PUT_CREATED % 1),
    ("a card is edited", put("staff", "a", "Anna"), OK, '{"put":"edited","version":2}'),
    ("a card is the same", put("staff", "a", "Anna"), OK, '{"put":"unchanged","version":2}'),
    ("no card may be there", put("staff", "b", "Bob", "?version=0"), CREATED, PUT_CREATED % 3),
    (
        "a version is there",
        put("staff", "b", "Rob", "?version=3"),
        OK,
        '{"put":"edited","version":4}',
    ),
    (
        "a card",
        get("staff", "a"),
        OK,
        '{"card":"' + card_text("a", "Anna") + '","uid":"a","version":2}',
    ),
    (
        "a page that is truncated",
        sync("staff", limit=1),
        OK,
        page("1/2/4", stored_member("a", "Anna", 2), more=True),
    ),
    ("a card is removed", remove("staff", "a", "?version=2"), OK, '{"number":5}'),
    (
        "what was removed after a first page began",
        sync("staff", "1/2/4"),
        OK,
        page("1/5/5", stored_member("b", "Rob", 4), removed_member("a")),
    ),
    ("a card is moved", move("b", "staff", "clients"), OK, '{"from":6,"version":1}'),
    ("it is there", sync("clients"), OK, page("2/1/1", stored_member("b", "Rob", 1))),
    ("and it is removed here", sync("staff", "1/5/5"), OK, page("1/6/6", removed_member("b"))),
    (
        "rows of columns",
        import_rows("staff", "k1", COLUMNS + PAT + "q,Quin,,,,,,\n"),
        OK,
        '{"edited":0,"new":2,"number":8,"same":0}',
    ),
    (
        "other rows under the same key",
        import_rows("staff", "k1", COLUMNS + "r,Rae,,,,,,\n"),
        OK,
        '{"edited":0,"new":2,"number":8,"same":0}',
    ),
    (
        "rows of cards",
        import_rows("staff", "k2", f'uid,vcard\nq,"{card("q", "Quinn")}"\n,"{card("s", "Sy")}"\n'),
        OK,
        '{"edited":1,"new":1,"number":10,"same":0}',
    ),
    (
        "a header alone",
        import_rows("staff", "k3", FULL_CARDS),
        OK,
        '{"edited":0,"new":0,"number":10,"same":0}',
    ),
    (
        "an export of columns",
        export("staff", "columns"),
        OK,
        COLUMNS + PAT + "q,Quinn,,,,,,\ns,Sy,,,,,,\n",
    ),
    ("an export of cards", export("clients"), OK, f'uid,vcard\nb,"{card("b", "Rob")}"\n'),
    ("the same", export("clients", "cards"), OK, f'uid,vcard\nb,"{card("b", "Rob")}"\n'),
    (
        "the book in numbers",
        tally("staff"),
        OK,
        '{"cards":3,"created":2,"deleted":1,"edited":2,"horizon":0,"import_edited":1,"imported":3,'
        '"moved_in":0,"moved_out":1,"number":10,"remembered":2}',
    ),
    (
        "a book with a card that came from another",
        tally("clients"),
        OK,
        '{"cards":1,"created":0,"deleted":0,"edited":0,"horizon":0,"import_edited":0,"imported":0,'
        '"moved_in":1,"moved_out":0,"number":1,"remembered":0}',
    ),
    ("a removed member is forgotten", forget("staff", 5), OK, '{"dropped":1,"horizon":5}'),
    ("there is none up to there now", forget("staff", 5), OK, '{"dropped":0,"horizon":5}'),
    (
        "a first page after that",
        sync("staff", limit=1),
        OK,
        page("1/7/10", f'{{"card":"{PAT_TEXT}","status":200,"uid":"p","version":7}}', more=True),
    ),
    (
        "books by name",
        books(),
        OK,
        '{"books":[{"horizon":0,"id":2,"name":"clients","number":1},'
        '{"horizon":5,"id":1,"name":"staff","number":10}]}',
    ),
]

GROUPS = [
    ("a book", create("staff"), CREATED, '{"id":1}'),
    ("a group", request("PUT", "/books/staff/cards/g", GROUP), CREATED, PUT_CREATED % 1),
    ("its half", request("PUT", "/books/staff/cards/g2", OTHER_GROUP), CREATED, PUT_CREATED % 2),
    ("a member", put("staff", "x", "Xen"), CREATED, PUT_CREATED % 3),
    ("another", put("staff", "y", "Yul"), CREATED, PUT_CREATED % 4),
    ("all who are reached", people("staff", "g"), OK, '{"missing":["nobody"],"people":["x","y"]}'),
    ("also from its half", people("staff", "g2"), OK, '{"missing":["nobody"],"people":["x","y"]}'),
    ("a person is no group", people("staff", "x"), CONFLICT, fault("not-group", 17)),
    ("a member goes", remove("staff", "x"), OK, '{"number":5}'),
    (
        "it is missing, as it was written",
        people("staff", "g"),
        OK,
        '{"missing":["nobody","urn:uuid:x"],"people":["y"]}',
    ),
]

EXPORTS = [
    ("a book", create("staff"), CREATED, '{"id":1}'),
    ("a card", put("staff", "a", "Ann"), CREATED, PUT_CREATED % 1),
    (
        "an export of cards",
        export("staff"),
        OK,
        'uid,vcard\na,"BEGIN:VCARD\r\nVERSION:4.0\r\nUID:a\r\nFN:Ann\r\nEND:VCARD\r\n"\n',
    ),
    ("another book", create("clients"), CREATED, '{"id":2}'),
    (
        "has them imported",
        import_rows("clients", "k", f'uid,vcard\na,"{ANN}"\n'),
        OK,
        '{"edited":0,"new":1,"number":1,"same":0}',
    ),
    ("the same card is there", sync("clients"), OK, page("2/1/1", stored_member("a", "Ann", 1))),
    ("it is the same again", put("clients", "a", "Ann"), OK, '{"put":"unchanged","version":1}'),
]

# Faults that close: the octets that come, and the status and body of the last reply.
CLOSING = [
    ("no head", b"hello\r\n\r\n", BAD, fault("bad-head", 21)),
    (
        "65 fields",
        request("GET", "/books", fields=[f"X-{n}: 1" for n in range(64)]),
        BAD,
        fault("bad-head", 21),
    ),
    (
        "a target that isn't UTF-8",
        b"GET /\xff HTTP/1.1\r\nHost: office\r\n\r\n",
        BAD,
        fault("bad-head", 21),
    ),
    (
        "16,384 octets that are still a beginning",
        b"GET /books HTTP/1.1\r\nX: ".ljust(16_384, b"x"),
        "431 Request Header Fields Too Large",
        fault("head-too-large", 22),
    ),
    ("no Host", b"GET / HTTP/1.1\r\n\r\n", BAD, fault("bad-host", 23)),
    ("two Host fields", request("GET", "/books", fields=["host: x"]), BAD, fault("bad-host", 23)),
    (
        "a Transfer-Encoding beside a Content-Length",
        request("PUT", "/books/staff", b"", fields=["Transfer-Encoding: chunked"]),
        "501 Not Implemented",
        fault("transfer-encoding", 24),
    ),
    ("a length with a sign", with_length("+5"), BAD, fault("bad-length", 25)),
    ("two lengths", with_length("0\r\nContent-Length: 0"), BAD, fault("bad-length", 25)),
    ("a length of 16 digits", with_length("0000000000000005"), BAD, fault("bad-length", 25)),
    (
        "a length above the most",
        with_length("8388609"),
        "413 Payload Too Large",
        fault("body-too-large", 26),
    ),
    (
        "the first of four: 23",
        b"GET /no HTTP/1.1\r\nTransfer-Encoding: x\r\nContent-Length: x\r\n\r\n",
        BAD,
        fault("bad-host", 23),
    ),
    (
        "the first of three: 24",
        b"GET /no HTTP/1.0\r\nTransfer-Encoding: x\r\nContent-Length: x\r\n\r\n",
        "501 Not Implemented",
        fault("transfer-encoding", 24),
    ),
    (
        "the first of two: 25",
        b"GET /no HTTP/1.0\r\nContent-Length: x\r\n\r\n",
        BAD,
        fault("bad-length", 25),
    ),
]


class RepliesTest(WalkTest):
    def test_whole_replies(self):
        """These are no rows of a walk, since they have their whole heads."""
        self.office.do(("create", "staff"))
        self.server.ask(create("staff"))
        session = Session(self.office)
        with self.server.connect() as connection:
            for title, octets, wanted in WHOLE_REPLIES:
                computed = session.feed(octets)
                connection.send(octets)
                replied = connection.reply()
                with self.subTest(title):
                    self.same(wanted, computed, "by the model")
                    self.same(wanted, replied, f"after {octets!r}")

    def test_each_reply(self):
        self.walk(EACH_REPLY)

    def test_groups(self):
        self.walk(GROUPS)

    def test_exports(self):
        self.walk(EXPORTS)

    def test_closing_faults(self):
        """What follows on the connection is ignored."""
        for title, octets, status, body in CLOSING:
            self.end(title, octets + NEVER, reply(status, body, close=True))
        self.walk([("nothing was done", books(), OK, '{"books":[]}')])

    def test_closing_requests(self):
        """A request may come last by its version or by a field, and one that follows isn't done."""
        self.end(
            "version 1.0 without a Host",
            create("staff") + b"GET /books HTTP/1.0\r\n\r\n" + NEVER,
            reply(CREATED, '{"id":1}')
            + reply(OK, '{"books":[{"horizon":0,"id":1,"name":"staff","number":0}]}', close=True),
        )
        self.end(
            "a field, beside another option and in any case",
            request("GET", "/books/staff/sync", fields=["Connection: keep-alive, Close"]) + NEVER,
            reply(OK, page("1/0/0"), close=True),
        )
        self.end(
            "a fault of a whole request",
            request("GET", "/nothing", fields=["connection: close"]) + NEVER,
            reply(NOT_FOUND, fault("no-route", 27), close=True),
        )
        self.end(
            "another method",
            request("POST", "/books", fields=["Connection: close"]) + NEVER,
            reply("405 Method Not Allowed", fault("bad-method", 28), close=True, allow="GET"),
        )
        self.end(
            "rows",
            request("GET", "/books/staff/export", version="1.0"),
            reply(OK, FULL_CARDS, close=True),
        )

    def test_requests_that_are_not_whole(self):
        """There is no reply, and nothing is done, if the input ends within a request."""
        put_ann = put("staff", "a", "Ann")
        self.walk([("a book", create("staff"), CREATED, '{"id":1}')])
        for title, octets in [
            ("nothing", b""),
            ("a head without its empty line", put_ann[:40]),
            ("a body without its last octet", put_ann[:-1]),
            ("the greatest length, and no body", with_length("8388608")),
        ]:
            with self.subTest(title):
                self.assertEqual(b"", self.server.ask(octets))
        self.walk([("the book is empty", sync("staff"), OK, page("1/0/0"))])


class ModelTest(unittest.TestCase):
    """The model gives the replies that were written by hand elsewhere to test the program."""

    def test_worked_rows(self):
        for name in ("HISTORY", "WITH_FORGETTING"):
            session = Session(Office())
            for title, exchanges in getattr(test_worked_rows, name):
                for octets, due in exchanges:
                    with self.subTest(title):
                        self.assertEqual(test_worked_rows.reply(*due), session.feed(octets), octets)

    def test_a_book_that_keeps_one_removal(self):
        session = Session(Office(keep=1))
        session.feed(create("desk"))
        for title, exchanges in test_worked_rows.KEEP_ONE:
            for octets, due in exchanges:
                with self.subTest(title):
                    self.assertEqual(test_worked_rows.reply(*due), session.feed(octets), octets)


if __name__ == "__main__":
    unittest.main()
