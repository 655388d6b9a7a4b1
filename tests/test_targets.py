"""Targets: routes, methods, parts of a path, queries, and bodies that a request doesn't need.

The expected replies were written by hand from docs/API.md: which routes there are, with which
methods and names in their queries, that a part of a path is percent-decoded, and that a query is
decoded like a form.
To add a row, copy a line.
"""

import unittest

from http_requests import card, create, get, put, remove, request, sync, tally
from replies import WalkTest, card_text, fault, page, reply, stored_member

OK, CREATED, BAD = "200 OK", "201 Created", "400 Bad Request"
NOT_FOUND, BAD_NAME = "404 Not Found", fault("bad-book-name", 3)
NO_BOOK, NO_CARD = fault("no-such-book", 1), fault("no-such-card", 4)
NO_ROUTE, BAD_PATH, BAD_QUERY = fault("no-route", 27), fault("bad-path", 29), fault("bad-query", 30)
MISMATCH, HAS_2 = "412 Precondition Failed", fault("version-mismatch", 7, has=2)
PUT_CREATED, PUT_EDITED = '{"put":"created","version":1}', '{"put":"edited","version":2}'
ONE_BOOK = '{"books":[{"horizon":0,"id":1,"name":"staff","number":2}]}'
STAFF = ("staff", create("staff"), CREATED, '{"id":1}')

NO_ROUTES = [
    "/",
    "/nothing",
    "/books/",
    "/books//tally",
    "/books/staff/",
    "/books/staff/cards",
    "/books/staff/cards/",
    "/books/staff/cards//move",
    "/books/staff/cards//people",
    "/books/staff/cards/a/",
    "/books/staff/cards/a/b",
    "/books/staff/cards/a/move/b",
    "/books/staff/cards/a/b/people",
    "/books/staff/tally/",
    "/books/staff/tally/x",
    "/books/staff/Tally",
    "/books/staff/tallies?x",
    "/books#a",
    "/BOOKS",
    "/%62ooks",
    "//books",
    "/books%3F",
    "books",
    "*",
    "http://office/books",
    "/?/books",
    "/nothing/%FF?x",
]

# A path, the methods that it has, and some that it hasn't.
METHODS = [
    ("/books", "GET", ["PUT", "POST", "DELETE", "HEAD", "OPTIONS", "get", "GE"]),
    ("/books/staff", "PUT", ["GET", "POST", "DELETE", "put"]),
    ("/books/staff/tally", "GET", ["PUT", "POST", "DELETE"]),
    ("/books/staff/sync", "GET", ["PUT", "POST", "REPORT"]),
    ("/books/staff/import", "POST", ["GET", "PUT"]),
    ("/books/staff/export", "GET", ["POST", "PUT"]),
    ("/books/staff/forget", "POST", ["GET", "DELETE"]),
    ("/books/staff/cards/a", "GET, PUT, DELETE", ["POST", "PATCH", "MOVE"]),
    ("/books/staff/cards/a/move", "POST", ["GET", "PUT", "MOVE"]),
    ("/books/staff/cards/a/people", "GET", ["POST", "PUT"]),
    # A part of a path may be spelled like a part of a route.
    ("/books/tally", "PUT", ["GET"]),
    ("/books/people/cards/cards/people", "GET", ["POST"]),
    # Another method is refused before a part of the path or the query is read.
    ("/books/%FF", "PUT", ["POST"]),
    ("/books/%FF/tally?x=1", "GET", ["POST"]),
]

# The longest: 255 octets.
LONG_UID = "\u00e9" * 127 + "x"
# A UID, and ways in which a path may spell it.
UIDS = [
    ("a/b", ["a%2Fb", "a%2fb", "%61%2F%62"]),
    ("\u00e9", ["%C3%A9", "%c3%a9", "\u00e9"]),
    ("100%", ["100%25", "100%"]),
    ("%4", ["%254", "%4"]),
    ("%zz", ["%25zz", "%zz"]),
    ("a+b", ["a+b", "a%2Bb"]),
    ("a b", ["a%20b"]),
    ("a?b", ["a%3Fb"]),
    ("a#b", ["a#b", "a%23b"]),
    ("..", ["..", "%2E."]),
    ("urn:uuid:f81d4fae", ["urn:uuid:f81d4fae", "urn%3Auuid%3Af81d4fae"]),
    ("{uid}", ["{uid}"]),
    ("\U0001f4c7\u2028", ["%F0%9F%93%87%E2%80%A8"]),
    (LONG_UID, ["%C3%A9" * 127 + "x"]),
]

PARTS = [
    ("a name's letters", request("PUT", "/books/%73taff"), CREATED, '{"id":1}'),
    ("are the same name", tally("s%74aff"), OK, (
        '{"cards":0,"created":0,"deleted":0,"edited":0,"horizon":0,"import_edited":0,"imported":0,'
        '"moved_in":0,"moved_out":0,"number":0,"remembered":0}'
    )),
    ("a book that isn't UTF-8", tally("%FF"), BAD, BAD_PATH),
    ("a new book that isn't UTF-8", request("PUT", "/books/%FF"), BAD, BAD_PATH),
    ("a slash in a new book's name", request("PUT", "/books/a%2Fb"), BAD, BAD_NAME),
    ("UTF-8 that is cut", get("staff", "%C3"), BAD, BAD_PATH),
    ("a surrogate", get("staff", "%ED%A0%80"), BAD, BAD_PATH),
    ("a UID that isn't UTF-8", request("DELETE", "/books/staff/cards/%80"), BAD, BAD_PATH),
    ("29 before 30", request("GET", "/books/%FF/tally?x=1"), BAD, BAD_PATH),
    ("a NUL", get("staff", "%00"), NOT_FOUND, NO_CARD),
    ("a plus sign and a space", get("staff", "a+b%20c"), NOT_FOUND, NO_CARD),
    (
        "quotes, a backslash and a tab in a UID",
        request("PUT", "/books/staff/cards/%22%5C", card('"\\', "Ann")),
        CREATED,
        '{"put":"created","version":1}',
    ),
    (
        "are escaped in JSON",
        request("PUT", "/books/staff/cards/%22%5C", card('"\\', "\x09\u2028\x80")),
        OK,
        '{"put":"edited","version":2}',
    ),
    ("as far as they need be", get("staff", "%22%5C"), OK, (
        r'{"card":"BEGIN:VCARD\r\nVERSION:4.0\r\nUID:\"\\\r\nFN:\t' + "\u2028\x80"
        + r'\r\nEND:VCARD\r\n","uid":"\"\\","version":2}'
    )),
]

EMPTY_PAGE = page("1/0/0")
GOOD_QUERIES = [
    ("", EMPTY_PAGE),
    ("?", EMPTY_PAGE),
    ("?&&", EMPTY_PAGE),
    ("?limit=1&token=", EMPTY_PAGE),
    ("?&token&limit=1&", EMPTY_PAGE),
    ("?&&limit=2&", EMPTY_PAGE),
    ("?%6Cimit=%31", EMPTY_PAGE),
    ("?lim%69t=2", EMPTY_PAGE),
    ("?limit=0007", EMPTY_PAGE),
    ("?limit=000000000000001", EMPTY_PAGE),
    ("?limit=999999999999999", EMPTY_PAGE),
    ("?token=http://contacts.invalid/sync/1/0/0", EMPTY_PAGE),
    ("?token=http:%2f%2Fcontacts.invalid/s%79nc/1/0/0", EMPTY_PAGE),
]
# Of these the token isn't one, but the query is right.
NO_TOKENS = [
    "?token=a=b",
    "?limit=1&token=a+b%26c",
    "?token=?",
    "?token=%FF",
    "?token=http://contacts.invalid/sync/1/0/0+",
    "?token=%00",
]
BAD_QUERIES = [
    "?page=1",
    "?Limit=1",
    "?=1",
    "?limit=1&limit=2",
    "?limit=1&limit=1",
    "?limit=1&token=&limit=2",
    "?limit=1&%6Cimit=1",
    "?token=&token=",
    "?limit",
    "?limit=",
    "?limit=1e3",
    "?limit=+1",
    "?limit=-1",
    "?limit=1+",
    "?limit=0x1",
    "?limit=1.0",
    "?limit=%D9%A1",
    "?limit=1;token=",
    "?limit=1?",
    "?limit=0000000000000001",
    "?limit=1234567890123456",
    "?limit=1&x",
    "?+limit=1",
    "?%FF=1",
]
# Requests of other routes whose queries are wrong.
OTHER_BAD_QUERIES = [
    request("GET", "/books?x=1"),
    request("GET", "/books?limit=1"),
    request("PUT", "/books/b?name=c"),
    request("GET", "/books/staff/tally?limit=1"),
    request("POST", "/books/staff/import"),
    request("POST", "/books/staff/import?key=k&key=k", "uid,vcard\n"),
    request("POST", "/books/staff/import?key=a&key=b", "uid,vcard\n"),
    request("POST", "/books/staff/import?key=k&form=cards", "uid,vcard\n"),
    request("GET", "/books/staff/export?form=xml"),
    request("GET", "/books/staff/export?form="),
    request("GET", "/books/staff/export?form=rows"),
    request("GET", "/books/staff/export?form=Cards"),
    request("GET", "/books/staff/export?form=cards&form=columns"),
    request("POST", "/books/staff/forget"),
    request("POST", "/books/staff/forget?upto="),
    request("POST", "/books/staff/forget?upto=x"),
    request("POST", "/books/staff/forget?upto=1x"),
    request("GET", "/books/staff/cards/a?version=1"),
    request("PUT", "/books/staff/cards/a?version=", card("a", "Ann")),
    request("PUT", "/books/staff/cards/a?expect=1", card("a", "Ann")),
    request("DELETE", "/books/staff/cards/a?version=1&version=1"),
    request("DELETE", "/books/staff/cards/a?version"),
    request("DELETE", "/books/staff/cards/a?version="),
    request("DELETE", "/books/staff/cards/a?version=7a"),
    request("DELETE", "/books/staff/cards/a?version=%2B7"),
    request("DELETE", "/books/staff/cards/a?version=0000000000000007"),
    request("POST", "/books/staff/cards/a/move"),
    request("POST", "/books/staff/cards/a/move?version=1"),
    request("POST", "/books/staff/cards/a/move?to=b&version=x"),
    request("GET", "/books/staff/cards/a/people?depth=1"),
    # Also if there is no such book.
    request("GET", "/books/none/sync?limit=x"),
]

NUMBERS = [
    ("7", put("staff", "a", "Ann", "?version=007"), MISMATCH, fault("version-mismatch", 7, has=0)),
    ("7 of none", remove("staff", "a", "?version=000000000000007"), NOT_FOUND, NO_CARD),
    ("4", request("POST", "/books/staff/cards/a/move?version=4&to="), NOT_FOUND, NO_BOOK),
    ("0", put("staff", "a", "Ann", "?version=000000000000000"), CREATED, PUT_CREATED),
    ("1", put("staff", "a", "Anna", "?version=000000000000001"), OK, PUT_EDITED),
    ("too many", remove("staff", "a", "?version=999999999999999"), MISMATCH, HAS_2),
    ("2", remove("staff", "a", "?version=000000000000002"), OK, '{"number":3}'),
    ("3", request("POST", "/books/staff/forget?upto=03"), OK, '{"dropped":1,"horizon":3}'),
]

ANN_ALONE = page("1/1/1", stored_member("a", "Ann", 1))
# The body of each is a request that would make a book.
NEVER = create("never")
WITH_BODIES = [
    ("a book", request("PUT", "/books/staff", NEVER), CREATED, '{"id":1}'),
    ("a card", put("staff", "a", "Ann"), CREATED, PUT_CREATED),
    ("a page", request("GET", "/books/staff/sync", NEVER), OK, ANN_ALONE),
    ("a removal", request("DELETE", "/books/staff/cards/a", NEVER), OK, '{"number":2}'),
    ("no route", request("POST", "/", NEVER), "404 Not Found", NO_ROUTE),
    ("a bad query", request("GET", "/books?x", NEVER), BAD, BAD_QUERY),
    ("no octets", request("GET", "/books/staff/sync", b""), OK, page("1/2/2")),
    ("a megabyte", request("GET", "/books", b"x" * 1_000_000), OK, ONE_BOOK),
    ("the most", request("GET", "/books", b"\n" * 8_388_608), OK, ONE_BOOK),
]


class TargetsTest(WalkTest):
    def test_no_routes(self):
        rows = [(it, request("GET", it), "404 Not Found", NO_ROUTE) for it in NO_ROUTES]
        self.walk(rows)

    def test_methods(self):
        body = fault("bad-method", 28)
        for path, allow, methods in METHODS:
            for method in methods:
                self.end(
                    f"{method} {path}",
                    request(method, path, fields=["Connection: close"]),
                    reply("405 Method Not Allowed", body, close=True, allow=allow),
                )

    def test_parts(self):
        self.walk(PARTS)

    def test_uids(self):
        """A card is put and removed under each way to spell its UID."""
        rows, number = [STAFF], 0
        for uid, spellings in UIDS:
            for spelling in spellings:
                put_ann = request("PUT", f"/books/staff/cards/{spelling}", card(uid, "Ann"))
                created = f'{{"put":"created","version":{number + 1}}}'
                got = card_body(uid, number + 1)
                gone = f'{{"number":{number + 2}}}'
                rows += [
                    (f"{spelling}: put", put_ann, CREATED, created),
                    (f"{spelling}: got", get("staff", spellings[0]), OK, got),
                    (f"{spelling}: removed", remove("staff", spelling), OK, gone),
                ]
                number += 2
        self.walk(rows)

    def test_queries(self):
        target = "/books/staff/sync"
        no_token = fault("valid-sync-token", 10, cause=1)
        self.walk([
            STAFF,
            *((it, request("GET", target + it), OK, body) for it, body in GOOD_QUERIES),
            *((it, request("GET", target + it), "403 Forbidden", no_token) for it in NO_TOKENS),
            *((it, request("GET", target + it), BAD, BAD_QUERY) for it in BAD_QUERIES),
            *((str(it), it, BAD, BAD_QUERY) for it in OTHER_BAD_QUERIES),
            ("nothing came", sync("staff"), OK, EMPTY_PAGE),
        ])

    def test_numbers(self):
        self.walk([STAFF, *NUMBERS])

    def test_bodies_that_are_not_needed(self):
        """They are read and dropped, so that the next request is found after them."""
        self.walk(WITH_BODIES)


def card_body(uid, version):
    """The JSON of a card of Ann's. A long UID's line is folded after a character."""
    folded = uid
    if uid == LONG_UID:
        # 35 letters of two octets fit after the four of the name, and 37 after the space.
        letters = "\u00e9" * 35, "\u00e9" * 37, "\u00e9" * 37, "\u00e9" * 18 + "x"
        folded = r"\r\n ".join(letters)
    text = card_text(folded, "Ann")
    return f'{{"card":"{text}","uid":"{uid}","version":{version}}}'


if __name__ == "__main__":
    unittest.main()
