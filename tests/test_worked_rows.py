"""One history of two books, and a second of a book that remembers one removal, all by hand.

Every reply is written out here, from docs/API.md and RFC 6578's rules; neither the model nor the
program had a part in it. A row is a title and its exchanges: a request, a status and a body. The
rows of a history follow one another on one server.
"""

import sqlite3
import unittest

from http_requests import (
    COLUMNS, SYNC, books, create, export, forget, get, import_rows, move, put, remove, sync, tally,
)
from page_sums import changing
from program import Folder, Server, run

PHRASES = {
    200: "OK", 201: "Created", 400: "Bad Request", 403: "Forbidden", 404: "Not Found",
    409: "Conflict", 412: "Precondition Failed", 507: "Insufficient Storage",
}
CAN_WRITE = sqlite3.sqlite_version_info >= (3, 37)  # older ones don't know strict tables


def reply(status, body):
    head = [
        "HTTP/1.1 %d %s" % (status, PHRASES[status]),
        "Content-Type: " + ("application/json" if body.startswith("{") else "text/csv"),
        "Content-Length: %d" % len(body),
        "Connection: keep-alive",
    ]
    return "\r\n".join([*head, "", body]).encode()


def put_reply(what, version):
    return 201 if what == "created" else 200, '{"put":"%s","version":%d}' % (what, version)


def removal(number):
    return 200, '{"number":%d}' % number


def refusal(status, number, text, more=""):
    """A refusal; `more` are its parts whose keys come before those that each has."""
    return status, '{%s"fault":"%s","number":%d}' % (more, text, number)


def version_refusal(has):
    return 412, '{"fault":"version-mismatch","has":%d,"number":7}' % has


def token_refusal(cause):
    return refusal(403, 10, "valid-sync-token", '"cause":%d,' % cause)


def text(uid, name):
    """The text of a plain card, as JSON has it."""
    return "BEGIN:VCARD\\r\\nVERSION:4.0\\r\\nUID:%s\\r\\nFN:%s\\r\\nEND:VCARD\\r\\n" % (uid, name)


def card_there(uid, name, version):
    return '{"card":"%s","status":200,"uid":"%s","version":%d}' % (text(uid, name), uid, version)


def card_gone(uid):
    return '{"status":404,"uid":"%s"}' % uid


def page(token, *members, more=False):
    parts = ",".join(members), SYNC + token, "true" if more else "false"
    return 200, '{"members":[%s],"token":"%s","truncated":%s}' % parts


def tally_reply(**counts):
    """A tally, whose other counts are 0."""
    names = [
        "cards", "created", "deleted", "edited", "horizon", "import_edited", "imported",
        "moved_in", "moved_out", "number", "remembered",
    ]
    return 200, "{%s}" % ",".join('"%s":%d' % (it, counts.get(it, 0)) for it in names)


PAT = "p,Pat Lee,Lee,Pat,pat@example.test,,,\n"
PAT_TEXT = (
    "BEGIN:VCARD\\r\\nVERSION:4.0\\r\\nUID:p\\r\\nFN:Pat Lee\\r\\nN:Lee;Pat;;;\\r\\n"
    "EMAIL:pat@example.test\\r\\nEND:VCARD\\r\\n"
)
IMPORTED = 200, '{"edited":0,"new":3,"number":5,"same":0}'

EMPTY = ("an empty book", [
    (create("staff"), (201, '{"id":1}')),
    (sync("staff"), page("1/0/0")),
])
CHANGES = ("five changes", [
    (put("staff", "a", "Ann"), put_reply("created", 1)),
    (put("staff", "b", "Bob"), put_reply("created", 2)),
    (put("staff", "c", "Cy"), put_reply("created", 3)),
    (put("staff", "a", "Anna"), put_reply("edited", 4)),
    (remove("staff", "b"), removal(5)),
    (tally("staff"), tally_reply(cards=2, created=3, edited=1, deleted=1, number=5, remembered=1)),
])
READS = ("what five changes come to, and to whom", [
    (books(), (200, '{"books":[{"horizon":0,"id":1,"name":"staff","number":5}]}')),
    (get("staff", "a"), (200, '{"card":"%s","uid":"a","version":4}' % text("a", "Anna"))),
    (sync("staff"), page("1/5/5", card_there("c", "Cy", 3), card_there("a", "Anna", 4))),
    (sync("staff", "1/2/2"), page(
        "1/5/5", card_there("c", "Cy", 3), card_there("a", "Anna", 4), card_gone("b"),
    )),
    (sync("staff", "1/4/4"), page("1/5/5", card_gone("b"))),
    (sync("staff", "1/5/6"), token_refusal(3)),
    (put("staff", "a", "Anna"), put_reply("unchanged", 4)),
    (put("staff", "b", "Bob", "?version=5"), version_refusal(0)),
    (remove("staff", "b"), refusal(404, 4, "no-such-card")),
])
FIRST_PAGE = ("a first page of one has no removed member", [
    (sync("staff", limit=1), page("1/3/5", card_there("c", "Cy", 3), more=True)),
])
SECOND_PAGE = ("a page with just as many as are due isn't truncated", [
    (sync("staff", "1/3/5", 1), page("1/5/5", card_there("a", "Anna", 4))),
])
FORGETTING = ("forgetting refuses the tokens that need what is forgotten", [
    (forget("staff", 5), (200, '{"dropped":1,"horizon":5}')),
    (sync("staff", "1/3/5", 1), page("1/5/5", card_there("a", "Anna", 4))),
    (sync("staff", "1/4/4"), token_refusal(4)),
    (forget("staff", 4), refusal(409, 16, "bad-forget")),
    (forget("staff", 5), (200, '{"dropped":0,"horizon":5}')),
    (forget("staff", 6), refusal(409, 16, "bad-forget")),
    (tally("staff"), tally_reply(cards=2, created=3, edited=1, deleted=1, number=5, horizon=5)),
])
WRITES_BETWEEN = ("others write between two pages", [
    (remove("staff", "c"), removal(6)),
    (put("staff", "b", "Bob"), put_reply("created", 7)),
    (sync("staff", "1/3/5", 1), page("1/4/5", card_there("a", "Anna", 4), more=True)),
])
LAST_PAGES = ("a member that was made again is changed, not removed", [
    (sync("staff", "1/4/5", 2), page("1/7/7", card_gone("c"), card_there("b", "Bob", 7))),
    (sync("staff", "1/4/5", 1), page("1/6/6", card_gone("c"), more=True)),
    (sync("staff", "1/6/6", 1), page("1/7/7", card_there("b", "Bob", 7))),
])
IN_AND_OUT = ("a member that came and went between two pages is removed", [
    (put("staff", "d", "Dee"), put_reply("created", 8)),
    (remove("staff", "d"), removal(9)),
    (sync("staff", "1/7/7"), page("1/9/9", card_gone("d"))),
])
MOVE = ("a move is a removal here and a card there", [
    (create("clients"), (201, '{"id":2}')),
    (move("a", "staff", "clients"), (200, '{"from":10,"version":1}')),
    (tally("staff"), tally_reply(
        cards=1, created=5, deleted=3, edited=1, moved_out=1, number=10, remembered=3,
    )),
    (tally("clients"), tally_reply(cards=1, moved_in=1, number=1)),
])
NO_MOVES = ("moves that are refused change nothing", [
    (move("a", "staff", "clients"), refusal(404, 4, "no-such-card")),
    (put("clients", "b", "Bob"), put_reply("created", 2)),
    (move("b", "staff", "clients"), refusal(409, 8, "uid-taken")),
    (move("b", "staff", "staff"), refusal(409, 9, "same-book")),
    (tally("staff"), tally_reply(
        cards=1, created=5, deleted=3, edited=1, moved_out=1, number=10, remembered=3,
    )),
    (tally("clients"), tally_reply(cards=2, created=1, moved_in=1, number=2)),
    (sync("clients"), page("2/2/2", card_there("a", "Anna", 1), card_there("b", "Bob", 2))),
    (sync("staff", "1/9/9"), page("1/10/10", card_gone("a"))),
])
VERSIONS = ("an equal text uses no number, a wrong version is refused", [
    (put("staff", "b", "Bob"), put_reply("unchanged", 7)),
    (sync("staff", "1/10/10"), page("1/10/10")),
    (put("staff", "b", "Rob", "?version=6"), version_refusal(7)),
    (put("staff", "a", "Ann", "?version=5"), version_refusal(0)),
])
TOKENS = ("limits and tokens", [
    (sync("staff", limit=0), refusal(507, 11, "number-of-matches-within-limits")),
    (sync("staff", "2/1/1"), token_refusal(2)),
    (sync("staff", "1/99/99"), token_refusal(3)),
    (sync("staff", "1/07/7"), token_refusal(1)),
    (sync("staff", "1/5/4"), token_refusal(1)),
    (sync("staff", "1/3/5"), page(
        "1/10/10", card_gone("c"), card_there("b", "Bob", 7), card_gone("d"), card_gone("a"),
    )),
])
IMPORTS = ("an import is whole or nothing, and acts once under its key", [
    (
        import_rows("clients", "k1", COLUMNS + PAT + "q,Quin,,,,,,\nr,,,,,,,\n"),
        (400, '{"cause":4,"fault":"bad-import","number":14,"row":3}'),
    ),
    (tally("clients"), tally_reply(cards=2, created=1, moved_in=1, number=2)),
    (import_rows("clients", "k1", COLUMNS + PAT + "q,Quin,,,,,,\nr,Rae,,,,,,\n"), IMPORTED),
    (import_rows("clients", "k1", COLUMNS + "s,Sy,,,,,,\n"), IMPORTED),
    (import_rows("clients", "k1", ""), IMPORTED),
    (tally("clients"), tally_reply(cards=5, created=1, imported=3, moved_in=1, number=5)),
    (get("clients", "p"), (200, '{"card":"%s","uid":"p","version":3}' % PAT_TEXT)),
    (export("clients", "columns"), (200, COLUMNS + "a,Anna,,,,,,\nb,Bob,,,,,,\n" + PAT
                                    + "q,Quin,,,,,,\nr,Rae,,,,,,\n")),
])
MORE_IMPORTS = ("a second import adds, edits and leaves", [
    (
        import_rows("clients", "k2", COLUMNS + PAT + "q,Quinn,,,,,,\ns,Sy,,,,,,\n"),
        (200, '{"edited":1,"new":1,"number":7,"same":1}'),
    ),
    (tally("clients"), tally_reply(
        cards=6, created=1, import_edited=1, imported=4, moved_in=1, number=7,
    )),
])

HISTORY = [
    EMPTY, CHANGES, READS, FIRST_PAGE, SECOND_PAGE, WRITES_BETWEEN, LAST_PAGES, IN_AND_OUT,
    MOVE, NO_MOVES, VERSIONS, TOKENS, IMPORTS, MORE_IMPORTS,
]
WITH_FORGETTING = [EMPTY, CHANGES, FIRST_PAGE, FORGETTING]

# A book that remembers one removed member and no more.
THREE_CARDS = ("three cards, and a device that has the first", [
    (put("desk", "a", "Ann"), put_reply("created", 1)),
    (put("desk", "b", "Bob"), put_reply("created", 2)),
    (put("desk", "c", "Cy"), put_reply("created", 3)),
    (sync("desk", limit=1), page("1/1/3", card_there("a", "Ann", 1), more=True)),
])
ONE_REMOVAL = ("the first removal is remembered", [
    (remove("desk", "a"), removal(4)),
    (tally("desk"), tally_reply(cards=2, created=3, deleted=1, number=4, remembered=1)),
])
SECOND_REMOVAL = ("the second one drops the first, and the tokens from before it", [
    (remove("desk", "b"), removal(5)),
    (tally("desk"), tally_reply(cards=1, created=3, deleted=2, horizon=4, number=5, remembered=1)),
    (sync("desk", "1/1/3"), token_refusal(4)),
    (sync("desk", "1/3/3"), token_refusal(4)),
    (sync("desk", "1/4/4"), page("1/5/5", card_gone("b"))),
])
THIRD_REMOVAL = ("and so on", [
    (remove("desk", "c"), removal(6)),
    (tally("desk"), tally_reply(created=3, deleted=3, horizon=5, number=6, remembered=1)),
    (sync("desk"), page("1/6/6")),
])
KEEP_ONE = [THREE_CARDS, ONE_REMOVAL, SECOND_REMOVAL, THIRD_REMOVAL]


class WorkedRows(unittest.TestCase):
    maxDiff = None

    def go(self, file, rows):
        with Server(file) as server, server.connect() as connection:
            for title, exchanges in rows:
                with self.subTest(title):
                    for request, due in exchanges:
                        connection.send(request)
                        self.assertEqual(connection.reply(), reply(*due), request)

    def test_two_books(self):
        with Folder() as folder:
            run("init", folder / "office.db")
            self.go(folder / "office.db", HISTORY)

    def test_forgetting(self):
        with Folder() as folder:
            run("init", folder / "office.db")
            self.go(folder / "office.db", WITH_FORGETTING)

    @unittest.skipUnless(CAN_WRITE, "this Python's SQLite doesn't know strict tables")
    def test_a_book_that_keeps_one_removal(self):
        with Folder() as folder:
            file = folder / "office.db"
            run("init", file)
            run("book", file, "desk")
            # A new book keeps 10,000: more removals than a test of seconds can make.
            with changing(file) as connection:
                connection.execute("UPDATE keeping SET keep = 1")
            self.go(file, KEEP_ONE)


if __name__ == "__main__":
    unittest.main()
