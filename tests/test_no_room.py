"""No room: in a book or for books, for a book's numbers, on the disk, and in memory.

The expected replies were written by hand from docs/API.md: 10,000 cards of a book, 100 books, and
1,000,000,000,000 changes, and what is refused then. If the disk or the memory is short, a request
is refused and changes nothing, and all works again once there is room.
"""

import resource
import sqlite3
import unittest
from pathlib import Path

from http_requests import (
    COLUMNS, card, create, export, get, import_rows, move, put, remove, sync, tally,
)
from model.books import Office
from office_files import up_to
from page_sums import changing
from program import Server
from replies import WalkTest, card_text, fault, page, removed_member, reply, stored_member

OK, CREATED, STORAGE = "200 OK", "201 Created", "507 Insufficient Storage"
UNAVAILABLE = "503 Service Unavailable"
BOOK_FULL, SPENT = fault("book-full", 12), fault("changes-spent", 13)
STORE_FAULT, NO_MEMORY = fault("store-fault", 19), fault("no-memory", 20)
CHANGES_MAX = 1_000_000_000_000

EMPTY = '{"cards":0,"created":0,"deleted":0,"edited":0,"horizon":0,"import_edited":0,"imported":0,'
EMPTY += '"moved_in":0,"moved_out":0,"number":0,"remembered":0}'
TEN_THOUSAND = COLUMNS + "".join(f"n{number},Name {number},,,,,,\n" for number in range(10_000))

FULL_BOOK = [
    ("a book", create("staff"), CREATED, '{"id":1}'),
    (
        "one card too many at once",
        import_rows("staff", "k", TEN_THOUSAND + "a,Ann,,,,,,\n"),
        STORAGE,
        BOOK_FULL,
    ),
    ("nothing came of it", tally("staff"), OK, EMPTY),
    (
        "10,000 cards",
        import_rows("staff", "k", TEN_THOUSAND),
        OK,
        '{"edited":0,"new":10000,"number":10000,"same":0}',
    ),
    ("another book", create("clients"), CREATED, '{"id":2}'),
    ("with a card", put("clients", "a", "Ann"), CREATED, '{"put":"created","version":1}'),
    ("one card more", put("staff", "a", "Ann"), STORAGE, BOOK_FULL),
    ("one that moves in", move("a", "clients", "staff"), STORAGE, BOOK_FULL),
    (
        "one more beside edits",
        import_rows("staff", "k2", COLUMNS + "n1,Anna,,,,,,\na,Ann,,,,,,\n"),
        STORAGE,
        BOOK_FULL,
    ),
    (
        "the version is looked at before",
        put("staff", "a", "Ann", "?version=1"),
        "412 Precondition Failed",
        fault("version-mismatch", 7, has=0),
    ),
    ("an edit", put("staff", "n0", "Ann"), OK, '{"put":"edited","version":10001}'),
    ("the same card", put("staff", "n0", "Ann"), OK, '{"put":"unchanged","version":10001}'),
    (
        "edits by an import",
        import_rows("staff", "k2", COLUMNS + "n0,Ann,,,,,,\nn1,Anna,,,,,,\n"),
        OK,
        '{"edited":1,"new":0,"number":10002,"same":1}',
    ),
    ("one moves away", move("n1", "staff", "clients"), OK, '{"from":10003,"version":2}'),
    ("one comes", move("a", "clients", "staff"), OK, '{"from":3,"version":10004}'),
    ("no more", put("staff", "b", "Bob"), STORAGE, BOOK_FULL),
    ("one goes", remove("staff", "n2"), OK, '{"number":10005}'),
    ("another comes", put("staff", "b", "Bob"), CREATED, '{"put":"created","version":10006}'),
    (
        "the book in numbers",
        tally("staff"),
        OK,
        '{"cards":10000,"created":1,"deleted":1,"edited":1,"horizon":0,"import_edited":1,'
        '"imported":10000,"moved_in":1,"moved_out":1,"number":10006,"remembered":2}',
    ),
]

NO_MORE_BOOKS = [
    ("one book more", create("b101"), STORAGE, fault("too-many-books", 18)),
    ("one that is there", create("b100"), "409 Conflict", fault("book-exists", 2)),
    ("a name that is none", create("B"), "400 Bad Request", fault("bad-book-name", 3)),
]

# Staff has spent its numbers, and clients hasn't.
SPENT_CHANGES = [
    ("a new card", put("staff", "c", "Cy"), STORAGE, SPENT),
    ("an edit", put("staff", "a", "Anna"), STORAGE, SPENT),
    ("a removal", remove("staff", "a"), STORAGE, SPENT),
    ("a move away", move("a", "staff", "clients"), STORAGE, SPENT),
    ("a move to it", move("x", "clients", "staff"), STORAGE, SPENT),
    ("a row to add", import_rows("staff", "k", COLUMNS + "c,Cy,,,,,,\n"), STORAGE, SPENT),
    ("a row to edit", import_rows("staff", "k", COLUMNS + "a,Anna,,,,,,\n"), STORAGE, SPENT),
    ("the same card", put("staff", "a", "Ann"), OK, '{"put":"unchanged","version":1}'),
    (
        "the version is looked at before",
        put("staff", "a", "Anna", "?version=2"),
        "412 Precondition Failed",
        fault("version-mismatch", 7, has=1),
    ),
    ("the other book", put("clients", "y", "Yul"), CREATED, '{"put":"created","version":2}'),
]
SPENT_NUMBERS = [
    (
        "the same rows",
        import_rows("staff", "k", COLUMNS + "a,Ann,,,,,,\n"),
        OK,
        '{"edited":0,"new":0,"number":1000000000000,"same":1}',
    ),
    (
        "what changed last",
        sync("staff", "1/2/2"),
        OK,
        page("1/1000000000000/1000000000000", removed_member("b")),
    ),
    (
        "the book in numbers",
        tally("staff"),
        OK,
        '{"cards":1,"created":2,"deleted":1,"edited":999999999997,"horizon":0,"import_edited":0,'
        '"imported":0,"moved_in":0,"moved_out":0,"number":1000000000000,"remembered":1}',
    ),
]

# An import of 38 cards of some 200,000 octets each.
NOTES = ["NOTE:" + "n" * 70] * 2_600
BIG_ROWS = "".join(f'b{it},"{card(f"b{it}", "Big", *NOTES)}"\n' for it in range(38))
IMPORT_BIG = import_rows("staff", "k", "uid,vcard\n" + BIG_ROWS)
BIG_IMPORTED = '{"edited":0,"new":38,"number":39,"same":0}'
ANN = '{"card":"' + card_text("a", "Ann") + '","uid":"a","version":1}'
ANN_ALONE = [
    ("Ann", get("staff", "a"), OK, ANN),
    ("the book", sync("staff"), OK, page("1/1/1", stored_member("a", "Ann", 1))),
]


class NoRoomTest(WalkTest):
    """A test that serves its file again, and has rows for the program alone."""

    def serve_again(self, **options):
        """Serves the file by another process."""
        self.server.kill()
        self.server = Server(self.file, **options)
        self.addCleanup(self.server.kill)

    def ask(self, rows):
        """Walks over rows by the program alone."""
        with self.server.connect() as connection:
            for title, octets, status, body in rows:
                connection.send(octets)
                replied = connection.reply()
                with self.subTest(title):
                    self.same(reply(status, body), replied, f"after {octets[:500]!r}")


class FullBooksTest(NoRoomTest):
    def test_full_book(self):
        self.walk(FULL_BOOK)

    def test_full_office(self):
        names = range(1, 101)
        self.walk([(f"b{it}", create(f"b{it}"), CREATED, f'{{"id":{it}}}') for it in names])
        self.walk(NO_MORE_BOOKS)

    @unittest.skipIf(sqlite3.sqlite_version_info < (3, 37), "SQLite below 3.37 can't read the file")
    def test_spent_changes(self):
        """The file's count of edits is raised. The model has few changes, and a limit to match."""
        self.office = Office(changes_max=3)
        self.walk([
            ("staff", create("staff"), CREATED, '{"id":1}'),
            ("clients", create("clients"), CREATED, '{"id":2}'),
            ("a", put("staff", "a", "Ann"), CREATED, '{"put":"created","version":1}'),
            ("b", put("staff", "b", "Bob"), CREATED, '{"put":"created","version":2}'),
            ("b goes", remove("staff", "b"), OK, '{"number":3}'),
            ("x", put("clients", "x", "Xen"), CREATED, '{"put":"created","version":1}'),
        ])
        self.server.kill()
        with changing(self.file) as database:
            spend = "UPDATE book SET number = ?, edited = ? WHERE name = 'staff'"
            database.execute(spend, (CHANGES_MAX, CHANGES_MAX - 3))
        self.serve_again()
        self.walk(SPENT_CHANGES)
        self.ask(SPENT_NUMBERS)


class FaultsTest(NoRoomTest):
    """A disk or a memory that is short, by a limit on the served process. The model has no part."""

    def setUp(self):
        super().setUp()
        self.ask([
            ("staff", create("staff"), CREATED, '{"id":1}'),
            ("a", put("staff", "a", "Ann"), CREATED, '{"put":"created","version":1}'),
        ])

    def limit(self, kind, most=resource.RLIM_INFINITY):
        """Sets a limit of the process."""
        pid = self.server.process.pid
        _, greatest = resource.prlimit(pid, kind)
        resource.prlimit(pid, kind, (most, greatest))

    def limit_memory(self):
        """The process may not grow by more than a megabyte."""
        pages = int(Path(f"/proc/{self.server.process.pid}/statm").read_text().split()[0])
        self.limit(resource.RLIMIT_AS, pages * resource.getpagesize() + (1 << 20))

    def test_store_fault(self):
        """No file grows: what reads goes on, and what writes is refused until a file may grow."""
        self.serve_again(preexec_fn=up_to(1 << 40))
        self.limit(resource.RLIMIT_FSIZE, Path(f"{self.file}-wal").stat().st_size)
        refused = [("without room", IMPORT_BIG, UNAVAILABLE, STORE_FAULT)]
        self.ask(refused)
        self.ask(ANN_ALONE)
        self.ask(refused)
        self.limit(resource.RLIMIT_FSIZE)
        self.ask([("with room", IMPORT_BIG, OK, BIG_IMPORTED)])
        self.serve_again()
        self.ask([("it is kept", sync("staff", "1/39/39"), OK, page("1/39/39"))])

    def test_no_memory_for_a_reply(self):
        """What is too much to reply is refused, and the rest is replied to."""
        self.ask([("many cards", IMPORT_BIG, OK, BIG_IMPORTED)])
        self.serve_again()
        # Once it replies, it has allocated what it needs for all connections.
        self.ask(ANN_ALONE[:1])
        self.limit_memory()
        self.ask([
            ("a page", sync("staff"), UNAVAILABLE, NO_MEMORY),
            ("rows", export("staff"), UNAVAILABLE, NO_MEMORY),
        ])
        self.ask(ANN_ALONE[:1])
        self.limit(resource.RLIMIT_AS)
        self.assertEqual(200, status_of(self.server.ask(sync("staff"))))
        self.assertEqual(200, status_of(self.server.ask(export("staff"))))

    def test_no_memory_for_a_request(self):
        """What is too much to read is refused, or its connection ends. The books are as before."""
        self.limit_memory()
        replied = self.server.ask(IMPORT_BIG)
        self.assertIn(replied, [b"", reply(UNAVAILABLE, NO_MEMORY)])
        self.ask(ANN_ALONE)
        self.limit(resource.RLIMIT_AS)
        self.ask([("with room", IMPORT_BIG, OK, BIG_IMPORTED)])


def status_of(replied):
    return int(replied[len("HTTP/1.1 "):][:3])


if __name__ == "__main__":
    unittest.main()
