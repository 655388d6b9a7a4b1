"""What the tests of orders share: a folder, rows that are run there, changes, and files."""

import sqlite3
import unittest

import order_rows as rows
from http_requests import move, put, remove
from program import Ended, Folder, Server, run
from tables import Tables, card

NEEDS_STRICT = unittest.skipIf(
    sqlite3.sqlite_version_info < (3, 37),
    f"SQLite {sqlite3.sqlite_version} can't declare strict tables: 3.37 does")

FIVE_CHANGES = [put("staff", "a", "Ann"), put("staff", "b", "Bob"), put("staff", "c", "Cy"),
                put("staff", "a", "Anna"), remove("staff", "b")]
MORE_CHANGES = [remove("staff", "c"), put("staff", "b", "Bob"), put("staff", "d", "Dee"),
                remove("staff", "d"), move("a", "staff", "clients"), put("clients", "b", "Bob")]

# The book staff in tables of the first schema, and two books without a card.
NO_COUNTS = (0,) * 9
FIRST_STAFF = [
    ("meta", [("schema", 1)]),
    ("book", [(1, "staff", 9, 0, 5, 1, 0, 0, 0, 3, 0)]),
    ("member", [(1, "c", 6, None), (1, "d", 9, None), (1, "a", 4, card("a", "Anna")),
                (1, "b", 7, card("b", "Bob"))]),
    ("import_key", []),
]
TWO_BOOKS = [
    ("meta", [("schema", 1)]),
    ("book", [(1, "staff", *NO_COUNTS), (2, "clients", *NO_COUNTS)]),
    ("member", []),
    ("import_key", []),
]
LAST_NUMBER = 1_000_000_000_000
LAST_STAFF = [
    ("meta", [("schema", 2)]),
    ("book", [(1, "staff", LAST_NUMBER, 0, 1, LAST_NUMBER - 1, 0, 0, 0, 0, 0)]),
    ("member", [(1, "a", LAST_NUMBER, card("a", "Ann"))]),
    ("import_key", []),
    ("keeping", [(1, 10_000)]),
]


def numbered(first, count):
    """Rows of `count` cards: n00000 and so on."""
    names = range(first, first + count)
    return rows.COLUMNS + "".join(f"n{number:05},Name,,,,,,\n" for number in names)


def mirrored(pages, is_done, versions, token):
    """What `mirror` prints of cards that were numbered by one import."""
    lines = [f"pages {pages} done {'yes' if is_done else 'no'}\n"]
    lines += [f"{version:>13} n{version - 1:05}\n" for version in versions]
    return "".join([*lines, rows.TOKEN, token, "\n"])


class OrderTest(unittest.TestCase):
    """A test with a folder of its own, in which the program runs."""

    maxDiff = None

    def setUp(self):
        folder = Folder()
        self.folder = folder.__enter__()
        self.addCleanup(folder.__exit__)

    def run_rows(self, table):
        for row in table:
            with self.subTest(" ".join(row.arguments)):
                self.assertEqual(row.ended, run(*row.arguments, cwd=self.folder))

    def write(self, files):
        for name, text in files.items():
            (self.folder / name).write_bytes(text.encode())

    def change(self, file, requests):
        """Sends requests that change a book each, over one connection of a server that ends."""
        with Server(self.folder / file, connections=1) as server:
            replies = server.ask(b"".join(requests))
            port = server.address[1]
            self.assertEqual(Ended(0, b"listening 127.0.0.1:%d\n" % port, b""), server.end())
        self.assertEqual(len(requests), replies.count(b"HTTP/1.1 20"), replies)

    def make_books(self, file="a.db", books=("staff",)):
        self.run_rows([rows.done(f"init {file}", "made\n")])
        self.run_rows([rows.done(f"book {file} {book}", f"book {number}\n")
                       for number, book in enumerate(books, 1)])

    def lay(self, file, filled):
        with Tables(self.folder / file) as tables:
            tables.lay(filled)
