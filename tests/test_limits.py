"""Books at their limits: 100 books, 10,000 cards of a book, its last number, 100 members of a page.

A book is filled up to just below a limit, by an import or by a line of its file. Then rows lead up
to the limit and past it. The replies are those of the model.
"""

import sqlite3
import unittest

from dialogue import ServedTest
from exchanges import AT_MOST_ONE_CARD, AT_MOST_THREE_CHANGES, AT_MOST_TWO_CARDS
from http_requests import COLUMNS, books, create, export, import_rows, move, sync, tally
from page_sums import changing

BOOKS_MAX = 100
CARDS_MAX = 10_000
CHANGES_MAX = 1_000_000_000_000


def numbered_rows(count):
    return COLUMNS + "".join(f"n{number:05},Name {number},,,,,,\n" for number in range(count))


class LongList(list):
    """The events of a book that had more changes before, of which nothing is left."""

    before = 0

    def __len__(self):
        return self.before + super().__len__()


class Limits(ServedTest):
    def serve_row(self, row):
        for sent in row.connections:
            with self.subTest(sent.title):
                self.serve(sent.octets)

    def fill(self, book, count):
        self.serve(create(book), import_rows(book, "fill", numbered_rows(count)))

    def test_changes(self):
        if sqlite3.sqlite_version_info < (3, 37):
            self.skipTest(f"SQLite {sqlite3.sqlite_version} can't read the file's tables")
        self.serve(create("staff"))
        self.change_often("staff", CHANGES_MAX - 3)
        self.serve_row(AT_MOST_THREE_CHANGES)

    def change_often(self, book, count):
        """Gives the book a past in which a card, long removed and forgotten, was edited often."""
        self.server.kill()
        with changing(self.file) as database:
            changes = "UPDATE book SET number = ?, horizon = ?, edited = ? WHERE name = ?"
            database.execute(changes, [count, count, count, book])
        events = LongList()
        events.before = count
        self.office.books[book].events = events
        self.office.books[book].horizon = count
        self.office.books[book].reasons["edited"] = count
        self.start()

    def test_cards_and_books(self):
        self.fill("staff", CARDS_MAX - 2)
        # An import is refused as a whole if one of its cards is too many.
        self.serve(self.import_new(3), tally("staff"))
        self.serve(*[create(f"book-{number}") for number in range(1, BOOKS_MAX)])
        self.serve_row(AT_MOST_TWO_CARDS)
        self.serve(self.import_new(0), self.import_new(1), books(), tally("staff"))

    def import_new(self, new):
        """An import of five cards that are there and of some that aren't."""
        rows = numbered_rows(5) + "".join(f"m{it},Name,,,,,,\n" for it in range(new))
        return import_rows("staff", f"new-{new}", rows)

    def test_move_to_a_full_book(self):
        self.fill("clients", CARDS_MAX - 1)
        self.serve_row(AT_MOST_ONE_CARD)
        self.serve(move("a", "clients", "staff"), tally("clients"), tally("staff"))
        self.serve(export("clients"))

    def test_full_book_goes_out_and_comes_back(self):
        """The rows of a full book, in each form, make another book with the same cards."""
        rows = "".join(f'n{it:05},Name {it},"Lee, {it}",Pat,n{it}@example.test,,Office,'
                       '"so ""said"""\n' for it in reversed(range(CARDS_MAX)))
        self.serve(create("staff"), import_rows("staff", "all", COLUMNS + rows))
        for form in ("cards", "columns"):
            head, _, exported = self.serve(export("staff", form)).partition(b"\r\n\r\n")
            self.assertTrue(head.startswith(b"HTTP/1.1 200 "))
            self.serve(create(form), import_rows(form, "back", exported.decode()))
            self.serve(export(form), export(form, "columns"))

    def test_members_of_a_page(self):
        """A page has 100 members at most, whatever more is asked for."""
        self.fill("staff", 250)
        for limit in [None, 1, 99, 100, 101, 249, 250, 251, 10_000, 999_999_999_999_999]:
            with self.subTest(limit=limit):
                self.serve(sync("staff", None, limit), sync("staff", "1/100/250", limit))
                self.serve(sync("staff", "1/150/250", limit), sync("staff", "1/151/250", limit))


if __name__ == "__main__":
    unittest.main()
