"""Files whose rows were changed by hand: each is refused, or served just as its rows say.

The program makes a file of the small store in `tables`. For each damage in `table_damage` a copy is
changed by SQL, and the program opens it. Whether it is refused is computed by `well_formed` from
docs/MODEL.md, and what is served otherwise by `stored_books`, both over the rows of the copy.
"""

import unittest

import stored_books
from http_requests import COLUMNS, card, create, forget, import_rows, move, put, remove, request
from office_files import QuickFolder, fault, is_damaged, renew, serve
from program import Server, run
from table_damage import store_damage
from tables import NOTE, Tables, in_memory, setUpModule, small_store  # noqa: F401
from well_formed import NOT_EMPTY, open_fault

# The changes by which the small store came to be, each of which is done.
CHANGES = [
    create("staff"), create("clients"), create("friends"),
    put("clients", "eve", "Eve"),
    put("staff", "ann", "Ann"), put("staff", "bob", "Bob"), put("staff", "cy", "Cy"),
    request("PUT", "/books/staff/cards/ann", card("ann", "Ann", f"NOTE:{NOTE}")),
    remove("staff", "bob"),
    import_rows("staff", "k1", COLUMNS + "dee,Dee,,,,,,\ncy,Cy Lee,,,,,,\n"),
    move("cy", "staff", "clients"),
    put("clients", "fay", "Fay"),
    remove("clients", "eve"), forget("clients", 4),
    put("clients", "gus", "Gus"), remove("clients", "gus"),
    import_rows("friends", "k2", COLUMNS + "hal,Hal,,,,,,\nida,Ida,,,,,,\n"),
]


class Damage(unittest.TestCase):
    @classmethod
    def setUpClass(cls):
        folder = QuickFolder()
        path = folder.__enter__()
        cls.addClassCleanup(folder.__exit__)
        whole = path / "whole.db"
        run("init", whole)
        cls.replies = serve(whole, *CHANGES)
        with Tables(whole) as tables:
            # Fewer than a new book has, so that damage to three rows can be too much.
            tables.run("UPDATE keeping SET keep = 3")
        cls.octets, cls.file = whole.read_bytes(), path / "copy.db"

    def copy(self, foreign_keys=True):
        """The tables of a new copy."""
        return Tables(renew(self.file, self.octets), foreign_keys)

    def test_rows_of_small_store(self):
        self.assertEqual(len(CHANGES), self.replies.count(b"HTTP/1.1 20"))
        wanted = in_memory(small_store())
        with self.copy() as tables:
            self.assertEqual(wanted.declared(), tables.declared())
            self.assertEqual(wanted.all_rows(), tables.all_rows())

    def test_each_damage(self):
        done = 0
        for label, statements in store_damage():
            with self.subTest(label), self.copy() as tables:
                if is_damaged(tables, statements):
                    done += 1
                    self.check(tables)
        self.assertGreater(done, 200)

    def test_missing_books(self):
        """Rows of books that aren't there: sqlite3 tests that only if it is asked to."""
        done = 0
        for label, statements in store_damage():
            with self.subTest(label), self.copy(foreign_keys=False) as tables:
                if is_damaged(tables, statements) and tables.rows("PRAGMA foreign_key_check"):
                    done += 1
                    self.check(tables)
                    self.check_not_made()
        self.assertGreater(done, 10)

    def check(self, tables):
        """Tests that the file is refused, or what is served of it, as its rows require."""
        number = open_fault(tables)
        wanted = None if number else (stored_books.requests(tables), stored_books.replies(tables))
        tables.close()
        if number:
            self.check_refused(fault(number))
        else:
            self.check_served(*wanted)

    def check_refused(self, refusal):
        before = self.file.read_bytes()
        self.assertEqual(refusal, run("tally", self.file, "staff"))
        self.assertEqual(before, self.file.read_bytes())

    def check_not_made(self):
        """No store is made where there are tables."""
        before = self.file.read_bytes()
        self.assertEqual(fault(NOT_EMPTY), run("init", self.file))
        self.assertEqual(before, self.file.read_bytes())

    def check_served(self, requests, replies):
        with Server(self.file, connections=1) as server:
            self.assertIn(b"listening", server.line)
            self.assertEqual(replies, server.ask(requests))
            self.assertEqual(0, server.end().status)


if __name__ == "__main__":
    unittest.main()
