"""`contacts books`, `contacts verify` and `contacts --version`.

The lines are worked out by hand from the changes that were made. The words after `--version` are
those of CHANGELOG.md and README.md, and the schema of a file that the program made.
"""

import re
import sqlite3
import unittest

import order_rows as rows
from order_texts import books_text
from order_trials import FIVE_CHANGES, MORE_CHANGES, NEEDS_STRICT, OrderTest
from page_sums import changing
from program import ROOT, Ended, Folder, run
from tables import Tables

STAFF = {"name": "staff", "id": 1, "cards": 2, "number": 9, "horizon": 0, "keep": 10_000}
CLIENTS = {"name": "clients", "id": 2, "cards": 2, "number": 2, "horizon": 0, "keep": 10_000}


class Books(OrderTest):
    def assert_lists(self, lines):
        """`books` prints these lines, and `verify` besides how many there are, each time."""
        listed = books_text(lines)
        counted = listed + b"verified %d\n" % len(lines)
        for _ in range(2):
            self.assertEqual(Ended(0, listed, b""), run("books", "a.db", cwd=self.folder))
            self.assertEqual(Ended(0, counted, b""), run("verify", "a.db", cwd=self.folder))

    def test_no_book(self):
        self.run_rows([rows.done("init a.db", "made\n")])
        self.assert_lists([])

    def test_books_in_order_of_name(self):
        self.make_books(books=["staff", "clients", "a-1"])
        empty = {"cards": 0, "number": 0, "horizon": 0, "keep": 10_000}
        self.assert_lists([{"name": "a-1", "id": 3, **empty}, {"name": "clients", "id": 2, **empty},
                           {"name": "staff", "id": 1, **empty}])

    @NEEDS_STRICT
    def test_a_book_that_keeps_less(self):
        self.make_books(books=["staff", "clients"])
        with Tables(self.folder / "a.db") as tables:
            tables.run("UPDATE keeping SET keep = 3 WHERE book = 2")
        empty = {"cards": 0, "number": 0, "horizon": 0}
        self.assert_lists([{"name": "clients", "id": 2, **empty, "keep": 3},
                           {"name": "staff", "id": 1, **empty, "keep": 10_000}])

    def test_books_with_changes(self):
        """Staff: a and b move or stay, c and d go. The move and the put leave two in clients."""
        self.make_books(books=["staff", "clients"])
        self.change("a.db", FIVE_CHANGES + MORE_CHANGES)
        self.assert_lists([CLIENTS, {**STAFF, "cards": 1, "number": 10}])

    def test_a_forgotten_book(self):
        self.make_books()
        self.change("a.db", FIVE_CHANGES)
        self.run_rows([rows.done("forget a.db staff 5", "dropped 1 horizon 5\n")])
        self.assert_lists([{**STAFF, "number": 5, "horizon": 5}])

    def test_refused_files(self):
        self.write({"text.db": "no database at all"})
        for name, number in ("none.db", 1), ("text.db", 2):
            for order in "books", "verify":
                with self.subTest(f"{order} {name}"):
                    ended = run(order, name, cwd=self.folder)
                    self.assertEqual((3, b""), (ended.status, ended.out))
                    self.assertRegex(ended.err, rb"\A%s: .*\nfault open %d\n\Z"
                                     % (re.escape(name.encode()), number))

    @NEEDS_STRICT
    def test_a_damaged_file(self):
        self.make_books()
        self.change("a.db", FIVE_CHANGES)
        with changing(self.folder / "a.db") as connection:
            connection.execute("UPDATE book SET number = number + 1")
        words = b"a.db: it is damaged; restore a backup; contacts verify a.db names the row\n"
        for arguments, said in (["books", "a.db"], words), (["tally", "a.db", "staff"], b""):
            with self.subTest(arguments):
                self.assertEqual(Ended(3, b"", said + b"fault open 4\n"),
                                 run(*arguments, cwd=self.folder))


class Version(unittest.TestCase):
    @NEEDS_STRICT
    def test_version(self):
        changes = (ROOT / "CHANGELOG.md").read_text()
        newest = re.search(r"^## (\S+)", changes, re.MULTILINE).group(1).lower()
        kit = re.search(r"^Toolchain: `(.*)`\.$", (ROOT / "README.md").read_text(), re.MULTILINE)
        with Folder() as folder:
            self.assertEqual(0, run("init", "a.db", cwd=folder).status)
            connection = sqlite3.connect(folder / "a.db")
            (schema,) = connection.execute("SELECT val FROM meta").fetchone()
            connection.close()
        text = f"contacts {newest}\nschema {schema}\nkit {kit.group(1)}\n".encode()
        for row in ["--version"], ["-V"], ["--version", "tally", "a.db", "staff"]:
            with self.subTest(row):
                self.assertEqual(Ended(0, text, b""), run(*row))


if __name__ == "__main__":
    unittest.main()
