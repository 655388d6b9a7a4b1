"""Files of the first schema, which `contacts migrate` migrates to the current one, or refuses.

The files are made by sqlite3. What they hold afterwards follows from their rows, by docs/MODEL.md
(`well_formed`): every row as it was, the new number of the schema, and each book's keep.
"""

import unittest

from http_requests import card, put, remove, sync, tally
from model.http import json_text, message
from office_files import (
    QuickFolder, contents, copy, fault, is_damaged, log_of, make, renew, serve, up_to,
)
from program import Ended, Server, run
from table_damage import first_damage
from tables import DECLARED, Tables, first_store, setUpModule, small_store  # noqa: F401
from well_formed import due_keeps, open_fault

KEEP = 10_000

# Staff's nine changes: three cards were created, a was edited, b removed, c removed, b created
# again, and d created and removed.
NINE = [
    ("meta", [("schema", 1)]),
    ("book", [(1, "staff", 9, 0, 5, 1, 0, 0, 0, 3, 0)]),
    ("member", [(1, "a", 4, card("a", "Anna")), (1, "b", 7, card("b", "Bob")), (1, "c", 6, None),
                (1, "d", 9, None)]),
    ("import_key", []),
]
# What is sent to a device that knows the first seven.
D_REMOVED = b'{"members":[{"status":404,"uid":"d"}],' \
    b'"token":"http://contacts.invalid/sync/1/9/9","truncated":false}'


def migrated(count):
    return Ended(0, b"migrated %d\n" % count, b"")


def reply(body):
    return message(200, body, close=False)


class MigrationTest(unittest.TestCase):
    def setUp(self):
        folder = QuickFolder()
        self.folder = folder.__enter__()
        self.addCleanup(folder.__exit__)
        self.file = self.folder / "first.db"
        self.looks = 0

    def lay(self, filled, page=4096, journal="DELETE"):
        with Tables(self.file) as tables:
            tables.run(f"PRAGMA page_size = {page}; PRAGMA journal_mode = {journal}")
            tables.lay(filled)

    def contents(self, file=None):
        self.looks += 1
        return contents(file or self.file, self.folder / f"look {self.looks}")

    def assert_migrated(self, before):
        """All rows are as they were, but for the schema's number and the keeps."""
        after = self.contents()
        self.assertEqual(DECLARED, after.declared)
        self.assertEqual([[(b"schema", 2)], *before.rows[1:4]], after.rows[:4])
        self.assertEqual([row[0] for row in before.rows[1]], [row[0] for row in after.rows[4]])


class Migration(MigrationTest):
    """Files of the first schema."""

    def test_nine_changes(self):
        for page, journal in [(4096, "DELETE"), (512, "DELETE"), (65_536, "DELETE"), (4096, "WAL")]:
            with self.subTest(page=page, journal=journal):
                self.file = self.folder / f"{page} {journal}.db"
                self.lay(NINE, page, journal)
                before = self.contents()
                self.assertEqual(fault(3), run("tally", self.file, "staff"))
                self.assertEqual(migrated(1), run("migrate", self.file))
                self.assert_migrated(before)
                self.assertEqual([(1, KEEP)], self.contents().rows[4])
                self.assertEqual(fault(3), run("migrate", self.file))
                self.assertEqual(0, run("tally", self.file, "staff").status)

    def test_tokens(self):
        """A device goes on with the token that it has."""
        self.lay(NINE)
        run("migrate", self.file)
        self.assertEqual(101, len(D_REMOVED))
        ann = {"card": card("a", "Anna"), "status": 200, "uid": "a", "version": 4}
        initial = {"members": [ann], "token": "http://contacts.invalid/sync/1/4/9",
                   "truncated": True}
        cases = [(sync("staff", "1/7/7"), D_REMOVED), (sync("staff", limit=1), json_text(initial))]
        self.assertEqual(b"".join(reply(body) for _, body in cases),
                         serve(self.file, *(asked for asked, _ in cases)))

    def test_later_changes(self):
        """The books go on from where they were."""
        self.lay(first_store())
        self.assertEqual(migrated(3), run("migrate", self.file))
        rows = self.folder / "rows.csv"
        rows.write_text("no rows")
        self.assertEqual(Ended(0, b"new 1 edited 1 same 0 number 7\n", b""),
                         run("import", self.file, "staff", "k1", rows))
        replies = serve(self.file, put("staff", "zoe", "Zoe"), remove("staff", "ann"))
        self.assertIn(b'{"put":"created","version":9}', replies)
        self.assertIn(b'{"number":10}', replies)
        self.assertEqual(Ended(0, b"book 4\n", b""), run("book", self.file, "more"))
        self.assertEqual([(book, KEEP) for book in (1, 2, 3, 4)], self.contents().rows[4])

    def test_file_whose_log_has_everything(self):
        first = self.folder / "open.db"
        with Tables(first) as tables:
            tables.run("PRAGMA journal_mode = WAL")
            tables.lay(NINE)
            self.file = copy(first, self.folder / "copy")
        before = self.contents()
        self.assertGreater(log_of(self.file).stat().st_size, 0)
        self.assertEqual(migrated(1), run("migrate", self.file))
        self.assert_migrated(before)

    def test_counts_of_books(self):
        for count in [0, 1, 100]:
            with self.subTest(count=count):
                self.file = self.folder / f"{count}.db"
                books = [(book, f"book-{book}", *[0] * 9) for book in range(1, count + 1)]
                self.lay([("meta", [("schema", 1)]), ("book", books), ("member", []),
                          ("import_key", [])])
                self.assertEqual(migrated(count), run("migrate", self.file))
                self.assertEqual([(book, KEEP) for book, *_ in books], self.contents().rows[4])

    def test_many_removals(self):
        """A book that remembers more than 10,000 removals goes on remembering them all."""
        counts = [3, KEEP, KEEP + 50]
        self.lay(removals(counts))
        self.assertEqual(migrated(3), run("migrate", self.file))
        self.assertEqual([(1, KEEP), (2, KEEP), (3, KEEP + 50)], self.contents().rows[4])
        # Of the third book's changes the first count + 1 created cards, and the others are
        # removals. One more drops the first of these.
        number, first = 2 * counts[2] + 1, counts[2] + 2
        replies = serve(self.file, sync("book-3", "3/0/0", limit=1), tally("book-3"),
                        remove("book-3", "last"), tally("book-3"),
                        sync("book-3", f"3/0/{first - 1}", limit=1),
                        sync("book-3", f"3/{first}/{first}", limit=1))
        bodies = [it.rpartition(b"\r\n\r\n")[2] for it in replies.split(b"HTTP/1.1 ")[1:]]
        self.assertIn(b'"truncated":true', bodies[0])
        self.assertIn(b'"horizon":0,', bodies[1])
        self.assertIn(b'"remembered":%d}' % counts[2], bodies[1])
        self.assertEqual(b'{"number":%d}' % (number + 1), bodies[2])
        self.assertIn(b'"horizon":%d,' % first, bodies[3])
        self.assertIn(b'"remembered":%d}' % counts[2], bodies[3])
        self.assertEqual(b'{"cause":4,"fault":"valid-sync-token","number":10}', bodies[4])
        self.assertIn(b'[{"status":404,"uid":"u1"}]', bodies[5])


def removals(counts):
    """Books that each remember as many removed cards, u0 and so on, and have the card `last`."""
    books, members = [], []
    for book, count in enumerate(counts, 1):
        books.append((book, f"book-{book}", 2 * count + 1, 0, count + 1, 0, 0, 0, 0, count, 0))
        members.append((book, "last", count + 1, card("last", "Last")))
        members += [(book, f"u{it}", count + 2 + it, None) for it in range(count)]
    return [("meta", [("schema", 1)]), ("book", books), ("member", members), ("import_key", [])]


class Refusals(MigrationTest):
    """Files that can't be migrated: each is left as it was."""

    def assert_refused(self, number, file=None):
        file = file or self.file
        before = file.read_bytes() if file.is_file() else None
        self.assertEqual(fault(number), run("migrate", file))
        self.assertEqual(before, file.read_bytes() if file.is_file() else None)

    def test_present_schema(self):
        make(self.file, "staff")
        log = log_of(self.file).read_bytes()
        self.assert_refused(3)
        self.assertEqual(log, log_of(self.file).read_bytes())
        # The same if sqlite3 wrote the file.
        other = self.folder / "other.db"
        with Tables(other) as tables:
            tables.lay(small_store())
        self.assert_refused(3, other)

    def test_other_files(self):
        """A schema to come, a file of someone else, a letter, an empty file, a folder, no file."""
        with Tables(self.file) as tables:
            tables.lay(first_store()).run("UPDATE meta SET val = 7")
        self.assert_refused(3)
        other = self.folder / "other.db"
        with Tables(other) as tables:
            tables.run("CREATE TABLE book (title TEXT, author TEXT)")
        self.assert_refused(2, other)
        letter = self.folder / "letter.txt"
        letter.write_text("Dear Ann, this letter is no database of books.")
        self.assert_refused(2, letter)
        empty = self.folder / "empty.db"
        empty.write_bytes(b"")
        self.assertEqual(fault(2), run("migrate", empty))
        self.assert_refused(1, self.folder)
        self.assert_refused(1, self.folder / "none.db")
        self.assertFalse((self.folder / "none.db").exists())

    def test_served_file(self):
        make(self.file)
        with Server(self.file):
            self.assert_refused(1)

    def test_each_damage(self):
        """A file with damaged rows is refused, and else migrated, by what its rows say."""
        self.lay(first_store())
        octets, done = self.file.read_bytes(), 0
        for label, statements in first_damage():
            with self.subTest(label), Tables(renew(self.file, octets)) as tables:
                if is_damaged(tables, statements):
                    done += 1
                    self.check(tables)
        self.assertGreater(done, 200)

    def test_missing_books(self):
        """A file with a row of a book that isn't there is damaged, or not of the first schema."""
        self.lay(first_store())
        octets, done = self.file.read_bytes(), 0
        for label, statements in first_damage():
            with self.subTest(label), Tables(renew(self.file, octets), False) as tables:
                if is_damaged(tables, statements) and tables.rows("PRAGMA foreign_key_check"):
                    done += 1
                    self.check(tables)
        self.assertGreater(done, 5)

    def check(self, tables):
        number, rows = open_fault(tables, schema=1), tables.all_rows()
        keeps = None if number else due_keeps(tables)
        tables.close()
        if number:
            self.assert_refused(number)
            return
        self.assertEqual(migrated(len(keeps)), run("migrate", self.file))
        with Tables(self.file) as tables:
            self.assertEqual(DECLARED, tables.declared())
            self.assertEqual([[(b"schema", 2)], *rows[1:4], keeps], tables.all_rows())


class FullDisks(MigrationTest):
    """A migration that is stopped at a write: the file is of the first schema, or of the second."""

    def test_each_write(self):
        self.lay(first_store())
        before = self.contents()
        done = copy(self.file, self.folder / "done")
        self.assertEqual(migrated(3), run("migrate", done))
        after, last = self.contents(done), log_of(done).stat().st_size
        for room in range(0, last + 1, last // 16):
            for is_killed in [False, True]:
                with self.subTest(room=room, is_killed=is_killed):
                    file = copy(self.file, self.folder / f"{room} {is_killed}")
                    ended = run("migrate", file, preexec_fn=up_to(room, is_killed))
                    held = self.contents(file)
                    if not is_killed:
                        self.assertEqual(fault(1) if held == before else migrated(3), ended)
                    if held == before:
                        self.assertEqual(migrated(3), run("migrate", file))
                    self.assertEqual(after, self.contents(file))


if __name__ == "__main__":
    unittest.main()
