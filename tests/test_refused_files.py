"""Files that the program refuses to open, each with its fault and left as it was.

docs/OPERATING.md says which files are stores, and which fault is reported for each other file.
"""

import os
import random
import shutil
import unittest
from contextlib import contextmanager

from http_requests import books, put
from office_files import QuickFolder, fault, log_of, make, serve
from program import PROGRAM, Ended, Folder, Server, run
from tables import DECLARED, Tables, first_store, setUpModule, small_store  # noqa: F401

# The faults of opening, by their numbers.
UNUSABLE, NOT_OURS, OTHER_SCHEMA, DAMAGED, NOT_EMPTY = 1, 2, 3, 4, 5
MADE = Ended(0, b"made\n", b"")
NOBODY = 65_534
PAGE = 4096

# The arguments of each order that opens a file of books; the file comes after the first of them.
# A file is opened before its rows are looked for.
ORDERS = [
    ["book", "more"],
    ["serve"],
    ["import", "staff", "k", "no rows.csv"],
    ["export", "staff"],
    ["tally", "staff"],
    ["forget", "staff", "1"],
    ["mirror", "staff"],
    ["expand", "staff", "a"],
]

NO_DATABASES = [
    ("a letter", b"Dear Ann, this letter is no database of books."),
    ("random octets", random.Random(9).getrandbits(8 * 50_000).to_bytes(50_000, "big")),
    ("octets of zero", bytes(3 * PAGE)),
]

# Databases with tables of others: their statements.
OTHER_TABLES = [
    ("a table of another name", "CREATE TABLE note (id INTEGER PRIMARY KEY, title TEXT)"),
    ("a table of books", "CREATE TABLE book (title TEXT, author TEXT); "
     "INSERT INTO book VALUES ('Emma', 'Austen')"),
    ("tables that aren't strict", "; ".join(it.replace(" STRICT", "") for it in DECLARED)
     + "; INSERT INTO meta VALUES ('schema', 2)"),
    ("another column of books", "; ".join(it.replace("moved_out", "more") for it in DECLARED)
     + "; INSERT INTO meta VALUES ('schema', 2)"),
]

# A row of a book that isn't there, in each table whose rows name a book.
NO_BOOK = 9
ORPHANS = [
    f"INSERT INTO member VALUES ({NO_BOOK}, 'zoe', 1, NULL)",
    f"INSERT INTO import_key VALUES ({NO_BOOK}, 'k1', 0, 0, 0, 0)",
    f"INSERT INTO keeping VALUES ({NO_BOOK}, 4)",
]
# The number of the schema, the tables, and with which faults they are opened and migrated where
# such a row is in them.
ORPHANED = [
    (2, small_store(), DAMAGED, OTHER_SCHEMA),
    (1, small_store(), OTHER_SCHEMA, NOT_OURS),
    (7, small_store(), OTHER_SCHEMA, OTHER_SCHEMA),
    (1, first_store(), OTHER_SCHEMA, DAMAGED),
    (2, first_store(), NOT_OURS, OTHER_SCHEMA),
    (7, first_store(), OTHER_SCHEMA, OTHER_SCHEMA),
]
# Databases of others, or that have lost their number, with such a row: their statements.
OTHER_ORPHANS = [
    ("tables of someone else", "CREATE TABLE shelf (id INTEGER PRIMARY KEY); "
     "CREATE TABLE title (shelf INTEGER NOT NULL REFERENCES shelf(id)); "
     "INSERT INTO title VALUES (9)"),
    ("no number of the schema", "; ".join([*DECLARED, ORPHANS[0]])),
    ("two numbers of the schema", "; ".join([*DECLARED, ORPHANS[1]])
     + "; INSERT INTO meta VALUES ('schema', 2), ('more', 2)"),
    ("a table too many", "; ".join([*DECLARED, ORPHANS[2]])
     + "; INSERT INTO meta VALUES ('schema', 2); CREATE TABLE more (n INTEGER NOT NULL) STRICT"),
]


class RefusedFile(unittest.TestCase):
    folder_type = QuickFolder

    def setUp(self):
        folder = self.folder_type()
        self.folder = folder.__enter__()
        self.addCleanup(folder.__exit__)
        self.file = self.folder / "office.db"

    def assert_refused(self, number, file=None):
        """Each order is refused with this number, and leaves the file as it was."""
        file = file or self.file
        with self.unchanged(file):
            self.assert_faults(number, file)

    def assert_not_made(self, number, file=None):
        """No store is made there, for the reason with this number; the file is left as it was."""
        file = file or self.file
        with self.unchanged(file):
            self.assertEqual(fault(number), run("init", file))

    def assert_not_migrated(self, number, file):
        """The file can't be migrated, for the reason with this number; it is left as it was."""
        with self.unchanged(file):
            self.assertEqual(fault(number), run("migrate", file))

    def assert_faults(self, number, file):
        for order, *more in ORDERS:
            with self.subTest(order):
                self.assertEqual(fault(number), run(order, file, *more, cwd=self.folder))

    @contextmanager
    def unchanged(self, file):
        before = file.read_bytes() if file.is_file() else None
        yield
        self.assertEqual(before, file.read_bytes() if file.is_file() else None)


class OtherFiles(RefusedFile):
    """Files of other programs."""

    def test_no_databases(self):
        for number, (label, octets) in enumerate(NO_DATABASES):
            with self.subTest(label):
                file = self.folder / f"{number}.db"
                file.write_bytes(octets)
                self.assert_refused(NOT_OURS, file)
                self.assert_not_made(NOT_OURS, file)

    def test_empty_file(self):
        for order, *more in ORDERS:
            with self.subTest(order):
                file = self.folder / f"{order}.db"
                file.write_bytes(b"")
                self.assertEqual(fault(NOT_OURS), run(order, file, *more))
                # It is as it was, and has no log.
                self.assertEqual(b"", file.read_bytes())
                self.assertEqual([file], list(self.folder.glob(f"{order}.db*")))
                self.assertEqual(MADE, run("init", file))
        self.file.write_bytes(b"")
        self.assertEqual(MADE, run("init", self.file))

    def test_empty_file_with_a_log(self):
        """It may have been written to, but has no tables."""
        self.file.write_bytes(b"")
        log_of(self.file).write_bytes(b"")
        self.assertEqual(fault(NOT_OURS), run("tally", self.file, "staff"))
        self.assertEqual(MADE, run("init", self.file))

    def test_databases_of_others(self):
        for number, (label, statements) in enumerate(OTHER_TABLES):
            with self.subTest(label):
                file = self.folder / f"{number}.db"
                with Tables(file) as tables:
                    tables.run(statements)
                self.assert_refused(NOT_OURS, file)
                self.assert_not_made(NOT_EMPTY, file)

    def test_database_without_tables(self):
        with Tables(self.file) as tables:
            tables.run("CREATE TABLE note (title TEXT); DROP TABLE note")
        self.assert_refused(NOT_OURS)
        self.assertEqual(MADE, run("init", self.file))

    def test_other_schemas(self):
        for schema, filled in [(1, first_store()), (7, small_store()), (7, first_store())]:
            with self.subTest(schema=schema, tables=len(filled)):
                file = self.folder / f"{schema} {len(filled)}.db"
                with Tables(file) as tables:
                    tables.lay(filled).run(f"UPDATE meta SET val = {schema}")
                self.assert_refused(OTHER_SCHEMA, file)
                self.assert_not_made(NOT_EMPTY, file)

    def test_rows_of_no_book(self):
        for schema, filled, opened, migrated in ORPHANED:
            for orphan in ORPHANS[:len(filled) - 2]:
                with self.subTest(orphan, schema=schema, tables=len(filled)):
                    file = self.folder / f"{schema} {len(filled)} {orphan.split()[2]}.db"
                    with Tables(file, foreign_keys=False) as tables:
                        tables.lay(filled).run(f"UPDATE meta SET val = {schema}; {orphan}")
                    self.assert_refused(opened, file)
                    self.assert_not_migrated(migrated, file)
                    self.assert_not_made(NOT_EMPTY, file)

    def test_rows_of_no_book_in_files_of_others(self):
        for number, (label, statements) in enumerate(OTHER_ORPHANS):
            with self.subTest(label):
                file = self.folder / f"{number}.db"
                with Tables(file, foreign_keys=False) as tables:
                    tables.run(statements)
                self.assert_refused(NOT_OURS, file)
                self.assert_not_migrated(NOT_OURS, file)
                self.assert_not_made(NOT_EMPTY, file)

    def test_store(self):
        make(self.file, "staff")
        log = log_of(self.file).read_bytes()
        self.assert_not_made(NOT_EMPTY)
        self.assertEqual(log, log_of(self.file).read_bytes())


class UnusableFiles(RefusedFile):
    """Paths without a file, and files that others have open, or that were damaged as files."""

    def test_no_file(self):
        self.assert_refused(UNUSABLE)
        self.assertEqual([], list(self.folder.iterdir()))

    def test_no_folder(self):
        self.assert_refused(UNUSABLE, self.folder / "none" / "office.db")
        self.assert_not_made(UNUSABLE, self.folder / "none" / "office.db")

    def test_folder(self):
        self.assert_refused(UNUSABLE, self.folder)
        self.assert_not_made(UNUSABLE, self.folder)

    def test_served_file(self):
        make(self.file, "staff")
        with Server(self.file) as server:
            self.assert_refused(UNUSABLE)
            self.assert_not_made(UNUSABLE)
            self.assertIn(b'"name":"staff"', server.ask(books()))
        self.assertEqual(0, run("tally", self.file, "staff").status)

    def test_file_in_use(self):
        make(self.file, "staff")
        with Tables(self.file) as tables:
            tables.run("PRAGMA journal_mode = DELETE; BEGIN EXCLUSIVE")
            # Were the file read here, and closed, this process would let go of its lock.
            self.assert_faults(UNUSABLE, self.file)
            self.assertEqual(fault(UNUSABLE), run("init", self.file))
        self.assertEqual(0, run("tally", self.file, "staff").status)

    def test_two_names(self):
        make(self.file, "staff")
        other = self.folder / "other.db"
        os.link(self.file, other)
        for file in self.file, other:
            self.assert_refused(UNUSABLE, file)
            self.assert_not_made(UNUSABLE, file)
        other.unlink()
        self.assertEqual(0, run("tally", self.file, "staff").status)

    def test_damaged_pages(self):
        make(self.file, "staff")
        serve(self.file, *(put("staff", f"u{number}", "x" * 300) for number in range(100)))
        with Tables(self.file) as tables:
            self.assertEqual(100, tables.rows("SELECT number FROM book")[0][0])
        octets, other = self.file.read_bytes(), b"\xff" * PAGE
        count = len(octets) // PAGE
        self.assertGreater(count, 12)
        for label, damaged in [
                ("all pages but the first overwritten", octets[:PAGE] + other * (count - 1)),
                ("one page overwritten", octets[:5 * PAGE] + other + octets[6 * PAGE:]),
                ("half of the pages cut off", octets[:count // 2 * PAGE]),
                ("half of a page cut off", octets[:-PAGE // 2])]:
            with self.subTest(label):
                self.file.write_bytes(damaged)
                self.assert_refused(UNUSABLE)


class Rights(RefusedFile):
    """What a user may not read or write. If root runs the tests, user nobody runs the program."""

    # A folder in memory may be one from which no program can be run.
    folder_type = Folder

    def setUp(self):
        super().setUp()
        # Nobody may reach the folder, and the program in it.
        self.program = self.folder / "contacts"
        shutil.copy(PROGRAM, self.program)
        self.folder.chmod(0o755)
        self.office = self.folder / "office"
        self.office.mkdir()
        self.file = self.office / "office.db"
        self.addCleanup(self.allow)
        self.allow()
        try:
            self.assertEqual(MADE, self.run_as_user("init", self.file))
        except PermissionError:
            self.skipTest(f"another user than root can't reach {self.folder}")
        with Tables(self.file):
            pass
        self.allow()

    def allow(self):
        """All rights to the folder and its files."""
        self.give(self.office, 0o700)
        for file in self.office.iterdir():
            self.give(file, 0o600)

    @staticmethod
    def give(path, mode):
        if os.geteuid() == 0:
            os.chown(path, NOBODY, NOBODY)
        path.chmod(mode)

    def run_as_user(self, *arguments):
        return run(*arguments, executable=str(self.program), preexec_fn=self.become_user)

    @staticmethod
    def become_user():
        if os.geteuid() == 0:
            os.setgroups([])
            os.setgid(NOBODY)
            os.setuid(NOBODY)

    def test_all_rights(self):
        self.assertEqual(Ended(0, b"book 1\n", b""), self.run_as_user("book", self.file, "staff"))

    def test_rights_to_the_file(self):
        for mode in [0o000, 0o200, 0o400]:
            with self.subTest(oct(mode)):
                self.file.chmod(mode)
                self.assertEqual(fault(UNUSABLE), self.run_as_user("book", self.file, "staff"))

    def test_rights_to_the_log(self):
        self.assertEqual(Ended(0, b"book 1\n", b""), self.run_as_user("book", self.file, "staff"))
        log_of(self.file).chmod(0o400)
        self.assertEqual(fault(UNUSABLE), self.run_as_user("tally", self.file, "staff"))

    def test_rights_to_the_folder(self):
        """Neither its log nor a new file can be made."""
        for log in self.office.glob("*-wal"):
            log.unlink()
        self.office.chmod(0o500)
        for order in [["book", self.file, "staff"], ["init", self.office / "new.db"]]:
            self.assertEqual(fault(UNUSABLE), self.run_as_user(*order))
        self.office.chmod(0o000)
        self.assertEqual(fault(UNUSABLE), self.run_as_user("book", self.file, "staff"))


if __name__ == "__main__":
    unittest.main()
