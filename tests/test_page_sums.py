"""Sums at the ends of a file's pages: octets that changed since they were written are found.

The sums are computed by `page_sums` from SQLite's description of them. What is said of a file, and
what is found and what isn't, is what docs/OPERATING.md says.
"""

import shutil
import sqlite3
import subprocess
import unittest
from contextlib import closing

from http_requests import COLUMNS, get, import_rows, put, remove
from office_files import QuickFolder, fault, log_of, make, renew, run_order, serve
from page_sums import has_sums, page_size, pages_of, renew_sums, wrong_pages
from program import Ended, Server, run
from tables import Tables, setUpModule, small_store  # noqa: F401

DAMAGED = b"its pages are damaged, or sqlite3 wrote to it; restore a backup\nfault open 1\n"
NAMES = 300
ROWS = COLUMNS + "".join(f"u{it},Name {it},,,,,,{'a note ' * (it % 40)}\n" for it in range(NAMES))
BITS = 8


def flipped(octets, place, bit=0):
    """The octets with one bit changed."""
    changed = bytearray(octets)
    changed[place] ^= 1 << bit
    return bytes(changed)


class PageSumsTest(unittest.TestCase):
    @classmethod
    def setUpClass(cls):
        folder = QuickFolder()
        cls.folder = folder.__enter__()
        cls.addClassCleanup(folder.__exit__)
        cls.office = make(cls.folder / "office.db", "staff")
        serve(cls.office, import_rows("staff", "k", ROWS))
        cls.whole = cls.folder / "whole.db"
        assert run("copy", cls.office, cls.whole) == Ended(0, b"copied 1\n", b"")
        cls.octets = cls.whole.read_bytes()
        cls.cards = run("export", cls.whole, "staff").out
        cls.file = cls.folder / "file.db"

    def renewed(self, octets):
        return renew(self.file, octets)

    def cards_of(self, file):
        """The number of cards, as `tally` prints it."""
        lines = run("tally", file, "staff").out.splitlines()
        return dict(line.split() for line in lines)[b"cards"]

    def assert_refused(self, file):
        """It says that the pages are damaged, and leaves the file as it is."""
        before = file.read_bytes()
        said = f"{file}: ".encode() + DAMAGED
        self.assertEqual(Ended(3, b"", said), run("verify", file))
        self.assertEqual(Ended(3, b"", said), run("run", file, "--port", "0"))
        self.assertEqual(fault(1), run_order("tally", file, "staff"))
        self.assertEqual(before, file.read_bytes())


class Found(PageSumsTest):
    def test_a_changed_letter(self):
        """The card's text would be a card's all the same."""
        place = self.octets.index(b"FN:Name 150") + len("FN:")
        file = self.renewed(flipped(self.octets, place))
        self.assertIn(b"FN:Oame 150", file.read_bytes())
        self.assert_refused(file)

    def test_a_bit_of_each_page(self):
        """The bits of the header that say how the file is read may be refused in other words."""
        size = page_size(self.octets)
        pages = len(self.octets) // size
        self.assertGreater(pages, 20)
        for page in range(pages):
            for place in {page * 331 % size, size - 1 - page * 17 % size, size - 1}:
                with self.subTest(page=page, place=place):
                    changed = flipped(self.octets, page * size + place, page % BITS)
                    file = self.renewed(changed)
                    ended = run("verify", file)
                    self.assertEqual((3, b""), (ended.status, ended.out))
                    self.assertEqual(changed, file.read_bytes())

    def test_a_bit_of_each_octet_of_the_header(self):
        """And each bit of those that say how large pages are, and whether they have sums."""
        bits = [(place, place % BITS) for place in range(100)]
        bits += [(place, bit) for place in range(16, 24) for bit in range(BITS)]
        for place, bit in bits:
            with self.subTest(place=place, bit=bit):
                file = self.renewed(flipped(self.octets, place, bit))
                ended = run("export", file, "staff")
                self.assertEqual((3, b""), (ended.status, ended.out))

    def test_two_pages_that_changed_places(self):
        """Their sums are right, but the tables' trees aren't."""
        pages = pages_of(self.octets)
        pages[5], pages[9] = pages[9], pages[5]
        file = self.renewed(b"".join(pages))
        self.assertEqual([], wrong_pages(file.read_bytes()))
        self.assert_refused(file)

    def test_a_page_of_zeros(self):
        pages = pages_of(self.octets)
        pages[5] = bytes(len(pages[5]))
        file = self.renewed(b"".join(pages))
        self.assertEqual([], wrong_pages(file.read_bytes()))
        self.assert_refused(file)

    def test_the_file_of_a_server(self):
        """Its pages that the log doesn't hold have sums, too."""
        file = self.renewed(self.office.read_bytes())
        shutil.copy(log_of(self.office), log_of(file))
        with closing(sqlite3.connect(str(file))) as database:
            database.execute("PRAGMA wal_checkpoint")
        self.assertEqual([], wrong_pages(file.read_bytes()))
        changed = flipped(file.read_bytes(), file.read_bytes().index(b"FN:Name 77") + 3)
        self.assert_refused(self.renewed(changed))


class NotFound(PageSumsTest):
    def test_a_damaged_log(self):
        """The change whose pages were damaged in the log is gone, with all that came after it."""
        file = make(self.folder / "log.db", "staff")
        serve(file, put("staff", "a", "Ann"), put("staff", "b", "Bob"))
        log = log_of(file).read_bytes()
        log_of(file).write_bytes(flipped(log, log.rindex(b"FN:Bob") + 3))
        self.assertEqual(b"1", self.cards_of(file))

    def test_an_older_file(self):
        """Whole pages of an earlier moment have right sums, here all of them."""
        file = self.renewed(self.octets)
        serve(file, remove("staff", "u1"))
        with closing(sqlite3.connect(str(file))) as database:
            database.execute("PRAGMA wal_checkpoint")
        self.assertNotEqual(self.octets, file.read_bytes())
        self.assertEqual(self.cards, run("export", self.renewed(self.octets), "staff").out)


class Sqlite3(PageSumsTest):
    """What sqlite3 may do with such a file; it has no cksumvfs here."""

    def test_reading(self):
        """It reads the file, and writes the log into it, with sums that are right."""
        file = self.renewed(self.octets)
        serve(file, put("staff", "new", "Nell"))
        with closing(sqlite3.connect(str(file))) as database:
            self.assertEqual([("ok",)], database.execute("PRAGMA integrity_check").fetchall())
            self.assertEqual([(NAMES + 1,)],
                             database.execute("SELECT count(*) FROM member").fetchall())
        self.assertFalse(log_of(file).exists())
        self.assertEqual([], wrong_pages(file.read_bytes()))
        self.assertEqual(b"%d" % (NAMES + 1), self.cards_of(file))

    def write(self):
        """A file into which sqlite3 wrote what is no damage to its rows."""
        file = self.renewed(self.octets)
        with closing(sqlite3.connect(str(file))) as database, database:
            database.execute("UPDATE keeping SET keep = 20")
        self.assertNotEqual([], wrong_pages(file.read_bytes()))
        return file

    def test_writing(self):
        file = self.write()
        self.assert_refused(file)
        renew_sums(file)
        self.assertIn(b" keep 20\n", run("verify", file).out)

    @unittest.skipUnless(shutil.which("sqlite3"), "sqlite3 isn't installed")
    def test_the_way_out(self):
        file = self.write()
        rows, saved = self.folder / "rows.db", self.folder / "saved.db"
        dump = subprocess.run(["sqlite3", file, ".dump"], stdout=subprocess.PIPE, check=True)
        subprocess.run(["sqlite3", rows], input=dump.stdout, check=True)
        self.assertFalse(has_sums(rows.read_bytes()))
        self.assertEqual(Ended(0, b"copied 1\n", b""), run("copy", rows, saved))
        self.assertEqual([], wrong_pages(saved.read_bytes()))
        self.assertEqual(self.cards, run("export", saved, "staff").out)
        self.assertIn(b" keep 20\n", run("verify", saved).out)

    def test_restoring(self):
        """A backup takes the place of the file, which is kept."""
        file = self.write()
        ended = run("restore", self.whole, file)
        self.assertEqual(0, ended.status, ended)
        self.assertEqual(self.cards, run("export", file, "staff").out)


class Made(PageSumsTest):
    """Which files have sums."""

    def assert_sums(self, file):
        octets = file.read_bytes()
        self.assertTrue(has_sums(octets))
        self.assertEqual([], wrong_pages(octets))

    def test_new_files(self):
        for name, order in ("init.db", "init"), ("copied.db", "copy"), ("rest.db", "rest"):
            with self.subTest(order):
                file = self.folder / name
                if order == "init":
                    run("init", file)
                elif order == "copy":
                    run("copy", self.office, file)
                else:
                    run("book", self.office, "trial")
                    run("copy", self.office, file, "--without", "trial")
                self.assert_sums(file)
        file = self.folder / "made.db"
        with Server(file, more=["--create"]) as server:
            self.assertIn(b"listening", server.line)
        self.assert_sums(file)

    def test_a_file_without_sums(self):
        """It goes on without; a copy of it has them."""
        file, target = self.folder / "plain.db", self.folder / "given.db"
        with Tables(file) as tables:
            tables.lay(small_store())
        self.assertIn(b'"uid":"ann"', serve(file, put("staff", "zoe", "Zoe"), get("staff", "ann")))
        with closing(sqlite3.connect(str(file))) as database:
            database.execute("SELECT * FROM meta").fetchall()
        self.assertFalse(has_sums(file.read_bytes()))
        self.assertEqual(Ended(0, b"copied 3\n", b""), run("copy", file, target))
        self.assert_sums(target)
        self.assertEqual(run("tally", file, "staff"), run("tally", target, "staff"))

    def test_pages(self):
        """Each page of a copy is of 4,096 octets, of which 8 are its sum."""
        self.assertEqual({4096}, {len(page) for page in pages_of(self.octets)})


if __name__ == "__main__":
    unittest.main()
