"""The file of an office as others see it: its rows read by sqlite3, copies, and full disks.

The rows were worked out by hand from the changes. What must happen to copies, and on a full disk,
is what docs/OPERATING.md says.
"""

import signal
import unittest

from http_requests import COLUMNS, card, move, put, remove, request, sync
from office_files import QuickFolder, contents, copy, fault, log_of, make, serve, up_to
from program import Ended, Folder, run
from tables import DECLARED, Tables, setUpModule  # noqa: F401

ANN, ANNA, BOB, CY, DEE = "Ann", "Anna", "Bob", "Cy", "Dee"
# A book after three new cards, an edit and a removal.
FIVE = [put("staff", "a", ANN), put("staff", "b", BOB), put("staff", "c", CY),
        put("staff", "a", ANNA), remove("staff", "b")]

TWO_ROWS = COLUMNS + "p,Pat Lee,Lee,Pat,pat@example.test,,,\nq,Quin,,,,,,\n"
STORE_FAULT = Ended(3, b"", b"fault store-fault 19\n")
FRAME = 24 + 4096  # octets of a page in the log, with its head


def text(uid, name, *lines):
    """The octets of a card's text."""
    return card(uid, name, *lines).encode()


class FileTest(unittest.TestCase):
    """A test with a folder of its own, whose name has a space."""

    folder_type = Folder

    def setUp(self):
        folder = self.folder_type()
        self.folder = folder.__enter__() / "an office"
        self.addCleanup(folder.__exit__)
        self.folder.mkdir()
        self.file = self.folder / "office.db"
        self.looks = 0

    def contents(self, file=None):
        self.looks += 1
        return contents(file or self.file, self.folder / f"look {self.looks}")

    def assert_done(self, count, replies):
        self.assertEqual(count, replies.count(b"HTTP/1.1 20"), replies)


class Rows(FileTest):
    """All rows of a file, to the value."""

    def test_new_file(self):
        self.assertEqual(Ended(0, b"made\n", b""), run("init", self.file))
        held = self.contents()
        self.assertEqual(DECLARED, held.declared)
        self.assertEqual([[(b"schema", 2)], [], [], [], []], held.rows)

    def test_five_changes(self):
        make(self.file, "staff")
        self.assert_done(5, serve(self.file, *FIVE))
        self.assertEqual([
            [(b"schema", 2)],
            [(1, b"staff", 5, 0, 3, 1, 0, 0, 0, 1, 0)],
            [(1, b"a", 4, text("a", ANNA)), (1, b"b", 5, None), (1, b"c", 3, text("c", CY))],
            [],
            [(1, 10_000)],
        ], self.contents().rows)

    def test_forgotten_removal(self):
        make(self.file, "staff")
        self.assert_done(5, serve(self.file, *FIVE))
        self.assertEqual(Ended(0, b"dropped 1 horizon 5\n", b""),
                         run("forget", self.file, "staff", 5))
        rows = self.contents().rows
        self.assertEqual([(1, b"staff", 5, 5, 3, 1, 0, 0, 0, 1, 0)], rows[1])
        self.assertEqual([(1, b"a", 4, text("a", ANNA)), (1, b"c", 3, text("c", CY))], rows[2])

    def test_two_books(self):
        """Puts, removals, moves and imports, some of them refused, by orders and by requests."""
        make(self.file, "staff")
        self.assert_done(5, serve(self.file, *FIVE))
        self.assert_done(4, serve(
            self.file, remove("staff", "c"), put("staff", "b", BOB), put("staff", "d", DEE),
            remove("staff", "d")))
        self.assertEqual(Ended(0, b"book 2\n", b""), run("book", self.file, "clients"))
        self.assert_done(3, serve(
            self.file, move("a", "staff", "clients"),
            move("a", "staff", "clients"),  # it isn't there any more
            put("clients", "b", BOB),
            move("b", "staff", "clients"),  # one is there already
            move("b", "staff", "staff"),  # the same book
            put("staff", "b", BOB),  # unchanged
            put("staff", "b", "Rob", "?version=6"),  # the version is 7
            sync("staff", limit=0), sync("staff", "2/1/1")))
        rows = self.folder / "rows.csv"
        rows.write_text(TWO_ROWS + "r,,,,,,,\n")
        bad = run("import", self.file, "clients", "k1", rows)
        self.assertEqual(Ended(1, b"", b"refused bad-import 14\n"), bad)
        rows.write_text(TWO_ROWS + "r,Rae,,,,,,\n")
        done = Ended(0, b"new 3 edited 0 same 0 number 5\n", b"")
        self.assertEqual(done, run("import", self.file, "clients", "k1", rows))
        rows.write_text("no rows")
        self.assertEqual(done, run("import", self.file, "clients", "k1", rows))

        pat = text("p", "Pat Lee", "N:Lee;Pat;;;", "EMAIL:pat@example.test")
        held = self.contents()
        self.assertEqual(DECLARED, held.declared)
        self.assertEqual([
            [(b"schema", 2)],
            [(1, b"staff", 10, 0, 5, 1, 0, 0, 0, 3, 1), (2, b"clients", 5, 0, 1, 0, 3, 0, 1, 0, 0)],
            [
                (1, b"a", 10, None), (1, b"b", 7, text("b", BOB)), (1, b"c", 6, None),
                (1, b"d", 9, None),
                (2, b"a", 1, text("a", ANNA)), (2, b"b", 2, text("b", BOB)),
                (2, b"p", 3, pat), (2, b"q", 4, text("q", "Quin")),
                (2, b"r", 5, text("r", "Rae")),
            ],
            [(2, b"k1", 3, 0, 0, 5)],
            [(1, 10_000), (2, 10_000)],
        ], held.rows)

    def test_further_import(self):
        """A card of an import is edited by the next one; the key of a header alone is kept too."""
        make(self.file, "clients")
        rows = self.folder / "rows.csv"
        for key, csv, line in [
                ("k1", TWO_ROWS, b"new 2 edited 0 same 0 number 2\n"),
                ("k.2", TWO_ROWS.replace("Quin", "Quinn") + "s,Sy,,,,,,\n",
                 b"new 1 edited 1 same 1 number 4\n"),
                ("K_3-", COLUMNS, b"new 0 edited 0 same 0 number 4\n")]:
            rows.write_text(csv)
            self.assertEqual(Ended(0, line, b""), run("import", self.file, "clients", key, rows))
        held = self.contents().rows
        self.assertEqual([(1, b"clients", 4, 0, 0, 0, 3, 1, 0, 0, 0)], held[1])
        self.assertEqual([(b"p", 1), (b"q", 3), (b"s", 4)], [row[1:3] for row in held[2]])
        self.assertEqual([(1, b"K_3-", 0, 0, 0, 4), (1, b"k.2", 1, 1, 1, 4),
                          (1, b"k1", 2, 0, 0, 2)], held[3])

    def test_canonical_text(self):
        """A card is kept in its canonical text, whatever it was put as, and its UID as it is."""
        make(self.file, "staff")
        typed = (b"\xef\xbb\xbfbegin:vcard\nversion:4.0\nuid:\xc3\xa9/1\nfn:Zo\n \xc3\xab\n"
                 b"note:" + b"x" * 80 + b"\nend:vcard")
        put_typed = request("PUT", "/books/staff/cards/%C3%A9%2F1", typed)
        self.assert_done(1, serve(self.file, put_typed))
        kept = (b"BEGIN:VCARD\r\nVERSION:4.0\r\nUID:\xc3\xa9/1\r\nFN:Zo\xc3\xab\r\n"
                b"NOTE:" + b"x" * 70 + b"\r\n " + b"x" * 10 + b"\r\nEND:VCARD\r\n")
        self.assertEqual([(1, b"\xc3\xa9/1", 1, kept)], self.contents().rows[2])


class Copies(FileTest):
    """Copies of a file, with its log and without, and what sqlite3 makes of it."""

    def setUp(self):
        super().setUp()
        make(self.file, "staff")
        self.assert_done(5, serve(self.file, *FIVE))
        self.tally = run("tally", self.file, "staff")
        self.assertEqual(0, self.tally.status)

    def test_both_files(self):
        there = copy(self.file, self.folder / "copy")
        self.assertEqual(self.tally, run("tally", there, "staff"))

    def test_new_file_without_its_log(self):
        there = copy(self.file, self.folder / "copy")
        log = log_of(there).read_bytes()
        log_of(there).unlink()
        before = there.read_bytes()
        self.assertEqual(fault(2), run("tally", there, "staff"))
        self.assertEqual(before, there.read_bytes())
        # It was only to be put there.
        log_of(there).write_bytes(log)
        self.assertEqual(self.tally, run("tally", there, "staff"))

    def test_earlier_file_without_its_log(self):
        """What sqlite3 wrote into the file itself is there; later changes may be in the log."""
        self.fold_log()
        self.assert_done(1, serve(self.file, put("staff", "d", DEE)))
        later = run("tally", self.file, "staff")
        self.assertIn(b"number                    6\n", later.out)
        there = copy(self.file, self.folder / "copy")
        log_of(there).unlink()
        self.assertIn(run("tally", there, "staff"), [self.tally, later])

    def test_file_that_sqlite3_had_open(self):
        self.fold_log()
        self.assertFalse(log_of(self.file).exists())
        self.assertEqual(self.tally, run("tally", self.file, "staff"))
        replies = serve(self.file, put("staff", "d", DEE), sync("staff", "1/5/5"))
        self.assertIn(b'{"put":"created","version":6}', replies)
        self.assertIn(b'"token":"http://contacts.invalid/sync/1/6/6"', replies)

    def fold_log(self):
        """Opens the file in sqlite3, which writes the log into it as it closes the last time."""
        with Tables(self.file) as tables:
            self.assertEqual(5, tables.rows("SELECT number FROM book")[0][0])


class FullDisks(FileTest):
    """Writes that fail for lack of room, and crashes at such writes."""

    folder_type = QuickFolder

    def test_init(self):
        for room in [0, 100, 4096, 20_000]:
            with self.subTest(room=room):
                file = self.folder / f"{room}.db"
                self.assertEqual(fault(1), run("init", file, preexec_fn=up_to(room)))
                # A file without tables may be left; there is room now.
                self.assertEqual(Ended(0, b"made\n", b""), run("init", file))
                self.assertEqual(DECLARED, self.contents(file).declared)

    def test_import(self):
        make(self.file, "staff")
        rows = self.folder / "rows.csv"
        rows.write_text(COLUMNS + "".join(f"{n},{'x' * 200},,,,,,\n" for n in range(1000)))
        before = self.contents()
        order = ["import", self.file, "staff", "k", rows]
        for room in [1 << 12, 1 << 16]:
            with self.subTest(room=room):
                limit = up_to(log_of(self.file).stat().st_size + room)
                self.assertEqual(STORE_FAULT, run(*order, preexec_fn=limit))
                self.assertEqual(before, self.contents())
        self.assertEqual(Ended(0, b"new 1000 edited 0 same 0 number 1000\n", b""), run(*order))

    def test_each_write_of_an_import(self):
        """At whichever write an import is stopped, the file has the books before it or after it."""
        make(self.file, "staff")
        self.assert_done(5, serve(self.file, *FIVE))
        rows = self.folder / "rows.csv"
        rows.write_text(TWO_ROWS)
        before = self.contents().rows
        done = copy(self.file, self.folder / "done")
        order = ["staff", "k", rows]
        self.assertEqual(0, run("import", done, *order).status)
        after = self.contents(done).rows
        self.assertNotEqual(before, after)
        # The log grows by some frames at once, so its last ones may have been free.
        first = max(0, log_of(self.file).stat().st_size - 16 * FRAME)
        for room in range(first, log_of(done).stat().st_size + FRAME, 2 * FRAME):
            for is_killed in [False, True]:
                with self.subTest(room=room, is_killed=is_killed):
                    file = copy(self.file, self.folder / f"{room} {is_killed}")
                    limit = up_to(room, is_killed)
                    ended = run("import", file, *order, preexec_fn=limit)
                    held = self.contents(file).rows
                    self.check_stopped(ended, is_killed, held, before, after)
                    if held == before:
                        self.assertEqual(0, run("import", file, *order).status)
                        self.assertEqual(after, self.contents(file).rows)

    def check_stopped(self, ended, is_killed, rows, before, after):
        if ended.status == 0:
            self.assertEqual(after, rows)
        elif is_killed:
            self.assertEqual(-signal.SIGXFSZ, ended.status)
            self.assertIn(rows, [before, after])
        else:
            self.assertEqual(STORE_FAULT, ended)
            self.assertEqual(before, rows)


if __name__ == "__main__":
    unittest.main()
