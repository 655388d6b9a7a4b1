"""`contacts resync`: what an office runs after it put a file back from a copy.

Each book takes N numbers, half of them creations and half removals, and forgets all removals. So
every token from before is refused as too old, and every device starts again. The rows afterwards
are computed here from those before, by docs/MODEL.md; some are written by hand.
"""

import unittest

from http_requests import SYNC, get, put, remove, sync, tally
from office_files import TOO_OLD, QuickFolder, ask, contents, copy, fault, make, run_order
from office_files import start_again
from program import Ended
from tables import Tables, card, first_store, setUpModule, small_store  # noqa: F401

KEEP = 10_000
CARDS_MAX = 10_000
CHANGES_MAX = 10**12
SPENT = Ended(1, b"", b"refused changes-spent 13\n")


def resynced(count):
    return Ended(0, b"resynced %d\n" % count, b"")


def resync(file, skip=None):
    return run_order("resync", file, *(["--skip", skip] if skip else []))


def after(rows, skip):
    """The rows of all tables after a resync.

    A full book's card with the least UID, by its octets, gets the last number.
    """
    meta, books, members, *others = rows
    members = [it for it in members if it[3] is not None]
    last = {book: number + skip for book, _, number, *_ in books}
    for book in last:
        live = [it for it in members if it[0] == book]
        if len(live) >= CARDS_MAX:
            least = min(live, key=lambda it: it[1])
            members = [(*it[:2], last[book], it[3]) if it == least else it for it in members]
    books = [(book, name, last[book], last[book], created + skip // 2, *more, deleted + skip // 2,
              moved)
             for book, name, _, _, created, *more, deleted, moved in books]
    return [meta, books, members, *others]


class ResyncTest(unittest.TestCase):
    def setUp(self):
        folder = QuickFolder()
        self.folder = folder.__enter__()
        self.addCleanup(folder.__exit__)
        self.file = self.folder / "office.db"
        self.looks = 0

    def lay(self, filled):
        with Tables(self.file) as tables:
            tables.lay(filled)

    def rows(self):
        self.looks += 1
        return contents(self.file, self.folder / f"look {self.looks}").rows

    def assert_resynced(self, count, skip=None):
        before = self.rows()
        self.assertEqual(resynced(count), resync(self.file, skip))
        wanted = after(before, skip or 1_000_000)
        for table, rows in zip(wanted, self.rows()):
            self.assertEqual(table, rows)
        self.assertEqual(0, run_order("verify", self.file).status)


class Rows(ResyncTest):
    """The rows of the file."""

    def test_small_store(self):
        """By hand: ten numbers for each of the three books."""
        self.lay(small_store())
        before = self.rows()
        self.assert_resynced(3, 10)
        meta, books, members, imports, keeps = self.rows()
        self.assertEqual([(1, b"staff", 18, 18, 8, 1, 1, 1, 0, 6, 1),
                          (2, b"clients", 16, 16, 8, 0, 0, 0, 1, 7, 0),
                          (3, b"friends", 12, 12, 5, 0, 2, 0, 0, 5, 0)], books)
        self.assertEqual([(1, b"ann", 4), (1, b"dee", 6), (2, b"cy", 2), (2, b"fay", 3),
                          (3, b"hal", 1), (3, b"ida", 2)], [it[:3] for it in members])
        self.assertEqual([before[0], *before[3:]], [meta, imports, keeps])

    def test_skips(self):
        for skip in [2, None, 1_000_000_000]:
            with self.subTest(skip=skip):
                self.file = self.folder / f"{skip}.db"
                self.lay(small_store())
                self.assert_resynced(3, skip)

    def test_twice(self):
        self.lay(small_store())
        self.assert_resynced(3, 4)
        self.assert_resynced(3, 6)

    def test_no_books(self):
        make(self.file)
        self.assert_resynced(0)

    def test_empty_books(self):
        make(self.file, *(f"book-{number}" for number in range(1, 101)))
        self.assert_resynced(100, 2)

    def test_tally(self):
        """The counts add up, and no tombstone is left."""
        make(self.file, "staff")
        ask(self.file, put("staff", "a", "Ann"), put("staff", "b", "Bob"), remove("staff", "b"))
        self.assert_resynced(1, 100)
        self.assertEqual([{"cards": 1, "created": 52, "deleted": 51, "edited": 0, "horizon": 103,
                           "import_edited": 0, "imported": 0, "moved_in": 0, "moved_out": 0,
                           "number": 103, "remembered": 0}], ask(self.file, tally("staff")))


class FullBooks(ResyncTest):
    """Books with 10,000 cards, in which no card can be created."""

    def lay_full(self, *counts):
        """Books with as many cards. Each has one removal in between, which it remembers."""
        books, members = [], []
        for book, count in enumerate(counts, 1):
            books.append((book, f"book-{book}", count + 2, 0, count + 1, 0, 0, 0, 0, 1, 0))
            uids = [f"{number * 7919 % 10_007:05}" for number in range(1, count + 1)]
            members += [(book, uid, number, card(uid, "Ann")) for number, uid in enumerate(uids, 1)]
            members.append((book, "gone", count + 2, None))
        self.lay([("meta", [("schema", 2)]), ("book", books), ("member", members),
                  ("import_key", []), ("keeping", [(book, KEEP) for book, *_ in books])])

    def test_full(self):
        self.lay_full(CARDS_MAX)
        self.assert_resynced(1, 2)
        renewed = [it for it in self.rows()[2] if it[2] > CARDS_MAX]
        self.assertEqual([(1, b"00001", CARDS_MAX + 4)], [it[:3] for it in renewed])

    def test_full_among_others(self):
        """Several full books, and books with room for one card and for all."""
        self.lay_full(CARDS_MAX - 1, CARDS_MAX, 0, CARDS_MAX)
        self.assert_resynced(4)

    def test_device(self):
        """A device of a full book starts again, and equals the book."""
        self.lay_full(CARDS_MAX)
        self.assert_resynced(1, 1_000)
        number = CARDS_MAX + 2 + 1_000
        self.assertEqual([TOO_OLD], ask(self.file, sync("book-1", f"1/{number - 1}/{number - 1}")))
        done = run_order("mirror", self.file, "book-1", "--pages", 1_000)
        self.assertEqual(b"pages 100 done yes", done.out.splitlines()[0])
        self.assertEqual(f"token {SYNC}1/{number}/{number}".encode(), done.out.splitlines()[-1])


class Refusals(ResyncTest):
    """Nothing is changed."""

    def lay_books(self, *numbers):
        """Books with one card and this odd number of changes, all creations and removals."""
        books = [(book, f"book-{book}", number, number, number // 2 + 1, 0, 0, 0, 0, number // 2, 0)
                 for book, number in enumerate(numbers, 1)]
        members = [(book, "a", 1, card("a", "Ann")) for book, *_ in books]
        self.lay([("meta", [("schema", 2)]), ("book", books), ("member", members),
                  ("import_key", []), ("keeping", [(book, KEEP) for book, *_ in books])])

    def assert_refused(self, wanted, *arguments):
        before = self.rows()
        self.assertEqual(wanted, run_order("resync", self.file, *arguments))
        self.assertEqual(before, self.rows())

    def test_changes_spent(self):
        """One book of three hasn't the numbers left."""
        for place in range(3):
            with self.subTest(place=place):
                self.file = self.folder / f"{place}.db"
                numbers = [1, 1, 1]
                numbers[place] = CHANGES_MAX - 1
                self.lay_books(*numbers)
                self.assert_refused(SPENT, "--skip", 2)

    def test_limit(self):
        """A book may reach the limit of changes, and not pass it."""
        self.lay_books(CHANGES_MAX - 1_001)
        self.assert_refused(SPENT, "--skip", 1_002)
        self.assert_refused(SPENT)
        self.assert_resynced(1, 1_000)
        self.assert_refused(SPENT, "--skip", 2)

    def test_no_store(self):
        missing = self.folder / "missing.db"
        self.assertEqual(fault(1), resync(missing))
        self.assertFalse(missing.exists())
        text = self.folder / "text"
        text.write_text("no store")
        self.assertEqual(fault(2), resync(text))
        self.assertEqual("no store", text.read_text())

    def test_first_schema(self):
        self.lay(first_store())
        before = self.rows()
        self.assertEqual(fault(3), resync(self.file))
        self.assertEqual(before, self.rows())


class PutBack(ResyncTest):
    """A file is put back from a copy that lacks some changes."""

    def test_lost_time(self):
        """The copy is made at change 2; the book goes to 5, and a device with it."""
        make(self.file, "staff")
        ask(self.file, put("staff", "a", "Ann"), put("staff", "b", "Bob"))
        kept = copy(self.file, self.folder / "kept")
        *_, page = ask(self.file, put("staff", "c", "Cy"), put("staff", "a", "Anna"),
                       put("staff", "d", "Dee"), sync("staff"))
        token = page["token"]
        self.assertEqual(f"{SYNC}1/5/5", token)
        lost = {it["uid"]: it["version"] for it in page["members"]}
        self.assertEqual({"b": 2, "c": 3, "a": 4, "d": 5}, lost)

        # The copy is put back.
        self.file = kept
        self.assert_resynced(1)
        page = start_again(self, self.file, lost)
        self.assertEqual((f"{SYNC}1/1000005/1000005", False), (page["token"], page["truncated"]))

    def test_every_token(self):
        """Each token whose numbers the book has reached is too old, and stays so."""
        make(self.file, "staff", "clients")
        ask(self.file, put("staff", "a", "Ann"), put("clients", "b", "Bob"), remove("staff", "a"))
        self.assert_resynced(2, 10)
        tokens = [f"1/{at}/{base}" for base in range(12) for at in range(base + 1)]
        asked = [sync("staff", token) for token in tokens]
        self.assertEqual([TOO_OLD] * len(tokens), ask(self.file, *asked))
        ask(self.file, put("staff", "c", "Cy"), remove("staff", "c"))
        self.assertEqual([TOO_OLD] * len(tokens), ask(self.file, *asked))
        self.assertEqual({"members": [{"status": 404, "uid": "c"}], "token": f"{SYNC}1/14/14",
                          "truncated": False}, ask(self.file, sync("staff", "1/12/12"))[0])

    def test_cards(self):
        """Cards and versions are as they were."""
        self.lay(small_store())
        asked = [get(book, uid) for book, uid in [("staff", "ann"), ("staff", "dee"),
                                                  ("clients", "cy"), ("friends", "ida")]]
        before = ask(self.file, *asked)
        self.assert_resynced(3)
        self.assertEqual(before, ask(self.file, *asked))
        self.assertEqual([4, 6, 2, 2], [it["version"] for it in before])


if __name__ == "__main__":
    unittest.main()
