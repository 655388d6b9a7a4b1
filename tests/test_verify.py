"""`contacts verify` of a damaged file: which row is at fault, and why.

The small store of `tables` is laid by sqlite3, which numbers the rows of each table from 1, and is
then damaged by one statement or more. The lines are worked out by hand from its rows and from the
rules of docs/MODEL.md.
"""

import unittest

from office_files import fault
from order_trials import NEEDS_STRICT, OrderTest
from program import Ended, run
from tables import Tables, small_store

DAMAGED = 4

NUMBERS = "the counts don't add up to the number, or the number or the horizon is too large"
KEEP = "the keep is missing or 0, or there are more tombstones than it allows"
KEY = "the key isn't a legal key of an import"
UID = "the UID isn't legal, or the card has another one"

# A name, the statements, and the line.
DAMAGES = [
    ("a card", "UPDATE member SET card = 'x' WHERE uid = 'ann'",
     "member ann of staff (row 1): the card isn't a card's canonical text"),
    ("the UID of a card", "UPDATE member SET uid = 'hal2' WHERE uid = 'hal'",
     f"member hal2 of friends (row 8): {UID}"),
    ("the UID of a tombstone", "UPDATE member SET uid = 'b' || char(9) WHERE uid = 'bob'",
     f"member b\\x09 of staff (row 2): {UID}"),
    ("a change that isn't made yet", "UPDATE member SET changed = 9 WHERE uid = 'ann'",
     "member ann of staff (row 1): its change isn't numbered from 1 to the book's number"),
    ("a tombstone at the horizon", "UPDATE book SET horizon = 5 WHERE id = 1",
     "member bob of staff (row 2): the tombstone isn't above the book's horizon"),
    ("a card that is lost", "DELETE FROM member WHERE uid = 'ida'",
     "book friends (row 3): the counts don't add up to the number of cards"),
    ("the number of a book", "UPDATE book SET number = 9 WHERE id = 1",
     f"book staff (row 1): {NUMBERS}"),
    ("the horizon of a book", "UPDATE book SET horizon = 3 WHERE id = 3",
     f"book friends (row 3): {NUMBERS}"),
    ("the counts of a book", "UPDATE book SET created = 4, edited = 0 WHERE id = 1",
     "book staff (row 1): the counts don't add up to the number of cards"),
    ("the name of a book", "UPDATE book SET name = 'staff 2' WHERE id = 1",
     "book staff\\x202 (row 1): the name isn't a legal name of a book"),
    ("no keep", "UPDATE keeping SET keep = 0 WHERE book = 2", f"book clients (row 2): {KEEP}"),
    ("a keep of fewer tombstones", "UPDATE keeping SET keep = 1 WHERE book = 1",
     f"book staff (row 1): {KEEP}"),
    ("a keep that is lost", "DELETE FROM keeping WHERE book = 3", f"book friends (row 3): {KEEP}"),
    ("a negative keep", "UPDATE keeping SET keep = -1 WHERE book = 2",
     "keep of clients (row 2): a number is missing or negative"),
    ("a negative count", "UPDATE import_key SET added = -1 WHERE book = 1",
     "import k1 of staff (row 1): the key isn't a text, or a number is missing or negative"),
    ("the key of an import", "UPDATE import_key SET ikey = 'k 2' WHERE book = 3",
     f"import k\\x202 of friends (row 2): {KEY}"),
    ("no key of an import", "UPDATE import_key SET ikey = '' WHERE book = 1",
     f"import of staff (row 1): {KEY}"),
    ("the number of an import", "UPDATE import_key SET number = 9 WHERE book = 1",
     "import k1 of staff (row 1): its number is above the book's number"),
    ("a card before the book that it upsets",
     "UPDATE member SET card = NULL WHERE uid = 'ida'; UPDATE member SET card = 'x' "
     "WHERE uid = 'fay'",
     "member fay of clients (row 6): the card isn't a card's canonical text"),
    ("octets that aren't visible",
     "UPDATE member SET uid = 'h' || char(246) || char(10) || char(92) WHERE uid = 'hal'",
     f"member h\\xc3\\xb6\\x0a\\x5c of friends (row 8): {UID}"),
    ("a long UID", "UPDATE member SET uid = printf('%0300d', 0) WHERE uid = 'hal'",
     f"member {'0' * 255}.. of friends (row 8): {UID}"),
]

# The same over rows that may refer to books that aren't there.
UNLISTED = [
    ("the id of a book",
     "UPDATE book SET id = 7 WHERE id = 3; UPDATE member SET book = 7 WHERE book = 3; "
     "UPDATE import_key SET book = 7 WHERE book = 3; UPDATE keeping SET book = 7 WHERE book = 3",
     "book friends (row 7): the id isn't from 1 to the number of books"),
    ("a member of no book", "UPDATE member SET book = 9 WHERE uid = 'ann'",
     "a row breaks the declaration of its table"),
]


@NEEDS_STRICT
class Verify(OrderTest):
    def check(self, statements, line, foreign_keys=True):
        file = self.folder / "a.db"
        for old in self.folder.iterdir():
            old.unlink()
        with Tables(file, foreign_keys) as tables:
            tables.lay(small_store())
            tables.run(statements)
        before = file.read_bytes()
        refused = fault(DAMAGED)
        said = b"a.db: it is damaged; restore a backup"
        self.assertEqual(refused._replace(out=f"{line}\n".encode(), err=said + b"\n" + refused.err),
                         run("verify", "a.db", cwd=self.folder))
        said += b"; contacts verify a.db names the row\n"
        self.assertEqual(refused._replace(err=said + refused.err),
                         run("books", "a.db", cwd=self.folder))
        self.assertEqual(before, file.read_bytes())

    def test_small_store(self):
        self.lay("a.db", small_store())
        ended = run("verify", "a.db", cwd=self.folder)
        self.assertEqual((0, b"verified 3\n", b""),
                         (ended.status, ended.out.splitlines(True)[-1], ended.err))

    def test_each_damage(self):
        for title, statements, line in DAMAGES:
            with self.subTest(title):
                self.check(statements, line)

    def test_books_that_are_not_there(self):
        for title, statements, line in UNLISTED:
            with self.subTest(title):
                self.check(statements, line, foreign_keys=False)

    def test_no_other_fault_has_a_row(self):
        (self.folder / "text.db").write_bytes(b"no database at all")
        for name, words, number in [
            ("none.db", b"there is no such file", 1),
            ("text.db", b"it isn't a file of this program, or its log isn't beside it", 2),
        ]:
            with self.subTest(name):
                said = b"%s: %s\nfault open %d\n" % (name.encode(), words, number)
                self.assertEqual(Ended(3, b"", said), run("verify", name, cwd=self.folder))


if __name__ == "__main__":
    unittest.main()
