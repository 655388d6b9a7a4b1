"""What is said on a terminal while a command runs: of a long import, and of opening a long file.

Standard error is a terminal of this test's own. What is said elsewhere is tested by all others:
there standard error is a pipe, and has to be empty.
"""

import os
import re
import unittest

from order_trials import NEEDS_STRICT, OrderTest, numbered
from tables import card
from terminals import run_at_terminal

DONE = rb"done after [0-9]+ milliseconds\n"
LONG_NOTE = "x" * 240_000


class Progress(OrderTest):
    def run_here(self, *arguments):
        return run_at_terminal(*arguments, cwd=self.folder)

    def test_imports(self):
        """A file of rows has one line more than rows. More than 1,000 lines are announced."""
        self.make_books()
        self.write({"short.csv": numbered(0, 999), "long.csv": numbered(999, 1_000)})
        self.assertEqual((0, b"new 999 edited 0 same 0 number 999\n", b""),
                         self.run_here("import", "a.db", "staff", "k1", "short.csv"))
        status, output, said = self.run_here("import", "a.db", "staff", "k2", "long.csv")
        self.assertEqual((0, b"new 1000 edited 0 same 0 number 1999\n"), (status, output))
        self.assertRegex(said, re.compile(rb"\Aimporting 1001 lines \.\.\n" + DONE + rb"\Z"))

    @NEEDS_STRICT
    def test_openings(self):
        """A hundred cards of some 250,000 octets. Files of at most 20 MB are opened silently."""
        text = card("u00", "Name", LONG_NOTE)
        cards = [(1, f"u{number:02}", number + 1, text.replace("UID:u00", f"UID:u{number:02}"))
                 for number in range(100)]
        for name, count in ("short.db", 70), ("long.db", 100):
            self.lay(name, [
                ("meta", [("schema", 2)]),
                ("book", [(1, "staff", count, 0, count, 0, 0, 0, 0, 0, 0)]),
                ("member", cards[:count]), ("import_key", []), ("keeping", [(1, 10_000)])])
        listed = "name staff id 1 cards {0} number {0} horizon 0 keep 10000\n"
        self.assertEqual((0, listed.format(70).encode(), b""), self.run_here("books", "short.db"))
        megabytes = os.path.getsize(self.folder / "long.db") // 1_000_000
        status, output, said = self.run_here("books", "long.db")
        self.assertEqual((0, listed.format(100).encode()), (status, output))
        self.assertRegex(said, re.compile(rb"\Aopening long\.db: %d MB \.\.\n" % megabytes
                                          + DONE + rb"\Z"))


if __name__ == "__main__":
    unittest.main()
