"""The numbers of definitions and lines that README.md and docs/PROOFS.md give.

They have to be about those that tools/reading-list counts, and about those of the files.
"""

import re
import subprocess
import sys
import unittest

from pages import Page
from program import ROOT

COUNT = re.compile(r"^(.*) on (\d+) definitions of (\d+) lines$", re.MULTILINE)
# How the pages give the numbers of all claims, and that of the headline law.
CLAIMED = re.compile(r"about ([\d,]+)\s+definitions,\s+some\s+([\d,]+)\s+lines")
HEADLINE = re.compile(r"rests on (\d+)\s+definitions")
# The lines of the program's crates, part by part.
SIZES = re.compile(
    r"have ([\d,]+) lines of definitions, beside ([\d,]+) of code and ([\d,]+) of proofs".replace(
        " ", r"\s+"))
PARTS = ["specs/**/*.antt", "src/**/*.rt", "proofs/**/*.antt"]


def number(text):
    return int(text.replace(",", ""))


class ReadingList(unittest.TestCase):
    def setUp(self):
        done = subprocess.run(
            [sys.executable, ROOT / "tools/reading-list", "--claims"],
            stdin=subprocess.DEVNULL,
            stdout=subprocess.PIPE,
            stderr=subprocess.STDOUT,
            text=True,
        )
        self.assertEqual(0, done.returncode, done.stdout)
        found = COUNT.findall(done.stdout)
        self.counts = {what: (int(count), int(lines)) for what, count, lines in found}

    def assert_about(self, wanted, given):
        self.assertLess(abs(wanted - given), wanted / 50, f"{given} for {wanted}")

    def test_all_claims(self):
        for path in "README.md", "docs/PROOFS.md":
            with self.subTest(path):
                given = CLAIMED.search(Page(path).prose())
                for wanted, text in zip(self.counts["they rest together"], given.groups()):
                    self.assert_about(wanted, number(text))

    def test_headline_law(self):
        wanted, _ = self.counts["book_service::runs_keep_the_promise rests"]
        self.assert_about(wanted, number(HEADLINE.search(Page("docs/PROOFS.md").prose())[1]))


class Sizes(unittest.TestCase):
    def test_lines(self):
        given = SIZES.search(Page("docs/PROOFS.md").prose())
        for part, text in zip(PARTS, given.groups()):
            with self.subTest(part):
                wanted = sum(self.lines_of(crate, part) for crate in (ROOT / "crates").iterdir())
                self.assertLess(abs(wanted - number(text)), wanted / 20, f"{text} for {wanted}")

    def lines_of(self, crate, part):
        """None of a crate of tests, which isn't the program's."""
        if crate.name.startswith("test_"):
            return 0
        return sum(file.read_bytes().count(b"\n") for file in crate.glob(part))


if __name__ == "__main__":
    unittest.main()
