"""The arguments of the command line: which ask for an order, and what is reported for all others.

For these, clap 4's text is written to standard error, octet for octet, and the status is 2; nothing
is printed, nothing is read, and no file is made. A request for help is no order either. The texts
are written by hand in `argument_rows` and `help_texts`.
"""

import os
import unittest
from tempfile import TemporaryFile

from argument_rows import BAD, GOOD, error
from card_rows import ANN
from help_texts import HELP
from program import Ended, Folder, run

NO_FILE = Ended(3, b"", b"fault open 1\n")
CARD = ANN.encode()

# Requests for help among other arguments, and whose help it is.
MORE_HELP = [
    ("--help tally", ""),
    ("-h --port", ""),
    ("help help", "help"),
    ("tally --help --version", "tally"),
    ("tally a.db --help", "tally"),
    ("tally a.db staff -h", "tally"),
    ("mirror --limit=1 -hx", "mirror"),
]


def arguments_of(row):
    return row.split() if isinstance(row, str) else row


class Trial(unittest.TestCase):
    maxDiff = None

    def setUp(self):
        folder = Folder()
        self.folder = folder.__enter__()
        self.addCleanup(folder.__exit__)

    def run_here(self, arguments):
        """Runs the program in a folder of its own, in which it must not create a file."""
        ended = run(*arguments, input=CARD, cwd=self.folder)
        self.assertEqual([], list(self.folder.iterdir()))
        return ended

    def assert_bad(self, arguments, text):
        ended = self.run_here(arguments)
        self.assertEqual(text, ended.err.decode())
        self.assertEqual((2, b""), (ended.status, ended.out))


class Arguments(Trial):
    def test_bad_arguments(self):
        for row, text in BAD:
            with self.subTest(row):
                self.assert_bad(arguments_of(row), text)

    def test_good_arguments(self):
        """There is no such file, and the program says so: it has understood the arguments."""
        for row in GOOD:
            with self.subTest(row):
                ended = self.run_here(arguments_of(row))
                line = ended.err[ended.err.rfind(b"\n", 0, -1) + 1:]  # after a sentence
                self.assertEqual(NO_FILE, ended._replace(err=line))

    def test_arguments_without_an_order(self):
        """They ask for what `try` does."""
        tried = self.run_here(["try"])
        self.assertEqual((0, b""), (tried.status, tried.err))
        self.assertIn(CARD, tried.out)
        for row in "", "--", "try --":
            with self.subTest(row):
                self.assertEqual(tried, self.run_here(row.split()))

    def test_forms_near_the_two(self):
        """The rest of clap's text for such a value isn't tested here."""
        for value in "", "card", "column", "cards ", "Cards":
            with self.subTest(value):
                ended = self.run_here(["export", "a.db", "staff", "--form", value])
                self.assertEqual((2, b""), (ended.status, ended.out))
                self.assertIn(b" for '--form <F>'", ended.err)
                self.assertIn(b"\n  [possible values: cards, columns]\n", ended.err)

    def test_file_that_looks_like_an_option(self):
        """After two hyphens each argument is a value."""
        self.assertEqual(Ended(0, b"made\n", b""), run("init", "--", "--help", cwd=self.folder))
        self.assertTrue((self.folder / "--help").exists())
        self.assertEqual(Ended(0, b"book 1\n", b""),
                         run("book", "--", "--help", "staff", cwd=self.folder))

    def test_nothing_is_read(self):
        for row in "tell", "--help", "tally", "try x":
            with self.subTest(row), TemporaryFile() as text:
                text.write(CARD)
                text.seek(0)
                ended = run(*row.split(), input=None, stdin=text)
                self.assertEqual((2, 0), (ended.status, os.lseek(text.fileno(), 0, os.SEEK_CUR)))

    def test_octets_that_are_no_text(self):
        text = error("invalid UTF-8 was detected in one or more arguments")
        no_text = "\udcff"
        for row in [no_text], ["tally", no_text, "staff"], ["--help", no_text], ["try", no_text]:
            with self.subTest(row):
                self.assert_bad(row, text)


class Help(Trial):
    def test_help(self):
        for name, text in HELP.items():
            for row in [f"{name} --help", f"{name} -h", f"help {name}"]:
                if name != "help":
                    with self.subTest(row):
                        self.assert_bad(row.split(), text)

    def test_help_among_other_arguments(self):
        for row, name in MORE_HELP:
            with self.subTest(row):
                self.assert_bad(row.split(), HELP[name])


if __name__ == "__main__":
    unittest.main()
