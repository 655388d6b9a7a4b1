"""What is said of a stop, in words: before its line on a terminal, and by some orders always.

The sentences are those of docs/OPERATING.md. Elsewhere, which is here a pipe, the orders of the
formats print their line alone, and the sentence of the others comes before it.
"""

import os
import socket
import subprocess
import unittest

from http_requests import put
from order_trials import FIVE_CHANGES, FIRST_STAFF, NEEDS_STRICT, OrderTest, numbered
from program import PROGRAM, Server, run
from tables import card
from terminals import run_at_terminal

IS_ROOT = os.geteuid() == 0
NOBODY = 65_534
FIRST_PORT = "/proc/sys/net/ipv4/ip_unprivileged_port_start"
ROWS_MAX = 8_388_608
MISSING = "there is no such file"
INIT = MISSING + "; contacts init {0} makes one"
TAKEN = "another program has it open"
VCARD = "BEGIN:VCARD\r\nVERSION:4.0\r\nUID:a\r\nFN:Ann\r\nEND:VCARD\r\n"


def as_nobody():
    os.setgroups([])
    os.setgid(NOBODY)
    os.setuid(NOBODY)


def can_be_nobody():
    """Whether the program can be run as another user."""
    try:
        return IS_ROOT and run("--version", preexec_fn=as_nobody).status == 0
    except OSError:
        return False


def in_small_disk(size, *arguments):
    """The arguments of a command that runs in a new disk of this size at `disk`, if one can be."""
    script = f"mount -t tmpfs -o size={size} tmpfs disk && exec \"$@\""
    return ["unshare", "--mount", "sh", "-c", script, "sh", *arguments]


def has_small_disks(folder):
    """Whether this user may mount a disk where nobody else sees it."""
    (folder / "disk").mkdir()
    try:
        return subprocess.run(in_small_disk("64k", "true"), cwd=folder,
                              stderr=subprocess.DEVNULL).returncode == 0
    except OSError:
        return False


class Words(OrderTest):
    def assert_said(self, arguments, sentence, line, status=3, always=False, output=b"", **options):
        """On a terminal both are said; elsewhere the sentence only if that is always said."""
        words = sentence + "\n" if sentence else ""
        with self.subTest(" ".join(arguments)):
            said = f"{words}{line}\n".encode()
            self.assertEqual((status, output, said),
                             run_at_terminal(*arguments, cwd=self.folder, **options))
            there = said if always else f"{line}\n".encode()
            self.assertEqual((status, output, there),
                             run(*arguments, cwd=self.folder, **options))

    def for_each_order(self, name, sentence, line, **options):
        """An order of the formats and three others that open the file."""
        self.assert_said(["tally", name, "staff"], sentence, line, **options)
        for order in "books", "verify":
            self.assert_said([order, name], sentence, line, always=True, **options)


class StoreFiles(Words):
    def test_missing(self):
        """Who looks for the books of a file isn't told to make one without any."""
        for arguments in ["tally", "a.db", "staff"], ["book", "a.db", "staff"], ["serve", "a.db"]:
            self.assert_said(arguments, "a.db: " + INIT.format("a.db"), "fault open 1")
        for order in "books", "verify", "resync":
            self.assert_said([order, "a.db"], "a.db: " + MISSING, "fault open 1", always=True)
        self.assert_said(["run", "a.db"],
                         "a.db: there is no such file; contacts run a.db --create makes it",
                         "fault open 1", always=True)
        self.assertEqual([], os.listdir(self.folder))

    def test_missing_folder(self):
        words = "none/a.db: there is no folder for it; make that first"
        for arguments in ["init", "none/a.db"], ["tally", "none/a.db", "staff"]:
            self.assert_said(arguments, words, "fault open 1")
        self.assert_said(["run", "none/a.db", "--create"], words, "fault open 1", always=True)

    def test_folder(self):
        (self.folder / "a.db").mkdir()
        words = "a.db: it is a folder; name a file"
        self.for_each_order("a.db", words, "fault open 1")
        self.assert_said(["init", "a.db"], words, "fault open 1")
        self.assert_said(["run", "a.db", "--create"], words, "fault open 1", always=True)

    def test_two_names(self):
        self.make_books()
        os.link(self.folder / "a.db", self.folder / "b.db")
        self.for_each_order("b.db", "b.db: it isn't a plain file with one name", "fault open 1")

    def test_no_plain_file(self):
        os.mkfifo(self.folder / "a.db")
        self.for_each_order("a.db", "a.db: it isn't a plain file with one name", "fault open 1")

    def test_taken(self):
        self.make_books()
        with Server(self.folder / "a.db"):
            self.for_each_order("a.db", "a.db: " + TAKEN, "fault open 1")
            self.assert_said(["init", "a.db"], "a.db: " + TAKEN, "fault open 1")
            self.assert_said(["run", "a.db"], "a.db: " + TAKEN, "fault open 1", always=True)

    @unittest.skipUnless(can_be_nobody(), "only root can become another user")
    def test_rights(self):
        self.make_books()
        self.folder.chmod(0o755)
        denied = "a.db: you may not read and write it"
        (self.folder / "a.db").chmod(0o644)
        self.for_each_order("a.db", denied, "fault open 1", preexec_fn=as_nobody)
        (self.folder / "a.db").chmod(0o666)
        (self.folder / "a.db-wal").unlink()
        self.for_each_order(
            "a.db", "a.db: you may not make files in its folder, where its log belongs",
            "fault open 1", preexec_fn=as_nobody)
        self.assert_said(
            ["init", "b.db"], "b.db: you may not make files in its folder, where its log belongs",
            "fault open 1", preexec_fn=as_nobody)

    def test_full_disk(self):
        if not has_small_disks(self.folder):
            self.skipTest("no disk can be mounted")
        wanted = b"disk/a.db: its disk is full; make room\nfault open 1\n"
        ended = subprocess.run(in_small_disk("4k", PROGRAM, "run", "disk/a.db", "--create"),
                               cwd=self.folder, stdout=subprocess.PIPE, stderr=subprocess.PIPE)
        self.assertEqual((3, b"", wanted), (ended.returncode, ended.stdout, ended.stderr))

    def test_not_ours(self):
        self.write({"a.db": "no database at all"})
        self.for_each_order(
            "a.db", "a.db: it isn't a file of this program, or its log isn't beside it",
            "fault open 2")

    @NEEDS_STRICT
    def test_schemas(self):
        self.lay("first.db", FIRST_STAFF)
        self.for_each_order(
            "first.db",
            "first.db: it has an older schema; back it up, then run contacts migrate first.db",
            "fault open 3")
        self.lay("newer.db", [("meta", [("schema", 3)]), *FIRST_STAFF[1:]])
        self.for_each_order(
            "newer.db", "newer.db: a newer version of this program made it; use that one",
            "fault open 3")
        self.make_books()
        self.assert_said(["migrate", "a.db"], "a.db: it has the current schema already",
                         "fault open 3")

    @NEEDS_STRICT
    def test_damaged(self):
        """`verify` names the row itself."""
        self.lay("a.db", [
            ("meta", [("schema", 2)]),
            ("book", [(1, "staff", 1, 0, 1, 0, 0, 0, 0, 0, 0)]),
            ("member", [(1, "a", 1, card("b", "Ann"))]),
            ("import_key", []), ("keeping", [(1, 10_000)])])
        words = "a.db: it is damaged; restore a backup"
        advice = "; contacts verify a.db names the row"
        self.assert_said(["tally", "a.db", "staff"], words + advice, "fault open 4")
        self.assert_said(["books", "a.db"], words + advice, "fault open 4", always=True)
        self.assert_said(["verify", "a.db"], words, "fault open 4", always=True,
                         output=b"member a of staff (row 1): the UID isn't legal, or the card has "
                                b"another one\n")

    def test_not_empty(self):
        self.make_books()
        self.assert_said(["init", "a.db"], "a.db: something is there already; nothing was changed",
                         "fault open 5")


class Copies(Words):
    """`copy`, `restore` and `resync` say which of their files is meant."""

    def test_copy(self):
        self.make_books()
        self.write({"b.db": "something"})
        self.assert_said(["copy", "a.db", "b.db"],
                         "b.db: something is there already; nothing was changed", "fault open 5",
                         always=True)
        self.assert_said(["copy", "none.db", "c.db"], "none.db: " + MISSING, "fault open 1",
                         always=True)
        self.assert_said(["copy", "a.db", "none/c.db"],
                         "none/c.db: there is no folder for it; make that first", "fault open 1",
                         always=True)
        with Server(self.folder / "a.db"):
            self.assert_said(["copy", "a.db", "c.db"], "a.db: " + TAKEN, "fault open 1", always=True)

    def test_restore(self):
        self.make_books()
        self.write({"text.db": "no store"})
        self.assert_said(["restore", "text.db", "a.db"],
                         "text.db: it isn't a file of this program, or its log isn't beside it",
                         "fault open 2", always=True)
        self.assert_said(["restore", "none.db", "a.db"], "none.db: " + MISSING, "fault open 1",
                         always=True)
        with Server(self.folder / "a.db"):
            self.assert_said(["restore", "text.db", "a.db"], "a.db: " + TAKEN, "fault open 1",
                             always=True)


class Sockets(Words):
    """Why a server can't listen at a Unix socket, or serve a folder."""

    def test_site(self):
        """It is said once."""
        self.make_books()
        self.assert_said(["run", "a.db", "--site", "none"], "none: no such folder",
                         "fault device 1", always=True)

    def test_causes(self):
        self.make_books()
        long = "x" * 108
        self.assert_said(["run", "a.db", "--socket", long],
                         f"{long}: a socket's path has at most 107 octets; name a shorter one",
                         "fault device 1", always=True)
        self.write({"taken": "a file"})
        self.assert_said(["run", "a.db", "--socket", "taken"],
                         "taken: something else is there; move it away, or name another path",
                         "fault device 1", always=True)
        self.assert_said(["run", "a.db", "--socket", "none/s"],
                         "none/s: there is no folder for it; make that first", "fault device 1",
                         always=True)
        with socket.socket(socket.AF_UNIX) as listening:
            listening.bind(str(self.folder / "s"))
            listening.listen()
            self.assert_said(["run", "a.db", "--socket", "s"],
                             "s: another program listens there", "fault device 1", always=True)


class Devices(Words):
    def test_taken_port(self):
        self.make_books()
        with socket.create_server(("127.0.0.1", 0)) as taken:
            port = taken.getsockname()[1]
            words = f"port {port} is taken; try --port {port + 1}"
            self.assert_said(["serve", "a.db", "--port", str(port)], words, "fault device 1")
            self.assert_said(["run", "a.db", "--port", str(port)], words, "fault device 1",
                             always=True)

    @unittest.skipUnless(can_be_nobody(), "only root can become another user")
    @unittest.skipUnless(os.path.exists(FIRST_PORT), f"there is no {FIRST_PORT}")
    def test_low_port(self):
        with open(FIRST_PORT) as first:
            if int(first.read()) <= 80:
                self.skipTest("every user may listen at each port here")
        self.make_books()
        self.folder.chmod(0o777)
        for path in self.folder.iterdir():
            path.chmod(0o666)
        words = "you may not use port 80; try --port 8080"
        self.assert_said(["serve", "a.db", "--port", "80"], words, "fault device 1",
                         preexec_fn=as_nobody)
        self.assert_said(["run", "a.db", "--port", "80"], words, "fault device 1", always=True,
                         preexec_fn=as_nobody)

    def test_rows(self):
        """Each cause, for an import and a check. The order to import is one of the formats."""
        self.make_books()
        (self.folder / "folder.csv").mkdir()
        (self.folder / "long.csv").write_bytes(b" " * (ROWS_MAX + 1))
        for name, words in [
            ("none.csv", "there is no such file"),
            ("folder.csv", "it is a folder; name a file"),
            ("long.csv", "it has more than 8,388,608 octets; make several files of it"),
        ]:
            sentence = f"{name}: {words}"
            self.assert_said(["import", "a.db", "staff", "k", name], sentence, "fault device 1")
            self.assert_said(["check", name], sentence, "fault device 1", always=True)

    @unittest.skipUnless(can_be_nobody(), "only root can become another user")
    def test_rows_that_may_not_be_read(self):
        self.folder.chmod(0o755)
        self.write({"a.csv": numbered(0, 1)})
        (self.folder / "a.csv").chmod(0o600)
        self.assert_said(["check", "a.csv"], "a.csv: you may not read it", "fault device 1",
                         always=True, preexec_fn=as_nobody)

    @unittest.skipUnless(os.path.exists("/dev/full"), "there is no /dev/full")
    def test_output(self):
        self.make_books()
        with open("/dev/full", "wb") as full:
            for arguments in ["tally", "a.db", "staff"], ["books", "a.db"]:
                with self.subTest(arguments):
                    said = run_at_terminal(*arguments, cwd=self.folder, stdout=full)[2]
                    self.assertEqual(b"standard output can't be written\nfault device 1\n", said)

    def test_a_card_that_is_refused(self):
        for octets, words in [
            (b"BEGIN:VCARD\nVERSION:4.0\nUID:a\nEND:VCARD\n", "FN is missing"),
            (b"BEGIN:VCARD\nVERSION:3.0\nUID:a\nFN:Ann\nEND:VCARD\n",
             "the version isn't 4.0; try contacts convert"),
        ]:
            (self.folder / "a.vcf").write_bytes(octets)
            with open(self.folder / "a.vcf", "rb") as card_file:
                said = f"the card isn't accepted: {words}\nrefused bad-card 5\n".encode()
                self.assertEqual((1, b"", said),
                                 run_at_terminal("try", cwd=self.folder, stdin=card_file))


class Refusals(Words):
    def test_books(self):
        self.make_books()
        self.change("a.db", [put("staff", "a", "Ann")])
        for arguments, sentence, line in [
            (["book", "a.db", "staff"], "there is a book of this name already", "book-exists 2"),
            (["book", "a.db", "Staff"], "a book's name is 1 to 40 of a to z, 0 to 9 and the hyphen",
             "bad-book-name 3"),
            (["tally", "a.db", "none"], "there is no such book; contacts books a.db lists them",
             "no-such-book 1"),
            (["expand", "a.db", "staff", "none"], "there is no card with this UID in the book",
             "no-such-card 4"),
            (["expand", "a.db", "staff", "a"], "the card isn't a group's", "not-group 17"),
            (["mirror", "a.db", "staff", "--limit", "0"], "the limit may not be 0",
             "number-of-matches-within-limits 11"),
            (["forget", "a.db", "staff", "9"],
             "the number is below the book's horizon or above its last change", "bad-forget 16"),
        ]:
            self.assert_said(arguments, f"a.db: {sentence}", f"refused {line}", status=1)

    def test_imports(self):
        self.make_books()
        self.write({
            "people.csv": numbered(0, 2) + "n2,,,,,,,\n",
            "cards.csv": "uid,vcard\na,\"BEGIN:VCARD\nVERSION:4.0\nFN:Ann\nEND:VCARD\n\"\n",
            "phone.vcf": VCARD.lower(),
            "text.csv": "Dear office,\n",
        })
        for name, words in [
            ("people.csv", "row 3: the name is empty; contacts check people.csv tells more"),
            ("cards.csv", "row 1: UID is missing; contacts check cards.csv tells more"),
            ("phone.vcf", "this is a vCard; contacts convert phone.vcf makes rows of it"),
            ("text.csv", "row 0: the header is neither uid,vcard nor "
             "uid,fn,family,given,email,tel,org,note; contacts check text.csv tells more"),
        ]:
            self.assert_said(["import", "a.db", "staff", "k", name], f"{name}: {words}",
                             "refused bad-import 14", status=1)
        self.assert_said(["import", "a.db", "staff", "a/b", "people.csv"],
                         "a.db: a key is 1 to 64 of A to Z, a to z, 0 to 9, dot, underscore and "
                         "hyphen", "refused bad-key 15", status=1)

    def test_check_says_it_once(self):
        """What `check` found is on standard output, with or without a terminal."""
        self.write({"people.csv": numbered(0, 2) + "n2,,,,,,,\n"})
        self.assert_said(["check", "people.csv"], "", "refused bad-import 14", status=1,
                         output=b"row 3: the name is empty\n")

    def test_success_says_nothing(self):
        self.make_books()
        self.change("a.db", FIVE_CHANGES)
        for arguments in ["tally", "a.db", "staff"], ["books", "a.db"], ["verify", "a.db"]:
            self.assertEqual(b"", run_at_terminal(*arguments, cwd=self.folder)[2])
            self.assertEqual(b"", run(*arguments, cwd=self.folder).err)


if __name__ == "__main__":
    unittest.main()
