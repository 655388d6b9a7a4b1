"""clients/python/follow.py as the office's memory: versions, comparisons, restores, and kills.

tests/test_follow_hooks.py tests the commands of --exec, and who made a version.
"""

import hashlib
import io
import json
import os
import re
import time
import unittest
from contextlib import redirect_stderr, redirect_stdout
from unittest import mock

from http_requests import card
from program import ROOT, Server, run
from python_client import Lossy, is_killed, is_stopped, office
from test_python_client import HOSTILE, ClientTest

from tosculai_tools import follow
from tosculai_tools.versions import Versions, version_of

# Names that cards shouldn't have: markup, control characters of terminals, long ones.
NAMES = ["<script>alert(1)</script>", "]]>&amp;\"'", "\u009b31mred", "\u202elive", "\u2028",
         "x" * 200_000, "a\\nb", "\u0085END:VCARD", "@@ -1 +1 @@", "--- a"]


class FollowTest(ClientTest):
    """A server and the folder of a `follow`, which runs once at a time."""

    def setUp(self):
        super().setUp()
        self.backup = self.folder / "backup"
        self.versions = Versions(str(self.backup / "staff/versions"))

    def call(self, *arguments):
        """Runs the program; returns its status and what it printed."""
        out, err = io.StringIO(), io.StringIO()
        with redirect_stdout(out), redirect_stderr(err):
            try:
                status = follow.main([*map(str, arguments)])
            except SystemExit as end:
                status = end.code
        return status, out.getvalue(), err.getvalue()

    def follow(self, *options, status=0):
        """One round."""
        url = f"http://127.0.0.1:{self.server.address[1]}"
        done = self.call(url, self.backup, "--once", "--dated", *options)
        self.assertEqual(status, done[0], done)
        return done

    def ask(self, command, *arguments):
        return self.call(command, self.backup, *arguments)

    def listed(self, uid="a"):
        """The versions of a card in its index: number, text, and who."""
        folder = self.versions.folder_of(uid)
        with open(os.path.join(folder, "index.json"), encoding="utf-8") as file:
            whole = json.load(file)
        self.assertEqual(uid, whole["uid"])
        self.assertEqual({it["file"] for it in whole["versions"]} | {"index.json"},
                         set(os.listdir(folder)))
        found = []
        for it in whole["versions"]:
            with open(os.path.join(folder, it["file"]), "rb") as file:
                found.append((it["version"], file.read().decode(), it["who"]))
            self.assertEqual(it["removed"], not found[-1][1])
            self.assertRegex(it["seen"], r"^20\d\d-\d\d-\d\dT\d\d:\d\d:\d\dZ$")
        return found

    def texts(self, uid="a"):
        return [(number, text) for number, text, _ in self.listed(uid)]


class Memory(FollowTest):
    """log, diff and restore."""

    def setUp(self):
        super().setUp()
        self.first, self.second = card("a", "Ann"), card("a", "Anna", "TEL:1")
        self.staff.put(self.first)
        self.follow()
        self.staff.put(self.second)
        self.follow()

    def test_log_and_diff(self):
        self.staff.remove("a")
        self.follow()
        at = r"20\d\d-\d\d-\d\dT\d\d:\d\d:\d\dZ"
        status, out, err = self.ask("log", "staff", "a")
        self.assertEqual((0, ""), (status, err))
        self.assertRegex(out, fr"^version 1 {at}: new\nversion 2 {at}: FN, TEL\n"
                         fr"version 2 {at}: removed\n$")
        status, out, err = self.ask("diff", "staff", "a", 1, 2)
        self.assertEqual((0, ""), (status, err))
        self.assertRegex(out, fr"^--- version 1, {at}\n\+\+\+ version 2, {at}\n@@ ")
        self.assertIn("\n UID:a\n-FN:Ann\n+FN:Anna\n+TEL:1\n END:VCARD\n", out)
        self.assertEqual(out, self.ask("diff", "staff", "a", 1, 2)[1])
        last = self.ask("diff", "staff", "a")[1]
        self.assertIn("-FN:Anna\n", last)
        self.assertRegex(last, fr"\n\+\+\+ version 2, {at}, removed\n")
        self.assertEqual([(1, self.first), (2, self.second), (2, "")], self.texts())

    def test_what_is_not_there_is_said(self):
        for arguments, said in [
            (["log", "staff", "b"], "no version of a card b of staff is kept"),
            (["log", "nobody", "a"], "has no book nobody"),
            (["log", "../staff", "a"], "has no book ../staff"),
            (["log", "..", "a"], "has no book .."),
            (["log", ".", "a"], "has no book ."),
            (["purge", "..", "a"], "has no book .."),
            (["diff", "staff", "a", 7], "no version 7 of this card is kept"),
            (["restore", "staff", "a", 7], "no version 7 of this card is kept"),
            (["restore", "staff", "a", "x\x1b[31m"], "no version x\\u001b[31m of this card"),
            (["purge", "staff"], "give either a book and a UID, or --text TEXT"),
            (["purge", "--text", "ab"], "three characters at least"),
        ]:
            with self.subTest(arguments):
                status, out, err = self.ask(*arguments)
                self.assertEqual((1, ""), (status, out))
                self.assertIn(said, err)
        self.assertEqual(1, self.call("log", self.folder / "none", "staff", "a")[0])
        self.assertEqual(2, self.ask("log", "staff")[0])

    def test_restore(self):
        done = self.ask("restore", "staff", "a", 1)
        self.assertEqual((0, "version 3 has the text of version 1\n", ""), done)
        self.assertEqual(self.first, self.staff.get("a").text)
        self.follow()
        self.assertEqual([(1, self.first), (2, self.second), (3, self.first)], self.texts())

    def test_restore_of_a_removed_card(self):
        self.staff.remove("a")
        self.follow()
        self.assertEqual(0, self.ask("restore", "staff", "a", 2)[0])
        self.assertEqual(self.second, self.staff.get("a").text)
        removed = self.listed()[2]
        self.assertEqual((2, ""), removed[:2])
        label = [it.label for it in self.versions.of("a") if it.removed][0]
        status, _, err = self.ask("restore", "staff", "a", label)
        self.assertEqual(1, status)
        self.assertIn("this is the card's removal", err)

    def test_restore_is_refused_if_somebody_was_faster(self):
        theirs = card("a", "Theirs")
        self.staff.put(theirs)
        status, out, err = self.ask("restore", "staff", "a", 1)
        self.assertEqual((1, ""), (status, out))
        self.assertIn("the card is at version 3 now, and follow saw it last at version 2", err)
        self.assertIn("Nothing was changed.", err)
        self.assertEqual(theirs, self.staff.get("a").text)
        self.staff.remove("a")
        status, out, err = self.ask("restore", "staff", "a", 1)
        self.assertEqual((1, ""), (status, out))
        self.assertIn("the card isn't in the book now", err)
        self.follow()  # of the version between, nothing was seen
        self.assertEqual(0, self.ask("restore", "staff", "a", 1)[0])
        self.assertEqual(self.first, self.staff.get("a").text)

    def test_restore_is_refused_if_the_version_is_of_another_text(self):
        """As after a restore of the server's file; and if somebody is faster by a moment."""
        self.start_anew()
        other = card("a", "Other")
        book = office(self.server).book("staff")
        book.put(card("a", "First"))
        book.put(other)
        status, out, err = self.ask("restore", "staff", "a", 1)
        self.assertEqual((1, ""), (status, out))
        self.assertIn("the card is at version 2 now, and follow saw it last at version 2", err)
        self.assertEqual(other, book.get("a").text)
        self.follow()  # its token fits to the new file, so it sees nothing
        self.assertEqual(1, self.ask("restore", "staff", "a", 1)[0])
        self.follow("--start-over")
        self.assertEqual((2, other), self.texts()[-1])
        with Lossy(self.server) as proxy:
            faster = card("a", "Faster")
            proxy.before_request = lambda octets: octets[:3] == b"PUT" and book.put(faster)
            status, out, err = self.ask("restore", "staff", "a", 1, "--url",
                                        f"http://127.0.0.1:{proxy.address[1]}")
        self.assertEqual((1, ""), (status, out))
        self.assertIn("the card is at version 3 now, and follow saw it last at version 2", err)
        self.assertEqual(faster, book.get("a").text)

    def start_anew(self):
        """Starts the server with an empty book."""
        self.server.kill()
        for name in "file", "file-wal":
            (self.folder / name).unlink()
        run("init", self.folder / "file")
        run("book", self.folder / "file", "staff")
        self.server = Server(self.folder / "file", port=self.server.address[1])
        self.addCleanup(self.server.kill)

    def test_restore_without_a_server_or_a_book(self):
        self.server.kill()
        status, out, err = self.ask("restore", "staff", "a", 1)
        self.assertEqual((3, ""), (status, out))
        self.assertIn("Connection refused", err)
        (self.backup / "staff/.tosculai.json").unlink()
        self.assertIn("or give --url", self.ask("restore", "staff", "a", 1)[2])

    def test_books_whose_names_would_lead_out(self):
        """A false server names books; nothing is written for them, and the others are followed."""
        names = ["../escaped", "..", ".", "", "a/b", "/x", "A", "a" * 41, ".git", "a\n", None, 5]
        self.staff.put(card("a", "Third"))
        there = {it.name for it in self.folder.iterdir()}
        within = {it.name for it in self.backup.iterdir()}
        lines = [{"name": it, "number": 1} for it in names]
        office_of = follow.Office.books
        with mock.patch.object(follow.Office, "books", lambda it: lines + office_of(it)):
            _, _, err = self.follow(status=3)
        self.assertEqual(len(names), err.count("can't be the name of a book"), err)
        self.assertIn("follow: ../escaped can't be the name of a book: ", err)
        self.assertEqual(there, {it.name for it in self.folder.iterdir()})
        self.assertEqual(within, {it.name for it in self.backup.iterdir()})
        self.assertEqual((3, card("a", "Third")), self.texts()[-1])

    def test_hostile_cards(self):
        for at, name in enumerate(NAMES):
            self.staff.put(card("h", name, f"NOTE:{name[:100]}"))
            self.follow()
            self.assertIn(name, self.listed("h")[at][1].replace("\r\n ", ""))
        for command in (["log", "staff", "h"], *(["diff", "staff", "h", *pair] for pair in
                        [(it + 3, it + 4) for it in range(len(NAMES) - 1)])):
            status, out, err = self.ask(*command)
            self.assertEqual((0, ""), (status, err))
            self.assertNotRegex(out, "[\x00-\x09\x0b-\x1f\x7f-\x9f\u2028\u202e]")
            self.assertLess(len(out), 5_000)
        self.assertIn("(200004 characters, SHA-256 ", self.ask("diff", "staff", "h", 7, 8)[1])
        self.assertEqual(0, self.ask("restore", "staff", "h", 3)[0])
        self.assertIn(NAMES[0], self.staff.get("h").text)

    def test_hostile_uids(self):
        for uid in HOSTILE:
            self.staff.put(card(uid, "Name"))
        self.follow()
        self.assertEqual({*HOSTILE}, {*self.versions.all()})
        folders = {it.name.lower() for it in (self.backup / "staff/versions").iterdir()}
        self.assertEqual(len(HOSTILE), len(folders))
        for uid in HOSTILE:
            with self.subTest(uid):
                self.assertEqual(0, self.ask("log", "staff", "--", uid)[0])
                self.assertEqual(0, self.ask("restore", "staff", "--", uid,
                                             self.texts(uid)[-1][0])[0])

    def test_a_refused_token_starts_anew(self):
        """What changed while the token became too old is kept: edits, removals, new cards."""
        for uid in "bc":
            self.staff.put(card(uid, uid))
        self.follow()
        self.staff.put(card("a", "Later"))
        self.staff.remove("b")
        self.staff.put(card("d", "New"))
        self.staff.forget(self.staff.tally()["number"])
        self.follow()
        self.assertEqual([(1, self.first), (2, self.second), (5, card("a", "Later"))], self.texts())
        self.assertEqual([(3, card("b", "b")), (3, "")], self.texts("b"))
        self.assertEqual([(4, card("c", "c"))], self.texts("c"))
        self.assertEqual([(7, card("d", "New"))], self.texts("d"))

    def test_a_restored_server(self):
        """Two texts may have one version then; each has a name of its own."""
        self.start_anew()
        other, book = card("a", "Other"), office(self.server).book("staff")
        book.put(other)
        self.follow()
        self.assertEqual([(1, self.first), (2, self.second), (1, other)], self.texts())
        status, _, err = self.ask("restore", "staff", "a", 1)
        self.assertEqual(1, status)
        labels = re.search("several texts have the version 1: name (.*) or (.*)\n", err)
        self.assertEqual(0, self.ask("restore", "staff", "a", labels[1])[0])
        self.assertEqual(self.first, book.get("a").text)
        self.assertIn(labels[2], self.ask("log", "staff", "a")[1])

    def test_the_folder_of_before(self):
        """A folder without lists gets them, and one without versions the present ones."""
        self.staff.put(card("b", "Bob"))
        self.follow()
        self.staff.remove("b")
        self.follow()
        wanted = self.texts(), self.texts("b")
        for path in (self.backup / "staff/versions").glob("*/index.json"):
            path.unlink()
        self.forget_the_memory()
        self.follow()
        self.assertEqual(wanted, (self.texts(), self.texts("b")))
        self.assertEqual({"a", "b"}, {*self.versions.all()})

    def forget_the_memory(self):
        import sqlite3
        with sqlite3.connect(self.backup / "staff/.tosculai.db") as db:
            db.execute("DELETE FROM facts WHERE name = 'memory'")
        db.close()

    def test_a_damaged_list(self):
        path = self.backup / "staff/versions/a/index.json"
        for octets in b"", b"{", b"[]", b'{"versions": [1, {"file": "x"}]}', b"\xff":
            with self.subTest(octets):
                path.write_bytes(octets)
                self.assertEqual(0, self.ask("log", "staff", "a")[0])
        self.staff.put(card("a", "Third"))
        self.follow()
        self.assertEqual([1, 2, 3], [number for number, _ in self.texts()])


class Stopped(FollowTest):
    """A kill at any moment leaves each version or not, and never half."""

    def check(self, uids, most):
        """Each version is whole, once, and in order."""
        for uid in uids:
            kept = [it for it in self.versions.of(uid) if not it.removed]
            self.assertEqual(sorted({it.version for it in kept}), [it.version for it in kept])
            self.assertLessEqual(len(kept), most)
            for it in kept:
                number = int(re.search("FN:Name (\\d+)", self.versions.text(uid, it)).group(1))
                self.assertTrue(self.versions.text(uid, it).endswith("END:VCARD\r\n"))
                self.assertEqual(number * 12 + self.uids.index(uid) + 1, it.version)

    def test_at_each_step(self):
        self.uids = [f"u{number}" for number in range(12)]
        step = 1
        for number in range(4):
            for uid in self.uids:
                self.staff.put(card(uid, f"Name {number}"))
            while is_stopped(lambda: self.follow("--exec", "true"), step):
                self.check(self.uids, number + 1)
                step += 17
            step = 2 + number
            self.check(self.uids, number + 1)
            self.assertEqual({uid: number + 1 for uid in self.uids},
                             {uid: len(self.texts(uid)) for uid in self.uids})

    def test_killed_at_some_time(self):
        """The moments are spread over the time that a round takes on this machine."""
        self.uids = [f"u{number}" for number in range(12)]
        killed = 0
        for number in range(13):
            for uid in self.uids:
                self.staff.put(card(uid, f"Name {number}"))
            if number == 0:
                begin = time.monotonic()
                self.follow()
                duration = time.monotonic() - begin
            else:
                killed += is_killed(self.follow, duration * (number - 1) / 12)
            self.check(self.uids, number + 1)
        self.follow()
        self.assertGreater(killed, 0)
        for uid in self.uids:
            self.assertEqual(12 * 12 + self.uids.index(uid) + 1, self.texts(uid)[-1][0])


class Names(unittest.TestCase):
    def test_the_folder_of_a_card(self):
        """As docs/CLIENTS.md describes it for pages."""
        for uid in [*HOSTILE, "aux.b", "com1", "com10", "_a@b+c=d-e.f", "x" * 80, "x" * 81]:
            plain = re.fullmatch("[a-z0-9_@+=.-]{1,80}", uid) and uid[0] not in "@+=.-"
            device = re.fullmatch("con|prn|aux|nul|(com|lpt)[0-9]", uid.split(".")[0])
            wanted = uid
            if not plain or device or uid.endswith("."):
                between = re.sub("[^a-z0-9]+", "-", uid.lower()).strip("-")
                wanted = between[:40] + "~" + hashlib.sha256(uid.encode()).hexdigest()[:32]
            self.assertEqual("versions/" + wanted, Versions("versions").folder_of(uid))

    def test_names_of_versions(self):
        for name, wanted in [
            ("0000000000012-2026-11-27T031200Z.vcf", (12, "2026-11-27T03:12:00Z", False)),
            ("1000000000000-2026-11-27T031200Z-2.vcf.removed",
             (10**12, "2026-11-27T03:12:00Z", True)),
        ]:
            found = version_of(name)
            self.assertEqual(wanted, (found.version, found.seen, found.removed))
        for name in "index.json", ".new", "12-2026.vcf", "x", "0000000000012-2026-11-27T031200Z":
            self.assertIsNone(version_of(name))


class Unit(unittest.TestCase):
    def test_it_is_as_hardened_as_the_others(self):
        units = {it.name: set(it.read_text().splitlines())
                 for it in (ROOT / "examples").glob("*.service")}
        own = units["contacts-follow.service"]
        wanted = {it for it in units["contacts.service"] if "=" in it and not it.startswith(
            ("#", "Description=", "After=", "User=", "StateDirectory=", "Exec", "Type=", "Timeout",
             # The socket is the server's. Follow has less memory, and may reach other machines.
             "RuntimeDirectory", "LimitAS=", "MemoryMax=", "IPAddress", "PrivateNetwork=",
             "RestrictAddressFamilies="))}
        self.assertEqual(set(), wanted - own)
        self.assertIn("MemoryMax=1G", own)
        self.assertIn("StateDirectory=tosculai-follow", own)
        start = next(it for it in own if it.startswith("ExecStart=")).split()
        self.assertEqual("/var/lib/tosculai-follow", start[2])
        self.assertTrue(os.access(ROOT / "clients/python/follow.py", os.X_OK))
        given = follow.parser().parse_args(start[1:])
        self.assertEqual((True, False), (given.dated, given.once))


if __name__ == "__main__":
    unittest.main()
