"""`contacts restore BACKUP FILE`: a copy is put back, and every device notices.

What has to be there afterwards is written by hand, or read by sqlite3 from the copy.
"""

import os
import signal
import stat
import subprocess
import time
import unittest

from http_requests import SYNC, books, create, put, sync
from office_files import TOO_OLD, QuickFolder, ask, bodies, contents, fault, log_of, make
from office_files import run_order, start_again
from program import PROGRAM, Ended, Server
from tables import setUpModule  # noqa: F401



def mode_of(path):
    return stat.S_IMODE(path.stat().st_mode)


class RestoreTest(unittest.TestCase):
    """An office with a backup that lacks the last changes of the book and two books."""

    def setUp(self):
        folder = QuickFolder()
        self.folder = folder.__enter__()
        self.addCleanup(folder.__exit__)
        self.file, self.backup = self.folder / "office.db", self.folder / "backup.db"
        self.looks = 0

    def lay(self):
        """The copy has two changes of `staff`; three more are lost, and so are two books."""
        make(self.file, "staff")
        ask(self.file, put("staff", "a", "Ann"), put("staff", "b", "Bob"))
        self.assertEqual(Ended(0, b"copied 1\n", b""), run_order("copy", self.file, self.backup))
        *_, page = ask(self.file, put("staff", "c", "Cy"), put("staff", "a", "Anna"),
                       put("staff", "d", "Dee"), create("young"), create("clients"),
                       put("young", "y", "Yan"), sync("staff"))
        self.assertEqual(f"{SYNC}1/5/5", page["token"])
        return page

    def contents(self, file):
        self.looks += 1
        return contents(file, self.folder / f"look {self.looks}")

    def names(self):
        """What is in the folder."""
        return sorted(it.name for it in self.folder.iterdir() if not it.name.startswith("look"))

    def own_names(self):
        """The same, but for a log of the copy: looking at one that is no store makes it."""
        return [it for it in self.names() if it != "backup.db-wal"]

    def restore(self, *options):
        return run_order("restore", self.backup, self.file, *options)

    def kept(self, number=1):
        return self.folder / f"office.db.before-restore-{number}"

    def printed(self, *lines):
        return Ended(0, b"".join(it.encode() + b"\n" for it in lines), b"")


class Restores(RestoreTest):
    def test_lost_time(self):
        """Tokens and versions of the lost time are refused, and the device ends with the book."""
        page = self.lay()
        lost = {it["uid"]: it["version"] for it in page["members"]}
        self.assertEqual({"b": 2, "c": 3, "a": 4, "d": 5}, lost)
        backup = self.contents(self.backup)
        wanted = self.printed(f"kept {self.kept()}", "remade young",
                              "remade clients", "restored 3")
        self.assertEqual(wanted, self.restore())
        self.assertEqual(backup, self.contents(self.backup))

        start_again(self, self.file, lost)

    def test_lost_books(self):
        """They get their ids again, are empty, and take no token of before."""
        self.lay()
        self.assertEqual(0, self.restore("--skip", 10).status)
        young, clients, page, listed = ask(
            self.file, sync("young", "2/1/1"), sync("clients", "3/0/0"), sync("young"), books())
        self.assertEqual([TOO_OLD, TOO_OLD], [young, clients])
        self.assertEqual({"members": [], "token": f"{SYNC}2/10/10", "truncated": False}, page)
        self.assertEqual({"staff": 1, "young": 2, "clients": 3},
                         {it["name"]: it["id"] for it in listed["books"]})

    def test_kept(self):
        """What was lost can be read from the file that is kept."""
        self.lay()
        before = self.contents(self.file)
        self.assertEqual(0, self.restore().status)
        self.assertEqual(before, self.contents(self.kept()))
        self.assertEqual(["backup.db", "office.db", "office.db.before-restore-1"],
                         [it for it in self.names() if not it.endswith("-wal")])
        self.assertEqual(0, run_order("verify", self.kept()).status)

    def test_again(self):
        """A second restore of the same copy takes no number that the first one took."""
        self.lay()
        self.assertEqual(0, self.restore().status)
        *_, lost = ask(self.file, put("staff", "e", "Eve"), put("young", "z", "Zed"), sync("staff"))
        self.assertEqual(f"{SYNC}1/1000003/1000003", lost["token"])
        self.assertEqual(0, self.restore().status)
        staff, young, page, other = ask(self.file, sync("staff", "1/1000003/1000003"),
                                        sync("young", "2/1000001/1000001"), sync("staff"),
                                        sync("young"))
        self.assertEqual([TOO_OLD, TOO_OLD], [staff, young])
        self.assertEqual({"a": 1, "b": 2}, {it["uid"]: it["version"] for it in page["members"]})
        for it, least in (page, 1_000_003), (other, 1_000_001):
            self.assertGreater(int(it["token"].rpartition("/")[2]), least)

    def test_small_skip(self):
        """Each book passes the numbers of the file, however few are to be skipped."""
        self.lay()
        self.assertEqual(0, self.restore("--skip", 2).status)
        staff, young = ask(self.file, sync("staff", "1/5/5"), sync("young", "2/1/1"))
        self.assertEqual([TOO_OLD, TOO_OLD], [staff, young])

    def test_back(self):
        """What was kept is put back, and devices of the time between start again, too."""
        self.lay()
        self.assertEqual(0, self.restore().status)
        ask(self.file, put("staff", "e", "Eve"))
        self.backup = self.kept()
        self.assertEqual(0, self.restore().status)
        refused, page = ask(self.file, sync("staff", "1/1000003/1000003"), sync("staff"))
        self.assertEqual(TOO_OLD, refused)
        self.assertEqual({"a", "b", "c", "d"}, {it["uid"] for it in page["members"]})

    def test_access(self):
        """The new file and what is kept have the mode of the old file; without one, the copy's."""
        self.lay()
        for it in self.file, log_of(self.file):
            if it.exists():
                it.chmod(0o600)
        self.backup.chmod(0o644)
        self.assertEqual(0, self.restore().status)
        self.assertEqual([0o600, 0o600], [mode_of(self.file), mode_of(self.kept())])
        for it in self.folder.glob("office.db*"):
            it.unlink()
        self.backup.chmod(0o640)
        self.assertEqual(0, self.restore().status)
        self.assertEqual(0o640, mode_of(self.file))

    def test_link(self):
        """A link stays one, and the file that it leads to is replaced."""
        self.lay()
        link = self.folder / "link.db"
        link.symlink_to("office.db")
        ended = run_order("restore", self.backup, link)
        self.assertEqual(0, ended.status)
        self.assertTrue(link.is_symlink())
        self.assertEqual({"staff", "young", "clients"},
                         {it["name"] for it in ask(self.file, books())[0]["books"]})

    def test_log_without_its_file(self):
        """It is kept, since changes may be in it."""
        self.lay()
        for octets in None, b"":
            with self.subTest(octets):
                for it in self.folder.glob("office.db*"):
                    it.unlink()
                if octets is not None:
                    self.file.write_bytes(octets)
                log_of(self.file).write_bytes(b"a log")
                kept = log_of(self.kept())
                self.assertEqual(self.printed(f"kept {kept}", "restored 1"), self.restore())
                self.assertEqual(b"a log", kept.read_bytes())
                self.assertEqual(0, run_order("verify", self.file).status)

    def test_twice(self):
        """Each restore keeps what it replaces."""
        self.lay()
        self.assertEqual(0, self.restore("--skip", 2).status)
        middle = self.contents(self.file)
        wanted = self.printed(f"kept {self.kept(2)}", "remade young",
                              "remade clients", "restored 3")
        self.assertEqual(wanted, self.restore("--skip", 4))
        self.assertEqual(middle, self.contents(self.kept(2)))

    def test_no_file(self):
        self.lay()
        for it in self.file, log_of(self.file):
            it.unlink(missing_ok=True)
        self.assertEqual(self.printed("restored 1"), self.restore())
        self.assertEqual(["backup.db", "office.db"], self.names())

    def test_empty_file(self):
        self.lay()
        log_of(self.file).unlink(missing_ok=True)
        self.file.write_bytes(b"")
        self.assertEqual(self.printed("restored 1"), self.restore())
        self.assertEqual(0, run_order("verify", self.file).status)

    def test_damaged_file(self):
        """A file that can't be read is kept with its log, and the order says so."""
        self.lay()
        octets = bytearray(self.file.read_bytes())
        octets[100:4096] = bytes(3996)
        self.file.write_bytes(octets)
        log_of(self.file).write_bytes(b"a log")
        unread = f"unread {self.file}: its books that the copy hasn't are not made again"
        wanted = self.printed(f"kept {self.kept()}", f"kept {log_of(self.kept())}", unread,
                              "restored 1")
        self.assertEqual(wanted, self.restore())
        self.assertEqual(bytes(octets), self.kept().read_bytes())
        self.assertTrue(log_of(self.kept()).exists())
        self.assertEqual(0, run_order("verify", self.file).status)

    def test_text_file(self):
        self.lay()
        log_of(self.file).unlink(missing_ok=True)
        self.file.write_text("no store")
        ended = self.restore()
        self.assertEqual(0, ended.status)
        self.assertEqual("no store", self.kept().read_text())

    def test_leftover_is_the_copy(self):
        """What a restore left that was stopped can be put back."""
        self.lay()
        leftover = self.folder / "office.db.restoring"
        self.backup.rename(leftover)
        self.backup = leftover
        self.assertEqual(0, self.restore().status)
        self.assertEqual(0, run_order("verify", leftover).status)

    def test_leftover(self):
        """What a restore left that was stopped is no obstacle."""
        self.lay()
        (self.folder / "office.db.restoring").write_text("half a file")
        self.assertEqual(0, self.restore().status)
        self.assertNotIn("office.db.restoring", self.names())


class Refusals(RestoreTest):
    """The file stays as it was, and nothing is left beside it."""

    def assert_refused(self, wanted, *options):
        before, names = self.file.read_bytes(), self.own_names()
        self.assertEqual(wanted, self.restore(*options))
        self.assertEqual(before, self.file.read_bytes())
        self.assertEqual(names, self.own_names())

    def test_running_server(self):
        self.lay()
        with Server(self.file) as server:
            names = self.names()
            self.assertEqual(fault(1), self.restore())
            self.assertEqual(names, self.names())
            page, = bodies(server.ask(sync("staff")))
            self.assertEqual(f"{SYNC}1/5/5", page["token"])

    def test_no_copy(self):
        self.lay()
        self.assertEqual(0, run_order("verify", self.file).status)
        self.backup.unlink()
        self.assert_refused(fault(1))
        self.backup.write_text("no store")
        self.assert_refused(fault(2))

    def test_itself(self):
        """A file isn't put in its own place."""
        self.lay()
        self.backup = self.file
        self.assert_refused(fault(1))

    def test_damaged_copy(self):
        self.lay()
        self.assertEqual(0, run_order("verify", self.file).status)
        octets = bytearray(self.backup.read_bytes())
        octets[100:4096] = bytes(3996)
        self.backup.write_bytes(octets)
        before = self.file.read_bytes()
        self.assertEqual(3, self.restore().status)
        self.assertEqual(before, self.file.read_bytes())

    def test_odd_skip(self):
        self.assertEqual(2, run_order("restore", "a.db", "b.db", "--skip", "3").status)


class Stops(RestoreTest):
    def test_kills(self):
        """A restore that is killed leaves the old file or the new one, whole."""
        self.lay()
        old = self.contents(self.file).rows
        # One file that needs no log.
        whole = self.folder / "whole.db"
        self.assertEqual(0, run_order("copy", self.file, whole).status)
        office, copied = whole.read_bytes(), self.backup.read_bytes()
        seen = set()
        for step in range(60):
            for it in self.folder.glob("office.db*"):
                it.unlink()
            self.file.write_bytes(office)
            self.backup.write_bytes(copied)
            words = [PROGRAM, "restore", self.backup, self.file, "--skip", "4"]
            # Where they share a processor, this test has it first, so that it is in time to kill.
            with subprocess.Popen(words, stdout=subprocess.DEVNULL, stderr=subprocess.DEVNULL,
                                  preexec_fn=lambda: os.nice(10)) as started:
                time.sleep(step * 0.0004)
                started.send_signal(signal.SIGKILL)
            self.assertEqual(0, run_order("verify", self.file).status, step)
            rows = self.contents(self.file).rows
            if rows == old:
                seen.add("old")
                self.assertEqual(0, self.restore("--skip", "4").status)
            else:
                seen.add("new")
                self.assertEqual([(1, b"staff", 6), (2, b"young", 4), (3, b"clients", 4)],
                                 [it[:3] for it in rows[1]])
        self.assertIn("old", seen)


if __name__ == "__main__":
    unittest.main()
