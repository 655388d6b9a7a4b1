"""The syncs of clients/python: copies in memory and in a folder, stops at any step, backups.

A longer run: EDITS=10000 ./test python_sync. SEEDS=20 asks for more seeds, and for each step of a
sync to be the one at which it stops.
"""

import io
import os
import shutil
import signal
import subprocess
import unittest
from contextlib import contextmanager, redirect_stdout

from http_requests import COLUMNS, card
from model.cards import read_card
from program import PATIENCE, Folder, Server, run
from python_client import Lossy, cards_of, is_stopped, office, run_command
from sync_trial import UIDS, SyncTrial
from test_python_client import HOSTILE, ClientTest

import vcard3
from tosculai import Copy, LostReply, Report
from tosculai_tools import follow
from tosculai_tools.folder import FolderCopy, FolderError

SEEDS = int(os.environ.get("SEEDS", 2))
EDITS = int(os.environ.get("EDITS", 200))
STRIDE = 8 if SEEDS < 20 else 1  # from one step at which a sync is stopped to the next


class MemoryTest(ClientTest):
    """Copies in memory."""

    def setUp(self):
        super().setUp()
        for uid in "abc":
            self.staff.put(card(uid, uid))
        self.copy = Copy()
        self.staff.sync(self.copy, limit=1)

    def test_edits_on_both_sides(self):
        self.copy.cards["a"] = card("a", "Mine").replace("\r\n", "\n")
        del self.copy.cards["b"]
        self.copy.cards["d"] = card("d", "New")
        self.staff.put(card("c", "Theirs"))
        report = self.staff.sync(self.copy)
        self.assertEqual(Report(pulled=["c"], pushed=["a", "b", "d"]), report)
        wanted = {"a": card("a", "Mine"), "c": card("c", "Theirs"), "d": card("d", "New")}
        self.assertEqual(wanted, cards_of(self.staff))
        self.assertEqual(wanted, {uid: it.replace("\r", "").replace("\n", "\r\n")
                                  for uid, it in self.copy.cards.items()})
        self.assertEqual(Report(), self.staff.sync(self.copy))

    def test_conflicts(self):
        for uid in "ab":
            self.copy.cards[uid] = card(uid, "Mine")
        del self.copy.cards["c"]
        self.staff.put(card("a", "Theirs"))
        self.staff.remove("b")
        self.staff.put(card("c", "Theirs"))
        report = self.staff.sync(self.copy)
        self.assertEqual({"a": "memory", "b": "memory", "c": ""}, report.conflicts)
        self.assertEqual([("a", card("a", "Mine")), ("b", card("b", "Mine"))], self.copy.kept)
        self.assertEqual({uid: card(uid, "Theirs") for uid in "ac"}, self.copy.cards)
        self.assertEqual(self.copy.cards, cards_of(self.staff))

    def test_a_refused_token(self):
        """The sync starts again: local edits stay, and what was removed meanwhile goes."""
        self.copy.cards["a"] = card("a", "Mine")
        self.copy.cards["d"] = card("d", "New")
        self.staff.remove("b")
        self.staff.forget(4)
        report = self.staff.sync(self.copy, limit=1)
        self.assertEqual((["b"], ["a", "d"], {}), (report.pulled, report.pushed, report.conflicts))
        wanted = {"a": card("a", "Mine"), "c": card("c", "c"), "d": card("d", "New")}
        self.assertEqual((wanted, wanted), (self.copy.cards, cards_of(self.staff)))

    def test_edits_that_are_refused(self):
        self.copy.cards["d"] = "BEGIN:VCARD\nVERSION:3.0\nUID:d\nFN:D\nEND:VCARD\n"
        self.copy.cards["e"] = card("f", "Another UID")
        self.copy.cards["a"] = card("a", "Mine")
        report = self.staff.sync(self.copy)
        self.assertEqual({"d": "bad-card, cause 6", "e": "uid-mismatch"}, report.refused)
        self.assertEqual(["a"], report.pushed)
        self.assertEqual(5, len(self.copy.cards))

    def test_a_lost_reply_and_then_no_server(self):
        """The next sync finds out that the edit was made, although it was edited again."""
        self.copy.cards["a"] = card("a", "Mine")
        with Lossy(self.server, ["", *["reply"] * 9]) as proxy:
            with self.assertRaises(LostReply):
                office(proxy, attempts=2).book("staff").sync(self.copy)
        self.copy.cards["a"] = card("a", "Mine again")
        self.assertEqual(Report(pushed=["a"]), self.staff.sync(self.copy))
        self.assertEqual(card("a", "Mine again"), self.staff.get("a").text)


class FolderTest(ClientTest):
    """Copies in a folder."""

    def setUp(self):
        super().setUp()
        self.cards = self.folder / "cards"
        self.copy = FolderCopy(str(self.cards))

    def sync(self, **options):
        return self.staff.sync(FolderCopy(str(self.cards), **options))

    def test_hostile_uids(self):
        rows = [f'"{uid}",Name,,,,,,\n' for uid in (it.replace('"', '""') for it in HOSTILE)]
        self.staff.import_rows(COLUMNS + "".join(rows))
        self.assertEqual(set(HOSTILE), set(self.sync().pulled))
        elsewhere = {it.name for it in self.folder.iterdir() if not it.name.startswith("file")}
        self.assertEqual({"cards"}, elsewhere)
        found = [read_card(it.read_bytes()) for it in self.cards.glob("*.vcf")]
        self.assertEqual({it.uid: it.text.decode() for it in found}, cards_of(self.staff))
        self.assertEqual(len(HOSTILE), len({it.name.lower() for it in self.cards.glob("*.vcf")}))
        for path in self.cards.glob("*.vcf"):
            path.write_bytes(path.read_bytes().replace(b"FN:Name", b"FN:Changed"))
        self.assertEqual(set(HOSTILE), set(self.sync().pushed))
        self.assertNotIn("FN:Name\r\n", "".join(cards_of(self.staff).values()))

    def test_files_that_are_no_card_of_their_own(self):
        self.staff.put(card("a", "Ann"))
        self.staff.put(card("b", "Bob"))
        self.sync()
        (self.cards / "a.vcf").write_bytes(b"")  # as a program does that was stopped
        (self.cards / "b.vcf").write_bytes(b"BEGIN:VCARD\nVERSION:4.0\nUID:b\nFN:\xff\nEND:VCARD\n")
        (self.cards / "again.vcf").write_text(card("c", "One"))
        (self.cards / "zagain.vcf").write_text(card("c", "Two"))
        (self.cards / "none.vcf").write_text("hello")
        (self.cards / "latin.vcf").write_bytes(b"UID:\xff")
        (self.cards / "folder.vcf").mkdir()
        (self.cards / os.fsdecode(b"\xff.vcf")).write_text(card("d", "No name"))
        (self.cards / ".hidden.vcf").write_text(card("h", "Hidden"))
        (self.cards / "notes.txt").write_text("hello")
        report = self.sync()
        self.assertEqual({"a": "bad-card, cause 5", "b": "it isn't UTF-8"}, report.refused)
        why = "it has no UID, or isn't UTF-8"
        self.assertEqual({"zagain.vcf": "it has the same UID as again.vcf", "none.vcf": why,
                          "latin.vcf": why, "\udcff.vcf": why, "folder.vcf": "it is no file"},
                         report.skipped)
        wanted = {"a": card("a", "Ann"), "b": card("b", "Bob"), "c": card("c", "One")}
        self.assertEqual(wanted, cards_of(self.staff))
        self.staff.put(card("b", "Bobby"))
        self.assertEqual({"b": "b.vcf.conflict"}, self.sync().conflicts)
        self.assertIn(b"\xff", (self.cards / "b.vcf.conflict").read_bytes())

    def test_links_that_point_to_nothing(self):
        """Their files may come back, as with a disk that isn't mounted: no card is removed."""
        for uid in "ab":
            self.staff.put(card(uid, uid))
        self.sync()
        (self.folder / "disk").mkdir()
        (self.cards / "b.vcf").rename(self.folder / "disk/b")
        for name in "b.vcf", "renamed.vcf":
            (self.cards / name).symlink_to(self.folder / "disk/b")
            self.assertEqual([], self.sync().pushed)
            (self.folder / "disk").rename(self.folder / "away")
            with self.assertRaisesRegex(FolderError, name + " points to nothing"):
                self.sync()
            self.assertEqual({"a", "b"}, {*cards_of(self.staff)})
            (self.folder / "away").rename(self.folder / "disk")
            (self.cards / name).unlink()
        self.assertEqual(["b"], self.sync().pushed)

    def test_pipes_and_folders(self):
        """They are left alone; and a card whose file became one isn't removed."""
        for uid in "ab":
            self.staff.put(card(uid, uid))
        self.sync()
        signal.alarm(PATIENCE)  # ends the module if it waits for the pipe
        self.addCleanup(signal.alarm, 0)
        os.mkfifo(self.cards / "pipe.vcf")
        (self.cards / "to-pipe.vcf").symlink_to("pipe.vcf")
        why = "it is no file"
        self.assertEqual({"pipe.vcf": why, "to-pipe.vcf": why}, self.sync().skipped)
        (self.cards / "b.vcf").unlink()
        for make, end in (os.mkfifo, os.unlink), (os.mkdir, os.rmdir):
            make(self.cards / "b.vcf")
            with self.assertRaisesRegex(FolderError, "b.vcf is no file any more"):
                self.sync()
            self.assertEqual({"a", "b"}, {*cards_of(self.staff)})
            end(self.cards / "b.vcf")
        self.assertEqual(["b"], self.sync().pushed)

    def test_names_that_are_taken(self):
        """A file that somebody else made is never overwritten."""
        self.cards.mkdir()
        (self.cards / "a.vcf").write_text(card("z", "Zoe"))
        (self.cards / "b.vcf").write_text("no card")
        for uid in "ab":
            self.staff.put(card(uid, uid))
        self.sync()
        names = sorted(it.name for it in self.cards.glob("*.vcf"))
        self.assertEqual(["a.vcf", "a~2.vcf", "b.vcf", "b~2.vcf"], names)
        self.assertEqual("no card", (self.cards / "b.vcf").read_text())
        self.assertEqual(card("z", "Zoe"), self.staff.get("z").text)

    def test_conflicts_are_kept_one_by_one(self):
        self.staff.put(card("a", "Ann"))
        self.sync()
        for number in range(1, 4):
            (self.cards / "a.vcf").write_text(card("a", f"Mine {number}"))
            self.staff.put(card("a", f"Theirs {number}"))
            self.sync()
        names = ["a.vcf.conflict", "a.vcf.conflict-2", "a.vcf.conflict-3"]
        self.assertEqual(names, self.copy.conflicts())
        for number, name in enumerate(names, 1):
            self.assertIn(f"FN:Mine {number}\n", (self.cards / name).read_text())

    def test_somebody_is_faster(self):
        """A card is edited on the server after the pull, right before the local edit arrives."""
        for uid in "ab":
            self.staff.put(card(uid, uid))

        def edit_first(octets):
            if octets.startswith((b"PUT", b"DELETE")):
                uid = "a" if octets.startswith(b"PUT") else "b"
                self.staff.put(card(uid, "Theirs"))

        with Lossy(self.server) as proxy:
            proxy.before_request = edit_first
            book = office(proxy).book("staff")
            book.sync(FolderCopy(str(self.cards)))
            (self.cards / "a.vcf").write_text(card("a", "Mine"))
            (self.cards / "b.vcf").unlink()
            report = book.sync(FolderCopy(str(self.cards)))
        self.assertEqual({"a": "a.vcf.conflict", "b": ""}, report.conflicts)
        self.assertEqual({uid: card(uid, "Theirs") for uid in "ab"}, cards_of(self.staff))

    def test_a_file_that_is_edited_during_the_sync(self):
        """The edit is neither lost nor overwritten: the page is applied again, to the new file."""
        self.staff.put(card("a", "Ann"))
        self.sync()
        self.staff.put(card("a", "Theirs"))
        copy = FolderCopy(str(self.cards))
        carry_out, edits = copy._carry_out, iter([card("a", "Mine 1"), card("a", "Mine 2")])

        def edit_first(plan):
            text = next(edits, None)
            if text:
                (self.cards / "a.vcf").write_text(text)
            carry_out(plan)

        copy._carry_out = edit_first
        self.assertEqual({"a": "a.vcf.conflict"}, self.staff.sync(copy).conflicts)
        self.assertIn("Mine 2", (self.cards / "a.vcf.conflict").read_text())
        self.assertEqual(["a.vcf.conflict"], copy.conflicts())

    def test_folders_that_cannot_be_used(self):
        for uid in "ab":
            self.staff.put(card(uid, uid))
        self.sync()
        with self.assertRaisesRegex(FolderError, "belongs to .*/books/staff"):
            self.clients.sync(self.copy)
        with self.assertRaisesRegex(FolderError, "as vCard 4.0"):
            self.sync(form=vcard3)
        other = FolderCopy(str(self.cards))
        with other.opened(self.staff.url), self.assertRaisesRegex(FolderError, "another sync runs"):
            self.sync()
        for path in self.cards.glob("*.vcf"):
            path.unlink()
        with self.assertRaisesRegex(FolderError, "are gone"):
            self.sync()
        self.assertEqual(2, len(cards_of(self.staff)))
        self.assertEqual(["a", "b"], self.sync(may_be_empty=True).pushed)
        self.assertEqual({}, cards_of(self.staff))

    def test_a_lost_state(self):
        """Without the state, the same cards are taken as they are, and others are conflicts."""
        for uid in "ab":
            self.staff.put(card(uid, uid))
        self.sync()
        (self.cards / ".tosculai.db").unlink()
        (self.cards / "a.vcf").write_text(card("a", "Mine"))
        report = self.sync()
        self.assertEqual(({"a": "a.vcf.conflict"}, []), (report.conflicts, report.pushed))

    def test_a_restored_server(self):
        """After a start over the folder has what the server has, also where the token fits."""
        for uid in "ab":
            self.staff.put(card(uid, uid))
        self.sync()
        self.server.kill()
        (self.folder / "file").unlink()
        (self.folder / "file-wal").unlink()
        run("init", self.folder / "file")
        run("book", self.folder / "file", "staff")
        with Server(self.folder / "file", port=self.server.address[1]):
            for uid in "cd":
                self.staff.put(card(uid, uid))
            self.assertEqual(Report(), self.sync())
            self.assertEqual(set("abcd"), set(self.sync(starts_over=True).pulled))
            self.assertEqual(set("cd"), {it.stem for it in self.cards.glob("*.vcf")})

    def test_older_cards(self):
        text = card("a", "Ann", "LANG:de", "TEL;PREF=1;PID=1.1:1", "BDAY:--0412")
        self.staff.put(text)
        self.sync(form=vcard3)
        path = self.cards / "a.vcf"
        self.assertEqual(vcard3.write(text), path.read_bytes().decode())
        self.assertEqual(Report(), self.sync(form=vcard3))
        path.write_bytes(path.read_bytes().replace(b"FN:Ann", b"FN:Anna"))
        self.assertEqual(["a"], self.sync(form=vcard3).pushed)
        self.assertEqual(text.replace("FN:Ann", "FN:Anna"), self.staff.get("a").text)

    def test_the_command(self):
        url = f"http://127.0.0.1:{self.server.address[1]}"

        def sync(*options):
            return run_command("sync", url, "staff", self.cards, *options)[:2]

        self.staff.put(card("a", "Ann"))
        self.assertEqual((0, "1 pulled, 0 pushed\n"), sync())
        (self.cards / "a.vcf").write_text(card("a", "Mine"))
        (self.cards / "x.vcf").write_text("x")
        self.staff.put(card("a", "Theirs"))
        skipped = "skipped x.vcf: it has no UID, or isn't UTF-8\n"
        conflict = "conflict a: the server's card stays, yours is in a.vcf.conflict\n"
        self.assertEqual((1, "1 pulled, 0 pushed\n" + conflict + skipped), sync())
        (self.cards / "x.vcf").unlink()
        kept = "kept a.vcf.conflict: use what you need, and remove it\n"
        self.assertEqual((1, "0 pulled, 0 pushed\n" + kept), sync())
        (self.cards / "a.vcf.conflict").unlink()
        self.assertEqual((0, "0 pulled, 0 pushed\n"), sync())
        self.assertEqual((3, ""), sync("--as", "3.0"))


class Stops(unittest.TestCase):
    """A sync with every case of edits on both sides is stopped at one step after another."""

    HERE = {"-": None, "e": "put_here", "r": "remove_here"}
    THERE = {"-": None, "e": "put_there", "r": "remove_there"}
    # By the edits here and there: whose card stays, and whether the other one is kept.
    OUTCOMES = {
        "--": ("old", False), "-e": ("theirs", False), "-r": (None, False),
        "e-": ("mine", False), "ee": ("theirs", True), "er": (None, True),
        "r-": (None, False), "re": ("theirs", False), "rr": (None, False),
        # New cards of the same UID, on one side or on both.
        "new e-": ("mine", False), "new -e": ("theirs", False), "new ee": ("theirs", True),
    }

    CHANGES = 9 + 8 + 3  # of the book: the old cards, the edits there, and then those from here

    @contextmanager
    def edited(self, step):
        """A trial whose folder and book have all cases, and the texts that each UID may have."""
        with Folder(in_memory=True) as folder:
            trial = SyncTrial(self, step, folder / "file", folder / "cards", 0)
            with trial.started():
                texts = {uid: {} for uid in self.OUTCOMES}
                for uid in self.OUTCOMES:
                    if not uid.startswith("new"):
                        trial.put_there(uid)
                        texts[uid]["old"] = trial.book.get(uid).text
                trial.sync()
                for uid in self.OUTCOMES:
                    here, there = self.HERE[uid[-2]], self.THERE[uid[-1]]
                    if here:
                        getattr(trial, here)(uid)
                    if there:
                        getattr(trial, there)(uid)
                    if here == "put_here":
                        texts[uid]["mine"] = trial.files()[uid][1]
                    if there == "put_there":
                        texts[uid]["theirs"] = trial.book.get(uid).text
                yield trial, texts

    def test_and_nobody_edits_meanwhile(self):
        """After the next sync all is as if there had been one sync alone."""
        for step in range(min(2, STRIDE), 1000, STRIDE):
            with self.subTest(step=step), self.edited(step) as (trial, texts):
                was_stopped = trial.stop_sync(step)
                trial.sync()
                trial.check()
                stay = {uid: texts[uid].get(self.OUTCOMES[uid][0]) for uid in texts}
                self.assertEqual({uid: it for uid, it in stay.items() if it}, cards_of(trial.book))
                kept = {texts[uid]["mine"] for uid in texts if self.OUTCOMES[uid][1]}
                self.assertEqual(kept, {it.read_text().replace("\n", "\r\n")
                                        for it in trial.folder.glob("*.conflict*")})
                self.assertEqual(self.CHANGES, trial.book.tally()["number"])
            if not was_stopped:
                break

    def test_and_then_all_is_edited(self):
        """Somebody edits or removes all cards, on one side, before the next sync."""
        afterwards = ["put_here", "remove_here", "put_there", "remove_there"]
        for step in range(3, 1000, STRIDE):
            with self.subTest(step=step), self.edited(step) as (trial, texts):
                was_stopped = trial.stop_sync(step)
                edit = afterwards[step // STRIDE % 4]
                side = trial.files() if edit.endswith("_here") else cards_of(trial.book)
                for uid in side:
                    getattr(trial, edit)(uid)
                trial.sync()
                trial.check()
            if not was_stopped:
                break


    def test_the_first_sync(self):
        """All cards that the first sync has begun to bring are removed before the second one."""
        for step in range(1, 1000, STRIDE):
            with self.subTest(step=step), Folder(in_memory=True) as folder:
                trial = SyncTrial(self, step, folder / "file", folder / "cards", 0)
                with trial.started():
                    for uid in UIDS[:5]:
                        trial.put_there(uid)
                    for uid in UIDS[4:6]:
                        trial.put_here(uid)
                    was_stopped = trial.stop_sync(step)
                    for uid in cards_of(trial.book):
                        trial.remove_there(uid)
                    trial.sync()
                    trial.check()
            if not was_stopped:
                break


class Trials(unittest.TestCase):
    def test_random_edits_and_stops(self):
        for seed in range(1, 1 + SEEDS):
            with self.subTest(seed=seed), Folder(in_memory=True) as folder:
                loss = 0.02 if seed % 2 else 0
                trial = SyncTrial(self, seed, folder / "file", folder / "cards", EDITS, loss)
                trial.go()
                self.assertGreater(trial.counts["stopped"], 3)
                if EDITS >= 10_000:
                    print(f"seed {seed}: {trial.written} cards written, {dict(trial.counts)}")


class Backups(ClientTest):
    """follow.py keeps each version once, whenever it is stopped, and sends nothing."""

    EDITS = 5

    def setUp(self):
        super().setUp()
        self.backup = self.folder / "backup"
        self.texts = []

    def follow(self, *options):
        url = f"http://127.0.0.1:{self.server.address[1]}"
        with redirect_stdout(io.StringIO()):
            self.assertEqual(0, follow.main([url, str(self.backup), "--once", *options]))

    def follow_edits(self, *options):
        """Follows a few edits of a card, and others. Before each sync another one is stopped."""
        for number in range(self.EDITS):
            self.texts.append(card("a", f"Ann {number}"))
            self.staff.put(self.texts[-1])
            self.clients.put(card(f"c/{number}", "Cy"))
            if number:
                self.clients.remove(f"c/{number - 1}")
            for step in range(1, 200, 16 * 8 // STRIDE):
                is_stopped(lambda: self.follow(*options), step + number)
            self.follow(*options)
        mirror = {it.name: it.read_bytes().decode() for it in self.backup.glob("staff/*.vcf")}
        self.assertEqual({"a.vcf": self.texts[-1]}, mirror)
        self.assertEqual(1, len(list(self.backup.glob("clients/*.vcf"))))
        (self.backup / "staff/a.vcf").write_text(card("a", "Edited by mistake"))
        self.follow(*options)
        self.assertEqual(self.EDITS, self.staff.get("a").version)

    def test_dated(self):
        self.follow_edits("--dated")
        found = sorted(self.backup.glob("staff/versions/a/*.vcf"))
        self.assertEqual(self.texts, [it.read_bytes().decode() for it in found])
        for number, path in enumerate(found, 1):
            self.assertRegex(path.name, fr"^{number:013}-20\d\d-\d\d-\d\dT\d{{6}}Z\.vcf$")
        others = self.backup.glob("clients/versions/*")
        endings = sorted(([it.suffix for it in sorted(card.glob("0*"))] for card in others), key=len)
        self.assertEqual([[".vcf"], *[[".vcf", ".removed"]] * (self.EDITS - 1)], endings)

    def test_git(self):
        if not shutil.which("git"):
            self.skipTest("no git on this machine")
        self.follow_edits()

        def git(*arguments):
            done = subprocess.run(["git", "-C", str(self.backup), *arguments],
                                  stdout=subprocess.PIPE, timeout=PATIENCE, check=True)
            return done.stdout.decode(errors="replace")

        commits = git("log", "--reverse", "--format=%H", "--", "staff/a.vcf").split()
        shown = [git("show", f"{commit}:staff/a.vcf") for commit in commits]
        wanted = [*self.texts, card("a", "Edited by mistake")]
        self.assertEqual([it.split() for it in wanted], [it.split() for it in shown])
        names = set(git("ls-tree", "--name-only", "HEAD").split())
        self.assertEqual({".gitignore", "staff", "clients"}, names)
        self.assertEqual("", git("status", "--porcelain"))


if __name__ == "__main__":
    unittest.main()
