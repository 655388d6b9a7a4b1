"""clients/python/follow.py after the server's file was put back from a copy and resynced.

`follow` is killed at random moments, too. What it has once kept stays, and the last version of each
card is what the book has.
"""

import os
import random
import shutil
import time
import unittest
from unittest import mock

import resynced
from http_requests import card
from program import Server
from python_client import is_killed, office
from test_follow import FollowTest

from tosculai_tools.folder import FolderCopy
from tosculai_tools.versions import LEFT

SEEDS = int(os.environ.get("SEEDS", "3"))
STEPS = 40
FILES = "file", "file-wal"


@unittest.skipUnless(resynced.can_resync(), "neither `contacts resync` nor SQLite 3.37")
class PutBack(FollowTest):
    def setUp(self):
        super().setUp()
        self.copy, self.skip = self.folder / "copy", 0

    def start(self):
        self.server = Server(self.folder / "file", port=self.server.address[1])
        self.addCleanup(self.server.kill)
        self.staff = office(self.server).book("staff")

    def back_up(self):
        """A copy of the file while nothing serves it."""
        self.server.kill()
        shutil.rmtree(self.copy, ignore_errors=True)
        self.copy.mkdir()
        for name in FILES:
            if (self.folder / name).exists():
                shutil.copy(self.folder / name, self.copy / name)
        self.start()

    def put_back(self):
        self.server.kill()
        for name in FILES:
            (self.folder / name).unlink(missing_ok=True)
        for path in self.copy.iterdir():
            shutil.copy(path, self.folder / path.name)
        # One copy may be put back twice: then more numbers are lost.
        self.skip += resynced.SKIP
        resynced.resync(self.folder / "file", self.skip)
        self.start()

    def test_what_was_lost_can_be_put_back(self):
        """The lost texts stay in the memory; a restore is a write under the version of now."""
        first, lost = card("a", "Ann"), card("a", "Anna")
        self.staff.put(first)
        self.follow()
        self.back_up()
        self.staff.put(lost)
        self.staff.put(card("b", "Lost"))
        self.follow()
        self.put_back()
        # Before the next round the memory doesn't know what the book has now.
        status, _, err = self.ask("restore", "staff", "a", 2)
        self.assertEqual((1, True), (status, "somebody changed it meanwhile" in err))
        self.assertEqual(first, self.staff.get("a").text)
        self.follow()
        self.assertEqual([(1, first), (2, lost), (1, first)], self.texts())
        self.assertEqual([(3, card("b", "Lost")), (3, "")], self.texts("b"))
        for uid, version in ("a", 2), ("b", 3):
            status, out, _ = self.ask("restore", "staff", uid, version)
            self.assertEqual(0, status)
            self.assertRegex(out, rf"^version 10\d\d has the text of version {version}\n$")
        self.assertEqual([lost, card("b", "Lost")], [self.staff.get(it).text for it in "ab"])

    def follow_and_stop(self):
        """A round that is stopped when its versions are kept, and nothing else is."""
        def stop(copy, changes, rows, token, report):
            if rows:
                raise KeyboardInterrupt
            return whole(copy, changes, rows, token, report)

        whole = FolderCopy.apply
        with mock.patch.object(FolderCopy, "apply", stop):
            self.assertRaises(KeyboardInterrupt, self.follow)

    def test_a_stop_and_then_a_removal(self):
        """The row of a card that was kept is missing: its removal is kept all the same."""
        text = card("a", "Ann")
        self.staff.put(card("z", "Zoe"))
        self.follow()
        self.staff.put(text)
        self.follow_and_stop()
        self.assertEqual([(2, text)], self.texts())
        self.staff.remove("a")
        self.follow()
        self.assertEqual([(2, text), (2, "")], self.texts())
        self.assertEqual(0, self.ask("restore", "staff", "a", 2)[0])
        self.assertEqual(text, self.staff.get("a").text)

    def test_a_stop_and_then_another_file(self):
        """What was kept of the lost time isn't the last version: an edit, and a new card."""
        first, lost, other = card("a", "Ann"), card("a", "Anna"), card("b", "Bob")
        self.staff.put(first)
        self.follow()
        self.back_up()
        self.staff.put(lost)
        self.staff.put(other)
        self.follow_and_stop()
        self.assertEqual([[(1, first), (2, lost)], [(3, other)]],
                         [self.texts(), self.texts("b")])
        self.put_back()
        self.follow()
        self.assertEqual([[(1, first), (2, lost), (1, first)], [(3, other), (3, "")]],
                         [self.texts(), self.texts("b")])
        self.assertEqual(0, self.ask("restore", "staff", "a", 2)[0])
        self.assertEqual(0, self.ask("restore", "staff", "b", 3)[0])
        self.assertEqual([lost, other], [self.staff.get(it).text for it in "ab"])

    def test_at_random(self):
        self.uids, self.stored = [f"u{it}" for it in range(6)], {}
        for seed in range(SEEDS):
            with self.subTest(seed=seed):
                self.try_one(random.Random(seed))
                shutil.rmtree(self.backup)

    def try_one(self, chance):
        """Edits, removals, copies, files that are put back, and rounds that are killed."""
        self.seen, begun = {}, time.monotonic()
        self.look()
        duration, killed = time.monotonic() - begun, 0
        self.back_up()
        for at in range(STEPS):
            step = chance.randrange(12)
            if step < 5:
                self.edit(chance.choice(self.uids), f"Name {at} {chance.random()}")
            elif step < 6:
                self.remove(chance.choice(self.uids))
            elif step < 10:
                killed += is_killed(self.follow, duration * chance.random())
            elif step < 11:
                self.look()
            else:
                chance.choice([self.back_up, self.put_back])()
        while not killed:
            # The machine was slow when the first round's time was taken.
            duration /= 2
            killed += is_killed(self.follow, duration)
        self.look()

    def edit(self, uid, name):
        text = card(uid, name)
        self.staff.put(text)
        self.stored.setdefault(uid, {""}).add(text)

    def remove(self, uid):
        if self.staff.find(uid):
            self.staff.remove(uid)

    def look(self):
        """A whole round, after which the memory has all that it had, and all that there is."""
        self.follow()
        for path in self.backup.glob("*/versions/*/.*"):
            self.assertIn(path.name, LEFT)  # a stop may leave them, and the next version drops them
            path.unlink()
        for uid in self.uids:
            kept = self.texts(uid) if self.versions.of(uid) else []
            texts, now = [it for _, it in kept], self.staff.find(uid)
            self.assertLessEqual(set(texts), self.stored.get(uid, {""}))
            self.assertLessEqual(self.seen.get(uid, set()), set(kept))
            self.assertNotIn(True, [one == other for one, other in zip(kept, kept[1:])])
            if kept or now:
                self.assertEqual((now.version, now.text) if now else "",
                                 kept[-1] if now else texts[-1])
            self.seen.setdefault(uid, set()).update(kept)


if __name__ == "__main__":
    unittest.main()
