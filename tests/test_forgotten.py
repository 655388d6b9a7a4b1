"""A person's data ends: docs/OPERATING.md names what holds them, and the commands that end it.

After the commands the octets of each file are searched for the person's name.
"""

import base64
import os
import random
import shutil
import subprocess
import unittest
from unittest import mock

from carddav_client import Stack, STAFF, card3
from http_requests import card
from program import PATIENCE, Folder, run
from python_client import is_stopped, office, run_command
from test_follow import FollowTest

from tosculai import uid_of
from tosculai_tools.folder import FolderCopy
from tosculai_tools.versions import Versions

UID, NAME = "zebedee-quux", "Zebedee Quux"
PHOTO = bytes(random.Random("photo").randrange(256) for _ in range(250_000))
NEEDLES = [b"zebedee", b"quux", PHOTO[1000:1100].lower(), base64.b64encode(PHOTO)[30:60].lower()]


def holding(folder, *left_out):
    """The files that have something of the person in their octets or their names."""
    found = set()
    for path in folder.rglob("*"):
        name = str(path.relative_to(folder))
        if name.split("/")[0] in left_out:
            continue
        octets = path.read_bytes().lower() if path.is_file() else b""
        if any(it in octets or it in name.encode().lower() for it in NEEDLES):
            found.add(name)
    return found


def in_git(folder):
    """Whether git has something of the person, in a commit or outside of all."""
    done = subprocess.run(["git", "-C", str(folder), "cat-file", "--batch", "--batch-all-objects"],
                          stdout=subprocess.PIPE, timeout=PATIENCE, check=True)
    return any(it in done.stdout.lower() for it in NEEDLES)


class Everywhere(FollowTest):
    """All that the page names: the file and its log, backups, folders, follow, the gateway."""

    def setUp(self):
        held = Folder(in_memory=True)
        self.folder = held.__enter__()
        self.addCleanup(held.__exit__)
        self.stack = Stack(self.folder)
        self.addCleanup(self.stack.stop)
        self.server, self.staff = self.stack.server, self.stack.books[0]
        self.backup = self.folder / "dated"
        self.has_git = bool(shutil.which("git"))

    def follow_all(self):
        url = f"http://127.0.0.1:{self.server.address[1]}"
        self.assertEqual(0, self.call(url, self.folder / "dated", "--once", "--dated")[0])
        if self.has_git:
            self.assertEqual(0, self.call(url, self.folder / "repository", "--once")[0])
        self.staff.sync(FolderCopy(str(self.folder / "cards")))

    def fill(self):
        """A card with versions, which a phone gave a large photo, among others."""
        dav = self.stack.client()
        self.addCleanup(dav.close)
        for number in range(30):
            self.staff.put(card(f"other-{number}", f"Other {number}", "NOTE:" + "x" * 500))
        for number in range(3):
            self.staff.put(card(UID, NAME, f"TEL:{number}", f"NOTE:{NAME} " + "y" * 9_000))
            self.follow_all()
        photo = "PHOTO;ENCODING=b;TYPE=JPEG:" + base64.b64encode(PHOTO).decode()
        status = dav.ask("PUT", STAFF + UID + ".vcf", card3(UID, NAME, photo)).status
        self.assertIn(status, (200, 201, 204))
        self.follow_all()
        copies = self.folder / "copies"
        copies.mkdir()
        self.server.kill()
        for path in self.folder.glob("office.db*"):
            shutil.copy(path, copies)
        self.stack.start_server()
        self.server = self.stack.server
        return dav

    def test_the_commands_of_the_page(self):
        dav = self.fill()
        tops = {it.split("/")[0] for it in holding(self.folder)}
        wanted = {"office.db", "dated", "copies", "cards", "state"}
        self.assertLessEqual(wanted, {it.replace("-wal", "") for it in tops})
        self.assertIn("photos", {it.split("/")[1] for it in holding(self.folder / "state", "x")
                                 if "/" in it} | set(os.listdir(self.stack.state)))
        self.assertTrue(any((self.stack.state / "photos").iterdir()))
        # 1. The card is removed, and the book forgets that it was there.
        url = f"http://127.0.0.1:{self.server.address[1]}"
        self.assertEqual(0, run_command("remove", url, "staff", UID)[0])
        number = self.staff.tally()["number"]
        self.assertEqual(0, run_command("forget", url, "staff", number)[0])
        # 2. What follows the book learns it: phones, folders, `follow`.
        self.follow_all()
        self.assertEqual(404, dav.ask("GET", STAFF + UID + ".vcf").status)
        # 3. The versions that `follow` kept.
        for folder in ["dated"] + ["repository"] * self.has_git:
            status, out, err = self.call("purge", self.folder / folder, "staff", UID)
            self.assertEqual((0, ""), (status, err), out)
        if self.has_git:
            self.assertFalse(in_git(self.folder / "repository"))
        # 4. The file of books, with the service stopped.
        self.stack.stop()
        self.write_anew(self.folder / "office.db")
        self.assertEqual(0, run("verify", self.folder / "office.db").status)
        # 5. The gateway's names and photos, with the gateway stopped.
        self.stack.start_server()
        self.server = self.stack.server
        self.tidy_gateway()
        # What is left are the backups.
        self.assertEqual({"copies"}, {it.split("/")[0] for it in holding(self.folder)})
        shutil.rmtree(self.folder / "copies")
        self.assertEqual(set(), holding(self.folder))
        self.check_the_others()

    def write_anew(self, file):
        copy = self.folder / "erased.db"
        self.assertEqual(0, run("copy", file, copy).status)
        for it in file, self.folder / "office.db-wal":
            it.unlink(missing_ok=True)
        copy.rename(file)

    def tidy_gateway(self):
        photos = self.stack.state / "photos"
        for path in photos.iterdir():
            os.utime(path, (0, 0))  # as 30 days later
        gateway = [str(it) for it in (self.stack_program(), "--server", self.stack.url, "--state",
                                      self.stack.state)]
        for option in "--start-over", "--tidy":
            subprocess.run([*gateway, option], check=True, timeout=PATIENCE,
                           stdout=subprocess.DEVNULL)
        self.assertEqual([], list(photos.iterdir()))

    def stack_program(self):
        from carddav_client import FOLDER
        return FOLDER / "carddav"

    def check_the_others(self):
        """All other cards are where they were, and their versions, too."""
        book = office(self.server).book("staff")
        self.assertEqual(30, book.tally()["cards"])
        self.stack.start()
        self.follow_all()
        names = [f"other-{number}" for number in range(30)]
        self.assertEqual(sorted(names), sorted(
            it.name for it in (self.folder / "dated/staff/versions").iterdir()))
        self.assertEqual(30, len(list((self.folder / "cards").glob("*.vcf"))))


class Purges(FollowTest):
    """follow purge"""

    def setUp(self):
        super().setUp()
        self.options = ["--dated"]

    def follow(self, *options, status=0):
        url = f"http://127.0.0.1:{self.server.address[1]}"
        done = self.call(url, self.backup, "--once", *self.options, *options)
        self.assertEqual(status, done[0], done)

    def fill(self):
        """Two versions of the person's card and of another one, whose first names the person."""
        for number in range(2):
            self.staff.put(card(UID, NAME, f"TEL:{number}"))
            self.staff.put(card("b", "Bob", "NOTE:" + (NAME if not number else "x")))
            self.follow("--exec", "false", status=3)

    def left(self, uid):
        return [it.version for it in self.versions.of(uid) if not it.removed]

    def test_a_card_that_was_removed(self):
        self.fill()
        self.staff.remove(UID)
        self.follow()
        (self.backup / "staff/z.vcf.conflict").write_text(card(UID, NAME))
        status, out, err = self.ask("purge", "staff", UID)
        self.assertEqual((0, "staff zebedee-quux: 2 versions ended\n"
                          "staff z.vcf.conflict: ended\n", ""), (status, out, err))
        self.assertEqual({f"staff/versions/b/{self.versions.of('b')[0].file}"},
                         holding(self.backup))
        self.assertEqual([2, 4], self.left("b"))
        done = self.ask("purge", "staff", UID)
        self.assertEqual((0, "no version was kept\n", ""), done)

    def test_a_card_that_is_there(self):
        """Its present text stays, and that is said."""
        self.fill()
        status, out, err = self.ask("purge", "staff", UID)
        self.assertEqual((1, ""), (status, err))
        self.assertIn("staff zebedee-quux: 1 versions ended\n", out)
        self.assertIn("the book still has the card, so its present text stays", out)
        self.assertEqual([3], self.left(UID))
        self.assertEqual([(3, card(UID, NAME, "TEL:1"))], self.texts(UID))
        self.staff.put(card(UID, NAME, "TEL:2"))
        self.follow()
        self.assertEqual([3, 5], self.left(UID))

    def test_a_text(self):
        self.fill()
        self.staff.remove(UID)
        self.follow()
        status, out, err = self.ask("purge", "--text", "zeBEDEE")
        self.assertEqual((1, ""), (status, err))
        self.assertRegex(out, r"^staff b: 2-\S+\nstaff zebedee-quux: 1-\S+, 3-\S+\nnothing was")
        self.assertEqual([1, 3], self.left(UID))
        self.assertEqual(0, self.ask("purge", "--text", "zeBEDEE", "--yes")[0])
        self.assertEqual(set(), holding(self.backup))
        self.assertEqual([4], self.left("b"))
        self.assertEqual(1, len(self.texts("b")))
        self.assertEqual((0, "no version has it\n", ""), self.ask("purge", "--text", "zebedee"))

    def test_what_a_stop_left(self):
        """The new text of a card that was removed and forgotten before `follow` ran again."""
        for arguments in ["--text", "zebedee", "--yes"], ["staff", UID]:
            self.staff.put(card(UID, NAME))
            self.staff.put(card("b", "Bob"))
            step, new = 1, self.backup / f"staff/versions/{UID}/.new"
            while not new.exists() or NAME not in new.read_text():
                shutil.rmtree(self.backup, ignore_errors=True)
                self.assertTrue(is_stopped(self.follow, step))
                step += 1
            self.staff.remove(UID)
            self.staff.forget(self.staff.tally()["number"])
            self.follow()
            name = f"staff versions/{UID}/.new"
            self.assertEqual((1, f"{name}: what a stop left\nnothing was ended: look "
                              "at this list, and add --yes\n", ""),
                             self.ask("purge", "--text", "zebedee"))
            self.assertEqual((0, f"{name}: ended\n", ""), self.ask("purge", *arguments))
            self.assertEqual(set(), holding(self.backup))
            self.assertTrue(self.left("b"))

    def test_a_list_of_another_card(self):
        """It doesn't hide the texts beside it; and what nothing explains is said."""
        self.fill()
        self.staff.remove(UID)
        self.follow()
        for path in self.backup.glob("staff/versions/*/index.json"):
            path.write_text('{"uid": "other", "versions": []}')
        shutil.copytree(self.backup / f"staff/versions/{UID}", self.backup / "staff/versions/x~1")
        said = "staff versions/x~1: nothing in it says whose versions these are"
        status, out, err = self.ask("purge", "--text", "zebedee")
        self.assertEqual((1, ""), (status, err))
        self.assertRegex(out, r"^staff b: 2-\S+\nstaff zebedee-quux: 1-\S+, 3-\S+\n" + said)
        for arguments in ["staff", UID], ["--text", "zebedee", "--yes"]:
            status, out, err = self.ask("purge", *arguments)
            self.assertEqual((1, ""), (status, err))
            self.assertIn(said, out)
            self.assertFalse((self.backup / f"staff/versions/{UID}").exists())
        shutil.rmtree(self.backup / "staff/versions/x~1")
        self.assertEqual(set(), holding(self.backup))
        self.assertEqual(0, self.ask("purge", "--text", "zebedee", "--yes")[0])

    def test_a_removal_without_a_list(self):
        self.fill()
        self.staff.remove(UID)
        self.follow()
        folder = self.backup / "staff/versions" / UID
        for path in folder.iterdir():
            if path.suffix != ".removed":
                path.unlink()
        self.assertEqual(0, self.ask("purge", "--text", "zebedee", "--yes")[0])
        self.assertFalse(folder.exists())

    def test_conflicts_are_listed(self):
        self.fill()
        self.staff.remove(UID)
        self.follow()
        self.ask("purge", "staff", UID)
        self.ask("purge", "--text", "zebedee", "--yes")
        for name in "a.vcf.conflict", "b.vcf.conflict-2":
            (self.backup / "staff" / name).write_text(card(UID, NAME if name[0] == "b" else "Zoe"))
        status, out, err = self.ask("purge", "--text", "zebedee quux")
        self.assertEqual((1, "staff b.vcf.conflict-2: a card that lost a conflict\nnothing was "
                          "ended: look at this list, and add --yes\n", ""), (status, out, err))
        self.assertEqual((0, "staff b.vcf.conflict-2: ended\n", ""),
                         self.ask("purge", "--text", "zebedee quux", "--yes"))
        self.assertEqual({"staff/a.vcf.conflict"}, holding(self.backup))

    def test_a_text_with_escapes_and_folds(self):
        self.staff.put(card("a", "Lee, Pat; Jr.", "NOTE:" + "x" * 60 + "Zebedee Quux, " + "y" * 60))
        self.staff.put(card("b", "Päť"))
        self.follow()
        for text, uids in [("lee, pat; j", "a"), ("quux, y", "a"), ("PÄŤ", "b"), ("x\\,", "")]:
            out = self.ask("purge", "--text", text)[1]
            self.assertEqual(uids, "".join(it[6] for it in out.splitlines() if it[:6] == "staff "))

    def test_git(self):
        if not shutil.which("git"):
            self.skipTest("no git on this machine")
        self.options = []
        self.fill()
        self.assertTrue(in_git(self.backup))
        self.staff.remove(UID)
        self.follow()
        listed = self.ask("purge", "--text", "zebedee")[1]
        self.assertIn("\n3 texts of git's history\nnothing was ended", listed)
        with mock.patch("tosculai_tools.git.forget", side_effect=OSError("stopped")):
            self.assertEqual(3, self.ask("purge", "--text", "zebedee", "--yes")[0])
        self.assertEqual("3 texts of git's history\nnothing was ended: look at this list, and add "
                         "--yes\n", self.ask("purge", "--text", "zebedee")[1])
        self.assertEqual(0, self.ask("purge", "--text", "zebedee", "--yes")[0])
        self.assertFalse(in_git(self.backup))
        self.assertEqual(set(), holding(self.backup))
        self.staff.put(card("b", "Bobby"))
        self.follow()

        def git(*arguments):
            done = subprocess.run(["git", "-C", str(self.backup), *arguments], check=True,
                                  stdout=subprocess.PIPE, timeout=PATIENCE)
            return done.stdout.decode()

        self.assertEqual("", git("status", "--porcelain"))
        shown = git("log", "-p", "--", "staff/b.vcf")
        self.assertIn("+FN:Bobby", shown)
        self.assertIn("+NOTE:x", shown)
        subprocess.run(["git", "-C", str(self.backup), "fsck", "--strict"], check=True,
                       stdout=subprocess.DEVNULL, stderr=subprocess.DEVNULL, timeout=PATIENCE)

    def other_repository(self):
        """A repository of somebody else with the person's name, and what tells all that it has."""
        if not shutil.which("git"):
            self.skipTest("no git on this machine")
        other = self.folder / "other"

        def git(*arguments):
            done = subprocess.run(["git", "-C", str(other), *arguments], check=True,
                                  stdout=subprocess.PIPE, timeout=PATIENCE)
            return done.stdout.decode()

        other.mkdir()
        git("init", "-q")
        (other / ".gitignore").write_text("backup")
        (other / "cards").write_text(card(UID, NAME))
        git("add", "-A")
        git("-c", "user.name=x", "-c", "user.email=x@y", "commit", "-q", "-m", "theirs")
        return other, lambda: git("log", "--all", "--reflog", "-p") + git("status", "--porcelain")

    def purge_in_git(self):
        self.options = []
        self.fill()
        self.staff.remove(UID)
        self.follow()
        self.assertEqual(0, self.ask("purge", "--text", "zebedee", "--yes")[0])

    def test_git_that_runs_within_a_hook_of_git(self):
        """The environment there names another repository, which nothing changes."""
        other, told = self.other_repository()
        wanted = told()
        inherited = {"GIT_DIR": str(other / ".git"), "GIT_WORK_TREE": str(other),
                     "GIT_INDEX_FILE": str(other / ".git/index"),
                     "GIT_OBJECT_DIRECTORY": str(other / ".git/objects")}
        with mock.patch.dict(os.environ, inherited):
            self.purge_in_git()
        self.assertFalse(in_git(self.backup))
        self.assertEqual(set(), holding(self.backup))
        self.assertEqual(wanted, told())

    def test_git_within_the_folder_of_another_repository(self):
        """A `git init` that was stopped leaves a folder in which git looks for others above."""
        other, told = self.other_repository()
        wanted = told()
        self.backup = other / "backup"
        self.versions = Versions(str(self.backup / "staff/versions"))
        (self.backup / ".git").mkdir(parents=True)
        status, _, err = self.ask("purge", "--text", "zebedee", "--yes")
        self.assertEqual((3, wanted), (status, told()))
        self.assertIn("git can't read the history", err)
        self.purge_in_git()
        self.assertFalse(in_git(self.backup))
        self.assertEqual(wanted, told())

    def test_git_of_another_book(self):
        """A card of the same UID in another book keeps its history."""
        if not shutil.which("git"):
            self.skipTest("no git on this machine")
        self.options = []
        self.fill()
        self.staff.move(UID, "clients")
        self.follow()
        self.clients.put(card(UID, NAME, "TEL:5"))
        self.follow()
        self.assertEqual(0, self.ask("purge", "staff", UID)[0])

        def git(*arguments):
            done = subprocess.run(["git", "-C", str(self.backup), *arguments], check=True,
                                  stdout=subprocess.PIPE, timeout=PATIENCE)
            return done.stdout.decode()

        self.assertEqual("", git("status", "--porcelain"))
        self.assertEqual("", git("log", "--oneline", "--", f"staff/{UID}.vcf"))
        shown = git("log", "-p", "--", f"clients/{UID}.vcf")
        self.assertEqual([True, True], [f"+TEL:{it}" in shown for it in (1, 5)])

    def test_kills(self):
        """After a kill at any moment another purge ends the rest, and harms nothing else."""
        self.fill()
        self.staff.remove(UID)
        self.follow()
        whole = self.folder / "whole"
        shutil.copytree(self.backup, whole)
        step = 1
        for arguments in (["staff", UID], ["--text", "zebedee", "--yes"]):
            was_stopped = True
            while was_stopped:
                shutil.rmtree(self.backup)
                shutil.copytree(whole, self.backup)
                was_stopped = is_stopped(lambda: self.ask("purge", *arguments), step)
                step += 2
                self.assertEqual(4, self.left("b")[-1])
                self.assertEqual(0, self.ask("purge", *arguments)[0])
                rest = holding(self.backup)
                self.assertEqual(arguments[0] == "staff", bool(rest), (step, rest))
                self.assertTrue(all(it.startswith("staff/versions/b/") for it in rest), (step, rest))
                self.assertEqual(0, self.ask("log", "staff", "b")[0])
                self.follow()
            step = 1
        self.assertEqual(uid_of(self.versions.text("b", self.versions.of("b")[-1])), "b")


class Synced(FollowTest):
    def test_a_folder_keeps_nothing_of_a_removed_card(self):
        cards = self.folder / "cards"
        for number in range(40):
            self.staff.put(card(UID, NAME, f"NOTE:{number}" + NAME * 2_000))
            self.staff.put(card(f"o{number}", "Other", "NOTE:" + "x" * 4_000))
            if number % 10 == 9:
                self.staff.sync(FolderCopy(str(cards)))
        self.assertIn("zebedee-quux.vcf", holding(cards))
        self.staff.remove(UID)
        self.staff.sync(FolderCopy(str(cards)))
        self.assertEqual(set(), holding(cards))


if __name__ == "__main__":
    unittest.main()
