"""The scripts of examples/: an office's first days, and backups with a service that is stopped.

In place of systemctl the backups have commands that ask the test to stop and start its server.
The scripts must do what their comments and docs/OPERATING.md say.
"""

import fcntl
import json
import os
import re
import shutil
import socket
import subprocess
import sys
import threading
import time
import unittest
from fnmatch import fnmatch
from pathlib import Path
from urllib.request import urlopen

from help_texts import HELP
from http_requests import create, get, put, remove
from pages import Page
from program import PATIENCE, PROGRAM, ROOT, Folder, Server, free_port, run

EXAMPLES = ROOT / "examples"
# The commands that a backup needs, beside the shell's own.
COMMANDS = "basename cat cp date flock mkdir mktemp mv rm sh sync".split()
# Each of these waits until the test has stopped or started its server.
STOP = 'echo stop > "$TALK/ask"; cat "$TALK/answer"'
START = 'echo start > "$TALK/ask"; cat "$TALK/answer"'
OLD_COPIES = ["2026-01-01-030000", "2026-01-02-030000", "2026-01-03-030000"]


def lacking(*names):
    """The first of these commands that this machine doesn't have, or None."""
    return next((name for name in names if not shutil.which(name)), None)


def run_whole(test, name):
    """Runs the script of that name, which says at its end that all went well."""
    done = subprocess.run([str(EXAMPLES / f"{name}.sh"), PROGRAM], stdout=subprocess.PIPE,
                          stderr=subprocess.STDOUT, timeout=PATIENCE)
    printed = done.stdout.decode()
    test.assertEqual(0, done.returncode, printed)
    test.assertTrue(printed.endswith(f"\n{name}: all steps went as they should\n"), printed)


class Office(unittest.TestCase):
    def test_the_first_days(self):
        tool = lacking("curl", "jq", "sqlite3")
        if tool:
            self.skipTest(f"no {tool} on this machine")
        run_whole(self, "office")


class Look(unittest.TestCase):
    def test_the_desk_over_the_sample_office(self):
        with Folder() as folder:
            for again in range(2):
                port = str(free_port())
                script = subprocess.Popen(
                    [str(EXAMPLES / "look.sh"), "--port", port], cwd=folder,
                    env={**os.environ, "CONTACTS": PROGRAM}, stdout=subprocess.PIPE)
                try:
                    lines = [script.stdout.readline() for _ in range(1 if again else 4)]
                    self.assertEqual(f"listening 127.0.0.1:{port}\n".encode(), lines[-1])
                    base = f"http://127.0.0.1:{port}"
                    with urlopen(base + "/", timeout=PATIENCE) as page:
                        self.assertEqual((EXAMPLES.parent / "clients/desk/site/index.html")
                                         .read_bytes(), page.read())
                    with urlopen(base + "/books/staff/tally", timeout=PATIENCE) as tally:
                        self.assertEqual(212, json.load(tally)["cards"])
                finally:
                    script.kill()
                    script.communicate()


class MoveIn(unittest.TestCase):
    def test_the_whole_way(self):
        run_whole(self, "move-in")


class Listening(unittest.TestCase):
    """listening.sh, by which a unit waits for its server."""

    def wait_for(self, process, *options):
        """Starts the script."""
        return subprocess.Popen([str(EXAMPLES / "listening.sh"), str(process.pid), *options])

    def listener(self, port):
        """A program that listens at the port once its input ends."""
        code = ("import socket, sys, time; sys.stdin.read(); "
                "it = socket.create_server(('127.0.0.1', int(sys.argv[1]))); time.sleep(3600)")
        process = subprocess.Popen([sys.executable, "-c", code, port], stdin=subprocess.PIPE)
        self.addCleanup(process.wait)
        self.addCleanup(process.kill)
        self.addCleanup(process.stdin.close)
        return process

    def test_a_server_that_listens(self):
        with Folder() as folder:
            more = ["--create", "--host", "office"]
            with Server(folder / "office.db", order="run", more=more) as server:
                port = str(server.address[1])
                for options in [["--port", port], [f"--port={port}"], ["--port", "0"],
                                ["--host", "office", "--port", port, "--log"]]:
                    script = self.wait_for(server.process, *options)
                    self.assertEqual(0, script.wait(PATIENCE), options)

    def test_a_server_at_a_socket(self):
        with Folder() as folder:
            path = str(folder / "office.sock")
            more = ["--create", "--socket", path]
            with Server(folder / "office.db", order="run", more=more) as server:
                for options in [["--socket", path], [f"--socket={path}"],
                                ["--socket", path, "--port", "0"]]:
                    script = self.wait_for(server.process, *options)
                    self.assertEqual(0, script.wait(PATIENCE), options)
                # The path has to be the whole one.
                script = self.wait_for(server.process, "--socket", path[:-1])
                with self.assertRaises(subprocess.TimeoutExpired):
                    script.wait(0.5)
            self.assertEqual(1, script.wait(PATIENCE))
            # A socket is left behind, at which nobody listens.
            self.assertTrue(Path(path).is_socket())
            self.assertEqual(1, self.wait_for(server.process, "--socket", path).wait(PATIENCE))

    def test_it_waits_until_the_port_is_listened_at(self):
        port = str(free_port())
        listener = self.listener(port)
        script = self.wait_for(listener, "--port", port)
        with self.assertRaises(subprocess.TimeoutExpired):
            script.wait(0.5)
        listener.stdin.close()
        self.assertEqual(0, script.wait(PATIENCE))

    def test_a_server_that_has_ended(self):
        ended = subprocess.Popen(["true"])
        ended.wait()
        self.assertEqual(1, self.wait_for(ended, "--port", str(free_port())).wait(PATIENCE))

    def test_the_default_port_is_that_of_run(self):
        port = re.search(r"--port <P>.*\[default: (\d+)\]", HELP["run"])[1]
        self.assertIn(f" port={port}\n", (EXAMPLES / "listening.sh").read_text())


class QuickStart(unittest.TestCase):
    """README's first commands, pasted whole into a shell, twice."""

    def test_each_shell(self):
        if lacking("curl"):
            self.skipTest("no curl on this machine")
        shells = [it for it in ("bash", "dash", "zsh") if not lacking(it)]
        page = Page("README.md")
        block = next(it for it in page.blocks() if it.info == "sh")
        for shell in shells:
            with self.subTest(shell=shell), Folder() as folder:
                (folder / "contacts").symlink_to(PROGRAM)
                (folder / "examples").symlink_to(EXAMPLES)
                text = block.text.replace("8080", str(free_port()))
                for again in False, True:
                    done = subprocess.run([shell], input=text.encode(), cwd=folder,
                                          stdout=subprocess.PIPE, stderr=subprocess.STDOUT,
                                          timeout=PATIENCE)
                    said = done.stdout.decode()
                    self.assertRegex(said, r"(?m)^listening 127\.0\.0\.1:\d+$")
                    wanted = '"put":"unchanged"' if again else '"put":"created"'
                    self.assertIn(wanted, said)
                    self.assertIn(r"\r\nFN:Ann\r\n", said)
                    self.wait_for_the_end(re.search(r"127\.0\.0\.1:(\d+)", said)[1])
                left = {it.name for it in folder.iterdir()} - {"contacts", "examples"}
                ignored = (ROOT / ".gitignore").read_text().split()
                self.assertTrue(all(any(fnmatch(f"/{name}", it) for it in ignored)
                                    for name in left), left)


    def wait_for_the_end(self, port):
        """Waits until the server that was told to end listens no more."""
        ends = time.monotonic() + PATIENCE
        while time.monotonic() < ends:
            try:
                socket.create_connection(("127.0.0.1", int(port)), timeout=PATIENCE).close()
            except ConnectionRefusedError:
                return
            time.sleep(0.01)
        self.fail("the server goes on")


class Service:
    """A server that the commands STOP and START stop and start, as systemctl does a service."""

    def __init__(self, folder):
        self.folder = folder
        self.file = folder / "office.db"
        self.asked = []
        run("init", self.file)
        for name in "ask", "answer":
            os.mkfifo(folder / name)
        self.server = Server(self.file)
        self.thread = threading.Thread(target=self._serve, daemon=True)
        self.thread.start()

    def __enter__(self):
        return self

    def __exit__(self, *_):
        (self.folder / "ask").write_text("end\n")
        self.thread.join(PATIENCE)
        self.server.kill()

    def _serve(self):
        """Does what the commands ask for, until the end. Both are idempotent, as systemctl is."""
        while True:
            asked = (self.folder / "ask").read_text().strip()
            if asked == "end":
                return
            self.asked.append(asked)
            self.server.kill()
            if asked == "start":
                self.server = Server(self.file)
            (self.folder / "answer").write_text("")


class BackupTest(unittest.TestCase):
    """A service with cards in `staff` and `clients`, none in `-x`, and a folder for copies."""

    def setUp(self):
        tool = lacking(*COMMANDS)
        if tool:
            self.skipTest(f"no {tool} on this machine")
        folder = Folder()
        self.folder = folder.__enter__()
        self.addCleanup(folder.__exit__)
        self.service = Service(self.folder)
        self.addCleanup(self.service.__exit__)
        for request in [
            create("staff"),
            create("clients"),
            create("-x"),
            put("staff", "a", "Ann"),
            put("staff", "b", "Bob"),
            put("clients", "p", "Pat"),
        ]:
            self.assertRegex(self.ask(request), rb"^HTTP/1\.1 201 ")
        self.copies = self.folder / "a folder" / "copies"

    def ask(self, request):
        return self.service.server.ask(request)

    def back_up(self, *arguments, **changed):
        """Runs the script with these arguments and environment; returns status and output."""
        environment = {
            **os.environ,
            "CONTACTS": PROGRAM,
            "TALK": str(self.folder),
            "STOP": STOP,
            "START": START,
            **changed,
        }
        done = subprocess.run(
            [str(EXAMPLES / "backup.sh"), *map(str, arguments)],
            env=environment,
            stdin=subprocess.DEVNULL,
            stdout=subprocess.PIPE,
            stderr=subprocess.STDOUT,
            timeout=PATIENCE,
        )
        return done.returncode, done.stdout.decode()

    def back_up_well(self, *books, **changed):
        """A backup that has to succeed; returns the folder of the copy."""
        status, printed = self.back_up(self.service.file, self.copies, *books, **changed)
        self.assertEqual(0, status, printed)
        name = printed.strip().rpartition("/")[2]
        self.assertEqual(f"backup: {self.copies}/{name}\n", printed)
        return self.copies / name

    def make_old_copies(self):
        for name in OLD_COPIES:
            (self.copies / name).mkdir(parents=True)
            (self.copies / name / "office.db").write_bytes(b"old")

    def assert_serves(self):
        """The service runs, with all of its cards."""
        self.assertRegex(self.ask(get("staff", "b")), rb"^HTTP/1\.1 200 ")

    def assert_whole(self, copy):
        """The copy opens, and has both books as they were."""
        self.assertRegex(run("tally", copy / "office.db", "staff").out, rb"(?m)^cards +2$")
        self.assertRegex(run("tally", copy / "office.db", "clients").out, rb"(?m)^cards +1$")


class Backups(BackupTest):
    def test_all_books(self):
        copy = self.back_up_well()
        self.assertEqual(["stop", "start"], self.service.asked)
        self.assert_serves()
        self.assert_whole(copy)
        self.assert_lists_all_books(copy)

    def assert_lists_all_books(self, copy):
        tally = (copy / "tally").read_text()
        wanted = [("-x", "0"), ("clients", "1"), ("staff", "2")]
        self.assertEqual(wanted, re.findall(r"(?m)^name (\S+) id \d+ cards (\d+) ", tally))
        self.assertTrue(tally.endswith("\nverified 3\n"))

    def test_it_needs_few_commands(self):
        path = self.folder / "commands"
        path.mkdir()
        for name in COMMANDS:
            (path / name).symlink_to(shutil.which(name))
        copy = self.back_up_well(PATH=str(path))
        self.assert_whole(copy)
        self.assert_lists_all_books(copy)

    def test_a_file_without_a_book(self):
        new = self.folder / "new.db"
        run("init", new)
        status, printed = self.back_up(new, self.copies)
        self.assertEqual(0, status, printed)
        copy = self.copies / printed.strip().rpartition("/")[2]
        self.assertEqual("verified 0\n", (copy / "tally").read_text())

    def test_one_file_without_the_text_of_removed_cards(self):
        self.ask(put("staff", "z", "Zebedee Quux"))
        self.ask(remove("staff", "z"))
        copy = self.back_up_well()
        self.assertEqual(["office.db", "tally"], sorted(it.name for it in copy.iterdir()))
        self.assertNotIn(b"Zebedee", (copy / "office.db").read_bytes())
        self.assert_whole(copy)

    def test_named_books(self):
        copy = self.back_up_well("staff", "clients")
        self.assertEqual(["stop", "start"], self.service.asked)
        self.assert_serves()
        self.assert_whole(copy)

    def test_only_the_owner_may_read_a_copy(self):
        copy = self.back_up_well("staff")
        for path, mode in [(self.copies, 0o700), (copy, 0o700), (copy / "tally", 0o600)]:
            self.assertEqual(mode, path.stat().st_mode & 0o777)

    def test_a_restore(self):
        copy = self.back_up_well("staff")
        self.ask(put("staff", "c", "Cy"))
        self.service.server.kill()
        done = run("restore", copy / "office.db", self.service.file)
        kept = f"kept {self.service.file}.before-restore-1\nrestored 3\n"
        self.assertEqual((0, kept.encode()), (done.status, done.out))
        self.service.server = Server(self.service.file)
        self.assert_serves()
        self.assertRegex(self.ask(get("staff", "c")), rb"^HTTP/1\.1 404 ")

    def test_the_newest_copies_are_kept(self):
        self.make_old_copies()
        (self.copies / "notes").mkdir()
        # A backup that was killed leaves a part of a copy.
        (self.copies / "part.killed").mkdir()
        copy = self.back_up_well("staff", KEEP="3")
        self.assertEqual(
            [*OLD_COPIES[1:], copy.name, "lock", "notes"],
            sorted(it.name for it in self.copies.iterdir()),
        )


class FailedBackups(BackupTest):
    """After each failure the service runs, no part of a copy is left, and older copies stay."""

    def assert_fails(self, asked, *arguments, **changed):
        self.make_old_copies()
        status, printed = self.back_up(*arguments, **changed)
        self.assertNotEqual(0, status, printed)
        self.assertEqual(asked, self.service.asked, printed)
        self.assert_serves()
        left = sorted(it.name for it in self.copies.iterdir() if it.name != "lock")
        self.assertEqual(OLD_COPIES, left)

    def test_no_file(self):
        missing = self.folder / "missing.db"
        self.assert_fails(["stop", "start"], missing, self.copies, "staff")

    def test_a_copy_that_does_not_open(self):
        fails = self.folder / "fails"
        fails.write_text("#!/bin/sh\nexit 3\n")
        fails.chmod(0o755)
        changed = {"CONTACTS": str(fails)}
        self.assert_fails(["stop", "start"], self.service.file, self.copies, "staff", **changed)

    def test_a_book_that_is_not_there(self):
        self.assert_fails(["stop", "start"], self.service.file, self.copies, "nobody")

    def test_the_service_does_not_stop(self):
        changed = {"STOP": STOP + "; exit 1"}
        self.assert_fails(["stop", "start"], self.service.file, self.copies, "staff", **changed)

    def test_the_service_does_not_start(self):
        # It is asked to start once more at the end, and does.
        once = 'test -e "$TALK/tried" || { touch "$TALK/tried"; exit 1; }; '
        changed = {"START": once + START}
        self.assert_fails(["stop", "start"], self.service.file, self.copies, "staff", **changed)

    def test_a_signal_while_the_service_is_stopped(self):
        changed = {"STOP": STOP + "; kill -TERM $PPID"}
        self.assert_fails(["stop", "start"], self.service.file, self.copies, "staff", **changed)

    def test_another_backup_is_running(self):
        self.make_old_copies()
        with open(self.copies / "lock", "w") as lock:
            fcntl.flock(lock, fcntl.LOCK_EX)
            status, printed = self.back_up(self.service.file, self.copies, "staff")
        self.assertEqual((1, "backup: another backup is running\n"), (status, printed))
        self.assertEqual([], self.service.asked)

    def test_no_copy_would_be_kept(self):
        changed = {"KEEP": "0"}
        self.assert_fails([], self.service.file, self.copies, "staff", **changed)

    def test_no_folder(self):
        self.assert_fails([], self.service.file)


if __name__ == "__main__":
    unittest.main()
