"""clients/python/follow.py: the commands that it runs for each version, and who made one."""

import io
import json
import os
import time
import unittest
from contextlib import redirect_stdout

from http_requests import card
from program import Server
from python_client import is_stopped, office
from test_follow import FollowTest
from test_python_client import HOSTILE

from tosculai_tools import authors, follow, hooks


class Hooks(FollowTest):
    """--exec"""

    def setUp(self):
        super().setUp()
        self.told = self.folder / "told"
        self.hook = f"cat >> {self.told}"

    def events(self):
        lines = self.told.read_text().splitlines() if self.told.exists() else []
        return [json.loads(line) for line in lines]

    def test_what_a_command_is_told(self):
        self.staff.put(card("a", "Ann"))
        self.follow("--exec", self.hook)
        self.staff.put(card("a", "Anna"))
        self.follow("--exec", self.hook)
        self.staff.remove("a")
        self.follow("--exec", self.hook)
        self.follow("--exec", self.hook)
        first, second, third = self.events()
        common = {"book": "staff", "uid": "a", "who": None}
        paths = [os.path.join(self.versions.folder_of("a"), it.file)
                 for it in self.versions.of("a")]
        for event, wanted in [
            (first, {"version": 1, "event": "changed", "file": paths[0], "before": None}),
            (second, {"version": 2, "event": "changed", "file": paths[1], "before": paths[0]}),
            (third, {"version": 2, "event": "removed", "file": None, "before": paths[1]}),
        ]:
            self.assertEqual({**common, **wanted, "seen": event["seen"]}, event)

    def test_nothing_of_a_card_is_run(self):
        for uid in HOSTILE:
            self.staff.put(card(uid, f"$(touch {self.folder}/made); `touch {self.folder}/made`"))
        self.follow("--exec", self.hook)
        self.assertEqual({*HOSTILE}, {it["uid"] for it in self.events()})
        self.assertFalse((self.folder / "made").exists())

    def test_a_command_that_fails(self):
        """It is said, the version is kept, and it is run again, after the others."""
        for uid in "abc":
            self.staff.put(card(uid, uid))
        status, _, err = self.follow("--exec", f"{self.hook}; ! grep -q '\"a\"'  {self.told}",
                                     status=3)
        self.assertEqual(3, err.count("the command failed (status 1) for version"), err)
        self.assertIn("of a; it is run again in the next round", err)
        self.assertEqual([(1, card("a", "a"))], self.texts())
        self.told.unlink()
        self.follow("--exec", f"{self.hook}; test -e {self.folder}/well || "
                    f"! tail -1 {self.told} | grep -q '\"a\"'", status=3)
        self.assertEqual(["a", "b", "c"], [it["uid"] for it in self.events()])
        self.told.unlink()
        (self.folder / "well").touch()
        self.follow("--exec", self.hook)
        self.assertEqual(["a"], [it["uid"] for it in self.events()])
        self.follow("--exec", self.hook)
        self.assertEqual(1, len(self.events()))

    def test_a_failure_does_not_keep_others_waiting(self):
        for number in range(9):
            self.staff.put(card(f"u{number}", "Name"))
        for _ in range(4):
            self.call(f"http://127.0.0.1:{self.server.address[1]}", self.backup, "--once",
                      "--dated", "--exec", f"{self.hook}; tail -1 {self.told} | grep -qv 'u[012]'")
        self.assertEqual({f"u{number}" for number in range(9)}, {it["uid"] for it in self.events()})

    def test_a_command_that_hangs(self):
        begun = time.monotonic()
        self.assertEqual("it took more than 0.3 seconds",
                         hooks.run_hook("sleep 60 & sleep 60", {}, 0.3))
        self.assertEqual("status 127", hooks.run_hook("/nowhere/command", {}))
        self.assertEqual("", hooks.run_hook("true", {"uid": "x" * 1_000_000}))
        self.assertLess(time.monotonic() - begun, 50)

    def test_each_version_is_told_at_least_once(self):
        """Whenever it is stopped; and in the end nothing is left to be told."""
        told = set()
        for step in range(20, 400, 29):
            self.staff.put(card("a", f"Ann {step}"))
            is_stopped(lambda: self.follow("--exec", self.hook), step)
            told |= {it["version"] for it in self.events()}
        self.follow("--exec", self.hook)
        told = {it["version"] for it in self.events()}
        self.assertEqual({number for number, _ in self.texts()}, told)
        count = len(self.events())
        self.follow("--exec", self.hook)
        self.assertEqual(count, len(self.events()))


class Who(FollowTest):
    """--log"""

    def line(self, method, target, more="", status=200):
        return f"request {method} {target} status {status} octets 1 microseconds 2{more}\n"

    def put_by(self, user, version):
        """What a line ends with that has a user and a reply."""
        return f' user {user} reply {{"put":"edited","version":{version}}}'

    def test_lines(self):
        def change(line):
            return [tuple(it) for it in authors.changes_of(line.strip())]

        put = self.line("PUT", "/books/staff/cards/a%2Fb", self.put_by("ann", 7), 201)
        both = [("staff", "a", True, 5, "ann"), ("clients", "a", False, 1, "ann")]
        for line, wanted in [
            (put, [("staff", "a/b", False, 7, "ann")]),
            ("Nov 27 03:12:00 host contacts[123]: " + put, [("staff", "a/b", False, 7, "ann")]),
            (self.line("PUT", "/books/staff/cards/a?version=1"),
             [("staff", "a", False, None, None)]),
            (self.line("DELETE", "/books/staff/cards/a", ' reply {"number":4}'),
             [("staff", "a", True, 4, None)]),
            (self.line("PUT", "/books/staff/cards/a", ' user ann reply {"put":"crea..'),
             [("staff", "a", False, None, "ann")]),
            (self.line("PUT", "/books/staff/cards/a", ' user Zo\\xc3\\xab\\x20Q reply {}'),
             [("staff", "a", False, None, "Zoë Q")]),
            (self.line("PUT", "/books/staff/cards/\\xc3\\xa9", " user ann"),
             [("staff", "é", False, None, "ann")]),
            (self.line("POST", "/books/staff/cards/a/move?version=1&to=clients",
                       ' user ann reply {"from":5,"version":1}'), both),
            (self.line("POST", "/books/staff/import?key=k", " user ann"),
             [("staff", None, False, None, "ann")]),
            (self.line("PUT", "/books/staff/cards/a", " user ann", 412), []),
            (self.line("GET", "/books/staff/cards/a", " user ann"), []),
            (self.line("PUT", "/books/staff/cards/a..", " user ann"), []),
            (self.line("PUT", "/books/staff", " user ann"), []),
            ("refused bad-host 23 status 400 octets 133", []),
            ("request", []), ("", []), ("request PUT /books/staff/cards/a user", []),
        ]:
            with self.subTest(line):
                self.assertEqual(wanted, change(line))

    def test_who_made_a_version(self):
        log = self.folder / "log"
        log.write_text(self.line("PUT", "/books/staff/cards/a", " user old"))

        def add(*lines):
            with open(log, "a", encoding="utf-8") as file:
                file.write("".join(lines))

        settings = follow.Settings(authors.Authors(str(log)), None, False)
        follower = follow.Follower(office(self.server), str(self.backup), settings)
        self.backup.mkdir()
        target = "/books/staff/cards/a"
        for at, (text, lines, who) in enumerate([
            ("Ann", [], None),
            ("B", [(self.put_by("ann", 2),)], "ann"),
            ("C", [(self.put_by("bob", 3),), (" user eve",)], "bob"),
            ("D", [(" user cy",)], "cy"),
            ("E", [(" user cy",), (" user eve",)], None),
            ("F", [("",)], None),
            ("G", [(self.put_by("eve", 99),)], None),
        ], 1):
            self.staff.put(card("a", text))
            add(*(self.line("PUT", target, *more) for more in lines))
            with redirect_stdout(io.StringIO()):
                self.assertEqual(0, follower.round())
            self.assertEqual((at, card("a", text), who), self.listed()[-1])
        log.rename(self.folder / "log.1")  # the log is rotated
        self.staff.put(card("a", "H"))
        add(self.line("PUT", target, self.put_by("ann", 8)))
        with redirect_stdout(io.StringIO()):
            follower.round()
        self.assertEqual("ann", self.listed()[-1][2])
        self.staff.remove("a")
        add(self.line("DELETE", target, " user dan version 9"))
        with redirect_stdout(io.StringIO()):
            follower.round()
        self.assertEqual((8, "", "dan"), self.listed()[-1])
        self.assertIn(" by dan: removed\n", self.ask("log", "staff", "a")[1])
        self.assertIn(", by dan\n", self.ask("diff", "staff", "a")[1])

    def test_the_log_of_the_server_today(self):
        """Its lines have no user: nobody is named, and the log of a server does no harm."""
        self.server.kill()
        log = self.folder / "log"
        with Server(self.folder / "file", more=["--log"]) as self.server:
            office(self.server).book("staff").put(card("a", "Ann"))
            log.write_bytes(self.server.process.stderr.readline())
            self.follow("--log", str(log))
            self.assertIn("request PUT /books/staff/cards/a status 201", log.read_text())
            self.assertEqual([(1, card("a", "Ann"), None)], self.listed())
        done = self.call("http://127.0.0.1:1", self.backup, "--log", self.folder / "none")
        self.assertEqual(3, done[0])
        self.assertIn("No such file", done[2])


if __name__ == "__main__":
    unittest.main()
