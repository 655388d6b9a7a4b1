"""The program `carddav`: its arguments, users, sockets, `--check`, `--nginx`, and its state."""

import base64
import io
import os
import re
import sys
import unittest
import warnings
from contextlib import redirect_stderr, redirect_stdout
from unittest import mock

from carddav_client import CLIENTS, PASSWORD, STAFF, Client, GatewayTest, Stack, card3
from http_requests import card
from program import ROOT, Folder
from python_client import Forwarder

from gateway import accounts, cli, readers


def run(*arguments, line=""):
    """What the program does with these arguments: its status, and what it printed."""
    out, err = io.StringIO(), io.StringIO()
    with redirect_stdout(out), redirect_stderr(err), mock.patch.object(sys, "stdin",
                                                                       io.StringIO(line)):
        try:
            status = cli.main([*map(str, arguments)])
        except SystemExit as end:
            status = end.code
    return status, out.getvalue(), err.getvalue()


class Sockets(GatewayTest):
    """The server is at a socket of the file system, and so is the gateway."""

    socket = True

    def test_both_sockets(self):
        path = str(self.stack.folder / "server.sock")
        forwarder = Forwarder(path, self.stack.server.address)
        self.addCleanup(forwarder.listener.close)
        self.stack.kill_gateway()
        self.stack.url = "unix:" + path
        self.stack.start()
        reply = self.dav.ask("PUT", STAFF + "a.vcf", card3("a", "Ann"), If_None_Match="*")
        self.assertEqual(201, reply.status)
        self.assertEqual([STAFF + "a.vcf"], list(self.dav.sync(STAFF).etags()))
        self.assertEqual({"a"}, self.members(self.staff))
        self.assertEqual(0o660, os.stat(self.stack.place).st_mode & 0o777)
        status, out, _ = run("--server", "unix:" + path, "--state", self.stack.state, "--check")
        self.assertEqual(0, status)
        self.assertIn(f"{STAFF}  1 cards, read, write", out)
        # A socket in use stays; one that nobody has is replaced, as `start` did after the kill.
        other = self.stack.folder / "other"
        status, _, err = run("--server", "unix:" + path, "--state", other, "--socket",
                             self.stack.place)
        self.assertEqual(3, status)
        self.assertIn("another program listens there", err)


class Program(GatewayTest):
    def test_arguments(self):
        state = self.stack.state
        self.assertIn("usage: carddav", run("--help")[1])
        for arguments, status, words in [
            (["--state", state], 2, "one of --port and --socket is needed"),
            (["--state", state, "--port", "0", "--server", "ftp://x"], 3, "not the URL"),
            (["--state", state, "--port", "0"], 3, "another gateway uses it"),
            (["--state", state, "--port", "0", "--server", "unix:"], 3, "a socket's path"),
            (["user", "add", "eve", "--state", state, "--book", "staff:x"], 3, "isn't BOOK:r"),
            (["user", "add", "a b", "--state", state, "--book", "staff:r"], 3, "a user's name"),
            (["user", "add", "eve", "--state", state], 3, "a user needs a right"),
            (["user", "remove", "eve", "--state", state], 3, "there is no user eve"),
        ]:
            with self.subTest(arguments):
                got = run(*arguments)
                self.assertEqual(status, got[0])
                self.assertIn(words, got[2])

    def test_what_a_phone_would_see(self):
        self.staff.put(card("a", "Ann"))
        server = self.stack.url
        status, out, _ = run("--server", server, "--state", self.stack.state, "--check")
        self.assertEqual(0, status)
        for line in ("has 2 books: clients, staff",
                     f"ann's phone\n  {CLIENTS}  0 cards, read, write",
                     f"hall's phone\n  {STAFF}  1 cards, read\n"):
            self.assertIn(line, out)
        status, out, _ = run("--server", "http://127.0.0.1:1", "--state", self.stack.state,
                             "--check")
        self.assertEqual(1, status)
        self.assertIn("no phone sees anything", out)


class Users(unittest.TestCase):
    def setUp(self):
        self.folder = Folder()
        self.state = self.folder.__enter__()
        self.addCleanup(self.folder.__exit__)

    def user(self, *arguments, line=""):
        status, out, err = run("user", *arguments, "--state", self.state, line=line)
        self.assertEqual((0, ""), (status, err))
        return out

    def test_users(self):
        self.user("add", "ann", "--book", "staff:rw", "--book", "clients:r", line="secret\n")
        self.user("add", "hall", "--book", "*:r", "--no-password")
        self.assertEqual("ann clients:r staff:rw\nhall *:r no password\n", self.user("list"))
        self.assertEqual(0o600, os.stat(self.state / "users").st_mode & 0o777)
        users = accounts.read(str(self.state / "users"))
        self.assertTrue(accounts.is_right("secret", users["ann"].hash))
        self.assertFalse(accounts.is_right("Secret", users["ann"].hash))
        for nobody in "", "-", "$7$x":
            self.assertFalse(accounts.is_right("", nobody))
        self.user("add", "ann", "--book", "staff:r", line="\n")
        new = accounts.read(str(self.state / "users"))["ann"]
        self.assertEqual((users["ann"].hash, {"staff": "r"}), (new.hash, new.rights))
        self.user("remove", "ann")
        self.assertEqual("hall *:r no password\n", self.user("list"))

    def test_groups(self):
        """Cards, unless categories are asked for. What isn't given stays as it was."""
        for more, line, has in [
            (["--book", "staff:rw"], "secret\n", False), (["--groups", "categories"], "\n", True),
            (["--book", "staff:r"], "\n", True), (["--groups", "cards"], "\n", False),
            (["--groups", "categories", "--no-password"], "", True)]:
            self.user("add", "ann", *more, line=line)
            users = accounts.Users(str(self.state / "users"), True)
            self.assertEqual(has, users.accounts()["ann"].has_categories, more)
            self.assertEqual(has, users.find({"x-remote-user": "ann"}, "").has_categories)
        self.assertEqual("ann staff:r groups=categories no password\n", self.user("list"))
        status, out, err = run("user", "add", "cal", "--book", "staff:r", "--token", "--groups",
                               "categories", "--state", self.state)
        self.assertEqual((3, "carddav: --groups is for users with a password\n"), (status, err))

    def test_readers(self):
        """A token is printed once, and kept as a digest. Neither kind has a password."""
        token = self.user("add", "cal", "--book", "staff:r", "--token").strip()
        self.assertRegex(token, "^[a-z2-9]{32}$")
        self.user("add", "hall", "--book", "*:r", "--from", "10.0.0.0/8", "--from", "fd00::/8")
        listed = "cal staff:r by a token\nhall *:r from 10.0.0.0/8, fd00::/8\n"
        self.assertEqual(listed, self.user("list"))
        self.assertNotIn(token, (self.state / "users").read_text())
        self.user("add", "cal", "--book", "clients:r")  # its token stays
        users = accounts.Users(str(self.state / "users"), False)
        who = readers.find(users, f"/find/{token}", {}, "")
        self.assertEqual(("cal", {"clients": "r"}), (who.user, who.rights))
        other = self.user("add", "cal", "--book", "clients:r", "--token").strip()
        self.assertIsNone(readers.find(users, f"/find?token={token}", {}, ""))
        self.assertEqual("cal", readers.find(users, f"/find?q=&token={other}", {}, "").user)
        self.assertEqual("hall", readers.find(users, "/find", {}, "10.1.1.1").user)
        for option in "map", "passwords":
            self.assertEqual((0, "", ""), run("--state", self.state, "--nginx", option))
        for arguments, words in [
            (["--book", "staff:rw", "--token"], "a token or an address only reads"),
            (["--book", "staff:rw"], "a token or an address only reads"),
            (["--book", "staff:r", "--token", "--from", "10.0.0.0/8"], "choose one of"),
            (["--book", "staff:r", "--from", "10.0.0.1/8"], "a range is as 10.0.0.0/8"),
        ]:
            status, out, err = run("user", "add", "cal", *arguments, "--state", self.state)
            self.assertEqual((3, ""), (status, out))
            self.assertIn(words, err)
        status, out, err = run("--state", self.state, "--port", "0", "--country", "0353")
        self.assertEqual(2, status)
        self.assertIn("a code has one to three digits", err)

    def test_the_hash_is_that_of_crypt(self):
        """nginx checks the same hash by crypt(3). The first is of RFC 7914, 12."""
        vector = "$7$C6..../....SodiumChloride$kBGj9fHznVYFQMEn/qDCfrDevf9YDtcDdKvEqHJLV8D"
        self.assertTrue(accounts.is_right("pleaseletmein", vector))
        try:
            with warnings.catch_warnings():
                warnings.simplefilter("ignore")
                from crypt import crypt
        except ImportError:
            self.skipTest("this Python has no crypt")
        own = accounts.hashed(PASSWORD, "0123abcd")
        try:
            theirs = crypt(PASSWORD, own)
        except OSError:
            theirs = None
        if not theirs or not theirs.startswith("$7$"):
            self.skipTest("this system's crypt(3) has no scrypt")
        self.assertEqual(theirs, own)

    def test_lines_for_nginx(self):
        """The map is that of examples/nginx.conf."""
        users = [("admin", "*:rw"), ("ann", "staff:rw clients:rw"), ("bob", "staff:rw clients:r"),
                 ("hall.x", "staff:r"), ("zoe", "*:rw clients:r staff:r own:rw")]
        accounts.write(str(self.state / "users"), {
            name: accounts.Account("hash", accounts.rights_of(rights.split()))
            for name, rights in users})
        status, out, _ = run("--state", self.state, "--nginx", "map")
        self.assertEqual(0, status)
        self.assertEqual([
            '"~^admin \\S+ \\S* \\S+$" 1;',
            '"~^ann \\S+ (clients|staff) (clients|staff|_)$" 1;',
            '"~^bob \\S+ (staff) (staff|_)$" 1;', '"~^bob GET (clients|staff) _$" 1;',
            '"~^hall\\.x GET (staff) _$" 1;',
            # The first line that fits counts, as in nginx.
            '"~^zoe (?!GET )\\S+ (clients|staff) \\S+$" 0;',
            '"~^zoe \\S+ \\S* (clients|staff)$" 0;',
            '"~^zoe \\S+ \\S* \\S+$" 1;', '"~^zoe \\S+ (own) (own|_)$" 1;',
            '"~^zoe GET (clients|own|staff) _$" 1;'], out.splitlines())
        lines = [re.fullmatch('"~(.*)" ([01]);', it).groups() for it in out.splitlines()]
        for asked, wanted in [
            ("zoe GET staff _", "1"), ("zoe PUT staff _", "0"), ("zoe PUT own _", "1"),
            ("zoe PUT other _", "1"), ("zoe GET  _", "1"), ("zoe POST own staff", "0"),
            ("zoe POST staff own", "0"), ("zoe POST own other", "1"), ("zoex GET own _", ""),
            ("bob PUT clients _", ""), ("bob POST staff clients", ""), ("bob GET clients _", "1"),
            ("ann POST staff clients", "1"), ("ann POST staff other", ""),
        ]:
            allowed = next((it for line, it in lines if re.search(line, asked)), "")
            self.assertEqual(wanted, allowed, asked)
        self.assertIn('"~^hall GET staff _$"', (ROOT / "examples/nginx.conf").read_text())
        self.assertEqual("admin:hash\nann:hash\nbob:hash\nhall.x:hash\nzoe:hash\n",
                         run("--state", self.state, "--nginx", "passwords")[1])

    def test_a_wrong_file(self):
        for text in "ann\n", "a:b hash staff:r\n", "ann hash staff\n", "ann hash staff:w\n":
            (self.state / "users").write_text("# ok\n" + text)
            status, _, err = run("user", "list", "--state", self.state)
            self.assertEqual(3, status)
            self.assertIn("users, line 2", err)


class States(unittest.TestCase):
    def test_nobody_is_served_without_users(self):
        with Folder(in_memory=True) as folder:
            stack = Stack(folder, users={})
            try:
                dav = stack.client()
                reply = dav.ask("PROPFIND", STAFF)
                self.assertEqual(401, reply.status)
                self.assertIn("carddav user add NAME --book BOOK:rw", reply.text)
                self.assertIn("carddav user add", stack.logged())
                # A user who is added now is served at once.
                self.assertEqual(0, run("user", "add", "ann", "--book", "*:rw", "--state",
                                        stack.state, line=PASSWORD + "\n")[0])
                self.assertEqual(207, dav.propfind(STAFF, "<D:displayname/>").status)
                dav.close()
            finally:
                stack.stop()

    def test_a_lost_and_a_restored_state(self):
        """Without its names the gateway refuses each token once; so it does if it starts over."""
        with Folder(in_memory=True) as folder:
            stack = Stack(folder, more=["--log"])
            try:
                self.lose(stack)
            finally:
                stack.stop()

    def lose(self, stack):
        dav = stack.client()
        dav.ask("PUT", STAFF + "mine.vcf", card3("a", "Ann"))
        token = dav.sync(STAFF).token
        self.assertIn("ann PUT /dav/books/staff/mine.vcf 201", stack.logged())
        stack.kill_gateway()
        self.assertEqual((0, "", ""), run("--state", stack.state, "--start-over"))
        stack.start()
        dav.close()
        self.assertEqual(("valid-sync-token", True), dav.sync(STAFF, token).reason)
        self.assertEqual([STAFF + "mine.vcf"], list(dav.sync(STAFF).etags()))
        self.forget(stack, dav)
        token = dav.sync(STAFF).token
        stack.kill_gateway()
        for name in os.listdir(stack.state):
            if name.startswith("names.db"):
                os.unlink(stack.state / name)
        stack.start()
        dav.close()
        self.assertEqual(("valid-sync-token", True), dav.sync(STAFF, token).reason)
        self.assertEqual([STAFF + "a.vcf"], list(dav.sync(STAFF).etags()))
        dav.close()

    def forget(self, stack, dav):
        """The name of a card that is gone is forgotten by it, once the books were read again."""
        dav.ask("PUT", STAFF + "zoe-secret.vcf", card3("z", "Zoe"))
        dav.ask("DELETE", STAFF + "zoe-secret.vcf")
        dav.close()
        self.assertIn(b"zoe-secret", self.octets_after(stack, "--tidy"))
        self.octets_after(stack, "--start-over")
        self.assertNotIn(b"zoe-secret", self.octets_after(stack, "--tidy"))
        self.assertEqual([STAFF + "mine.vcf"], list(dav.sync(STAFF).etags()))
        stack.books[0].put(card("z", "Zoe"))
        self.assertEqual({STAFF + "mine.vcf", STAFF + "z.vcf"}, set(dav.sync(STAFF).etags()))
        stack.books[0].remove("z")

    def octets_after(self, stack, order):
        """Gives an order with the gateway stopped; returns the octets of the state's file then."""
        stack.kill_gateway()
        given = ["--state", stack.state, "--server", stack.url, order]
        self.assertEqual((0, "", ""), run(*given))
        octets = b"".join(it.read_bytes() for it in stack.state.glob("names.db*"))
        stack.start()
        return octets

    def test_photos_that_no_card_names(self):
        with Folder(in_memory=True) as folder:
            stack = Stack(folder)
            try:
                dav = stack.client()
                for uid in "ab":
                    photo = base64.b64encode(uid.encode() * 300_000).decode()
                    text = card3(uid, uid, f"PHOTO;ENCODING=b:{photo}")
                    dav.ask("PUT", f"{STAFF}{uid}.vcf", text)
                dav.ask("DELETE", STAFF + "a.vcf")
                dav.close()
                photos = stack.state / "photos"
                self.assertEqual(2, len(os.listdir(photos)))
                stack.kill_gateway()
                arguments = ["--server", stack.url, "--state", stack.state, "--tidy"]
                self.assertEqual("", run(*arguments)[1])  # they aren't old enough
                for name in os.listdir(photos):
                    os.utime(photos / name, (0, 0))
                self.assertIn("removed ", run(*arguments)[1])
                self.assertEqual(1, len(os.listdir(photos)))
                stack.start()
                dav = Client(stack.place)
                self.assertIn("PHOTO;ENCODING=b", dav.ask("GET", STAFF + "b.vcf").text)
                dav.close()
            finally:
                stack.stop()


if __name__ == "__main__":
    unittest.main()
