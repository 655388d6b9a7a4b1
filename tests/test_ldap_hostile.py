"""What nobody should do to the LDAP directory: strangers, removed users, filters without an end."""

import os
import socket
import sys
import threading
import time
import unittest
from unittest import mock

from carddav_client import HASH, PASSWORD
from http_requests import card
from ldap_client import number, text, write
from program import PATIENCE, ROOT
from test_ldap import OTHER, STAFF, TOKEN, LdapTest

from gateway import accounts, readers

sys.path.insert(0, str(ROOT / "clients/ldap"))
from directory import server  # noqa: E402 (it is found by the line before)

WHO = write(0x77, text("1.3.6.1.4.1.4203.1.11.3", 0x80))
BOB = accounts.Account(HASH, {"staff": "r"})


class Users(LdapTest):
    """The file of users changes while connections are open."""

    def setUp(self):
        super().setUp()
        self.file = str(self.stack.state / "users")
        before = accounts.read(self.file)
        self.addCleanup(accounts.write, self.file, before)
        self.users = dict(before)

    def write(self, **users):
        self.users.update(users)
        accounts.write(self.file, {name: it for name, it in self.users.items() if it})

    def test_a_removed_user_reads_no_more(self):
        bob, scan = self.client("bob", PASSWORD), self.client("scan", TOKEN)
        for one in bob, scan:
            self.assertEqual(0, one.search(STAFF).code)
        self.write(bob=None)
        self.assertEqual(50, bob.search(STAFF).code)
        self.assertEqual([b""], bob.ask(WHO).more)
        self.assertEqual((0, [b"u:scan"]), (scan.search(STAFF).code, scan.ask(WHO).more))
        self.write(scan=accounts.Account(readers.by_token(OTHER), {"staff": "r"}))
        self.assertEqual(50, scan.search(STAFF).code)
        self.write(bob=BOB)  # no password is remembered
        self.assertEqual(50, bob.search(STAFF).code)

    def test_rights_are_those_of_now(self):
        bob, ann = self.client("bob", PASSWORD), self.client("Ann", PASSWORD)
        page = bob.search(STAFF, size=1)
        self.write(bob=BOB._replace(rights={"clients": "r"}))
        self.assertEqual(53, bob.search(STAFF, size=1, cookie=page.cookie).code)
        self.assertEqual((32, 0), (bob.search(STAFF).code, bob.search("ou=clients,o=office").code))
        self.write(bob=BOB._replace(hash=accounts.hashed("another", "salt")))
        self.assertEqual((50, 0), (bob.search(STAFF).code, ann.search(STAFF).code))

    def test_addresses(self):
        nobody = self.client()
        self.assertEqual(50, nobody.search(STAFF).code)
        self.write(hall=accounts.Account(readers.by_address(["127.0.0.0/8"]), {"staff": "r"}))
        self.assertEqual(0, nobody.search(STAFF).code)
        self.write(hall=None)
        self.assertEqual(50, nobody.search(STAFF).code)

    def test_a_damaged_file(self):
        """It says so, serves nobody, and goes on when the file is right again."""
        for octets in b"no user\n\xff", b"bob hash staff:x\n":
            with open(self.file, "wb") as file:
                file.write(octets)
            for result in (self.ldap.search(STAFF), self.client().search(STAFF),
                           self.client().bind("bob", PASSWORD)):
                self.assertEqual((52, "the file of users can't be read: the log says why"),
                                 (result.code, result.words))
        self.assertIn("isn't BOOK:r or BOOK:rw", (self.folder / "ldap.log").read_text())
        self.write()
        self.assertEqual("abcg", self.found("(uid=*)"))


class Searches(LdapTest):
    def test_notes_are_told_by_no_filter(self):
        self.staff.put(card("n", "Nora", "NOTE:secret", "ADR:;;12 Hidden St;Cork;;;", "ORG:Acme"))
        for words, wanted in [("(anr=sec)", ""), ("(anr=hidden)", ""), ("(anr=nora cork)", ""),
                              ("(anr=nora acme)", "n")]:
            self.assertEqual(wanted, self.found(words))

    def test_what_would_take_long(self):
        words = " ".join(f"w{it}" for it in range(21))
        anr = "(anr=" + " ".join(f"w{it}" for it in range(20)) + ")"
        for test in [f"(anr={words})", "(cn=" + "x" * 401 + ")", "(cn>=" + "x" * 401 + ")",
                     "(cn=*" + "x" * 401 + "*)", "(cn=" + "*x" * 21 + "*)",
                     "(cn:=" + "x" * 401 + ")", "(|" + anr * 15 + ")",
                     "(|" + ("(cn=" + "*x" * 20 + "*)") * 15 + ")", "(|" + "(cn=x)" * 300 + ")"]:
            with self.subTest(test[:40]):
                result = self.ldap.search(STAFF, test)
                self.assertEqual((2, {}), (result.code, result.entries))
                self.assertTrue(result.words)
        for test, wanted in [("(anr=" + "ann " * 60 + ")", "a"), ("(cn=" + "x" * 400 + ")", ""),
                             ("(|" + "(cn=ann*)" * 60 + ")", "a")]:
            self.assertEqual(wanted, self.found(test))
        result = self.ldap.search(STAFF, wanted=[f"a{it}" for it in range(101)])
        self.assertEqual((2, "at most 100 attributes are given"), (result.code, result.words))

    def test_a_message_that_is_too_long(self):
        one = self.client()
        one.send(write(0x63, text("x" * 65_536)))
        got, (tag, body), _ = one.message()
        self.assertEqual((0, 0x78), (got, tag))
        self.assertIn(b"1.3.6.1.4.1.1466.20036", body)

    def test_no_file_has_the_books(self):
        self.assertEqual("abcg", self.found("(uid=*)"))
        opened = {os.readlink(it.path) for it in os.scandir(f"/proc/{self.process.pid}/fd")
                  if os.path.islink(it.path)}
        self.assertEqual([], [it for it in opened if it.endswith((".db", ".db-wal", ".db-shm"))])


class Strangers(LdapTest):
    def silent(self, count):
        """Connections of another address that send nothing; those that the server keeps."""
        kept = []
        for _ in range(count):
            one = socket.create_connection(("127.0.0.1", self.port), PATIENCE, ("127.0.0.2", 0))
            self.addCleanup(one.close)
            one.setblocking(False)
            kept.append(one)
        # Connections are taken in turn: when this one is served, those before it are sorted out.
        self.client().bind("", "")
        return [it for it in kept if not self.is_ended(it)]

    def is_ended(self, one):
        try:
            return one.recv(1) == b""
        except BlockingIOError:
            return False
        except ConnectionResetError:
            return True

    def test_one_address_takes_not_all_places(self):
        kept = self.silent(60)
        self.assertEqual(20, len(kept))
        self.assertEqual("abcg", self.found("(uid=*)"))
        # Who has bound is no stranger any more, so an office behind one address is served.
        some = [self.client("bob", PASSWORD) for _ in range(30)]
        self.assertEqual({0}, {it.search(STAFF).code for it in some})
        self.assertIn("20 connections of 127.0.0.2", (self.folder / "ldap.log").read_text())
        for one in kept:
            one.close()
        until = time.monotonic() + PATIENCE
        while not self.silent(1) and time.monotonic() < until:  # it sees the ends a little later
            time.sleep(0.05)
        self.assertLess(time.monotonic(), until)

    def test_a_stranger_has_little_time(self):
        """However slowly it sends, or whatever it asks; who has bound may be silent for longer."""
        users = accounts.Users(str(self.stack.state / "users"), False)
        with mock.patch.object(server, "STRANGER", 3.0):
            own = server.Server("127.0.0.1", 0, None, users, None, False)
            self.addCleanup(own.server_close)
            threading.Thread(target=own.serve_forever, daemon=True).start()
            self.addCleanup(own.shutdown)
            known, replied = self.bind_bob(own.server_address)
            for _ in range(4):
                if replied:
                    break
                # The machine was slow, and it was sent away.
                known, replied = self.bind_bob(own.server_address)
            self.assertIn(bytes([0x0A, 1, 0]), replied)
            begun = time.monotonic()
            with socket.create_connection(own.server_address, PATIENCE) as one:
                one.settimeout(0.2)
                one.sendall(b"\x30\x7f")
                ended = False
                while not ended and time.monotonic() - begun < 20:  # fewer octets than 127
                    try:
                        one.sendall(b"\x02")
                        ended = one.recv(1) == b""
                    except socket.timeout:
                        pass
                    except OSError:
                        ended = True
            self.assertTrue(ended)
            self.assertGreater(time.monotonic() - begun, 2.5)
            known.sendall(write(0x30, number(2), WHO))
            self.assertIn(b"u:bob", known.recv(1000))

    def bind_bob(self, place):
        """A connection that binds, and what is replied."""
        known = socket.create_connection(place, PATIENCE)
        self.addCleanup(known.close)
        bind = write(0x60, number(3), text("bob"), text(PASSWORD, 0x80))
        try:
            known.sendall(write(0x30, number(1), bind))
            return known, known.recv(1000)
        except ConnectionError:
            return known, b""

    def test_networks(self):
        for address, wanted in [("192.0.2.1", "192.0.2.1"), ("::ffff:192.0.2.1", "192.0.2.1"),
                                ("2001:db8::1", "2001:db8::/64"), ("fe80::1%eth0", "fe80::/64"),
                                ("2001:db8:0:0:9::", "2001:db8::/64"), ("x", "x"), ("", "")]:
            self.assertEqual(wanted, accounts.origin(address))


if __name__ == "__main__":
    unittest.main()
