"""What happens in between: others change a card, or all stops, while the gateway makes a change.

A server between the gateway and the contact server does it at the first, second .. request that
writes. Whichever requests the gateway makes of a change, no card may be lost by it.
"""

import json
import threading
import unittest
from http.client import HTTPConnection
from http.server import BaseHTTPRequestHandler, ThreadingHTTPServer

from carddav_client import CATEGORIES, CLIENTS, STAFF, GatewayTest, card3
from http_requests import card
from program import PATIENCE

from tosculai import lines_of

WRITES = 3  # requests that a change has at most


class Between(BaseHTTPRequestHandler):
    """Passes requests on, and makes a change just before it passes on one that writes.

    What the change returns is sent as the reply, if anything: a refusal, or "cut" for none.
    """

    protocol_version = "HTTP/1.1"

    def handle_one_request(self):
        self.raw_requestline = self.rfile.readline()
        self.close_connection = not (self.raw_requestline and self.parse_request())
        if self.close_connection:
            return
        body = self.rfile.read(int(self.headers.get("Content-Length", 0)))
        change = None
        self.server.asked.append((self.command, self.headers.get("X-Remote-User")))
        if self.command in ("PUT", "DELETE", "POST") and self.server.changes:
            change = self.server.changes.pop(0)
        made = change() if change else None
        if made == "cut":
            self.close_connection = True
        else:
            self.pass_on(body) if made is None else self.refuse(*made)

    def pass_on(self, body):
        passed = HTTPConnection(*self.server.real, timeout=PATIENCE)
        passed.request(self.command, self.path, body or None, dict(self.headers))
        reply = passed.getresponse()
        octets = reply.read()
        passed.close()
        self.send_response_only(reply.status)
        for name, value in reply.getheaders():
            if name.lower() not in ("content-length", "transfer-encoding", "connection"):
                self.send_header(name, value)
        if reply.status != 204:
            self.send_header("Content-Length", str(len(octets)))
        self.end_headers()
        self.wfile.write(octets)

    def refuse(self, status, fault, number):
        octets = json.dumps({"fault": fault, "number": number}).encode()
        self.send_response_only(status)
        self.send_header("Content-Type", "application/json")
        self.send_header("Content-Length", str(len(octets)))
        self.end_headers()
        self.wfile.write(octets)

    def log_message(self, *_):
        pass


class BetweenTest(GatewayTest):
    def setUp(self):
        super().setUp()
        self.between = ThreadingHTTPServer(("127.0.0.1", 0), Between)
        self.between.daemon_threads, self.between.changes, self.between.asked = True, [], []
        self.between.real = self.stack.server.address
        threading.Thread(target=self.between.serve_forever, daemon=True).start()
        self.addCleanup(self.between.server_close)
        self.addCleanup(self.between.shutdown)
        self.stack.url, real = f"http://127.0.0.1:{self.between.server_port}", self.stack.url
        self.stack.restart()
        self.addCleanup(self.stack.restart)
        self.addCleanup(setattr, self.stack, "url", real)

    def at(self, number, change):
        """Makes the change at the request of this number that writes, from 0."""
        self.between.changes = [None] * number + [change]


class Users(BetweenTest):
    """The server is told who makes a change, for its log; and of nothing else."""

    users = CATEGORIES

    def test_who_makes_a_change(self):
        text, copy = card3("a", "Ann"), CLIENTS + "a.vcf"
        bob, cat = self.stack.client("bob"), self.stack.client("cat")
        self.addCleanup(bob.close)
        self.addCleanup(cat.close)
        place = f"http://127.0.0.1:{self.stack.place[1]}{copy}"
        grouped = card3("c", "Cy", "CATEGORIES:Board")
        for dav, ask, status in [
            (bob, lambda: bob.ask("PUT", STAFF + "a.vcf", text), 201),
            (self.dav, lambda: self.dav.ask("PUT", copy, text), 201),
            (self.dav, lambda: self.dav.ask("MOVE", STAFF + "a.vcf", Destination=place), 204),
            (self.dav, lambda: self.dav.ask("DELETE", copy), 204),
            (cat, lambda: cat.ask("PUT", STAFF + "c.vcf", grouped), 201),
            (bob, lambda: bob.ask("DELETE", STAFF + "c.vcf", X_Remote_User="ann"), 204),
        ]:
            self.between.asked.clear()
            self.assertEqual(status, ask().status)
            user = {bob: "bob", cat: "cat"}.get(dav, "ann")
            for command, named in self.between.asked:
                self.assertEqual(None if command == "GET" else user, named)
            self.assertIn(user, [named for _, named in self.between.asked])
        self.between.asked.clear()
        self.dav.sync(STAFF)
        self.assertEqual({("GET", None)}, set(self.between.asked))


class Puts(BetweenTest):
    """The office changes a card between the gateway's read and its write."""

    def put(self, is_conditional):
        """An edit of the number, while the office edits the language: the status, and the lines."""
        self.staff.put(card("a", "Ann", "TEL:+1", "LANG:fr"))
        got = self.dav.ask("GET", STAFF + "a.vcf")
        stored = self.staff.get("a")

        def change():
            self.staff.put(stored.text.replace("LANG:fr", "LANG:de"), stored.version)

        self.at(0, change)
        status = self.dav.ask("PUT", STAFF + "a.vcf", got.text.replace("+1", "+2"),
                              If_Match=got.etag if is_conditional else None).status
        self.assertEqual([], self.between.changes)
        return status, set(lines_of(self.staff.get("a").text)) & {
            "TEL:+1", "TEL:+2", "LANG:fr", "LANG:de"}

    def test_a_put_with_a_condition_is_refused(self):
        self.assertEqual((412, {"TEL:+1", "LANG:de"}), self.put(is_conditional=True))

    def test_a_put_without_one_keeps_both_edits(self):
        self.assertEqual((204, {"TEL:+2", "LANG:de"}), self.put(is_conditional=False))


class Moves(BetweenTest):
    """A move that overwrites a copy of the card in the other book."""

    there = CLIENTS + "copy.vcf"

    def setUp(self):
        super().setUp()
        self.fill()

    def fill(self):
        self.dav.close()
        self.between.changes = []
        for book in self.stack.books:
            for uid in self.members(book):
                book.remove(uid)
        self.staff.put(card("a", "Ann", "NOTE:new"))
        self.assertEqual(201, self.dav.ask("PUT", self.there, card("a", "Ann", "NOTE:old")).status)

    def move(self, is_conditional):
        etag = self.dav.ask("GET", STAFF + "a.vcf").etag if is_conditional else None
        place = f"http://127.0.0.1:{self.stack.place[1]}{self.there}"
        return self.dav.ask("MOVE", STAFF + "a.vcf", Destination=place, If_Match=etag).status

    def notes(self):
        """The notes of the card in both books; None where it isn't."""
        found = []
        for book in self.staff, self.clients:
            one = book.find("a")
            found.append(one and next(it for it in lines_of(one.text) if it.startswith("NOTE")))
        return tuple(found)

    def test_it_is_made(self):
        self.assertEqual(204, self.move(is_conditional=True))
        self.assertEqual((None, "NOTE:new"), self.notes())
        self.assertEqual([self.there], list(self.dav.sync(CLIENTS).etags()))

    def test_the_office_edits_the_card(self):
        """With a condition the move is refused, and the copy is there as before."""
        for number in range(WRITES):
            for is_conditional in True, False:
                with self.subTest(number=number, is_conditional=is_conditional):
                    self.fill()
                    one = self.staff.get("a")
                    self.at(number, lambda: self.staff.put(
                        one.text.replace("NOTE:new", "NOTE:newer"), one.version) and None)
                    status = self.move(is_conditional)
                    if self.between.changes:
                        continue  # the move has fewer requests
                    wanted = (412, ("NOTE:newer", "NOTE:old")) if is_conditional else \
                        (204, (None, "NOTE:newer"))
                    self.assertEqual(wanted, (status, self.notes()))
                    self.assertEqual([self.there], list(self.dav.sync(CLIENTS).etags()))
                    self.assertNotIn("all cards anew", self.stack.logged())

    def test_the_office_removes_the_card(self):
        for number in range(WRITES):
            with self.subTest(number):
                self.fill()
                self.at(number, lambda: self.staff.remove("a"))
                status = self.move(is_conditional=False)
                if not self.between.changes:
                    self.assertEqual((404, (None, "NOTE:old")), (status, self.notes()))

    def test_the_office_edits_the_copy(self):
        """It is overwritten as the client asks, or it stays if the move is refused."""
        for number in range(WRITES):
            with self.subTest(number):
                self.fill()
                self.at(number, lambda: self.clients.put(self.clients.get("a").text.replace(
                    "FN:Ann", "FN:Anna")) and None)
                status, notes = self.move(is_conditional=False), self.notes()
                if not self.between.changes:
                    self.assertEqual((204, None), (status, notes[0]))
                    self.assertIn(notes[1], ("NOTE:new", "NOTE:old"))
                    self.assertNotIn("all cards anew", self.stack.logged())

    def test_the_server_refuses(self):
        for number in range(WRITES):
            for refusal, wanted in [((507, "changes-spent", 13), 507),
                                    ((500, "store-fault", 19), 502),
                                    ((503, "no-memory", 20), 503)]:
                with self.subTest(number=number, refusal=refusal):
                    self.fill()
                    # The gateway asks again after a 503.
                    self.between.changes = [None] * number + [lambda: refusal] * (
                        2 if wanted == 503 else 1)
                    status = self.move(is_conditional=True)
                    if not self.between.changes:
                        self.assertEqual((wanted, ("NOTE:new", "NOTE:old")),
                                         (status, self.notes()))
                        self.assertEqual([self.there], list(self.dav.sync(CLIENTS).etags()))

    def test_replies_are_lost(self):
        """The request that got no reply is asked again."""
        for number in range(WRITES):
            with self.subTest(number):
                self.fill()
                self.at(number, lambda: "cut")
                status = self.move(is_conditional=True)
                if not self.between.changes:
                    self.assertEqual((204, (None, "NOTE:new")), (status, self.notes()))

    def test_the_gateway_is_killed(self):
        """The card is somewhere, and the copy too, under its name. A second move ends it."""
        for number in range(WRITES):
            with self.subTest(number):
                self.fill()
                killed = threading.Event()
                self.at(number, lambda: self.stack.kill_gateway() or killed.set() or "cut")
                try:
                    self.move(is_conditional=True)
                except OSError:
                    self.dav.close()
                if self.between.changes:
                    continue
                self.assertTrue(killed.wait(PATIENCE))
                self.stack.start()
                here, there = self.notes()
                self.assertEqual("NOTE:new", here)
                self.assertIn(there, ("NOTE:old", "NOTE:new"))
                self.assertEqual([self.there], list(self.dav.sync(CLIENTS).etags()))
                self.assertEqual(204, self.move(is_conditional=True))
                self.assertEqual((None, "NOTE:new"), self.notes())


if __name__ == "__main__":
    unittest.main()
