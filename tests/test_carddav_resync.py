"""Phones after the server's file was put back from a copy, by `contacts resync` or without it.

Where the program doesn't have that order yet, the same change of the file's rows stands in for it
(resynced.py).
"""

import unittest

import resynced
from carddav_client import CATEGORIES, STAFF, Stack, card3
from http_requests import card
from office_files import QuickFolder, contents
from program import Folder
from tables import Tables, small_store

from tosculai import lines_of

DATA = "<D:getetag/><C:address-data/>"
REFUSED = 403, ("valid-sync-token", True)
OTHER, LATE = "/dav/books/other/", "/dav/books/late/"


def paths(*names):
    return {f"{STAFF}{it}.vcf" for it in names}


class RestoreTest(unittest.TestCase):
    """Each test has a server and a gateway of its own."""

    def setUp(self):
        if not resynced.can_resync():
            self.skipTest("needs `contacts resync`, or SQLite 3.37 that stands in for it")
        folder = Folder(in_memory=True)
        self.stack = Stack(folder.__enter__(), CATEGORIES)
        self.addCleanup(folder.__exit__, None, None, None)
        self.addCleanup(self.stack.stop)
        self.staff = self.stack.books[0]
        self.dav, self.cat = self.stack.client(), self.stack.client("cat")
        self.addCleanup(self.dav.close)
        self.addCleanup(self.cat.close)

    def restart_gateway(self):
        self.stack.start()
        self.dav.close()
        self.cat.close()

    def refusal(self, token):
        reply = self.dav.sync(STAFF, token)
        return reply.status, reply.reason


class Resyncs(RestoreTest):
    def lose(self):
        """Three cards, a copy of the file, and changes after it that will be lost."""
        for uid, name in [("a", "Ann"), ("b", "Bob"), ("g", "Gone")]:
            self.staff.put(card(uid, name))
        early = self.dav.sync(STAFF)
        self.stack.back_up()
        self.staff.put(card("a", "Anna"))
        self.staff.remove("g")
        self.assertEqual(201, self.dav.ask("PUT", STAFF + "lost.vcf", card3("l", "Lost")).status)
        return early, self.dav.sync(STAFF, props=DATA), self.cat.sync(STAFF)

    def test_the_gateway_runs_on(self):
        early, before, seen = self.lose()
        self.stack.restore()
        self.stack.resync()
        self.check(early, before, seen)

    def test_the_gateway_is_down(self):
        early, before, seen = self.lose()
        self.stack.kill_gateway()
        self.stack.restore()
        self.stack.resync()
        self.restart_gateway()
        self.check(early, before, seen)

    def check(self, early, before, seen):
        # The same edits as in the lost time, in another order.
        self.staff.put(card("b", "Bob", "NOTE:later"))
        self.staff.put(card("a", "Anna"))
        for token in early.token, before.token:
            self.assertEqual(REFUSED, self.refusal(token))
        after = self.dav.sync(STAFF, props=DATA)
        self.assertEqual(paths("a", "b", "g"), set(after.etags()))
        self.assertEqual(after.etags(), self.dav.propfind(STAFF, "<D:getetag/>", "1").etags())
        # An edit of what was lost is refused, although the text is the same again.
        path = STAFF + "a.vcf"
        old, new = before.etags()[path], after.etags()[path]
        edited = before.cards()[path].replace("FN:Anna", "FN:Annie")
        self.assertEqual(412, self.dav.ask("PUT", path, edited, If_Match=old).status)
        self.assertEqual(204, self.dav.ask("PUT", path, edited, If_Match=new).status)
        self.assertEqual(404, self.dav.ask("GET", STAFF + "lost.vcf").status)
        # A program of categories is told what is different, or starts again, too.
        told = self.cat.sync(STAFF, seen.token)
        if told.status == 207:
            self.assertEqual(404, told.statuses()[STAFF + "lost.vcf"])
            self.assertEqual(paths("a", "b", "g"), set(told.etags()))

    def test_what_was_not_lost(self):
        """A resync of a file that lost nothing: edits that a phone still has are taken."""
        self.staff.put(card("a", "Ann", "TEL:+1"))
        self.staff.put(card("b", "Bob"))
        self.assertEqual(201, self.dav.ask("PUT", STAFF + "my%20c.vcf", card3("c", "Cy")).status)
        before = self.dav.sync(STAFF, props=DATA)
        self.stack.server.kill()
        self.stack.resync()
        self.assertEqual(REFUSED, self.refusal(before.token))
        after = self.dav.sync(STAFF, props=DATA)
        self.assertEqual((before.etags(), before.cards()), (after.etags(), after.cards()))
        edited = before.cards()[STAFF + "a.vcf"].replace("TEL:+1", "TEL:+2")
        reply = self.dav.ask("PUT", STAFF + "a.vcf", edited,
                             If_Match=before.etags()[STAFF + "a.vcf"])
        self.assertEqual(204, reply.status)
        self.assertEqual({STAFF + "a.vcf": 200}, self.dav.sync(STAFF, after.token).statuses())

    def test_between_two_pages(self):
        """A phone that reads the book in pages starts again with the first one."""
        for number in range(5):
            self.staff.put(card(f"u{number}", "U"))
        page = self.dav.sync(STAFF, limit=3)
        self.assertEqual(507, page.statuses()[STAFF])
        self.stack.server.kill()
        self.stack.resync()
        self.assertEqual(REFUSED, self.refusal(page.token))
        self.assertEqual(paths(*(f"u{it}" for it in range(5))), set(self.dav.sync(STAFF).etags()))


class Restores(RestoreTest):
    """A file that was put back without a resync."""

    def test_a_restored_server(self):
        """The book has as many changes as before: a conflict shows that it isn't the copy's."""
        self.staff.put(card("a", "Ann"))
        self.stack.back_up()
        self.staff.put(card("a", "Anna"))
        got, token = self.dav.ask("GET", STAFF + "a.vcf"), self.dav.sync(STAFF).token
        self.stack.kill_gateway()  # it looks at its books now and then, by itself
        self.stack.restore()
        self.stack.start_server()
        self.staff.put(card("b", "Bob"))
        self.restart_gateway()
        self.assertEqual(paths("a"), set(self.dav.sync(STAFF).etags()))
        edited = got.text.replace("FN:Anna", "FN:Annie")
        reply = self.dav.ask("PUT", STAFF + "a.vcf", edited, If_Match=got.etag)
        self.assertEqual(412, reply.status)
        self.assertIn("the copy isn't the server's", self.stack.logged())
        self.assertEqual(REFUSED, self.refusal(token))
        self.assertEqual(paths("a", "b"), set(self.dav.sync(STAFF).etags()))
        self.assertIn("FN:Ann\r\n", self.dav.ask("GET", STAFF + "a.vcf").text)
        self.assertIn("FN:Ann", lines_of(self.staff.get("a").text))

    def test_a_server_that_is_behind(self):
        """Once the gateway has seen fewer changes than before, no token of the lost time is taken,
        also when there are as many again."""
        self.staff.put(card("a", "Ann"))
        self.stack.back_up()
        self.staff.put(card("a", "Anna"))
        self.staff.put(card("x", "Lost"))
        token = self.dav.sync(STAFF).token
        self.stack.restore()
        self.stack.start_server()
        self.assertEqual(paths("a"), set(self.dav.sync(STAFF).etags()))
        # By the token of its copy, or by its own look at the books, whichever comes first.
        self.assertRegex(self.stack.logged(), "(is newer than|has lost changes).*: all cards anew")
        for uid in "bcd":
            self.staff.put(card(uid, "New"))
        self.assertEqual(REFUSED, self.refusal(token))
        self.assertEqual(paths(*"abcd"), set(self.dav.sync(STAFF).etags()))

    def test_a_book_of_the_lost_time(self):
        """A book that was made after the backup is gone, and another one has got its number."""
        self.staff.put(card("a", "Ann"))
        self.stack.back_up()
        late = self.stack.office.create("late")
        for uid in "xy":
            late.put(card(uid, "Late"))
        token, seen = self.dav.sync(STAFF).token, self.dav.sync(LATE)
        self.assertEqual({LATE + "x.vcf", LATE + "y.vcf"}, set(seen.etags()))
        self.stack.restore()
        self.stack.start_server()
        other = self.stack.office.create("other")
        for uid in "abcd":
            other.put(card(uid, "Other"))
        self.assertEqual({f"{OTHER}{it}.vcf" for it in "abcd"}, set(self.dav.sync(OTHER).etags()))
        self.assertEqual(404, self.dav.sync(LATE, seen.token).status)
        # The server's file is another one: no token of before is taken, whatever it would say.
        self.assertEqual(REFUSED, self.refusal(token))
        self.assertEqual(paths("a"), set(self.dav.sync(STAFF).etags()))
        # That is noticed once.
        token = self.dav.sync(STAFF).token
        self.stack.kill_gateway()
        self.restart_gateway()
        self.dav.propfind("/dav/books/", "<D:resourcetype/>", "1")
        self.assertEqual(207, self.dav.sync(STAFF, token).status)


@unittest.skipUnless(resynced.HAS_TABLES, "needs SQLite 3.37 for the file's STRICT tables")
class StandsIn(unittest.TestCase):
    """The change of rows that stands in for the order."""

    def test_a_small_store(self):
        """By hand: ten numbers for each of three books, and no tombstone."""
        with QuickFolder() as folder:
            rows = self.small(folder, resynced.resync_rows)
        self.assertEqual([(1, b"staff", 18, 18, 8, 1, 1, 1, 0, 6, 1),
                          (2, b"clients", 16, 16, 8, 0, 0, 0, 1, 7, 0),
                          (3, b"friends", 12, 12, 5, 0, 2, 0, 0, 5, 0)], rows[1])
        self.assertEqual([(1, b"ann", 4), (1, b"dee", 6), (2, b"cy", 2), (2, b"fay", 3),
                          (3, b"hal", 1), (3, b"ida", 2)], [it[:3] for it in rows[2]])

    @unittest.skipUnless(resynced.has_order(), "`contacts resync` isn't there yet")
    def test_it_is_what_the_order_does(self):
        with QuickFolder() as folder:
            self.assertEqual(self.small(folder, resynced.resync_rows, "rows"),
                             self.small(folder, resynced.resync_by_order, "order"))

    def small(self, folder, resync, name="small"):
        file = folder / f"{name}.db"
        with Tables(file) as tables:
            tables.lay(small_store())
        resync(file, 10)
        return contents(file, folder / f"look at {name}").rows


if __name__ == "__main__":
    unittest.main()
