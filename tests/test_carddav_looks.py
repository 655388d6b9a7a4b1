"""The gateway looks at its books at each moment of a restore without `contacts resync`.

Nobody tells it that the server's file is another one, and it may look late: while others read the
books, between two puts after the restore, or once a book has as many changes as before. Whenever it
looks, a phone ends with exactly the book's cards. The server is that of tests/model, which takes no
time, so that many moments are tried.
"""

import copy
import os
import random
import unittest
from contextlib import contextmanager
from unittest import mock

from carddav_client import card3
from http_requests import card
from model import books, http

from gateway import cards, cli, edits
from gateway.books import Missing, Shelf
from gateway.groups import view_of
from gateway.photos import Photos
from gateway.state import Renewed, State
from tosculai import Error, InvalidToken, Office, Unreachable, value_of


class Server:
    """A server whose file may be put back, and the connections to it.

    What is given is done once, before the next request is made, or after its reply has come.
    """

    before = after = None

    def __init__(self):
        self.model = books.Office()
        self.office = Asked(self)

    def put_back(self, kept):
        self.model = copy.deepcopy(kept)

    @contextmanager
    def one(self, user=""):
        before, after = self.before, self.after
        self.before = self.after = None
        if before:
            before()
        yield self.office
        if after:
            after()

    def cards(self, name):
        """The ETags of a book's cards by their names, which follow from UIDs here."""
        return {f"{uid}.vcf": cards.etag_of(it.version, it.card.text.decode())
                for uid, it in self.model.book(name).live.items()}


class Asked(Office):
    """What the client in Python asks is replied to by the model."""

    def __init__(self, server):
        super().__init__("http://127.0.0.1:1")
        self.server = server

    def ask(self, method, path, body=None, safe=True):
        octets = body or b""
        head = f"{method} {path} HTTP/1.1\r\nHost: office\r\nContent-Length: {len(octets)}\r\n\r\n"
        reply = http.Session(self.server.model).feed(head.encode() + octets)
        value = value_of(int(reply.split()[1]), "application/json",
                         reply.partition(b"\r\n\r\n")[2], False)
        if isinstance(value, Error):
            raise value
        return value


class Phone:
    """A program's copy of a book: ETags by name, and its token."""

    def __init__(self, is_category=False):
        self.is_category, self.token, self.cards = is_category, "", {}

    def pull(self, book):
        book = view_of(book) if self.is_category else book
        try:
            changes = book.changes(self.token)
        except InvalidToken:
            self.token, self.cards = "", {}
            changes = book.changes("")
        self.cards.update({it.name: it.etag for it in changes.there})
        for name in changes.gone:
            self.cards.pop(name, None)
        self.token = changes.token


class LookTest(unittest.TestCase):
    def setUp(self):
        self.begin()

    def begin(self):
        """A server with a book, which is backed up, and a gateway."""
        self.server, self.said = Server(), []
        self.office, state = self.server.office, State(":memory:")
        self.shelf = Shelf(self.server, state, Photos("/nowhere", state), self.said.append)
        self.staff = self.make("staff", "ab")
        self.kept = copy.deepcopy(self.server.model)

    def put_back(self):
        self.server.put_back(self.kept)

    def make(self, name, uids):
        """A book with these cards."""
        book = self.office.create(name)
        for uid in uids:
            book.put(card(uid, name))
        return book

    def read(self, name, phone=None):
        phone = phone or Phone()
        phone.pull(self.shelf.book(name))
        return phone

    def check(self, name, *phones):
        """These phones and new ones end with exactly the book's cards."""
        for phone in (*phones, Phone(), Phone(is_category=True)):
            for _ in range(2):
                self.assertEqual(self.server.cards(name), self.read(name, phone).cards)

    def times(self):
        """How often all programs had to list all cards again."""
        return sum("book is gone" in it or "lost changes" in it or "newer than" in it
                   or "isn't the server's" in it for it in self.said)


class Lost(LookTest):
    """A book of the lost time is gone, and another one has got its number."""

    def test_a_look_that_takes_long(self):
        """It begins, is sent and is done, each between any two steps of what else happens."""
        count = len(self.steps())
        for begun in range(count + 1):
            for sent in range(begun, count + 1):
                for done in range(sent, count + 1):
                    with self.subTest(begun=begun, sent=sent, done=done):
                        self.begin()
                        self.look(begun, sent, done)

    def steps(self):
        return [lambda: self.make("late", "xy"), lambda: self.read("late", self.late),
                lambda: self.read("staff", self.first), self.put_back,
                lambda: self.make("other", "xb"), lambda: self.read("other", self.other),
                lambda: self.office.book("other").put(card("c", "Other")),
                lambda: self.read("staff", self.second),
                lambda: self.office.book("other").put(card("d", "Other"))]

    def look(self, begun, sent, done):
        self.first, self.second, self.late, self.other = Phone(), Phone(), Phone(), Phone()
        steps = self.steps()
        count = len(steps)

        def do(upto):
            while len(steps) > count - upto:
                steps.pop(0)()

        do(begun)
        self.server.before, self.server.after = lambda: do(sent), lambda: do(done)
        self.shelf.names()
        do(count)
        self.check("other", self.other)
        with self.assertRaises(Missing):
            self.shelf.book("late")
        # The server's file is another one: no token of before is taken, whatever it would say.
        with self.assertRaises(InvalidToken):
            self.shelf.book("staff").changes(self.first.token)
        self.check("staff", self.first, self.second)
        self.assertEqual(1, self.times(), self.said)

    def test_two_books_change_their_numbers(self):
        """Who has one of them at hand asks again; no card of one gets into the other."""
        for first in "late", "more":
            self.begin()
            phones = {}
            for name, uids in ("late", "xy"), ("more", "yz"):
                self.make(name, uids)
                phones[name] = self.read(name)
            held = self.shelf.book(first)
            self.put_back()
            self.make("more", "yzw")
            self.make("late", "xyv")
            with self.assertRaises(Renewed):
                held.refresh()
            for name, phone in phones.items():
                self.check(name, phone)
            with self.assertRaises(Renewed):
                held.refresh()


class SameBook(LookTest):
    """A book has its name and its number, and another history."""

    LOST = [lambda it: it.put(card("a", "Lost")), lambda it: it.put(card("x", "Lost")),
            lambda it: it.remove("b")]
    NEW = [lambda it: it.put(card("y", "New")), lambda it: it.put(card("a", "New")),
           lambda it: it.put(card("b", "New")), lambda it: it.put(card("z", "New")),
           lambda it: it.remove("z")]

    def lose(self):
        self.begin()
        for change in self.LOST:
            change(self.staff)
        self.shelf.names()
        phones = self.read("staff"), self.read("staff", Phone(is_category=True))
        self.put_back()
        return phones

    def test_a_look_between_two_puts(self):
        """While the book has fewer changes than were seen, any look notices it."""
        for kind in "names", "refresh":
            for at in range(len(self.LOST)):
                with self.subTest(kind=kind, at=at):
                    phones = self.lose()
                    for change in self.NEW[:at]:
                        change(self.staff)
                    self.shelf.names() if kind == "names" else self.shelf.book("staff").refresh()
                    for change in self.NEW[at:]:
                        change(self.staff)
                    self.check("staff", *phones)
                    self.assertEqual(1, self.times(), self.said)

    def test_a_look_after_them(self):
        """With as many changes as before the copies are compared, once a day."""
        for at in range(len(self.LOST), len(self.NEW) + 1):
            with self.subTest(at=at):
                phones = self.lose()
                for change in self.NEW[:at]:
                    change(self.staff)
                self.shelf.names()
                self.read("staff", phones[0])
                self.assertNotEqual(self.server.cards("staff"), phones[0].cards)
                self.shelf.compare()
                self.check("staff", *phones)
                self.shelf.compare()
                self.assertEqual(1, self.times(), self.said)

    def test_another_book_notices(self):
        """The books are in one file: if one is another's, all programs list all cards again."""
        self.begin()
        self.make("other", "o")
        self.kept = copy.deepcopy(self.server.model)
        self.office.book("other").put(card("p", "Lost"))
        self.read("other")
        phones = self.lose_more()
        self.read("other")
        self.check("staff", *phones)

    def lose_more(self):
        self.staff.put(card("a", "Lost"))
        phones = self.read("staff"), self.read("staff", Phone(is_category=True))
        self.put_back()
        self.staff.put(card("b", "New"))
        return phones

    def test_a_conflict(self):
        """The copy's version isn't the server's, and nothing is new: an edit was refused for it."""
        self.begin()
        phones = self.lose_more()
        book = self.shelf.book("staff")
        old = book.named("a.vcf")
        sent = edits.Sent(card3("a", "Edited"), "Test", "", True)
        with self.assertRaises(edits.Failed):
            edits.put(book, "a.vcf", sent, edits.Conditions(old.etag, None))
        self.assertEqual(1, self.times(), self.said)
        self.check("staff", *phones)


class Daily(unittest.TestCase):
    def test_the_days(self):
        """The copies are compared soon after the start and each day, also after one that failed."""
        shelf, pauses = mock.Mock(), mock.Mock(side_effect=[None, None, None, SystemExit])
        shelf.compare.side_effect = [None, Unreachable("the server is away"), None]
        with mock.patch.object(cli.time, "sleep", pauses), mock.patch.object(cli, "say") as say:
            with self.assertRaises(SystemExit):
                cli.compare_daily(shelf)
        self.assertEqual([mock.call(60), *[mock.call(86_400)] * 3], pauses.mock_calls)
        say.assert_called_once_with("the copies are compared another day: the server is away")


class Meanwhile(LookTest):
    """What else happens between the requests."""

    def at(self, number, change):
        """Makes the change before the request of this number, from 0."""
        def count():
            if number:
                self.at(number - 1, change)
            else:
                change()
        self.server.before = count

    def test_others_change_what_is_compared(self):
        """A card that is changed, comes or goes meanwhile is no sign of another file."""
        self.edit("Ann", 150)
        for name, change in [
            ("edit", lambda it: it.put(card("u7", "Edited"))),
            ("removal", lambda it: it.remove("u8")),
            ("new", lambda it: it.put(card("new", "New"))),
            ("both", lambda it: (it.put(card("both", "New")), it.remove("both"))),
            ("forget", lambda it: (it.remove("u9"), it.forget(it.tally()["number"]))),
        ]:
            model = copy.deepcopy(self.server.model)
            for at in range(6):
                with self.subTest(change=name, at=at):
                    self.server.model = copy.deepcopy(model)
                    state = State(":memory:")
                    self.shelf = Shelf(self.server, state, Photos("/nowhere", state),
                                       self.said.append)
                    phone = self.read("staff")
                    self.at(at, lambda: change(self.staff))
                    self.shelf.compare()
                    self.server.before = None
                    self.check("staff", phone)
        self.assertEqual(0, self.times(), self.said)

    def test_two_who_notice_at_once(self):
        """All programs list all cards again once for it."""
        phone, epoch = self.read("staff"), self.shelf.state.epoch
        self.shelf.start_over("one", epoch)
        self.check("staff", phone)
        token = phone.token
        self.shelf.start_over("the other", epoch)
        self.check("staff", phone)
        self.assertEqual(token, phone.token)

    def test_a_page_of_another_epoch(self):
        """It was asked for before all began anew: it gets into no copy, and its token to nobody."""
        for at, is_new in (0, True), (1, True), (0, False), (1, False), (2, False):
            with self.subTest(at=at, is_new=is_new):
                self.begin()
                self.edit("Ann", 150)
                self.kept = copy.deepcopy(self.server.model)
                phone, book, found = Phone(), self.shelf.book("staff"), []
                if not is_new:
                    self.read("staff", phone)
                    self.edit("Lost", 120)
                epoch = self.shelf.state.epoch

                def renew():
                    self.put_back()
                    self.edit("New", 140)
                    self.shelf.start_over("a test", epoch)
                    found.append(len(book.entries()))  # which a reply may be reading

                self.at(at, renew)
                self.read("staff", phone)
                self.assertEqual([100 * at if is_new else 152], found)
                self.assertNotEqual(epoch, self.shelf.state.epoch)
                self.check("staff", phone)

    def edit(self, name, count):
        for uid in range(count):
            self.staff.put(card(f"u{uid}", name))


class AtRandom(LookTest):
    """Changes, looks and phones in any order; the file is put back now and then."""

    def test_seeds(self):
        for seed in range(100 * int(os.environ.get("SEEDS", "1"))):
            with self.subTest(seed=seed):
                self.run_seed(random.Random(seed), seed % 4)

    def run_seed(self, chance, most):
        """At most so many restores."""
        self.begin()
        phones = [Phone(), Phone(is_category=True), Phone()]
        kept, restores, noticed = [self.kept], 0, 0
        for _ in range(40):
            kind = chance.random()
            if kind < 0.5:
                self.change(chance)
            elif kind < 0.6:
                kept.append(copy.deepcopy(self.server.model))
            elif kind < 0.65 and restores < most:
                restores += 1
                self.server.put_back(chance.choice(kept))
            elif kind < 0.8:
                self.read("staff", chance.choice(phones))
            elif kind < 0.9:
                self.shelf.names()
            else:
                self.shelf.compare()
        self.shelf.compare()
        self.assertLessEqual(self.times(), restores)
        # The copy is the server's; so are phones, unless nothing showed that the file was put back.
        book = self.shelf.book("staff")
        book.refresh()
        self.assertEqual(self.server.cards("staff"), {it.name: it.etag for it in book.entries()})
        self.check("staff", *phones if self.times() == restores else phones[1:2])

    def change(self, chance):
        uid, name = chance.choice("abcde"), chance.choice(["Ann", "Bob", "Cy"])
        if uid in self.server.model.book("staff").live and chance.random() < 0.3:
            self.staff.remove(uid)
        else:
            self.staff.put(card(uid, name))
        if chance.random() < 0.05:
            self.staff.forget(self.staff.tally()["number"])


if __name__ == "__main__":
    unittest.main()
