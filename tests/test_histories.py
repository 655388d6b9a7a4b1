"""Whole histories over the served program: writers and devices in turn, with restarts between.

Each reply must equal, octet for octet, what tests/model computes from the same requests. A device
is `histories.Copy`, which is no part of the model: whenever it gets a page that isn't truncated,
its copy must be the book, cards and versions.

The histories are drawn. SEEDS=20 in the environment asks for the seeds 1 to 20 in place of the
first 3; a failure names its seed, and the step at which it came.
"""

import os
import sqlite3
import unittest

import order_texts
from histories import BOOKS, ELSEWHERE, HEADER, Copy, Drawing, csv_text, parts_of, path
from http_requests import request
from model.http import Session
from page_sums import changing
from program import Ended, Folder, Server, run
from trial import Trial

SEEDS = range(1, 1 + int(os.environ.get("SEEDS", 3)))
PAGE_MAX = 100
CAN_WRITE = sqlite3.sqlite_version_info >= (3, 37)  # older ones don't know strict tables
# Those that come in an office of few small books. The others need a full book, a hundred books or
# a trillion changes.
REFUSALS = {1, 2, 3, 4, 5, 6, 7, 8, 9, 10, 11, 14, 15, 16, 17, 27, 28, 29, 30}


class Round:
    """What a device asks up to a page that isn't truncated, and the bound on it.

    A truncated page is full and leaves at least one member due; a change of the book makes at most
    one more member due. So all truncated pages together have fewer members than were due when the
    device began and were changed since.
    """

    def __init__(self, due, number):
        self.due, self.number, self.members = due, number, 0

    def bound(self, number):
        """More than the members of the truncated pages, up to the book's number now."""
        return self.due + number - self.number


class Device:
    """A copy that is followed through its rounds."""

    def __init__(self, book):
        self.copy, self.round = Copy(book), None


class History(Trial):
    """A file that is served again and again, and the clients that come."""

    drawing = Drawing
    limits = [1, 1, 2, 3, 100, None]  # those that devices ask with
    orders = ["tally", "export", "mirror", "expand", "import", "forget"]

    # How a writer's connection ends: with nothing more, a request that is never whole, or one that
    # closes it and another that therefore isn't looked at.
    ends = [
        lambda octets: b"",
        lambda octets: octets[:-1],
        lambda octets: request("GET", path(), fields=["Connection: close"]) + octets,
    ]

    def __init__(self, test, seed, folder):
        super().__init__(test, seed, folder, BOOKS)
        self.drawing = self.drawing(seed)
        self.devices = [Device(book) for book in BOOKS * 2]
        self.refusals, self.given_up = set(), 0

    def go(self, steps):
        """The whole history: servers, with orders between them, and then all devices."""
        while self.step < steps:
            self.serve_some()
            for _ in range(self.random.randrange(3)):
                self.order()
        self.finish()

    def serve_some(self):
        """A server that ends by its number of connections, or is killed between two of them."""
        count = self.random.randint(1, 40)
        is_killed = self.random.random() < 0.5
        with Server(self.file, count + 2 + is_killed) as server:
            self.tallies(server)
            for _ in range(count):
                self.random.choice([self.write, self.write, self.page])(server)
            self.tallies(server)
            if not is_killed:
                self.equal(server.end(), Ended(0, server.line, b""))

    def tallies(self, server):
        """The tally of each book. A server keeps the number of a book's tombstones while it runs:
        the last tally of one server has the number that was kept, and the first of the next one
        that which was found in the file."""
        with server.connect() as connection:
            for book in BOOKS:
                octets = request("GET", path(book, "tally"))
                connection.send(octets)
                self.equal(connection.reply(), self.model_reply(octets), octets)

    # Writers.

    def write(self, server):
        """A writer's connection: some requests, and then one of the ends."""
        session = Session(self.office)
        asked = [self.draw(session) for _ in range(self.random.randint(1, 8))]
        with server.connect() as connection:
            self.exchange(connection, asked)
            end = self.random.choice(self.ends)(self.drawing.draw())
            due = session.feed(end)
            connection.send(end)
            connection.finish()
            self.equal(connection.rest(), due, end)

    def draw(self, session):
        """A request, and the reply that is expected."""
        octets = self.drawing.draw()
        reply = session.feed(octets)
        self.drawing.learn(reply)
        status, body = parts_of(reply)
        if status >= 400:
            self.refusals.add(body["number"])
        return octets, reply

    def exchange(self, connection, asked):
        """Sends the requests, each after the reply before it or all at once, and compares."""
        octets = b"".join(octets for octets, _ in asked)
        # A client that sends much before it reads may wait for a server that waits for it.
        at_once = len(octets) < 30_000 and self.random.random() < 0.5
        if at_once:
            cut = self.random.randrange(len(octets))
            connection.send(octets[:cut])
            connection.send(octets[cut:])
        for octets, reply in asked:
            self.step += 1
            if not at_once:
                connection.send(octets)
            self.equal(connection.reply(), reply, octets)

    # Devices.

    def page(self, server):
        """A device's connection: some pages of one round, or of several."""
        device = self.random.choice(self.devices)
        with server.connect() as connection:
            for _ in range(self.random.randint(1, 3)):
                self.ask(connection, device, self.random.choice(self.limits))

    def ask(self, connection, device, limit):
        """One page for the device; returns whether its copy is the book now."""
        self.step += 1
        copy = device.copy
        if device.round is None:
            device.round = Round(self.count_due(copy), self.number(copy.book))
        octets = copy.ask(limit)
        connection.send(octets)
        reply = connection.reply()
        self.equal(reply, self.model_reply(octets), octets)
        page = copy.hear(reply, whole=self.random.random() < 0.9)
        if page is None:
            self.given_up += parts_of(reply)[0] == 403
            device.round = None
            return False
        if page["truncated"]:
            self.follow(device, page, limit or PAGE_MAX)
            return False
        self.equal(copy.members, self.contents(copy.book), octets)
        device.round = None
        return True

    def follow(self, device, page, limit):
        """Adds a truncated page to the device's round, which stays within its bound."""
        self.equal(len(page["members"]), limit)
        device.round.members += limit
        bound = device.round.bound(self.number(device.copy.book))
        self.test.assertLess(device.round.members, bound, self.where("members of pages"))

    def finish(self):
        """Each device goes on to the end, while nobody writes."""
        with Server(self.file) as server, server.connect() as connection:
            for device in self.devices:
                while not self.ask(connection, device, self.random.choice(self.limits)):
                    pass

    # Orders, between two servers.

    def order(self):
        """An order over the file prints the text of the reply that its request would get."""
        name = self.random.choice(self.orders)
        book = self.random.choice([*BOOKS, *ELSEWHERE])
        arguments, octets, text = getattr(self, "order_" + name)(book)
        due = order_texts.outcome(self.model_reply(octets), text)
        self.equal(run(name, self.file, book, *arguments), due, (name, book, arguments))

    def order_tally(self, book):
        return [], request("GET", path(book, "tally")), order_texts.tally_text

    def order_export(self, book):
        form = self.random.choice(["cards", "columns"])
        octets = request("GET", path(book, "export", form=form))
        return ["--form", form], octets, order_texts.export_text

    def order_mirror(self, book):
        limit, most = self.random.choice([1, 3, 100]), self.random.choice([1, 2, 1000])
        arguments = ["--limit", limit, "--pages", most]
        octets = request("GET", path(book, "sync"))
        return arguments, octets, lambda _: order_texts.mirror_text(*self.mirror(book, limit, most))

    def mirror(self, book, limit, most):
        """A new device asks until a page comes that isn't truncated, or `most` have come."""
        copy, pages, is_done = Copy(book), 0, False
        while pages < most and not is_done:
            is_done = not copy.hear(self.model_reply(copy.ask(limit)))["truncated"]
            pages += 1
        return copy, pages, is_done

    def order_expand(self, book):
        uid = self.random.choice(["a", "team", "all"])
        return [uid], request("GET", path(book, "cards", uid, "people")), order_texts.people_text

    def order_import(self, book):
        rows, key = self.folder / "rows.csv", "order-%d" % self.step
        rows.write_bytes(self.drawing.rows())
        octets = request("POST", path(book, "import", key=key), rows.read_bytes())
        return [key, rows], octets, order_texts.import_text

    def order_forget(self, book):
        upto = self.random.choice([0, self.step // 10, 10 ** 14])
        octets = request("POST", path(book, "forget", upto=upto))
        return [upto], octets, order_texts.forget_text


class Forgetful(Drawing):
    """Writers that remove much, and don't make a book forget."""

    KINDS = {**Drawing.KINDS, "forget": 0, "remove": 30}


class ForgetfulHistory(History):
    """The books remember three removed members each, and the devices are slow."""

    drawing, limits = Forgetful, [1, 1, 2]
    orders = ["tally", "export", "mirror"]

    def __init__(self, *arguments):
        super().__init__(*arguments)
        # A new book remembers 10,000: more removals than a test of seconds can make.
        with changing(self.file) as connection:
            connection.execute("UPDATE keeping SET keep = 3")
        for book in self.office.books.values():
            book.keep = 3


class Long(Drawing):
    """Mostly changes, among many cards."""

    KINDS = {"put": 20, "remove": 10, "move": 10, "import_rows": 6, "get": 2, "people": 2}

    def __init__(self, seed):
        super().__init__(seed, BOOKS, ["u%d" % number for number in range(1500)])


class LongHistory(History):
    """A book of 1,500 cards, of which devices get page after page while others write."""

    drawing, limits = Long, [None, 100, 100, 40]

    def __init__(self, *arguments):
        super().__init__(*arguments)
        self.devices = [Device(BOOKS[0]), Device(BOOKS[0])]
        rows = [HEADER] + [[uid, "Card", *[""] * 6] for uid in self.drawing.uids]
        octets = request("POST", path(BOOKS[0], "import", key="all"), csv_text(rows))
        with Server(self.file) as server:
            self.equal(server.ask(octets), self.model_reply(octets))


class Histories(unittest.TestCase):
    def go(self, kind, seeds, steps):
        """A history for each seed; returns those that ran to their end."""
        ended = []
        for seed in seeds:
            with self.subTest(seed=seed), Folder() as folder:
                history = kind(self, seed, folder)
                history.go(steps)
                ended.append(history)
        return ended

    def test_drawn(self):
        histories = self.go(History, SEEDS, 900)
        refusals = set().union(*(history.refusals for history in histories))
        if len(histories) > 2:
            self.assertEqual(REFUSALS - refusals, set(), "refusals that never came")

    @unittest.skipUnless(CAN_WRITE, "this Python's SQLite doesn't know strict tables")
    def test_books_that_forget_by_themselves(self):
        for history in self.go(ForgetfulHistory, SEEDS[:2], 400):
            self.assertGreater(history.given_up, 0, "no device had a token that is too old")

    def test_long_book(self):
        self.go(LongHistory, SEEDS[:1], 300)


if __name__ == "__main__":
    unittest.main()
