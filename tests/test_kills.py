"""`kill -9` in the middle of writes, and what the file holds when it is opened again.

A client sends changes without waiting for replies, and the server is killed at a drawn moment.
Each change that was replied to is there. Of those that were sent without a reply, a first part was
done, each whole or not at all: a move is never on one side alone, an import never in part. Devices
go on with their tokens. SQLite's own check finds the file sound after each kill.

What the books hold after each number of changes is computed by tests/model. SEEDS=20 in the
environment asks for the seeds 1 to 20 in place of the first 2; a failure names its seed, and the
number of kills before it.
"""

import os
import shutil
import sqlite3
import subprocess
import time
import unittest
from contextlib import closing

import order_texts
from histories import HEADER, Copy, Drawing, csv_text, path
from http_requests import request
from model.http import Session
from office_files import copy
from program import PATIENCE, PROGRAM, Folder, Server, run
from trial import Trial

SEEDS = range(1, 1 + int(os.environ.get("SEEDS", 2)))
SERVER_KILLS = 25  # for each seed
ORDER_KILLS = 5  # of each of two orders, for each seed
BOOKS = ["staff", "clients"]
UIDS = ["u%d" % number for number in range(80)]
CAN_CHECK = sqlite3.sqlite_version_info >= (3, 37)  # older ones don't know strict tables

# Asks for all that the two books hold.
EVERYTHING = b"".join(
    request("GET", path(book, part)) for book in BOOKS for part in ["tally", "export", "sync"]
)


class Changes(Drawing):
    """Changes of two books. Each import that acts changes a card, so that EVERYTHING shows it."""

    KINDS = {"put": 8, "remove": 4, "move": 8, "import_rows": 2, "import_half": 1, "forget": 0.3}
    FRESH = 1.0
    ROWS = (1, 8)

    def import_half(self, book, _):
        """An import of many cards: it is at work for long enough to be killed then."""
        return request("POST", path(book, "import", key="h%d" % self.drawn), self.half(book))

    def half(self, book):
        """New cards for half of the UIDs, each book's own, so that there is room for moves."""
        self.drawn += 1
        uids = self.uids[self.books.index(book) % 2::2] if book in self.books else self.uids
        return csv_text([HEADER, *map(self.columns, uids)])


def whole_replies(octets):
    """The replies that are whole."""
    replies = []
    while True:
        head, end, rest = octets.partition(b"\r\n\r\n")
        length = int(head.partition(b"Content-Length: ")[2].split(b"\r\n")[0]) if end else 0
        if not end or len(rest) < length:
            return replies
        replies.append(head + end + rest[:length])
        octets = rest[length:]


def damage(file, folder):
    """What SQLite finds wrong in a copy of the file and its log, in a new folder."""
    with closing(sqlite3.connect(str(copy(file, folder)))) as connection:
        found = [row[0] for row in connection.execute("PRAGMA integrity_check")]
    shutil.rmtree(folder)
    return [it for it in found if it != "ok"]


class KillTrial(Trial):
    """A file whose programs are killed again and again, and the devices that follow its books.

    A step is a kill.
    """

    def __init__(self, test, seed, folder):
        super().__init__(test, seed, folder, BOOKS)
        self.changes = Changes(seed, BOOKS, UIDS)
        self.devices = [Copy(book) for book in BOOKS * 2]

    # The two kinds of trials.

    def kill_servers(self):
        """Servers are killed while they do changes, and some more while they open the file."""
        sent, replies = [], []
        for _ in range(SERVER_KILLS):
            with Server(self.file) as server:
                self.settle(server, sent, replies)
                self.follow(server)
                sent, replies = self.kill_server(server)
            self.check()
            if self.step % 3 == 0:
                self.kill_order(["serve", self.file], 0, 0.06)
                self.check()
        with Server(self.file) as server:
            self.settle(server, sent, replies)

    def kill_orders(self):
        """Orders are killed, each before a second one like it is done to its end."""
        for order in [self.import_order, self.forget_order]:
            self.reopen([], changes=60)
            seconds = self.do_order(*order())
            for _ in range(ORDER_KILLS):
                arguments, octets, text = order()
                self.kill_order(arguments, seconds * 0.6, seconds * 1.2)
                self.check()
                self.reopen([octets], changes=10)
                self.do_order(arguments, octets, text)

    # Kills.

    def kill_server(self, server):
        """Kills the server in the middle of changes; returns those sent, and the replies."""
        drawn = [self.changes.draw() for _ in range(self.random.randint(6, 25))]
        with server.connect() as connection:
            if self.random.random() < 0.5:
                sent, replies = self.send_in_turn(connection, drawn)
            else:
                sent, replies = drawn, []
                connection.send(b"".join(drawn))
                time.sleep(self.random.uniform(0, 0.02))
            server.kill()
            self.step += 1
            return sent, replies + whole_replies(connection.rest())

    def send_in_turn(self, connection, drawn):
        """Keeps a drawn number of changes under way, up to a drawn number of replies."""
        replies, under_way = [], self.random.randint(1, 6)
        connection.send(b"".join(drawn[:under_way]))
        for octets in drawn[under_way:self.random.randint(under_way, len(drawn))]:
            replies.append(connection.reply())
            connection.send(octets)
        return drawn[:under_way + len(replies)], replies

    def kill_order(self, arguments, earliest, latest):
        """Begins an order and kills it between two numbers of seconds later."""
        begun = subprocess.Popen(
            [PROGRAM, *map(str, arguments)], stdout=subprocess.DEVNULL, stderr=subprocess.DEVNULL
        )
        time.sleep(self.random.uniform(earliest, latest))
        begun.kill()
        begun.wait(PATIENCE)
        self.step += 1

    # Orders: their arguments, the same command as a request, and how they print the reply.

    def import_order(self):
        rows, book = self.folder / "rows.csv", self.random.choice(BOOKS)
        rows.write_bytes(self.changes.half(book))
        key = "order-%d" % self.changes.drawn
        octets = request("POST", path(book, "import", key=key), rows.read_bytes())
        return ["import", self.file, book, key, rows], octets, order_texts.import_text

    def forget_order(self):
        book = self.random.choice(BOOKS)
        upto = self.number(book) - self.random.randrange(3)
        octets = request("POST", path(book, "forget", upto=upto))
        return ["forget", self.file, book, upto], octets, order_texts.forget_text

    def do_order(self, arguments, octets, text):
        """Does an order to its end; returns the seconds that it was at work."""
        begun = time.monotonic()
        ended = run(*arguments)
        seconds = time.monotonic() - begun
        self.equal(ended, order_texts.outcome(self.model_reply(octets), text), arguments)
        return seconds

    # What is there afterwards.

    def check(self):
        """SQLite finds the file sound, before the program opens it again."""
        if CAN_CHECK:
            self.equal(damage(self.file, self.folder / "copy"), [])

    def reopen(self, sent, changes):
        """Settles what a killed order has done, and then does this number of changes."""
        with Server(self.file) as server:
            self.settle(server, sent, [])
            self.follow(server)
            octets = b"".join(self.changes.draw() for _ in range(changes))
            self.equal(server.ask(octets), self.model_reply(octets), octets)

    def settle(self, server, sent, replies):
        """Brings the model to what the file holds: all that was replied, and then a first part of
        what was sent."""
        session = Session(self.office)
        for octets, reply in zip(sent, replies):
            self.equal(reply, session.feed(octets), octets)
        holds, left = server.ask(EVERYTHING), sent[len(replies):]
        while self.model_reply(EVERYTHING) != holds:
            if not left:
                self.test.fail(self.where("no first part of the changes makes these books"))
            session.feed(left.pop(0))
        self.changes.versions = {
            (book, uid): version
            for book in BOOKS for uid, (version, _) in self.contents(book).items()
        }

    def follow(self, server):
        """Two devices ask for a page, and one of them goes on until it has the book."""
        with server.connect() as connection:
            for device in self.random.sample(self.devices, 2):
                self.ask(connection, device, self.random.randint(1, 20))
            while not self.ask(connection, device, None):
                pass
            self.equal(device.members, self.contents(device.book))

    def ask(self, connection, device, limit):
        """A page for the device; returns whether it is the last one."""
        octets = device.ask(limit)
        connection.send(octets)
        reply = connection.reply()
        self.equal(reply, self.model_reply(octets), octets)
        page = device.hear(reply)
        return page is not None and not page["truncated"]


class Kills(unittest.TestCase):
    def go(self, kill):
        for seed in SEEDS:
            with self.subTest(seed=seed), Folder() as folder:
                kill(KillTrial(self, seed, folder))

    def test_servers(self):
        self.go(KillTrial.kill_servers)

    def test_orders(self):
        self.go(KillTrial.kill_orders)


if __name__ == "__main__":
    unittest.main()
