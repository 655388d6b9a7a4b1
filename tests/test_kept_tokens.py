"""`kill -9` of the server while clients sync, and the tokens that the clients keep over it.

Two clients follow each of two books: a folder of clients/python, whose state is on the disk, and a
desk. Writers send changes, a folder syncs in a process of its own, which is sometimes killed too,
and the server is killed at a drawn moment. After each start the clients go on with the tokens that
they have. Then each folder and each desk has exactly its book: the UIDs, the versions and the texts
that tests/model computes. A desk keeps its tables in the browser, where no end of a server reaches
them; so `Desk` does here what its scripts do with the replies, in memory.

SEEDS=20 in the environment asks for the seeds 1 to 20 in place of the first 2.
"""

import os
import signal
import time
import unittest

from histories import parts_of, path
from http_requests import request
from program import PATIENCE, Folder, Server, free_port
from python_client import office
from test_kills import BOOKS, SEEDS, UIDS, Changes, KillTrial, whole_replies

from tosculai import Unreachable, uid_of
from tosculai_tools.folder import FolderCopy

KILLS = 15  # for each seed


class KillingCopy(FolderCopy):
    """A folder that kills a server when it gets its page of some number, before it applies it."""

    def __init__(self, path, server, pages):
        super().__init__(path, may_be_empty=True)
        self.server, self.pages = server, pages

    def take(self, page, report):
        self.pages -= 1
        if not self.pages:
            os.kill(self.server.process.pid, signal.SIGKILL)
        super().take(page, report)


class Desk:
    """A book as the desk has it (clients/desk/site/js: sync.js and store.js)."""

    def __init__(self, book):
        self.book, self.token, self.round, self.is_whole = book, "", 1, False
        self.cards = {}  # version, text and round by UID
        self.refused = 0

    def ask(self):
        return request("GET", path(self.book, "sync", token=self.token or None))

    def hear(self, reply):
        """Applies the reply in one step; returns whether the copy is the book then."""
        status, page = parts_of(reply)
        if status != 200:
            assert page["fault"] == "valid-sync-token" and self.token, page
            self.token, self.round, self.is_whole = "", self.round + 1, False
            self.refused += 1
            return False
        for member in page["members"]:
            if member["status"] == 200:
                self.cards[member["uid"]] = member["version"], member["card"], self.round
            else:
                self.cards.pop(member["uid"], None)
        is_last = not page["truncated"]
        if is_last and not self.is_whole and self.round > 1:
            self.cards = {uid: it for uid, it in self.cards.items() if it[2] == self.round}
        self.token, self.is_whole = page["token"], self.is_whole or is_last
        return is_last

    def members(self):
        return {uid: (version, text) for uid, (version, text, _) in self.cards.items()}


class ClientTrial(KillTrial):
    """A file whose server is killed again and again, and the clients that live through it."""

    def __init__(self, test, seed, folder):
        super().__init__(test, seed, folder)
        self.changes = Changes(seed, BOOKS, UIDS[:30])
        self.desks = [Desk(book) for book in BOOKS]
        self.port = free_port()

    def server(self):
        """A server at the same address each time, since a folder belongs to one."""
        return Server(self.file, port=self.port)

    def go(self):
        sent, replies = [], []
        for _ in range(KILLS):
            with self.server() as server:
                self.settle(server, sent, replies)
                self.compare(server)
                sent, replies = self.kill_among_clients(server)
            self.check()
        with self.server() as server:
            self.settle(server, sent, replies)
            self.compare(server)

    # Kills.

    def kill_among_clients(self, server):
        """Kills the server while a folder syncs, and in the middle of changes; returns those sent,
        and the replies. A sync of pages of one entry often kills it itself."""
        book = self.random.choice(BOOKS)
        first, later = ([self.changes.draw() for _ in range(self.random.randint(5, 30))]
                        for _ in range(2))
        with server.connect() as connection:
            # These are there for the folder to sync.
            connection.send(b"".join(first))
            replies = [connection.reply() for _ in first]
            self.page(server)
            if self.random.random() < 0.3:
                # No token of before is accepted any more.
                _, tally = parts_of(server.ask(request("GET", path(book, "tally"))))
                first.append(request("POST", path(book, "forget", upto=tally["number"])))
                connection.send(first[-1])
                replies.append(connection.reply())
            pages = self.random.choice([0, self.random.randint(1, 8)])
            child = self.begin_sync(server, book, KillingCopy(self.path(book), server, pages))
            connection.send(b"".join(later))
            if pages:
                self.wait(server)
            else:
                time.sleep(self.random.uniform(0, 0.06))
            server.kill()
            self.step += 1
            replies += whole_replies(connection.rest())
        self.end_sync(child)
        return first + later, replies

    @staticmethod
    def wait(server):
        """Waits until the server was killed, for a second at most: there may be fewer pages."""
        ends = time.monotonic() + 1
        while server.process.poll() is None and time.monotonic() < ends:
            time.sleep(0.002)

    def page(self, server):
        """A desk applies one page."""
        desk = self.random.choice(self.desks)
        desk.hear(server.ask(desk.ask()))

    def path(self, book):
        return str(self.folder / book)

    def begin_sync(self, server, book, copy):
        """Begins syncs of the folder in a process of its own, which ends when the server does."""
        child = os.fork()
        if child:
            return child
        try:
            while True:
                office(server, attempts=1).book(book).sync(copy, limit=1)
        except Unreachable:
            os._exit(0)
        finally:
            os._exit(1)

    def end_sync(self, child):
        """Waits for the end of the sync, or kills it."""
        if self.random.random() < 0.3:
            os.kill(child, 9)
        _, status = os.waitpid(child, 0)
        is_killed = os.WIFSIGNALED(status)
        self.test.assertTrue(is_killed or os.WEXITSTATUS(status) == 0, self.where("the sync"))

    # What is there afterwards.

    def compare(self, server):
        """Each client goes on with its token, and then has its book."""
        for desk in self.desks:
            while not desk.hear(server.ask(desk.ask())):
                pass
            self.equal(desk.members(), self.contents(desk.book), "the desk")
        for book in BOOKS:
            copy = FolderCopy(self.path(book), may_be_empty=True)
            office(server, timeout=PATIENCE).book(book).sync(copy)
            self.equal(self.files(book), self.contents(book), "the folder")

    def files(self, book):
        """The versions that the folder knows and the texts of its files, by UID."""
        copy = FolderCopy(self.path(book), may_be_empty=True)
        with copy.opened(f"http://127.0.0.1:{self.port}/books/{book}"):
            versions = {uid: row.version for uid, row in copy.rows.items()}
        texts = [it.read_bytes().decode() for it in (self.folder / book).glob("*.vcf")]
        self.equal(len(texts), len(versions), "the files")
        return {uid_of(it): (versions.get(uid_of(it)), it) for it in texts}


class KeptTokens(unittest.TestCase):
    def test_clients(self):
        for seed in SEEDS:
            with self.subTest(seed=seed), Folder() as folder:
                ClientTrial(self, seed, folder).go()


if __name__ == "__main__":
    unittest.main()
