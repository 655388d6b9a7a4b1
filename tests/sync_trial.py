"""Random edits of a folder and of its book, with syncs that are stopped, and what must come of it.

Each card that anybody writes has a text of its own, and the trial knows who wrote it and which text
was there before. A text is over once somebody who saw it edited or removed it. In the end, after a
sync that isn't stopped:

- the folder and the book hold the same cards, and none of these texts is over;
- each text that isn't over is in both of them, or, if it was written in the folder, in a file that
  keeps what lost a conflict. So no edit is lost;
- each kept text was written in the folder, is kept once, and isn't over. So nothing is invented.
  One case looks like a conflict: a sync was stopped after it had sent the edit, and somebody edited
  the card on the server before the next one. Such a text may be kept although it is over.
"""

import random
from collections import Counter
from contextlib import contextmanager

from http_requests import card
from model.cards import read_card
from program import Server, run
from python_client import Careless, cards_of, is_killed, is_stopped, office

from tosculai import uid_of
from tosculai_tools.folder import FolderCopy

UIDS = ["a", "A", "b", "team", "é/x", "..", "o p%", "urn:uuid:7f", "q+&?#", "\\n", "con", "l" * 255]


def canonical(text):
    return read_card(text.encode()).text.decode()


class SyncTrial:
    """A book of a server, its folder, and all texts that were written."""

    def __init__(self, test, seed, file, folder, edits, loss=0.0):
        self.test, self.seed, self.file, self.folder = test, seed, file, folder
        self.edits_left, self.loss = edits, loss
        self.random = random.Random(f"sync trial {seed}")
        self.written = 0
        self.here = set()  # texts that were written in the folder
        self.alive = set()  # texts that aren't over
        self.over_there = set()  # texts that are over because of an edit on the server
        self.doubtful = set()  # texts that a stopped sync may have sent
        self.counts = Counter()

    def go(self):
        """The whole trial."""
        with self.started():
            while self.edits_left > 0:
                for _ in range(self.random.randint(1, 12)):
                    self.random.choice([self.edit_here, self.edit_there])(self.random.choice(UIDS))
                if self.random.random() < 0.2:
                    self.random.choice([self.forget, self.rename, self.restart])()
                self.random.choice([self.sync, self.stop_sync, self.stop_sync, self.kill_sync])()
            self.sync()
            self.check()

    @contextmanager
    def started(self):
        """With the server of a new file, and the proxy before it."""
        self.test.assertEqual(0, run("init", self.file).status)
        self.server = Server(self.file)
        try:
            with Careless(self.server, self.seed, self.loss) as self.proxy:
                self.book = office(self.server).create("staff")
                yield
        finally:
            self.server.kill()

    def where(self, what):
        return f"seed {self.seed}, {self.edits_left} edits left: {what:.300}"

    def restart(self):
        self.server.kill()
        self.server = self.proxy.server = Server(self.file)
        self.book = office(self.server).book("staff")

    # Edits.

    def new_text(self, uid, is_here):
        """A card that nobody wrote before."""
        self.written += 1
        self.edits_left -= 1
        lines = ["NOTE:" + "long " * 40] * self.random.randrange(2)
        text = canonical(card(uid, f"Name {self.written}", *lines))
        self.alive.add(text)
        if is_here:
            self.here.add(text)
        return text

    def files(self):
        """The paths of the folder's cards by UID, and their texts."""
        found = {}
        for path in sorted(self.folder.glob("*.vcf")):
            text = canonical(path.read_bytes().decode())
            self.test.assertNotIn(uid_of(text), found, self.where(str(path)))
            found[uid_of(text)] = path, text
        return found

    def edit_here(self, uid):
        """Somebody adds, edits or removes a file."""
        if uid in self.files() and self.random.random() < 0.3:
            self.remove_here(uid)
        else:
            self.put_here(uid)

    def remove_here(self, uid):
        path, text = self.files()[uid]
        self.alive.discard(text)
        self.edits_left -= 1
        path.unlink()

    def put_here(self, uid):
        self.folder.mkdir(exist_ok=True)
        path, text = self.files().get(uid, (self.folder / f"added-{self.written}.vcf", ""))
        self.alive.discard(text)
        text = self.new_text(uid, True)
        path.write_bytes(text.replace("\r\n", self.random.choice(["\n", "\r\n"])).encode())

    def edit_there(self, uid):
        """Somebody adds, edits or removes the card on the server, having seen it."""
        if self.random.random() < 0.3 and self.book.find(uid):
            self.remove_there(uid)
        else:
            self.put_there(uid)

    def remove_there(self, uid):
        self.edits_left -= 1
        self.book.remove(uid, self.see_there(uid))

    def put_there(self, uid, text=None):
        self.book.put(text or self.new_text(uid, False), self.see_there(uid))

    def see_there(self, uid):
        """The version of the card on the server, which is over now; 0 if there is none."""
        there = self.book.find(uid)
        if there:
            self.alive.discard(there.text)
            self.over_there.add(there.text)
        return there.version if there else 0

    def rename(self):
        for uid, (path, _) in self.files().items():
            if self.random.random() < 0.5:
                path.rename(self.folder / f"renamed-{self.written}-{UIDS.index(uid)}.vcf")

    def forget(self):
        """The book forgets all removals, so that the folder's token is refused."""
        self.book.forget(self.book.tally()["number"])

    # Syncs.

    def copy(self):
        return FolderCopy(str(self.folder), may_be_empty=True)

    def client_book(self):
        """The book as the folder's client reaches it: some of its requests and replies get lost."""
        return office(self.proxy, attempts=8).book("staff")

    def call(self):
        self.client_book().sync(self.copy(), limit=self.limit)

    def sync(self):
        self.limit = self.random.choice([1, 2, 3, None])
        report = self.client_book().sync(self.copy(), limit=self.limit)
        self.test.assertEqual(({}, {}), (report.refused, report.skipped))
        self.counts["whole"] += 1
        self.counts["conflicts"] += len(report.conflicts)

    def stop_sync(self, step=None):
        """Begins a sync, which dies at its step of this number; returns whether it came to that."""
        self.expect_doubts()
        step = step or self.random.randint(1, self.random.choice([30, 80, 160]))
        is_over = not is_stopped(self.call, step)
        self.proxy.settle()
        self.counts["whole" if is_over else "stopped"] += 1
        return not is_over

    def kill_sync(self):
        self.expect_doubts()
        self.counts["killed"] += is_killed(self.call, self.random.uniform(0, 0.03))
        self.proxy.settle()

    def expect_doubts(self):
        self.limit = self.random.choice([1, 2, 3, None])
        self.doubtful.update(text for _, text in self.files().values() if text in self.here)

    # What must come of it.

    def check(self):
        cards = {uid: text for uid, (_, text) in self.files().items()}
        self.test.assertEqual(cards, cards_of(self.book), self.where("the cards"))
        kept = [canonical(it.read_bytes().decode()) for it in self.folder.glob("*.conflict*")]
        final = set(cards.values())
        self.test.assertLessEqual(final, self.alive, self.where("an edit of these came to nothing"))
        for text in self.alive:
            is_kept = text in self.here and text in kept
            self.test.assertTrue(text in final or is_kept, self.where("lost: " + text))
        for text, count in Counter(kept).items():
            self.test.assertEqual(1, count, self.where("doubled: " + text))
            self.test.assertIn(text, self.here, self.where("invented: " + text))
            is_right = text in self.alive or text in self.doubtful & self.over_there
            self.test.assertTrue(is_right, self.where("no conflict: " + text))
        self.counts["kept"] += len(kept)
        self.counts["kept though over"] += len(set(kept) - self.alive)
        rest = [it.name for it in self.folder.glob(".tosculai-*")]
        self.test.assertEqual([], rest, self.where("files of a sync"))
