"""A file of the program with a few books, and the model of what it holds."""

import random

from histories import path
from http_requests import request
from model.books import Office
from model.http import Session
from program import Ended, run


class Trial:
    """What a test does to one file, from a seed. A failure names the seed, and the step."""

    def __init__(self, test, seed, folder, books):
        self.test, self.seed, self.step = test, seed, 0
        self.folder, self.file = folder, folder / "office.db"
        self.office, self.random = Office(), random.Random("trial %d" % seed)
        self.equal(run("init", self.file), Ended(0, b"made\n", b""))
        for number, book in enumerate(books, 1):
            self.equal(run("book", self.file, book), Ended(0, b"book %d\n" % number, b""))
            self.model_reply(request("PUT", path(book)))

    def where(self, what):
        return "seed %d step %d %.300r" % (self.seed, self.step, what)

    def equal(self, has, due, what=""):
        self.test.assertEqual(has, due, self.where(what))

    def model_reply(self, octets):
        """The model's replies to requests on a connection of their own."""
        return Session(self.office).feed(octets)

    def number(self, book):
        return self.office.books[book].number

    def contents(self, book):
        """The cards of a book: version and text by UID."""
        live = self.office.books[book].live
        return {uid: (stored.version, stored.card.text.decode()) for uid, stored in live.items()}

    def count_due(self, copy):
        """How many members a device would get by its token, if a page had room for them all."""
        marks = copy.token.split("/")[-2:] if copy.token else (0, self.number(copy.book))
        return len(self.office.books[copy.book].due(*map(int, marks)))
