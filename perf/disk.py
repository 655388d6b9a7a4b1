"""The yardstick of the disk: SQLite in Python's module, with a put's statements and commit."""

import os
import sqlite3
from time import perf_counter

from cards import card, uid
from day import mean

TABLES = """
CREATE TABLE book (id INTEGER PRIMARY KEY, name TEXT NOT NULL UNIQUE, number INTEGER NOT NULL,
  created INTEGER NOT NULL);
CREATE TABLE member (book INTEGER NOT NULL REFERENCES book(id), uid TEXT NOT NULL,
  changed INTEGER NOT NULL, card TEXT, PRIMARY KEY (book, uid), UNIQUE (book, changed));
INSERT INTO book VALUES (1, 'staff', 0, 0);
"""
STORE = """
INSERT INTO member VALUES (1, ?, ?, ?)
  ON CONFLICT (book, uid) DO UPDATE SET changed = excluded.changed, card = excluded.card
"""


class BareDatabase:
    """A day of puts alone, over a new database in the folder."""

    def __init__(self, folder):
        # Without a level of isolation, transactions begin and end where put() does it.
        self.rows = sqlite3.connect(os.path.join(folder, "bare.db"), isolation_level=None)
        self.rows.execute("PRAGMA journal_mode=WAL")
        self.rows.execute("PRAGMA synchronous=FULL")
        self.rows.executescript(TABLES)

    def run(self, cards):
        """The one figure of a day that this has: the seconds of a put."""
        try:
            return {"new": mean([self.put(number) for number in range(cards)])}
        finally:
            self.rows.close()

    def put(self, number):
        """Puts a card and counts it in its book, in one commit, and returns the seconds of that."""
        text = card(number).decode()
        begun = perf_counter()
        do = self.rows.execute
        do("BEGIN IMMEDIATE")
        (last,) = do("SELECT number FROM book WHERE name = ?", ("staff",)).fetchone()
        do("SELECT card FROM member WHERE book = 1 AND uid = ?", (uid(number),)).fetchone()
        do(STORE, (uid(number), last + 1, text))
        do("UPDATE book SET number = ?, created = created + 1 WHERE id = 1", (last + 1,))
        do("COMMIT")
        return perf_counter() - begun
