"""What the gateway keeps in one file of SQLite: names, copies of books, what programs know.

- **Names.** A CardDAV client chooses the name of a card's resource, and the server knows only UIDs.
  A name is kept for good, also of a card that was removed: its removal is told under that name.
- **Copies.** The cards of each book with the server's token, so that memory holds no texts and a
  start reads nothing again. They can be lost: they are made anew.
- **Files.** Who was the first to store each file of photos.py, and how large it is.
- **Views.** What is shown to programs whose groups are categories (shown.py).
- **The epoch** is a part of each token for clients. If this file is lost, so are the names; then
  there is another epoch, all tokens are refused, and clients list all names again. So they do
  once another version of the gateway gives them cards in another form, with other ETags, and once
  the server's file is found to be another one (books.py). What was read of the server in an epoch
  gets into the copies in that epoch alone.

A commit of names is on the disk when it returns (`synchronous` FULL). One of copies need not be:
rows and token are in one transaction, so after a power cut an older copy is there, with its token.
"""

import hashlib
import re
import secrets
import sqlite3
import threading
from contextlib import contextmanager
from typing import Collection, Dict, Iterable, Iterator, List, NamedTuple, Optional, Tuple

from tosculai import Error

from gateway.cards import FORM

SCHEMA_NUMBER = "1"
SCHEMA = """
CREATE TABLE IF NOT EXISTS facts (name TEXT PRIMARY KEY, value TEXT NOT NULL) WITHOUT ROWID;
CREATE TABLE IF NOT EXISTS books (book INTEGER PRIMARY KEY, token TEXT NOT NULL);
CREATE TABLE IF NOT EXISTS names (book INTEGER NOT NULL, name TEXT NOT NULL, uid TEXT NOT NULL,
    old INTEGER NOT NULL, PRIMARY KEY (book, name, uid)) WITHOUT ROWID;
CREATE INDEX IF NOT EXISTS names_of_cards ON names (book, uid, old, name);
CREATE TABLE IF NOT EXISTS stale (book INTEGER PRIMARY KEY);
CREATE TABLE IF NOT EXISTS cards (book INTEGER NOT NULL, uid TEXT NOT NULL,
    version INTEGER NOT NULL, etag TEXT NOT NULL, card TEXT NOT NULL, UNIQUE (book, uid));
CREATE TABLE IF NOT EXISTS known (program TEXT NOT NULL, property TEXT NOT NULL,
    PRIMARY KEY (program, property)) WITHOUT ROWID;
CREATE TABLE IF NOT EXISTS files (digest TEXT PRIMARY KEY, user TEXT NOT NULL,
    octets INTEGER NOT NULL) WITHOUT ROWID;
CREATE TABLE IF NOT EXISTS views (book INTEGER PRIMARY KEY, token TEXT NOT NULL,
    number INTEGER NOT NULL);
CREATE TABLE IF NOT EXISTS shown (book INTEGER NOT NULL, uid TEXT NOT NULL, bare TEXT NOT NULL,
    stored TEXT NOT NULL, etag TEXT NOT NULL, names TEXT NOT NULL, number INTEGER NOT NULL,
    PRIMARY KEY (book, uid)) WITHOUT ROWID;
CREATE INDEX IF NOT EXISTS shown_members ON shown (book, bare);
CREATE INDEX IF NOT EXISTS shown_changes ON shown (book, number);
CREATE TABLE IF NOT EXISTS teams (book INTEGER NOT NULL, uid TEXT NOT NULL, name TEXT NOT NULL,
    PRIMARY KEY (book, uid)) WITHOUT ROWID;
CREATE INDEX IF NOT EXISTS teams_by_name ON teams (book, name);
CREATE TABLE IF NOT EXISTS members (book INTEGER NOT NULL, bare TEXT NOT NULL, team TEXT NOT NULL,
    PRIMARY KEY (book, bare, team)) WITHOUT ROWID;
CREATE INDEX IF NOT EXISTS members_of_teams ON members (book, team);
CREATE TABLE IF NOT EXISTS wishes (book INTEGER NOT NULL, uid TEXT NOT NULL, digest TEXT NOT NULL,
    joins TEXT NOT NULL, leaves TEXT NOT NULL, teams TEXT NOT NULL, PRIMARY KEY (book, uid))
    WITHOUT ROWID;
"""
VIEWS = ("views", "shown", "teams", "members", "wishes")  # what shown.py keeps
PLAIN = re.compile(r"[A-Za-z0-9_][A-Za-z0-9_@.=+-]{0,99}")
ENTRIES = ("SELECT names.name, cards.uid, cards.version, cards.etag FROM cards JOIN names"
           " ON names.book = cards.book AND names.uid = cards.uid AND names.old = 0"
           " WHERE cards.book = ?")


class Renewed(Error):
    """Another epoch has begun since the server was asked; as after a 503, ask again."""

    def __init__(self) -> None:
        super().__init__("the books are read anew: ask again", 503)


class Entry(NamedTuple):
    """A card that is there, without its text."""

    name: str
    uid: str
    version: int
    etag: str


class Row(NamedTuple):
    """A card as a page of the server has it; one that was removed has an empty text."""

    uid: str
    version: int
    etag: str
    text: str


class State:
    """The file. All methods may be called by any thread: one at a time goes on."""

    def __init__(self, path: str) -> None:
        self._db = sqlite3.connect(path, check_same_thread=False, isolation_level=None, timeout=5)
        self._lock = threading.RLock()
        self._db.execute("PRAGMA journal_mode = WAL")
        with self.changing(durably=True):
            for statement in SCHEMA.split(";"):
                self._db.execute(statement)
            facts = [("epoch", secrets.token_hex(4)), ("schema", SCHEMA_NUMBER)]
            self._db.executemany("INSERT OR IGNORE INTO facts VALUES (?, ?)", facts)
        found = dict(self._db.execute("SELECT name, value FROM facts"))
        if found["schema"] != SCHEMA_NUMBER:
            raise ValueError(f"{path} is of another version of the gateway")
        self.epoch = str(found["epoch"])
        if found.get("form") != FORM:  # what clients have read is of another form
            self.start_over()
            with self.changing(durably=True):
                self._db.execute("INSERT OR REPLACE INTO facts VALUES ('form', ?)", (FORM,))
        self._known = set(self._db.execute("SELECT program, property FROM known"))
        self._stale = {int(it) for it, in self._db.execute("SELECT book FROM stale")}

    def close(self) -> None:
        self._db.close()

    @contextmanager
    def changing(self, durably: bool = False) -> Iterator[None]:
        """One transaction. If it is one already, this is a part of it."""
        with self._lock:
            if self._db.in_transaction:
                yield
                return
            self._db.execute(f"PRAGMA synchronous = {'FULL' if durably else 'NORMAL'}")
            self._db.execute("BEGIN IMMEDIATE")
            try:
                yield
            except BaseException:
                self._db.execute("ROLLBACK")
                raise
            self._db.execute("COMMIT")

    def rows(self, statement: str, *values: object) -> List[Tuple]:  # type: ignore[type-arg]
        with self._lock:
            return self._db.execute(statement, values).fetchall()

    def write(self, statement: str, *rows: Tuple[object, ...]) -> None:
        """Executes the statement once for each row, within the transaction that there is."""
        with self.changing():
            self._db.executemany(statement, rows)

    def start_over(self, stay: Collection[int] = ()) -> None:
        """Drops the copies and begins another epoch, so that each client lists all names again.

        So nobody asks for removals of before, and the names of cards that aren't there are dropped
        once a book is read. Replies may be reading the cards of the books that stay: these are
        there until their book is read anew.
        """
        others = f"book NOT IN ({', '.join('?' * len(stay))})"
        with self.changing(durably=True):
            for table in ("cards", *VIEWS):
                self._db.execute(f"DELETE FROM {table} WHERE {others}", [*stay])
            self._db.execute("DELETE FROM books")
            self._db.execute("UPDATE views SET token = ''")
            self.epoch = secrets.token_hex(4)
            self._db.execute("UPDATE facts SET value = ? WHERE name = 'epoch'", (self.epoch,))
            self._db.execute("DELETE FROM facts WHERE name GLOB 'book:*'")
            self._db.execute("INSERT OR IGNORE INTO stale SELECT DISTINCT book FROM names")
            self._stale = {int(it) for it, in self._db.execute("SELECT book FROM stale")}

    def books(self) -> Dict[str, int]:
        """The books that the office is known to have: their numbers by name."""
        found = self.rows("SELECT substr(name, 6), value FROM facts WHERE name GLOB 'book:*'")
        return {str(name): int(number) for name, number in found}

    def note_books(self, books: Dict[str, int]) -> None:
        with self.changing(durably=True):
            self._db.executemany("INSERT OR IGNORE INTO facts VALUES (?, ?)",
                                 [(f"book:{name}", str(it)) for name, it in books.items()])

    def whole(self, book: int, epoch: str) -> None:
        """Notes that the copy has the whole book, before a client gets a token of it."""
        if book not in self._stale:
            return
        with self.changing(durably=True):
            self._expect(epoch)
            self._db.execute("DELETE FROM names WHERE book = ? AND (old = 1 OR NOT EXISTS ("
                             "SELECT 1 FROM cards WHERE cards.book = names.book AND"
                             " cards.uid = names.uid))", (book,))
            self._db.execute("DELETE FROM stale WHERE book = ?", (book,))
            self._stale.discard(book)

    def _expect(self, epoch: str) -> None:
        if epoch != self.epoch:
            raise Renewed

    def end(self) -> None:
        """Writes the file anew, so that its octets have nothing of what was deleted; closes it."""
        with self._lock:
            self._db.execute("VACUUM")
            self._db.execute("PRAGMA wal_checkpoint(TRUNCATE)")
            self._db.close()

    # Copies.

    def token(self, book: int) -> str:
        """The server's token of the copy; empty if there is none."""
        found = self.rows("SELECT token FROM books WHERE book = ?", book)
        return str(found[0][0]) if found else ""

    def drop_token(self, book: int) -> None:
        """Lets the copy be read anew; its cards stay until that is done."""
        with self.changing():
            self._db.execute("DELETE FROM books WHERE book = ?", (book,))
            self._db.execute("UPDATE views SET token = '' WHERE book = ?", (book,))

    def apply(self, book: int, rows: List[Row], token: str, epoch: str,
              only: Optional[Collection[str]] = None) -> None:
        """Puts a page of the server into the copy, and keeps its token, in one transaction.

        It was asked for in this epoch. If `only` is given, the copy keeps no card but those of
        these UIDs.
        """
        there = [row for row in rows if row.text]
        gone = [(book, row.uid) for row in rows if not row.text]
        self.assign(book, [row.uid for row in there])  # before a client may be told of them
        with self.changing():
            self._expect(epoch)
            if only is not None:
                found = self._db.execute("SELECT uid FROM cards WHERE book = ?", (book,))
                gone += [(book, uid) for uid, in found if uid not in only]
            self._db.executemany("DELETE FROM cards WHERE book = ? AND uid = ?", gone)
            self._db.executemany("INSERT OR REPLACE INTO cards VALUES (?, ?, ?, ?, ?)",
                                 [(book, *row) for row in there])
            self._db.execute("INSERT OR REPLACE INTO books VALUES (?, ?)", (book, token))

    def entries(self, book: int) -> List[Entry]:
        return [Entry(*row) for row in self.rows(ENTRIES, book)]

    def count(self, book: int) -> int:
        return int(self.rows("SELECT count(*) FROM cards WHERE book = ?", book)[0][0])

    def entry(self, book: int, uid: str) -> Optional[Entry]:
        found = self.rows(ENTRIES + " AND cards.uid = ?", book, uid)
        return Entry(*found[0]) if found else None

    def named(self, book: int, name: str) -> Optional[Entry]:
        """The card whose present name this is."""
        found = self.rows(ENTRIES + " AND names.name = ?", book, name)
        return Entry(*found[0]) if found else None

    def card(self, book: int, column: str, value: str) -> Optional[Tuple[Entry, str]]:
        """The card of this `cards.uid` or present `names.name`, with its text."""
        found = self.rows(ENTRIES.replace(" FROM", ", cards.card FROM", 1)
                           + f" AND {column} = ?", book, value)
        return (Entry(*found[0][:4]), str(found[0][4])) if found else None

    def text(self, book: int, uid: str) -> Optional[Tuple[str, str]]:
        """The ETag and the text of a card that is there."""
        found = self.rows("SELECT etag, card FROM cards WHERE book = ? AND uid = ?", book, uid)
        return (str(found[0][0]), str(found[0][1])) if found else None

    def texts(self, book: int) -> Iterator[Tuple[str, int, str]]:
        """The UID, the version and the text of each card, some read at a time."""
        at = ""
        while True:
            rows = self.rows("SELECT uid, version, card FROM cards WHERE book = ? AND uid > ?"
                              " ORDER BY uid LIMIT 100", book, at)
            for uid, version, text in rows:
                yield str(uid), int(version), str(text)
            if not rows:
                return
            at = str(rows[-1][0])

    # Names.

    def name(self, book: int, uid: str) -> Optional[str]:
        """The present name of a card, also if it was removed."""
        found = self.rows("SELECT name FROM names WHERE book = ? AND uid = ? AND old = 0",
                           book, uid)
        return str(found[0][0]) if found else None

    def names(self, book: int, uid: str) -> List[str]:
        """All names that the card has ever had, its present one among them."""
        found = self.rows("SELECT name FROM names WHERE book = ? AND uid = ?", book, uid)
        return [str(name) for name, in found]

    def assign(self, book: int, uids: Iterable[str]) -> None:
        """Gives a name to each of these cards that has none."""
        new = [uid for uid in uids if self.name(book, uid) is None]
        if not new:
            return
        with self.changing(durably=True):
            for uid in new:
                name = next(it for it in names_for(uid) if self._is_free(book, it))
                self._db.execute("INSERT INTO names VALUES (?, ?, ?, 0)", (book, name, uid))

    def _is_free(self, book: int, name: str) -> bool:
        return not self.rows("SELECT 1 FROM names WHERE book = ? AND name = ?", book, name)

    def give(self, book: int, name: str, uid: str) -> "Undo":
        """Makes this the present name of the card. It is on the disk when this returns.

        Its former name becomes an old one, and so does this name for a removed card that had it.
        """
        if self.name(book, uid) == name:
            return []
        with self.changing(durably=True):
            rows = self.rows("SELECT name, uid, old FROM names WHERE book = ? AND"
                              " (uid = ? OR name = ?)", book, uid, name)
            self._db.execute("UPDATE names SET old = 1 WHERE book = ? AND (uid = ? OR name = ?)",
                             (book, uid, name))
            self._db.execute("INSERT OR REPLACE INTO names VALUES (?, ?, ?, 0)", (book, name, uid))
        undo: Undo = [(name, uid, None)]
        return undo + [(str(it[0]), str(it[1]), int(it[2])) for it in rows]

    def take_back(self, book: int, undo: "Undo") -> None:
        """Undoes a `give` whose card the server didn't take."""
        if undo:
            with self.changing(durably=True):
                for name, uid, old in undo:
                    self._db.execute("DELETE FROM names WHERE book = ? AND name = ? AND uid = ?",
                                     (book, name, uid))
                    if old is not None:
                        self._db.execute("INSERT INTO names VALUES (?, ?, ?, ?)",
                                         (book, name, uid, old))

    # What programs know.

    def knows(self, program: str, name: str) -> bool:
        """Whether this program has ever sent a property of this name."""
        return (program, name) in self._known

    def learn(self, program: str, names: Iterable[str]) -> None:
        new = {(program, name) for name in names} - self._known
        if new:
            with self.changing():
                self._db.executemany("INSERT OR IGNORE INTO known VALUES (?, ?)", sorted(new))
            self._known |= new


    # What users have stored beside cards.

    def stored_by(self, user: str) -> int:
        """The octets of the files that this user was the first to store, and that are here."""
        found = self.rows("SELECT coalesce(sum(octets), 0) FROM files WHERE user = ?", user)
        return int(found[0][0])

    def note_file(self, digest: str, user: str, octets: int) -> None:
        with self.changing():
            self._db.execute("INSERT OR IGNORE INTO files VALUES (?, ?, ?)",
                             (digest, user, octets))

    def forget_file(self, digest: str) -> None:
        with self.changing():
            self._db.execute("DELETE FROM files WHERE digest = ?", (digest,))


Undo = List[Tuple[str, str, Optional[int]]]  # rows of names as they were; None was no row


def names_for(uid: str) -> Iterator[str]:
    """Names for a card that no client has named: as readable as its UID allows."""
    bare = uid[9:] if uid.lower().startswith("urn:uuid:") else uid
    digest = hashlib.sha256(uid.encode()).hexdigest()[:32]
    if PLAIN.fullmatch(bare):
        yield bare + ".vcf"
    yield digest + ".vcf"
    while True:
        yield secrets.token_hex(16) + ".vcf"
