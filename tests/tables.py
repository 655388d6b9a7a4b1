"""A store's tables over Python's sqlite3: how they are declared, and the rows of a small store.

The declarations are those of the file's format, and the small store's rows follow from the changes
that `small_store` names. Nothing here runs the program.
"""

import sqlite3
import unittest

from model.cards import BadCard, read_card, write_card
from page_sums import renew_sums

# What a book counts, in the order of the columns: its changes, its horizon, and its changes by
# their reasons.
NUMBERS = ["number", "horizon", "created", "edited", "imported", "import_edited", "moved_in",
           "deleted", "moved_out"]

# The statements that declare the tables. The first schema has all but the last.
DECLARED = [
    "CREATE TABLE meta (name TEXT NOT NULL PRIMARY KEY, val INTEGER NOT NULL) STRICT",
    "CREATE TABLE book (id INTEGER PRIMARY KEY, name TEXT NOT NULL UNIQUE, "
    + ", ".join(f"{number} INTEGER NOT NULL" for number in NUMBERS) + ") STRICT",
    "CREATE TABLE member (book INTEGER NOT NULL REFERENCES book(id), uid TEXT NOT NULL, "
    "changed INTEGER NOT NULL, card TEXT, PRIMARY KEY (book, uid), UNIQUE (book, changed)) STRICT",
    "CREATE TABLE import_key (book INTEGER NOT NULL REFERENCES book(id), ikey TEXT NOT NULL, "
    "added INTEGER NOT NULL, edited INTEGER NOT NULL, same INTEGER NOT NULL, "
    "number INTEGER NOT NULL, PRIMARY KEY (book, ikey)) STRICT",
    "CREATE TABLE keeping (book INTEGER PRIMARY KEY REFERENCES book(id), "
    "keep INTEGER NOT NULL) STRICT",
]

# All rows of each table, in the order of their keys.
META = "SELECT name, val FROM meta ORDER BY name"
BOOK = f"SELECT id, name, {', '.join(NUMBERS)} FROM book ORDER BY id"
MEMBER = "SELECT book, uid, changed, card FROM member ORDER BY book, uid"
IMPORT = "SELECT book, ikey, added, edited, same, number FROM import_key ORDER BY book, ikey"
KEEPING = "SELECT book, keep FROM keeping ORDER BY book"
TABLES = [META, BOOK, MEMBER, IMPORT, KEEPING]

NOTE = ("The quick brown fox jumps over the lazy dog\\, and the dog looks on from where it lies\\, "
        "by the gate of the old yard.")


def setUpModule():
    """For a module of tests to import: it is skipped where sqlite3 can't read these tables."""
    if sqlite3.sqlite_version_info < (3, 37):
        raise unittest.SkipTest(f"SQLite {sqlite3.sqlite_version} has no STRICT tables: 3.37 does")


class Text(bytes):
    """The octets of a text. Those of a blob are of the class `bytes` alone."""


class Tables:
    """A database in memory, or in the file at the path.

    A file with sums of its pages has right ones once it is closed.
    """

    def __init__(self, path=":memory:", foreign_keys=True):
        self.path = path
        self.db = sqlite3.connect(str(path), isolation_level=None)
        self.db.text_factory = Text
        self.db.execute(f"PRAGMA foreign_keys = {'ON' if foreign_keys else 'OFF'}")
        # No power failure is tested here, so nothing waits for the disk.
        self.db.execute("PRAGMA synchronous = OFF")

    def __enter__(self):
        return self

    def __exit__(self, *_):
        self.close()

    def close(self):
        self.db.close()
        if self.path != ":memory:":
            renew_sums(self.path)

    def lay(self, filled):
        """Declares the tables, as far as they are given, and fills each with its rows."""
        self.db.execute("BEGIN")
        for declared, (name, rows) in zip(DECLARED, filled):
            self.db.execute(declared)
            if rows:
                places = ", ".join("?" * len(rows[0]))
                self.db.executemany(f"INSERT INTO {name} VALUES ({places})", rows)
        self.db.execute("COMMIT")
        return self

    def run(self, statements):
        """Runs statements with semicolons between them, each by itself."""
        for statement in statements.split("; "):
            self.db.execute(statement)

    def rows(self, query, *values):
        return self.db.execute(query, values).fetchall()

    def all_rows(self, queries=TABLES):
        """What each query shows; None for a table that isn't there."""
        return [self._rows_if_any(query) for query in queries]

    def _rows_if_any(self, query):
        try:
            return self.rows(query)
        except sqlite3.OperationalError:
            return None

    def declared(self):
        """The statements that declare all that is there, with single spaces, in their order."""
        query = "SELECT sql FROM sqlite_master WHERE sql IS NOT NULL ORDER BY rowid"
        return [" ".join(sql.decode().split()) for sql, in self.rows(query)]

    def due(self, book, at, base):
        """The members of the book that a report is about, in its order.

        These are the members that changed after `at`, and are live or were removed after `base`.
        """
        return self.rows("SELECT uid, changed, card FROM member WHERE book = ? AND changed > ? AND "
                         "(card IS NOT NULL OR changed > ?) ORDER BY changed", book, at, base)

    def remembered(self, book, horizon):
        """How many removed members the book remembers."""
        return self.rows("SELECT count(*) FROM member WHERE book = ? AND card IS NULL AND "
                         "changed > ?", book, horizon)[0][0]


def in_memory(filled):
    """The tables with these rows, in memory."""
    return Tables().lay(filled)


def card(uid, name, note=None):
    """The canonical text of a card."""
    lines = ["BEGIN:VCARD", "VERSION:4.0", f"UID:{uid}", f"FN:{name}"]
    lines += [f"NOTE:{note}"] if note else []
    return write_card(read_card("\n".join([*lines, "END:VCARD"]).encode())).decode()


def small_store():
    """Three books, in the current schema, each of which may keep three tombstones.

    Staff had eight changes: Ann, Bob and Cy were created, Ann was edited, Bob removed, Dee imported
    and Cy edited by an import, and Cy moved to the clients. These had six: Eve was created, Cy
    moved in, Fay was created; Eve was removed and forgotten; Gus was created and removed. Hal and
    Ida were imported into the friends.
    """
    books = [(1, "staff", 8, 0, 3, 1, 1, 1, 0, 1, 1), (2, "clients", 6, 4, 3, 0, 0, 0, 1, 2, 0),
             (3, "friends", 2, 0, 0, 0, 2, 0, 0, 0, 0)]
    members = [(1, "ann", 4, card("ann", "Ann", NOTE)), (1, "bob", 5, None),
               (1, "dee", 6, card("dee", "Dee")), (1, "cy", 8, None),
               (2, "cy", 2, card("cy", "Cy Lee")), (2, "fay", 3, card("fay", "Fay")),
               (2, "gus", 6, None),
               (3, "hal", 1, card("hal", "Hal")), (3, "ida", 2, card("ida", "Ida"))]
    imports = [(1, "k1", 1, 1, 0, 7), (3, "k2", 2, 0, 0, 2)]
    return [("meta", [("schema", 2)]), ("book", books), ("member", members),
            ("import_key", imports), ("keeping", [(1, 3), (2, 3), (3, 3)])]


def first_store():
    """The same books in tables of the first schema, which has no keeps."""
    return [("meta", [("schema", 1)])] + small_store()[1:4]


def decoded(text):
    """The text if it is UTF-8, and else None."""
    try:
        return text.decode()
    except UnicodeDecodeError:
        return None


def canonical_card(text):
    """The card with this canonical text, or None if no card has it."""
    try:
        spelled = read_card(bytes(text))
    except BadCard:
        return None
    return spelled if write_card(spelled) == text else None


def value_text(value):
    if value is None or isinstance(value, int):
        return "-" if value is None else str(value)
    text = decoded(value)
    if text is None:
        return f"x'{value.hex()}'"
    return text.replace("\\", "\\\\").replace("\r", "\\r").replace("\n", "\\n")


def rows_text(rows):
    """The rows as lines, with bars between their values."""
    return "".join("|".join(map(value_text, row)) + "\n" for row in rows)
