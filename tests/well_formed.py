"""Which tables are a store's, and which rows are well-formed books, by docs/MODEL.md.

`open_fault` gives the number of the fault with which a file of such tables is refused.
"""

import re

from model.cards import uid_of
from tables import BOOK, DECLARED, IMPORT, KEEPING, MEMBER, META, NUMBERS, canonical_card

CHANGES_MAX, BOOKS_MAX, KEEP = 10**12, 100, 10_000

# The numbers of the faults of opening.
NOT_OURS, OTHER_SCHEMA, DAMAGED, NOT_EMPTY = 2, 3, 4, 5

BOOK_NAME = re.compile(rb"[a-z0-9-]{1,40}")
IMPORT_KEY = re.compile(rb"[A-Za-z0-9._-]{1,64}")


class NotWellFormed(Exception):
    pass


def need(holds):
    if not holds:
        raise NotWellFormed


def open_fault(tables, schema=2):
    """The number of the fault with which tables of this schema are refused, or None."""
    return schema_fault(tables, schema) or rows_fault(tables, schema)


def schema_fault(tables, schema):
    """Only the tables of a schema are there, and `meta` has the one row with its number."""
    declared = tables.declared()
    if declared not in (DECLARED, DECLARED[:4]):
        return NOT_OURS
    rows = tables.rows(META)
    if len(rows) != 1 or rows[0][0] != b"schema":
        return NOT_OURS
    if rows[0][1] != schema:
        return OTHER_SCHEMA
    return None if declared == DECLARED[:3 + schema] else NOT_OURS


def rows_fault(tables, schema):
    try:
        check_rows(tables, tables.rows(KEEPING) if schema == 2 else due_keeps(tables))
    except NotWellFormed:
        return DAMAGED
    return None


def due_keeps(tables):
    """How many removed members each book of the first schema is to remember: 10,000, and no fewer
    than it remembers now."""
    return [(book, max(KEEP, tables.remembered(book, horizon)))
            for book, horizon in tables.rows("SELECT id, horizon FROM book ORDER BY id")]


def check_rows(tables, keeps):
    """The rows of each book are well formed, and no row is of another book."""
    members, imports, books = tables.rows(MEMBER), tables.rows(IMPORT), read_books(tables)
    ids = [book["id"] for book in books]
    need(all(row[0] in ids for row in members + imports + keeps))
    for book in books:
        own = book["id"]
        check_book(book, [row[1:] for row in members if row[0] == own],
                   [row[1] for row in keeps if row[0] == own])
        for _, key, *numbers in [row for row in imports if row[0] == own]:
            need(IMPORT_KEY.fullmatch(key))
            need(min(numbers) >= 0 and numbers[-1] <= book["number"])


def read_books(tables):
    """The rows of books, whose ids are 1, 2 and so on; no number is below zero."""
    books = [dict(zip(["id", "name", *NUMBERS], row)) for row in tables.rows(BOOK)]
    need(all(book[number] >= 0 for book in books for number in NUMBERS))
    need(len(books) <= BOOKS_MAX)
    need([book["id"] for book in books] == list(range(1, len(books) + 1)))
    return books


def check_book(book, members, keeps):
    """The counts add up to the number and to the live members, and the tombstones fit the keep."""
    need(BOOK_NAME.fullmatch(book["name"]))
    arrived = book["created"] + book["imported"] + book["moved_in"]
    left = book["deleted"] + book["moved_out"]
    edited = book["edited"] + book["import_edited"]
    need(book["number"] == arrived + left + edited <= CHANGES_MAX)
    need(book["horizon"] <= book["number"])
    need(sum(card is not None for _, _, card in members) == arrived - left)
    removed = sum(card is None for _, _, card in members)
    need(len(keeps) == 1 and keeps[0] >= 1 and removed <= keeps[0])
    for member in members:
        check_member(book, *member)


def is_uid(octets):
    """UTF-8 of 1 to 255 octets, without a tab."""
    try:
        octets.decode()
    except UnicodeDecodeError:
        return False
    return 1 <= len(octets) <= 255 and b"\t" not in octets


def check_member(book, uid, changed, text):
    """One of the book's changes wrote it, and its UID is one that a card can have. A live member has
    its own card, in the canonical text, and a removed one is still remembered."""
    need(1 <= changed <= book["number"])
    need(is_uid(uid))
    if text is None:
        need(changed > book["horizon"])
    else:
        card = canonical_card(text)
        need(card is not None and uid_of(card).encode() == uid)
