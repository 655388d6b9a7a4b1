"""A resync of a file, which makes every device start again after the file was put back from a copy.

It is the program's order `resync`, or the same change of the file's rows by sqlite3 where the
program doesn't have that order yet. No server may have the file open.
"""

import functools
import sqlite3

from page_sums import renew_sums
from program import run

CARDS_MAX = 10_000
SKIP = 1_000  # numbers that each book takes; fewer changes than that are lost by any restore here
HAS_TABLES = sqlite3.sqlite_version_info >= (3, 37)  # which can read the file's STRICT tables
CHANGES = [
    "UPDATE book SET number = number + :skip, horizon = number + :skip, "
    "created = created + :skip / 2, deleted = deleted + :skip / 2",
    "DELETE FROM member WHERE card IS NULL",
    # A full book has no room for a card that comes and goes, so one of its cards does.
    "UPDATE member SET changed = (SELECT number FROM book WHERE id = member.book) WHERE uid = "
    "(SELECT min(uid) FROM member AS other WHERE other.book = member.book) AND (SELECT count(*) "
    f"FROM member AS other WHERE other.book = member.book) >= {CARDS_MAX}",
]


@functools.lru_cache(maxsize=None)
def has_order():
    """Whether the program has the order `resync`."""
    return b"\n  resync " in run("--help").err


def can_resync():
    return has_order() or HAS_TABLES


def resync_by_order(file, skip=SKIP):
    ended = run("resync", file, "--skip", skip)
    assert ended.status == 0, ended


def resync(file, skip=SKIP):
    """By the rows, which test_carddav_resync compares with the order, or else by that."""
    (resync_rows if HAS_TABLES else resync_by_order)(file, skip)


def resync_rows(file, skip=SKIP):
    """Each book takes these numbers, half of them for creations and half for removals, and forgets
    all removals (docs/MODEL.md)."""
    db = sqlite3.connect(str(file), isolation_level=None)
    try:
        db.execute("BEGIN IMMEDIATE")
        for statement in CHANGES:
            db.execute(statement, {"skip": skip} if ":skip" in statement else {})
        db.execute("COMMIT")
    finally:
        db.close()
    renew_sums(file)
