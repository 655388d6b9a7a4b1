"""What the sweep of lives needs of the model's offices: copies, a resync, and files with long logs.

An office here also counts the interrupted commands that were made in it.
"""

import copy
import pathlib

from histories import UIDS, csv_text, path
from http_requests import card, request
from model.books import Office
from model.http import Session
from program import Server, run

BOOKS = ["staff", "clients"]
SKIP = 1_000  # numbers that a resync takes: more changes than a life has
LONG = 17_200  # words of a long card


def twin(office):
    """A copy of an office. Cards, events and replies are never changed."""
    made = copy.copy(office)
    made.made = getattr(office, "made", 0)
    made.books = {name: twin_book(book) for name, book in office.books.items()}
    return made


def twin_book(book):
    made = copy.copy(book)
    for part in ["events", "reasons", "imports", "live", "gone"]:
        setattr(made, part, copy.copy(getattr(book, part)))
    return made


def numbers(office):
    """What each change of an office changes."""
    books = office.books.items()
    return [(name, book.number, book.horizon, len(book.imports)) for name, book in books]


def resync(office):
    """Each book takes so many numbers, and forgets all removals (docs/MODEL.md)."""
    for book in office.books.values():
        book.events += [None] * SKIP
        book.reasons.update(created=SKIP // 2, deleted=SKIP // 2)
        book.horizon, book.gone = book.number, {}


def contents(book):
    """Version and text of each card, by its UID."""
    return {uid: (it.version, it.card.text.decode()) for uid, it in book.live.items()}


def long_files(folder):
    """Files with their offices. A few dozen changes later each log is written into its file."""
    return [long_file(pathlib.Path(folder) / ("long %d" % turn), turn) for turn in range(4)]


def long_file(folder, turn):
    """Each import of long cards, or of short ones in their places, adds some 200 pages."""
    folder.mkdir()
    assert run("init", folder / "office.db").status == 0
    asked = [request("PUT", path(book)) for book in BOOKS]
    for number in range(8):
        note = "NOTE:%d" % number + "long " * (LONG - 500 * turn) * (1 - number % 2)
        rows = [["uid", "vcard"], *([uid, card(uid, "Long", note)] for uid in UIDS)]
        target = path(BOOKS[0], "import", key="long%d" % number)
        asked.append(request("POST", target, csv_text(rows)))
    office = Office()
    due = Session(office).feed(b"".join(asked))
    with Server(folder / "office.db") as server:
        assert server.ask(b"".join(asked)) == due
    return folder, office
