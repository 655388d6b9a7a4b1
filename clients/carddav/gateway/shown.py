"""What programs are shown whose groups are categories, kept in the State's file.

It follows the copy of a book: each person's names of groups, an ETag of both, and a number that
grows with each change of what is shown. Rows are compared with the copy's, so whatever changed it
is found, also after a stop. A number is on the disk before a program gets it as its token.

Wishes are edits of groups that come with a person's edit. They are kept before that is sent, and
forgotten when both are done.
"""

import hashlib
import json
from typing import Dict, Iterable, List, NamedTuple, Optional, Set, Tuple

from tosculai import lines_of

from gateway import categories
from gateway.cards import bare_uid
from gateway.state import Entry, State

ENTRIES = ("SELECT names.name, cards.uid, cards.version, shown.etag{more} FROM shown JOIN cards"
           " ON cards.book = shown.book AND cards.uid = shown.uid AND cards.etag = shown.stored"
           " JOIN names ON names.book = cards.book AND names.uid = cards.uid AND names.old = 0"
           " WHERE shown.book = ? AND shown.etag <> ''")
CHANGED = ("SELECT cards.uid, cards.etag FROM cards LEFT JOIN shown ON shown.book = cards.book"
           " AND shown.uid = cards.uid WHERE cards.book = ? AND shown.stored IS NOT cards.etag")
GONE = ("SELECT uid, '' FROM shown WHERE book = ? AND stored <> '' AND NOT EXISTS (SELECT 1"
        " FROM cards WHERE cards.book = shown.book AND cards.uid = shown.uid)")
# CROSS JOIN and INDEXED BY, since SQLite without statistics reads whole books here.
NAMES = ("SELECT DISTINCT teams.name FROM members CROSS JOIN teams ON teams.book = members.book"
         " AND teams.uid = members.team WHERE members.book = ? AND members.bare = ?"
         " AND teams.name <> '' ORDER BY teams.name LIMIT ?")


class Wish(NamedTuple):
    uid: str
    digest: str  # of the person's card with which it comes
    joins: List[str]
    leaves: List[str]
    teams: Dict[str, Dict[str, int]]  # by name: the groups that there were, with their versions


class Change(NamedTuple):
    uid: str
    is_there: bool
    number: int


class Shown:
    """What is shown of a book. The book's lock is held while it is used."""

    def __init__(self, state: State, book: int) -> None:
        self.state, self.book = state, book

    # Following the copy.

    def follow(self) -> int:
        """Brings what is shown to the copy, and returns the number of its last change."""
        token = self.state.token(self.book)
        found = self.state.rows("SELECT token, number FROM views WHERE book = ?", self.book)
        number = int(found[0][1]) if found else 0
        if found and token and found[0][0] == token:
            return number
        with self.state.changing(durably=True):
            touched: Set[str] = set()
            for query in CHANGED, GONE:
                for uid, etag in self.state.rows(query, self.book):
                    touched |= self._take(str(uid), str(etag))
            for bare in sorted(touched):
                number = self._derive(bare, number)
            self.state.write("INSERT OR REPLACE INTO views VALUES (?, ?, ?)",
                             (self.book, token, number))
        return number

    def _take(self, uid: str, etag: str) -> Set[str]:
        """Takes a card as it is now; returns the members for which something may be different."""
        text = self.state.text(self.book, uid) if etag else None
        new = categories.team_of(text[1]) if text else None
        old = self.state.rows("SELECT name FROM teams WHERE book = ? AND uid = ?", self.book, uid)
        before = {str(it) for it, in self.state.rows(
            "SELECT bare FROM members WHERE book = ? AND team = ?", self.book, uid)}
        after = new.members if new else set()
        self.state.write("DELETE FROM teams WHERE book = ? AND uid = ?", (self.book, uid))
        if new:
            self.state.write("INSERT INTO teams VALUES (?, ?, ?)", (self.book, uid, new.name))
        self.state.write("DELETE FROM members WHERE book = ? AND bare = ? AND team = ?",
                         *((self.book, it, uid) for it in before - after))
        self.state.write("INSERT INTO members VALUES (?, ?, ?)",
                         *((self.book, it, uid) for it in after - before))
        self.state.write("INSERT OR IGNORE INTO shown VALUES (?, ?, ?, '', '', '[]', 0)",
                         (self.book, uid, bare_uid(uid)))
        self.state.write("UPDATE shown SET stored = ? WHERE book = ? AND uid = ?",
                         (etag, self.book, uid))
        has_name = bool(old and new and old[0][0] == new.name)
        return (before ^ after if has_name else before | after) | {bare_uid(uid)}

    def _derive(self, bare: str, number: int) -> int:
        """Makes anew what is shown of this member; returns the number of the last change."""
        rows = self.state.rows("SELECT uid, stored, etag, EXISTS (SELECT 1 FROM teams WHERE"
                               " teams.book = shown.book AND teams.uid = shown.uid) FROM shown"
                               " INDEXED BY shown_members WHERE book = ? AND bare = ?",
                               self.book, bare)
        for uid, stored, before, is_team in rows:
            is_shown = stored and not is_team
            names = self._names(bare) if is_shown else []
            etag = etag_with(stored, names) if is_shown else ""
            if etag != before:
                number += 1
                self.state.write("UPDATE shown SET etag = ?, names = ?, number = ? WHERE book = ?"
                                 " AND uid = ?", (etag, json.dumps(names), number, self.book, uid))
        return number

    def _names(self, bare: str) -> List[str]:
        return [str(it) for it, in self.state.rows(NAMES, self.book, bare, categories.SHOWN_MAX)]

    # Reading.

    def entries(self) -> List[Entry]:
        return [Entry(*it) for it in self.state.rows(ENTRIES.format(more=""), self.book)]

    def entry(self, column: str, value: str) -> Optional[Entry]:
        """The person of this `cards.uid` or present `names.name`."""
        found = self.state.rows(ENTRIES.format(more="") + f" AND {column} = ?", self.book, value)
        return Entry(*found[0]) if found else None

    def card(self, column: str, value: str) -> Optional[Tuple[Entry, str]]:
        """The same, with the card's text."""
        query = ENTRIES.format(more=", cards.card, shown.names") + f" AND {column} = ?"
        found = self.state.rows(query, self.book, value)
        if not found:
            return None
        text, names = found[0][4:]
        return Entry(*found[0][:4]), categories.with_names(str(text), json.loads(names))

    def names(self, uid: str) -> List[str]:
        """The names of groups with which the card is shown."""
        found = self.state.rows("SELECT names FROM shown WHERE book = ? AND uid = ?", self.book,
                                uid)
        return [str(it) for it in json.loads(found[0][0])] if found else []

    def since(self, number: int, limit: int) -> List[Change]:
        """The changes after that number, the first ones first; -1 is no limit."""
        return [Change(str(uid), bool(etag), int(at)) for uid, etag, at in self.state.rows(
            "SELECT uid, etag, number FROM shown WHERE book = ? AND number > ? ORDER BY number"
            " LIMIT ?", self.book, number, limit)]

    def teams(self, name: str, bare: str) -> List[Tuple[str, bool]]:
        """The groups of this name, the lowest UID first, each with whether it has the member."""
        return [(str(uid), bool(has)) for uid, has in self.state.rows(
            "SELECT uid, EXISTS (SELECT 1 FROM members WHERE book = teams.book AND bare = ?"
            " AND team = teams.uid) FROM teams WHERE book = ? AND name = ? ORDER BY uid",
            bare, self.book, name)]

    def versions(self, name: str) -> Dict[str, int]:
        """The groups of this name, with their versions."""
        return {str(uid): int(version) for uid, version in self.state.rows(
            "SELECT cards.uid, cards.version FROM teams JOIN cards ON cards.book = teams.book AND"
            " cards.uid = teams.uid WHERE teams.book = ? AND teams.name = ?", self.book, name)}

    # Wishes.

    def wish(self, wish: Wish) -> None:
        """Keeps a wish. It is on the disk when this returns."""
        with self.state.changing(durably=True):
            self.state.write("INSERT OR REPLACE INTO wishes VALUES (?, ?, ?, ?, ?, ?)", (
                self.book, wish.uid, wish.digest, *map(json.dumps, wish[2:])))

    def wishes(self) -> Iterable[Wish]:
        return [Wish(str(uid), str(digest), *map(json.loads, rest))
                for uid, digest, *rest in self.state.rows(
                    "SELECT uid, digest, joins, leaves, teams FROM wishes WHERE book = ?",
                    self.book)]

    def forget(self, uid: str) -> None:
        with self.state.changing(durably=True):
            self.state.write("DELETE FROM wishes WHERE book = ? AND uid = ?", (self.book, uid))


def etag_with(stored: str, names: List[str]) -> str:
    """The ETag of a card that is shown with these names of groups."""
    if not names:
        return stored
    digest = hashlib.sha256((categories.FORM + json.dumps(names)).encode()).hexdigest()
    return f'{stored[:-1]}-{digest[:12]}"'


def digest_of(text: str) -> str:
    return hashlib.sha256("\n".join(lines_of(text)).encode()).hexdigest()
