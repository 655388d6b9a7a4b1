"""Changes of cards: PUT, DELETE and MOVE, each made on the server under the version that was seen.

All of a change of one book happens under its lock: the test of its conditions, the name, and the
server's reply. Another program may still change the card on the server in between. Then the server
refuses the version; a client with a condition gets a 412, and for one without the change is tried
again over the new card.
"""

import re
from contextlib import ExitStack
from typing import FrozenSet, NamedTuple, Optional

from tosculai import (Book, Conflict, Error, LostReply, NoSuchCard, Refused, UidTaken, lines_of,
                      uid_of)

from gateway import cards, unseen
from gateway.books import AddressBook, Missing
from gateway.files import Files
from gateway.photos import Fitted
from gateway.state import Entry

ROUNDS = 20  # attempts of a change without a condition, if others change the card meanwhile


class Failed(Exception):
    """A condition failed: the card isn't the one that the client saw."""


class UidInUse(Exception):
    """The UID is another name's, or the name has another UID; `name` has what is in the way."""

    def __init__(self, message: str, name: str) -> None:
        super().__init__(message)
        self.name = name


class Conditions(NamedTuple):
    """The fields If-Match and If-None-Match of a request."""

    match: Optional[str]
    none_match: Optional[str]

    def fault(self, old: Optional[Entry]) -> Optional[Failed]:
        """Which condition fails for the card that is there, if any."""
        if self.match is not None and not (old and matches(self.match, old.etag)):
            return Failed("the card was changed since it was read" if old else
                          "there is no such card any more")
        if self.none_match is not None and old and matches(self.none_match, old.etag):
            return Failed("there is such a card already")
        return None

    def check(self, old: Optional[Entry]) -> None:
        fault = self.fault(old)
        if fault:
            raise fault

    @property
    def any(self) -> bool:
        return self.match is not None or self.none_match is not None


def matches(field: str, etag: str) -> bool:
    """Whether a field names the ETag. nginx makes ETags weak when it compresses."""
    return field.strip() == "*" or etag in re.findall(r'"[^"]*"', field)


class Sent(NamedTuple):
    """A card that a client sends, the program that sends it, and the gateway's own address."""

    text: str
    program: str
    address: str
    keeps_unknown: bool
    user: str = ""
    files: Files = {}  # the large files of the card, for which the text has marks
    known: FrozenSet[str] = frozenset()  # properties that the program is known to show and edit


class Stored(NamedTuple):
    """What became of a PUT: whether the card is new, and the ETag of what was sent, if it is."""

    is_new: bool
    etag: str


def put(book: AddressBook, name: str, sent: Sent, conditions: Conditions) -> Stored:
    """Stores the card that a client sends."""
    with book.lock:
        for _ in range(ROUNDS):
            book.refresh()
            old = book.named(name)
            base = (book.text(old) or "") if old else ""
            fault = conditions.fault(old)
            if fault and not (old and conditions.match):
                raise fault
            made = with_edits_of_others(book, sent, conditions, old)
            fitted = merged(book, name, made, old, base)
            if fault and lines_of(fitted.text) != lines_of(base):
                raise fault  # else the edit was made before, and its reply was lost
            stored = put_once(book, name, made, old, base, fitted)
            if stored:
                return stored
            book.suspect(uid_of(fitted.text), old)
            if conditions.any:
                raise Failed("somebody else changed the card at the same moment")
    raise Failed("others change the card all the time")


def is_same(book: AddressBook, stored: str, text: str) -> bool:
    """Whether a client that reads the stored card gets what was sent (RFC 6352, 6.3.2.3)."""
    if not stored:
        return False
    bare = book.shelf.photos.bare(stored).text
    return lines_of(cards.written(bare, cards.is_version4(text))) == lines_of(text)


def put_once(book: AddressBook, name: str, sent: Sent, old: Optional[Entry], base: str,
             fitted: Fitted) -> Optional[Stored]:
    """One attempt; None if somebody else was faster."""
    whole, uid = fitted.text, uid_of(fitted.text)
    check_uid(book, name, old, uid)
    if old and lines_of(whole) == lines_of(base):
        return Stored(False, old.etag if is_same(book, base, sent.text) else "")
    book.shelf.photos.keep(fitted.aside, sent.user)
    # The name is kept first: if a stop comes in between, the card has the client's name.
    undo = book.state.give(book.number, name, uid)
    try:
        with book.shelf.offices.one(sent.user) as office:
            version = office.book(book.name).put(whole, old.version if old else 0, uid)
    except Refused as refusal:
        book.state.take_back(book.number, undo)
        if isinstance(refusal, Conflict):
            return None
        raise
    book.refresh()
    book.state.learn(sent.program, cards.uncommon(sent.text))
    new = book.named(name)
    is_read = new and new.version == version and is_same(book, book.text(new) or "", sent.text)
    return Stored(old is None, new.etag if new and is_read else "")


def merged(book: AddressBook, name: str, sent: Sent, old: Optional[Entry], base: str) -> Fitted:
    """The card for the server, and the large files that have to be kept beside it."""

    def knows(line_name: str) -> bool:
        return (not sent.keeps_unknown or line_name in sent.known
                or book.state.knows(sent.program, line_name))

    uid = old.uid if old else re.sub(r"\.vcf$", "", name)
    bare = book.shelf.photos.bare(base)
    whole = cards.newer(sent.text, bare.text, book.has, uid, knows)
    return book.shelf.photos.fitted(whole, bare, sent.files, sent.address)


def with_edits_of_others(book: AddressBook, sent: Sent, conditions: Conditions,
                         old: Optional[Entry]) -> Sent:
    """What a program without a condition sends, over what others have made of the card since.

    What it has read is a condition, too: that the card is still there.
    """
    read = unseen.read_by(sent.text)
    if not read or conditions.any or not read.is_of(book.number, uid_of(sent.text)):
        return sent
    base = book.text(old) if old else None
    if base is None:
        raise Failed("somebody has removed the card since it was read")
    if read.form != cards.FORM:
        raise Failed("the card was read of another version of the gateway: read it again")
    now = cards.written(book.shelf.photos.bare(base).text, cards.is_version4(sent.text))
    return sent._replace(text=unseen.edited(sent.text, read.said, now))


def check_uid(book: AddressBook, name: str, old: Optional[Entry], uid: str) -> None:
    """A UID has one name in a book, and a name one UID (RFC 6352, 5.1 and 6.3.2.1)."""
    if old and uid != old.uid:
        raise UidInUse("the card of this name has another UID", name)
    other = None if old else book.state.entry(book.number, uid)
    if other:
        raise UidInUse("a card of another name has this UID", other.name)


def remove(book: AddressBook, name: str, conditions: Conditions, user: str) -> None:
    with book.lock:
        for _ in range(ROUNDS):
            book.refresh()
            old = book.named(name)
            if not old:
                raise Missing(f"there is no card {name}")
            conditions.check(old)
            try:
                with book.shelf.offices.one(user) as office:
                    return office.book(book.name).remove(old.uid, old.version)
            except NoSuchCard:
                return None
            except Conflict:
                book.suspect(old.uid, old)
                if conditions.any:
                    raise Failed("somebody else changed the card at the same moment") from None
    raise Failed("others change the card all the time")


def move(book: AddressBook, name: str, to: AddressBook, to_name: str, overwrite: bool,
         conditions: Conditions, user: str) -> bool:
    """Moves a card to another book; returns whether its name is new there."""
    with ExitStack() as locks:
        for it in sorted((book, to), key=lambda it: it.number):  # always in this order
            locks.enter_context(it.lock)
        for _ in range(ROUNDS):
            book.refresh()
            to.refresh()
            old = book.named(name)
            if not old:
                raise Missing(f"there is no card {name}")
            conditions.check(old)
            there = to.plain.named(to_name)
            _check_target(old, there, to, to_name, overwrite)
            stale = _move(book.plain, name, to.plain, to_name, user)
            if not stale:
                return there is None
            stale.suspect(old.uid, old if stale is book.plain else there)
    raise Failed("others change the card all the time")


def _move(book: AddressBook, name: str, to: AddressBook, to_name: str,
          user: str) -> Optional[AddressBook]:
    """One attempt; returns the book in which somebody else was faster, if any."""
    old, there = book.named(name), to.named(to_name)
    if not old:
        return book
    if there:
        return _overwrite(book, old, to, there, user)
    return _move_once(book, old, to, to_name, user)


def _check_target(old: Entry, there: Optional[Entry], to: AddressBook, to_name: str,
                  overwrite: bool) -> None:
    if there and not overwrite:
        raise Failed("there is such a card already, and Overwrite is F")
    if there and there.uid != old.uid:
        raise UidInUse("the card of this name has another UID", to_name)
    other = None if there else to.state.entry(to.number, old.uid)
    if other:
        raise UidInUse("the other book has a card of this UID", other.name)


def _move_once(book: AddressBook, old: Entry, to: AddressBook, to_name: str,
               user: str) -> Optional[AddressBook]:
    """One attempt; returns the book in which somebody else was faster, if any."""
    undo = to.state.give(to.number, to_name, old.uid)
    try:
        with book.shelf.offices.one(user) as office:
            office.book(book.name).move(old.uid, to.name, old.version)
        return None
    except Refused as refusal:
        to.state.take_back(to.number, undo)
        if isinstance(refusal, (Conflict, UidTaken, NoSuchCard)):
            return to if isinstance(refusal, UidTaken) else book
        raise


def _overwrite(book: AddressBook, old: Entry, to: AddressBook, there: Entry,
               user: str) -> Optional[AddressBook]:
    """One attempt to move a card over its copy in another book; returns the same.

    The server has no move that overwrites. So the copy gets the card's text, and then the card is
    removed. After a stop in between both books have the card, and the move may be done again.
    """
    text, before = book.text(old), to.text(there)
    if text is None or before is None:
        return book if text is None else to
    with book.shelf.offices.one(user) as office:
        target = office.book(to.name)
        try:
            version = target.put(text, there.version, there.uid)
        except Conflict:
            return to
        try:
            office.book(book.name).remove(old.uid, old.version)
            return None
        except LostReply:
            raise  # it may be done
        except Error as refusal:
            _put_back(to, target, before, version)
            if isinstance(refusal, (Conflict, NoSuchCard)):
                return book
            raise


def _put_back(to: AddressBook, target: Book, before: str, version: int) -> None:
    """Gives a copy its text again, unless somebody has edited it since."""
    try:
        target.put(before, version, uid_of(before))
    except Error as fault:
        to.shelf.say(f"{to.name}: {uid_of(before)} keeps what a refused move put there: {fault}")
