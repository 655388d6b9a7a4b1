"""The books of an office as address books: followed by the server's tokens, changed by versions.

Each book has a copy in the State, which is brought up to date before each request as any device
does it (docs/API.md, "Syncing a device"): one request to the server if nothing is new. A change is
sent with the version that the client saw, so nobody's edit is overwritten unseen.

If the server's file was put back from a copy without a resync, the server takes tokens of the lost
time again once its books have as many changes. So as soon as anything shows that the file is
another one, another epoch begins: no client's token of before is passed on any more, and each
client lists all cards again.
"""

import threading
import time
from typing import Callable, Collection, Dict, Iterator, List, NamedTuple, Optional, Set, Tuple

from tosculai import Card, InvalidToken, NoSuchBook, Page, lines_of

from gateway import cards, files, unseen
from gateway.office import Offices
from gateway.people import People
from gateway.photos import Photos
from gateway.state import Entry, Renewed, Row, State

PAGE_MAX = 100  # members of a page, of the server
PAGE_OCTETS = 4_000_000  # a page is asked to have about this size at most
ROUNDS = 5  # attempts to read a whole book, if tokens are refused meanwhile
PROGRESS = 2.0  # seconds between two lines of progress
# Why the server refuses a token of another file: it is of another book, or newer than the book.
# One that is too old is of this file, or was before a resync: the server never takes it again.
ANOTHERS = (2, 3)
EPOCH = "?names="

Say = Callable[[str], None]


class Missing(Exception):
    """There is no such book or card; the message says which."""


def missing(name: str) -> Missing:
    return Missing(f"there is no book {name}")


class Changes(NamedTuple):
    """What changed since a token: cards that are there, names that are gone, the new token."""

    there: List[Entry]
    gone: List[str]
    token: str
    truncated: bool


class Shelf:
    """The books of an office, which is in a country, if its code is given."""

    def __init__(self, offices: Offices, state: State, photos: Photos, say: Say,
                 country: str = "") -> None:
        self.offices, self.state, self.photos, self.say = offices, state, photos, say
        self.country = country
        self._books: Dict[str, "AddressBook"] = {}
        self._known = state.books()  # numbers by name; another dictionary after each change of it
        self._counts: Dict[int, int] = {}  # how many changes a book had at least, in this epoch
        self._lock = threading.Lock()  # for these three; of a book's lock nobody waits within it

    def names(self) -> List[str]:
        """The names of all books, as the server has them now.

        A book is never removed, and keeps its number and its changes. So if one of before isn't
        there, or has fewer changes, another file is served, and each program lists all cards again.
        """
        while True:
            with self._lock:
                known, counts = self._known, self._counts
            with self.offices.one() as office:
                rows = office.books()
            found = {str(it["name"]): int(it["id"]) for it in rows}
            now = {int(it["id"]): int(it["number"]) for it in rows}
            with self._lock:
                # If something else is known by now, it can't be told which of the two is newer.
                if known is self._known:
                    self._take(found, now, counts)
                    return sorted(found)

    def _take(self, found: Dict[str, int], now: Dict[int, int], counts: Dict[int, int]) -> None:
        """Takes the books that the server has, and their counts; these were known before it."""
        stay = dict(self._known.items() & found.items())
        if stay != self._known:
            self._renew("a book is gone from the server, so its file is another one", stay)
        elif any(count > now[number] for number, count in counts.items()):
            self._renew("a book has lost changes, so the server's file is another one", stay)
        if found != self._known:
            self.state.note_books(found)
            self._known = found
        self._counts = {number: max(count, self._counts.get(number, 0))
                        for number, count in now.items()}
        books = self._books
        self._books = {name: books[name] if name in books and books[name].number == number
                       else AddressBook(self, name, number) for name, number in found.items()}

    def start_over(self, why: str, epoch: str) -> None:
        """Begins another epoch, since the file that was known in this one isn't the server's.

        It is begun once, whoever finds that out at the same time.
        """
        with self._lock:
            if epoch == self.state.epoch:
                self._renew(why, self._known)
        self.names()

    def _renew(self, why: str, stay: Dict[str, int]) -> None:
        self.say(f"{why}: all cards anew")
        with self.state.changing(durably=True):
            self.state.start_over(stay.values())
            self.state.note_books(stay)
        self._known, self._counts = dict(stay), {}

    def epoch_of(self, book: "AddressBook") -> str:
        """The epoch, in which this is a book of the server: it may have got another number."""
        with self._lock:
            if book.name not in self._books:
                raise missing(book.name)
            if self._books[book.name] is not book:
                raise Renewed
            return self.state.epoch

    def book(self, name: str) -> "AddressBook":
        if name not in self._books:
            self.names()
        try:
            return self._books[name]
        except KeyError:
            raise missing(name) from None

    def load(self) -> None:
        """Brings all copies up to date, as the start does it aside."""
        for name in self.names():
            self.book(name).refresh()

    def compare(self) -> None:
        """Compares all copies with the server's cards.

        A file that was put back may have had as many changes as were lost before anybody looked.
        """
        for name in self.names():
            try:
                self.book(name).compare()
            except InvalidToken:
                pass  # the book forgets meanwhile


class AddressBook:
    """A book and its copy."""

    def __init__(self, shelf: Shelf, name: str, number: int) -> None:
        self.shelf, self.name, self.number = shelf, name, number
        self.state = shelf.state
        self.lock = threading.RLock()  # for a refresh, and for a change from its test to its end
        self._people: Optional[People] = None  # once they are asked for
        self.view: Optional["AddressBook"] = None  # with categories, once it is asked for

    @property
    def plain(self) -> "AddressBook":
        """The book as the server has it; this may be a view of it."""
        return self

    # Following the server.

    def refresh(self) -> str:
        """Brings the copy to what the server has, and returns the token of that for clients.

        The server may refuse the copy's token, also between two pages, if the book forgets or
        starts anew. Then all cards are read again.
        """
        with self.lock:
            for left in reversed(range(ROUNDS)):
                epoch = self.shelf.epoch_of(self)
                try:
                    token = self._follow(self.state.token(self.number), epoch)
                    self.state.whole(self.number, epoch)
                    break
                except InvalidToken as refusal:
                    if not left:
                        raise
                    self._drop_token(refusal, epoch)
                except Renewed:
                    if not left:
                        raise
            return wrapped_token(token, epoch)

    def _drop_token(self, refusal: InvalidToken, epoch: str) -> None:
        """Lets the next round read all cards, since the server refuses the copy's token."""
        if refusal.cause in ANOTHERS:
            self.shelf.start_over(f"{self.name}: the copy is newer than the server's book, or "
                                  "another one's", epoch)
        else:
            self.shelf.say(f"{self.name}: the server refuses the copy's token; all cards anew")
            self.state.drop_token(self.number)

    def _follow(self, token: str, epoch: str) -> str:
        """Brings the copy from this token to the newest one.

        Without a token all cards are read. Those that were in the copy before stay until the end,
        since a reply to a program may be reading them: a card that it misses is removed there.
        """
        if not token:
            self._people = None  # they may be those of another file
        seen: Optional[Set[str]] = None if token or not self.state.count(self.number) else set()
        loading = None
        for page in self.pages(token):
            loading = loading or (Loading(self) if page.truncated else None)
            if loading:
                loading.tell(len(page.members))
            if page.members or page.token != token:
                rows = [row_of(it) for it in page.members]
                if seen is None:
                    self.state.apply(self.number, rows, page.token, epoch)
                else:
                    seen.update(it.uid for it in rows)
                    self.state.apply(self.number, rows, "" if page.truncated else page.token,
                                     epoch, None if page.truncated else seen)
                self._tell(page.members)
            token = page.token
        if loading:
            loading.end()
        return token

    def _tell(self, members: List[Card]) -> None:
        """Lets the people follow. If this fails, they are read anew."""
        people, self._people = self._people, None
        if people:
            for it in members:
                people.take(it.uid, it.version, it.text if it.version else "")
            self._people = people

    def pages(self, token: str, limit: Optional[int] = None) -> Iterator[Page]:
        """Pages of the server, up to `limit` members. With large cards a page has fewer."""
        size, left = PAGE_MAX, limit
        while left is None or left > 0:
            with self.shelf.offices.one() as office:
                try:
                    page = office.book(self.name).page(token, size if left is None
                                                       else min(size, left))
                except NoSuchBook:
                    raise missing(self.name) from None
            yield page
            if not page.truncated:
                return
            token = page.token
            octets = sum(len(it.text) for it in page.members) // max(1, len(page.members))
            size = max(5, min(PAGE_MAX, PAGE_OCTETS // max(1, octets)))
            left = None if left is None else left - len(page.members)

    def suspect(self, uid: str, old: Optional[Entry]) -> None:
        """After a conflict: a copy in which nothing has changed is that of another file."""
        with self.lock:
            epoch = epoch_in(self.refresh())
            found = self.state.entry(self.number, uid)
            if (found and found.version) == (old and old.version):
                self.shelf.start_over(f"{self.name}: the copy isn't the server's", epoch)
                self.refresh()

    def compare(self) -> None:
        """Reads all cards, and starts over if the copy differs though the server takes its token.

        A card that is changed meanwhile says nothing.
        """
        with self.lock:
            epoch, token = epoch_in(self.refresh()), self.state.token(self.number)
        there = {it.uid: row_of(it).etag for page in self.pages("") for it in page.members}
        with self.lock:
            self.refresh()
            copy = {it.uid: it.etag for it in self.entries()}
            later = {it.uid for page in self.pages(token) for it in page.members}
        if any(there.get(it, "") != copy.get(it, "") for it in {*there, *copy} - later):
            self.shelf.start_over(f"{self.name}: the copy isn't the server's", epoch)

    # Reading.

    def entries(self) -> List[Entry]:
        return self.state.entries(self.number)

    def named(self, name: str) -> Optional[Entry]:
        return self.state.named(self.number, name)

    def has(self, uid: str) -> bool:
        return self.state.entry(self.number, uid) is not None

    def text(self, entry: Entry) -> Optional[str]:
        """The stored text of exactly this card; None if it was changed meanwhile."""
        found = self.state.text(self.number, entry.uid)
        return found[1] if found and found[0] == entry.etag else None

    def card(self, column: str, value: str) -> Optional[Tuple[Entry, str]]:
        """The card of this `cards.uid` or present `names.name`, with its text."""
        return self.state.card(self.number, column, value)

    def people(self) -> People:
        """The people of the copy as it is. Hold the lock while you use them."""
        with self.lock:
            if self._people is None:
                people = People(self.shelf.country)
                for uid, version, text in self.state.texts(self.number):
                    people.take(uid, version, text)
                self._people = people
            return self._people

    def as_read(self, text: str, as4: bool, parts: Collection[str] = (),
                is_noted: bool = False) -> str:
        """A stored text as a program reads it, or these properties of it.

        It has marks in place of large files; `Photos.filled` puts them in, piece by piece. If
        `is_noted`, it says itself what was read (unseen.py).
        """
        bare = self.shelf.photos.shown(text)
        made = cards.written(bare, as4)
        if parts:
            made = cards.partial(made, set(parts))
        elif is_noted:
            made = unseen.with_line(made, self.number)
        return made if bare is text else files.with_whole_marks(lines_of(made))

    def filled(self, text: str, as4: bool, is_noted: bool = False) -> Iterator[bytes]:
        """A stored text as a program reads it, with its files."""
        return self.shelf.photos.filled(self.as_read(text, as4, (), is_noted))

    # Tokens of clients.

    def _unwrapped(self, wrapped: str, epoch: str) -> str:
        token = wrapped.rpartition(EPOCH)[0]
        if wrapped and (epoch_in(wrapped) != epoch or not token):
            raise InvalidToken(403, {"fault": "valid-sync-token", "number": 10, "cause": 1})
        return token

    def changes(self, wrapped: str, limit: Optional[int] = None) -> Changes:
        """What changed since a client's token, or since ever. Raises InvalidToken."""
        with self.lock:
            now = self.refresh()  # first, since it may begin another epoch
            epoch = epoch_in(now)
            token = self._unwrapped(wrapped, epoch)
            if not wrapped and limit is None:
                return Changes(self.entries(), [], now, False)
        if wrapped == now:  # the refresh has asked with this token
            return Changes([], [], now, False)
        members: Dict[str, bool] = {}  # whether it is there, by UID
        truncated = False
        for page in self.pages(token, limit):
            members.update((it.uid, bool(it.version)) for it in page.members)
            token, truncated = page.token, page.truncated
        with self.lock:  # so that no card is there and gone at once
            self.refresh()  # so the copy is as new as the pages, or newer
            # If another epoch has begun meanwhile, the token of before it is refused.
            return self._told(members, bool(wrapped), wrapped_token(token, epoch), truncated)

    def _told(self, members: Dict[str, bool], has_token: bool, token: str,
              truncated: bool) -> Changes:
        """The changes under the names that clients know."""
        there, gone = [], []
        for uid, is_there in members.items():
            entry = self.state.entry(self.number, uid) if is_there else None
            if entry:
                there.append(entry)
            if has_token:
                gone += self.state.names(self.number, uid)
        # A name that a card has now isn't gone, whichever card had it before.
        gone = [it for it in dict.fromkeys(gone) if not self.named(it)]
        return Changes(there, gone, token, truncated)


class Loading:
    """What is said of a load that takes some time."""

    def __init__(self, book: AddressBook) -> None:
        self._book, self._count = book, 0
        self._begun = self._said = time.monotonic()

    def tell(self, count: int) -> None:
        self._count += count
        if time.monotonic() - self._said >= PROGRESS:
            self._said = time.monotonic()
            self._book.shelf.say(f"{self._book.name}: {self._count:,} changes read so far")

    def end(self) -> None:
        seconds = time.monotonic() - self._begun
        self._book.shelf.say(f"{self._book.name}: {self._count:,} changes read in {seconds:.1f} s")


def wrapped_token(token: str, epoch: str) -> str:
    """A token for clients: that of the server, and the epoch of the names."""
    return f"{token}{EPOCH}{epoch}"


def epoch_in(wrapped: str) -> str:
    return wrapped.rpartition(EPOCH)[2]


def row_of(card: Card) -> Row:
    etag = cards.etag_of(card.version, card.text) if card.version else ""
    return Row(card.uid, card.version, etag, card.text if card.version else "")
