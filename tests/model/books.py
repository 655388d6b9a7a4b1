"""Books as lists of events, and the devices that copy them (RFC 6578).

A book is the result of its events. Two maps are kept beside the list, so that a look-up needn't
read it all: the members that are there, and the removed ones that the book remembers.

Commands are tuples: a kind and its arguments, as the methods `do_KIND` of Office have them. Cards
and bodies are octets; a version, a limit or a token that is left out is None or empty. A reply has
a kind and its parts, under the names that the JSON bodies have. A card among them is a Card.
"""

import re
from collections import Counter, namedtuple

from .cards import BadCard, members_of, read_card
from .rows import BadImport, read_rows, write_rows

SYNC = "http://contacts.invalid/sync/"
TOKEN = re.compile(re.escape(SYNC) + "/".join(["(0|[1-9][0-9]{0,12})"] * 3))
BOOK_NAME = re.compile("[a-z0-9-]{1,40}")
IMPORT_KEY = re.compile("[A-Za-z0-9._-]{1,64}")

CAME = ["created", "imported", "moved_in"]
WENT = ["deleted", "moved_out"]
REASONS = CAME + WENT + ["edited", "import_edited"]

NO_SUCH_BOOK, BOOK_EXISTS, BAD_BOOK_NAME, NO_SUCH_CARD, BAD_CARD, UID_MISMATCH = range(1, 7)
VERSION_MISMATCH, UID_TAKEN, SAME_BOOK, BAD_TOKEN, BAD_LIMIT, BOOK_FULL = range(7, 13)
CHANGES_SPENT, BAD_IMPORT, BAD_KEY, BAD_FORGET, NOT_GROUP, TOO_MANY_BOOKS = range(13, 19)
MALFORMED, OTHER_BOOK, TOO_NEW, TOO_OLD = range(1, 5)

Reply = namedtuple("Reply", "kind parts")
Event = namedtuple("Event", "uid reason card")
Stored = namedtuple("Stored", "version card")


class Refused(Exception):
    """A refusal: its number, and its other parts, as `cause`, `has` or `row`."""

    def __init__(self, number, **parts):
        super().__init__(number, parts)
        self.parts = {"number": number, **parts}


class Book:
    """A book. Its n-th event has the number n, which is the version of the card that it stores."""

    def __init__(self, own_id, keep):
        self.id, self.keep, self.horizon = own_id, keep, 0
        self.events, self.reasons, self.imports = [], Counter(), {}
        # Of each member's last event: the version and the card if it is live; the number if
        # it was removed and is remembered, and these in the order of their numbers.
        self.live, self.gone = {}, {}

    @property
    def number(self):
        return len(self.events)

    def version(self, uid):
        """The version of the card with this UID; 0 if there is none."""
        return self.live[uid].version if uid in self.live else 0

    def card(self, uid):
        """The card with this UID, or None."""
        return self.live[uid].card if uid in self.live else None

    def add(self, uid, reason, card=None):
        """Adds an event: the card is stored, or the member removed if there is no card."""
        self.events.append(Event(uid, reason, card))
        self.reasons[reason] += 1
        if card:
            self.gone.pop(uid, None)
            self.live[uid] = Stored(self.number, card)
        else:
            del self.live[uid]
            self.gone[uid] = self.number
            if len(self.gone) > self.keep:
                self.forget(next(iter(self.gone.values())))
        return self.number

    def forget(self, upto):
        """Drops the members that were removed up to this number, and says how many."""
        before = len(self.gone)
        self.horizon = upto
        self.gone = {uid: number for uid, number in self.gone.items() if number > upto}
        return before - len(self.gone)

    def due(self, at, base):
        """The members to report, by rising number: each number, UID, and card or None."""
        due = [(it.version, uid, it.card) for uid, it in self.live.items() if it.version > at]
        since = max(at, base)
        due += [(number, uid, None) for uid, number in self.gone.items() if number > since]
        return sorted(due, key=lambda it: it[0])


class Office:
    """Books by name, which do commands."""

    def __init__(
        self, page_max=100, cards_max=10_000, changes_max=10**12, books_max=100, keep=10_000
    ):
        self.page_max, self.cards_max, self.changes_max = page_max, cards_max, changes_max
        self.books_max, self.keep, self.books = books_max, keep, {}

    def do(self, command):
        """The reply to a command, which is done unless it is refused."""
        kind, *arguments = command
        try:
            return getattr(self, "do_" + kind)(*arguments)
        except Refused as refusal:
            return Reply("refused", refusal.parts)

    def book(self, name):
        if name not in self.books:
            raise Refused(NO_SUCH_BOOK)
        return self.books[name]

    def do_create(self, name):
        if not BOOK_NAME.fullmatch(name):
            raise Refused(BAD_BOOK_NAME)
        if name in self.books:
            raise Refused(BOOK_EXISTS)
        if len(self.books) >= self.books_max:
            raise Refused(TOO_MANY_BOOKS)
        self.books[name] = Book(len(self.books) + 1, self.keep)
        return Reply("created", {"id": self.books[name].id})

    def do_books(self):
        lines = [
            {"horizon": book.horizon, "id": book.id, "name": name, "number": book.number}
            for name, book in sorted(self.books.items())
        ]
        return Reply("books", {"books": lines})

    def do_get(self, name, uid):
        book = self.book(name)
        card = live_card(book, uid)
        return Reply("card", {"card": card, "uid": uid, "version": book.version(uid)})

    def do_put(self, name, uid, version, text):
        book = self.book(name)
        try:
            card = read_card(text)
        except BadCard as bad:
            raise Refused(BAD_CARD, cause=bad.cause) from None
        if card.uid != uid:
            raise Refused(UID_MISMATCH)
        expect_version(book, uid, version)
        if is_there(book, card):
            return Reply("put", {"put": "unchanged", "version": book.version(uid)})
        if uid not in book.live:
            self.need_room(book, 1)
        self.need_numbers(book, 1)
        reason = "edited" if uid in book.live else "created"
        return Reply("put", {"put": reason, "version": book.add(uid, reason, card)})

    def do_remove(self, name, uid, version):
        book = self.book(name)
        live_card(book, uid)
        expect_version(book, uid, version)
        self.need_numbers(book, 1)
        return Reply("gone", {"number": book.add(uid, "deleted")})

    def do_move(self, name, uid, to, version):
        source, target = self.book(name), self.book(to)
        if name == to:
            raise Refused(SAME_BOOK)
        card = live_card(source, uid)
        if uid in target.live:
            raise Refused(UID_TAKEN)
        expect_version(source, uid, version)
        self.need_room(target, 1)
        self.need_numbers(source, 1)
        self.need_numbers(target, 1)
        numbers = source.add(uid, "moved_out"), target.add(uid, "moved_in", card)
        return Reply("moved", dict(zip(["from", "version"], numbers)))

    def do_import(self, name, key, body):
        book = self.book(name)
        if not IMPORT_KEY.fullmatch(key):
            raise Refused(BAD_KEY)
        if key in book.imports:
            return book.imports[key]
        try:
            cards = read_rows(body)
        except BadImport as bad:
            raise Refused(BAD_IMPORT, row=bad.row, cause=bad.cause) from None
        new = [card for card in cards if card.uid not in book.live]
        changed = [card for card in cards if not is_there(book, card)]
        if new:
            self.need_room(book, len(new))
        if changed:
            self.need_numbers(book, len(changed))
        for card in changed:
            book.add(card.uid, "import_edited" if card.uid in book.live else "imported", card)
        parts = {"edited": len(changed) - len(new), "new": len(new)}
        parts.update(number=book.number, same=len(cards) - len(changed))
        book.imports[key] = Reply("imported", parts)
        return book.imports[key]

    def do_report(self, name, token, limit):
        book = self.book(name)
        at, base = read_token(book, token) if token else (0, book.number)
        if limit == 0:
            raise Refused(BAD_LIMIT)
        due = book.due(at, base)
        size = self.page_max if limit is None else min(limit, self.page_max)
        more = len(due) > size
        at = due[size - 1][0] if more else book.number
        base = max(at, base) if more else book.number
        members = [member(*it) for it in due[:size]]
        token = f"{SYNC}{book.id}/{at}/{base}"
        return Reply("page", {"members": members, "token": token, "truncated": more})

    def do_forget(self, name, upto):
        book = self.book(name)
        if not book.horizon <= upto <= book.number:
            raise Refused(BAD_FORGET)
        return Reply("forgot", {"dropped": book.forget(upto), "horizon": upto})

    def do_tally(self, name):
        book = self.book(name)
        parts = {reason: book.reasons[reason] for reason in REASONS}
        parts.update(number=book.number, horizon=book.horizon)
        parts.update(cards=len(book.live), remembered=len(book.gone))
        return Reply("tally", parts)

    def do_export(self, name, form):
        cards = [it.card for it in self.book(name).live.values()]
        return Reply("csv", {"csv": write_rows(cards, form)})

    def do_people(self, name, uid):
        book = self.book(name)
        if live_card(book, uid).kind != "group":
            raise Refused(NOT_GROUP)
        # The list grows while it is gone through: each group is once in it.
        groups, people, missing = [uid], set(), set()
        for group in groups:
            for value in members_of(book.card(group)):
                named = uid_named(book, value)
                if named is None:
                    missing.add(value)
                elif book.card(named).kind != "group":
                    people.add(named)
                elif named not in groups:
                    groups.append(named)
        return Reply("people", {"missing": in_byte_order(missing), "people": in_byte_order(people)})

    def need_room(self, book, count):
        if len(book.live) + count > self.cards_max:
            raise Refused(BOOK_FULL)

    def need_numbers(self, book, count):
        if book.number + count > self.changes_max:
            raise Refused(CHANGES_SPENT)


def in_byte_order(texts):
    return sorted(texts, key=str.encode)


def is_there(book, card):
    """Whether the book has this card, with the same canonical text."""
    return card.uid in book.live and book.card(card.uid).text == card.text


def live_card(book, uid):
    if uid not in book.live:
        raise Refused(NO_SUCH_CARD)
    return book.card(uid)


def expect_version(book, uid, version):
    """Refuses another version than the expected one; 0 expects that no card is there."""
    if version is not None and version != book.version(uid):
        raise Refused(VERSION_MISMATCH, has=book.version(uid))


def read_token(book, token):
    """The two numbers of a token that the book accepts."""
    found = TOKEN.fullmatch(token)
    own, at, base = map(int, found.groups()) if found else (0, 1, 0)
    for cause, is_bad in [
        (MALFORMED, at > base),
        (OTHER_BOOK, own != book.id),
        (TOO_NEW, base > book.number),
        (TOO_OLD, base < book.horizon),
    ]:
        if is_bad:
            raise Refused(BAD_TOKEN, cause=cause)
    return at, base


def member(number, uid, card):
    """A member of a page: a removed one has its UID and no more."""
    if card is None:
        return {"status": 404, "uid": uid}
    return {"card": card, "status": 200, "uid": uid, "version": number}


def uid_named(book, value):
    """The UID of the card that a MEMBER value names, or None."""
    if value in book.live:
        return value
    is_urn = value[:9].lower() == "urn:uuid:"
    return value[9:] if is_urn and value[9:] in book.live else None


class Device:
    """A copy of one book: versions and cards by UID, and the token of the last page, or none."""

    def __init__(self, book):
        self.book, self.token, self.copy = book, "", {}

    def ask(self, office, limit=None):
        """Asks for a page and applies it. A token that is refused is given up."""
        reply = office.do(("report", self.book, self.token, limit))
        if reply.kind == "page":
            self.apply(reply.parts)
        elif reply.parts["number"] == BAD_TOKEN:
            self.token = ""
        return reply

    def apply(self, page):
        """Applies a page's members in order, and keeps its token. A first page begins the copy."""
        if not self.token:
            self.copy = {}
        for it in page["members"]:
            self.copy.pop(it["uid"], None)
            if it["status"] == 200:
                self.copy[it["uid"]] = Stored(it["version"], it["card"])
        self.token = page["token"]
