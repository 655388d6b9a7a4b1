"""The reports: sync-collection (RFC 6578), addressbook-multiget and -query (RFC 6352, 8)."""

import re
import xml.etree.ElementTree as ET
from typing import Iterable, Iterator, List, NamedTuple, Optional, Set

from tosculai import InvalidToken

from gateway import cards, davxml, filters
from gateway.books import AddressBook, Missing, Shelf
from gateway.davxml import HEAD, SPACES, element, escaped, href, status
from gateway.messages import (BAD_TOKEN, NO_REPORT, NO_VERSION, TOO_MANY, XML, Fault, Reply,
                              Request)
from gateway.photos import Photos
from gateway.places import Place, place_of
from gateway.properties import ADDRESS_DATA, GETETAG, REPORTS, Resource, card, dav, respond
from gateway.state import Entry

END = "</D:multistatus>\n"


class Wanted(NamedTuple):
    """What a client wants of each card."""

    tags: List[str]
    has_data: bool
    as4: bool
    parts: Set[str]  # names of properties; all of them if it is empty
    minimal: bool


def report(request: Request, shelf: Shelf, has4: bool) -> Reply:
    place, root = place_of(request, shelf), read_body(request)
    if root is None:
        raise Fault(400, "a REPORT has a body")
    if not place.book or place.kind != "book" or root.tag not in REPORTS:
        raise Fault(403, "reports are of books: " + ", ".join(it.partition("}")[2]
                                                              for it in REPORTS), NO_REPORT)
    wanted, limit = wanted_of(request, root, has4), limit_of(root)
    answer = Answer(request, place, has4, wanted)
    if root.tag == REPORTS[0]:
        parts = sync(answer, root, limit)
    elif root.tag == REPORTS[1]:
        paths = [(it.text or "").strip() for it in root.findall(dav("href"))]
        parts = multiget(answer, shelf, paths)
    else:
        parts = query(answer, root.find(card("filter")), limit)
    return Reply(207, {"Content-Type": XML}, multistatus(parts, shelf.photos))


def read_body(request: Request) -> Optional[ET.Element]:
    try:
        return davxml.read(request.body, request.charset)
    except davxml.BadXml as fault:
        raise Fault(400, str(fault)) from None


def multistatus(parts: Iterable[str], photos: Optional[Photos] = None) -> Iterator[bytes]:
    """The body, piece by piece: a book with its photos is never in memory as a whole."""
    yield f"{HEAD}<D:multistatus{SPACES}>".encode()
    for part in parts:
        if photos:
            yield from photos.filled(part, escaped("\r\n"))
        else:
            yield part.encode()
    yield END.encode()


def wanted_of(request: Request, root: ET.Element, has4: bool) -> Wanted:
    prop, data = root.find(dav("prop")), root.find(f"{dav('prop')}/{ADDRESS_DATA}")
    tags = [it.tag for it in prop] if prop is not None else [GETETAG]
    if data is None:
        return Wanted(tags, False, False, set(), is_minimal(request))
    kind, version = data.get("content-type", "text/vcard"), data.get("version", "3.0")
    if kind.partition(";")[0].strip().lower() != "text/vcard" or version not in ("3.0", "4.0") \
            or version == "4.0" and not has4:
        raise Fault(403, f"cards are text/vcard 3.0{' or 4.0' if has4 else ''}", NO_VERSION)
    parts = {it.get("name", "").upper().rpartition(".")[2] for it in data} - {""}
    return Wanted(tags, True, version == "4.0", parts, is_minimal(request))


def is_minimal(request: Request) -> bool:
    """Whether properties that aren't there may be left out (RFC 8144, 2.1; Apple's Brief)."""
    return "return=minimal" in request.field("prefer") or request.field("brief") == "t"


def limit_of(root: ET.Element) -> Optional[int]:
    found = (root.find(f"{space('limit')}/{space('nresults')}") for space in (dav, card))
    text = next((it.text or "" for it in found if it is not None), None)
    if text is None:
        return None
    if not re.fullmatch(r"\s*[0-9]{1,15}\s*", text):
        raise Fault(400, "nresults is a number")
    return int(text)


class Answer(NamedTuple):
    """Makes the responses of a report about one book."""

    request: Request
    place: Place
    has4: bool
    wanted: Wanted

    @property
    def book(self) -> AddressBook:
        assert self.place.book
        return self.place.book

    def of(self, entry: Entry) -> str:
        """The response for a card. One that was changed meanwhile is read again."""
        if self.wanted.has_data:
            found = self.book.card("cards.uid", entry.uid)
            return self.full(*found) if found else self.gone(self.path(entry.name))
        it = Resource(self.request, self.card_place(entry.name), self.has4, entry)
        return respond(it, self.wanted.tags, self.wanted.minimal)

    def full(self, entry: Entry, text: str) -> str:
        """The response for a card with its text."""
        it = Resource(self.request, self.card_place(entry.name), self.has4, entry)
        data = escaped(self.data(text)) if self.wanted.has_data else None
        return respond(it, self.wanted.tags, self.wanted.minimal, data)

    def data(self, text: str) -> str:
        """The card as the client wants it."""
        return self.book.as_read(text, self.wanted.as4, self.wanted.parts, self.request.is_noted)

    def card_place(self, name: str) -> Place:
        return self.place._replace(kind="card", name=name)

    def path(self, name: str) -> str:
        return Resource(self.request, self.card_place(name), self.has4).path

    def gone(self, path: str) -> str:
        return f"<D:response>{href(path)}{status('404 Not Found')}</D:response>"

    def more(self) -> str:
        """That there is more than this reply has (RFC 6578, 3.6; RFC 6352, 8.6.2)."""
        own = Resource(self.request, self.place, self.has4).path
        rule = element(dav("error"), element(TOO_MANY))
        return f"<D:response>{href(own)}{status('507 Insufficient Storage')}{rule}</D:response>"


def sync(answer: Answer, root: ET.Element, limit: Optional[int]) -> Iterator[str]:
    """What changed since the token. The server is asked before anything is sent."""
    if limit == 0:
        raise Fault(507, "a limit of 0 leaves nothing to say", TOO_MANY)
    level = (root.findtext(dav("sync-level")) or "1").strip()
    if level not in ("1", "infinite"):
        raise Fault(400, "sync-level is 1 or infinite")
    try:
        changes = answer.book.changes((root.findtext(dav("sync-token")) or "").strip(), limit)
    except InvalidToken:
        # RFC 6578 has 403 for this. Thunderbird lists all cards after a 400 alone, and would ask
        # with the same token for ever.
        code = 400 if answer.request.program == "Thunderbird" else 403
        raise Fault(code, "the token is refused: list all cards, without a token",
                    BAD_TOKEN) from None
    return _synced(answer, changes.there, changes.gone, changes.token, changes.truncated)


def _synced(answer: Answer, there: List[Entry], gone: List[str], token: str,
            truncated: bool) -> Iterator[str]:
    for entry in there:
        yield answer.of(entry)
    for name in gone:
        yield answer.gone(answer.path(name))
    if truncated:
        yield answer.more()
    yield element(dav("sync-token"), escaped(token))


def multiget(answer: Answer, shelf: Shelf, paths: List[str]) -> Iterator[str]:
    """The cards at these paths, each once: at most as many as the book has."""
    answer.book.refresh()
    return (_got(answer, shelf, it) for it in dict.fromkeys(paths))


def _got(answer: Answer, shelf: Shelf, path: str) -> str:
    try:
        place = place_of(answer.request, shelf, path)
    except (Fault, Missing):
        return answer.gone(path)
    if place.kind != "card" or place.book is not answer.book:
        return answer.gone(path)
    found = answer.book.card("names.name", place.name)
    return answer.full(*found) if found else answer.gone(path)


def query(answer: Answer, wanted: Optional[ET.Element], limit: Optional[int]) -> Iterator[str]:
    """The cards that match. It reads each card of the book once: 10,000 at most."""
    if wanted is not None:
        filters.check(wanted)
    answer.book.refresh()
    if answer.request.field("depth") == "0":
        return iter(())
    return _matching(answer, wanted, limit)


def _matching(answer: Answer, wanted: Optional[ET.Element], limit: Optional[int]) -> Iterator[str]:
    count = 0
    for entry in answer.book.entries():
        text = ""
        if wanted is not None and len(wanted):
            found = answer.book.card("cards.uid", entry.uid)  # it may have been edited meanwhile
            if not found or not filters.matches(wanted, cards.written(found[1],
                                                                      answer.wanted.as4)):
                continue
            entry, text = found
        if count == limit:
            yield answer.more()
            return
        yield answer.full(entry, text) if text else answer.of(entry)
        count += 1
