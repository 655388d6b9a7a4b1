"""CardDAV (RFC 6352, over RFC 4918 and 6578): a request becomes a reply. No sockets here."""

import itertools
import re
from typing import Callable, Dict, Iterator, List, Tuple

from tosculai import (BadCard, BookFull, ChangesSpent, Error, FrontAnswer, LostReply, NoSuchBook,
                      Refused, Unreachable)

from gateway import cards, edits, groups
from gateway.books import Missing, Shelf
from gateway.davxml import element, href, prop_status
from gateway.edits import Conditions, Failed, UidInUse
from gateway.files import Files, taken_out
from gateway.messages import (NO_CARD, NO_DEPTH, NO_VERSION, QUOTA, RETRY_AFTER, TEXT, TOO_LARGE,
                              UID_CONFLICT, XML, Fault, Reply, Request, parts_of)
from gateway.photos import CARD_MAX, SHOWN, NoRoom
from gateway.places import PREFIX, Place, check_name, may_write, path_of, place_of
from gateway.properties import ALL, PROPERTIES, VCARD, Resource, dav, respond
from gateway.reports import is_minimal, multistatus, read_body, report
from gateway.state import Entry

METHODS = ("OPTIONS", "GET", "HEAD", "PROPFIND", "REPORT", "PUT", "DELETE", "MOVE", "PROPPATCH")
ALLOW = ", ".join(METHODS)
CLASSES = "1, 3, access-control, addressbook"
WELL_KNOWN = "/.well-known/carddav"
VERSION4 = re.compile(r"text/vcard\s*;\s*version=\"?4\.0", re.IGNORECASE)
# In these each line has its octets of ASCII.
LIKE_ASCII = ("utf-8", "utf8", "us-ascii", "ascii", "iso-8859-1", "iso-8859-15", "windows-1252")
# Charsets that texts of people are in. Python knows more codecs, some of which take very long.
CHARSETS = re.compile("(iso-8859-|windows-|cp|mac-?|koi8-|iso-2022-|euc-|utf-?16-?)[0-9a-z]{0,4}"
                      "|utf-?8|us-ascii|ascii|macintosh|shift[-_]jis|big5|gb2312|gbk|gb18030"
                      "|tis-620")
CARD_TYPES = ("text/", "application/octet-stream", "application/vcard")
# What is wrong with a card, by the cause that the server gives (docs/API.md).
CAUSES = {2: "it isn't UTF-8", 3: "it has a control character", 4: "a line isn't one of a card",
          10: "its UID isn't 1 to 255 octets, or has a tab", 11: "it has a second UID or KIND",
          12: "it has a MEMBER and isn't a group"}


class Dav:
    """The methods, over the books of a shelf."""

    def __init__(self, shelf: Shelf, has4: bool = True, keeps_unknown: bool = True) -> None:
        self.shelf, self.has4, self.keeps_unknown = shelf, has4, keeps_unknown
        self._handlers: Dict[str, Callable[[Request], Reply]] = {
            "OPTIONS": self.options, "GET": self.get, "HEAD": self.get, "PUT": self.put,
            "DELETE": self.delete, "MOVE": self.move, "PROPFIND": self.propfind,
            "PROPPATCH": self.proppatch, "MKCOL": self.make, "COPY": self.copy,
            "REPORT": lambda request: report(request, self.shelf, self.has4)}

    def reply(self, request: Request) -> Reply:
        try:
            if is_discovery(request.target):
                raise Fault(301, f"CardDAV is at {PREFIX}/", Location=PREFIX + "/")
            handler = self._handlers.get(request.method)
            if not handler:
                raise Fault(405, f"{request.method} isn't known here", Allow=ALLOW)
            return handler(request)
        except Fault as fault:
            return fault.reply()
        except Failed as fault:
            return Fault(412, str(fault)).reply()
        except Missing as fault:
            return Fault(404, str(fault)).reply()
        except cards.OldVersion as fault:
            return Fault(403, str(fault), NO_VERSION).reply()
        except cards.TooLarge as fault:
            return Fault(403, str(fault), TOO_LARGE).reply()
        except cards.BadText as fault:
            return Fault(403, f"the card isn't taken: {fault}", NO_CARD).reply()
        except NoRoom as fault:
            return Fault(507, str(fault), QUOTA).reply()
        except Error as error:
            return fault_of(error).reply()

    # Reading.

    def options(self, request: Request) -> Reply:
        return Reply(200, {"DAV": CLASSES, "Allow": ALLOW}, b"")

    def get(self, request: Request) -> Reply:
        place = place_of(request, self.shelf)
        if place.kind == "photo":
            return self.photo(place.name)
        if not place.book or place.kind == "only":
            return self.greet(request)
        place.book.refresh()
        as4 = self.has4 and VERSION4.search(request.field("accept")) is not None
        if place.is_book:
            return Reply(200, {"Content-Type": VCARD}, self.whole(place, as4))
        found = place.book.card("names.name", place.name)
        if not found:
            raise Missing(f"there is no card {place.name}")
        entry, text = found
        head = {"Content-Type": VCARD, "ETag": entry.etag, "Vary": "Accept"}
        if "if-none-match" in request.fields and edits.matches(request.field("if-none-match"),
                                                               entry.etag):
            return Reply(304, head, b"")
        return Reply(200, head, place.book.filled(text, as4, request.is_noted))

    def whole(self, place: Place, as4: bool) -> Iterator[bytes]:
        """All cards of a book, one after another."""
        assert place.book
        for entry in place.book.entries():
            found = place.book.card("cards.uid", entry.uid)  # it may have been edited meanwhile
            if found:
                yield from place.book.filled(found[1], as4)

    def greet(self, request: Request) -> Reply:
        """What a browser shows of the address that phones use."""
        lines = [f"This is the CardDAV address of {request.user}. Enter it in a phone:", "",
                 request.address + "/", "", "Your books:"]
        lines += [f"  {name} ({'read, write' if 'w' in request.right(name) else 'read'})"
                  for name in self.shelf.names() if request.right(name)]
        return Reply(200, {"Content-Type": TEXT}, "\n".join(lines + [""]).encode())

    def photo(self, name: str) -> Reply:
        """A photo that is kept beside. Whoever knows its digest has read its card."""
        digest, _, kind = name.partition("/")
        if not re.fullmatch("[0-9a-f]{64}", digest) or self.shelf.photos.size(digest) is None:
            raise Missing("there is no such photo")
        head = {"Content-Type": kind if kind in SHOWN else "application/octet-stream",
                "Content-Security-Policy": "default-src 'none'; sandbox",
                "Cache-Control": "private, max-age=86400"}
        if kind not in SHOWN:
            head["Content-Disposition"] = "attachment"
        return Reply(200, head, self.shelf.photos.pieces(digest))

    def propfind(self, request: Request) -> Reply:
        place, root = place_of(request, self.shelf), read_body(request)
        depth = request.field("depth").lower() or "1"
        if depth == "infinity" and place.kind not in ("book", "card"):
            raise Fault(403, "ask with Depth 0 or 1", NO_DEPTH)
        if depth not in ("0", "1", "infinity"):
            raise Fault(400, "Depth is 0, 1 or infinity")
        wanted = None if root is None else root.find(dav("prop"))
        names_only = root is not None and root.find(dav("propname")) is not None
        tags = [it.tag for it in wanted] if wanted is not None else \
            list(PROPERTIES) if names_only else ALL
        minimal = is_minimal(request) or wanted is None
        own, entries = self.resource(request, place, depth != "0")
        found = [own, *self.below(own)] if depth != "0" else [own]
        # What asks the server is made before the reply begins; cards are made as they are sent.
        first = [respond(it, tags, minimal, None, names_only) for it in found]
        cards_below = (respond(self.card(own, it), tags, minimal, None, names_only)
                       for it in entries)
        return Reply(207, {"Content-Type": XML, "DAV": CLASSES},
                     multistatus(itertools.chain(first, cards_below)))

    def resource(self, request: Request, place: Place,
                 is_deep: bool) -> Tuple[Resource, List[Entry]]:
        """The resource, and the cards below, as of the token that is a book's property."""
        if place.kind == "photo":
            raise Fault(405, "a photo is only read", Allow="GET, HEAD")
        if not place.book or place.kind == "only":
            return Resource(request, place, self.has4), []
        with place.book.lock:
            token = place.book.refresh()
            if place.is_book:
                own = Resource(request, place, self.has4, known_token=token)
                return own, place.book.entries() if is_deep else []
        entry = place.book.named(place.name)
        if not entry:
            raise Missing(f"there is no card {place.name}")
        return Resource(request, place, self.has4, entry), []

    def card(self, own: Resource, entry: Entry) -> Resource:
        return own._replace(place=own.place._replace(kind="card", name=entry.name), entry=entry)

    def below(self, own: Resource) -> List[Resource]:
        """What is in a collection that isn't a book."""
        place, rights = own.place, own.request.right
        if place.kind == "root":
            found = [Place("user"), Place("home")]
        elif place.kind == "users":
            found = [Place("user")]
        elif place.kind == "home":
            found = [Place("book", place.base, self.shelf.book(it))
                     for it in self.shelf.names() if rights(it)]
        else:
            found = [Place("book", place.base, place.book)] if place.kind == "only" else []
        return [own._replace(place=it) for it in found]

    # Changing.

    def put(self, request: Request) -> Reply:
        place = self.writable(request, place_of(request, self.shelf))
        assert place.book
        if not place.book.named(place.name):
            check_name(place.name)
        text, files = card_of(request)
        sent = edits.Sent(text, request.program, request.address, self.keeps_unknown,
                          request.user, files)
        try:
            make = groups.put if isinstance(place.book, groups.CategoryBook) else edits.put
            stored = make(place.book, place.name, sent, conditions_of(request))
        except UidInUse as fault:
            raise self.conflict(place, fault) from None
        # RFC 6352, 6.3.2.3: an ETag only if what is read is what was sent.
        fields = {"ETag": stored.etag} if stored.etag else {}
        return Reply(201 if stored.is_new else 204, fields, b"")

    def delete(self, request: Request) -> Reply:
        place = self.writable(request, place_of(request, self.shelf))
        assert place.book
        edits.remove(place.book, place.name, conditions_of(request), request.user)
        return Reply(204, {}, b"")

    def move(self, request: Request) -> Reply:
        place = self.writable(request, place_of(request, self.shelf))
        target = parts_of(request.field("destination"))
        if target.netloc and target.netloc not in (request.field("host"),
                                                   request.field("x-forwarded-host")):
            raise Fault(502, f"the Destination is on another server, {target.netloc[:80]}")
        to = self.writable(request, place_of(request, self.shelf, target.path))
        assert place.book and to.book
        if place.book is to.book:
            raise Fault(403, "a card keeps its name within a book")
        check_name(to.name)
        overwrites = request.field("overwrite").upper() != "F"  # RFC 4918, 10.6: T without it
        try:
            is_new = edits.move(place.book, place.name, to.book, to.name, overwrites,
                                conditions_of(request), request.user)
        except UidInUse as fault:
            raise self.conflict(to, fault) from None
        return Reply(201 if is_new else 204, {}, b"")

    def writable(self, request: Request, place: Place) -> Place:
        """The place of a card in a book that the user may write."""
        if place.kind != "card" or not place.book:
            raise Fault(403, f"{request.method} is for cards: books are made, and stay, on the "
                        "server (docs/OPERATING.md)")
        may_write(request, place.book.name)
        return place

    def conflict(self, place: Place, fault: UidInUse) -> Fault:
        """RFC 6352, 6.3.2.1: the path of what is in the way is in the reply."""
        path = path_of(place._replace(kind="card", name=fault.name), "")
        return Fault(409, str(fault), UID_CONFLICT, path)

    def proppatch(self, request: Request) -> Reply:
        """Refuses each property: books have none that a client may set."""
        place, root = place_of(request, self.shelf), read_body(request)
        tags = [it.tag for prop in (root.iter(dav("prop")) if root is not None else ())
                 for it in prop]
        parts = prop_status(map(element, tags), "403 Forbidden")
        own = href(path_of(place, request.user))
        return Reply(207, {"Content-Type": XML},
                     multistatus([f"<D:response>{own}{parts}</D:response>"]))

    def make(self, request: Request) -> Reply:
        raise Fault(403, "books are made on the server: contacts book FILE NAME, or PUT "
                    "/books/NAME. There are a hundred at most, for good.")

    def copy(self, request: Request) -> Reply:
        raise Fault(403, "a card has one place: MOVE it, or PUT it under another UID")


def is_discovery(target: str) -> bool:
    try:
        return parts_of(target).path.rstrip("/") in (WELL_KNOWN, "")
    except Fault:
        return False


def conditions_of(request: Request) -> Conditions:
    return Conditions(request.fields.get("if-match"), request.fields.get("if-none-match"))


def card_of(request: Request) -> Tuple[str, Files]:
    """The text of a card that is sent, with marks for its large files, and these.

    It is in UTF-8, unless the Content-Type names another charset.
    """
    kind = request.field("content-type").partition(";")[0].strip().lower()
    if kind and not kind.startswith(CARD_TYPES):
        raise Fault(403, f"{kind[:60]} isn't text/vcard", NO_VERSION)
    charset = request.charset or "utf-8"
    if not CHARSETS.fullmatch(charset):
        raise Fault(403, f"the charset {charset[:40]} isn't taken; UTF-8 is", NO_CARD)
    text, files = taken_out(request.body) if charset in LIKE_ASCII else (request.body, {})
    try:
        return text.decode(charset), files
    except (UnicodeError, LookupError):
        raise Fault(403, f"the card isn't {request.charset[:40] or 'UTF-8'}", NO_CARD) from None


def fault_of(error: Error) -> Fault:
    """What a client gets if the server refuses, or can't be reached."""
    if isinstance(error, (Unreachable, LostReply)) or error.status in (502, 503, 504):
        return Fault(503, "the contact server doesn't answer; try again", Retry_After=RETRY_AFTER)
    if isinstance(error, BadCard):
        if error.cause == 1:
            return Fault(403, f"the card has more than {CARD_MAX:,} octets, even without its "
                         "photo", TOO_LARGE)
        reason = CAUSES.get(error.cause or 0, f"cause {error.cause} of docs/API.md")
        return Fault(403, f"the card isn't taken: {reason}", NO_CARD)
    if isinstance(error, BookFull):
        return Fault(507, "the book is full: it has 10,000 cards", QUOTA)
    if isinstance(error, ChangesSpent):
        return Fault(507, "the book has no change left", QUOTA)
    if isinstance(error, NoSuchBook):
        return Fault(409, "there is no such book")
    if isinstance(error, FrontAnswer):
        return Fault(502, f"another server answers in place of the contact server: {error}")
    if isinstance(error, Refused) and error.status < 500:
        return Fault(error.status, str(error))
    return Fault(502, f"the contact server fails: {error}")
