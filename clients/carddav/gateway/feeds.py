"""What is read at paths of its own: phone books, names of callers, birthdays, and searches.

    /phonebook/                    the addresses of the phone books, for people
    /phonebook/FORM/BOOK[/GROUP]   a phone book in the form of a maker
    /lookup?tel=NUMBER[&book=BOOK] the name of a caller
    /birthdays/BOOK.ics            a calendar
    /find?q=WORDS[&book=BOOK]      cards, as JSON or as lines

A token may be a further part, after the first one. All is only read (GET, HEAD).
"""

import re
from typing import Callable, Dict, List, Optional
from urllib.parse import parse_qs, quote, unquote, urlencode, urlsplit

from tosculai import Error

from gateway import birthdays, phonebook, searches
from gateway.books import AddressBook, Missing, Shelf
from gateway.dav import fault_of
from gateway.finding import TooMany
from gateway.messages import Fault, Reply, Request
from gateway.places import PREFIX, SAFE
from gateway.readers import TOKEN

FIRST = re.compile(r"/(phonebook|lookup|birthdays|find)(?:[/?]|$)")
LOOKUP = re.compile(r"/lookup(?:[/?]|$)")
QUERY_MAX = 1000  # octets of what is asked
REASON_MAX = 200  # letters of a refusal in a field


def is_feed(target: str) -> bool:
    return FIRST.match(target) is not None


class Asked:
    """A request for a feed, taken to pieces."""

    def __init__(self, request: Request, shelf: Shelf) -> None:
        self.request, self.shelf = request, shelf
        parts = urlsplit(request.target)
        if len(parts.query) > QUERY_MAX:
            raise Fault(414, f"the query is too long: it has at most {QUERY_MAX:,} octets")
        try:
            path = [unquote(it, errors="strict") for it in parts.path.split("/")[1:]]
        except UnicodeDecodeError:
            raise Fault(400, "the path isn't UTF-8") from None
        self.first, self.rest = path[0], path[1:]
        self.token = self.rest.pop(0) if self.rest and TOKEN.fullmatch(self.rest[0]) else ""
        if self.rest and not self.rest[-1]:
            self.rest.pop()
        # A plus sign stays one: it begins numbers.
        query = parts.query.replace("+", "%2B") if self.first == "lookup" else parts.query
        self.query = {name: it[-1] for name, it in parse_qs(query, True).items()}

    def get(self, name: str) -> str:
        return self.query.get(name, "")

    def number(self, name: str, least: int, most: int, default: int) -> int:
        """A number within its range; the default if there is none."""
        text = self.get(name)
        if not text:
            return default
        if not (text.isascii() and text.isdigit()):
            raise Fault(400, f"{name}={text[:20]} isn't a number")
        return min(max(int(text[:9]), least), most)

    def book(self, name: str) -> AddressBook:
        """The book as it is now. Whether there is one isn't said to whom may not read it."""
        if not self.request.right(name):
            raise Fault(403, f"{self.request.user or 'nobody'} has no right to a book {name[:40]}")
        book = self.shelf.book(name)
        book.refresh()
        return book

    def books(self) -> List[AddressBook]:
        """The book that is named, or all that may be read."""
        name = self.get("book")
        names = [name] if name else [it for it in self.shelf.names() if self.request.right(it)]
        return [self.book(it) for it in names]

    def url(self, *parts: str, query: Optional[Dict[str, str]] = None) -> str:
        """The address of a path below the first part, as the client itself came here."""
        base = self.request.address
        base = base[:-len(PREFIX)] if base.endswith(PREFIX) else base
        tokens = [self.token] if self.token else []
        path = "/".join([base, self.first, *(quote(it, safe=SAFE) for it in [*tokens, *parts])])
        return path + ("?" + urlencode(query) if query else "")


class Feeds:
    """The feeds over the books of a shelf."""

    def __init__(self, shelf: Shelf, texts: birthdays.Texts) -> None:
        self.shelf = shelf
        calendars = birthdays.Calendars(texts)
        self._handlers: Dict[str, Callable[[Asked], Reply]] = {
            "phonebook": phonebook.reply, "lookup": searches.lookup,
            "birthdays": calendars.reply, "find": searches.find}

    def reply(self, request: Request) -> Reply:
        return bare(request.target, self._reply(request))

    def _reply(self, request: Request) -> Reply:
        try:
            if request.method not in ("GET", "HEAD"):
                raise Fault(405, "this is only read", Allow="GET, HEAD")
            asked = Asked(request, self.shelf)
            return self._handlers[asked.first](asked)
        except Fault as fault:
            return fault.reply()
        except TooMany as fault:
            return Fault(400, str(fault)).reply()
        except Missing as fault:
            return Fault(404, str(fault)).reply()
        except Error as error:
            return fault_of(error).reply()


def bare(target: str, reply: Reply) -> Reply:
    """A PBX shows whatever it reads as the caller's name, so a refusal's words are in a field."""
    if not LOOKUP.match(target) or reply.status < 400 or not isinstance(reply.body, bytes):
        return reply
    words = reply.body.decode("utf-8", "replace").strip()[:REASON_MAX]
    return Reply(reply.status, {**reply.fields, **({"X-Reason": words} if words else {})}, b"")
