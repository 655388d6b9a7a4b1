"""What a path names, and the paths of things.

    /dav/                        the root
    /dav/users/                  the users, of whom each sees only itself
    /dav/users/USER/             the user (a principal)
    /dav/books/                  the home of the books that the user may read
    /dav/books/BOOK/             a book
    /dav/books/BOOK/NAME         a card
    /dav/only/BOOK/              a user and a home with this book alone, for programs that show
                                 one book for an account, as macOS does
    /dav/only/BOOK/BOOK/NAME     the same card
    /dav/photos/DIGEST/TYPE      a photo that is kept beside its card
"""

import functools
import re
from typing import NamedTuple, Optional, Tuple
from urllib.parse import quote, unquote

from gateway.books import AddressBook, Shelf
from gateway.groups import view_of
from gateway.messages import NO_RIGHT, Fault, Request, parts_of

PREFIX = "/dav"
NAME_MAX = 255  # octets of a name
SAFE = "@+=~"  # what isn't encoded in a path, besides letters, digits, "-", "." and "_"
PLAIN = re.compile(r"[A-Za-z0-9._@+=~-]+")
BAD_NAME = re.compile("[/\x00-\x1f\x7f]")


class Place(NamedTuple):
    """What a path names: "root", "users", "user", "home", "only", "book", "card" or "photo"."""

    kind: str
    base: Tuple[str, ...] = ("books",)  # the parts of the home's path
    book: Optional[AddressBook] = None
    name: str = ""  # of a card, or the digest of a photo

    @property
    def is_book(self) -> bool:
        return self.kind == "book"


def place_of(request: Request, shelf: Shelf, path: Optional[str] = None) -> Place:
    """What the path names, or that of the request; a card need not be there."""
    parts = _parts(parts_of(request.target if path is None else path).path)
    if not parts:
        return Place("root")
    first, rest = parts[0], parts[1:]
    if first == "users" and rest in ((), (request.user,)):
        return Place("user" if rest else "users")
    if first == "photos" and len(rest) == 3:
        return Place("photo", name="/".join(rest))
    if first == "only" and rest:
        _may_read(request, rest[0])
        if len(rest) == 1:
            return Place("only", parts, shelf.book(rest[0]))
        if rest[1] != rest[0]:
            raise Fault(404, "there is nothing at this path")
        return _within(request, shelf, parts[:2], rest[1:])
    if first == "books":
        return _within(request, shelf, ("books",), rest)
    raise Fault(404, "there is nothing at this path")


def _parts(path: str) -> Tuple[str, ...]:
    """The parts of a path below the prefix, decoded one by one."""
    if path != PREFIX and not path.startswith(PREFIX + "/"):
        raise Fault(404, f"CardDAV is at {PREFIX}/")
    whole = path[len(PREFIX):].strip("/")
    try:
        parts = tuple(unquote(it, errors="strict") for it in whole.split("/")) if whole else ()
    except UnicodeDecodeError:
        raise Fault(400, "the path isn't UTF-8") from None
    if any(it in ("", ".", "..") for it in parts):
        raise Fault(404, "there is nothing at this path")
    return parts


def _within(request: Request, shelf: Shelf, base: Tuple[str, ...],
            rest: Tuple[str, ...]) -> Place:
    if not rest:
        return Place("home", base)
    _may_read(request, rest[0])
    if len(rest) > 2:
        raise Fault(404, "there is nothing at this path")
    book = shelf.book(rest[0])
    if request.has_categories:
        book = view_of(book)
    return Place("book", base, book) if len(rest) == 1 else Place("card", base, book, rest[1])


def _may_read(request: Request, book: str) -> None:
    """Whether there is such a book isn't said to whom may not read it."""
    if not request.right(book):
        raise Fault(403, f"{request.user} has no right to a book {book}", NO_RIGHT)


def may_write(request: Request, book: str) -> None:
    if "w" not in request.right(book):
        raise Fault(403, f"{request.user} may read the book {book}, and not write it", NO_RIGHT)


def check_name(name: str) -> None:
    """Refuses a name for a new card that no path could hold safely."""
    if BAD_NAME.search(name) or len(name.encode()) > NAME_MAX:
        raise Fault(403, "a card's name has at most 255 octets, and no slash or control character")


@functools.lru_cache(maxsize=1024)
def path_to(*parts: str) -> str:
    """The path of a collection below the prefix, encoded."""
    return "/".join([PREFIX, *(quote(it, safe=SAFE) for it in parts), ""])


def path_of(place: Place, user: str) -> str:
    if place.kind == "root":
        return path_to()
    if place.kind in ("users", "user"):
        return path_to("users", user) if place.kind == "user" else path_to("users")
    if place.kind in ("home", "only"):
        return path_to(*place.base)
    assert place.book
    if place.kind == "book":
        return path_to(*place.base, place.book.name)
    name = place.name if PLAIN.fullmatch(place.name) else quote(place.name, safe=SAFE)
    return path_to(*place.base, place.book.name) + name


def principal_of(place: Place, user: str) -> str:
    """The path of the user, as a program that came by this place shall see it."""
    return path_to(*place.base) if place.base[0] == "only" else path_to("users", user)


def home_of(place: Place) -> str:
    return path_to(*place.base)
