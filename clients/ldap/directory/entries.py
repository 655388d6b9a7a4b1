"""The books as a tree of entries.

    o=office                            the office
    ou=staff,o=office                   a book
    uid=UID,ou=staff,o=office           a card: inetOrgPerson (RFC 2798), or groupOfNames
"""

from typing import Dict, Iterable, Iterator, List, NamedTuple, Optional, Tuple

from gateway.books import Shelf
from gateway.finding import fold, spell_out
from gateway.numbers import Number, read_number
from gateway.people import People, Person

from directory.names import Key, escaped, key_of

PERSON = ("top", "person", "organizationalPerson", "inetOrgPerson")
BY_USE = (("fax", "facsimileTelephoneNumber"), ("pager", "pager"), ("cell", "mobile"),
          ("home", "homePhone"))
NUMBERS = {"telephonenumber", "mobile", "homephone", "facsimiletelephonenumber", "pager"}
BASE, ONE, SUBTREE = 0, 1, 2  # scopes


class Entry:
    """An entry. Values are compared in the desk's spelling, which is made when it is needed."""

    __slots__ = ("dn", "key", "values", "person", "_folded", "_numbers")

    def __init__(self, dn: str, values: Dict[str, Iterable[str]],
                 person: Optional[Person] = None) -> None:
        self.dn, self.key, self.person = dn, key_of(dn) or (), person
        # By the attribute's name in small letters: the name, and the values.
        self.values: Dict[str, Tuple[str, List[str]]] = {
            name.lower(): (name, list(dict.fromkeys(it for it in some if it)))
            for name, some in values.items() if any(some)}
        self._folded: Dict[str, List[str]] = {}
        self._numbers: Dict[str, List[Number]] = {}

    def get(self, name: str) -> List[str]:
        return self.values[name][1] if name in self.values else []

    def folded(self, name: str) -> List[str]:
        """The values for comparisons, with umlauts in both spellings."""
        if name not in self._folded:
            some = self.get(name)
            self._folded[name] = [fold(it) for it in some] + [
                fold(spell_out(it)) for it in some if not it.isascii()]
        return self._folded[name]


    def numbers(self, name: str, country: str) -> List[Number]:
        """The numbers for comparisons."""
        if name not in self._numbers:
            found = (read_number(it, country) for it in self.get(name))
            self._numbers[name] = [it for it in found if it]
        return self._numbers[name]


class Missing(Exception):
    """There is no such entry; the message is the name of the lowest one above it."""


class Kept(NamedTuple):
    people: List[Person]  # of which these entries were made
    entries: Dict[str, Entry]  # by UID


class Directory:
    """All entries that a user may read, as the books are now."""

    def __init__(self, shelf: Shelf, base: str) -> None:
        self.shelf, self.base = shelf, base
        self.starts_tls = False  # whether a connection may go on with TLS
        key = key_of(base)
        if not key:
            raise ValueError(f"{base} isn't a name of a directory, as o=office")
        self.key: Key = key
        self._kept: Dict[int, Kept] = {}

    def root(self) -> Entry:
        """What a program asks first (RFC 4512, 5.1)."""
        starts = ["1.3.6.1.4.1.1466.20037"] if self.starts_tls else []
        return Entry("", {"objectClass": ["top"], "namingContexts": [self.base],
                          "supportedLDAPVersion": ["3"], "vendorName": ["Tosculai"],
                          "supportedControl": ["1.2.840.113556.1.4.319"],
                          "supportedExtension": ["1.3.6.1.4.1.4203.1.11.3", *starts]})

    def find(self, rights: Dict[str, str], name: str, scope: int) -> Iterator[Entry]:
        """The entries within the scope. Raises Missing, as soon as it is asked for one."""
        key = key_of(name)
        if key == () and scope == BASE:
            yield self.root()
            return
        key = self.key if key == () else key  # programs that are set up without a base
        if key is None or key[-len(self.key):] != self.key:
            raise Missing("")
        below = key[:-len(self.key)]
        books = [it for it in self.shelf.names() if rights.get(it, rights.get("*"))]
        if not below:
            yield from self._office(books, scope)
            return
        kind, book = below[-1]
        if kind != "ou" or book not in books:
            raise Missing(self.base)
        if len(below) == 1:
            yield from self._book(book, scope)
            return
        entry = next((it for it in self._cards(book).values() if it.key == key), None)
        if not entry:
            raise Missing(self._name(book))
        if scope != ONE:
            yield entry

    def _office(self, books: List[str], scope: int) -> Iterator[Entry]:
        if scope != ONE:
            kind, value = self.base.partition(",")[0].split("=", 1)
            classes = {"o": "organization", "dc": "domain", "ou": "organizationalUnit"}
            own = classes.get(kind.lower(), "extensibleObject")
            yield Entry(self.base, {"objectClass": ["top", own], kind: [value]})
        for book in books if scope != BASE else ():
            yield from self._book(book, BASE if scope == ONE else SUBTREE)

    def _book(self, book: str, scope: int) -> Iterator[Entry]:
        if scope != ONE:
            yield Entry(self._name(book), {"objectClass": ["top", "organizationalUnit"],
                                           "ou": [book]})
        if scope != BASE:
            yield from self._cards(book).values()

    def _name(self, book: str) -> str:
        return f"ou={book},{self.base}"

    def _cards(self, name: str) -> Dict[str, Entry]:
        """The entries of the book's cards, by UID. What hasn't changed is made once."""
        book = self.shelf.book(name)
        with book.lock:
            book.refresh()
            people = book.people()
            order = people.in_order()
            kept = self._kept.get(book.number, Kept([], {}))
            if kept.people is not order:
                entries = {}
                for it in order:
                    old = kept.entries.get(it.uid)
                    is_old = old and old.person is it and it.kind != "group"
                    entries[it.uid] = old if old and is_old else self._entry(name, it, people)
                kept = self._kept[book.number] = Kept(order, entries)
            return kept.entries

    def _entry(self, book: str, one: Person, people: People) -> Entry:
        return Entry(self._dn(book, one.uid), group(one, [
            self._dn(book, it) for it in map(people.known, one.members) if it])
            if one.kind == "group" else person(one), one)

    def _dn(self, book: str, uid: str) -> str:
        return f"uid={escaped(uid)},{self._name(book)}"


def person(one: Person) -> Dict[str, Iterable[str]]:
    """The attributes of a person, or of an office."""
    name = one.name or one.org or one.uid
    values: Dict[str, Iterable[str]] = {
        "objectClass": PERSON, "cn": [name], "displayName": [name],
        "sn": [one.family or name.split(" ")[-1]], "givenName": [one.given], "mail": one.mails,
        "o": [one.org], "title": [one.title], "uid": [one.uid]}
    for phone in one.phones:
        kind = next((kind for use, kind in BY_USE if use in phone.uses), "telephoneNumber")
        values[kind] = [*values.get(kind, ()), phone.text]
    return values


def group(one: Person, members: List[str]) -> Dict[str, Iterable[str]]:
    name = [one.name or one.uid]
    return {"objectClass": ("top", "groupOfNames"), "cn": name, "displayName": name,
            "member": members, "uid": [one.uid], "mail": one.mails}
