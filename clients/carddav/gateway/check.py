"""`--check`: asks as a phone would, as each user, and says what it would see.

It asks within its own process, over a state in memory, so it changes nothing, and may run beside
a gateway that serves.
"""

import os
import xml.etree.ElementTree as ET
from typing import Iterator, List

from tosculai import Error

from gateway import accounts, readers
from gateway.books import Shelf
from gateway.dav import Dav
from gateway.davxml import SPACES, href
from gateway.messages import Reply, Request
from gateway.office import Offices
from gateway.photos import PATH, Photos
from gateway.properties import card, dav
from gateway.state import State

BATCH = 50  # cards that are read at once
BOOKS = ("<D:resourcetype/><D:displayname/><D:current-user-privilege-set/><D:sync-token/>")


class Wrong(Exception):
    """A reply that no phone could use."""


class Phone:
    """One user's phone, without a network."""

    def __init__(self, gateway: Dav, user: str, account: accounts.Account) -> None:
        self.gateway, self.user, self.rights = gateway, user, account.rights
        self.has_categories = account.has_categories

    def ask(self, method: str, path: str, body: str = "", **fields: str) -> Reply:
        return self.gateway.reply(Request(method, path, fields, body.encode(), self.user,
                                          self.rights, "http://localhost/dav",
                                          self.has_categories))

    def propfind(self, path: str, props: str, depth: str = "0") -> ET.Element:
        body = f"<D:propfind{SPACES}><D:prop>{props}</D:prop></D:propfind>"
        reply = self.ask("PROPFIND", path, body, depth=depth)
        return read(reply)

    def home(self) -> str:
        """The home, found as phones find it."""
        begun = self.ask("PROPFIND", "/.well-known/carddav").fields["Location"]
        user = self.propfind(begun, "<D:current-user-principal/>")
        principal = user.findtext(f".//{dav('current-user-principal')}/{dav('href')}") or ""
        found = self.propfind(principal, "<C:addressbook-home-set/>")
        return found.findtext(f".//{card('addressbook-home-set')}/{dav('href')}") or ""

    def books(self) -> Iterator[str]:
        """A line for each book that the phone would show."""
        for response in self.propfind(self.home(), BOOKS, "1").findall(dav("response")):
            if response.find(f".//{card('addressbook')}") is not None:
                path = response.findtext(dav("href")) or ""
                can_write = response.find(f".//{dav('write-content')}") is not None
                rights = "read, write" if can_write else "read"
                yield f"  {path}  {self.count(path)} cards, {rights}"

    def count(self, path: str) -> int:
        """How many cards a first sync brings; each is read, some at a time, as a phone does it."""
        body = (f"<D:sync-collection{SPACES}><D:sync-token/><D:sync-level>1</D:sync-level><D:prop>"
                "<D:getetag/></D:prop></D:sync-collection>")
        found = read(self.ask("REPORT", path, body)).findall(f"{dav('response')}/{dav('href')}")
        paths = [href(it.text or "") for it in found]
        return sum(self.texts(path, paths[at:at + BATCH]) for at in range(0, len(paths), BATCH))

    def texts(self, path: str, hrefs: List[str]) -> int:
        body = (f"<C:addressbook-multiget{SPACES}><D:prop><C:address-data/></D:prop>"
                f"{''.join(hrefs)}</C:addressbook-multiget>")
        texts = read(self.ask("REPORT", path, body)).iter(card("address-data"))
        return sum(1 for it in texts if (it.text or "").startswith("BEGIN:VCARD"))


def read(reply: Reply) -> ET.Element:
    body = reply.body if isinstance(reply.body, bytes) else b"".join(reply.body)
    if reply.status != 207:
        raise Wrong(f"{reply.status} {body.decode('utf-8', 'replace').strip()}")
    return ET.fromstring(body)


def beside(shelf: Shelf) -> List[str]:
    """What is to be said of the photos that are kept beside."""
    lines = []
    for name in shelf.names():
        book = shelf.book(name)
        for entry in book.entries():
            text = book.text(entry) or ""
            for line in text.replace("\r\n ", "").split("\r\n"):
                found = PATH.fullmatch(line) if "/photos/" in line else None
                if found and shelf.photos.size(found.group(1)) is None:
                    lines.append(f"{name}: the photo of {entry.uid} isn't in {shelf.photos.path}")
    return lines


def seen(shelf: Shelf, account: accounts.Account) -> Iterator[str]:
    """A line for each book whose cards are read at feeds."""
    for name in shelf.names():
        if account.rights.get(name, account.rights.get("*")):
            shelf.book(name).refresh()
            count = shelf.state.count(shelf.book(name).number)
            yield f"  {name}  {count} cards, at /phonebook/, /lookup, /birthdays/ and /find"


def check(server: str, folder: str, trusts_front: bool) -> int:
    """Prints what each user's phone would see; the status is 1 if that can't be all."""
    users = accounts.read(os.path.join(folder, "users"))
    shelf = Shelf(Offices(server), State(":memory:"), Photos(os.path.join(folder, "photos")), print)
    faults = 0
    try:
        names = shelf.names()
        print(f"{server} has {len(names)} books: {', '.join(names)}")
        for name, account in sorted(users.items()):
            if accounts.is_reader(account):
                print(f"{name} reads {readers.told(account)}")
                print(*seen(shelf, account), sep="\n")
            else:
                can_come = trusts_front or accounts.has_password(account)
                print(f"{name}'s phone" + ("" if can_come else ", which has no password: not "
                                           "served"))
                phone = Phone(Dav(shelf), name, account)
                print(*phone.books(), sep="\n")
            for book in sorted(set(account.rights) - set(names) - {"*"}):
                faults += 1
                print(f"  there is no book {book}, to which {name} has a right")
        for line in beside(shelf):
            faults += 1
            print(line)
    except (Error, Wrong) as fault:
        print(f"no phone sees anything: {fault}")
        return 1
    if not users:
        print(accounts.how_to_begin(os.path.join(folder, "users")))
    return 1 if faults or not users else 0
