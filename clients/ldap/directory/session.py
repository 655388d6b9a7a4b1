"""LDAP (RFC 4511) as far as reading needs it: a message becomes messages. No sockets here."""

import base64
import secrets
from typing import Dict, Iterator, List, NamedTuple, Optional, Tuple

from tosculai import Error

from gateway import readers
from gateway.accounts import Account, BadUsers, Refusal, Users, Who
from gateway.books import Missing as NoBook
from gateway.front import say

from directory import ber
from directory.ber import Bad, Element
from directory.entries import Directory, Entry, Missing
from directory.filters import attribute, test_of
from directory.names import parts_of

BIND, UNBIND, SEARCH, ABANDON, EXTENDED = 0x60, 0x42, 0x63, 0x50, 0x77
# Changes, and a comparison, with the tags of their replies.
CHANGES = {0x66: 0x67, 0x68: 0x69, 0x4A: 0x6B, 0x6C: 0x6D, 0x6E: 0x6F}
BIND_REPLY, ENTRY, DONE, EXTENDED_REPLY = 0x61, 0x64, 0x65, 0x78
OK, ORDER, PROTOCOL, TOO_MANY, NO_METHOD, NO_CONTROL, NOT_PRIVATE = 0, 1, 2, 4, 7, 12, 13
NO_ENTRY, WRONG_PASSWORD, NO_RIGHT, BUSY, AWAY, READ_ONLY, OTHER = 32, 49, 50, 51, 52, 53, 80
PAGES = "1.2.840.113556.1.4.319"  # RFC 2696
WHO_AM_I = "1.3.6.1.4.1.4203.1.11.3"  # RFC 4532
GOODBYE = "1.3.6.1.4.1.1466.20036"
START_TLS = "1.3.6.1.4.1.1466.20037"  # RFC 4511, 4.14
MOST, NAMES_MAX = 1000, 100  # entries of a reply, and attributes that are asked for
UNREADABLE = (BadUsers, UnicodeError, OSError)  # what the file of users may raise


class End(Exception):
    """The connection ends."""


class Asked(NamedTuple):
    """A search."""

    base: str
    scope: int
    most: int  # entries that it wants; 0 is no limit
    has_values: bool
    wanted: List[str]
    filter: Element


class Pages(NamedTuple):
    """What is left of a search that is read in pages."""

    cookie: bytes
    asked: Asked
    left: List[Entry]
    has_more: bool  # whether there are more than the search wants


class Session:
    """One connection: who it is, and what is left of its search."""

    def __init__(self, directory: Directory, users: Users, peer: str, is_private: bool,
                 may_start: bool = False) -> None:
        self.directory, self.users, self.peer = directory, users, peer
        self.is_private = is_private  # whether a password may be sent
        self.may_start = may_start  # whether TLS may begin
        self.starts = False  # whether it begins now, after the reply
        self.has_tls = False
        self.who = Who("", {})
        self._accounts: Optional[Dict[str, Account]] = None  # for which `who` has these rights
        self._bound: Optional[Tuple[str, Account]] = None  # who has bound
        self._pages: Optional[Pages] = None
        try:
            self._look_up()
        except UNREADABLE:
            pass  # each request says so

    def _look_up(self) -> None:
        """Makes the rights those of the file as it is now.

        Who was removed there, or has another password, is nobody from then on.
        """
        accounts = self.users.accounts()
        if accounts is self._accounts:
            return
        before, self.who = self.who, Who("", {})
        name, bound = self._bound or ("", None)
        now = accounts.get(name)
        if bound and now and now.hash == bound.hash:
            self.who = Who(name, now.rights)
        else:
            self.who, self._bound = self._nobody(), None
        self._accounts = accounts
        if self.who != before:
            self._pages = None

    def _nobody(self) -> Who:
        """Without a password: what this address may read."""
        return readers.find(self.users, "/ldap", {}, self.peer) or Who("", {})

    def answer(self, octets: bytes) -> Iterator[bytes]:
        """The replies to a message. After a fault of form the connection ends."""
        try:
            number, request, controls = self._message(octets)
        except Bad as fault:
            yield ber.write(ber.SEQUENCE, ber.number(0), result(
                EXTENDED_REPLY, PROTOCOL, str(fault), ber.text(GOODBYE, 0x8A)))
            raise End from None
        if request.tag == UNBIND:
            raise End
        if request.tag != ABANDON:  # what is abandoned is done already
            for reply in self._replies(request, controls):
                yield ber.write(ber.SEQUENCE, ber.number(number), *reply)

    def _message(self, octets: bytes) -> Tuple[int, Element, Dict[str, Tuple[bool, bytes]]]:
        outer = ber.read(octets)[0]
        whole = outer.children() if outer.tag == ber.SEQUENCE else []
        if len(whole) < 2 or whole[0].tag != ber.INTEGER:
            raise Bad("a message has a number and a request")
        controls = {}
        for it in whole[2].children() if len(whole) > 2 and whole[2].tag == 0xA0 else ():
            parts = it.children()
            is_critical = any(one.tag == ber.BOOLEAN and any(one.body) for one in parts[1:])
            value = next((one.body for one in parts[1:] if one.tag == ber.OCTETS), b"")
            controls[parts[0].text() if parts else ""] = is_critical, value
        return whole[0].number(), whole[1], controls

    def _replies(self, request: Element,
                 controls: Dict[str, Tuple[bool, bytes]]) -> Iterator[Tuple[bytes, ...]]:
        unknown = [name for name, (is_critical, _) in controls.items()
                   if is_critical and not (name == PAGES and request.tag == SEARCH)]
        reply_tag = CHANGES.get(request.tag, {BIND: BIND_REPLY, SEARCH: DONE}.get(
            request.tag, EXTENDED_REPLY))
        try:
            self._look_up()
            if unknown:
                yield (result(reply_tag, NO_CONTROL, f"the control {unknown[0]} isn't known"),)
            elif request.tag == BIND:
                yield (self._bind(request),)
            elif request.tag == SEARCH:
                yield from self._search(request, controls)
            elif request.tag in CHANGES:
                yield (result(reply_tag, READ_ONLY, "this directory is only read"),)
            else:
                yield (self._extended(request),)
        except Bad as fault:
            yield (result(reply_tag, PROTOCOL, str(fault)),)
        except (Missing, NoBook) as fault:
            yield (result(reply_tag, NO_ENTRY, "there is no such entry", name=str(fault)
                          if isinstance(fault, Missing) else ""),)
        except Error:
            yield (result(reply_tag, AWAY, "the contact server doesn't answer; try again"),)
        except UNREADABLE as fault:
            say(f"{self.users.path}: {fault}")
            self.who, self._accounts, self._pages = Who("", {}), None, None
            yield (result(reply_tag, AWAY, "the file of users can't be read: the log says why"),)

    # Who it is.

    def _bind(self, request: Element) -> bytes:
        version, name, method = self._parts(request, 3)
        self.who, self._bound, self._pages = self._nobody(), None, None
        if version.number() != 3:
            return result(BIND_REPLY, PROTOCOL, "this is LDAP 3")
        if method.tag != 0x80:
            return result(BIND_REPLY, NO_METHOD, "bind with a name and a password")
        password = method.text()
        if not name.body and not password:
            return result(BIND_REPLY, OK)
        if not password:
            return result(BIND_REPLY, READ_ONLY, "a password is needed")  # RFC 4513, 5.1.2
        if not self.is_private:
            return result(BIND_REPLY, NOT_PRIVATE, "begin with StartTLS: no password without TLS"
                          if self.may_start else "no password without TLS: ldap --cert, "
                          "--certificate, or --plain-passwords")
        accounts = self.users.accounts()  # if it changes from here on, the next request looks it up
        try:
            self.who = self._user(user_of(name.text()), password)
            own = accounts.get(self.who.user)
            self._accounts, self._bound = accounts, (self.who.user, own) if own else None
        except Refusal as refusal:
            return result(BIND_REPLY, BUSY if refusal.status == 429 else WRONG_PASSWORD,
                          refusal.words)
        return result(BIND_REPLY, OK)

    def _user(self, name: str, password: str) -> Who:
        """The user of this password, or of this token."""
        who = readers.find(self.users, f"/ldap/{password}", {}, "")
        if who and who.user == name:
            return who
        pair = base64.b64encode(f"{name}:{password}".encode()).decode()
        return self.users.find({"authorization": f"Basic {pair}"}, self.peer)

    def _extended(self, request: Element) -> bytes:
        parts = request.children() if request.tag == EXTENDED else []
        if parts and parts[0].tag == 0x80 and parts[0].text() == WHO_AM_I:
            own = f"u:{self.who.user}" if self.who.user else ""
            return result(EXTENDED_REPLY, OK, "", ber.text(own, 0x8B))
        if parts and parts[0].tag == 0x80 and parts[0].text() == START_TLS:
            return self._start_tls(len(parts))
        return result(EXTENDED_REPLY, PROTOCOL, "this request isn't known")

    def _start_tls(self, count: int) -> bytes:
        """RFC 4511, 4.14: who begins TLS is nobody until the next bind."""
        name = ber.text(START_TLS, 0x8A)
        if self.has_tls:
            return result(EXTENDED_REPLY, ORDER, "there is TLS already", name)
        if not self.may_start:
            return result(EXTENDED_REPLY, PROTOCOL, "there is no StartTLS: ldap --certificate",
                          name)
        if count > 1:
            return result(EXTENDED_REPLY, PROTOCOL, "StartTLS has no value", name)
        self.starts = True
        return result(EXTENDED_REPLY, OK, "", name)

    def started(self) -> None:
        """TLS has begun. What was said before it, anybody between may have said."""
        self.starts, self.may_start, self.has_tls, self.is_private = False, False, True, True
        self._bound, self._pages, self._accounts = None, None, None
        try:
            self._look_up()
        except UNREADABLE:
            self.who = Who("", {})  # each request says so

    # Searches.

    def _parts(self, request: Element, count: int) -> List[Element]:
        parts = request.children()
        if len(parts) < count:
            raise Bad("the request has too few parts")
        return parts[:count]

    def _search(self, request: Element,
                controls: Dict[str, Tuple[bool, bytes]]) -> Iterator[Tuple[bytes, ...]]:
        base, scope, _, most, _, types_only, test, wanted = self._parts(request, 8)
        names = wanted.children()
        if len(names) > NAMES_MAX:
            raise Bad(f"at most {NAMES_MAX} attributes are given")
        asked = Asked(base.text(), scope.number(), most.number(), not any(types_only.body),
                      [it.text() for it in names], test)
        if asked.scope not in (0, 1, 2) or asked.most < 0:
            raise Bad("a scope is 0, 1 or 2, and a limit no negative number")
        if not self.who.rights and (asked.base or asked.scope):
            yield (result(DONE, NO_RIGHT, "bind with a name and a password first, or come from an "
                          "address that may read: carddav user add NAME --from 10.0.0.0/8"),)
            return
        if PAGES in controls:
            yield from self._paged(asked, controls[PAGES][1])
            return
        left = most_of_reply = min(asked.most or MOST, MOST)
        for entry in self._found(asked):
            if not left:
                yield (too_many(most_of_reply),)
                return
            left -= 1
            yield (written(entry, asked),)
        yield (result(DONE, OK),)

    def _found(self, asked: Asked) -> Iterator[Entry]:
        test = test_of(asked.filter, self.directory.shelf.country)
        entries = self.directory.find(self.who.rights, asked.base, asked.scope)
        return (it for it in entries if test(it))

    def _paged(self, asked: Asked, value: bytes) -> Iterator[Tuple[bytes, ...]]:
        """RFC 2696. One search at a time is read in pages."""
        size, cookie = self._parts(ber.read(value)[0], 2)
        count, kept, self._pages = size.number(), self._pages, None
        if cookie.body and not (kept and secrets.compare_digest(kept.cookie, cookie.body)
                                and kept.asked == asked):
            yield (result(DONE, READ_ONLY, "this isn't the page of a search that goes on"),)
            return
        if kept and cookie.body:
            left, has_more = kept.left, kept.has_more
        else:
            left = list(self._found(asked))
            has_more = 0 < asked.most < len(left)
            left = left[:asked.most] if has_more else left
        if count <= 0:  # the rest isn't wanted
            left, has_more = [], False
        page, rest = left[:min(count, MOST)], left[min(count, MOST):]
        for entry in page:
            yield (written(entry, asked),)
        if rest:
            self._pages = Pages(secrets.token_bytes(16), asked, rest, has_more)
        end = too_many(asked.most) if has_more and not rest else result(DONE, OK)
        yield end, page_control(self._pages.cookie if self._pages else b"")


def too_many(most: int) -> bytes:
    return result(DONE, TOO_MANY, f"there are more than {most}")


def page_control(cookie: bytes) -> bytes:
    """The control of a page's end (RFC 2696, 2), with what the next page is asked by."""
    value = ber.write(ber.SEQUENCE, ber.number(0), ber.write(ber.OCTETS, cookie))
    return ber.write(0xA0, ber.write(ber.SEQUENCE, ber.text(PAGES), ber.write(ber.OCTETS, value)))


def user_of(name: str) -> str:
    """The user that a name is: `ann`, or the first part of `uid=ann,o=office`."""
    parts = parts_of(name) if "=" in name else None
    return parts[0][1] if parts else name


def result(tag: int, code: int, words: str = "", *more: bytes, name: str = "") -> bytes:
    return ber.write(tag, ber.number(code, ber.ENUMERATED), ber.text(name), ber.text(words), *more)


def written(entry: Entry, asked: Asked) -> bytes:
    """The entry with the attributes that are wanted, by the names under which they are."""
    names: Dict[str, str] = {}
    for it in asked.wanted or ["*"]:
        if it == "*":
            names.update({key: own for key, (own, _) in entry.values.items()})
        elif attribute(it) in entry.values:
            names[attribute(it)] = it
    rows = [ber.write(ber.SEQUENCE, ber.text(name), ber.write(ber.SET, *(
        ber.text(it) for it in entry.get(key) if asked.has_values)))
        for key, name in names.items()]
    return ber.write(ENTRY, ber.text(entry.dn), ber.write(ber.SEQUENCE, *rows))
