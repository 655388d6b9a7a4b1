"""The cards of a book as short rows in memory, for phone books, callers, birthdays and searches.

They are read when they are first asked for, and then follow the book's changes one by one.
"""

import re
from typing import Dict, Iterable, List, NamedTuple, Optional, Tuple

from vcard3 import Line

from gateway.finding import Row, searched
from gateway.numbers import Numbers
from gateway.values import (Date, component, date_of, digits_of, parts_of, plain, tel_text,
                            unescaped, uses_of, lines_by_name)

WANTED = ("FN", "N", "NICKNAME", "ORG", "TITLE", "ROLE", "TEL", "EMAIL", "ADR", "NOTE", "BDAY",
          "ANNIVERSARY", "CATEGORIES", "MEMBER", "KIND", "REV")
MOST = 20  # numbers and mail addresses of a card


class Phone(NamedTuple):
    text: str
    uses: Tuple[str, ...]


class Person(NamedTuple):
    """What lists and searches need of a card. Texts are in one line."""

    uid: str
    version: int
    kind: str  # "individual", "group", "org" ..
    name: str
    family: str
    given: str
    org: str
    title: str
    mails: Tuple[str, ...]
    phones: Tuple[Phone, ...]
    members: Tuple[str, ...]
    days: Tuple[Tuple[str, Date], ...]  # with "BDAY" or "ANNIVERSARY" before each
    revised: str
    row: Row


class Named(NamedTuple):
    """Somebody who may have a number. The lowest is the likeliest."""

    ends_alike: bool  # and no more than that
    has_extension: bool
    is_person: bool
    names: str
    uid: str
    name: str


Lines = Dict[str, List[Line]]


def person_of(uid: str, version: int, text: str) -> Person:
    lines = lines_by_name(text, WANTED)
    parts = [component(it) for it in parts_of(lines["N"][0].value, ";")] if lines["N"] else []
    parts += [""] * (3 - len(parts))
    name = " ".join(_texts(lines, "FN")[:1])
    orgs = [", ".join(it for it in map(unescaped, parts_of(line.value, ";")) if it)
            for line in lines["ORG"]]
    titles = [*_texts(lines, "TITLE"), *_texts(lines, "ROLE")]
    mails = _texts(lines, "EMAIL")
    phones = tuple(Phone(plain(tel_text(it), 100), uses_of(it)) for it in lines["TEL"][:MOST])
    nicks = [component(it.value) for it in lines["NICKNAME"]]
    categories = [unescaped(it) for line in lines["CATEGORIES"] for it in parts_of(line.value, ",")]
    row = Row(searched([name, *nicks, *parts[:3]], 2000),
              searched([*orgs, *titles, *mails, *categories], 2000),
              searched([*_addresses(lines), *_texts(lines, "NOTE")], 600),
              " ".join(digits_of(it.text)[:40] for it in phones))
    return Person(
        uid, version, _first(lines, "KIND").lower() or "individual", plain(name),
        plain(parts[0]), plain(parts[1]), plain("".join(orgs[:1])), plain("".join(titles[:1])),
        tuple(plain(it) for it in mails[:MOST]), phones,
        tuple(it.value for it in lines["MEMBER"]), tuple(_days(lines)), _first(lines, "REV"), row)


def _first(lines: Lines, name: str) -> str:
    return lines[name][0].value if lines[name] else ""


def _texts(lines: Lines, name: str) -> List[str]:
    return [it for it in (unescaped(line.value).strip() for line in lines[name]) if it]


def _addresses(lines: Lines) -> Iterable[str]:
    for line in lines["ADR"]:
        label = ",".join(line.get("LABEL"))
        if label:  # with line ends by RFC 6868, or as many write them
            yield re.sub(r"\\n|\^n", " ", label, flags=re.IGNORECASE)
            continue
        parts = [component(it) for it in parts_of(line.value, ";")] + [""] * 7
        yield " ".join((*parts[:3], parts[5], parts[3], parts[4], parts[6]))


def _days(lines: Lines) -> Iterable[Tuple[str, Date]]:
    for name in "BDAY", "ANNIVERSARY":
        dates = [date_of(it.value) for it in lines[name]
                 if "text" not in [kind.lower() for kind in it.get("VALUE")]]
        found = next((it for it in dates if it), None)
        if found:
            yield name, found


class People:
    """The people of a book, by UID. Its book's lock is held while it is used."""

    def __init__(self, country: str = "") -> None:
        self.all: Dict[str, Person] = {}
        self.numbers = Numbers(country)
        self._sorted: Optional[List[Person]] = None

    def take(self, uid: str, version: int, text: str) -> None:
        """The card as it is now; one without a text is gone."""
        self._sorted = None
        old = self.all.pop(uid, None)
        if old:
            self.numbers.drop(uid, (it.text for it in old.phones))
        if text:
            new = self.all[uid] = person_of(uid, version, text)
            self.numbers.add(uid, (it.text for it in new.phones))

    def in_order(self) -> List[Person]:
        """All, by name. The list is nobody's to change."""
        if self._sorted is None:
            self._sorted = sorted_people(self.all.values())
        return self._sorted

    def named(self, tel: str) -> List["Named"]:
        """Whose number it is, the likeliest first: an office before the people in it."""
        found = [Named(ends_alike, has_extension, self.all[uid].kind != "org",
                       self.all[uid].row.names, uid, self.all[uid].name)
                 for ends_alike, has_extension, uid in self.numbers.find(tel) if self.all[uid].name]
        return sorted(found)

    def known(self, member: str) -> str:
        """The UID that a group's member names, with or without urn:uuid:; or an empty text."""
        if member in self.all:
            return member
        rest = member[9:] if member[:9].lower() == "urn:uuid:" else ""
        return rest if rest in self.all else ""

    def of_group(self, group: Person) -> List[Person]:
        """All people of a group, also of the groups in it, once each."""
        found: Dict[str, Person] = {}
        seen, queue = {group.uid}, list(group.members)
        while queue:
            uid = self.known(queue.pop())
            if uid and uid not in seen:
                seen.add(uid)
                one = self.all[uid]
                if one.kind == "group":
                    queue += one.members
                else:
                    found[uid] = one
        return list(found.values())


def sorted_people(people: Iterable[Person]) -> List[Person]:
    return sorted(people, key=lambda it: (it.row.names, it.uid))
