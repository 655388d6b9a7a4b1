"""Birthdays and anniversaries of a book as a calendar (RFC 5545), at `/birthdays/BOOK.ics`.

There is an event for each card and kind, which comes back each year. It changes only with its card:
its DTSTAMP is the card's REV, and its SEQUENCE the card's version. A day without a year begins in
2000. The 29th of February is the last day of each February.
"""

import hashlib
import re
from typing import TYPE_CHECKING, Dict, Iterator, List, NamedTuple, Tuple

from vcard3 import folded

from gateway.edits import matches
from gateway.messages import Fault, Reply
from gateway.people import Person
from gateway.values import Date, date_of

if TYPE_CHECKING:
    from gateway.feeds import Asked

CALENDAR = "text/calendar; charset=utf-8"
SOME_YEAR = 2000  # a leap year
SINCE = 1900  # before which some calendars show nothing
LONG_AGO = "19700101T000000Z"  # the DTSTAMP of a card without a REV
REV = re.compile(r"(\d{4})-?(\d\d)-?(\d\d)T(\d\d):?(\d\d):?(\d\d)(?:\.\d+)?Z?", re.ASCII)
SEQUENCE_MAX = 2 ** 31  # RFC 5545, 3.3.8: below it


class Texts(NamedTuple):
    """What an event is called; {name} and {year} stand for those of the card."""

    birthday: str = "{name}: birthday ({year})"
    anniversary: str = "{name}: anniversary ({year})"

    def summary(self, kind: str, name: str, year: int) -> str:
        text = self.birthday if kind == "BDAY" else self.anniversary
        if not year:  # a year in brackets goes with them
            text = re.sub(r"\s*[(\[]?\{year\}[)\]]?", "", text)
        # The name is put in last, so that nothing in it is replaced.
        return text.replace("{year}", str(year)).replace("{name}", name).strip()


def escaped(text: str) -> str:
    """RFC 5545, 3.3.11."""
    return re.sub(r"([\\;,])", r"\\\1", text).replace("\n", "\\n")


def event(one: Person, kind: str, date: Date, texts: Texts) -> List[str]:
    """The lines of an event."""
    digest = hashlib.sha256(f"{kind}\0{one.uid}".encode()).hexdigest()[:32]
    start = f"{max(date.year, SINCE) if date.year else SOME_YEAR:04d}{date.month:02d}{date.day:02d}"
    rule = "FREQ=YEARLY"
    if (date.month, date.day) == (2, 29):
        rule += ";BYMONTH=2;BYMONTHDAY=-1"
        start = start if date.year >= SINCE or not date.year else "19040229"
    name = one.name or one.org or "?"
    return ["BEGIN:VEVENT", f"UID:{digest}@tosculai", f"DTSTAMP:{stamp(one.revised)}",
            f"SEQUENCE:{one.version % SEQUENCE_MAX}", f"DTSTART;VALUE=DATE:{start}",
            f"RRULE:{rule}", f"SUMMARY:{escaped(texts.summary(kind, name, date.year))}",
            f"CATEGORIES:{'BIRTHDAY' if kind == 'BDAY' else 'ANNIVERSARY'}",
            "CLASS:PUBLIC", "TRANSP:TRANSPARENT", "END:VEVENT"]


def stamp(revised: str) -> str:
    found = REV.fullmatch(revised)
    if not found:
        return LONG_AGO
    year, month, day, hour, minute, second = found.groups()
    is_there = date_of(year + month + day) and year >= str(SINCE)
    is_time = hour <= "23" and minute <= "59" and second <= "59"
    return f"{year}{month}{day}T{hour}{minute}{second}Z" if is_there and is_time else LONG_AGO


def calendar(book: str, people: List[Person], texts: Texts) -> bytes:
    return "".join(folded(it) for it in _lines(book, people, texts)).encode()


def _lines(book: str, people: List[Person], texts: Texts) -> Iterator[str]:
    yield from ("BEGIN:VCALENDAR", "VERSION:2.0", "PRODID:-//Tosculai//carddav//EN",
                "CALSCALE:GREGORIAN", f"X-WR-CALNAME:{escaped(book)}",
                "REFRESH-INTERVAL;VALUE=DURATION:PT12H", "X-PUBLISHED-TTL:PT12H")
    for one in people:
        for kind, date in one.days:
            yield from event(one, kind, date, texts)
    yield "END:VCALENDAR"


class Calendars:
    """The calendars of books, each kept until its book changes."""

    def __init__(self, texts: Texts) -> None:
        self.texts = texts
        self._kept: Dict[int, Tuple[str, bytes]] = {}  # with the token of which it was made

    def reply(self, asked: "Asked") -> Reply:
        """`/birthdays/BOOK.ics`."""
        name = asked.rest[0] if len(asked.rest) == 1 else ""
        if not name.endswith(".ics"):
            raise Fault(404, "a calendar is at /birthdays/BOOK.ics")
        octets = self.of(asked, name[:-4])
        etag = f'"{hashlib.sha256(octets).hexdigest()[:20]}"'
        head = {"Content-Type": CALENDAR, "ETag": etag, "Cache-Control": "private, no-cache"}
        if matches(asked.request.field("if-none-match"), etag):
            return Reply(304, head, b"")
        return Reply(200, head, octets)

    def of(self, asked: "Asked", name: str) -> bytes:
        book = asked.book(name)
        with book.lock:
            token = book.state.token(book.number)
            kept = self._kept.get(book.number)
            if kept and kept[0] == token:
                return kept[1]
            people = [it for it in book.people().in_order() if it.days]
        octets = calendar(name, people, self.texts)
        self._kept[book.number] = token, octets
        return octets
