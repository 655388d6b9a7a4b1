"""Edits of programs that don't say which version of a card they have read.

Thunderbird changes a card without If-Match. So each card that it reads has a line more, which names
by digests what the card said; it sends that line back, as any that it doesn't know. So whatever
others changed since, what it edited is known: what it was shown and doesn't send is gone, what it
sends and wasn't shown is new. That edit is made of the newest card. Nothing is kept here for it: it
holds for several programs of one user, for any age of what they read, and after any stop.
"""

import base64
import functools
import hashlib
import re
from collections import Counter
from typing import Counter as Counts
from typing import Iterable, List, NamedTuple, Optional, Sequence

import vcard3
from tosculai import lines_of, uid_of

from gateway.cards import FORM, READ, SHOWN, bare_uid, key_of, name_of
from gateway.categories import category, is_categories, raw_values, value_of
from gateway.files import MARK, SMALL, file_of

SAID_MAX = 2_000  # lines and categories of a card that gets the line
CACHED = 300  # characters of a line whose digest is kept in memory
WIDTH = 8  # letters of a digest
LINE = re.compile(rf"([0-9]+)-([\w-]{{{WIDTH}}})-((?:[\w-]{{{WIDTH}}}){{0,{SAID_MAX}}})",
                  re.ASCII)
SOME_LINE = re.compile(READ, re.IGNORECASE)
OCTETS = re.compile(rf"[A-Za-z0-9+/= ]{{{SMALL},}}")
# They have no line of their own in an edit.
FRAME = {"BEGIN", "END", "VERSION", "UID", SHOWN, READ}
# What a card has once: if two change it, the later one wins.
ONCE = {*vcard3.ONCE, *(vcard3.NAMES.get(it, it) for it in vcard3.ONCE), "PRODID", "PHOTO"}


class Read(NamedTuple):
    """What a program has read of a card, as its line says."""

    form: str
    card: str  # a digest of the book and the UID: a program may copy a card with its line
    said: Counts[str]

    def is_of(self, book: int, uid: str) -> bool:
        return self.card == digest(f"{book} {bare_uid(uid)}")


def digest(what: object) -> str:
    octets = hashlib.sha256(repr(what).encode("utf-8", "backslashreplace")).digest()
    return base64.urlsafe_b64encode(octets)[:WIDTH].decode()


def said_by(line: str) -> Sequence[str]:
    """Digests of what a line says: of categories, each is one."""
    return _said_by(line) if len(line) <= CACHED else _said_by.__wrapped__(line)


@functools.lru_cache(maxsize=4096)
def _said_by(line: str) -> Sequence[str]:
    if name_of(line) in FRAME:
        return []
    if is_categories(line):
        return [digest(("CATEGORIES", it)) for it in map(category, raw_values([line])) if it]
    return [digest(key_of(_with_digest(line)))]


def _with_digest(line: str) -> str:
    """The line with a digest in place of its file, which may be a mark now and not later."""
    found = MARK.search(line)
    if found:
        return line[:found.start()] + found.group(1) + line[found.end():]
    found = OCTETS.search(line, max(0, line.find(":"))) if len(line) > SMALL else None
    octets = found.group().encode() if found else b""
    file = file_of(octets) if octets else None
    return line[:found.start()] + file.digest + line[found.end():] if found and file else line


def said_in(lines: Iterable[str]) -> Counts[str]:
    return Counter(it for line in lines for it in said_by(line))


def with_line(text: str, book: int) -> str:
    """The text that is read of a card, with the line.

    A card has one already if it was imported from a program's export.
    """
    if SOME_LINE.search(text):
        rest = (it for it in lines_of(text) if name_of(it) != READ)
        text = "".join(map(vcard3.folded, rest))
    said = sorted(said_in(lines_of(text)).elements())
    if len(said) > SAID_MAX:
        return text
    line = f"{READ}:{FORM}-{digest(f'{book} {bare_uid(uid_of(text))}')}-{''.join(said)}"
    head, end, rest = text.rpartition("END:VCARD")
    return head + vcard3.folded(line) + end + rest


def read_by(text: str) -> Optional[Read]:
    """What the program has read that sends this text, if it says so."""
    if not SOME_LINE.search(text):
        return None
    values = [value_of(it).strip() for it in lines_of(text) if name_of(it) == READ]
    found = LINE.fullmatch(values[0]) if len(values) == 1 else None
    if not found:
        return None
    form, card, said = found.groups()
    return Read(form, card, Counter(said[at:at + WIDTH] for at in range(0, len(said), WIDTH)))


def edited(text: str, said: Counts[str], now: str) -> str:
    """The edit of a program that sends this text, and has read what is said, made of `now`.

    Both texts are of the same version of vCard.
    """
    lines, newest = lines_of(text), lines_of(now)
    if said_in(newest) == said:
        return text
    own = said_in(lines)
    gone, kept, new = said - own, said & own, own - said
    once = {name_of(it) for it in lines if any(new[key] for key in said_by(it))} & ONCE
    made: List[str] = []
    for line in newest:
        if name_of(line) in FRAME:
            continue
        if is_categories(line):
            line = _with_values(line, [it for it in raw_values([line])
                                       if _stays(_key(it), gone, kept, new)])
        elif not _stays(said_by(line)[0], gone, kept, new, name_of(line) in once):
            line = ""
        made += [line] if line else []
    frame = [it for it in lines if name_of(it) in FRAME]
    return "".join(it + "\r\n" for it in [*frame[:-1], *_with_new(made, lines, new), frame[-1]])


def _stays(key: str, gone: Counts[str], kept: Counts[str], new: Counts[str],
           is_once: bool = False) -> bool:
    """Whether what the newest card says stays. What is counted for it is counted down."""
    for counts, stays in (gone, False), (kept, True), (new, True):
        if counts[key] > 0:
            counts[key] -= 1
            return stays
    return not is_once


def _with_new(made: List[str], lines: List[str], new: Counts[str]) -> List[str]:
    """The lines with what is new of the program's; of categories it comes into one line."""
    values: List[str] = []
    for line in lines:
        if is_categories(line):
            values += [it for it in raw_values([line]) if _is_new(_key(it), new)]
        elif any(_is_new(it, new) for it in said_by(line)):
            made.append(line)
    at = next((at for at, it in enumerate(made) if is_categories(it)), None)
    if values and at is None:
        made.append("CATEGORIES:" + ",".join(values))
    elif values and at is not None:
        made[at] = _with_values(made[at], [*raw_values([made[at]]), *values])
    return made


def _is_new(key: str, new: Counts[str]) -> bool:
    new[key] -= 1
    return new[key] >= 0


def _key(value: str) -> str:
    return digest(("CATEGORIES", category(value)))


def _with_values(line: str, values: List[str]) -> str:
    """A line of categories with these values; an empty text if there are none."""
    read = vcard3.read_line(line)
    if not read or not values or values == raw_values([line]):
        return line if values else ""
    return read._replace(value=",".join(values)).text()
