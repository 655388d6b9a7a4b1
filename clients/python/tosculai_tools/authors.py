"""Who made a change, from the lines that `contacts run --log` writes.

    request PUT /books/staff/cards/a status 200 octets 152 microseconds 913 user ann \
        reply {"put":"edited","version":12}

(in one line). After the target come names and values. Without `user`, a line says nobody. A line
whose reply has a version says who made it. One without it counts only if it is the card's only line
since the last round, so that nobody is named for another's change.
"""

import json
import os
import re
from collections import defaultdict
from typing import IO, DefaultDict, Dict, List, NamedTuple, Optional, Tuple
from urllib.parse import parse_qs, unquote_to_bytes

TAIL = 16_000_000  # octets of the log that are read at the start, at most
LINE = re.compile(r"(?:^|: )request (\S+) (\S+)((?: \S+ \S+)+)$")
ESCAPE = re.compile(rb"\\x([0-9a-f]{2})")
CUT = ".."  # the end of a target that was too long


class Change(NamedTuple):
    """What a line says: a card, or all cards of an import, and who changed it."""

    book: str
    uid: Optional[str]
    removes: bool
    version: Optional[int]
    user: Optional[str]


def unescaped(word: str) -> bytes:
    """A word of a line, as it was sent."""
    return ESCAPE.sub(lambda it: bytes([int(it.group(1), 16)]), word.encode())


def parts_of(target: str) -> List[str]:
    """The parts of a target's path, decoded."""
    octets = unescaped(target)
    return [unquote_to_bytes(it).decode("utf-8", "replace") for it in octets.split(b"/")]


def numbers_in(reply: str) -> Dict[str, int]:
    """The numbers in the JSON of a reply; none if it was cut."""
    try:
        value = json.loads(unescaped(reply))
    except ValueError:
        return {}
    return {name: it for name, it in value.items() if isinstance(it, int)}


def changes_of(line: str) -> List[Change]:
    """The changes that a line of the log reports."""
    found = LINE.search(line)
    if not found or found.group(2).endswith(CUT):
        return []
    method, target, words = found.group(1), found.group(2), found.group(3).split()
    fields = dict(zip(words[::2], words[1::2]))
    path, _, query = target.partition("?")
    parts = parts_of(path)
    if not fields.get("status", "").startswith("2") or parts[:2] != ["", "books"]:
        return []
    numbers = numbers_in(fields.get("reply", "{}"))
    version = numbers.get("version")
    user = unescaped(fields["user"]).decode("utf-8", "replace") if "user" in fields else None
    if len(parts) == 5 and parts[3] == "cards" and method in ("PUT", "DELETE"):
        removes = method == "DELETE"
        return [Change(parts[2], parts[4], removes, numbers.get("number") if removes else version,
                       user)]
    if len(parts) == 6 and parts[5] == "move":
        to = parse_qs(query).get("to", [""])[0]
        return [Change(parts[2], parts[4], True, numbers.get("from"), user),
                Change(to, parts[4], False, version, user)]
    if len(parts) == 4 and parts[3] == "import":
        return [Change(parts[2], None, False, None, user)]
    return []


class Authors:
    """What the log has said so far. Without a path it says nothing."""

    def __init__(self, path: Optional[str] = None) -> None:
        self._path = path
        self._file: Optional[IO[bytes]] = None
        self._rest = b""
        self._made: Dict[Tuple[str, str, int], str] = {}  # by the version
        self._recent: DefaultDict[Tuple[str, Optional[str]], List[Change]] = defaultdict(list)
        if path:
            self._open(TAIL)
            self.read()
            self.begin_round()  # the lines before the first round may be of any time

    def _open(self, tail: int = 0) -> None:
        assert self._path
        self._file = open(self._path, "rb")
        size = os.fstat(self._file.fileno()).st_size
        if tail and size > tail:
            self._file.seek(size - tail)
            self._file.readline()

    def begin_round(self) -> None:
        """Forgets the lines that count for one round alone."""
        self._recent.clear()

    def read(self) -> None:
        """Reads what was written to the log since the last time, also if it was rotated."""
        if not self._path:
            return
        self._read_file()
        try:
            now = os.stat(self._path)
        except FileNotFoundError:
            return  # it is being rotated
        own = os.fstat(self._file.fileno()) if self._file else None
        is_same = own and (now.st_ino, now.st_dev) == (own.st_ino, own.st_dev)
        if not is_same or self._file and now.st_size < self._file.tell():
            if self._file:
                self._file.close()
            self._rest = b""
            self._open()
            self._read_file()

    def _read_file(self) -> None:
        *lines, self._rest = (self._rest + (self._file.read() if self._file else b"")).split(b"\n")
        for line in lines:
            for change in changes_of(line.decode("ascii", "replace")):
                self._recent[change.book, change.uid].append(change)
                if change.user and change.uid and change.version is not None:
                    self._made[change.book, change.uid, change.version] = change.user

    def who(self, book: str, uid: str, version: int, removes: bool) -> Optional[str]:
        """Who made this version of a card, or removed it; None if the log doesn't say it."""
        made = None if removes else self._made.get((book, uid, version))
        if made:
            return made
        own = [it for it in self._recent.get((book, uid), ()) if it.removes == removes]
        if not own and not removes:
            own = self._recent.get((book, None), [])
        only = own[0] if len(own) == 1 else None
        return only.user if only and (only.version is None or removes) else None
