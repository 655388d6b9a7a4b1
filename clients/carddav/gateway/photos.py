"""Photos that are too large for a card are kept beside, by their digest.

A card has at most 262,144 octets on the server, and a phone's photo may have more. Then the photo's
octets become a file of the state folder, named by their SHA-256, and the card on the server has the
photo's address in their place:

    PHOTO:https://office.example/dav/photos/9F86../image/jpeg

The desk shows that address as a link. A CardDAV client gets the photo in full, in the card, as it
was sent: so it takes the card for its own, and doesn't send it again.
"""

import os
import re
import threading
import time
from contextlib import suppress
from typing import Dict, Iterable, Iterator, List, NamedTuple, Optional, Set

import vcard3
from tosculai import lines_of

from gateway import files
from gateway.cards import TooLarge
from gateway.files import APART, FOLDED, LONG, MARK, NONCE, File, Files, Value
from gateway.state import State

CARD_MAX = 262_144  # octets of a card on the server
SLACK = 64
NAMED = re.compile("(?:\r\n )?".join("/photos/"))  # in a text that is folded
SPACE = 2_000_000_000  # octets of photos that one user may store
PATH = re.compile(r".*/photos/([0-9a-f]{64})/(\w+)/([\w.+-]+)")
# What browsers may show; other types are only offered for download. SVG can hold scripts.
SHOWN = {"image/jpeg", "image/png", "image/gif", "image/webp"}


def named(texts: Iterable[str]) -> Set[str]:
    """The files that these cards name."""
    lines = (line for it in texts if NAMED.search(it) for line in lines_of(it))
    return {it.group(1) for it in map(PATH.fullmatch, lines) if it}


class NoRoom(Exception):
    """A photo can't be kept; the message says why."""


class Bare(NamedTuple):
    """A stored card with marks in place of its large files, and what it had in their place."""

    text: str
    lines: Dict[str, str]  # stored lines by their `Value.key`
    files: Files  # those within the card


class Fitted(NamedTuple):
    """A card for the server, and the files to keep beside it."""

    text: str
    aside: List[File]


class Photos:
    """The folder of files. `state` counts what each user has stored, if a limit is to be kept."""

    def __init__(self, path: str, state: Optional[State] = None, space: int = SPACE) -> None:
        self.path, self.state, self.space = path, state, space
        self._lock = threading.Lock()  # between a look at a file and what is done with it

    # What clients send.

    def bare(self, text: str, within: bool = True) -> Bare:
        """A stored card with marks for its large files; of those within it only if `within`.

        A small file that is beside is put into the text. One that isn't there stays an address.
        """
        found: Dict[str, str] = {}
        own: Files = {}
        if not NAMED.search(text) and not (within and len(text) > LONG):
            return Bare(text, found, own)
        lines = lines_of(text)
        for at, line in enumerate(lines):
            beside = self._beside(line) if "/photos/" in line else None
            value = beside or (files.value_of(line, {}) if within and len(line) > LONG else None)
            if value and value.size > APART:
                found[value.key], lines[at] = line, value.line()
                own.update({value.digest: value.file} if value.file else {})
            elif beside:
                octets = b"".join(self.pieces(beside.digest))
                found[beside.key] = line
                lines[at] = beside.head + beside.before + files.encoded(octets)
        return Bare("".join(it + "\r\n" for it in lines) if found else text, found, own)

    def _beside(self, line: str) -> Optional[Value]:
        """The file that a stored line names, if it is here."""
        read = vcard3.read_line(line)
        match = PATH.fullmatch(read.value) if read else None
        size = self.size(match.group(1)) if match else None
        if not read or not match or size is None:
            return None
        kind = f"{match.group(2)}/{match.group(3)}"
        return Value(line[:len(line) - len(read.value)], f"data:{kind};base64,", kind,
                     match.group(1), size, None)

    def fitted(self, text: str, bare: Bare, sent: Files, address: str) -> Fitted:
        """The card with its largest files beside it, if it is too large with them.

        `bare` is the stored card: what is beside it stays beside, under the same line.
        """
        lines, known = lines_of(text), {**bare.files, **sent}
        values = {at: it for at, it in enumerate(files.value_of(it, known) for it in lines) if it}
        for at, value in values.items():
            lines[at] = bare.lines.get(value.key, lines[at])
            known.update({value.digest: value.file} if value.file else {})
        lines = [bare.lines.get(self._key(it), it) if NONCE in it else it for it in lines]
        sizes = [files.octets_of(it, known) for it in lines]
        size, aside = sum(sizes) + SLACK, []
        for at in sorted(values, key=lambda it: -values[it].size):
            if size <= CARD_MAX:
                break
            value = values[at]
            if not PATH.fullmatch(lines[at]):
                lines[at] = f"{value.head}{address}/photos/{value.digest}/{value.kind}"
                size += files.octets_of(lines[at], known) - sizes[at]
                aside.append(known[value.digest])
        if size > 2 * CARD_MAX:  # of one that is nearer to the limit the server knows better
            raise TooLarge(f"the card has more than {CARD_MAX:,} octets, even without its photo")
        whole = "".join(files.with_octets(it, known) + "\r\n" for it in lines)
        return Fitted(whole, aside if size <= CARD_MAX else [])

    def _key(self, line: str) -> str:
        """The `Value.key` of a line whose mark is that of a file beside."""
        read, mark = vcard3.read_line(line), MARK.search(line)
        return line[:len(line) - len(read.value)] + mark.group(1) if read and mark else ""

    def keep(self, aside: Iterable[File], user: str) -> None:
        """Writes these files, which are on the disk when this returns, or raises NoRoom."""
        for file in aside:
            try:
                with self._lock:
                    self._keep(file, user)
            except OSError as fault:
                raise NoRoom(f"the photo can't be kept: {fault.strerror}") from fault

    def _keep(self, file: File, user: str) -> None:
        os.makedirs(self.path, mode=0o700, exist_ok=True)
        path = os.path.join(self.path, file.digest)
        if os.path.exists(path):
            os.utime(path)  # it is in use: see `tidy`
            return
        if self.state and self.state.stored_by(user) + file.size > self.space:
            raise NoRoom(f"{user} has stored as many photos as one user may: {self.space:,} octets")
        aside = f"{path}.{os.getpid()}-{time.monotonic_ns()}"
        try:
            with open(aside, "wb") as opened:
                opened.writelines(file.pieces())
                opened.flush()
                os.fsync(opened.fileno())
            os.replace(aside, path)
        except BaseException:
            with suppress(OSError):
                os.unlink(aside)
            raise
        if self.state:
            self.state.note_file(file.digest, user, file.size)
        folder = os.open(self.path, os.O_RDONLY)
        try:
            os.fsync(folder)
        finally:
            os.close(folder)

    # What clients read.

    def shown(self, text: str) -> str:
        """The stored card with marks for the large files that are beside it."""
        return self.bare(text, within=False).text

    def filled(self, text: str, line_end: str = "\r\n") -> Iterator[bytes]:
        """The text with its files within it again, piece by piece."""
        at = 0
        for mark in MARK.finditer(text) if NONCE in text else ():
            yield text[at:mark.start()].encode()
            yield from files.folded(self.pieces(mark.group(1)), line_end)
            at = mark.end()
        yield text[at:].encode()

    def size(self, digest: str) -> Optional[int]:
        try:
            return os.stat(os.path.join(self.path, digest)).st_size
        except FileNotFoundError:
            return None

    def pieces(self, digest: str) -> Iterator[bytes]:
        """The octets of a file that is here. A piece has a length of which 3 is a part."""
        with open(os.path.join(self.path, digest), "rb") as file:
            octets = file.read(FOLDED // 4 * 3)
            while octets:
                yield octets
                octets = file.read(FOLDED // 4 * 3)

    # What no card names any more.

    def tidy(self, named: Set[str], days: int) -> List[str]:
        """Removes the files that no card has named for so many days; returns their names.

        `named` are those that a card names now. A file's time is that at which it was kept, or last
        named here.
        """
        try:
            names = sorted(os.listdir(self.path))
        except FileNotFoundError:
            return []
        return [it for it in names if self._tidy(it, it in named, time.time() - days * 86_400)]

    def _tidy(self, name: str, is_named: bool, oldest: float) -> bool:
        path = os.path.join(self.path, name)
        with self._lock:
            if is_named:
                os.utime(path)
                return False
            if os.stat(path).st_mtime >= oldest:
                return False
            os.unlink(path)
            if self.state:
                self.state.forget_file(name)
            return True
