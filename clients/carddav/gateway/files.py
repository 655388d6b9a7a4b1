"""Large files within the texts of cards, as photos: taken out of a text, so that little is copied.

A photo of ten megabytes that is read, merged, converted and folded like any other line is in memory
a dozen times. So it is taken out of the octets that a client sends, and a mark stands in its place
while the card is handled. Two lines with one mark have the same octets, however they are spelled.
"""

import base64
import binascii
import hashlib
import re
import secrets
from typing import Dict, Iterator, List, NamedTuple, Optional, Tuple

import vcard3

APART = 65_536  # octets above which a file is taken out of a text
LONG = APART * 4 // 3  # which a line has that holds such a file
SMALL = 2_048  # characters of a value that isn't worth a file
HEAD_MAX = 4_096  # octets of a line before its file
CHUNK = 262_144  # octets of base64 that are read at once
FOLDED = 148 * 1_000  # octets of base64 that are written at once, of lines of 74
SPACES = b" \t\r\n"
LINE_END = re.compile(rb"\n(?![ \t])")
FOLD = re.compile(rb"\r?\n[ \t]")
DATA = re.compile(r"data:\w+/[\w.+-]+(?:;[^,]*)?;base64,", re.IGNORECASE)
NONCE = secrets.token_hex(8)  # so that no client can write a mark
MARK = re.compile(rf"~{NONCE}~([0-9a-f]{{64}})~")


class File(NamedTuple):
    """A file that is in base64 within some octets, from `start` to `end`, maybe with folds."""

    digest: str  # its SHA-256
    size: int  # in octets
    text: bytes
    start: int
    end: int

    def pieces(self) -> Iterator[bytes]:
        return decoded(self.text, self.start, self.end)

    def encoded(self) -> str:
        return self.text[self.start:self.end].translate(None, SPACES).decode("ascii")


Files = Dict[str, File]  # by digest


def mark_of(digest: str) -> str:
    return f"~{NONCE}~{digest}~"


def decoded(text: bytes, start: int, end: int) -> Iterator[bytes]:
    """The octets that base64 spells, piece by piece. Raises binascii.Error if it is none."""
    left, is_over = b"", False
    for at in range(start, end, CHUNK):
        left += text[at:min(at + CHUNK, end)].translate(None, SPACES)
        whole = len(left) // 4 * 4 if at + CHUNK < end else len(left)
        piece, left = left[:whole], left[whole:]
        if piece and is_over:
            raise binascii.Error("there is more after the end")
        is_over = is_over or b"=" in piece
        yield base64.b64decode(piece, validate=True)


def file_of(text: bytes, start: int = 0, end: Optional[int] = None) -> Optional[File]:
    """The file that base64 within these bounds spells, if it is any."""
    end = len(text) if end is None else end
    digest, size = hashlib.sha256(), 0
    try:
        for piece in decoded(text, start, end):
            digest.update(piece)
            size += len(piece)
    except binascii.Error:
        return None
    return File(digest.hexdigest(), size, text, start, end)


# Out of a text.

def taken_out(text: bytes) -> Tuple[bytes, Files]:
    """The text with a mark in place of each large file, and these files."""
    if len(text) <= LONG:
        return text, {}
    files: Files = {}
    pieces, done = [], 0
    for start, end in _long_lines(text):
        found = _file_within(text, start, end)
        if found:
            files[found.digest] = found
            pieces += [text[done:found.start], mark_of(found.digest).encode()]
            done = found.end
    return (b"".join([*pieces, text[done:]]) if files else text), files


def _long_lines(text: bytes) -> Iterator[Tuple[int, int]]:
    """Where each long line begins and ends, with its folds."""
    at = 0
    while at < len(text):
        found = LINE_END.search(text, at)
        end = found.start() if found else len(text)
        if end - at > LONG:
            yield at, end
        at = end + 1


def _file_within(text: bytes, start: int, end: int) -> Optional[File]:
    """The file of a line, if it has one that is large."""
    raw = text[start:min(end, start + HEAD_MAX)]
    head = FOLD.sub(b"", raw).decode("latin-1")
    line = vcard3.read_line(head)
    found = DATA.match(line.value) if line else None
    if not line or not found and not (line.name in vcard3.BINARY and line.get("ENCODING")):
        return None
    before = len(head) - len(line.value) + (found.end() if found else 0)
    file = file_of(text, start + _with_folds(raw, before), end)
    return file if file and file.size > APART else None


def _with_folds(raw: bytes, count: int) -> int:
    """How many octets have so many without folds."""
    for fold in FOLD.finditer(raw):
        if fold.start() >= count:
            break
        count += fold.end() - fold.start()
    return count


# Within a line.

class Value(NamedTuple):
    """A line of 4.0 whose value has the octets of a file, or a mark for them, within."""

    head: str  # the line up to its value
    before: str  # the value up to the octets
    kind: str  # as image/jpeg
    digest: str
    size: int
    file: Optional[File]  # unless it is kept elsewhere

    @property
    def key(self) -> str:
        """What two lines have in common that have the same file in the same way."""
        return self.head + self.digest

    def line(self) -> str:
        """The line with a mark for its octets."""
        return self.head + self.before + mark_of(self.digest)


def value_of(line: str, files: Files) -> Optional[Value]:
    """The file of a line, if there is one that is worth to be kept beside."""
    mark = MARK.search(line)
    if not mark and len(line) < SMALL or ":" not in line:
        return None
    read = vcard3.read_line(line)
    found = vcard3.DATA.fullmatch(read.value) if read else None
    if not read or not found:
        return None
    octets = found.group(3)
    file = files.get(mark.group(1)) if mark else file_of(octets.encode("ascii", "replace"))
    if not file or mark and mark.group() != octets:
        return None
    return Value(line[:len(line) - len(read.value)], read.value[:len(read.value) - len(octets)],
                 f"{found.group(1)}/{found.group(2)}", file.digest, file.size, file)


def with_octets(line: str, files: Files) -> str:
    """The line with the octets of its files in place of marks; a KeyError if one is unknown."""
    return MARK.sub(lambda it: files[it.group(1)].encoded(), line) if NONCE in line else line


def octets_of(line: str, files: Files) -> int:
    """The octets of a line, folded, with those of its files."""
    if NONCE not in line:
        return len(vcard3.folded(line).encode())
    found = [files[it].size for it in MARK.findall(line) if it in files]
    size = len(MARK.sub("", line).encode()) + sum(-(-it // 3) * 4 for it in found)
    return size + max(0, -(-(size - 75) // 74)) * 3 + 2


# Into a text.

def with_whole_marks(lines: List[str]) -> str:
    """The text of these lines, folded, but for marks: each begins after a fold."""
    made = []
    for line in lines:
        found = MARK.search(line) if NONCE in line else None
        if found:
            head, rest = line[:found.start()], line[found.end():]
            made.append(vcard3.folded(head)[:-2] + found.group() + rest + "\r\n")
        else:
            made.append(vcard3.folded(line))
    return "".join(made)


def encoded(octets: bytes) -> str:
    return base64.b64encode(octets).decode("ascii")


def folded(octets: Iterator[bytes], line_end: str) -> Iterator[bytes]:
    """The base64 of a file, each line of it after a fold."""
    fold = (line_end + " ").encode()
    for piece in octets:
        text = base64.b64encode(piece)
        yield fold + fold.join(text[at:at + 74] for at in range(0, len(text), 74))
