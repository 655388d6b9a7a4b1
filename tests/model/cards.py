"""Cards: vCard 4.0 texts, read and written in their canonical form (RFC 6350).

Reading is liberal in line ends and folds and strict in the rest. A text that is no card has the
number of its first fault.
"""

import re
from collections import namedtuple

OCTETS_MAX = 262_144
UID_MAX = 255
LINE_MAX = 75

# The causes for which a text is no card.
TOO_LONG, NOT_UTF8, BAD_CHAR, BAD_LINE, NO_BEGIN, BAD_VERSION = range(1, 7)
NO_END, NO_NAME, NO_UID, BAD_UID, TWICE, MEMBER_OUTSIDE_GROUP = range(7, 13)

FORBIDDEN = re.compile("[\x00-\x08\x0a-\x1f\x7f]")
NAME = "[A-Za-z0-9-]+"
VALUE = '(?:"[^"]*"|[^";:,]*)'
PARAMETER = f"{NAME}={VALUE}(?:,{VALUE})*"
LINE = re.compile(rf"(?:({NAME})\.)?({NAME})((?:;{PARAMETER})*):(.*)", re.DOTALL)

# A line of a card: its group or None, its name in upper case, its parameters as they were read,
# each after a semicolon, and its value.
Line = namedtuple("Line", "group name params value")

# A card: its lines without the first two and the last, its UID, its kind in lower case, and its
# canonical text, in octets. Two cards are the same where their texts are.
Card = namedtuple("Card", "lines uid kind text")


class BadCard(Exception):
    """No card; `cause` is the number of the first fault."""

    def __init__(self, cause):
        super().__init__(cause)
        self.cause = cause


def read_card(octets):
    """The card that a text spells; BadCard if it spells none."""
    if len(octets) > OCTETS_MAX:
        raise BadCard(TOO_LONG)
    try:
        text = octets.decode("utf-8")
    except UnicodeDecodeError:
        raise BadCard(NOT_UTF8) from None
    texts = logical_lines(text)
    lines, ended = [], False
    for number, text in enumerate(texts, 1):
        line = read_line(number, text, ended, lines)
        ended = line.name == "END"
        if number > 2 and not ended:
            lines.append(line)
    if len(texts) < 2:
        raise BadCard(BAD_VERSION if texts else NO_BEGIN)
    if not ended:
        raise BadCard(NO_END)
    return whole_card(lines)


def card_of_values(values):
    """The card of a line for each name and value; BadCard if there is no such card."""
    lines = []
    for name, value in values:
        if FORBIDDEN.search(value):
            raise BadCard(BAD_CHAR)
        line = Line(None, name, "", value)
        check_once(line, lines)
        lines.append(line)
    return whole_card(lines)


def logical_lines(text):
    """The lines without their ends, each joined with those that continue it; none is empty."""
    first, *others = (text[1:] if text.startswith("\ufeff") else text).split("\n")
    joined = [[first]]
    for line in others:
        # A return right before a line end belongs to it; the last line has no end.
        if joined[-1][-1].endswith("\r"):
            joined[-1][-1] = joined[-1][-1][:-1]
        if line.startswith((" ", "\t")):
            joined[-1].append(line[1:])
        else:
            joined.append([line])
    return [line for line in map("".join, joined) if line]


def read_line(number, text, ended, earlier):
    """The line with this number, counted from 1; BadCard with the least of its faults.

    `ended` says whether an END came right before; `earlier` are the card's lines before this one.
    """
    if FORBIDDEN.search(text):
        raise BadCard(BAD_CHAR)
    found = LINE.fullmatch(text)
    if not found or ended:
        raise BadCard(BAD_LINE)
    line = Line(found[1], found[2].upper(), found[3], found[4])
    is_bare = not line.group and not line.params and line.value.upper() == "VCARD"
    if line.name == "BEGIN" and number > 1 or line.name == "END" and not is_bare:
        raise BadCard(BAD_LINE)
    if number == 1 and not (line.name == "BEGIN" and is_bare):
        raise BadCard(NO_BEGIN)
    is_version = line.name == "VERSION" and not line.group and line.value == "4.0"
    if (number == 2) != is_version or line.name == "VERSION" and number != 2:
        raise BadCard(BAD_VERSION)
    check_once(line, earlier)
    return line


def check_once(line, earlier):
    """A UID has its length, and no UID or KIND comes a second time."""
    if line.name == "UID" and ("\t" in line.value or not 1 <= len(line.value.encode()) <= UID_MAX):
        raise BadCard(BAD_UID)
    if line.name in ("UID", "KIND") and any(line.name == other.name for other in earlier):
        raise BadCard(TWICE)


def whole_card(lines):
    """The card of lines that are each right by themselves."""
    names = {line.name for line in lines}
    kind = "individual" if "KIND" not in names else first(lines, "KIND").lower()
    if "FN" not in names:
        raise BadCard(NO_NAME)
    if "UID" not in names:
        raise BadCard(NO_UID)
    if "MEMBER" in names and kind != "group":
        raise BadCard(MEMBER_OUTSIDE_GROUP)
    texts = ["BEGIN:VCARD", "VERSION:4.0", *map(line_text, lines), "END:VCARD"]
    octets = b"".join(fold(text.encode()) for text in texts)
    if len(octets) > OCTETS_MAX:
        raise BadCard(TOO_LONG)
    return Card(tuple(lines), first(lines, "UID"), kind, octets)


def line_text(line):
    return (line.group + "." if line.group else "") + line.name + line.params + ":" + line.value


def fold(line):
    """The line with its end, folded if it is long, but never within a character."""
    pieces, begin, room = [], 0, LINE_MAX
    while len(line) - begin > room:
        end = begin + room
        while line[end] & 0b1100_0000 == 0b1000_0000:
            end -= 1
        pieces.append(line[begin:end])
        # Each further piece begins with a space, which counts.
        begin, room = end, LINE_MAX - 1
    return b"\r\n ".join(pieces + [line[begin:]]) + b"\r\n"


def write_card(card):
    """The canonical text."""
    return card.text


def first(lines, name):
    """The value of the first line with this name, or None."""
    return next((line.value for line in lines if line.name == name), None)


def uid_of(card):
    return card.uid


def kind_of(card):
    return card.kind


def members_of(card):
    """The values of the card's MEMBER lines, as they were written."""
    return [line.value for line in card.lines if line.name == "MEMBER"]


def escape(text):
    """The value of a line that says this text."""
    return re.sub(r"([\\,;])", r"\\\1", text).replace("\n", "\\n")


def unescape(value):
    """The text that a value says; a backslash at the end is itself."""
    return re.sub(r"\\(.)", lambda it: "\n" if it[1] in "nN" else it[1], value, flags=re.DOTALL)


def components(value):
    """The texts between the semicolons that no backslash escapes."""
    pieces, escaped = [""], False
    for char in value:
        if char == ";" and not escaped:
            pieces.append("")
            continue
        pieces[-1] += char
        escaped = char == "\\" and not escaped
    return [unescape(piece) for piece in pieces]
