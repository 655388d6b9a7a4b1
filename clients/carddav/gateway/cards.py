"""Cards as CardDAV clients read and write them, and as the server keeps them.

The server keeps vCard 4.0. Phones read and write 3.0; `clients/python/vcard3.py` converts it. An
edit is merged into the stored card line by line: a line that says the same as before stays as it
was, octet for octet, however the program spells it. Here is that merge for 4.0, and what CardDAV
needs besides: members of groups, cards without UID or FN, lines that a program leaves out.
"""

import functools
import hashlib
import re
from collections import Counter
from typing import Callable, Dict, Hashable, List, Set

import vcard3
from tosculai import UID, lines_of, uid_of

from .values import parts_of

FORM = "3"  # changes with each change of what clients read of a card, since ETags depend on it
MEMBER = re.compile(r"((?:[\w-]+\.)?(?:X-ADDRESSBOOKSERVER-)?MEMBER(?:;[^:]*)?:)(.*)")
URI = re.compile(r"[A-Za-z][A-Za-z0-9+.-]*:.")
X_NAME = re.compile(r"X-[A-Z0-9-]+")
URN = "urn:uuid:"
LINES_MAX = 65_536  # as many of the shortest lines have the octets of the largest card
CACHED = 2048  # characters of a card whose 3.0 text is kept in memory
# What the server takes as a line (RFC 6350, 3.3).
LINE = re.compile(r"(?:[\w-]+\.)?[\w-]+(?:;[\w-]+=(?:\"[^\"]*\"|[^\";:,]*)"
                  r"(?:,(?:\"[^\"]*\"|[^\";:,]*))*)*:.*", re.DOTALL | re.ASCII)
CONTROLS = re.compile(r"[\x00-\x08\x0a-\x1f\x7f]")
# Lines that only programs read: see `_with_shown`, and unseen.py.
SHOWN, READ = "X-TOSCULAI-SHOWN", "X-TOSCULAI-READ"
# Properties that each program shows and edits: one that is left out was removed by its user.
COMMON = {"BEGIN", "END", "VERSION", "UID", "PRODID", "REV", "FN", "N", "NICKNAME", "TEL", "EMAIL",
          "ADR", "ORG", "TITLE", "NOTE", "URL", "BDAY", "PHOTO", "KIND", "MEMBER",
          "X-ADDRESSBOOKSERVER-KIND", "X-ADDRESSBOOKSERVER-MEMBER", SHOWN, READ}


def is_version4(text: str) -> bool:
    return re.search(r"^VERSION:\s*4\.0\s*$", text, re.MULTILINE | re.IGNORECASE) is not None


class BadText(ValueError):
    """A text that is no card; the message says why."""


class TooLarge(BadText):
    """A card that no card of the server can hold, whatever is kept beside it."""


class OldVersion(BadText):
    """A card of vCard 2.1, or of a version that nobody knows."""


def etag_of(version: int, text: str) -> str:
    """An ETag. A version alone isn't enough: it comes again once the server was restored."""
    digest = hashlib.sha256((FORM + text).encode()).hexdigest()
    return f'"{version}-{digest[:12]}"'


# What clients read.

def written(text: str, as4: bool) -> str:
    """The card as a client reads it. A group names its members as `urn:uuid:UID`."""
    if not as4:
        return _older(text) if len(text) <= CACHED else _older.__wrapped__(text)
    return _with_shown(_with_members(text, _long_member))


@functools.lru_cache(maxsize=4096)
def _older(text: str) -> str:
    return _with_shown(_with_members(vcard3.write(text), _long_member))


def _with_shown(text: str) -> str:
    """The text with one more line, which names its X- lines, if it has any.

    No program knows that line. So one that sends it back sends back what it doesn't know, and a
    line that is named there and isn't sent back was removed by the program's user.
    """
    if "\nX-" not in text and ".X-" not in text:
        return text
    names = sorted(it for it in uncommon(text) if it.startswith("X-"))
    head, end, rest = text.rpartition("END:VCARD")
    line = vcard3.folded(f"{SHOWN}:{','.join(names)}")
    return head + line + end + rest if names else text


def _shown(lines: List[str]) -> Set[str]:
    """The names of the lines with which a card was shown, if its program says so."""
    found = (it.partition(":")[2].upper() for it in lines if name_of(it) == SHOWN)
    return {name for it in found for name in X_NAME.findall(it)}


def partial(text: str, names: Set[str]) -> str:
    """The lines of a card that a client asks for, and those that a card must have."""
    keep = names | {"BEGIN", "END", "VERSION", "UID", "FN", "N"}
    return "".join(vcard3.folded(it) for it in lines_of(text) if name_of(it) in keep)


# What clients write.

def newer(text: str, base: str, has: Callable[[str], bool], uid: str,
          knows: Callable[[str], bool]) -> str:
    """The card, as 4.0, that a client sends; `base` is the stored card that it edited, or "".

    `has` says whether the book has a card, `uid` is for a card that has none, and `knows` says
    whether the program would have sent a property of this name.
    """
    framed = _framed(text)
    lines = [it for it in framed if name_of(it) not in (SHOWN, READ)]
    shown, as4 = _shown(framed), "VERSION:4.0" in lines
    _give_uid(lines, base, uid)
    _give_name(lines, lines_of(base))
    if base:
        lines[-1:-1] = left_out(lines, lines_of(written(base, as4)),
                                lambda it: it in shown or knows(it))
    lines = _with_stored_members(lines, lines_of(base), has)
    if as4:
        whole = merged(lines, lines_of(base))
    else:
        whole = lines_of(vcard3.read("".join(it + "\r\n" for it in lines), base))
    return _repaired(whole, lines_of(base))


def _framed(text: str) -> List[str]:
    """The lines of one card of a version that is known, with VERSION in the second line."""
    lines = lines_of(text)
    if len(lines) > LINES_MAX:
        raise BadText(f"a card has at most {LINES_MAX:,} lines")
    if lines[:1] != ["BEGIN:VCARD"] or lines[-1:] != ["END:VCARD"]:
        raise BadText("a card begins with BEGIN:VCARD and ends with END:VCARD")
    if lines.count("END:VCARD") > 1 or lines.count("BEGIN:VCARD") > 1:
        raise BadText("there is more than one card")
    versions = [it for it in lines if name_of(it) == "VERSION"]
    if len(versions) != 1:
        raise BadText("a card has one VERSION line")
    version = versions[0].partition(":")[2].strip()
    if version not in ("3.0", "4.0"):
        raise OldVersion(f"vCard {version[:20]} isn't taken; 3.0 and 4.0 are")
    lines.remove(versions[0])
    lines.insert(1, "VERSION:" + version)
    return lines


def _give_uid(lines: List[str], base: str, uid: str) -> None:
    """A card without UID gets one; one whose UID is only spelled otherwise keeps its own."""
    at = [number for number, it in enumerate(lines) if name_of(it) == "UID"]
    own = uid_of("\n".join(lines))
    if not own:
        for number in reversed(at):
            del lines[number]
        lines.insert(-1, "UID:" + (uid_of(base) if base else uid))
    elif base and bare_uid(own) == bare_uid(uid_of(base)):
        kept = next(it for it in lines_of(base) if UID.fullmatch(it))
        lines[at[0]] = kept


def bare_uid(uid: str) -> str:
    """A UID without escapes, and without the `urn:uuid:` that some programs add or leave out."""
    bare = re.sub(r"\\(.)", r"\1", uid)
    return bare[len(URN):] if bare.lower().startswith(URN) else bare


def _give_name(lines: List[str], base: List[str]) -> None:
    """A card without FN gets one, and an empty FN the same name, unless the base's is empty too."""
    at = [number for number, it in enumerate(lines) if name_of(it) == "FN"]
    if not at:
        lines.insert(2, "FN:" + _made_name(lines))
    elif not _is_named(lines) and (not base or _is_named(base)):
        lines[at[0]] = lines[at[0]].partition(":")[0] + ":" + _made_name(lines)


def _is_named(lines: List[str]) -> bool:
    """Whether a card has an FN that isn't empty."""
    found = [vcard3.read_line(it) for it in lines if name_of(it) == "FN"]
    return any(line and line.value.strip() for line in found)


def _made_name(lines: List[str]) -> str:
    """A name for a card without one: a card must have one, and no phone's card is refused for it."""
    found = [line for line in map(vcard3.read_line, lines) if line]
    names = [_name_in(line) for it in ("N", "ORG", "EMAIL", "TEL") for line in found
             if line.name == it]
    return next((it for it in names if it), "")


def _name_in(line: vcard3.Line) -> str:
    """The name that a line gives: of N the given and the family name, of ORG the organization."""
    if line.name in ("EMAIL", "TEL"):
        return line.value.strip()
    parts = parts_of(line.value, ";")
    if line.name == "ORG":
        return parts[0].strip()
    words = [it for part in reversed(parts[:2]) for it in parts_of(part, ",")]
    return " ".join(" ".join(words).split())


def left_out(lines: List[str], base: List[str], knows: Callable[[str], bool]) -> List[str]:
    """The lines of the base that the program left out since it doesn't know them.

    Whether a program sends back what it doesn't know differs. So a property that it has never sent
    in any card wasn't removed by its user, unless `_with_shown` tells more. A line of a group of
    lines (`item1.X-ABLABEL`) only stays while another line of that group does: else it would name
    whatever gets the group next.
    """
    here = {key_of(it) for it in lines}
    names = {name_of(it) for it in lines}
    groups = {group_of(it) for it in base if group_of(it) and key_of(it) in here}
    return [it for it in base
            if name_of(it) not in COMMON and name_of(it) not in names and key_of(it) not in here
            and not knows(name_of(it)) and (not group_of(it) or group_of(it) in groups)]


def uncommon(text: str) -> Set[str]:
    """The names of a text's properties that not every program knows."""
    return {name_of(it) for it in lines_of(text)} - COMMON


def merged(lines: List[str], base: List[str]) -> List[str]:
    """The lines of an edited 4.0 text; those that say the same as before stay as they were.

    A new line takes the place of one that is gone and has the same name.
    """
    left = Counter(map(key_of, lines))
    whole: List[str] = []
    free: Dict[str, List[int]] = {}
    for old in base:
        if left[key_of(old)]:
            left[key_of(old)] -= 1
            whole.append(old)
        else:
            free.setdefault(name_of(old), []).append(len(whole))
            whole.append("")
    new: List[str] = []
    for line in reversed(lines):  # of lines that say the same, the first ones are those of before
        if left[key_of(line)]:
            left[key_of(line)] -= 1
            new.append(line)
    for line in reversed(new):
        places = free.get(name_of(line))
        if places:
            whole[places.pop(0)] = line
        else:
            whole.insert(len(whole) - 1 if base else len(whole), line)
    return [it for it in whole if it]


def name_of(text: str) -> str:
    """The name of a line's property."""
    head = re.split("[:;]", text, 1)[0]
    return head.rpartition(".")[2].upper()


def group_of(text: str) -> str:
    """The group of a line, or an empty text."""
    return re.split("[:;]", text, 1)[0].rpartition(".")[0].lower()


def key_of(text: str) -> Hashable:
    """What two lines of 4.0 have in common if they say the same."""
    line = vcard3.read_line(text)
    if not line:
        return vcard3.key_of(text)
    kind = [it.lower() for it in line.get("VALUE")]
    params = line.params
    if kind in (["text"], ["utc-offset"]):
        params = [it for it in params if it[0] != "VALUE"]
    if line.name == "MEMBER":
        line = line._replace(value=bare_uid(line.value))
    exact = tuple(sorted((param, *values) for param, values in params
                         if param in ("LABEL", "SORT-AS")))
    return vcard3.key_of(line._replace(params=params).text()), exact


# Members.

def _long_member(uid: str) -> str:
    """A member as programs expect it."""
    return uid if URI.match(uid) else URN + uid


def _with_stored_members(lines: List[str], base: List[str],
                         has: Callable[[str], bool]) -> List[str]:
    """The lines with members as the base spells them; new ones by UID alone, if the book has it."""
    stored: Dict[str, List[str]] = {}
    for found in map(MEMBER.fullmatch, base):
        if found:
            stored.setdefault(bare_uid(found.group(2)), []).append(found.group(2))

    def change(member: str) -> str:
        bare = bare_uid(member)
        if stored.get(bare):
            return stored[bare].pop(0)
        return bare if not has(member) and has(bare) else member

    return [_with_member(it, change) for it in lines]


def _with_member(line: str, change: Callable[[str], str]) -> str:
    found = MEMBER.fullmatch(line)
    return found.group(1) + change(found.group(2)) if found else line


def _with_members(text: str, change: Callable[[str], str]) -> str:
    if "MEMBER" not in text:
        return text
    return "".join(vcard3.folded(_with_member(it, change)) for it in lines_of(text))


def _repaired(lines: List[str], base: List[str]) -> str:
    """Keeps new lines that 4.0 doesn't allow under another name, without control characters."""
    old = set(base)
    clean = [it if it in old else CONTROLS.sub("", it) for it in lines]
    return "".join(("" if it in old or LINE.fullmatch(it) else "X-UNREADABLE:") + it + "\r\n"
                   for it in clean)
