"""Groups as CATEGORIES of people's cards, for programs that know no others: texts alone.

A card's own categories are values of lines that the server stores. Names of groups come behind
them, in the same line, since some programs read one line. When the line comes back, each name is
told apart: a stored value stays in its stored line, and the others are groups.
"""

import re
from typing import Dict, Iterable, List, NamedTuple, Optional, Set

import vcard3
from tosculai import lines_of

from gateway import cards
from gateway.cards import BadText, bare_uid, name_of
from gateway.values import CONTROLS, parts_of, unescaped

FORM = "1"  # changes with each change of how names are shown, since ETags depend on it
NAME_MAX = 1000  # octets of a group's name; a longer one is shown as no category
SHOWN_MAX = 200  # groups of a person that are shown
NEW_MAX = 100  # groups that an edit may join


class Team(NamedTuple):
    """A group of the book: its name as a category, or "", and its members' bare UIDs."""

    name: str
    members: Set[str]


def team_of(text: str) -> Optional[Team]:
    """The group that a stored card is, if it is one."""
    lines = lines_of(text)
    if not is_group(lines):
        return None
    names = [category(value_of(it)) for it in lines if name_of(it) == "FN"]
    name = next((it for it in names if it), "")
    found = map(cards.MEMBER.fullmatch, lines)
    return Team(name if len(name.encode()) <= NAME_MAX else "",
                {bare_uid(it.group(2)) for it in found if it})


def is_group(lines: List[str]) -> bool:
    kind = next((value_of(it) for it in lines if name_of(it) == "KIND"), "")
    return kind.strip().lower() == "group"


def value_of(text: str) -> str:
    line = vcard3.read_line(text)
    return line.value if line else text.partition(":")[2]


def category(value: str) -> str:
    """The name that an escaped value is, in one line, so that programs give it back as it was."""
    return " ".join(CONTROLS.sub(" ", unescaped(value)).split())


def escaped(name: str) -> str:
    return re.sub(r"([\\,;])", r"\\\1", name)


def is_categories(line: str) -> bool:
    return name_of(line) == "CATEGORIES"


def raw_values(lines: Iterable[str]) -> List[str]:
    """The values of all lines of categories, as they are written."""
    return [it for line in lines if is_categories(line) for it in parts_of(value_of(line), ",")]


def with_names(text: str, names: List[str]) -> str:
    """The stored card as it is shown to a program: with one line of categories, if any."""
    lines = lines_of(text)
    places = [at for at, it in enumerate(lines) if is_categories(it)]
    if not names and len(places) < 2:
        return text
    own = [it for it in raw_values(lines) if category(it)]
    have = set(map(category, own))
    whole = "CATEGORIES:" + ",".join([*own, *(escaped(it) for it in names if it not in have)])
    rest = [it for it in lines if not is_categories(it)]
    rest.insert(places[0] if places else len(rest) - 1, whole)
    return "".join(map(vcard3.folded, rest))


class Edit(NamedTuple):
    """What a program made of a card: the card without groups, and groups to join and to leave."""

    text: str
    joins: List[str]
    leaves: List[str]


def edit_of(text: str, base: str, names: List[str]) -> Edit:
    """The edit of a card that was shown with these names of groups; `base` is the stored card."""
    lines = lines_of(text)
    sent: Dict[str, None] = dict.fromkeys(filter(None, map(category, raw_values(lines))))
    as4 = any(it.upper() == "VERSION:4.0" for it in lines)
    stored = lines_of(cards.written(base, as4)) if base else []
    own = set(map(category, raw_values(stored)))
    joins = [it for it in sent if it not in own and it not in names]
    if len(joins) > NEW_MAX:
        raise BadText(f"a card joins at most {NEW_MAX} groups at once")
    if any(len(it.encode()) > NAME_MAX for it in joins):
        raise BadText(f"a group's name has at most {NAME_MAX:,} octets")
    kept = [_without(it, own - set(sent)) for it in stored if is_categories(it)]
    rest = [it for it in lines if not is_categories(it)]
    rest[-1:-1] = [it for it in kept if it]
    return Edit("".join(it + "\r\n" for it in rest), joins, [it for it in names if it not in sent])


def _without(text: str, gone: Set[str]) -> str:
    """A stored line of categories without these; an empty text if nothing is left of it."""
    values = raw_values([text])
    kept = [it for it in values if category(it) not in gone]
    line = vcard3.read_line(text)
    if len(kept) == len(values) or not line:
        return text
    return line._replace(value=",".join(kept)).text() if any(map(category, kept)) else ""


def new_team(uid: str, name: str, member: str) -> str:
    """The card of a new group."""
    return "".join(map(vcard3.folded, [
        "BEGIN:VCARD", "VERSION:4.0", f"UID:{uid}", "KIND:group", f"FN:{escaped(name)}",
        f"MEMBER:{member}", "END:VCARD"]))


def joined(text: str, member: str) -> str:
    """The group with one more member."""
    lines = lines_of(text)
    lines.insert(len(lines) - 1, f"MEMBER:{member}")
    return "".join(it + "\r\n" for it in lines)


def left(text: str, bare: str) -> str:
    """The group without this member."""
    found = ((it, cards.MEMBER.fullmatch(it)) for it in lines_of(text))
    return "".join(line + "\r\n" for line, it in found if not it or bare_uid(it.group(2)) != bare)
