"""What the values of a card's lines mean to people: texts, parts, numbers and dates (RFC 6350).

The rules are those of the desk (clients/desk/site/js/values.js), so that both show the same.
"""

import re
from calendar import monthrange
from typing import Dict, Iterable, List, NamedTuple, Optional, Tuple
from urllib.parse import unquote

from vcard3 import Line, read_line

USES = ("work", "home", "cell", "fax", "pager", "video", "textphone")
EXTENSION = re.compile(r"(?:;?ext[.=]?|x)\s*([0-9]+)\s*$", re.IGNORECASE)
# Marks that turn a text's direction or can't be seen, and control characters.
UNSEEN = re.compile("[\u061c\u200b-\u200f\u202a-\u202e\u2060-\u2069\ufeff]")
CONTROLS = re.compile("[\x00-\x1f\x7f-\x9f\u2028\u2029\ufffe\uffff\ud800-\udfff]+")
DAY = re.compile(r"(\d{4}|--)-?(\d\d)-?(\d\d)", re.ASCII)
NO_YEAR = 1604  # what phones write for a day without a year, in 3.0


def lines_by_name(text: str, wanted: Iterable[str]) -> Dict[str, List[Line]]:
    """The lines of these names of a stored card, by name, the preferred ones first."""
    found: Dict[str, List[Line]] = {it: [] for it in wanted}
    for one in text.replace("\r\n ", "").split("\r\n"):
        head = one[:80].partition(":")[0].partition(";")[0]
        if head.rpartition(".")[2] in found:
            line = read_line(one)
            if line:
                found[line.name].append(line)
    for lines in found.values():
        if len(lines) > 1:
            lines.sort(key=preference)
    return found


def preference(line: Line) -> int:
    pref = line.get("PREF")[:1]
    if pref and pref[0].isdecimal() and 1 <= int(pref[0][:9]):
        return int(pref[0][:9])
    return 1 if "pref" in types_of(line) else 101


def types_of(line: Line) -> List[str]:
    return [it.strip().lower() for it in line.get("TYPE")]


def uses_of(line: Line) -> Tuple[str, ...]:
    types = types_of(line)
    return tuple(it for it in USES if it in types)


def unescaped(value: str) -> str:
    """The text of an escaped value: \\n is a line end, and a backslash before another sign goes."""
    if "\\" not in value:
        return value
    return re.sub(r"\\(.)", lambda it: "\n" if it.group(1) in "nN" else it.group(1), value,
                  flags=re.DOTALL)


def parts_of(value: str, separator: str) -> List[str]:
    """The parts between separators that aren't escaped, as written."""
    if "\\" not in value:
        return value.split(separator)
    return re.findall(rf"(?:^|{separator})((?:\\.|[^\\{separator}]|\\$)*)", value, re.DOTALL)


def component(part: str) -> str:
    """A component of N or ADR: its values, with commas between."""
    return ", ".join(it for it in map(unescaped, parts_of(part, ",")) if it)


def plain(text: str, most: int = 300) -> str:
    """The text in one line, without what can't be seen, up to some length."""
    one = " ".join(UNSEEN.sub("", CONTROLS.sub(" ", text[:4 * most])).split())
    return one if len(one) <= most else one[:most - 1] + "…"


def tel_text(line: Line) -> str:
    """A phone number as people read it, from a text or a tel: URI (RFC 3966)."""
    if line.value[:4].lower() != "tel:":
        return unescaped(line.value).strip()
    number, *rest = line.value[4:].split(";")
    ext = next((it[4:] for it in rest if it[:4].lower() == "ext="), "")
    return unquote(number) + (f" ext. {unquote(ext)}" if ext else "")


def digits_of(text: str) -> str:
    """The digits of a number, without an extension; letters and signs are left out."""
    return re.sub("[^0-9]", "", EXTENSION.sub("", text))


class Date(NamedTuple):
    year: int  # 0 for none
    month: int
    day: int


def date_of(value: str) -> Optional[Date]:
    """The day that a value of BDAY or ANNIVERSARY names, or None if it names none."""
    found = DAY.fullmatch(value.partition("T")[0])
    if not found:
        return None
    year = 0 if found.group(1) == "--" else int(found.group(1))
    date = Date(0 if year == NO_YEAR else year, int(found.group(2)), int(found.group(3)))
    if not 1 <= date.month <= 12 or not 1 <= date.day:
        return None
    return date if date.day <= monthrange(date.year or 2000, date.month)[1] else None
