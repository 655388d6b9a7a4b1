"""Cards as vCard 3.0 (RFC 2426) for phones, and back as vCard 4.0 (RFC 6350) without loss.

`write` makes a 3.0 text of a card. It leaves out what 3.0 can't say. `read` gives the card of such
a text, which may have been edited since. It compares the text with what `write` made of the base:
a line that wasn't edited becomes the line of the base again, octet for octet. What 3.0 can't say is
taken from the base, too. Only lines that were added or edited are converted.
"""

import re
from collections import Counter, deque
from typing import Deque, Dict, FrozenSet, Hashable, Iterator, List, NamedTuple, Optional, Set, Tuple

from tosculai import lines_of

name = "3.0"
LINE_MAX = 75  # octets, without the line's end

# Properties under another name in 3.0. Apple and others read the first two as groups.
NAMES = {
    "KIND": "X-ADDRESSBOOKSERVER-KIND",
    "MEMBER": "X-ADDRESSBOOKSERVER-MEMBER",
    "ANNIVERSARY": "X-ANNIVERSARY",
    "GENDER": "X-GENDER",
}
NAMES_BACK = {new: old for old, new in NAMES.items()}
# Properties and parameters that 3.0 doesn't have.
NO_NAMES = {"RELATED", "LANG", "CLIENTPIDMAP", "XML"}
NO_PARAMS = {"PID", "ALTID", "PREF", "MEDIATYPE", "CALSCALE", "SORT-AS", "LABEL", "GEO", "TZ"}
# Of these, an edited line keeps what its base had. The others depend on the value.
KEPT_PARAMS = ("PID", "ALTID", "PREF")
ONCE = {"FN", "N", "BDAY", "KIND", "ANNIVERSARY", "GENDER", "GEO", "REV", "TZ", "UID"}
BINARY = {"PHOTO": "image", "LOGO": "image", "SOUND": "audio", "KEY": "application"}
DATES = ("BDAY", "ANNIVERSARY")
STRUCTURED = {"N", "ADR", "ORG", "X-GENDER", "GENDER"}  # empty parts at the end may be left out
# What a VALUE may say and say nothing, since it is so anyway. Thunderbird writes it.
PLAIN_VALUES = {"BDAY": {"date"}, "X-ANNIVERSARY": {"date"}, "REV": {"date-time"}, "URL": {"uri"},
                "IMPP": {"uri"}, "UID": {"text"}, "TEL": {"text"},
                "TZ": {"text", "utc-offset"}}
FRAME = ("BEGIN:", "VERSION:", "END:")  # lines of the text, not of the card

LINE = re.compile(r'(?:([\w-]+)\.)?([\w-]+)((?:;(?:"[^"]*"|[^":])*)?):(.*)', re.DOTALL)
PARAM = re.compile(r';([^=;:"]+)(?:=((?:"[^"]*"|[^";])*))?')
PIECE = re.compile(r'"([^"]*)"|([^",]+)')
DATA = re.compile(r"data:(\w+)/([\w.+-]+)(?:;[^,]*)?;base64,(.*)", re.IGNORECASE | re.DOTALL)
DATE = re.compile(r"(\d{4}|--)-?(\d\d)-?(\d\d)(?:T(\d\d):?(\d\d):?(\d\d)(Z|[+-]\d\d:?\d\d)?)?")
OWN_PARAMS = {"CHARSET", "X-EVOLUTION-E164"}  # what a program notes for itself
NO_XML = re.compile("[\ufffe\uffff]")  # CardDAV can't carry them, and carries U+FFFD instead
OMIT_YEAR = "X-APPLE-OMIT-YEAR"  # with the year 1604, as phones write a day without a year


class Line(NamedTuple):
    """A line of a card; its parameters in order, each with its values."""

    group: str
    name: str
    params: List[Tuple[str, List[str]]]
    value: str

    def get(self, wanted: str) -> List[str]:
        """The values of all parameters with this name."""
        return [value for param, values in self.params if param == wanted for value in values]

    def text(self) -> str:
        params = [f";{param}=" + ",".join(map(quoted, values)) for param, values in self.params]
        group = self.group + "." if self.group else ""
        return f"{group}{self.name}{''.join(params)}:{self.value}"


def quoted(value: str) -> str:
    return f'"{value}"' if re.search("[,;:]", value) else value


def read_line(text: str) -> Optional[Line]:
    """The line, or None. A parameter without a name, as old programs write it, is a type."""
    found = LINE.fullmatch(text)
    if not found:
        return None
    params = []
    for param, values in PARAM.findall(found.group(3)):
        pieces = [one or other for one, other in PIECE.findall(values)]
        if param.upper() == "TYPE":
            pieces = [it for piece in pieces for it in piece.split(",")]
        params.append((param.upper(), pieces) if values else ("TYPE", [param]))
    return Line(found.group(1) or "", found.group(2).upper(), params, found.group(4))


# From 4.0 to 3.0.

def write(text: str) -> str:
    """The card as vCard 3.0. It must have an N, which is made of the name where there is none."""
    lines = lines_of(text)
    made = [older for _, _, older in made_lines(lines) if older]
    more = [] if "N" in names_of(lines) else [made_name(lines)]
    whole = ["BEGIN:VCARD", "VERSION:3.0", *made, *more, "END:VCARD"]
    return "".join(map(folded, whole))


def names_of(lines: List[str]) -> Set[str]:
    return {line.name for line in map(read_line, lines) if line}


def made_name(lines: List[str]) -> str:
    """An N with the whole name."""
    full = next((line.value for line in map(read_line, lines) if line and line.name == "FN"), "")
    escaped = re.sub(r"\\.|;", lambda it: "\\;" if it.group() == ";" else it.group(), full)
    return f"N:{escaped};;;;"


def made_lines(lines: List[str]) -> Iterator[Tuple[str, str, str]]:
    """The name of each line of a card, the line, and that of 3.0 which is made of it, if any."""
    seen: Set[str] = set()
    for text in lines:
        line = read_line(text)
        if line and not text.startswith(FRAME):
            is_said = line.name not in NO_NAMES and not (line.name in ONCE and line.name in seen)
            older = older_line(line) if is_said else None
            seen.add(line.name)
            yield line.name, text, older.text() if older else ""


def older_line(line: Line) -> Optional[Line]:
    """The line in 3.0, or None if 3.0 can't say it."""
    value, types = line.value, line.get("TYPE") + ["pref"] * (line.get("PREF") == ["1"])
    params = [it for it in line.params if it[0] not in NO_PARAMS and it[0] != "TYPE"]
    params += [("TYPE", types)] if types else []
    if line.name in BINARY:
        return older_binary(line, params)
    kind = [it.lower() for it in line.get("VALUE")]
    params = [it for it in params if it[0] != "VALUE" or line.name in ("SOURCE", "URL")]
    if line.name == "TEL":
        value = re.sub("^tel:", "", value, flags=re.IGNORECASE)
    elif line.name == "GEO":
        found = re.fullmatch(r"geo:([-.\d]+),([-.\d]+)", value)
        value = f"{found.group(1)};{found.group(2)}" if found else ""
    elif line.name in DATES:
        year, value = older_date("" if "text" in kind else value)
        params += [(OMIT_YEAR, ["1604"])] if year == "--" else []
    is_lost = not value and line.value
    return None if is_lost else Line(line.group, NAMES.get(line.name, line.name), params, value)


def older_date(value: str) -> Tuple[str, str]:
    """The year of a date, and the date as in 3.0, which is empty if there is none."""
    found = DATE.fullmatch(value)
    if not found or found.group(1) == "--" and found.group(4):
        return "", ""
    year, month, day, hour, minute, second, zone = found.groups()
    time = f"T{hour}:{minute}:{second}{zone or ''}" if hour else ""
    return year, f"{'1604' if year == '--' else year}-{month}-{day}{time}"


def older_binary(line: Line, params: List[Tuple[str, List[str]]]) -> Line:
    """A photo and the like: a data URI is written out, and another URI is named as one."""
    params = [it for it in params if it[0] != "VALUE"]
    found = DATA.fullmatch(line.value)
    if found:
        params += [("ENCODING", ["b"]), ("TYPE", [found.group(2).upper()])]
        return Line(line.group, line.name, params, found.group(3))
    return Line(line.group, line.name, [*params, ("VALUE", ["uri"])], line.value)


def folded(line: str) -> str:
    """The line with its end, folded within no character."""
    if line.isascii():  # also a photo: fast
        rest = range(LINE_MAX, len(line), LINE_MAX - 1)
        return "\r\n ".join([line[:LINE_MAX], *(line[it:it + LINE_MAX - 1] for it in rest)]) + "\r\n"
    pieces, size = [""], 0
    for char in line:
        if size + len(char.encode()) > LINE_MAX:
            pieces.append("")
            size = 1
        pieces[-1] += char
        size += len(char.encode())
    return "\r\n ".join(pieces) + "\r\n"


# From 3.0 to 4.0.

def read(text: str, base: str) -> str:
    """The card of a file, if `base` is the card that the server has or had; "" if it had none."""
    lines = lines_of(text)
    if "VERSION:3.0" not in lines:
        return text
    left = Counter(key_of(line) for line in lines if not line.startswith(FRAME))
    kept: List[str] = []
    gone = Gone()
    for own_name, old, older in made_lines(lines_of(base)):
        if older and not left[key_of(older)]:
            gone.add(own_name, len(kept), old)
        else:
            left[key_of(older)] -= bool(older)
            kept.append(old)
    if base and "N" not in names_of(lines_of(base)):
        for name_line in made_name(lines_of(base)), made_name(lines):
            left[key_of(name_line)] = 0
    new = []
    for it in lines:
        if left[key_of(it)]:
            left[key_of(it)] -= 1
            new.append(it)
    whole = ["BEGIN:VCARD", "VERSION:4.0", *merged(kept, gone, new), "END:VCARD"]
    return "".join(line + "\r\n" for line in whole)


class Gone:
    """Lines of the base that are gone, with their places. Each is taken once, the first one first.

    Every step looks lines up: an edit of a card of many lines takes as long as the card is.
    """

    def __init__(self) -> None:
        self._all: Dict[Hashable, Deque[Tuple[int, int, str]]] = {}  # by name, and by name and types
        self._taken: Set[int] = set()
        self._number = 0

    def add(self, name: str, place: int, old: str) -> None:
        for key in name, (name, types_of(old)):
            self._all.setdefault(key, deque()).append((self._number, place, old))
        self._number += 1

    def take(self, name: str, types: FrozenSet[str]) -> Optional[Tuple[int, str, bool]]:
        """A line's place, the line, and whether it has these types; one that has them if any."""
        for key in (name, types), name:
            left = self._all.get(key, deque())
            while left:
                number, place, old = left.popleft()
                if number not in self._taken:
                    self._taken.add(number)
                    return place, old, key != name
        return None


def merged(kept: List[str], gone: Gone, new: List[str]) -> List[str]:
    """The kept lines of the base, and the new lines of 3.0 in the places of those that are gone."""
    before: Dict[int, List[str]] = {}  # new lines by the place of the kept line after them
    for text in new:
        line, place = read_line(text), len(kept)
        if line:
            line = newer_line(line)
            found = gone.take(line.name, types_of(text))
            if found:
                place, old, is_alike = found
                line = with_kept_params(line, old) if is_alike else line
        before.setdefault(place, []).append(line.text() if line else text)
    whole: List[str] = []
    for place, text in enumerate(kept):
        whole += [*before.get(place, ()), text]
    return whole + before.get(len(kept), [])


def types_of(text: str) -> FrozenSet[str]:
    """The types of a line, without those that only one of the two versions writes."""
    line = read_line(text)
    types = line.get("TYPE") if line else []
    return frozenset(it.lower() for it in types) - {"voice", "internet", "pref"}


def key_of(text: str) -> Hashable:
    """What two lines of 3.0 have in common if they say the same.

    Programs respell the lines that they read: other parameters, case, escapes and dates. A line
    that says the same as before is no edit, and stays as the server has it.
    """
    line = read_line(text)
    if not line:
        return NO_XML.sub("\ufffd", text)
    params: Dict[str, Set[str]] = {}
    for param, values in line.params:
        params.setdefault(param, set()).update(it.lower() for it in values)
    types = params.pop("TYPE", set()) - {"voice", "internet"}
    for param in OWN_PARAMS:
        params.pop(param, None)
    is_address = line.name in BINARY and "ENCODING" not in params
    if is_address:  # of a photo that is elsewhere; ez-vcard adds what its name says
        types = set()
        params.pop("MEDIATYPE", None)
    if params.get("VALUE", set()) <= PLAIN_VALUES.get(line.name, set()):
        params.pop("VALUE", None)
    others = sorted((param, *sorted(values)) for param, values in params.items())
    value = line.value.replace(" ", "") if "ENCODING" in params else plain_value(line)
    return line.group.lower(), line.name, tuple(sorted(types)), tuple(others), value


def plain_value(line: Line) -> str:
    """The value in one spelling of those that say the same."""
    value = NO_XML.sub("\ufffd", line.value)
    escaped = ",;:"
    if line.name in STRUCTURED:
        bare, escaped = value.rstrip(";"), ",:"  # a bare semicolon parts it
        value = bare + ";" if bare.endswith("\\") and bare != value else bare
    value = re.sub(rf"\\([{escaped}])", r"\1", value).replace("\\N", "\\n").strip()
    if line.name == "TZ":
        return value.replace(":", "")
    if DATE.fullmatch(value) and NAMES_BACK.get(line.name, line.name) in (*DATES, "REV"):
        value = re.sub(r"(?<!-)-(?!-)(?=\d\d(?:-|T|$))|:", "", value)
        return re.sub(r"(?<=T\d{6})[+-]0000$", "Z", value)
    return value


def newer_line(line: Line) -> Line:
    """The line in 4.0."""
    new_name, value = NAMES_BACK.get(line.name, line.name), line.value
    types = [it for it in line.get("TYPE") if it.upper() not in ("INTERNET", "PREF")]
    kind = {it.lower() for it in line.get("VALUE")}
    has_plain = new_name in BINARY or kind <= PLAIN_VALUES.get(line.name, set())
    dropped = ("TYPE", "ENCODING", OMIT_YEAR, *OWN_PARAMS, *(["VALUE"] if has_plain else []))
    params = [it for it in line.params if it[0] not in dropped]
    if new_name in BINARY and line.get("ENCODING"):
        media = types.pop(0).lower() if types else "octet-stream"
        value = f"data:{BINARY[new_name]}/{media};base64,{value.replace(' ', '')}"
    elif new_name == "GEO":
        value = "geo:" + value.replace("\\", "").replace(";", ",")
    elif new_name in (*DATES, "REV") and DATE.fullmatch(value):
        value = re.sub("[-:]", "", value[:10]) + re.sub(":", "", value[10:])
        value = "--" + value[4:] if line.get(OMIT_YEAR) == [value[:4]] else value
    params += [("TYPE", [it.lower() for it in types])] if types else []
    params += [("PREF", ["1"])] if "PREF" in (it.upper() for it in line.get("TYPE")) else []
    return Line(line.group, new_name, params, value)


def with_kept_params(line: Line, old: str) -> Line:
    """The line with the parameters of the old one that 3.0 can't say, and its types.

    The types are alike; a phone adds VOICE and INTERNET to those of the lines that it writes.
    """
    before = read_line(old)
    own = [it for it in line.params if it[0] != "TYPE"]
    names = {param for param, _ in own}
    more = [it for it in (before.params if before else []) if it[0] in (*KEPT_PARAMS, "TYPE")]
    more = [it for it in more if it[0] not in names and it != ("PREF", ["1"])]
    return line._replace(params=more + own)
