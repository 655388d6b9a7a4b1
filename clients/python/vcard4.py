"""Cards of vCard 4.0: their lines, and a card whose properties can be read and edited.

    ann = VCard(staff.get("a").text)
    ann.fn = "Anna"
    ann.n = ann.n._replace(given="Anna")
    ann.tels[0].value = "+353 1 555 0100"
    ann.add("EMAIL", "anna@office.example", types=["work"])
    staff.put(ann.text, version)

Only the lines that you edit change. All others stay as they are, whatever they are, and of an
edited line its group and its other parameters, and of a name or an address its other parts.
"""

import re
from typing import Iterable, List, NamedTuple, Optional, Sequence

UID = re.compile(r'(?:[\w-]+\.)?UID(?:;(?:"[^"]*"|[^":])*)?:(.*)', re.DOTALL)
NAME = r"[A-Za-z0-9-]+"
FRAME = r"(?i:(?:BEGIN|END):VCARD)$"
# The start of a line, if something of it isn't in upper case.
START = re.compile(
    rf"(?=[^;:]*[a-z]|[A-Z]+:[A-Za-z]*[a-z])((?:{NAME}\.)?)({FRAME}|{NAME}(?=[;:]))"
)
LINE = re.compile(rf'((?:{NAME}\.)?{NAME})((?:;(?:"[^"]*"|[^":])*)?):(.*)', re.DOTALL)
PARAM = re.compile(r';(?:"[^"]*"|[^";])*')
CONTROL = re.compile("[\x00-\x08\x0a-\x1f\x7f]")
ESCAPE = re.compile(r"\\(.)", re.DOTALL)
PARTS = re.compile(r"(?:\\.|[^;\\])+|;|\\", re.DOTALL)
# Properties whose values are no texts, so that nothing in them is escaped.
NO_TEXTS = {
    "ANNIVERSARY", "BDAY", "CALADRURI", "CALURI", "CLIENTPIDMAP", "FBURL", "GEO", "IMPP", "KEY",
    "LOGO", "MEMBER", "PHOTO", "RELATED", "REV", "SOUND", "SOURCE", "UID", "URL",
}

STRUCTURED = {"ADR", "GENDER", "N", "ORG"}  # bare semicolons separate their parts
LISTS = {"CATEGORIES", "NICKNAME"}  # bare commas separate their texts


def lines_of(text: str) -> List[str]:
    """The lines of a card, unfolded, with the names of their properties in upper case."""
    text = text.lstrip("\ufeff").replace("\r\n", "\n").replace("\n ", "").replace("\n\t", "")
    lines = [START.sub(lambda it: it.group(1) + it.group(2).upper(), line, 1)
             if START.match(line) else line for line in text.split("\n")]
    return [line for line in lines if line]


def uid_of(text: str) -> str:
    """The UID of a card, or an empty text."""
    found = (UID.fullmatch(line) for line in lines_of(text))
    return next((it.group(1) for it in found if it), "")


def same(one: Optional[str], other: Optional[str]) -> bool:
    """Whether two texts are the same card, however their lines end and are folded."""
    return one == other or bool(one and other) and lines_of(one or "") == lines_of(other or "")


def escaped(value: str, special: str = "\\,;") -> str:
    """A text as a value, or a part of one."""
    found = CONTROL.search(value.replace("\r\n", "\n").replace("\n", ""))
    if found:
        raise ValueError(f"a card can't have the character U+{ord(found.group()):04X}")
    value = "".join("\\" * (it in special) + it for it in value.replace("\r\n", "\n"))
    return value.replace("\n", "\\n")


def unescaped(value: str) -> str:
    """The text that a value spells."""
    return ESCAPE.sub(lambda it: "\n" if it.group(1) in "nN" else it.group(1), value)


def parts_of(value: str) -> List[str]:
    """The parts of a value between its bare semicolons, as they are spelled."""
    parts = [""]
    for piece in PARTS.findall(value):
        if piece == ";":
            parts.append("")
        else:
            parts[-1] += piece
    return parts


class Name(NamedTuple):
    """The parts of a name. Several names of one part are separated by commas."""

    family: str = ""
    given: str = ""
    additional: str = ""
    prefixes: str = ""
    suffixes: str = ""


class Property:
    """A line of a card: `TEL;TYPE=work:+353 1 555 0100`. `line` is its whole text."""

    def __init__(self, line: str) -> None:
        self.line = line

    def _split(self) -> Sequence[str]:
        """What is before the parameters, the parameters, and the value."""
        found = LINE.fullmatch(self.line)
        return found.groups() if found else ("", "", self.line)

    @property
    def name(self) -> str:
        """The name in upper case, without its group; empty if the line is no property."""
        return self._split()[0].rpartition(".")[2].upper()

    @property
    def group(self) -> str:
        return self._split()[0].rpartition(".")[0]

    def param(self, name: str) -> List[str]:
        """The values of the parameters with this name."""
        values: List[str] = []
        for text in PARAM.findall(self._split()[1]):
            own, _, value = text[1:].partition("=")
            if own.upper() == name:
                values += [it.strip('"') for it in re.findall(r'"[^"]*"|[^",]+', value)]
        return values

    @property
    def types(self) -> List[str]:
        """The values of TYPE, in lower case."""
        return [it.strip().lower() for value in self.param("TYPE") for it in value.split(",")]

    @types.setter
    def types(self, types: Iterable[str]) -> None:
        types = list(types)
        if types == self.types:
            return
        for it in types:
            if not re.fullmatch(NAME, it):
                raise ValueError(f"not a type: {it!r}")
        name, params, value = self._split()
        kept = [it for it in PARAM.findall(params) if it[1:].partition("=")[0].upper() != "TYPE"]
        if types:
            kept.insert(0, ";TYPE=" + ",".join(types))
        self.line = f"{name}{''.join(kept)}:{value}"

    @property
    def _is_text(self) -> bool:
        kinds = [it.lower() for it in self.param("VALUE")]
        return kinds == ["text"] or not kinds and self.name not in NO_TEXTS

    @property
    def value(self) -> str:
        """The value: a text without escapes, a number without `tel:`, or a URI as it is."""
        value = self._split()[2]
        if self.name == "TEL" and not self._is_text:
            return re.sub("^tel:", "", value, flags=re.IGNORECASE)
        return unescaped(value) if self._is_text else value

    @value.setter
    def value(self, value: str) -> None:
        if value == self.value:
            return
        name, params, before = self._split()
        if self.name in STRUCTURED and ";" in value:
            raise ValueError(f"set the parts of {self.name}, not its value")
        if self._is_text:
            value = escaped(value, "\\;" if self.name in LISTS else "\\,;")
        elif CONTROL.search(value):
            raise ValueError(f"not a value of {self.name}: {value!r}")
        elif self.name == "TEL" and before[:4].lower() == "tel:" and not value[:4] == "tel:":
            value = "tel:" + re.sub(r"\s", "-", value)
        self.line = f"{name}{params}:{value}"

    @property
    def parts(self) -> List[str]:
        """The parts of a name, an address or an organization."""
        return [unescaped(it) for it in parts_of(self._split()[2])]

    @parts.setter
    def parts(self, parts: Sequence[str]) -> None:
        name, params, value = self._split()
        before = parts_of(value)
        kept = {at: it for at, it in enumerate(before)}
        # A part that is as before keeps its spelling: its commas may separate several names.
        new = [kept[at] if at in kept and unescaped(kept[at]) == it else escaped(it)
               for at, it in enumerate(parts)]
        self.line = f"{name}{params}:{';'.join(new)}"

    def __repr__(self) -> str:
        return f"Property({self.line!r})"


def _text(name: str) -> property:
    """The value of the first line with this name, or an empty text."""
    def read(card: "VCard") -> str:
        found = card.all(name)
        return found[0].value if found else ""

    def write(card: "VCard", value: str) -> None:
        found = card.all(name)
        if not value:
            for it in found[:1]:
                card.remove(it)
        elif found:
            found[0].value = value
        else:
            card.add(name, value)

    return property(read, write, doc=f"The first {name}, or an empty text, which removes it.")


def _list(name: str) -> property:
    """All lines with this name."""
    return property(lambda card: card.all(name), doc=f"All {name}, each a Property.")


class VCard:
    """A card. `text` is what a book takes; it is the text as it came until something is edited."""

    def __init__(self, text: str) -> None:
        self._was, self._whole = text, lines_of(text)
        self.lines = [Property(line) for line in self._whole]

    @classmethod
    def new(cls, uid: str, fn: str) -> "VCard":
        """A new card with this UID, as it is spelled in paths, and this name."""
        if not uid or CONTROL.search(uid):
            raise ValueError(f"not a UID: {uid!r}")
        text = f"BEGIN:VCARD\r\nVERSION:4.0\r\nUID:{uid}\r\nFN:{escaped(fn)}\r\nEND:VCARD\r\n"
        return cls(text)

    @property
    def text(self) -> str:
        lines = [it.line for it in self.lines]
        return self._was if lines == self._whole else "".join(it + "\r\n" for it in lines)

    @property
    def uid(self) -> str:
        """The UID as it is spelled in paths. A card keeps it."""
        return uid_of(self.text)

    def all(self, name: str) -> List[Property]:
        """All lines with this name, in their order."""
        return [it for it in self.lines if it.name == name.upper()]

    def add(self, name: str, value: str, types: Iterable[str] = ()) -> Property:
        """Adds a line after the last one with its name, or at the end."""
        if not re.fullmatch(NAME, name):
            raise ValueError(f"not the name of a property: {name!r}")
        new = Property(name.upper() + ":")
        new.value = value
        new.types = list(types)
        ends = [at for at, it in enumerate(self.lines) if it.name in (name.upper(), "END")]
        places = [at + 1 for at in ends if self.lines[at].name != "END"] or ends[-1:]
        self.lines.insert(places[-1] if places else len(self.lines), new)
        return new

    def remove(self, line: Property) -> None:
        """Removes a line of this card."""
        if line.name in ("BEGIN", "VERSION", "UID", "END") or self.all("FN") == [line]:
            raise ValueError(f"a card needs its {line.name}")
        self.lines = [it for it in self.lines if it is not line]

    @property
    def n(self) -> Name:
        """The parts of the name; all are empty if the card has none."""
        found = self.all("N")
        return Name(*(found[0].parts + [""] * 5)[:5]) if found else Name()

    @n.setter
    def n(self, name: Name) -> None:
        found = self.all("N")
        if name != self.n:
            (found[0] if found else self.add("N", "")).parts = list(name)

    fn = _text("FN")
    kind = _text("KIND")
    nickname = _text("NICKNAME")
    title = _text("TITLE")
    role = _text("ROLE")
    note = _text("NOTE")
    bday = _text("BDAY")
    tels = _list("TEL")
    emails = _list("EMAIL")
    adrs = _list("ADR")
    orgs = _list("ORG")
    urls = _list("URL")
    members = _list("MEMBER")
