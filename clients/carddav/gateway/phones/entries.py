"""What all forms of phone books share: entries, and XML of them that phones read."""

import re
import unicodedata
from typing import Callable, Dict, List, NamedTuple, Optional
from xml.sax.saxutils import escape

NAME_MAX, NUMBER_MAX = 60, 32  # letters that are sent; phones show fewer
KINDS = {"cell": "mobile", "home": "home", "work": "work"}


class Number(NamedTuple):
    kind: str  # "work", "home" or "cell"
    text: str


class Entry(NamedTuple):
    name: str
    family: str
    given: str
    numbers: List[Number]

    def singles(self) -> List["Entry"]:
        """An entry for each number. Where there are several, the name says which it is."""
        if len(self.numbers) == 1:
            return [self]
        return [self._replace(name=f"{self.name[:NAME_MAX - 9]} ({KINDS[it.kind]})", numbers=[it])
                for it in self.numbers]


class Listing(NamedTuple):
    """A page of a phone book; `following` is the address of the next one, if there is one."""

    title: str
    entries: List[Entry]
    following: str
    said: str  # as "1-32 of 210"


def utf8(_: Dict[str, str]) -> str:
    return "utf-8"


class Form(NamedTuple):
    """How a maker's phones want their phone book."""

    written: Callable[[Listing], str]
    most: int  # entries of a reply
    is_single: bool  # an entry has one number
    has_pages: bool
    charset: Callable[[Dict[str, str]], str] = utf8  # by the fields of the request
    question: Optional[Callable[[str, str], str]] = None  # asks for a name, if phones can


def text_of(text: str, most: int = NAME_MAX) -> str:
    """The text within an element, without what XML can't carry."""
    return escape(re.sub("[^\t\n\r -\ud7ff\ue000-\ufffd\U00010000-\U0010ffff]", " ", text)[:most])


def element(name: str, text: str, most: int = NAME_MAX) -> str:
    return f"<{name}>{text_of(text, most)}</{name}>"


def in_charset(text: str, charset: str) -> bytes:
    """The octets. A letter that the charset lacks becomes its plainest form, or a question mark."""
    if charset == "utf-8":
        return text.encode()
    plain = (it if _has(charset, it) else _plainest(it, charset) for it in text)
    return "".join(plain).encode(charset)


def _has(charset: str, letter: str) -> bool:
    try:
        return bool(letter.encode(charset))
    except UnicodeEncodeError:
        return False


def _plainest(letter: str, charset: str) -> str:
    bare = "".join(it for it in unicodedata.normalize("NFKD", letter) if _has(charset, it))
    return bare or {"Ł": "L", "ł": "l", "Đ": "D", "đ": "d", "œ": "oe", "Œ": "OE", "ı": "i",
                    "‘": "'", "’": "'", "–": "-", "—": "-"}.get(letter, "?")
