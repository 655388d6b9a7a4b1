"""Whose number is it: an index of the numbers of a book, for any spelling of a number.

A number that begins with + or 00 is whole. A national one is whole, too, if the office's country is
known. Two whole numbers are the same if all digits are. Another one, as a national one without a
country, is the end of a whole one, without its leading zeros; it has eight digits at least, as for
the desk.
"""

import re
import unicodedata
from typing import Dict, Iterable, List, NamedTuple, Optional, Tuple
from urllib.parse import unquote

from gateway.values import EXTENSION

END = 7  # digits at a number's end that it is looked up by; a shorter one only by all of them
LEAST = 8  # digits of an end that is enough
# What is dialled before a national number, where it isn't 0: none in Italy, whose zeros stay.
TRUNKS = {"39": "", "225": "", "229": "", "241": "", "242": "", "378": "", "1": "1", "7": "8",
          "36": "06"}
# How many digits a national number has, in countries where nothing is dialled before it.
LENGTHS = {"1": 10, "30": 10, "34": 9, "45": 8, "47": 8, "48": 9, "225": 10, "229": 10, "241": 8,
           "242": 9, "351": 9, "354": 7, "356": 8, "357": 8, "371": 8, "420": 9}
ABROAD = {"1": "011", "7": "810"}  # what is dialled before a number of another country, if not 00
COUNTRY = re.compile("[1-9][0-9]{0,2}")
FROM_ABROAD = re.compile(r"[\s(]*00")


class Number(NamedTuple):
    digits: str
    is_whole: bool  # with its country's code
    has_extension: bool


def ascii_digits(text: str) -> str:
    """The text with the digits of all scripts as 0 to 9."""
    return text if text.isascii() else "".join(
        str(unicodedata.decimal(it, it)) for it in text).replace("＋", "+")


def read_number(text: str, country: str = "") -> Optional[Number]:
    """The number that is spelt in this way; None if there is none."""
    spelt = re.sub(r"^\s*(?:tel|sips?):", "", unquote(text), flags=re.IGNORECASE)
    bare = EXTENSION.sub("", spelt.partition("@")[0]).partition(";")[0]
    ascii_text = ascii_digits(bare)
    has_plus = ascii_text.lstrip(" \t(\u202a-").startswith("+")
    if has_plus or FROM_ABROAD.match(ascii_text):
        ascii_text = ascii_text.replace("(0)", "", 1)
    digits = re.sub("[^0-9]", "", ascii_text)
    if not digits:
        return None
    whole = without_trunk(digits if has_plus else whole_of(digits, country), country)
    return Number(whole or digits, bool(whole), EXTENSION.search(spelt) is not None)


def without_trunk(whole: str, country: str) -> str:
    """A number of the office's country without the zero of a national one: not +353 020 911 0177.

    No national number begins with that zero there, so nothing else is meant.
    """
    trunk = TRUNKS.get(country, "0")
    is_wrong = country and trunk.startswith("0") and whole.startswith(country + trunk)
    return country + whole[len(country + trunk):] if is_wrong else whole


def whole_of(digits: str, country: str) -> str:
    """A dialled number with its country's code; an empty text if that isn't known."""
    if len(digits) < END:
        return ""  # of the house
    for abroad in "00", ABROAD.get(country, "00"):
        if digits.startswith(abroad):
            return digits[len(abroad):]
    trunk = TRUNKS.get(country, "0")
    if len(digits) == LENGTHS.get(country):
        return country + digits
    if country and trunk and digits.startswith(trunk):
        return country + digits[len(trunk):]
    return ""


def is_same(one: Number, other: Number) -> bool:
    if one.digits == other.digits:
        return True
    if one.is_whole and other.is_whole:
        return False
    short, long = sorted((one.digits.lstrip("0"), other.digits.lstrip("0")), key=len)
    return len(short) >= LEAST and long.endswith(short)


Owned = Tuple[Number, str]  # a number, and the UID of its card


class Numbers:
    """The numbers of a book."""

    def __init__(self, country: str = "") -> None:
        self.country = country
        self._by_end: Dict[str, List[Owned]] = {}

    def _read(self, texts: Iterable[str]) -> List[Number]:
        return [it for it in (read_number(text, self.country) for text in texts) if it]

    def add(self, uid: str, texts: Iterable[str]) -> None:
        for number in self._read(texts):
            self._by_end.setdefault(number.digits[-END:], []).append((number, uid))

    def drop(self, uid: str, texts: Iterable[str]) -> None:
        for number in self._read(texts):
            end = number.digits[-END:]
            left = [it for it in self._by_end.get(end, ()) if it[1] != uid]
            if left:
                self._by_end[end] = left
            else:
                self._by_end.pop(end, None)

    def find(self, text: str) -> List[Tuple[bool, bool, str]]:
        """Whose number it may be: whether it only ends alike, has an extension, and the UID."""
        asked = read_number(text, self.country)
        if not asked:
            return []
        return [(asked.digits != it.digits, it.has_extension, uid)
                for it, uid in self._by_end.get(asked.digits[-END:], ()) if is_same(asked, it)]
