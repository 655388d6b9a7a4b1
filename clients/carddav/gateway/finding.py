"""Search by the desk's rules of matching (clients/desk/site/js/search.js), over rows in memory.

Three letters find a name, a word of an organisation or of a mail address; digits find a number.
Accents and apostrophes don't count, and `mueller` finds Müller.
"""

import re
import unicodedata
from typing import Dict, Iterable, List, NamedTuple, Optional, Tuple, TypeVar

LETTERS = str.maketrans({"ß": "ss", "ø": "o", "đ": "d", "ð": "d", "ł": "l", "æ": "ae", "œ": "oe",
                         "þ": "th", "ı": "i"})
SPELT = str.maketrans({"ä": "ae", "ö": "oe", "ü": "ue", "ø": "oe", "å": "aa",
                       "Ä": "ae", "Ö": "oe", "Ü": "ue", "Ø": "oe", "Å": "aa"})
NOT_ASCII_WORDS = re.compile("[^a-z0-9@.+]+")
NOT_WORDS = re.compile(r"(?:[^\w@.+]|_)+")
NUMBER = re.compile(r"[\s+0-9().\-/]+")
LEAST = 8  # digits at the end of two long numbers that are enough


WORDS_MAX = 20  # that are looked for in each card


class TooMany(ValueError):
    """More words were typed than are looked for; the message says how many are."""


class Marks(Dict[int, Optional[int]]):
    """For `str.translate`: drops marks and apostrophes. It learns each letter once."""

    def __missing__(self, code: int) -> Optional[int]:
        letter = chr(code)
        is_mark = letter in "'’ʼ" or unicodedata.category(letter)[0] == "M"
        found = self[code] = None if is_mark else code
        return found


MARKS = Marks()


def fold(text: str) -> str:
    """The text in small letters without accents and apostrophes; one space between words."""
    if text.isascii():
        return NOT_ASCII_WORDS.sub(" ", text.lower().replace("'", "")).strip()
    bare = unicodedata.normalize("NFKD", text).translate(MARKS).lower().translate(LETTERS)
    return NOT_WORDS.sub(" ", bare).strip()


def spell_out(text: str) -> str:
    """The text with umlauts as two letters, as many type them: Müller is Mueller then."""
    return unicodedata.normalize("NFC", text).translate(SPELT)


def searched(texts: Iterable[str], most: int) -> str:
    """Folded texts for the search: each word once, with a space before it, in both spellings."""
    text = " ".join(it for it in texts if it)[:4 * most]
    folded = fold(text)
    spelt = folded if text.isascii() else fold(spell_out(text))
    words = dict.fromkeys(f"{folded} {'' if spelt == folded else spelt}".split())
    return "".join(" " + it for it in words)[:most]


class Row(NamedTuple):
    """What a card is found by."""

    names: str
    words: str  # of organisations, titles, mail addresses and categories
    more: str  # of addresses and notes
    digits: str  # of its numbers, with a space between two


class Query(NamedTuple):
    """What was typed, ready to compare: words, and digits if it may be a number."""

    words: List[str]
    digits: str
    trunk: str


def read_query(text: str) -> Query:
    is_number = NUMBER.fullmatch(text) is not None
    digits = re.sub("[^0-9]", "", text) if is_number else ""
    words = list(dict.fromkeys(fold(text).split()))
    if len(words) > WORDS_MAX:
        raise TooMany(f"at most {WORDS_MAX} words are looked for")
    return Query(words, digits, digits.lstrip("0"))


def rank(row: Row, query: Query) -> int:
    """0 for the best match, higher for a lesser one, -1 for none."""
    if query.digits and row.digits and has_number(row.digits, query):
        return 0
    worst = 0 if query.words else -1
    for word in query.words:
        found = rank_of_word(row, word)
        if found < 0:
            return -1
        worst = max(worst, found)
    return worst


def rank_of_word(row: Row, word: str) -> int:
    begin = " " + word
    place = row.names.find(begin)
    if place >= 0:
        return 0 if place == 0 else 1
    if begin in row.words:
        return 2
    if word in row.names:
        return 3
    if word in row.words:
        return 4
    return 5 if begin in row.more else -1


def has_number(digits: str, query: Query) -> bool:
    """Leading zeros don't count, and of long numbers the last eight digits are enough."""
    if query.digits in digits or query.trunk and query.trunk in digits:
        return True
    end = query.trunk[-LEAST:]
    return len(end) == LEAST and any(it[-LEAST:] == end for it in digits.split(" "))


Kept = TypeVar("Kept")


def best(rows: Iterable[Tuple[Row, Kept]], text: str) -> List[Kept]:
    """What matches, the best first, and otherwise in its own order; all for an empty text."""
    if not text.strip():
        return [kept for _, kept in rows]
    query = read_query(text)
    ranked: List[List[Kept]] = [[] for _ in range(6)]
    for row, kept in rows:
        found = rank(row, query)
        if found >= 0:
            ranked[found].append(kept)
    return [it for one in ranked for it in one]
