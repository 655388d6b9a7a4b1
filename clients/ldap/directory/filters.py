"""Filters of searches (RFC 4511, 4.5.1.7), compared by the desk's rules.

Case, accents and apostrophes don't count, and numbers are compared by their digits, in any
spelling. An attribute that an entry lacks matches nothing.
"""

import re
from typing import Callable, List, Tuple

from gateway.finding import LEAST, Query, Row, TooMany, fold, has_number, rank, read_query
from gateway.numbers import is_same, read_number
from gateway.people import Person

from directory.ber import Bad, Element
from directory.entries import NUMBERS, Entry

AND, OR, NOT, EQUAL, PIECES = 0xA0, 0xA1, 0xA2, 0xA3, 0xA4
AT_LEAST, AT_MOST, PRESENT, ALIKE, BY_RULE = 0xA5, 0xA6, 0x87, 0xA8, 0xA9
INITIAL, ANY, FINAL = 0x80, 0x81, 0x82
DEEPEST = 40  # filters within filters
MOST = 200  # filters, pieces of values and words, which are all compared with each entry
VALUE_MAX, PIECES_MAX = 400, 20  # letters of a value, and pieces of one
OTHER_NAMES = {"commonname": "cn", "surname": "sn", "gn": "givenname", "rfc822mailbox": "mail",
               "company": "o", "organizationname": "o", "userid": "uid", "fax":
               "facsimiletelephonenumber", "mobiletelephonenumber": "mobile",
               "hometelephonenumber": "homephone", "organizationalunitname": "ou", "name": "cn"}

Test = Callable[[Entry], bool]


def attribute(name: str) -> str:
    """The attribute that is meant, in small letters and without options."""
    bare = name.partition(";")[0].strip().lower()
    return OTHER_NAMES.get(bare, bare)


def test_of(element: Element, country: str = "") -> Test:
    """The test that a filter is."""
    return Reading(country).test(element, 0)


class Reading:
    """One filter while it is read."""

    def __init__(self, country: str) -> None:
        self.country, self.left = country, MOST

    def test(self, element: Element, depth: int) -> Test:
        self._count(1)
        if depth > DEEPEST:
            raise Bad("the filter is too deep")
        tag = element.tag
        if tag in (AND, OR):
            tests = [self.test(it, depth + 1) for it in element.children()]
            return (lambda entry: all(it(entry) for it in tests)) if tag == AND else \
                (lambda entry: any(it(entry) for it in tests))
        if tag == NOT:
            inner = [self.test(it, depth + 1) for it in element.children()]
            if len(inner) != 1:
                raise Bad("a NOT has one filter")
            return lambda entry: not inner[0](entry)
        if tag == PRESENT:
            name = attribute(element.text())
            return lambda entry: name in entry.values
        if tag == PIECES:
            return self.pieces(*pieces_of(element))
        if tag == BY_RULE:
            named = {it.tag: it for it in element.children()}
            if 0x82 not in named or 0x83 not in named:
                return lambda entry: False
            return self.equal(named[0x82].text(), value_of(named[0x83]))
        if tag in (EQUAL, ALIKE, AT_LEAST, AT_MOST):
            first, second = pair_of(element)
            name, value = first.text(), value_of(second)
            return self.equal(name, value) if tag in (EQUAL, ALIKE) else \
                self.order(name, value, tag == AT_LEAST)
        raise Bad("this filter isn't known")

    def _count(self, more: int) -> None:
        self.left -= more
        if self.left < 0:
            raise Bad(f"the filter is too large: it has at most {MOST} comparisons")

    def equal(self, given: str, value: str) -> Test:
        name, wanted, plain = attribute(given), fold(value), value.casefold()
        if name == "anr":  # how programs ask Active Directory for a name
            try:
                query = read_query(value.lstrip("="))
            except TooMany as fault:
                raise Bad(str(fault)) from None
            self._count(len(query.words))
            return lambda entry: entry.person is not None and rank(shown(entry.person), query) >= 0
        if name in NUMBERS:
            number, country = read_number(value, self.country), self.country
            return lambda entry: number is not None and any(
                is_same(number, it) for it in entry.numbers(name, country))
        if wanted and name not in ("uid", "member"):
            return lambda entry: wanted in entry.folded(name)
        return lambda entry: any(it.casefold() == plain for it in entry.get(name))

    def order(self, given: str, value: str, is_least: bool) -> Test:
        name, wanted = attribute(given), fold(value)
        return lambda entry: any(it >= wanted if is_least else it <= wanted
                                 for it in entry.folded(name))

    def pieces(self, given: str, pieces: List[Tuple[int, str]]) -> Test:
        name = attribute(given)
        self._count(len(pieces))
        if name in NUMBERS:
            query = read_query("".join(re.sub("[^0-9]", "", it) for _, it in pieces))
            is_end = [kind for kind, _ in pieces] == [FINAL]
            return lambda entry: bool(query.digits) and any(
                has_end(it, query) if is_end else has_number(it, query)
                for it in (re.sub("[^0-9]", "", it) for it in entry.get(name)))
        folded = [(kind, fold(it)) for kind, it in pieces if fold(it)]
        if folded:
            return lambda entry: any(has_pieces(it, folded) for it in entry.folded(name))
        signs = [(kind, it.casefold()) for kind, it in pieces]
        return lambda entry: any(has_pieces(it.casefold(), signs) for it in entry.get(name))


def shown(one: Person) -> Row:
    """What a person is found by here: no notes and addresses, which no entry has."""
    return one.row._replace(more="")


def value_of(element: Element) -> str:
    text = element.text()
    if len(text) > VALUE_MAX:
        raise Bad(f"a value has at most {VALUE_MAX} letters")
    return text


def has_end(digits: str, query: Query) -> bool:
    return digits.endswith(query.trunk or query.digits) or \
        len(query.trunk) >= LEAST and has_number(digits, query)


def has_pieces(text: str, pieces: List[Tuple[int, str]]) -> bool:
    at = 0
    for kind, piece in pieces:
        if kind == FINAL:
            return text.endswith(piece) and len(text) - len(piece) >= at
        place = text.find(piece, at)
        if place < 0 or kind == INITIAL and place:
            return False
        at = place + len(piece)
    return True


def pair_of(element: Element) -> List[Element]:
    found = element.children()
    if len(found) != 2:
        raise Bad("a comparison has an attribute and a value")
    return found


def pieces_of(element: Element) -> Tuple[str, List[Tuple[int, str]]]:
    name, rest = pair_of(element)
    pieces = [(it.tag, value_of(it)) for it in rest.children()]
    if len(pieces) > PIECES_MAX:
        raise Bad(f"a value has at most {PIECES_MAX} pieces")
    if not pieces or any(tag not in (INITIAL, ANY, FINAL) for tag, _ in pieces):
        raise Bad("a comparison by pieces has some")
    return name.text(), pieces
