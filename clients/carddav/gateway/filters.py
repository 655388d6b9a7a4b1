"""The filters of an addressbook-query (RFC 6352, 10.5)."""

import re
import xml.etree.ElementTree as ET
from typing import List

import vcard3
from tosculai import lines_of
from vcard3 import Line

from gateway.messages import NO_COLLATION, NO_FILTER, Fault
from gateway.properties import COLLATIONS, card

ELEMENTS_MAX = 200  # of a filter: each is tried on each line of each card
MATCH_TYPES = ("equals", "contains", "starts-with", "ends-with")


def check(query: ET.Element) -> None:
    """Refuses what no card is compared with, before any card is."""
    if sum(1 for _ in query.iter()) > ELEMENTS_MAX:
        raise Fault(403, f"a filter has at most {ELEMENTS_MAX} elements", NO_FILTER)
    for match in query.iter(card("text-match")):
        collation = match.get("collation", COLLATIONS[2])
        if collation not in (*COLLATIONS, "default"):
            raise Fault(403, f"the collation {collation[:40]} isn't known", NO_COLLATION)
        if match.get("match-type", "contains") not in MATCH_TYPES:
            raise Fault(400, "the match-type is one of " + ", ".join(MATCH_TYPES))


def matches(query: ET.Element, text: str) -> bool:
    """Whether a card matches. The cost is that of its lines times that of the filter."""
    lines = [line for line in map(vcard3.read_line, lines_of(text)) if line]
    return _joined(query, [_has_property(it, lines) for it in query.findall(card("prop-filter"))])


def _joined(element: ET.Element, results: List[bool]) -> bool:
    return not results or (all if element.get("test") == "allof" else any)(results)


def _has_property(wanted: ET.Element, lines: List[Line]) -> bool:
    group, _, name = wanted.get("name", "").upper().rpartition(".")
    found = [it for it in lines if it.name == name and (not group or it.group.upper() == group)]
    if wanted.find(card("is-not-defined")) is not None:
        return not found
    texts, params = wanted.findall(card("text-match")), wanted.findall(card("param-filter"))
    return any(_joined(wanted, [_has_text(it, _unescaped(line.value)) for it in texts]
                       + [_has_param(it, line) for it in params]) for line in found)


def _has_param(wanted: ET.Element, line: Line) -> bool:
    values, match = line.get(wanted.get("name", "").upper()), wanted.find(card("text-match"))
    if wanted.find(card("is-not-defined")) is not None:
        return not values
    return bool(values) and (match is None or any(_has_text(match, it) for it in values))


def _has_text(wanted: ET.Element, value: str) -> bool:
    text, kind = wanted.text or "", wanted.get("match-type", "contains")
    if wanted.get("collation") != "i;octet":
        text, value = text.casefold(), value.casefold()
    tests = {"equals": value == text, "starts-with": value.startswith(text),
             "ends-with": value.endswith(text), "contains": text in value}
    return tests[kind] != (wanted.get("negate-condition") == "yes")


def _unescaped(value: str) -> str:
    return re.sub(r"\\(.)", lambda it: "\n" if it.group(1) in "nN" else it.group(1), value)
