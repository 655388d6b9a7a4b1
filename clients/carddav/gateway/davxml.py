"""XML as DAV needs it: read by expat without anything that a DTD could do, written as text.

The worst legal body has BODY_MAX octets, ELEMENTS elements and is DEPTH deep; all else is refused
before it is held in memory.
"""

import re
import xml.etree.ElementTree as ET
from typing import Dict, Iterable, List, Optional
from xml.parsers import expat

D, C, CS = "DAV:", "urn:ietf:params:xml:ns:carddav", "http://calendarserver.org/ns/"
WORDS = "https://tosculai.example/ns/"  # the namespace of what people read in an error
PREFIXES = {D: "D", C: "C", CS: "CS", WORDS: "T"}
SPACES = "".join(f' xmlns:{prefix}="{space}"' for space, prefix in PREFIXES.items())
HEAD = '<?xml version="1.0" encoding="utf-8"?>\n'
BODY_MAX = 8_388_608  # octets of a body that is XML
ELEMENTS = 50_000  # a multiget of a whole book names 10,000 cards
DEPTH = 50
ENCODINGS = {"utf-8", "utf-16", "us-ascii", "iso-8859-1"}  # those that expat itself reads
# What XML 1.0 can't carry (section 2.2). A card may have U+FFFE and U+FFFF.
NOT_XML = re.compile("[\x00-\x08\x0b\x0c\x0e-\x1f\ufffe\uffff]")


class BadXml(ValueError):
    """A body that isn't taken; the message says why."""


class Reading:
    """Builds the elements of a body, and stops at the first thing that is refused."""

    def __init__(self) -> None:
        self._builder = ET.TreeBuilder()
        self._depth = self._count = 0

    def start(self, name: str, attributes: Dict[str, str]) -> None:
        self._depth += 1
        self._count += 1
        if self._depth > DEPTH:
            raise BadXml(f"more than {DEPTH} elements within each other")
        if self._count > ELEMENTS:
            raise BadXml(f"more than {ELEMENTS:,} elements")
        self._builder.start(tag_of(name), {tag_of(it): to for it, to in attributes.items()})

    def end(self, name: str) -> None:
        self._depth -= 1
        self._builder.end(tag_of(name))

    def data(self, text: str) -> None:
        self._builder.data(text)

    def declaration(self, version: str, encoding: Optional[str], standalone: int) -> None:
        if encoding and encoding.lower() not in ENCODINGS:
            raise BadXml(f"the encoding {encoding[:40]} isn't taken; UTF-8 is")

    def doctype(self, *_: object) -> None:
        raise BadXml("a DTD isn't taken")

    def root(self) -> ET.Element:
        return self._builder.close()


def tag_of(name: str) -> str:
    """A name as ElementTree has it."""
    return "{" + name if "}" in name else name


def read(body: bytes, charset: str = "") -> Optional[ET.Element]:
    """The root of a body, or None if it is empty. `charset` is that of the Content-Type."""
    if not body.strip():
        return None
    if charset and charset.lower() not in ENCODINGS:
        raise BadXml(f"the charset {charset[:40]} isn't taken; UTF-8 is")
    has_mark = body[:2] in (b"\xff\xfe", b"\xfe\xff") or body[:3] == b"\xef\xbb\xbf"
    parser = expat.ParserCreate(charset.lower() if charset and not has_mark else None, "}")
    parser.buffer_text = True
    reading = Reading()
    parser.StartElementHandler, parser.EndElementHandler = reading.start, reading.end
    parser.CharacterDataHandler = reading.data
    parser.StartDoctypeDeclHandler = reading.doctype
    parser.XmlDeclHandler = reading.declaration
    try:
        parser.Parse(body, True)
        return reading.root()
    except BadXml:
        raise
    except (expat.ExpatError, ValueError, LookupError, AssertionError) as fault:
        raise BadXml(f"the body isn't XML: {fault}") from None


# Writing.

def escaped(text: str) -> str:
    """A text within an element. XML reads a bare CR as LF, so the CRLF of a card is escaped."""
    text = text.replace("&", "&amp;").replace("<", "&lt;").replace(">", "&gt;")
    return NOT_XML.sub("\ufffd", text.replace("\r", "&#13;"))


def quoted(text: str) -> str:
    """A text as the value of an attribute, with its quotes."""
    return '"' + escaped(text).replace('"', "&quot;").replace("\n", "&#10;") + '"'


def element(tag: str, inside: str = "", **attributes: str) -> str:
    """An element whose content is XML already. The tag is as ElementTree has it."""
    name, space = named(tag)
    more = "".join(f" {key.replace('_', '-')}={quoted(it)}" for key, it in attributes.items())
    return f"<{name}{space}{more}>{inside}</{name}>" if inside else f"<{name}{space}{more}/>"


def named(tag: str) -> List[str]:
    """The name of an element in a document, and the declaration of its namespace, if needed."""
    space, _, local = tag[1:].partition("}") if tag.startswith("{") else ("", "", tag)
    if space in PREFIXES:
        return [f"{PREFIXES[space]}:{local}", ""]
    return [f"x:{local}", f" xmlns:x={quoted(space)}"] if space else [local, ' xmlns=""']


def href(path: str) -> str:
    return f"<D:href>{escaped(path)}</D:href>"


def status(text: str) -> str:
    return f"<D:status>HTTP/1.1 {text}</D:status>"


def prop_status(props: Iterable[str], text: str) -> str:
    return f"<D:propstat><D:prop>{''.join(props)}</D:prop>{status(text)}</D:propstat>"


def error(condition: str, words: str, path: str = "") -> bytes:
    """The body of a refusal (RFC 4918, 16): the precondition's element, and why in words."""
    rule = element(condition, href(path) if path else "") if condition else ""
    text = f"{HEAD}<D:error{SPACES}>{rule}<T:reason>{escaped(words)}</T:reason></D:error>\n"
    return text.encode()
