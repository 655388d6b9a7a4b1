"""BER as LDAP uses it (X.690; RFC 4511, 5.1): elements with a tag of one octet and a length."""

from typing import List, NamedTuple, Tuple

SEQUENCE, SET, OCTETS, INTEGER, BOOLEAN, ENUMERATED = 0x30, 0x31, 0x04, 0x02, 0x01, 0x0A


class Bad(ValueError):
    """The octets aren't what they should be; the message says what."""


class Element(NamedTuple):
    tag: int
    body: bytes

    def children(self) -> List["Element"]:
        """The elements within one that is made of others."""
        found, at = [], 0
        while at < len(self.body):
            one, at = read(self.body, at)
            found.append(one)
        return found

    def number(self) -> int:
        if not 1 <= len(self.body) <= 8:
            raise Bad("a number has one to eight octets")
        return int.from_bytes(self.body, "big", signed=True)

    def text(self) -> str:
        try:
            return self.body.decode()
        except UnicodeDecodeError:
            raise Bad("a text isn't UTF-8") from None


def head(octets: bytes, at: int = 0) -> Tuple[int, int, int]:
    """The tag, where the body begins, and its length. Raises IndexError if more has to come."""
    tag, length = octets[at], octets[at + 1]
    at += 2
    if tag & 0x1F == 0x1F or length == 0x80:
        raise Bad("a tag or a length is of a form that LDAP doesn't have")
    if length < 0x80:
        return tag, at, length
    count = length & 0x7F
    if count > 4:
        raise Bad("a length has too many octets")
    octets[at + count - 1]  # is it there?
    return tag, at + count, int.from_bytes(octets[at:at + count], "big")


def read(octets: bytes, at: int = 0) -> Tuple[Element, int]:
    """The element here, and where the next one begins."""
    try:
        tag, begin, length = head(octets, at)
    except IndexError:
        raise Bad("an element ends too early") from None
    if begin + length > len(octets):
        raise Bad("an element is longer than what it is in")
    return Element(tag, octets[begin:begin + length]), begin + length


def write(tag: int, *parts: bytes) -> bytes:
    body = b"".join(parts)
    if len(body) < 0x80:
        return bytes((tag, len(body))) + body
    length = len(body).to_bytes((len(body).bit_length() + 7) // 8, "big")
    return bytes((tag, 0x80 | len(length))) + length + body


def number(value: int, tag: int = INTEGER) -> bytes:
    return write(tag, value.to_bytes(value.bit_length() // 8 + 1, "big", signed=True))


def text(value: str, tag: int = OCTETS) -> bytes:
    return write(tag, value.encode("utf-8", "replace"))
