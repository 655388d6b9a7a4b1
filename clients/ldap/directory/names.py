"""Distinguished names (RFC 4514), compared without regard to case."""

import re
from typing import List, Optional, Tuple

Key = Tuple[Tuple[str, str], ...]  # attribute and value of each part, the lowest first
PAIR = re.compile(r"\\([0-9a-fA-F]{2})|\\(.)|(.)", re.DOTALL)


def escaped(value: str) -> str:
    """A value as a part of a name has it."""
    text = re.sub(r'([,+"\\<>;=])', r"\\\1", value).replace("\0", "\\00")
    if text.startswith(("#", " ")):
        text = "\\" + text
    return text[:-1] + "\\ " if text.endswith(" ") and not text.endswith("\\ ") else text


def unescaped(text: str) -> str:
    octets = bytearray()
    for pair, one, plain in PAIR.findall(text.strip()):
        octets += bytes.fromhex(pair) if pair else (one or plain).encode("utf-8", "replace")
    return octets.decode("utf-8", "replace")


def parts_of(name: str) -> Optional[Key]:
    """The parts of a name as they are written; None if it isn't one."""
    if not name.strip():
        return ()
    found: List[Tuple[str, str]] = []
    for part in re.findall(r"(?:^|,)((?:\\.|[^\\,])*)", name, re.DOTALL):
        attribute, sign, value = part.partition("=")
        if not sign or not attribute.strip():
            return None
        found.append((attribute.strip().lower(), unescaped(value)))
    return tuple(found)


def key_of(name: str) -> Optional[Key]:
    """The parts of a name for comparisons."""
    parts = parts_of(name)
    return None if parts is None else tuple((kind, value.casefold()) for kind, value in parts)
