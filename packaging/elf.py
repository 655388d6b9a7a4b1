"""What a program says of the tools that made it: the section .comment of its ELF file."""

import struct
from typing import List

SECTION = struct.Struct("<IIQQQQIIQQ")


def tools_of(program: bytes) -> List[str]:
    """The tools that an x86-64 program names, in its order; none if it has no such section."""
    if program[:6] != b"\x7fELF\x02\x01":
        return []
    table, = struct.unpack_from("<Q", program, 0x28)
    size, count, names = struct.unpack_from("<HHH", program, 0x3A)
    sections = [SECTION.unpack_from(program, table + size * at) for at in range(count)]
    if not sections:
        return []
    texts = octets_of(program, sections[names])
    for it in sections:
        if texts[it[0]:].startswith(b".comment\0"):
            return [text.decode() for text in octets_of(program, it).split(b"\0") if text]
    return []


def octets_of(program: bytes, section: tuple) -> bytes:
    start, size = section[4:6]
    return program[start:start + size]
