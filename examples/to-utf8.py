#!/usr/bin/env python3
"""Makes UTF-8 of the values of a file of vCards that name another character set.

Usage: examples/to-utf8.py OLD.vcf NEW.vcf

For sets that `contacts convert` doesn't know, as GB2312, EUC-KR, Shift_JIS and Big5. Python has to
know the set. A value in quoted-printable stays so, on one line. All other lines stay as they are,
but for their ends. NEW.vcf must not be there yet.
"""

import quopri
import re
import sys
from urllib.parse import quote_from_bytes


def is_quoted(line):
    """Whether the value of the line is in quoted-printable."""
    return b"QUOTED-PRINTABLE" in line.partition(b":")[0].upper()


def joined(octets):
    """The lines, each with those that quoted-printable continues it by."""
    lines, parts = [], []
    for line in octets.splitlines():
        is_cut = is_quoted(parts[0] if parts else line) and line.endswith(b"=")
        parts.append(line[:-1] if is_cut else line)
        if not is_cut:
            lines.append(b"".join(parts))
            parts = []
    if parts:
        # The file ends within a value: the sign that it goes on stays.
        lines.append(b"".join(parts) + b"=")
    return lines


def in_utf8(line):
    """The line with its value in UTF-8, if it names a character set."""
    head, colon, value = line.partition(b":")
    named = re.search(rb";CHARSET=([^;]+)", head, re.IGNORECASE)
    if not named:
        return line
    head = head.replace(named[0], b";CHARSET=UTF-8")
    octets = quopri.decodestring(value) if is_quoted(line) else value
    value = octets.decode(named[1].decode()).encode()
    if is_quoted(line):
        value = quote_from_bytes(value, " ;,").replace("%", "=").encode()
    return head + colon + value


def main():
    if len(sys.argv) != 3:
        sys.exit("usage: to-utf8.py OLD.vcf NEW.vcf")
    try:
        with open(sys.argv[1], "rb") as old:
            made = [in_utf8(line) for line in joined(old.read())]
        # A file that is there is never written over.
        with open(sys.argv[2], "xb") as new:
            new.writelines(line + b"\r\n" for line in made)
    except (LookupError, OSError, UnicodeError) as error:
        sys.exit(f"to-utf8.py: {error}")


if __name__ == "__main__":
    main()
