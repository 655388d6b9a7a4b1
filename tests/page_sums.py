"""The sums at the ends of a file's pages, as SQLite's extension cksumvfs writes them.

The format is that of the head of `ext/misc/cksumvfs.c` in SQLite's source: the header reserves 8
octets of each page, which hold two sums over the words of the page's other octets, as integers of
32 bits that begin with the least octet. One bit that changes always changes them: each step adds
the next words to an invertible image of the sums so far.
"""

import sqlite3
import struct
from contextlib import closing, contextmanager
from pathlib import Path

RESERVED = 8  # octets at the end of each page
RESERVED_AT = 20  # the place in the header that says how many octets of a page are reserved
MASK = 2**32 - 1


def page_size(octets):
    size = int.from_bytes(octets[16:18], "big")
    return 65_536 if size == 1 else size


def has_sums(octets):
    """Whether a database file says that its pages end in sums."""
    return len(octets) > RESERVED_AT and octets[RESERVED_AT] == RESERVED


def sum_of(page):
    """The last octets that a page should have."""
    first = second = 0
    words = struct.unpack(f"<{(len(page) - RESERVED) // 4}I", page[:-RESERVED])
    for even, odd in zip(words[::2], words[1::2]):
        first = (first + even + second) & MASK
        second = (second + odd + first) & MASK
    return struct.pack("<II", first, second)


def pages_of(octets):
    size = page_size(octets)
    return [octets[at:at + size] for at in range(0, len(octets), size)]


def wrong_pages(octets):
    """The numbers of the pages whose sum is wrong."""
    return [number for number, page in enumerate(pages_of(octets), 1)
            if page[-RESERVED:] != sum_of(page)]


def resummed(octets):
    """The octets of a file with right sums, if its pages have sums."""
    if not has_sums(octets):
        return octets
    return b"".join(page[:-RESERVED] + sum_of(page) for page in pages_of(octets))


def renew_sums(file):
    """Gives a file that sqlite3 has written the right sums, if its pages have sums.

    Python's sqlite3 has no cksumvfs, so the program refuses what it has written. With right sums
    the program comes to the rows.
    """
    octets = Path(file).read_bytes()
    renewed = resummed(octets)
    if renewed != octets:
        Path(file).write_bytes(renewed)


@contextmanager
def changing(file):
    """The file in sqlite3, whose changes are committed in the end, with right sums."""
    with closing(sqlite3.connect(str(file))) as database:
        with database:
            yield database
    renew_sums(file)
