#!/usr/bin/env python3
"""Writes the rows of the part `connections` of test_all, with the line ends of HTTP.

The output that the program must print for them is in its file stdout. Add a new reply there after
you have checked it by hand.
"""

import sys
from pathlib import Path

HERE = Path(__file__).resolve().parent
sys.dont_write_bytecode = True
sys.path += [str(HERE.parent / "test_all"), str(HERE.parent.parent / "tests")]
import parts
from http_requests import EACH_OF_A_BOOK, books, card, create, put, request, sync, tally

STAFF = create("staff")
EACH_COMMAND = [books(), STAFF, *EACH_OF_A_BOOK]
# These fail before any store is called.
NO_COMMAND = [
    request("GET", "/"),
    request("DELETE", "/books"),
    request("GET", "/books/staff/sync?limit=x"),
]
CLOSING = [request("GET", "/books", fields=["Connection: close"])]
OF_A_STORE = [
    ("each command", EACH_COMMAND),
    ("what doesn't reach the store", NO_COMMAND),
    ("a request that closes", CLOSING),
]
OF_A_DEVICE = [
    ("three requests", [STAFF, put("staff", "a", "Ann"), sync("staff")]),
    ("the books", [books(), tally("staff")]),
]
# Each row: its title, what fails, and its connections.
ROWS = [
    ("devices that fail", "failing-devices", OF_A_DEVICE),
    ("store-fault", "store-fault", OF_A_STORE),
    ("no-memory", "no-memory", OF_A_STORE),
    ("the first path", "first-path", [("a card", [card("a", "Ann").encode()])]),
    ("stops that no order comes to", "stops", []),
]


def octets_of(title, setting, connections):
    octets = f"\n#### {title}\n{setting}".encode()
    for name, requests in connections:
        octets += f"\n==== {name}\n".encode() + b"".join(requests)
    return octets


if __name__ == "__main__":
    parts.write_rows("connections", b"".join(octets_of(*row) for row in ROWS))
