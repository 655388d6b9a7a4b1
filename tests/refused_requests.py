"""A request for each refusal and fault of docs/API.md, and for each cause of a bad card or import.

They are for a server after the page's session: the book `staff` has the id 1 and no cards, and has
forgotten its removals up to 4; `clients` has the id 2, the card p of version 2 and the group team.
To add one, copy a line.
"""

from collections import namedtuple

from http_requests import COLUMNS, FULL_CARDS, card, create, forget, get, import_rows, move, people
from http_requests import put, remove, request, sync, tally

# The number of the refusal, what its body has beside number and fault, and the request.
Row = namedtuple("Row", "number more request")

BEGIN = "BEGIN:VCARD\nVERSION:4.0\n"

# Texts that are put as the card x, by the cause for which each is refused.
BAD_CARDS = [
    (1, card("x", "Pat", "NOTE:" + "x" * 262_144)),
    (2, b"BEGIN:VCARD\nVERSION:4.0\nUID:x\nFN:\xff\nEND:VCARD\n"),
    (3, card("x", "Pat", "NOTE:\x07")),
    (3, card("x", "Pat", "NOTE:\x7f")),
    (4, card("x", "Pat", "TEL;HOME:1")),
    (4, card("x", "Pat") + card("y", "Lee")),
    (5, "VERSION:4.0\nUID:x\nFN:Pat\nEND:VCARD\n"),
    (6, "BEGIN:VCARD\nVERSION:3.0\nUID:x\nFN:Pat\nEND:VCARD\n"),
    (6, "BEGIN:VCARD\nVERSION:2.1\nUID:x\nFN:Pat\nEND:VCARD\n"),
    (7, BEGIN + "UID:x\nFN:Pat\n"),
    (8, BEGIN + "UID:x\nEND:VCARD\n"),
    (9, BEGIN + "FN:Pat\nEND:VCARD\n"),
    (10, card("x" * 256, "Pat")),
    (10, card("a\tb", "Pat")),
    (11, card("x", "Pat", "UID:y")),
    (11, card("x", "Pat", "KIND:individual", "KIND:individual")),
    (12, card("x", "Pat", "MEMBER:p")),
]

# Bodies of imports, by the row and the cause for which each is refused.
BAD_IMPORTS = [
    (0, 1, ""),
    (0, 1, "Name,Mail\nPat,pat@example.test\n"),
    (1, 2, COLUMNS + "x,Lee, Pat,,,,,,\n"),
    (2, 3, COLUMNS.encode() + b"s,Sy,,,,,,\nx,\xff,,,,,,\n"),
    (2, 4, COLUMNS + "s,Sy,,,,,,\nx,,,,,,,\n"),
    (1, 23, COLUMNS + "x,Pat\x07,,,,,,\n"),
    (1, 26, FULL_CARDS + '"","BEGIN:VCARD\nVERSION:3.0\nUID:x\nFN:Pat\nEND:VCARD\n"\n'),
    (1, 30, COLUMNS + "x" * 256 + ",Pat,,,,,,\n"),
    (1, 40, FULL_CARDS + f'y,"{card("x", "Pat")}"\n'),
    (2, 41, COLUMNS + "x,Pat,,,,,,\nx,Pat,,,,,,\n"),
]

MANY_ROWS = COLUMNS + "".join(f"u{number},Pat,,,,,,\n" for number in range(10_001))

ROWS = [
    Row(1, {}, tally("nobody")),
    Row(1, {}, move("p", "clients", "nobody")),
    Row(2, {}, create("staff")),
    Row(3, {}, create("Staff")),
    Row(3, {}, create("a" * 41)),
    Row(4, {}, get("staff", "a")),
    *(
        Row(5, {"cause": cause}, request("PUT", "/books/staff/cards/x", text))
        for cause, text in BAD_CARDS
    ),
    Row(6, {}, request("PUT", "/books/staff/cards/y", card("x", "Pat"))),
    Row(7, {"has": 2}, remove("clients", "p", "?version=1")),
    Row(7, {"has": 8}, put("staff", "q", "Quin", "?version=1")),
    Row(7, {"has": 0}, put("staff", "x", "Pat", "?version=1")),
    Row(8, {}, move("p", "clients", "staff")),
    Row(9, {}, move("p", "clients", "clients")),
    Row(10, {"cause": 1}, request("GET", "/books/staff/sync?token=any")),
    Row(10, {"cause": 2}, sync("staff", "2/1/1")),
    Row(10, {"cause": 3}, sync("staff", "1/99/99")),
    Row(10, {"cause": 4}, sync("staff", "1/3/3")),
    Row(11, {}, sync("staff", limit=0)),
    Row(12, {}, import_rows("clients", "many", MANY_ROWS)),
    *(
        Row(14, {"cause": cause, "row": row}, import_rows("clients", "bad", rows))
        for row, cause, rows in BAD_IMPORTS
    ),
    Row(15, {}, import_rows("clients", "a%20b", COLUMNS)),
    Row(16, {}, forget("staff", 3)),
    Row(16, {}, forget("staff", 99)),
    Row(17, {}, people("clients", "p")),
    Row(18, {}, create("more")),
    Row(21, {}, request("G(T", "/books")),
    Row(22, {}, request("GET", "/books", fields=["X: " + "x" * 16_384])),
    Row(23, {}, request("GET", "/books", host=False)),
    Row(24, {}, request("PUT", "/books/more", fields=["Transfer-Encoding: chunked"])),
    Row(25, {}, request("PUT", "/books/more", fields=["Content-Length: ten"])),
    Row(26, {}, request("PUT", "/books/more", fields=["Content-Length: 8388609"])),
    Row(27, {}, request("GET", "/book")),
    Row(28, {}, request("POST", "/books/staff/cards/a")),
    Row(28, {}, request("DELETE", "/books")),
    Row(29, {}, request("GET", "/books/%FF/tally")),
    Row(30, {}, request("GET", "/books/staff/sync?limit=ten")),
    Row(30, {}, request("POST", "/books/clients/import", COLUMNS)),
    Row(31, {}, request("GET", "/books", fields=["Host: other"], host=False)),
    Row(32, {}, request("PUT", "/books/more", fields=["Sec-Fetch-Site: cross-site"])),
    Row(32, {}, request("PUT", "/books/more", fields=["Origin: https://other"])),
    Row(33, {}, request("PUT", "/books/staff/cards/q", card("q", "Quin"), ["If-Match: *"])),
    Row(35, {"columns": "", "text": "LDIF; export the contacts as vCard or CSV"},
        request("POST", "/convert", "dn: cn=Pat\n")),
    Row(35, {"columns": "Kunde=fn,Mail (priv.)=email",
             "text": "a header whose columns aren't known: Mail (priv.)"},
        request("POST", "/convert", "Kunde,Mail (priv.)\nPat,pat@example.test\n")),
]
