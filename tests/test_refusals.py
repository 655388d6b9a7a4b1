"""Refusals: each number over each route that has it, and which of two comes first.

The expected replies were written by hand from docs/API.md: the statuses and texts of the table of
refusals, and the causes of cards and rows. A refusal must change nothing, which is tested too.
To add a row, copy a line: a title, a request, a status, a body.
"""

import unittest

from http_requests import COLUMNS, FULL_CARDS, SYNC, books, card, create, export, forget, get
from http_requests import import_rows, move, people, put, remove, request, sync, tally
from replies import WalkTest, fault

OK, CREATED, BAD = "200 OK", "201 Created", "400 Bad Request"
NOT_FOUND, CONFLICT, FORBIDDEN = "404 Not Found", "409 Conflict", "403 Forbidden"
MISMATCH, STORAGE = "412 Precondition Failed", "507 Insufficient Storage"

NO_BOOK, NO_CARD = fault("no-such-book", 1), fault("no-such-card", 4)
BAD_NAME, BAD_KEY = fault("bad-book-name", 3), fault("bad-key", 15)
UID_MISMATCH, SAME_BOOK = fault("uid-mismatch", 6), fault("same-book", 9)
BAD_LIMIT, BAD_FORGET = fault("number-of-matches-within-limits", 11), fault("bad-forget", 16)
NEW_CARD = '{"put":"created","version":%d}'
NONE_IMPORTED = '{"edited":0,"new":0,"number":4,"same":0}'
ONE_IMPORTED = '{"edited":0,"new":1,"number":1,"same":0}'
EMPTY_TALLY = (
    '{"cards":0,"created":0,"deleted":0,"edited":0,"horizon":0,"import_edited":0,"imported":0,'
    '"moved_in":0,"moved_out":0,"number":0,"remembered":0}'
)


def bad_card(cause):
    return fault("bad-card", 5, cause=cause)


def bad_token(cause):
    return fault("valid-sync-token", 10, cause=cause)


def bad_import(row, cause):
    return fault("bad-import", 14, row=row, cause=cause)


def has(version):
    return fault("version-mismatch", 7, has=version)


def put_text(uid, text, query="", book="staff"):
    return request("PUT", f"/books/{book}/cards/{uid}{query}", text)


def with_token(text):
    """A request for a page; the token is percent-encoded already."""
    return request("GET", f"/books/staff/sync?token={text}")


# Staff has a 1 and c 4, and has forgotten b, which was removed by the change 3; clients has a.
BOOKS = [
    ("staff", create("staff"), CREATED, '{"id":1}'),
    ("clients", create("clients"), CREATED, '{"id":2}'),
    ("a", put("staff", "a", "Ann"), CREATED, NEW_CARD % 1),
    ("b", put("staff", "b", "Bob"), CREATED, NEW_CARD % 2),
    ("b goes", remove("staff", "b"), OK, '{"number":3}'),
    ("b is forgotten", forget("staff", 3), OK, '{"dropped":1,"horizon":3}'),
    ("c", put("staff", "c", "Cy"), CREATED, NEW_CARD % 4),
    ("a, too", put("clients", "a", "Ann"), CREATED, NEW_CARD % 1),
    ("an import of none", import_rows("staff", "k", COLUMNS), OK, NONE_IMPORTED),
]
AS_BEFORE = [
    (
        "no book has changed",
        books(),
        OK,
        '{"books":[{"horizon":0,"id":2,"name":"clients","number":1},'
        '{"horizon":3,"id":1,"name":"staff","number":4}]}',
    ),
]

# What follows the address in texts that are no tokens.
NO_NUMBERS = [
    "1", "1/4/", "/4/4", "1//4", "1/4/4/4", "01/4/4", "1/0/00", "1/-3/4", "1/4/4 ", "1/4/a",
    "1/4/10000000000000", "10000000000000/4/4", "1/4/99999999999999999999",
]
REFUSALS = [
    ("no book to count", tally("none"), NOT_FOUND, NO_BOOK),
    ("no book to report", sync("none"), NOT_FOUND, NO_BOOK),
    ("no book for rows", import_rows("none", "k", COLUMNS), NOT_FOUND, NO_BOOK),
    ("no book to export", export("none"), NOT_FOUND, NO_BOOK),
    ("no book that forgets", forget("none", 0), NOT_FOUND, NO_BOOK),
    ("no book with a card", get("none", "a"), NOT_FOUND, NO_BOOK),
    ("no book for a card", put("none", "a", "Ann"), NOT_FOUND, NO_BOOK),
    ("no book to remove from", remove("none", "a"), NOT_FOUND, NO_BOOK),
    ("no book to move from", move("a", "none", "staff"), NOT_FOUND, NO_BOOK),
    ("no book to move to", move("a", "staff", "none"), NOT_FOUND, NO_BOOK),
    ("no book with a group", people("none", "a"), NOT_FOUND, NO_BOOK),
    ("a name that no book has", tally("a" * 41), NOT_FOUND, NO_BOOK),
    ("the same book again", create("staff"), CONFLICT, fault("book-exists", 2)),
    ("a large letter", create("Staff"), BAD, BAD_NAME),
    ("a dot", create("staff.2"), BAD, BAD_NAME),
    ("a dot and a 1", create("staff.1"), BAD, BAD_NAME),
    ("a space", create("%20"), BAD, BAD_NAME),
    ("two words", create("our%20staff"), BAD, BAD_NAME),
    ("a letter of another alphabet", create("caf%C3%A9"), BAD, BAD_NAME),
    ("a letter with two dots", create("b%C3%BCro"), BAD, BAD_NAME),
    ("41 letters", create("a" * 41), BAD, BAD_NAME),
    ("no card to get", get("staff", "z"), NOT_FOUND, NO_CARD),
    ("a card that was removed", get("staff", "b"), NOT_FOUND, NO_CARD),
    ("a UID is in one case", get("staff", "A"), NOT_FOUND, NO_CARD),
    ("no card to remove", remove("staff", "b"), NOT_FOUND, NO_CARD),
    ("no card to move", move("b", "staff", "clients"), NOT_FOUND, NO_CARD),
    ("no card as a group", people("staff", "b"), NOT_FOUND, NO_CARD),
    ("no card", put_text("z", ""), BAD, bad_card(5)),
    ("another UID", put_text("z", card("a", "Ann")), CONFLICT, UID_MISMATCH),
    ("another version to put", put("staff", "a", "Anna", "?version=2"), MISMATCH, has(1)),
    ("no card may be there", put("staff", "a", "Anna", "?version=0"), MISMATCH, has(1)),
    ("a version, and no card", put("staff", "b", "Bob", "?version=2"), MISMATCH, has(0)),
    ("the same text of another version", put("staff", "a", "Ann", "?version=9"), MISMATCH, has(1)),
    ("another version to remove", remove("staff", "c", "?version=1"), MISMATCH, has(4)),
    (
        "another version to move",
        request("POST", "/books/staff/cards/c/move?to=clients&version=1"),
        MISMATCH,
        has(4),
    ),
    ("a card where it goes", move("a", "staff", "clients"), CONFLICT, fault("uid-taken", 8)),
    ("into the same book", move("a", "staff", "staff"), CONFLICT, SAME_BOOK),
    ("no token", with_token("x"), FORBIDDEN, bad_token(1)),
    ("a leading zero", sync("staff", "1/07/7"), FORBIDDEN, bad_token(1)),
    ("the first number above the second", sync("staff", "1/4/3"), FORBIDDEN, bad_token(1)),
    ("14 digits", sync("staff", "1/3/99999999999999"), FORBIDDEN, bad_token(1)),
    ("13 digits", sync("staff", "1/3/9999999999999"), FORBIDDEN, bad_token(3)),
    ("a sign", sync("staff", "1/+3/4"), FORBIDDEN, bad_token(1)),
    ("two numbers", sync("staff", "1/4"), FORBIDDEN, bad_token(1)),
    ("more after it", sync("staff", "1/4/4/"), FORBIDDEN, bad_token(1)),
    *((f"no numbers: {it!r}", sync("staff", it), FORBIDDEN, bad_token(1)) for it in NO_NUMBERS),
    ("numbers alone", with_token("1/4/4"), FORBIDDEN, bad_token(1)),
    ("a space before it", with_token(f"+{SYNC}1/4/4"), FORBIDDEN, bad_token(1)),
    ("a scheme in capitals", with_token(f"HTTP{SYNC[4:]}1/4/4"), FORBIDDEN, bad_token(1)),
    ("nothing after the address", with_token(SYNC), FORBIDDEN, bad_token(1)),
    ("the greatest numbers", sync("staff", "/".join(["9" * 13] * 3)), FORBIDDEN, bad_token(2)),
    ("another scheme", with_token("https://contacts.invalid/sync/1/4/4"), FORBIDDEN, bad_token(1)),
    ("digits of another script", sync("staff", "1/\u0664/4"), FORBIDDEN, bad_token(1)),
    ("a token of another book", sync("staff", "2/1/1"), FORBIDDEN, bad_token(2)),
    ("a token of no book", sync("staff", "0/0/0"), FORBIDDEN, bad_token(2)),
    ("a token of a later book", sync("staff", "1/99/99"), FORBIDDEN, bad_token(3)),
    ("a token that is one too new", sync("staff", "1/4/5"), FORBIDDEN, bad_token(3)),
    ("a token from before what is forgotten", sync("staff", "1/1/2"), FORBIDDEN, bad_token(4)),
    ("a page of none", sync("staff", limit=0), STORAGE, BAD_LIMIT),
    ("a page of none, in 15 digits", sync("staff", limit="0" * 15), STORAGE, BAD_LIMIT),
    ("no rows", import_rows("staff", "k2", ""), BAD, bad_import(0, 1)),
    ("a slash in a key", import_rows("staff", "k%2F2", COLUMNS), BAD, BAD_KEY),
    ("a space in a key", import_rows("staff", "k+2", COLUMNS), BAD, BAD_KEY),
    ("an empty key", import_rows("staff", "", COLUMNS), BAD, BAD_KEY),
    ("a key of 65 letters", import_rows("staff", "k" * 65, COLUMNS), BAD, BAD_KEY),
    ("another alphabet in a key", import_rows("staff", "%C3%A9", COLUMNS), BAD, BAD_KEY),
    ("a key that isn't UTF-8", import_rows("staff", "%FF", COLUMNS), BAD, BAD_KEY),
    ("less than is forgotten", forget("staff", 2), CONFLICT, BAD_FORGET),
    ("more than the book's number", forget("staff", 5), CONFLICT, BAD_FORGET),
    ("much more", forget("staff", 999_999_999_999_999), CONFLICT, BAD_FORGET),
    ("a person as a group", people("staff", "a"), CONFLICT, fault("not-group", 17)),
]

# Two things are wrong, and the reply has the first.
FIRST_REFUSALS = [
    ("1 before 5", put_text("a", "", book="none"), NOT_FOUND, NO_BOOK),
    ("1 before 6", put_text("z", card("a", "Ann"), book="none"), NOT_FOUND, NO_BOOK),
    ("5 before 7", put_text("a", "", "?version=9"), BAD, bad_card(5)),
    ("6 before 7", put_text("z", card("a", "Ann"), "?version=9"), CONFLICT, UID_MISMATCH),
    ("4 before 7", remove("staff", "b", "?version=9"), NOT_FOUND, NO_CARD),
    ("1 before 9", move("a", "none", "none"), NOT_FOUND, NO_BOOK),
    ("9 before 4", move("b", "staff", "staff"), CONFLICT, SAME_BOOK),
    ("4 before 7, in a move", move("b", "staff", "clients&version=9"), NOT_FOUND, NO_CARD),
    ("8 before 7", move("a", "staff", "clients&version=9"), CONFLICT, fault("uid-taken", 8)),
    ("1 before 10", sync("none", "x"), NOT_FOUND, NO_BOOK),
    ("1 before 11", sync("none", limit=0), NOT_FOUND, NO_BOOK),
    ("10 before 11", sync("staff", "1/1/2", 0), FORBIDDEN, bad_token(4)),
    ("cause 1 before 2 and 3", sync("staff", "9/99/98"), FORBIDDEN, bad_token(1)),
    ("cause 2 before 3", sync("staff", "9/99/99"), FORBIDDEN, bad_token(2)),
    ("cause 2 before 4", sync("staff", "2/1/2"), FORBIDDEN, bad_token(2)),
    ("1 before 15", import_rows("none", "k/2", COLUMNS), NOT_FOUND, NO_BOOK),
    ("1 before 14", import_rows("none", "k2", ""), NOT_FOUND, NO_BOOK),
    ("15 before 14", import_rows("staff", "k/2", ""), BAD, BAD_KEY),
    ("no 14 under a key that was used", import_rows("staff", "k", ""), OK, NONE_IMPORTED),
    ("1 before 16", forget("none", 9), NOT_FOUND, NO_BOOK),
    ("3 before 2", create("STAFF"), BAD, BAD_NAME),
]


def lines(*texts):
    """The text of lines between BEGIN and END, each ended by a line feed."""
    return "".join(text + "\n" for text in ["BEGIN:VCARD", *texts, "END:VCARD"])


def with_line(line):
    """A card with one more line."""
    return lines("VERSION:4.0", "UID:z", "FN:Zoe", line)


ZOE = lines("VERSION:4.0", "UID:z", "FN:Zoe")
# With a card of Zoe's of 52 octets, and a line of 61, these lines have 262,144 octets.
MANY_NOTES = ("NOTE:" + "x" * 70 + "\n") * 3_403
# Texts that are no card, with the cause.
NO_CARDS = [
    ("262,145 octets", 1, ZOE.replace("Zoe", "Z" * (262_145 - len(ZOE) + len("Zoe")))),
    ("262,145 octets of canonical text", 1, with_line(f"{MANY_NOTES}NOTE:{'x' * 55}")),
    ("returns that its canonical text adds", 1, with_line("\n".join(["NOTE:x"] * 37_000))),
    ("an octet that is no UTF-8", 2, ZOE.encode().replace(b"Zoe", b"Zo\xff")),
    ("UTF-8 that is cut", 2, ZOE.encode().replace(b"Zoe", b"Zo\xc3")),
    ("a surrogate", 2, ZOE.encode().replace(b"Zoe", b"\xed\xa0\x80")),
    ("a control character", 3, with_line("NOTE:\x01")),
    ("a NUL", 3, with_line("NOTE:\0")),
    ("a delete", 3, with_line("NOTE:\x7f")),
    ("a return that is no line end", 3, with_line("NOTE:a\rb")),
    ("two returns at a line's end", 3, with_line("NOTE:a\r\r")),
    ("no colon", 4, with_line("NOTE")),
    ("no name", 4, with_line(":x")),
    ("a parameter without a value", 4, with_line("TEL;HOME:1")),
    ("a quote that isn't closed", 4, with_line('TEL;TYPE="home:1')),
    ("an underscore in a name", 4, with_line("X_Y:1")),
    ("an empty group", 4, with_line(".TEL:1")),
    ("two cards", 4, ZOE + ZOE),
    ("a BEGIN in a card", 4, with_line("BEGIN:VEVENT")),
    ("an END of something else", 4, with_line("END:VEVENT")),
    ("a space before the first line", 4, " " + ZOE),
    ("an empty text", 5, ""),
    ("line ends alone", 5, "\r\n\n\r\n"),
    ("a calendar", 5, ZOE.replace("BEGIN:VCARD", "BEGIN:VCALENDAR")),
    ("a BEGIN of a group", 5, "a." + ZOE),
    ("a mark twice", 4, "\ufeff\ufeff" + ZOE),
    ("version 3.0", 6, ZOE.replace("4.0", "3.0")),
    ("a version that comes later", 6, lines("UID:z", "VERSION:4.0", "FN:Zoe")),
    ("a second version", 6, with_line("VERSION:4.0")),
    ("a BEGIN alone", 6, "BEGIN:VCARD"),
    ("an END right after", 6, lines()),
    ("no END", 7, ZOE.replace("END:VCARD\n", "")),
    ("no name of whom", 8, ZOE.replace("FN:Zoe\n", "")),
    ("neither FN nor UID", 8, lines("VERSION:4.0")),
    ("no UID", 9, ZOE.replace("UID:z\n", "")),
    ("an empty UID", 10, ZOE.replace("UID:z", "UID:")),
    ("a UID of 256 octets", 10, ZOE.replace("UID:z", "UID:" + "\u00e9" * 128)),
    ("a tab in a UID", 10, ZOE.replace("UID:z", "UID:z\tz")),
    ("a second UID that is empty", 10, with_line("UID:")),
    ("a second UID", 11, with_line("uid:z")),
    ("a second kind", 11, with_line("KIND:group\nkind:group")),
    ("a member of no group", 12, with_line("MEMBER:a")),
    ("a member of another kind", 12, with_line("KIND:org\nMEMBER:a")),
    ("the first line that is wrong", 4, with_line("NOTE\nNOTE:\x01")),
    ("the least in one line", 3, with_line("NOTE\x01")),
]
# Texts that are cards all the same, with their canonical text.
CARDS = [
    (
        "262,144 octets of canonical text",
        with_line(f"{MANY_NOTES}NOTE:{'x' * 54}"),
        card("z", "Zoe", *MANY_NOTES.split(), "NOTE:" + "x" * 54),
    ),
    ("any case", ZOE.replace("BEGIN:VCARD", "begin:vCard").replace("UID", "uid"), card("z", "Zoe")),
    ("a fold, and a tab for a space", ZOE.replace("Zoe", "Z\n o\r\n\te"), card("z", "Zoe")),
    ("a fold within a name", ZOE.replace("UID:z", "U\n ID:z"), card("z", "Zoe")),
    ("a mark, and no last line end", "\ufeff" + ZOE[:-1], card("z", "Zoe")),
    ("empty lines", "\r\n" + ZOE.replace("\n", "\r\n\n"), card("z", "Zoe")),
    ("parameters of the version", ZOE.replace("VERSION:", "VERSION;A=b:"), card("z", "Zoe")),
    (
        "a group, parameters and quotes, as they are",
        with_line('item1.TEL;VALUE=uri;TYPE="voice,home",x;A=:tel:+1;ext=5'),
        card("z", "Zoe", 'item1.TEL;VALUE=uri;TYPE="voice,home",x;A=:tel:+1;ext=5'),
    ),
    (
        "75 octets in one line, and a longer one that is cut before a character",
        with_line(f"NOTE:{'x' * 70}\nNOTE:{'x' * 69}\u00e9y"),
        card("z", "Zoe", "NOTE:" + "x" * 70, "NOTE:" + "x" * 69 + "\r\n \u00e9y"),
    ),
]


# A line, another spelling of it, and lines that differ from the one before in one part each.
LINE = 'g.TEL;TYPE=a,"b";PREF=1:1'
SAME_LINE = 'g.tel;TYPE=a,"b";PR\n EF=1:1'
OTHER_LINES = [
    'h.TEL;TYPE=a,"b";PREF=1:1',
    "h.TEL;TYPE=a,b;PREF=1:1",
    "h.TEL;TYPE=a,b;PREF=1:2",
    "TEL;TYPE=a,b;PREF=1:2",
    "TEL;TYPE=a;PREF=1:2",
    "X-TEL;TYPE=a;PREF=1:2",
]


def import_of(rows):
    return import_rows("staff", "k2", rows)


def row_of(text):
    """A row of a card alone, under its header."""
    quoted = text.replace('"', '""')
    return f'{FULL_CARDS},"{quoted}"\n'


SEVEN = "b,Bob,,,,,\n"
EIGHT = "b,Bob,,,,,,\n"
PAT, QUIN, RAE = "p,Pat Lee,Lee,Pat,pat@example.test,,,\n", "q,Quin,,,,,,\n", "r,Rae,,,,,,\n"
# Rows that aren't imported, with the row and the cause.
NO_ROWS = [
    ("line ends alone", 0, 1, "\r\n\n"),
    ("another header", 0, 1, "uid,name\n"),
    ("a header of another form", 0, 1, "uid,card\n"),
    ("a space in a header", 0, 1, "uid, vcard\n"),
    ("a header that isn't UTF-8", 0, 1, b"uid,\xff\n"),
    ("two marks", 0, 1, b"\xef\xbb\xbf\xef\xbb\xbf" + COLUMNS.encode()),
    ("two marks before the other form", 0, 1, "\ufeff\ufeff" + FULL_CARDS),
    ("seven fields", 1, 2, COLUMNS + SEVEN),
    ("nine fields", 2, 2, COLUMNS + EIGHT + "c,Cy,,,,,,,\n"),
    ("seven fields, the last empty", 1, 2, COLUMNS + "a,Ann,,,,,\n"),
    ("three fields of two", 1, 2, FULL_CARDS + "a,b,c\n"),
    ("one field that isn't UTF-8", 1, 2, FULL_CARDS.encode() + b"a\xff\n"),
    ("one empty field", 1, 2, FULL_CARDS + '""\n'),
    ("an octet that is no UTF-8", 1, 3, COLUMNS.encode() + b"b,Bob,,,,,,\xff\n"),
    ("a card that isn't UTF-8", 1, 3, FULL_CARDS.encode() + b"b,\xff\n"),
    ("a card alone that isn't UTF-8", 1, 3, FULL_CARDS.encode() + b",\xff\n"),
    ("a UID that isn't UTF-8", 1, 3, FULL_CARDS.encode() + b"\xff,x\n"),
    ("a card that ends after BEGIN", 1, 26, FULL_CARDS + ",BEGIN:VCARD\n"),
    ("an empty name", 2, 4, COLUMNS + EIGHT + "c,,,,,,,\n"),
    ("an empty name in row 3", 3, 4, COLUMNS + PAT + QUIN + "r,,,,,,,\n"),
    ("a return in a field", 1, 23, COLUMNS + 'b,"Bob\rBee",,,,,,\n'),
    ("a line end in a UID", 1, 23, COLUMNS + '"b\r\n",Bob,,,,,,\n'),
    ("a line feed in a UID", 1, 23, COLUMNS + '"a\nb",Ann,,,,,,\n'),
    ("an empty UID", 1, 30, COLUMNS + ",Bob,,,,,,\n"),
    ("a UID of 256 octets", 1, 30, COLUMNS + "b" * 256 + ",Bob,,,,,,\n"),
    ("a note that is too long", 1, 21, COLUMNS + "b,Bob,,,,,," + "n" * 262_144 + "\n"),
    ("another UID", 1, 40, FULL_CARDS + f'b,"{card("z", "Zoe")}"\n'),
    ("a UID a second time", 2, 41, COLUMNS + EIGHT + EIGHT),
    ("41 before a later 4", 2, 41, COLUMNS + "a,Ann,,,,,,\na,Bob,,,,,,\na,,,,,,,\n"),
    ("a UID a second time, in cards", 2, 41, row_of(ZOE) + row_of(ZOE)[len(FULL_CARDS):]),
    ("the first row that is bad", 1, 4, COLUMNS + "b,,,,,,,\n" + SEVEN),
    ("the least in one row", 1, 2, COLUMNS.encode() + b"\xff,,\n"),
    ("3 before 4", 1, 3, COLUMNS.encode() + b"b,,,,,,,\xff\n"),
    ("4 before 30", 1, 4, COLUMNS + ",,,,,,,\n"),
    ("29 before 40", 1, 29, row_of(ZOE.replace("UID:z", "X:z")).replace(',"', 'b,"')),
]
ESCAPED = 'b,"B,o;b\\",a;b,c,d;e,f,g;h,i\\nj\n'
OF_A_CARD = 'z,Zoe,Ze;e,Z,,,One,"a\nb"\n'
# Rows that are imported, and the rows of columns that are exported then.
ROWS = [
    ("a mark", "\ufeff" + COLUMNS + EIGHT, EIGHT),
    ("a return as a line end", COLUMNS.replace("\n", "\r") + EIGHT.replace("\n", "\r"), EIGHT),
    ("both as a line end", COLUMNS.replace("\n", "\r\n") + EIGHT.replace("\n", "\r\n"), EIGHT),
    ("empty lines, and no last end", "\n\r\n" + COLUMNS + "\r\n\n" + EIGHT[:-1], EIGHT),
    ("a header in quotes", '"uid",' + COLUMNS[4:] + EIGHT, EIGHT),
    ("a quote within a field", COLUMNS + 'b,B"ob,,,,,,\n', 'b,"B""ob",,,,,,\n'),
    ("text after a quote", COLUMNS + 'b,"B"o"b",,,,,,\n', 'b,"Bo""b""",,,,,,\n'),
    ("a quote that isn't closed", COLUMNS + 'b,Bob,,,,,,"note', "b,Bob,,,,,,note\n"),
    ("spaces that stay", COLUMNS + " b , Bob ,,,,,,\n", " b , Bob ,,,,,,\n"),
    ("line ends in a field", COLUMNS + 'b,Bob,,,,,,"1\r\n2\n3"\n', 'b,Bob,,,,,,"1\n2\n3"\n'),
    ("what is escaped in cards", COLUMNS + ESCAPED, ESCAPED),
    ("a card", row_of(with_line("N:Ze\\;e;Z;;;\nORG:One;Two\nNOTE:a\\nb")), OF_A_CARD),
]
BEGIN_OF, END = "BEGIN:VCARD\r\nVERSION:4.0\r\nUID:%s", "END:VCARD\r\n"
# Rows that are imported, and the lines after the UID of each card that they become, in their order.
LINES_OF_ROWS = [
    (
        "three people",
        COLUMNS + PAT + QUIN + RAE,
        {"p": ["FN:Pat Lee", "N:Lee;Pat;;;", "EMAIL:pat@example.test"], "q": ["FN:Quin"],
         "r": ["FN:Rae"]},
    ),
    (
        "what is escaped",
        COLUMNS + 's,Sy,,Sy,,1;2,"a,b","x\r\ny\nz"\n',
        {"s": ["FN:Sy", "N:;Sy;;;", "TEL:1\\;2", "ORG:a\\,b", "NOTE:x\\ny\\nz"]},
    ),
    ("a mark and no card", "\ufeff" + FULL_CARDS, {}),
    ("a card", row_of(ZOE), {"z": ["FN:Zoe"]}),
    ("a card in CRLF", row_of(ZOE.replace("\n", "\r\n")), {"z": ["FN:Zoe"]}),
    ("a row alone", COLUMNS + PAT, {"p": ["FN:Pat Lee", "N:Lee;Pat;;;", "EMAIL:pat@example.test"]}),
]


class RefusalsTest(WalkTest):
    def test_refusals(self):
        self.walk(BOOKS + REFUSALS + AS_BEFORE)

    def test_first_refusals(self):
        self.walk(BOOKS + FIRST_REFUSALS + AS_BEFORE)

    def test_texts_that_are_no_cards(self):
        self.walk([BOOKS[0]])
        for title, cause, text in NO_CARDS:
            self.walk([(title, put_text("z", text), BAD, bad_card(cause))])
            # Of an import a row that isn't UTF-8 is found before its card is looked at.
            if cause != 2:
                number = 20 + cause
                text = text if isinstance(text, str) else text.decode()
                self.walk([(title, import_of(row_of(text)), BAD, bad_import(1, number))])
        self.walk([("nothing came", tally("staff"), OK, EMPTY_TALLY)])

    def test_texts_that_are_cards(self):
        self.walk([BOOKS[0]])
        for title, text, canonical in CARDS:
            body = canonical.replace('"', '\\"').replace("\r\n", "\\r\\n")
            self.walk([(f"{title}: put", put_text("z", text), CREATED, self.next_card())])
            version = self.office.books["staff"].number
            got = f'{{"card":"{body}","uid":"z","version":{version}}}'
            self.walk([
                (f"{title}: got", get("staff", "z"), OK, got),
                (f"{title}: removed", remove("staff", "z"), OK, f'{{"number":{version + 1}}}'),
            ])

    def test_rows_that_are_not_imported(self):
        self.walk([BOOKS[0]])
        for title, row, cause, rows in NO_ROWS:
            self.walk([(title, import_of(rows), BAD, bad_import(row, cause))])
        self.walk([("nothing came", tally("staff"), OK, EMPTY_TALLY)])

    def test_rows_that_are_imported(self):
        for number, (title, rows, exported) in enumerate(ROWS, 1):
            self.walk([
                ("a book", create(f"b{number}"), CREATED, f'{{"id":{number}}}'),
                (title, import_rows(f"b{number}", "k", rows), OK, ONE_IMPORTED),
                (title, export(f"b{number}", "columns"), OK, COLUMNS + exported),
            ])

    def test_lines_of_rows(self):
        for number, (title, rows, lines) in enumerate(LINES_OF_ROWS, 1):
            count = len(lines)
            tally = f'{{"edited":0,"new":{count},"number":{count},"same":0}}'
            cards = {uid: "\r\n".join([BEGIN_OF % uid, *more, END]) for uid, more in lines.items()}
            exported = "".join(f'{uid},"{text}"\n' for uid, text in cards.items())
            self.walk([
                ("a book", create(f"b{number}"), CREATED, f'{{"id":{number}}}'),
                (title, import_rows(f"b{number}", "k", rows), OK, tally),
                (title, export(f"b{number}", "cards"), OK, FULL_CARDS + exported),
            ])

    def test_names_of_books(self):
        names = ["-", "a-0", "0", "aaaaaaaaaabbbbbbbbbbccccccccccdddddddddd"]
        rows = [(it, create(it), CREATED, f'{{"id":{at}}}') for at, it in enumerate(names, 1)]
        self.walk([*rows, (names[3] + "x", create(names[3] + "x"), BAD, BAD_NAME)])

    def test_equal_cards(self):
        """A card that says the same isn't stored again; one with another part of a line is."""
        self.walk([BOOKS[0], ("a card", put_text("z", with_line(LINE)), CREATED, NEW_CARD % 1)])
        unchanged = '{"put":"unchanged","version":%d}'
        for number, line in enumerate(OTHER_LINES, 2):
            edited = f'{{"put":"edited","version":{number}}}'
            self.walk([
                ("the same", put_text("z", with_line(LINE)), OK, unchanged % 1),
                ("in another spelling", put_text("z", with_line(SAME_LINE)), OK, unchanged % 1),
            ] if number == 2 else [])
            self.walk([
                (line, put_text("z", with_line(line)), OK, edited),
                (f"{line}, again", put_text("z", with_line(line)), OK, unchanged % number),
            ])

    def next_card(self):
        return NEW_CARD % (self.office.books["staff"].number + 1)


if __name__ == "__main__":
    unittest.main()
