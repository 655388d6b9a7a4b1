"""What orders print, and how they end: rows of arguments, worked out by hand.

A row is made by `done`, `refused` or `fault`, which say how the order ends; arguments with
spaces are a list. The rows of a table are run in their order, so that each finds the files that
those before it left. The changes and the numbers are those of docs/API.md's rules: each change of a
book has the book's next number, which is the version of the card that it leaves.
"""

from collections import namedtuple

from program import Ended

Row = namedtuple("Row", "arguments ended")

COLUMNS = "uid,fn,family,given,email,tel,org,note\n"
CARDS = "uid,vcard\n"
TOKEN = "token http://contacts.invalid/sync/"


def row(arguments, status, out, err):
    arguments = arguments.split() if isinstance(arguments, str) else arguments
    return Row(arguments, Ended(status, out.encode(), err.encode()))


def done(arguments, *lines):
    return row(arguments, 0, "".join(lines), "")


def refused(arguments, why):
    return row(arguments, 1, "", f"refused {why}\n")


def fault(arguments, why):
    return row(arguments, 3, "", f"fault {why}\n")


def card(uid, name, *lines):
    """A card in its canonical text."""
    lines = ["BEGIN:VCARD", "VERSION:4.0", f"UID:{uid}", f"FN:{name}", *lines, "END:VCARD"]
    return "".join(line + "\r\n" for line in lines)


def quoted(*cards):
    """Rows of UIDs and cards without quotes, whose UIDs need no quotes."""
    return "".join('{},"{}"\n'.format(text.split("UID:")[1].split("\r")[0], text) for text in cards)


def tally(**numbers):
    """The eleven lines: names left-aligned in 14 columns, numbers right-aligned in 13."""
    names = ["cards", "created", "deleted", "edited", "horizon", "import_edited", "imported",
             "moved_in", "moved_out", "number", "remembered"]
    return "".join(f"{name:<14}{numbers.get(name, 0):>13}\n" for name in names)


# A file from its creation on. The second book has the next id, and a new file the current schema.
MAKING = [
    fault("tally a.db staff", "open 1"),
    done("init a.db", "made\n"),
    fault("init a.db", "open 5"),
    refused("tally a.db staff", "no-such-book 1"),
    done("book a.db staff", "book 1\n"),
    refused("book a.db staff", "book-exists 2"),
    done("book a.db clients", "book 2\n"),
    fault("migrate a.db", "open 3"),
    fault("migrate b.db", "open 1"),
    done("tally a.db staff", tally()),
    done("mirror a.db staff", "pages 1 done yes\n", TOKEN + "1/0/0\n"),
    done("mirror a.db clients", "pages 1 done yes\n", TOKEN + "2/0/0\n"),
    done("export a.db staff", CARDS),
    done("export a.db staff --form columns", COLUMNS),
    refused("expand a.db staff a", "no-such-card 4"),
    done("forget a.db staff 0", "dropped 0 horizon 0\n"),
    refused("forget a.db staff 1", "bad-forget 16"),
]

FIVE_CHANGES_TALLY = """\
cards                     2
created                   3
deleted                   1
edited                    1
horizon                   0
import_edited             0
imported                  0
moved_in                  0
moved_out                 0
number                    5
remembered                1
"""

TWO_PAGES = ["pages 2 done yes\n", "            4 a\n", "            3 c\n", TOKEN + "1/5/5\n"]

# The book staff after five changes: a, b and c were created, a was edited, b was removed.
FIVE_CHANGES = [
    done("tally a.db staff", FIVE_CHANGES_TALLY),
    done("mirror a.db staff --limit 1", *TWO_PAGES),
    done("mirror a.db staff --limit=1 --pages=2", *TWO_PAGES),
    done("mirror a.db staff --limit 1 --pages 1",
         "pages 1 done no\n", "            3 c\n", TOKEN + "1/3/5\n"),
    done("mirror a.db staff --limit 2", "pages 1 done yes\n", *TWO_PAGES[1:]),
    done("mirror a.db staff --pages 1", "pages 1 done yes\n", *TWO_PAGES[1:]),
    done("mirror a.db staff --limit=999999999999999", "pages 1 done yes\n", *TWO_PAGES[1:]),
    refused("mirror a.db staff --limit 0", "number-of-matches-within-limits 11"),
    refused("expand a.db staff a", "not-group 17"),
    refused("expand a.db staff b", "no-such-card 4"),
    refused("expand a.db staff A", "no-such-card 4"),
    refused(["expand", "a.db", "staff", ""], "no-such-card 4"),
    done("export a.db staff", CARDS, quoted(card("a", "Anna"), card("c", "Cy"))),
    done("export a.db staff --form cards", CARDS, quoted(card("a", "Anna"), card("c", "Cy"))),
    done("export a.db staff --form=columns", COLUMNS, "a,Anna,,,,,,\n", "c,Cy,,,,,,\n"),
]

# The same book is made to forget: b's removal, and what isn't there, or was forgotten already.
FORGETTING = [
    done("forget a.db staff 4", "dropped 0 horizon 4\n"),
    done("forget a.db staff 0005", "dropped 1 horizon 5\n"),
    done("forget a.db staff 5", "dropped 0 horizon 5\n"),
    refused("forget a.db staff 4", "bad-forget 16"),
    refused("forget a.db staff 6", "bad-forget 16"),
    refused("forget a.db staff 999999999999999", "bad-forget 16"),
    done("tally a.db staff", tally(cards=2, created=3, deleted=1, edited=1, horizon=5, number=5)),
    done("mirror a.db staff --limit 1", *TWO_PAGES),
]

# Further changes of staff: c was removed (6), b created again (7), d created (8) and removed (9),
# and a moved to the clients (10), where another b was created.
MOVE = [
    done("tally a.db staff", tally(cards=1, created=5, deleted=3, edited=1, moved_out=1, number=10,
                                   remembered=3)),
    done("tally a.db clients", tally(cards=2, created=1, moved_in=1, number=2)),
    done("mirror a.db clients", "pages 1 done yes\n", "            1 a\n", "            2 b\n",
         TOKEN + "2/2/2\n"),
    done("mirror a.db staff", "pages 1 done yes\n", "            7 b\n", TOKEN + "1/10/10\n"),
]

PAT = "p,Pat Lee,Lee,Pat,pat@example.test,,,\n"
IMPORTS_FILES = {
    "faulty.csv": COLUMNS + PAT + "q,Quin,,,,,,\nr,,,,,,,\n",
    "three.csv": COLUMNS + PAT + "q,Quin,,,,,,\nr,Rae,,,,,,\n",
    "again.csv": COLUMNS + PAT + "q,Quinn,,,,,,\ns,Sy,,,,,,\n",
    "header.csv": COLUMNS,
    "empty.csv": "",
    "bad.csv": CARDS + "x,y\n",
}
FIRST_IMPORT = "new 3 edited 0 same 0 number 5\n"
CLIENTS = [card("a", "Anna"), card("b", "Bob"),
           card("p", "Pat Lee", "N:Lee;Pat;;;", "EMAIL:pat@example.test"), card("q", "Quinn"),
           card("r", "Rae"), card("s", "Sy")]

# Imports into clients, which has a and b: each is done in full or not at all, and once for its key.
IMPORTS = [
    refused("import a.db clients k1 faulty.csv", "bad-import 14"),
    done("tally a.db clients", tally(cards=2, created=1, moved_in=1, number=2)),
    done("import a.db clients k1 three.csv", FIRST_IMPORT),
    done("import a.db clients k1 three.csv", FIRST_IMPORT),
    done("import a.db clients k1 faulty.csv", FIRST_IMPORT),
    done("import a.db clients k1 empty.csv", FIRST_IMPORT),
    # The rows are read before the key is looked up.
    fault("import a.db clients k1 none.csv", "device 1"),
    done("tally a.db clients", tally(cards=5, created=1, imported=3, moved_in=1, number=5)),
    done("import a.db clients k2 again.csv", "new 1 edited 1 same 1 number 7\n"),
    done("tally a.db clients", tally(cards=6, created=1, import_edited=1, imported=4, moved_in=1,
                                     number=7)),
    refused("import a.db clients k3 empty.csv", "bad-import 14"),
    refused("import a.db clients k3 bad.csv", "bad-import 14"),
    refused("import a.db clients k/3 three.csv", "bad-key 15"),
    refused("import a.db clients k/3 empty.csv", "bad-key 15"),
    refused("import a.db nobody k/3 empty.csv", "no-such-book 1"),
    fault("import a.db nobody k/3 none.csv", "device 1"),
    done("import a.db clients k3 header.csv", "new 0 edited 0 same 0 number 7\n"),
    done("import a.db clients k3 three.csv", "new 0 edited 0 same 0 number 7\n"),
    # The same key in another book is another key.
    done("import a.db staff k1 header.csv", "new 0 edited 0 same 0 number 10\n"),
    done("export a.db clients", CARDS, quoted(*CLIENTS)),
    done("export a.db clients --form columns", COLUMNS, "a,Anna,,,,,,\n", "b,Bob,,,,,,\n", PAT,
         "q,Quinn,,,,,,\n", "r,Rae,,,,,,\n", "s,Sy,,,,,,\n"),
    done("mirror a.db clients", "pages 1 done yes\n", "            1 a\n", "            2 b\n",
         "            3 p\n", "            6 q\n", "            5 r\n", "            7 s\n",
         TOKEN + "2/7/7\n"),
]


def group(uid, *members):
    return card(uid, uid.upper(), "KIND:group", *(f"MEMBER:{member}" for member in members))


GROUPS_FILES = {
    "groups.csv": CARDS + quoted(
        group("g", "g2", "urn:uuid:x", "nobody"), group("g2", "g", "y"), card("x", "Xi"),
        card("y", "Yo", "KIND:org"), group("none"), group("alone", "alone"),
        group("order", "é", "a", "B", "aa", "x", "x"), card("é", "É"), card("a", "Ann"),
        card("B", "Bob"), card("aa", "Aa"), group("away", "urn:x", "", "b\\,c", "X", "URN:UUID:z"),
        card("two words", "Two"), group("words", "two words"),
    ),
    "all.csv": CARDS + 'h,"BEGIN:VCARD\nVERSION:4.0\nUID:h\nFN:All\nKIND:group\nMEMBER:p\n'
    'MEMBER:q\nEND:VCARD\n"\np,"BEGIN:VCARD\nVERSION:4.0\nUID:p\nFN:Pat\nEND:VCARD\n"\n',
}
# Whom groups reach: people and then missing values, both in the order of their octets.
GROUPS = [
    done("init g.db", "made\n"),
    done("book g.db staff", "book 1\n"),
    done("import g.db staff k groups.csv", "new 14 edited 0 same 0 number 14\n"),
    done("expand g.db staff g", "person x\n", "person y\n", "missing nobody\n"),
    done("expand g.db staff g2", "person x\n", "person y\n", "missing nobody\n"),
    refused("expand g.db staff x", "not-group 17"),
    refused("expand g.db staff y", "not-group 17"),
    refused("expand g.db staff nobody", "no-such-card 4"),
    refused("expand g.db staff urn:uuid:g", "no-such-card 4"),
    refused("expand g.db nobody g", "no-such-book 1"),
    done("expand g.db staff none"),
    done("expand g.db staff alone"),
    done("expand g.db staff order", "person B\n", "person a\n", "person aa\n", "person x\n",
         "person é\n"),
    done("expand g.db staff away", "missing \n", "missing URN:UUID:z\n", "missing X\n",
         "missing b\\,c\n", "missing urn:x\n"),
    done("expand g.db staff words", "person two words\n"),
    refused(["expand", "g.db", "staff", "two words"], "not-group 17"),
    done("import g.db staff l all.csv", "new 2 edited 0 same 0 number 16\n"),
    done("expand g.db staff h", "person p\n", "missing q\n"),
]

# A row of which all fields but one need quotes (RFC 4180): a comma, a quote or a line end in them.
QUOTES = '"q,1","Ann ""A"" Lee",Lee,"Ann, B",a@b,"1,2",Org; Ltd,"line 1\nline 2"\n'
QUOTES_CARD = card(
    "q,1", 'Ann "A" Lee', "N:Lee;Ann\\, B;;;", "EMAIL:a@b", "TEL:1\\,2", "ORG:Org\\; Ltd",
    "NOTE:line 1\\nline 2",
).replace('"', '""')
ROUND_FILES = {
    "quotes.csv": COLUMNS + QUOTES,
    "ann.csv": CARDS + quoted(card("a", "Ann")),
}
# What is exported as cards is imported as the same cards.
ROUND = [
    done("init r.db", "made\n"),
    done("book r.db one", "book 1\n"),
    done("book r.db two", "book 2\n"),
    done("import r.db one k ann.csv", "new 1 edited 0 same 0 number 1\n"),
    done("export r.db one", CARDS, 'a,"BEGIN:VCARD\r\nVERSION:4.0\r\nUID:a\r\nFN:Ann\r\n',
         'END:VCARD\r\n"\n'),
    done("import r.db two k ann.csv", "new 1 edited 0 same 0 number 1\n"),
    done("import r.db two l ann.csv", "new 0 edited 0 same 1 number 1\n"),
    done("import r.db one l quotes.csv", "new 1 edited 0 same 0 number 2\n"),
    done("export r.db one --form columns", COLUMNS, "a,Ann,,,,,,\n", QUOTES),
    done("export r.db one", CARDS, quoted(card("a", "Ann")), f'"q,1","{QUOTES_CARD}"\n'),
]

# Each order on a book that isn't there. An illegal name is that of no book.
NO_BOOK = [
    refused("import a.db nobody k header.csv", "no-such-book 1"),
    refused("export a.db nobody", "no-such-book 1"),
    refused("export a.db nobody --form columns", "no-such-book 1"),
    refused("tally a.db nobody", "no-such-book 1"),
    refused("tally a.db STAFF", "no-such-book 1"),
    refused(["tally", "a.db", ""], "no-such-book 1"),
    refused("forget a.db nobody 1", "no-such-book 1"),
    refused("mirror a.db nobody", "no-such-book 1"),
    refused("mirror a.db nobody --limit 0", "no-such-book 1"),
    refused("expand a.db nobody a", "no-such-book 1"),
]

# Names of books: 1 to 40 of a-z, 0-9 and the hyphen.
NAMES = [
    done("init n.db", "made\n"),
    *(refused(["book", "n.db", name], "bad-book-name 3")
      for name in ["", "Staff", "a_b", "a.b", "a b", "a/b", "é", "a\n", 41 * "a"]),
    done(["book", "n.db", 40 * "a"], "book 1\n"),
    done("book n.db -- -", "book 2\n"),
    done("book n.db 0", "book 3\n"),
    done("book n.db a-z-0-9", "book 4\n"),
    refused("book n.db 0", "book-exists 2"),
]

# Keys of imports: 1 to 64 of A-Z, a-z, 0-9, dot, underscore and hyphen.
KEYS = [
    done("book n.db keys", "book 5\n"),
    *(refused(["import", "n.db", "keys", key, "header.csv"], "bad-key 15")
      for key in ["", "a b", "a/b", "a,b", "é", "a\n", 65 * "k"]),
    *(done(["import", "n.db", "keys", key, "header.csv"], "new 0 edited 0 same 0 number 0\n")
      for key in ["k", "K", "0", "-", "_", ".", 64 * "k", "2026-11-26_K.1"]),
]

# Files of the first schema: nine changes left two live cards, and two removals are remembered.
FIRST_SCHEMA = [
    fault("tally first.db staff", "open 3"),
    done("migrate first.db", "migrated 1\n"),
    fault("migrate first.db", "open 3"),
    done("tally first.db staff", tally(cards=2, created=5, deleted=3, edited=1, number=9,
                                       remembered=2)),
    done("mirror first.db staff", "pages 1 done yes\n", "            4 a\n", "            7 b\n",
         TOKEN + "1/9/9\n"),
    done("export first.db staff", CARDS, quoted(card("a", "Anna"), card("b", "Bob"))),
    done("migrate second.db", "migrated 2\n"),
]

# A book whose number is the greatest, with one card; no change of it is left.
LAST_NUMBER = [
    done("tally last.db staff", tally(cards=1, created=1, edited=999_999_999_999,
                                      number=1_000_000_000_000)),
    done("mirror last.db staff", "pages 1 done yes\n", "1000000000000 a\n",
         TOKEN + "1/1000000000000/1000000000000\n"),
    refused("import last.db staff k three.csv", "changes-spent 13"),
    done("import last.db staff k ann.csv", "new 0 edited 0 same 1 number 1000000000000\n"),
    done("forget last.db staff 1000000000000", "dropped 0 horizon 1000000000000\n"),
]
