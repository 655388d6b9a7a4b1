"""The worked rows, each a title and scripts, which are run one after another over new stores.

A line of a script is a line of the list and, if it was worked out by hand, the expected reply after
` => `. rows.py tests that the model gives the same reply. In them `.../` is the prefix of a token,
`COLUMNS` the header of rows in columns, `BOM` a byte order mark, and `[UID NAME]` the text of a
card that has these and nothing else. Between two scripts the stores over tables are opened again."""

# The greatest number of entries of a page, of live cards and of changes of a book, of books, and of
# tombstones of a book.
STANDARD = 100, 10_000, 1_000_000_000_000, 100, 10_000

# Three cards are put into the new book `staff`, one is edited, and one removed; then another one is
# removed and the first one put again; one is put and removed; and one is moved.
FOUR_PUTS = """
create staff => book 1
card staff a FN:Ann => created 1
card staff b FN:Bob => created 2
card staff c FN:Cy => created 3
card staff a FN:Anna => edited 4
"""
FIVE_CHANGES = FOUR_PUTS + """
remove staff b => gone 5
"""
TWO_MORE = """
remove staff c => gone 6
card staff b FN:Bob => created 7
"""
DEE = """
card staff d FN:Dee => created 8
remove staff d => gone 9
"""
# Three cards of the book `desk`, which keeps one tombstone, are removed one after another.
REMOVALS = ["""
report desk - 1 => page 1/1/3 and more | a 1 [a Ann]
remove desk a => gone 4
tally desk => cards 2 created 3 deleted 1 edited 0 horizon 0 import_edited 0 imported 0 moved_in 0 moved_out 0 number 4 remembered 1
""", """
remove desk b => gone 5
tally desk => cards 1 created 3 deleted 2 edited 0 horizon 4 import_edited 0 imported 0 moved_in 0 moved_out 0 number 5 remembered 1
""", """
report desk .../1/1/3 => refused 10 cause 4
report desk .../1/3/3 => refused 10 cause 4
report desk .../1/4/4 => page 1/5/5 | b gone
remove desk c => gone 6
tally desk => cards 0 created 3 deleted 3 edited 0 horizon 5 import_edited 0 imported 0 moved_in 0 moved_out 0 number 6 remembered 1
"""]
A_MOVE = """
create clients => book 2
move staff a clients => moved 10 1
"""

COMMAND_ROWS = [
    ("The report of an empty book",
     """
create staff => book 1
report staff - => page 1/0/0
"""),
    ("Cards are created, edited and removed",
     FIVE_CHANGES),
    ("A book is counted, and its cards are read",
     FIVE_CHANGES, """
tally staff => cards 2 created 3 deleted 1 edited 1 horizon 0 import_edited 0 imported 0 moved_in 0 moved_out 0 number 5 remembered 1
books => books | staff 1 5 0
get staff a => card a 4 [a Anna]
get staff b => refused 4
"""),
    ("A put of the live card changes nothing, and one that expects another version is refused",
     FIVE_CHANGES, """
card staff a FN:Anna => unchanged 4
put staff b 5 [b Bob] => refused 7 has 0
remove staff b => refused 4
"""),
    ("Reports have pages. A page that is exactly full is the last",
     FIVE_CHANGES, """
report staff - 1 => page 1/3/5 and more | c 3 [c Cy]
report staff .../1/3/5 1 => page 1/5/5 | a 4 [a Anna]
report staff - => page 1/5/5 | c 3 [c Cy] | a 4 [a Anna]
report staff .../1/2/2 => page 1/5/5 | c 3 [c Cy] | a 4 [a Anna] | b gone
report staff .../1/4/4 => page 1/5/5 | b gone
report staff .../1/5/6 => refused 10 cause 3
"""),
    ("An initial report has the live cards in the order of their changes",
     FOUR_PUTS, """
report staff - => page 1/4/4 | b 2 [b Bob] | c 3 [c Cy] | a 4 [a Anna]
report staff .../1/2/2 => page 1/4/4 | c 3 [c Cy] | a 4 [a Anna]
report staff .../1/4/4 => page 1/4/4
"""),
    ("The token of a truncated page covers the part that the page has",
     FOUR_PUTS, """
report staff - 1 => page 1/2/4 and more | b 2 [b Bob]
report staff .../1/2/4 1 => page 1/3/4 and more | c 3 [c Cy]
report staff .../1/3/4 1 => page 1/4/4 | a 4 [a Anna]
"""),
    ("A page has the members as they are now",
     FOUR_PUTS, """
card staff c FN:Cyd => edited 5
report staff .../1/2/4 1 => page 1/4/4 and more | a 4 [a Anna]
report staff .../1/4/4 1 => page 1/5/5 | c 5 [c Cyd]
"""),
    ("Changes between pages are reported",
     FIVE_CHANGES, """
remove staff c => gone 6
card staff b FN:Bob => created 7
report staff .../1/3/5 1 => page 1/4/5 and more | a 4 [a Anna]
report staff .../1/4/5 2 => page 1/7/7 | c gone | b 7 [b Bob]
report staff .../1/4/5 1 => page 1/6/6 and more | c gone
report staff .../1/6/6 1 => page 1/7/7 | b 7 [b Bob]
"""),
    ("A card that was created and removed is reported",
     FIVE_CHANGES, TWO_MORE, """
card staff d FN:Dee => created 8
remove staff d => gone 9
report staff .../1/7/7 => page 1/9/9 | d gone
"""),
    ("A card is moved",
     FIVE_CHANGES, TWO_MORE, DEE, A_MOVE),
    ("Both books of a move are counted, and the card is in one of them",
     FIVE_CHANGES, TWO_MORE, DEE, A_MOVE, """
tally staff => cards 1 created 5 deleted 3 edited 1 horizon 0 import_edited 0 imported 0 moved_in 0 moved_out 1 number 10 remembered 3
tally clients => cards 1 created 0 deleted 0 edited 0 horizon 0 import_edited 0 imported 0 moved_in 1 moved_out 0 number 1 remembered 0
get staff a => refused 4
get clients a => card a 1 [a Anna]
get staff b => card b 7 [b Bob]
report staff .../1/9/9 => page 1/10/10 | a gone
"""),
    ("Refused moves get no number",
     FIVE_CHANGES, TWO_MORE, DEE, A_MOVE, """
move staff a clients => refused 4
card clients b FN:Bob => created 2
move staff b clients => refused 8
move staff b staff => refused 9
move nobody b staff => refused 1
move staff b nobody => refused 1
move staff z staff => refused 9
books => books | clients 2 2 0 | staff 1 10 0
"""),
    ("A move with several faults is refused for the first",
     FIVE_CHANGES, TWO_MORE, DEE, """
create clients => book 2
card clients b FN:Bob => created 1
move nobody b nobody => refused 1
move staff c clients 1 => refused 4
move staff b clients 1 => refused 8
move staff a clients 1 => refused 7 has 4
move clients b staff => refused 8
books => books | clients 2 1 0 | staff 1 9 0
"""),
    ("The same card changes nothing",
     FIVE_CHANGES, TWO_MORE, DEE, A_MOVE, """
card staff b FN:Bob => unchanged 7
report staff .../1/10/10 => page 1/10/10
put staff b 6 [b Rob] => refused 7 has 7
"""),
    ("Reports are refused in order, and an old token is accepted",
     FIVE_CHANGES, TWO_MORE, DEE, A_MOVE, """
report staff - 0 => refused 11
report staff .../2/1/1 => refused 10 cause 2
report staff .../1/99/99 => refused 10 cause 3
report staff .../1/07/7 => refused 10 cause 1
report staff .../1/5/4 => refused 10 cause 1
report staff .../1/07/7 0 => refused 10 cause 1
report nobody .../1/07/7 0 => refused 1
report staff .../2/1/1 0 => refused 10 cause 2
report staff .../1/3/5 => page 1/10/10 | c gone | b 7 [b Bob] | d gone | a gone
"""),
    ("A report with several faults is refused for the first",
     FOUR_PUTS, """
report nobody .../1/99/99 0 => refused 1
report staff .../2/99/99 0 => refused 10 cause 2
report staff .../1/99/99 0 => refused 10 cause 3
report staff .../1/4/5 0 => refused 10 cause 3
report staff .../1/4/4 0 => refused 11
"""),
    ("Puts and removals are refused in order. A text that ends after its first line has no VERSION",
     FIVE_CHANGES, r"""
put nobody a 7 BEGIN:VCARD\n => refused 1
put nobody a 7 [z Other] => refused 1
put staff a 7 BEGIN:VCARD\n => refused 5 fault 6
put staff a 7 [z Other] => refused 6
put staff a 7 [a Ann] => refused 7 has 4
put staff b 5 [b Bob] => refused 7 has 0
remove staff b => refused 4
put staff z 7 [z Zoe] => refused 7 has 0
put staff z 0 [z Zoe] => created 6
get nobody a => refused 1
tally nobody => refused 1
remove nobody a => refused 1
remove staff a 7 => refused 7 has 4
report nobody - => refused 1
"""),
    ("A put that expects the current version",
     FOUR_PUTS, """
card staff b FN:Bob => unchanged 2
put staff b 6 [b Rob] => refused 7 has 2
put staff b 0 [b Rob] => refused 7 has 2
put staff b 2 [b Rob] => edited 5
card clients b FN:Rob => refused 1
"""),
    ("A removal that expects the current version",
     FIVE_CHANGES, """
remove nobody b 1 => refused 1
remove staff b 5 => refused 4
remove staff z => refused 4
remove staff a 1 => refused 7 has 4
remove staff a 4 => gone 6
"""),
    ("A new store has no books",
     """
books => books
"""),
    ("Books are listed in the byte order of their names, and have ids in the order of their creation",
     FIVE_CHANGES, """
create clients => book 2
create z => book 3
create - => book 4
create staff-2 => book 5
create z => refused 2
books => books | - 4 0 0 | clients 2 0 0 | staff 1 5 0 | staff-2 5 0 0 | z 3 0 0
"""),
    ("A name has 1 to 40 lower-case letters, digits and hyphens",
     """
create => refused 3
create Staff => refused 3
create staff.1 => refused 3
create büro => refused 3
create aaaaaaaaaabbbbbbbbbbccccccccccddddddddddx => refused 3
create aaaaaaaaaabbbbbbbbbbccccccccccdddddddddd => book 1
create a-0 => book 2
"""),
]

FORGET_ROWS = [
    ("A book forgets its tombstones up to its number. A page's token is accepted for its base, whatever its other number is",
     FIVE_CHANGES, """
report staff - 1
""", """
forget staff 5 => forgot 1 horizon 5
report staff .../1/3/5 1 => page 1/5/5 | a 4 [a Anna]
report staff .../1/4/4 => refused 10 cause 4
forget staff 4 => refused 16
books => books | staff 1 5 5
"""),
    ("It has no more tombstones to forget there, and can't forget beyond its number",
     FIVE_CHANGES, """
forget staff 5
""", """
forget staff 5 => forgot 0 horizon 5
forget staff 6 => refused 16
tally staff => cards 2 created 3 deleted 1 edited 1 horizon 5 import_edited 0 imported 0 moved_in 0 moved_out 0 number 5 remembered 0
forget clients 0 => refused 1
"""),
    ("An initial report that begins after that is paged to its end, even if its members changed long ago",
     FIVE_CHANGES, """
forget staff 5
""", """
report staff - 1 => page 1/3/5 and more | c 3 [c Cy]
report staff .../1/3/5 => page 1/5/5 | a 4 [a Anna]
"""),
    ("Removals after the horizon are remembered, and a token at the horizon gets them",
     FIVE_CHANGES, """
remove staff c => gone 6
forget staff 5 => forgot 1 horizon 5
tally staff => cards 1 created 3 deleted 2 edited 1 horizon 5 import_edited 0 imported 0 moved_in 0 moved_out 0 number 6 remembered 1
report staff .../1/5/5 => page 1/6/6 | c gone
report staff .../1/4/5 => page 1/6/6 | c gone
report staff .../1/2/4 => refused 10 cause 4
forget staff 6 => forgot 1 horizon 6
report staff .../1/5/5 => refused 10 cause 4
report staff .../1/6/6 => page 1/6/6
"""),
]

# A book with a card of its own and one that was moved in, so that its number is 2.
CLIENTS = """
create staff
create clients
card staff m FN:Mo
card clients o FN:Ola
move staff m clients
"""
IMPORT_ROWS = [
    ("The third row has no name, so nothing is imported. Then three cards are imported. The same key gets the same answer, whatever the body is, and another key imports again",
     CLIENTS, r"""
import clients k1 COLUMNS\np,Pat Lee,Lee,Pat,pat@example.test,,,\nq,Quin,,,,,,\nr,,,,,,,\n => refused 14 row 3 cause 4
import clients k1 COLUMNS\np,Pat Lee,Lee,Pat,pat@example.test,,,\nq,Quin,,,,,,\nr,Rae,,,,,,\n => added 3 edited 0 same 0 number 5
import clients k1 COLUMNS\nz,Zoe,,,,,,\n => added 3 edited 0 same 0 number 5
import clients k1 nonsense\n => added 3 edited 0 same 0 number 5
import clients k1 => added 3 edited 0 same 0 number 5
tally clients => cards 5 created 1 deleted 0 edited 0 horizon 0 import_edited 0 imported 3 moved_in 1 moved_out 0 number 5 remembered 0
import clients k2 COLUMNS\np,Pat Lee,Lee,Pat,pat@example.test,,,\nq,Quinn,,,,,,\ns,Sy,,,,,,\n => added 1 edited 1 same 1 number 7
tally clients => cards 6 created 1 deleted 0 edited 0 horizon 0 import_edited 1 imported 4 moved_in 1 moved_out 0 number 7 remembered 0
import clients k1 => added 3 edited 0 same 0 number 5
get clients p => card p 3 BEGIN:VCARD\r\nVERSION:4.0\r\nUID:p\r\nFN:Pat Lee\r\nN:Lee;Pat;;;\r\nEMAIL:pat@example.test\r\nEND:VCARD\r\n
"""),
    ("A missing book is refused first, then a key with a slash, then an empty body",
     """
create staff
""", r"""
import clients k/3 => refused 1
import staff k/3 => refused 15
import staff k3 => refused 14 row 0 cause 1
import staff k3 COLUMNS\n => added 0 edited 0 same 0 number 0
import staff k3 COLUMNS\na,Ann,,,,,,\n => added 0 edited 0 same 0 number 0
books => books | staff 1 0 0
"""),
    ("A card's text as one field, in quotes",
     """
create staff
""", r"""
import staff k uid,vcard\na,"BEGIN:VCARD\nVERSION:4.0\nUID:a\nFN:Ann\nEND:VCARD\n"\n => added 1 edited 0 same 0 number 1
get staff a => card a 1 [a Ann]
card staff a FN:Ann => unchanged 1
"""),
    ("Two rows of one UID are refused, and the reply has the second",
     """
create staff
""", r"""
import staff k COLUMNS\na,Ann,,,,,,\na,Anna,,,,,,\n => refused 14 row 2 cause 41
books => books | staff 1 0 0
"""),
    ("The columns of a row become the card's lines, and are exported as they were imported",
     """
create staff
""", r"""
import staff k COLUMNS\np,Pat Lee,Lee,Pat,pat@example.test,,,\n => added 1 edited 0 same 0 number 1
export staff cards => rows uid,vcard\np,"BEGIN:VCARD\r\nVERSION:4.0\r\nUID:p\r\nFN:Pat Lee\r\nN:Lee;Pat;;;\r\nEMAIL:pat@example.test\r\nEND:VCARD\r\n"\n
export staff columns => rows COLUMNS\np,Pat Lee,Lee,Pat,pat@example.test,,,\n
"""),
    ("Imported cards take the place of tombstones, and a refused import leaves the tally as it was",
     """
create staff => book 1
card staff a FN:Ann => created 1
card staff b FN:Bob => created 2
remove staff a => gone 3
remove staff b => gone 4
""", r"""
tally staff => cards 0 created 2 deleted 2 edited 0 horizon 0 import_edited 0 imported 0 moved_in 0 moved_out 0 number 4 remembered 2
import staff k/3 COLUMNS\na,Ann,,,,,,\n => refused 15
tally staff => cards 0 created 2 deleted 2 edited 0 horizon 0 import_edited 0 imported 0 moved_in 0 moved_out 0 number 4 remembered 2
import staff k COLUMNS\na,Ann,,,,,,\nc,Cy,,,,,,\n => added 2 edited 0 same 0 number 6
tally staff => cards 2 created 2 deleted 2 edited 0 horizon 0 import_edited 0 imported 2 moved_in 0 moved_out 0 number 6 remembered 1
import staff k => added 2 edited 0 same 0 number 6
tally staff => cards 2 created 2 deleted 2 edited 0 horizon 0 import_edited 0 imported 2 moved_in 0 moved_out 0 number 6 remembered 1
forget staff 4 => forgot 1 horizon 4
tally staff => cards 2 created 2 deleted 2 edited 0 horizon 4 import_edited 0 imported 2 moved_in 0 moved_out 0 number 6 remembered 0
import staff k2 COLUMNS\nb,Bob,,,,,,\n => added 1 edited 0 same 0 number 7
tally staff => cards 3 created 2 deleted 2 edited 0 horizon 4 import_edited 0 imported 3 moved_in 0 moved_out 0 number 7 remembered 0
"""),
]

# A group of a group, of a card that is named with `urn:uuid:`, and of a card that is missing; a
# group of the first and of a card; and the two cards.
GROUPS = r"""
create staff
card staff g FN:Staff-g2-urn:uuid:x-nobody\nKIND:group\nMEMBER:g2\nMEMBER:urn:uuid:x\nMEMBER:nobody
card staff g2 FN:Others-g-y\nKIND:group\nMEMBER:g\nMEMBER:y
card staff x FN:Xen
card staff y FN:Yul
"""
WHOLE_BOOK_ROWS = [
    ("A book of one card in both forms",
     """
create staff
card staff a FN:Ann
""", r"""
export staff cards => rows uid,vcard\na,"BEGIN:VCARD\r\nVERSION:4.0\r\nUID:a\r\nFN:Ann\r\nEND:VCARD\r\n"\n
export staff columns => rows COLUMNS\na,Ann,,,,,,\n
"""),
    ("An empty book is exported as the header alone, and a missing book is refused",
     """
create staff
""", r"""
export staff cards => rows uid,vcard\n
export staff columns => rows COLUMNS\n
export clients cards => refused 1
"""),
    ("Cards are in the order of their UIDs, whatever the order of their changes",
     """
create staff
card staff b FN:Bob
card staff c FN:Cy
card staff a FN:Ann
card staff b FN:Rob
remove staff c
""", r"""
export staff columns => rows COLUMNS\na,Ann,,,,,,\nb,Rob,,,,,,\n
"""),
    ("A group reaches the people of all groups within it, also through itself",
     GROUPS, """
people staff g => people x y | missing nobody
people staff g2 => people x y | missing nobody
"""),
    ("A card of another kind has no people, and a removed card isn't found",
     GROUPS, """
people staff x => refused 17
people staff nobody => refused 4
people clients g => refused 1
people clients x => refused 1
"""),
    ("A removed person is missing, and so is a removed group",
     GROUPS, """
remove staff y => gone 5
people staff g => people x | missing nobody y
remove staff g2 => gone 6
people staff g => people x | missing g2 nobody
people staff g2 => refused 4
"""),
    ("A member that was moved to another book is missing, and not found there",
     GROUPS, """
create clients => book 2
move staff y clients => moved 5 1
people staff g2 => people x | missing nobody y
people clients y => refused 17
"""),
    ("A group's row has its members in the form of cards, and hasn't in the form of columns",
     r"""
create staff
card staff g FN:All-a\nKIND:group\nMEMBER:a
""", r"""
export staff cards => rows uid,vcard\ng,"BEGIN:VCARD\r\nVERSION:4.0\r\nUID:g\r\nFN:All-a\r\nKIND:group\r\nMEMBER:a\r\nEND:VCARD\r\n"\n
export staff columns => rows COLUMNS\ng,All-a,,,,,,\n
"""),
    ("Reading all cards changes nothing",
     GROUPS, """
export staff cards
people staff g
""", """
books => books | staff 1 4 0
"""),
]

# With limits of their own.
LIMIT_ROWS = [
    ("A store of one book, with two cards and three changes",
     (1, 2, 3, 1, 10_000), """
create Staff => refused 3
create staff => book 1
create staff => refused 2
create clients => refused 18
card staff a FN:Ann => created 1
card staff b FN:Bob => created 2
card staff c FN:Cy => refused 12
put staff c 7 [c Cy] => refused 7 has 0
remove staff a => gone 3
card staff c FN:Cy => refused 13
remove staff b => refused 13
report staff - 5 => page 1/3/3 | b 2 [b Bob]
"""),
    ("A book of three changes",
     (100, 10, 3, 1, 10_000), """
create staff => book 1
card staff a FN:Ann => created 1
card staff b FN:Bob => created 2
card staff a FN:Anna => edited 3
card staff c FN:Cy => refused 13
card staff b FN:Bob => unchanged 2
"""),
    ("A book of two cards",
     (100, 2, 300, 1, 10_000), """
create staff => book 1
card staff a FN:Ann => created 1
card staff b FN:Bob => created 2
card staff c FN:Cy => refused 12
put staff c 1 [c Cy] => refused 7 has 0
card staff a FN:Anna => edited 3
"""),
    ("A store of one book",
     (100, 2, 300, 1, 10_000), """
create staff => book 1
create staff => refused 2
create clients => refused 18
"""),
    ("A removal gets a number too",
     (100, 10, 2, 1, 10_000), """
create staff => book 1
card staff a FN:Ann => created 1
card staff b FN:Ann => created 2
remove staff a 2 => refused 7 has 1
remove staff a => refused 13
get staff a => card a 1 [a Ann]
"""),
    ("A move needs room in the target, and a number in both books",
     (100, 1, 3, 2, 10_000), """
create staff => book 1
create clients => book 2
card staff a FN:Ann => created 1
card clients b FN:Bob => created 1
move staff a clients => refused 12
remove clients b => gone 2
move staff a clients 1 => moved 2 3
move clients a staff 3 => refused 13
get clients a => card a 3 [a Ann]
"""),
    ("An import needs room for the cards that it adds, and the key of one without room isn't kept",
     (100, 2, 300, 1, 10_000), r"""
create staff => book 1
card staff a FN:Ann => created 1
import staff k COLUMNS\nb,Bob,,,,,,\nc,Cy,,,,,,\n => refused 12
import staff k COLUMNS\na,Anna,,,,,,\nb,Bob,,,,,,\n => added 1 edited 1 same 0 number 3
import staff k2 COLUMNS\na,Anna,,,,,,\nb,Rob,,,,,,\n => added 0 edited 1 same 1 number 4
import staff k3 COLUMNS\nc,Cy,,,,,,\n => refused 12
books => books | staff 1 4 0
"""),
    ("An import needs a number for each card that it adds or edits",
     (100, 10, 3, 1, 10_000), r"""
create staff => book 1
card staff a FN:Ann => created 1
import staff k COLUMNS\nb,Bob,,,,,,\nc,Cy,,,,,,\nd,Dee,,,,,,\n => refused 13
import staff k COLUMNS\na,Ann,,,,,,\nb,Bob,,,,,,\nc,Cy,,,,,,\n => added 2 edited 0 same 1 number 3
import staff k2 COLUMNS\na,Ann,,,,,,\n => added 0 edited 0 same 1 number 3
import staff k3 COLUMNS\na,Anna,,,,,,\n => refused 13
import staff k3 COLUMNS\na,Anna,,,,,,\nb,,,,,,,\n => refused 14 row 2 cause 4
import staff k3 => refused 14 row 0 cause 1
books => books | staff 1 3 0
"""),
    ("Without room and without numbers, the refusal is for room",
     (100, 1, 1, 1, 10_000), r"""
create staff => book 1
import staff k COLUMNS\na,Ann,,,,,,\nb,Bob,,,,,,\n => refused 12
import staff k COLUMNS\na,Ann,,,,,,\n => added 1 edited 0 same 0 number 1
import staff k2 COLUMNS\nb,Bob,,,,,,\n => refused 12
import staff k2 COLUMNS\na,Anna,,,,,,\n => refused 13
import staff k/2 COLUMNS\nb,Bob,,,,,,\n => refused 15
"""),
    ("A book that remembers one tombstone drops those before it, and its horizon is the last that it dropped",
     (100, 10, 300, 1, 1), """
create desk => book 1
card desk a FN:Ann => created 1
card desk b FN:Bob => created 2
card desk c FN:Cy => created 3
""" + "".join(REMOVALS)),
    ("A card that is moved out leaves a tombstone too. A card that is stored again has none, so that nothing is dropped for it",
     (100, 10, 300, 2, 1), """
create staff => book 1
create clients => book 2
card staff a FN:Ann => created 1
card staff b FN:Bob => created 2
move staff a clients => moved 3 1
card staff a FN:Ann => created 4
remove staff b => gone 5
books => books | clients 2 1 0 | staff 1 5 0
remove clients a => gone 2
move staff a clients => moved 6 3
books => books | clients 2 3 0 | staff 1 6 5
tally staff => cards 0 created 3 deleted 1 edited 0 horizon 5 import_edited 0 imported 0 moved_in 0 moved_out 2 number 6 remembered 1
"""),
]

# The first device gets a page of one entry, then two more pages, and then one with Dee.
FIVE_HEARD = FIVE_CHANGES + """
ask 0 1 => page 1/3/5 and more | c 3 [c Cy]
"""
TWO_HEARD = TWO_MORE + """
ask 0 1 => page 1/4/5 and more | a 4 [a Anna]
ask 0 2 => page 1/7/7 | c gone | b 7 [b Bob]
"""
DEE_HEARD = DEE + """
ask 0 => page 1/9/9 | d gone
"""

# With a number of tombstones to keep, and with two devices of `staff` and one of `clients`.
DEVICE_ROWS = [
    ("A truncated page is applied",
     10_000, FIVE_HEARD, """
copy 0 => copy 1/3/5 | c 3 [c Cy]
"""),
    ("A device that applies the next page has the book",
     10_000, FIVE_HEARD, """
ask 0 1 => page 1/5/5 | a 4 [a Anna]
copy 0 => copy 1/5/5 | a 4 [a Anna] | c 3 [c Cy]
"""),
    ("A page has a card as it is now",
     10_000, """
create staff => book 1
card staff a FN:Ann => created 1
card staff b FN:Bob => created 2
card staff c FN:Cy => created 3
card staff a FN:Anna => edited 4
ask 0 2 => page 1/3/4 and more | b 2 [b Bob] | c 3 [c Cy]
card staff b FN:Rob => edited 5
ask 0 2 => page 1/5/5 | a 4 [a Anna] | b 5 [b Rob]
ask 0 2 => page 1/5/5
copy 0 => copy 1/5/5 | a 4 [a Anna] | b 5 [b Rob] | c 3 [c Cy]
"""),
    ("A device of an empty book has nothing but a token",
     10_000, """
create staff => book 1
ask 0 => page 1/0/0
copy 0 => copy 1/0/0
"""),
    ("Changes between pages are on later pages",
     10_000, FIVE_HEARD, TWO_HEARD, """
copy 0 => copy 1/7/7 | a 4 [a Anna] | b 7 [b Bob]
"""),
    ("Pages of one entry give the same copy",
     10_000, FIVE_HEARD, """
remove staff c => gone 6
card staff b FN:Bob => created 7
ask 0 1 => page 1/4/5 and more | a 4 [a Anna]
ask 0 1 => page 1/6/6 and more | c gone
ask 0 1 => page 1/7/7 | b 7 [b Bob]
copy 0 => copy 1/7/7 | a 4 [a Anna] | b 7 [b Bob]
"""),
    ("A card that was created and removed leaves no copy",
     10_000, FIVE_HEARD, TWO_HEARD, DEE_HEARD, """
copy 0 => copy 1/9/9 | a 4 [a Anna] | b 7 [b Bob]
"""),
    ("A moved card leaves the copy",
     10_000, FIVE_HEARD, TWO_HEARD, DEE_HEARD, A_MOVE, """
ask 1 => page 2/1/1 | a 1 [a Anna]
ask 0 => page 1/10/10 | a gone
ask 1 => page 2/1/1
copy 0 => copy 1/10/10 | b 7 [b Bob]
"""),
    ("A moved card is in the other copy. Refused commands, and those that change nothing, are on no page",
     10_000, FIVE_HEARD, TWO_HEARD, DEE_HEARD, A_MOVE, """
ask 1 => page 2/1/1 | a 1 [a Anna]
card clients b FN:Bob => created 2
move staff b clients => refused 8
card staff b FN:Bob => unchanged 7
ask 1 1 => page 2/2/2 | b 2 [b Bob]
ask 0 => page 1/10/10 | a gone
copy 1 => copy 2/2/2 | a 1 [a Anna] | b 2 [b Bob]
"""),
    ("A new device gets both cards at once",
     10_000, FIVE_HEARD, TWO_HEARD, DEE_HEARD, A_MOVE, """
card clients b FN:Bob => created 2
ask 1 => page 2/2/2 | a 1 [a Anna] | b 2 [b Bob]
ask 0 => page 1/10/10 | a gone
copy 1 => copy 2/2/2 | a 1 [a Anna] | b 2 [b Bob]
"""),
    ("A device that was away for long gets all changes at once",
     10_000, FIVE_CHANGES, """
ask 2 1
""", TWO_MORE, DEE, A_MOVE, """
ask 2 => page 1/10/10 | c gone | b 7 [b Bob] | d gone | a gone
copy 2 => copy 1/10/10 | b 7 [b Bob]
"""),
    ("Refused reports change nothing",
     10_000, FIVE_HEARD, """
ask 0 0 => refused 11
ask 1 => refused 1
card staff z FN:Zoe => created 6
copy 0 => copy 1/3/5 | c 3 [c Cy]
"""),
    ("Devices of two books ask among changes of all kinds",
     10_000, """
create staff => book 1
card staff a FN:Ann => created 1
card staff b FN:Bob => created 2
card staff a FN:Anna => edited 3
ask 0 1 => page 1/2/3 and more | b 2 [b Bob]
remove staff b => gone 4
ask 0 => page 1/4/4 | a 3 [a Anna] | b gone
ask 2 => page 1/4/4 | a 3 [a Anna]
create clients => book 2
move staff a clients => moved 5 1
ask 1 => page 2/1/1 | a 1 [a Anna]
ask 0 => page 1/5/5 | a gone
ask 0 0 => refused 11
tally staff => cards 0 created 2 deleted 1 edited 1 horizon 0 import_edited 0 imported 0 moved_in 0 moved_out 1 number 5 remembered 2
books => books | clients 2 1 0 | staff 1 5 0
copy 0 => copy 1/5/5
copy 1 => copy 2/1/1 | a 1 [a Anna]
copy 2 => copy 1/4/4 | a 3 [a Anna]
"""),
    ("No events, no replies",
     10_000, """
copy 0 => copy none
"""),
    ("A device drops a token whose base is forgotten, and then asks for an initial report",
     10_000, FIVE_HEARD, """
remove staff c => gone 6
forget staff 6 => forgot 2 horizon 6
ask 0 => refused 10 cause 4
ask 0 => page 1/6/6 | a 4 [a Anna]
copy 0 => copy 1/6/6 | a 4 [a Anna]
"""),
    ("A device keeps a token at the horizon, and gets the removals after it",
     10_000, FIVE_HEARD, """
remove staff c => gone 6
forget staff 5 => forgot 1 horizon 5
ask 0 => page 1/6/6 | a 4 [a Anna] | c gone
copy 0 => copy 1/6/6 | a 4 [a Anna]
"""),
    ("One card more than the book remembers was removed since the device's page: it drops its token and gets the whole book again",
     1, FIVE_HEARD, """
remove staff c => gone 6
remove staff a => gone 7
card staff d FN:Dee => created 8
ask 0 => refused 10 cause 4
ask 0 => page 1/8/8 | d 8 [d Dee]
copy 0 => copy 1/8/8 | d 8 [d Dee]
"""),
    ("As many cards were removed as the book remembers, and the device gets the removals",
     1, FIVE_HEARD, """
remove staff c => gone 6
ask 0 => page 1/6/6 | a 4 [a Anna] | c gone
copy 0 => copy 1/6/6 | a 4 [a Anna]
"""),
]

DESK = """
create desk => book 1
create shelf => book 2
card desk a FN:Ann => created 1
card desk b FN:Bob => created 2
card desk c FN:Cy => created 3
"""
KEEPING_ROWS = [
    ("A removal drops the oldest tombstone, and the tokens that need it", 1, DESK, *REMOVALS),
    ("A move drops a tombstone in the book that the card leaves, and none in the other", 1, DESK, """
move desk a shelf => moved 4 1
move desk b shelf => moved 5 2
""", """
tally desk => cards 1 created 3 deleted 0 edited 0 horizon 4 import_edited 0 imported 0 moved_in 0 moved_out 2 number 5 remembered 1
report desk .../1/1/3 => refused 10 cause 4
report desk .../1/3/3 => refused 10 cause 4
report desk .../1/4/4 => page 1/5/5 | b gone
tally shelf => cards 2 created 0 deleted 0 edited 0 horizon 0 import_edited 0 imported 0 moved_in 2 moved_out 0 number 2 remembered 0
"""),
    ("A member that is live again has no tombstone", 1, DESK, """
remove desk a => gone 4
card desk a FN:Ann => created 5
tally desk => cards 3 created 4 deleted 1 edited 0 horizon 0 import_edited 0 imported 0 moved_in 0 moved_out 0 number 5 remembered 0
""", """
remove desk b => gone 6
tally desk => cards 2 created 4 deleted 2 edited 0 horizon 0 import_edited 0 imported 0 moved_in 0 moved_out 0 number 6 remembered 1
"""),
    ("After each change a store knows how many tombstones there are, and an opening counts as many", 2, DESK, r"""
tally desk => cards 3 created 3 deleted 0 edited 0 horizon 0 import_edited 0 imported 0 moved_in 0 moved_out 0 number 3 remembered 0
remove desk a => gone 4
remove desk b => gone 5
tally desk => cards 1 created 3 deleted 2 edited 0 horizon 0 import_edited 0 imported 0 moved_in 0 moved_out 0 number 5 remembered 2
card desk a FN:Ann => created 6
card desk d FN:Dee => created 7
tally desk => cards 3 created 5 deleted 2 edited 0 horizon 0 import_edited 0 imported 0 moved_in 0 moved_out 0 number 7 remembered 1
card desk d FN:Dean => edited 8
remove desk d => gone 9
remove desk a 4 => refused 7 has 6
remove desk a => gone 10
tally desk => cards 1 created 5 deleted 4 edited 1 horizon 5 import_edited 0 imported 0 moved_in 0 moved_out 0 number 10 remembered 2
""", r"""
tally desk => cards 1 created 5 deleted 4 edited 1 horizon 5 import_edited 0 imported 0 moved_in 0 moved_out 0 number 10 remembered 2
import desk k COLUMNS\na,Ann,,,,,,\ne,Eve,,,,,,\n => added 2 edited 0 same 0 number 12
tally desk => cards 3 created 5 deleted 4 edited 1 horizon 5 import_edited 0 imported 2 moved_in 0 moved_out 0 number 12 remembered 1
move desk c shelf => moved 13 1
tally desk => cards 2 created 5 deleted 4 edited 1 horizon 5 import_edited 0 imported 2 moved_in 0 moved_out 1 number 13 remembered 2
move shelf c desk => moved 2 14
tally desk => cards 3 created 5 deleted 4 edited 1 horizon 5 import_edited 0 imported 2 moved_in 1 moved_out 1 number 14 remembered 1
tally shelf => cards 0 created 0 deleted 0 edited 0 horizon 0 import_edited 0 imported 0 moved_in 1 moved_out 1 number 2 remembered 1
forget desk 9 => forgot 1 horizon 9
tally desk => cards 3 created 5 deleted 4 edited 1 horizon 9 import_edited 0 imported 2 moved_in 1 moved_out 1 number 14 remembered 0
remove desk c => gone 15
remove desk e => gone 16
remove desk a => gone 17
tally desk => cards 0 created 5 deleted 7 edited 1 horizon 15 import_edited 0 imported 2 moved_in 1 moved_out 1 number 17 remembered 2
""", """
tally desk => cards 0 created 5 deleted 7 edited 1 horizon 15 import_edited 0 imported 2 moved_in 1 moved_out 1 number 17 remembered 2
"""),
]

# A book of 250 cards, as a mirror by pages of 100 has it.
LONG_BOOK = [f"u{place:03}" for place in range(250)]
LONG_BODY = "".join(f"{uid},Name,,,,,,\\n" for uid in LONG_BOOK)
LONG_COPY = "".join(f" | {uid} {number} [{uid} Name]" for number, uid in enumerate(LONG_BOOK, 1))

MORE_ROWS = [
    ("A book of 250 cards is copied in three pages of at most 100", f"""
create staff => book 1
import staff k COLUMNS\\n{LONG_BODY} => added 250 edited 0 same 0 number 250
mirror staff 100 10 => pages 3 done 1/250/250{LONG_COPY}
"""),
    ("A book is copied whole, page by page, or up to a number of pages", FIVE_CHANGES, """
mirror staff 1 10 => pages 2 done 1/5/5 | a 4 [a Anna] | c 3 [c Cy]
mirror staff 2 1 => pages 1 done 1/5/5 | a 4 [a Anna] | c 3 [c Cy]
mirror staff 1 1 => pages 1 more 1/3/5 | c 3 [c Cy]
mirror staff 1 0 => pages 0 more none
mirror nobody 0 0 => pages 0 more none
mirror staff 0 1 => refused 11
mirror nobody 1 1 => refused 1
"""),
    ("A book that forgot tombstones is copied too", FIVE_CHANGES, """
forget staff 5 => forgot 1 horizon 5
mirror staff 1 10 => pages 2 done 1/5/5 | a 4 [a Anna] | c 3 [c Cy]
"""),
    ("Names and UIDs may be left out", FIVE_CHANGES, """
create  => refused 3
people staff  => refused 4
"""),
    ("Malformed commands are refused", FIVE_CHANGES, r"""
report staff .../1/3/99999999999999 => refused 10 cause 1
create aaaaaaaaaabbbbbbbbbbccccccccccddddddddddx => refused 3
tally aaaaaaaaaabbbbbbbbbbccccccccccddddddddddx => refused 1
import staff k COLUMNS\nx,Xen,,,,,,\ny,Yul,,,,,\n => refused 14 row 2 cause 2
import staff k BOMBOMuid,vcard\n => refused 14 row 0 cause 1
import staff k BOMuid,vcard\n => added 0 edited 0 same 0 number 5
books => books | staff 1 5 0
"""),
]

DEVICES = """
device staff
device clients
device staff
"""


def with_keep(keep):
    return STANDARD[:4] + (keep,)


def sections():
    """Each row's title, limits and scripts."""
    plain = COMMAND_ROWS + FORGET_ROWS + IMPORT_ROWS + WHOLE_BOOK_ROWS + MORE_ROWS
    for title, *scripts in plain:
        yield title, STANDARD, scripts
    yield from ((title, limits, scripts) for title, limits, *scripts in LIMIT_ROWS)
    for title, keep, *scripts in KEEPING_ROWS:
        yield title, with_keep(keep), scripts
    for title, keep, first, *scripts in DEVICE_ROWS:
        yield title, with_keep(keep), [DEVICES + first, *scripts]
