"""Damage to the rows of the small store: a list of labels, each with SQL statements.

To add damage, copy a line of `ROWS`, which are for files of either schema, or of `KEEP_ROWS`, which
are for files of the present schema. Beside these each column gets each of a list of values.
"""

from tables import NUMBERS, card

NOT_UTF8 = "CAST(x'ff' AS TEXT)"
CRLF, LF, FOLD = (f"CAST(x'{octets}' AS TEXT)" for octets in ["0d0a", "0a", "0d0a20"])
GREATEST = 2**63 - 1

ANN, BOB = "book = 1 AND uid = 'ann'", "book = 1 AND uid = 'bob'"

# Columns, each with the row that is changed: of the tables that both schemas have, then of others.
NUMBER_COLUMNS = [("book", column, "id = 1") for column in ["id", *NUMBERS]] + [
    ("book", "horizon", "id = 2"), ("member", "book", ANN), ("member", "changed", ANN),
    ("member", "book", BOB), ("member", "changed", BOB),
    *[("import_key", column, "book = 1")
      for column in ["book", "added", "edited", "same", "number"]]]
KEEP_COLUMNS = [("keeping", "book", "book = 1"), ("keeping", "keep", "book = 1")]
META_COLUMNS = [("meta", "val", "name = 'schema'")]
TEXT_COLUMNS = [("book", "name", "id = 1"), ("member", "uid", ANN), ("member", "uid", BOB),
                ("member", "card", ANN), ("member", "card", BOB),
                ("import_key", "ikey", "book = 1"), ("meta", "name", "name = 'schema'")]

# The values that a column is set to; `{}` is the column itself.
NOT_NUMBERS = ["NULL", "'many'", "x'38'", "1.5"]
OTHER_NUMBERS = ["-1", str(GREATEST), "0", "{} + 1", "{} - 1", "{} + 2"]
OTHER_TEXTS = ["NULL", NOT_UTF8, "7", "x'61'", "''", "'a b'", "'Ann'", "'zed'",
               *[f"'{'a' * count}'" for count in [40, 41, 64, 65, 256]]]

OTHER_CARDS = [
    ("with other line ends", f"replace(card, {CRLF}, {LF})"),
    ("with a long line that isn't folded", f"replace(card, {FOLD}, '')"),
    ("folded at another place", f"replace(card, 'FN:Ann', 'FN:A' || {FOLD} || 'nn')"),
    ("with a name in lower case", "replace(card, 'FN:', 'fn:')"),
    ("with another UID", "replace(card, 'UID:ann', 'UID:bob')"),
    ("without a name", f"replace(card, 'FN:Ann' || {CRLF}, '')"),
    ("with two UIDs", f"replace(card, 'FN:', 'UID:ann' || {CRLF} || 'FN:')"),
    ("of another version", "replace(card, '4.0', '3.0')"),
    ("with a mark in front", "CAST(x'efbbbf' AS TEXT) || card"),
    ("without its last line end", f"replace(card, 'END:VCARD' || {CRLF}, 'END:VCARD')"),
    ("with a line after its end", f"card || 'FN:Ann' || {CRLF}"),
    ("with octets that aren't UTF-8", f"replace(card, 'FN:Ann', 'FN:' || {NOT_UTF8})"),
    ("that is canonical all the same", "replace(card, 'FN:Ann', 'FN:Anna')"),
]

EMPTY = "0, 0, 0, 0, 0, 0, 0, 0, 0"
BOB_CARD, BO_CARD = (f"CAST(x'{card(uid, 'Bo').encode().hex()}' AS TEXT)" for uid in ["bob", "bo"])
MANY = ", ".join(f"({count}, 'b{count}', {EMPTY})" for count in range(4, 102))

# For files of either schema.
ROWS = [
    ("nothing changed", "UPDATE book SET id = id"),
    ("a second book of the name", f"INSERT INTO book VALUES (4, 'staff', {EMPTY})"),
    ("a second book of the id", f"INSERT INTO book VALUES (3, 'shelf', {EMPTY})"),
    ("a book with a gap before its id", f"INSERT INTO book VALUES (5, 'shelf', {EMPTY})"),
    ("a book of id 0", f"INSERT INTO book VALUES (0, 'shelf', {EMPTY})"),
    ("a book fewer that has members", "DELETE FROM book WHERE id = 3"),
    ("books whose names changed places", "UPDATE book SET name = 'more' WHERE id = 1; "
     "UPDATE book SET name = 'staff' WHERE id = 2"),
    ("a second member of the UID", "INSERT INTO member VALUES (1, 'ann', 7, NULL)"),
    ("a second member of the number", "INSERT INTO member VALUES (1, 'zoe', 8, NULL)"),
    ("a member of no book", "INSERT INTO member VALUES (9, 'zoe', 1, NULL)"),
    ("a live member too many", f"INSERT INTO member VALUES (1, 'bo', 7, {BO_CARD})"),
    ("a removed member too many", "INSERT INTO member VALUES (1, 'zoe', 7, NULL)"),
    ("more removed members than the keep", "INSERT INTO member VALUES (1, 'zoe', 7, NULL); "
     "INSERT INTO member VALUES (1, 'zed', 3, NULL)"),
    ("a removed member at the horizon", "INSERT INTO member VALUES (2, 'zoe', 4, NULL)"),
    ("a removed member above the horizon", "INSERT INTO member VALUES (2, 'zoe', 5, NULL)"),
    ("a live member fewer", f"DELETE FROM member WHERE {ANN}"),
    ("a removed member fewer", f"DELETE FROM member WHERE {BOB}"),
    ("no member", "DELETE FROM member"),
    ("a removed member with a card", f"UPDATE member SET card = {BOB_CARD} WHERE {BOB}"),
    ("a removed member with a card, and counted so", "UPDATE member SET card = "
     f"{BOB_CARD} WHERE {BOB}; UPDATE book SET deleted = 0, edited = 2 WHERE id = 1"),
    ("a live member without a card", f"UPDATE member SET card = NULL WHERE {ANN}; "
     "UPDATE book SET deleted = 2, edited = 0 WHERE id = 1"),
    ("a member in another book", "UPDATE member SET book = 3, changed = 3 WHERE book = 1 AND "
     "uid = 'dee'"),
    ("two members whose numbers changed places", f"UPDATE member SET changed = 7 WHERE {ANN}; "
     f"UPDATE member SET changed = 4 WHERE {BOB}"),
    ("a second import under the key", "INSERT INTO import_key VALUES (1, 'k1', 0, 0, 0, 0)"),
    ("an import of no book", "INSERT INTO import_key VALUES (9, 'k1', 0, 0, 0, 0)"),
    ("an import too many", "INSERT INTO import_key VALUES (1, 'k3', 0, 0, 0, 8)"),
    ("an import to come", "INSERT INTO import_key VALUES (1, 'k3', 0, 0, 0, 9)"),
    ("no import", "DELETE FROM import_key"),
    ("as many changes as may be", "UPDATE book SET number = 1000000000000, "
     "edited = 999999999993 WHERE id = 1"),
    ("a change more than may be", "UPDATE book SET number = 1000000000001, "
     "edited = 999999999994 WHERE id = 1"),
    ("as many changes as a column may say", f"UPDATE book SET number = {GREATEST}, "
     f"edited = {GREATEST - 7} WHERE id = 1"),
    ("changes past all numbers", f"UPDATE book SET number = {GREATEST}, created = {GREATEST}, "
     f"edited = {GREATEST}, deleted = {GREATEST} WHERE id = 1"),
    ("changes by other reasons", "UPDATE book SET created = 4, imported = 0 WHERE id = 1"),
    ("more that left than came", "UPDATE book SET created = 0, deleted = 4 WHERE id = 1"),
    ("a horizon at the number", "UPDATE book SET horizon = 2 WHERE id = 3"),
    ("a horizon above the number", "UPDATE book SET horizon = 3 WHERE id = 3"),
    ("a horizon below a removal", "UPDATE book SET horizon = 4 WHERE id = 1"),
    ("a horizon at a removal", "UPDATE book SET horizon = 5 WHERE id = 1"),
    ("an index too many", "CREATE INDEX by_card ON member (card)"),
    ("a table too many", "CREATE TABLE more (n INTEGER NOT NULL) STRICT"),
    ("no number of the schema", "DELETE FROM meta"),
    ("a second number of the schema", "INSERT INTO meta VALUES ('schema', 2)"),
    ("another row of the schema's table", "INSERT INTO meta VALUES ('more', 2)"),
    ("another name of the schema's number", "UPDATE meta SET name = 'scheme'"),
    ("a view too many", "CREATE VIEW gone AS SELECT uid FROM member WHERE card IS NULL"),
    ("damage in tables of another schema", "UPDATE meta SET val = 3; "
     "UPDATE book SET number = 9 WHERE id = 1"),
]

# For files of the present schema, which has keeps.
KEEP_ROWS = [
    ("a book more", f"INSERT INTO book VALUES (4, 'shelf', {EMPTY}); "
     "INSERT INTO keeping VALUES (4, 1)"),
    ("a book more without a keep", f"INSERT INTO book VALUES (4, 'shelf', {EMPTY})"),
    ("a book with a keep and a gap before its id", f"INSERT INTO book VALUES (5, 'shelf', "
     f"{EMPTY}); INSERT INTO keeping VALUES (5, 1)"),
    ("101 books", f"INSERT INTO book VALUES {MANY}; "
     f"INSERT INTO keeping VALUES {', '.join(f'({n}, 1)' for n in range(4, 102))}"),
    ("the last book fewer", "DELETE FROM member WHERE book = 3; DELETE FROM import_key WHERE "
     "book = 3; DELETE FROM keeping WHERE book = 3; DELETE FROM book WHERE id = 3"),
    ("a book fewer before the last", "DELETE FROM member WHERE book = 2; DELETE FROM keeping WHERE "
     "book = 2; DELETE FROM book WHERE id = 2"),
    ("a book without its keep", "DELETE FROM keeping WHERE book = 3"),
    ("a second keep of a book", "INSERT INTO keeping VALUES (3, 4)"),
    ("a keep of no book", "INSERT INTO keeping VALUES (9, 4)"),
    ("a keep that is just enough", "UPDATE keeping SET keep = 2 WHERE book = 1"),
    ("a keep that is too small", "UPDATE keeping SET keep = 1 WHERE book = 1"),
    ("no books", "DELETE FROM member; DELETE FROM import_key; DELETE FROM keeping; "
     "DELETE FROM book"),
    ("no keeps' table", "DROP TABLE keeping"),
    ("no imports' table", "DROP TABLE import_key"),
    ("keeps in a table that names no books", "DROP TABLE keeping; "
     "CREATE TABLE keeping (book INTEGER PRIMARY KEY, keep INTEGER) STRICT"),
    ("no table", "DROP TABLE keeping; DROP TABLE import_key; DROP TABLE member; DROP TABLE book; "
     "DROP TABLE meta"),
    ("the first schema", "DROP TABLE keeping; UPDATE meta SET val = 1"),
]


def column_damage(columns, values):
    """Each column with each value."""
    for table, column, where in columns:
        for value in values:
            value = value.format(column)
            short = value if len(value) < 40 else f"{len(value) - 2} letters"
            yield (f"{table}.{column} = {short}, {where}",
                   f"UPDATE {table} SET {column} = {value} WHERE {where}")


def card_damage():
    for label, value in OTHER_CARDS:
        yield f"a card {label}", f"UPDATE member SET card = {value} WHERE {ANN}"


def first_damage():
    """All damage to a file of the first schema."""
    return [*column_damage(NUMBER_COLUMNS + META_COLUMNS, NOT_NUMBERS + OTHER_NUMBERS),
            *column_damage(TEXT_COLUMNS, OTHER_TEXTS), *card_damage(), *ROWS]


def store_damage():
    """All damage to a file of the present schema."""
    return [*column_damage(KEEP_COLUMNS, NOT_NUMBERS + OTHER_NUMBERS), *first_damage(), *KEEP_ROWS]
