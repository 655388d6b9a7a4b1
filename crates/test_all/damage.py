"""Lists damage of tables, and computes the answer of each call over them independently.

It has the same small tables in sqlite3, runs the same statements over them, and then applies the
rules of docs/MODEL.md for each call to the rows. It shares no code with the program. The tables and
the reading of cards are those of the folder `tests`. Run it by hand: it writes the part `damage` of
test_all."""

import pathlib
import sys

sys.path[1:1] = [str(pathlib.Path(__file__).resolve().parents[2] / "tests")]

import parts  # noqa: E402
from calls import answers  # noqa: E402
from table_damage import CRLF, EMPTY, GREATEST, LF, NOT_UTF8  # noqa: E402
from tables import NUMBERS, in_memory, rows_text, small_store  # noqa: E402


def lines():
    """Damage of single rows. A call reads some of them and not others."""
    for column in NUMBERS:
        yield f"staff.{column} below zero", f"UPDATE book SET {column} = -1 WHERE id = 1"
    for label, change in [
            ("changes that don't add up", "edited = 2"), ("a horizon to come", "horizon = 9"),
            ("no change left", "number = 1000000, edited = 999993"),
            ("a change left", "number = 999999, edited = 999992"),
            ("no number left", f"number = {GREATEST}, edited = {GREATEST - 7}"),
            ("more that went than came", "created = 0, deleted = 4"),
            ("as many cards as may be", "created = 101, number = 106"),
            ("a horizon behind each change", "horizon = 8"),
            ("a name that isn't UTF-8", f"name = {NOT_UTF8}"), ("another name", "name = 'x'")]:
        yield f"staff with {label}", f"UPDATE book SET {change} WHERE id = 1"
    for label, change in [
            ("changes that don't add up", "edited = 2"),
            ("no change left", "number = 1000000, edited = 999994"),
            ("as many cards as may be", "created = 102, number = 105"),
            ("a name that isn't UTF-8", f"name = {NOT_UTF8}")]:
        yield f"clients with {label}", f"UPDATE book SET {change} WHERE id = 2"
    yield "the new book's name taken", f"INSERT INTO book VALUES (4, 'new', {EMPTY})"
    yield "the new book's id taken", f"INSERT INTO book VALUES (5, 'more', {EMPTY})"
    for uid in ["ann", "bob", "dee"]:
        for change in ["changed = -1", "changed = 0", "changed = 9", f"changed = {GREATEST}",
                       f"uid = {NOT_UTF8}", "uid = 'zed'", f"card = {NOT_UTF8}", "card = ''",
                       "card = 'BEGIN:VCARD'", f"card = replace(card, {CRLF}, {LF})",
                       "card = replace(card, 'UID:', 'UID:x')", "card = NULL"]:
            yield f"{uid}: {change}", f"UPDATE member SET {change} WHERE book = 1 AND uid = '{uid}'"
    yield "a bad card in the other book", "UPDATE member SET card = 'x' WHERE book = 2"
    yield "Ann's UID taken in the other book", "UPDATE member SET book = 2, uid = 'ann', changed " \
        "= 1, card = replace(card, 'UID:dee', 'UID:ann') WHERE uid = 'dee'"
    yield "a bad card under Ann's UID there", "INSERT INTO member VALUES (2, 'ann', 1, 'x')"
    yield "the other book's next number taken", "UPDATE member SET changed = 7 WHERE uid = 'gus'"
    for column in ["added", "edited", "same", "number"]:
        yield f"the import's {column} below zero", f"UPDATE import_key SET {column} = -1"
    for label, change in [("a great number", f"number = {GREATEST}"),
                          ("another key", "ikey = 'k3'"),
                          ("another key and below zero", "ikey = 'k3', same = -1")]:
        yield f"the import with {label}", f"UPDATE import_key SET {change} WHERE book = 1"
    for keep in [-1, 0, 1, GREATEST]:
        yield f"keep {keep}", f"UPDATE keeping SET keep = {keep}"
    yield "no keep", "DELETE FROM keeping"
    yield "no keep of another book", "DELETE FROM keeping WHERE book = 2"


def main():
    tables = in_memory(small_store())
    given, wanted = [], [rows_text(rows) for rows in tables.all_rows()]
    for label, statements in lines():
        given.append(f"{label}\t{statements}\n")
        wanted.append(f"{label}:{answers(statements)}\n")
    parts.write_rows("damage", "".join(given).encode())
    parts.write_expected("damage", "".join(wanted).encode())


main()
