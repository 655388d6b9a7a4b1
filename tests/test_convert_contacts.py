"""`contacts convert`: contacts that programs export as CSV, and rows of `export`.

The expected cards and reports are worked out by hand. Whatever is converted must pass `check`, and
the same file gives the same octets.
"""

import csv
import io
import random
import unittest
import uuid
import zipfile

from contact_rows import EXPORTS, KNOWN_HEADERS
from conversion_reports import are_changes, digest, numbers
from converted_cards import added_uid
from csv_texts import csv_text, rows_of
from order_trials import OrderTest
from program import ROOT, Ended, run

HEAD = b"uid,vcard\n"

# The cards of examples/google.csv, without UID and VERSION, their lines in order of the alphabet.
GOOGLE = [
    [
        "ADR;TYPE=home;LABEL=12 Harbour Lane^nExampletown^nA00 X0X0^nIreland:"
        ";;12 Harbour Lane;Exampletown;;A00 X0X0;Ireland",
        "BDAY:19880412",
        "CATEGORIES:Clients",
        "CATEGORIES:myContacts",
        "EMAIL;TYPE=home;PREF=1:mim@family.example",
        "EMAIL;TYPE=work:miriam@example.test",
        "FN:Dr. Miriam Ruth O'Hara",
        "N:O'Hara;Miriam;Ruth;Dr.;",
        "NICKNAME:Mim",
        "NOTE:Likes tea\\, black",
        "ORG:Example Office;Accounts",
        "TEL;TYPE=cell:+1 555-555-0186",
        "TEL;TYPE=work:+1 555-555-0123",
        "TITLE:Clerk",
        "URL;TYPE=work:https://www.example.test/ohara",
    ],
    [
        "BDAY:--0229",
        "CATEGORIES:myContacts",
        "EMAIL;PREF=1:taro@example.test",
        "FN:山田 太郎",
        "N:太郎;山田;;;",
    ],
    [
        "CATEGORIES:Clients",
        "CATEGORIES:myContacts",
        "FN:Vale Supplies",
        "ORG:Vale Supplies",
        "item1.EMAIL;PREF=1:orders@vale.example",
        "item1.X-ABLABEL:Other",
        "item2.TEL:+44 20 7946 0000",
        "item2.X-ABLABEL:Main",
    ],
]
GOOGLE_LINES = [
    "row 1, line 2: the cell of Birthday rewritten",
    "row 2, line 6: the cell of Birthday rewritten",
]
GOOGLE_REPORT = digest(GOOGLE_LINES, 3, 2, 0)

# Outlook's columns. The second row has no value, the fourth is the first one again, and the fifth
# has one cell more than the header.
OUTLOOK_HEAD = ["First Name", "Last Name", "Company", "Business Street", "E-mail Address",
                "E-mail Type", "Mobile Phone", "Birthday", "Notes", "Sensitivity"]
JURGEN = ["Jürgen", "Müller", "Acme", "Hauptstr. 1", "j@x.test", "SMTP", "0171", "4/15/1990",
          "one\r\ntwo", "Normal"]
OUTLOOK_ROWS = [
    JURGEN,
    ["", "", "", "", "", "", "", "0/0/00", "", ""],
    ["Ann", "", "", "", "", "", "", "", "", ""],
    JURGEN,
    ["Bob", "", "", "", "", "", "", "", "", "", "more"],
]
OUTLOOK = [
    [
        "ADR;TYPE=work:;;Hauptstr. 1;;;;",
        "BDAY:19900415",
        "EMAIL:j@x.test",
        "FN:Jürgen Müller",
        "N:Müller;Jürgen;;;",
        "NOTE:one\\ntwo",
        "ORG:Acme",
        "TEL;TYPE=cell:0171",
        "X-E-MAIL-TYPE:SMTP",
        "X-SENSITIVITY:Normal",
    ],
    ["FN:Ann", "N:;Ann;;;"],
]
OUTLOOK_REPORT = digest([
    "row 1, line 2: the cell of E-mail Type kept as X-E-MAIL-TYPE",
    "row 1, line 2: the cell of Birthday rewritten",
    "row 1, line 2: the cell of Sensitivity kept as X-SENSITIVITY",
    "row 4, line 6: an earlier row has the same cells",
    "row 5, line 8: not carried: the row has 11 cells in place of 10",
], 2, 1, 1)


def row_uid(header, cells):
    """The UUID of version 5 of the cells that have a value, each after the name of its column."""
    texts = [(name, cell.replace("\r\n", "\n")) for name, cell in zip(header, cells)]
    filled = [(name, text) for name, text in texts if text.strip() not in ("", "*", "0/0/00")]
    return added_uid("".join(f"{name}\x1f{text}\x1e" for name, text in filled).encode())


def header_of(octets):
    """The cells of the first row."""
    return next(csv.reader(io.StringIO(octets.decode("utf-8-sig"), newline="")))


class ConvertContacts(OrderTest):
    def convert(self, octets, *options, name="contacts.csv"):
        """Converts a file with these octets."""
        (self.folder / name).write_bytes(octets)
        return run("convert", name, *options, cwd=self.folder)

    def checked(self, octets, count):
        """The rows pass `check`, with a report or without."""
        (self.folder / "rows.csv").write_bytes(octets)
        checked = run("check", self.folder / "rows.csv")
        self.assertEqual(Ended(0, b"rows %d\n" % count, b""), checked)

    def lines(self, row):
        """The lines of the card in a row, without its UID and its version, in order."""
        uid, card = row
        lines = card.replace("\r\n ", "").split("\r\n")
        self.assertEqual(["BEGIN:VCARD", "VERSION:4.0", "END:VCARD", ""], lines[:2] + lines[-2:])
        self.assertIn("UID:" + uid, lines)
        return sorted(line for line in lines[2:-2] if line != "UID:" + uid)

    def test_google(self):
        octets = (ROOT / "examples/google.csv").read_bytes()
        ended = self.convert(octets)
        rows = rows_of(ended.out)
        self.assertEqual(GOOGLE, [self.lines(row) for row in rows])
        self.assertEqual((0, GOOGLE_REPORT), (ended.status, ended.err.decode()))
        uids = [row_uid(header_of(octets), cells) for cells in rows_of(octets)]
        self.assertEqual(uids, [row[0] for row in rows])
        self.checked(ended.out, 3)
        self.assertEqual(ended, self.convert(octets), "not the same again")
        # Lines are counted alike whatever ends them.
        report = self.convert(octets.replace(b"\r\n", b"\n")).err.decode()
        self.assertEqual(GOOGLE_REPORT, report)
        # The name of the file doesn't matter.
        self.assertEqual(ended, self.convert(octets, name="contacts.txt"))
        self.assertEqual(ended, self.convert(b"\xef\xbb\xbf" + octets))

    def test_outlook(self):
        for delimiter in ",", ";", "\t":
            with self.subTest(delimiter):
                octets = csv_text([OUTLOOK_HEAD, *OUTLOOK_ROWS], delimiter).encode()
                ended = self.convert(octets)
                rows = rows_of(ended.out)
                self.assertEqual(OUTLOOK, [self.lines(row) for row in rows])
                self.assertEqual((1, OUTLOOK_REPORT), (ended.status, ended.err.decode()))
                wanted = [row_uid(OUTLOOK_HEAD, OUTLOOK_ROWS[place]) for place in (0, 2)]
                self.assertEqual(wanted, [row[0] for row in rows])
                self.checked(ended.out, 2)

    def test_whole_cards(self):
        """The lines of each card in their order, with its UID."""
        for title, octets, lines, changes in EXPORTS:
            with self.subTest(title):
                ended = self.convert(octets)
                due = digest(changes, 1, are_changes(changes), 0)
                self.assertEqual(due, ended.err.decode())
                [[uid, card]] = rows_of(ended.out)
                self.assertEqual(lines[0], "UID:" + uid)
                whole = ["BEGIN:VCARD", "VERSION:4.0", *lines, "END:VCARD", ""]
                self.assertEqual(whole, card.replace("\r\n ", "").split("\r\n"))

    def test_windows_1252(self):
        octets = csv_text([OUTLOOK_HEAD, JURGEN]).encode("cp1252")
        ended = self.convert(octets)
        self.assertEqual([OUTLOOK[0]], [self.lines(row) for row in rows_of(ended.out)])

    def test_utf_16(self):
        octets = (ROOT / "examples/google.csv").read_bytes()
        ended = self.convert(octets)
        for mark, encoding in (b"\xff\xfe", "utf-16-le"), (b"\xfe\xff", "utf-16-be"):
            with self.subTest(encoding):
                coded = mark + octets.decode().encode(encoding)
                self.assertEqual(ended, self.convert(coded))

    def test_no_row(self):
        """A file in which nothing is may be a failed export."""
        nothing = "nothing was converted: there are no cards and no contacts\n"
        for octets in csv_text([OUTLOOK_HEAD]).encode(), b"uid,vcard\n":
            ended = self.convert(octets)
            self.assertEqual(Ended(1, HEAD, (nothing + numbers(0, 0, 0, 0)).encode()), ended)

    def test_a_row_that_is_too_long(self):
        long = ["Ann", *[""] * 7, "x" * 262_144, ""]
        ended = self.convert(csv_text([OUTLOOK_HEAD, long]).encode())
        report = digest(["row 1, line 2: not carried: the text is too long"], 0, 0, 1).encode()
        self.assertEqual(Ended(1, HEAD, report), ended)

    def test_names_of_columns(self):
        header = ["First Name", "E-mail Address", "a\x1b[31mb", "é" * 70]
        ended = self.convert(csv_text([header, ["Ann", "", "1", "2"]]).encode())
        report = digest(["row 1, line 2: the cell of a [31mb kept as X-A--31MB",
                         f"row 1, line 2: the cell of {'é' * 60} kept as X-{'-' * 58}"], 1, 1, 0)
        self.assertEqual((0, report), (ended.status, ended.err.decode()))

    def test_files(self):
        octets = (ROOT / "examples/google.csv").read_bytes()
        (self.folder / "to").mkdir()
        ended = self.convert(octets, "--to", "to")
        report = digest(GOOGLE_LINES, 3, 2, 0, files=3)
        self.assertEqual((0, b"", report), (ended.status, ended.out, ended.err.decode()))
        names = sorted(path.name for path in (self.folder / "to").iterdir())
        uids = [uuid.UUID(row_uid(header_of(octets), cells)) for cells in rows_of(octets)]
        self.assertEqual(sorted(f"{uid}.vcf" for uid in uids), names)
        ended = self.convert(octets, "--rows", 2)
        report = digest(GOOGLE_LINES, 3, 2, 0, files=2)
        self.assertEqual((0, b"", report), (ended.status, ended.out, ended.err.decode()))
        counts = [len(rows_of((self.folder / f"contacts-{number}.csv").read_bytes()))
                  for number in (1, 2)]
        self.assertEqual([2, 1], counts)

    def test_an_export(self):
        end = 'FN:A\r\nNOTE:a\\, "b"\r\nEND:VCARD\r\n'
        cards = [f"BEGIN:VCARD\r\nVERSION:4.0\r\nUID:{uid}\r\n{end}" for uid in "abc"]
        octets = csv_text([["uid", "vcard"], *zip("abc", cards)]).encode()
        for name in "export.csv", "export":
            with self.subTest(name):
                ended = self.convert(octets, name=name)
                self.assertEqual((0, numbers(3, 0, 0, 0).encode()), (ended.status, ended.err))
                self.assertEqual([list(row) for row in zip("abc", cards)], rows_of(ended.out))
        (self.folder / "to").mkdir()
        report = numbers(3, 0, 0, 0, files=3).encode()
        self.assertEqual(Ended(0, b"", report), self.convert(octets, "--to", "to"))
        for uid, card in zip("abc", cards):
            self.assertEqual(card.encode(), (self.folder / "to" / (uid + ".vcf")).read_bytes())

    def test_rows_of_an_export(self):
        """Each row is its second field, or its first one if that is empty, and a line feed. Any
        other field is told, unless it is the UID of the card."""
        first = 'BEGIN:VCARD\r\nFN:A\r\nNOTE:"x"\r\nEND:VCARD\r\n'
        more = [f"BEGIN:VCARD\nFN:{name}\nEND:VCARD" for name in "BCD"]
        rows = [["a", first], ["b", "two"], [more[0]], [more[1], ""], ["", more[2], "e"]]
        ended = self.convert(csv_text([["uid", "vcard"], *rows]).encode(), name="export.csv")
        report = digest([
            "card 1, line 2: the row has another UID, which is left out",
            "card 1, line 2: UID added",
            "line 7: not carried: no card begins here",
            "card 2, line 8: UID added",
            "card 3, line 11: UID added",
            "card 4, line 14: the row has a third cell, which is left out",
            "card 4, line 14: UID added",
        ], 4, 4, 1)
        self.assertEqual((1, report), (ended.status, ended.err.decode()))
        made = rows_of(ended.out)
        self.assertEqual([["FN:A", 'NOTE:"x"'], ["FN:B"], ["FN:C"], ["FN:D"]],
                         [self.lines(row) for row in made])
        texts = [first, *(card + "\n" for card in more)]
        self.assertEqual([added_uid(it.encode()) for it in texts], [row[0] for row in made])

    def test_fields_of_an_export(self):
        """A third cell, and a UID that isn't the card's, are told with the row's own line."""
        def card(uid):
            return f'"BEGIN:VCARD\nVERSION:4.0\nUID:{uid}\nFN:A\nEND:VCARD\n"'

        rows = [f"u1,{card('u1')},more", f"u2,{card('u3')}", f",{card('u4')},,",
                f"u1,{card('u1')},x"]
        ended = self.convert("\n".join(["uid,vcard", *rows, ""]).encode(), name="export.csv")
        told = digest([
            "card 1, line 2: the row has a third cell, which is left out",
            "card 2, line 8: the row has another UID, which is left out",
            "card 4, line 20: an earlier card is the same",
            "card 4, line 20: the row has a third cell, which is left out",
        ], 3, 0, 0)
        self.assertEqual((0, told), (ended.status, ended.err.decode()))
        self.assertEqual(["u1", "u3", "u4"], [row[0] for row in rows_of(ended.out)])

    def test_rows_that_are_no_cards(self):
        """Each is told with its own line, also several in sequence."""
        card = '"BEGIN:VCARD\nVERSION:4.0\nUID:u1\nFN:A\nEND:VCARD\n"'
        rows = ["u6,hello", "u8,hi", f"u1,{card}", "u7,hello", ",,x"]
        for end in "\n", "\r\n":
            with self.subTest(end=end):
                octets = end.join(["uid,vcard", *rows, ""]).encode()
                ended = self.convert(octets, name="export.csv")
                told = digest([f"line {line}: not carried: no card begins here"
                               for line in (2, 3, 10, 11)], 1, 0, 4)
                self.assertEqual((1, told), (ended.status, ended.err.decode()))

    def test_headers_of_an_export(self):
        for title, octets, refused in [
            ("a row that is no card", b"uid,vcard\na,b\n", 1),
            ("a byte order mark", b"\xef\xbb\xbfuid,vcard\r\na,b\r\n", 1),
        ]:
            with self.subTest(title):
                ended = self.convert(octets)
                lines = refused * ["line 2: not carried: no card begins here"]
                report = digest(lines, 0, 0, refused).encode()
                self.assertEqual(Ended(refused, HEAD, report), ended)

    def test_unknown_headers(self):
        known = "has no header of contacts that is known"
        unread = "has a header whose columns aren't known: "
        say = "; say what its columns are, beginning with --columns "
        for title, octets, words in [
            ("no octet", b"", known),
            ("another language", b"Imi\xc4\x99,Nazwisko,Poczta\nAnn,Lee,a@x.test\n",
             unread + "Imi\u0119, Nazwisko" + say
             + "'Imi\u0119=n.given,Nazwisko=n.family'"),
            ("other columns", b"uid,vcards\na,b\n", known + say + "'vcards=fn'"),
            # A file whose addresses and numbers would all be kept aside isn't converted.
            ("unknown reach", b"First Name;Labels;Mail (priv.);Mobil 2\nA;b;a@x.test;1\n",
             unread + "Mail (priv.), Mobil 2" + say
             + "'Mail (priv.)=email,Mobil 2=tel;type=cell'"),
        ]:
            for name in "a.csv", "a.CSV":
                with self.subTest(title, name=name):
                    ended = self.convert(octets, name=name)
                    self.assertEqual((3, f"fault device 1: {name} {words}\n"),
                                     (ended.status, ended.err.decode()))
                    self.assertEqual(b"", ended.out)

    def test_cards_in_a_file_of_another_name(self):
        card = b"BEGIN:VCARD\r\nVERSION:4.0\r\nUID:a\r\nFN:A\r\nEND:VCARD\r\n"
        report = numbers(1, 0, 0, 0).encode()
        for octets in card, b"\xef\xbb\xbf" + card:
            ended = self.convert(octets, name="cards.csv")
            self.assertEqual((0, report), (ended.status, ended.err))
            self.assertEqual([["a", card.decode()]], rows_of(ended.out))

    def names(self, ended):
        """The FN of each card, in order."""
        lines = [line for row in rows_of(ended.out) for line in self.lines(row)]
        return [line[3:] for line in lines if line.startswith("FN:")]

    def test_a_quote_that_is_not_closed(self):
        """Of 1,000 rows one is told, and all others are carried."""
        header = "First Name,Last Name,E-mail Address,Notes\n"
        rows = [f"A{number},Lee,a{number}@x.test,plain\n" for number in range(1, 1001)]
        wanted = [f"A{number} Lee" for number in range(1, 1001) if number != 11]
        long = "a cell has more than 200 lines, or a quote isn't closed"
        short = "a quote isn't closed in its row"
        for title, row, other, why in [
            ("to the end of the file", 'A11,Lee,a11@x.test,"plain\n', "plain", long),
            ("up to a quote of a later row", 'A11,Lee,a11@x.test,"plain\n', '"in quotes"', short),
            ("in the first cell", '"A11,Lee,a11@x.test,plain\n', "plain", long),
            ("text after a quote", 'A11,Lee,a11@x.test,"pl"ain\n', "plain", short),
            ("so that cells are missing", 'A11,"Lee,a11@x.test,plain\n', 'with a quote",', short),
        ]:
            with self.subTest(title):
                line = f"row 11, line 12: not carried: {why}"
                report = digest([line], 999, 0, 1).encode()
                rows[10] = row
                rows[50] = rows[50].replace("plain", other)
                if other.endswith(","):
                    rows[50] = "A51,Lee,a51@x with a quote\",a\n"
                ended = self.convert((header + "".join(rows)).encode())
                self.assertEqual((1, report), (ended.status, ended.err))
                self.assertEqual(wanted, self.names(ended))
                rows[50] = "A51,Lee,a51@x.test,plain\n"

    def test_cells_of_several_lines(self):
        """Cells of up to 200 lines are read as Python's csv reads them; a longer one is told."""
        header = ["First Name", "E-mail Address", "Notes"]
        for count in 1, 2, 199, 200, 201, 300:
            note = "\n".join(f'line "{number}"' for number in range(count))
            octets = csv_text([header, ["Ann", "", note], ["Bob", "", ""]]).encode()
            ended = self.convert(octets)
            with self.subTest(count):
                if count <= 200:
                    [ann, _bob] = rows_of(ended.out)
                    self.assertIn("NOTE:" + note.replace("\n", "\\n"), self.lines(ann))
                    self.assertEqual(0, ended.status)
                else:
                    self.assertEqual(["Bob"], self.names(ended))
                    self.assertEqual(1, ended.status)
                    lost = "row 1, line 2: not carried: a cell has more than 200 lines, or a quote "
                    lost += f"isn't closed, and {count} lines are lost with it\n"
                    self.assertTrue(ended.err.decode().startswith(lost), ended)
                    self.assertEqual(3, ended.err.count(b"\n"))

    def test_faults_of_rows(self):
        header = "First Name,E-mail Address,Notes\r\n"
        for title, row, why in [
            ("more cells", "Ann,a@x.test,,x\r\n", "the row has 4 cells in place of 3"),
            ("more cells after an empty one", "Ann,a@x.test,,,x\r\n", "the row has 5 cells in place of 3"),
            ("fewer cells", "Ann,a@x.test\r\n", "the row has 2 cells in place of 3"),
            ("one cell", "Ann\r\n", "the row has 1 cell in place of 3"),
            ("a NUL", "Ann,a@x.test,a\0b\r\n", "the cell of Notes has a NUL"),
        ]:
            with self.subTest(title):
                ended = self.convert((header + row + "Bob,,\r\n").encode())
                report = digest([f"row 1, line 2: not carried: {why}"], 1, 0, 1)
                self.assertEqual((1, report), (ended.status, ended.err.decode()))
                self.assertEqual(["Bob"], self.names(ended))

    def test_a_date_of_google_that_is_not_read(self):
        """It is told as one, and not as a change of form."""
        ended = self.convert(b"First Name,E-mail 1 - Value,Event 1 - Label,Event 1 - Value\n"
                             b"Pat,p@x.test,Anniversary,31.04.1980\n")
        told = "the cell of Event 1 - Value kept as text: its day, month or year isn't certain"
        report = digest([f"row 1, line 2: {told}"], 1, 1, 0)
        self.assertEqual((0, report), (ended.status, ended.err.decode()))
        [card] = rows_of(ended.out)
        self.assertIn("ANNIVERSARY;VALUE=text:31.04.1980", self.lines(card))

    def test_empty_cells_beyond_the_header(self):
        """They lose nothing, also in a row of several lines."""
        header = "First Name,E-mail Address,Notes\n"
        for row in "Ann,a@x.test,n,\n", "Ann,a@x.test,n,, ,\n", 'Ann,a@x.test,"n\nm",,\n':
            with self.subTest(row):
                ended = self.convert((header + row + "Bob,,\n").encode())
                self.assertEqual((0, numbers(2, 0, 0, 0)), (ended.status, ended.err.decode()))
                self.assertEqual(["Ann", "Bob"], self.names(ended))

    def test_lines_of_rows(self):
        """A row is told with its own line: not with that of an empty one before it."""
        lines = ["First Name,E-mail Address,Shoe,Notes", "", "", 'A,,1,"a\nb"', "", "B,,2,",
                 'C,,3,"x', "D,,4,"]
        kept = "the cell of Shoe kept as X-SHOE"
        report = digest([f"row 1, line 4: {kept}", f"row 2, line 7: {kept}",
                         "row 3, line 8: not carried: a quote isn't closed in its row",
                         f"row 4, line 9: {kept}"], 3, 3, 1)
        for end in "\n", "\r\n", "\r":
            for last in end, "", 3 * end:
                with self.subTest(end=end, last=last):
                    ended = self.convert((end.join(lines) + last).encode())
                    self.assertEqual((1, report), (ended.status, ended.err.decode()))

    def test_cells_that_stand_for_nothing(self):
        """What stands for no date is kept where it is none; a control character is told."""
        header = "First Name,E-mail Address,Birthday,Notes\n"
        for row, lines, has in [
            ("Ann,a@x.test,0/0/00,", [], "FN:Ann"),
            ("Ann,a@x.test,,0/0/00", ["the cell of Notes kept as X-NOTES"], "X-NOTES:0/0/00"),
            ("0.0.00,a@x.test,,", ["the cell of First Name kept as X-FIRST-NAME"],
             "X-FIRST-NAME:0.0.00"),
            ("Ann,a@x.test,,a\x01b\x7f", ["the cell of Notes rewritten"], "NOTE:a b "),
            ("Ann,a@x.test,,a\tb", [], "NOTE:a\tb"),
        ]:
            with self.subTest(row):
                ended = self.convert((header + row + "\n").encode())
                report = digest([f"row 1, line 2: {it}" for it in lines], 1, len(lines), 0)
                self.assertEqual((0, report), (ended.status, ended.err.decode()))
                [card] = rows_of(ended.out)
                self.assertIn(has, self.lines(card))

    def test_rows_that_are_no_loss(self):
        octets = b"First Name,E-mail Address\nAnn,a@x.test\n,\nAnn,a@x.test\nBob,\n\n"
        report = digest(["row 3, line 4: an earlier row has the same cells"], 2, 0, 0).encode()
        ended = self.convert(octets)
        self.assertEqual((0, report), (ended.status, ended.err))
        self.assertEqual(["Ann", "Bob"], self.names(ended))

    def test_long_lines(self):
        """Lines of 9,000,000 octets are told, also with a quote; the lines after them are read."""
        for front in b"", b'"', b'x,"':
            octets = b"First Name,E-mail Address\n" + front + b"x" * 9_000_000 + b"\nBob,\n"
            ended = self.convert(octets)
            self.assertEqual((1, ["Bob"]), (ended.status, self.names(ended)), front)

    def test_uids_last(self):
        """A column without a value changes no UID."""
        header = ["First Name", "Last Name", "E-mail 1 - Value"]
        rows = [["Ann", "Lee", "a@x.test"], ["Bob", "", ""]]
        first = self.convert(csv_text([header, *rows]).encode())
        more = [row[:1] + [""] + row[1:] + ["* "] for row in rows]
        header = ["First Name", "Middle Name", *header[1:], "Phone 1 - Label"]
        later = self.convert(csv_text([header, *more]).encode())
        uids = [[row[0] for row in rows_of(ended.out)] for ended in (first, later)]
        self.assertEqual(*uids)
        self.assertEqual(2, len(set(uids[0])))

    def test_dates(self):
        """One order for the whole file, which its dates say (test_convert_options: if they don't)."""
        told = "the cell of Birthday kept as text: its day, month or year isn't certain"
        for cells, values in [
            (["05/04/1980", "15/04/1980"], [":19800405", ":19800415"]),
            (["05/04/1980", "04/15/1980"], [":19800504", ":19800415"]),
            (["15.04.1980", "5.4.80", "05.04.29"], [":19800415", ":19800405", ":19290405"]),
            (["15-Apr-80", "1-Dez-2001", "3 M\u00e4r 1999"], [":19800415", ":20011201", ":19990303"]),
            (["1980-04-15", "1980/04/15", "19800415", "--04-15"],
             [":19800415", ":19800415", ":19800415", ":--0415"]),
            (["1980-04-15T00:00:00", "15.04.1980 00:00"], [":19800415", ":19800415"]),
            (["30.02.1980", "in spring"], [";VALUE=text:30.02.1980", ";VALUE=text:in spring"]),
            # 2000 was a leap year, 1900 and 2023 were none.
            (["29.02.2000", "29.02.1900", "29.02.2023"],
             [":20000229", ";VALUE=text:29.02.1900", ";VALUE=text:29.02.2023"]),
        ]:
            with self.subTest(cells):
                rows = [[f"A{place}", "a@x.test", cell] for place, cell in enumerate(cells)]
                header = ["First Name", "E-mail Address", "Birthday"]
                ended = self.convert(csv_text([header, *rows]).encode())
                found = [line[4:] for row in rows_of(ended.out) for line in self.lines(row)
                         if line.startswith("BDAY")]
                self.assertEqual(values, found)
                texts = [value.startswith(";VALUE=text") for value in values]
                # The first is told again, as what to look at first.
                lines = [it for it in ended.err.decode().splitlines() if it.startswith("row ")]
                self.assertEqual(sum(texts), sum(told in line for line in lines), ended.err)
                self.assertEqual(0, ended.status)

    def test_known_headers(self):
        """The lines of a card, without its FN, for the columns of other programs."""
        for title, text, lines in KNOWN_HEADERS:
            for octets in text.encode(), text.upper().encode():
                header, _, row = text.partition("\n")
                header = octets.decode().partition("\n")[0]
                with self.subTest(title, header=header[:20]):
                    ended = self.convert(f"{header}\n{row}".encode())
                    [made] = rows_of(ended.out)
                    found = [it for it in self.lines(made) if not it.startswith("X-")]
                    self.assertEqual(sorted(lines), found)
                    self.assertEqual(0, ended.status)

    def test_lines_before_the_header(self):
        card = ["EMAIL:a@x.test", "FN:Ann Lee", "N:Lee;Ann;;;"]
        header = "First Name;Last Name;E-mail Address"
        linked = ('Notes:\n"Some addresses, of friends, are missing."\n\n'
                  "First Name,Last Name,Email Address,Position\nAnn,Lee,a@x.test,\nBob,,,,x\n")
        for title, octets, line in [
            ("sep=", f"sep=;\r\n{header}\r\nAnn;Lee;a@x.test\r\nBob;;;x\r\n", 4),
            ("notes", linked, 6),
            ("a vertical bar", f"{header}\nAnn;Lee;a@x.test\nBob;;;x\n".replace(";", "|"), 3),
        ]:
            with self.subTest(title):
                ended = self.convert(octets.encode())
                self.assertEqual([card], [self.lines(row) for row in rows_of(ended.out)])
                self.assertIn(f"row 2, line {line}: not carried".encode(), ended.err)

    def test_lines_that_end_with_a_carriage_return_alone(self):
        """As programs of Mac OS 9 write them: a bad quote takes its own line with it."""
        for cell in '"5" disk', '"n', 'a"n"':
            with self.subTest(cell):
                lines = ["List of May", "Name,Email,Notes", "A,a@x.test," + cell, "B,b@x.test,n",
                         'C,c@x.test,"one', 'two"', "D,d@x.test,n", ""]
                ended = self.convert("\r".join(lines).encode())
                told = ["line 1: a line above the header isn't carried"]
                names = ["A", "B", "C", "D"]
                if cell.startswith('"'):
                    told += ["row 1, line 3: not carried: a quote isn't closed in its row"]
                    names = names[1:]
                report = digest(told, len(names), 0, len(told) - 1)
                self.assertEqual((len(told) - 1, report), (ended.status, ended.err.decode()))
                self.assertEqual(names, self.names(ended))

    def test_the_header_again(self):
        """As where files were joined; a byte order mark before a row is none of its cells."""
        again = "not carried: it is the header again"
        for rows, names, lines in [
            (["A,a@x.test,", "Name,Email,Notes", "B,b@x.test,"], ["A", "B"],
             [f"row 2, line 3: {again}"]),
            (["\ufeffNOTES, name ,EMAIL", "B,b@x.test,"], ["B"], [f"row 1, line 2: {again}"]),
            (["\ufeffA,a@x.test,", '\ufeff"B",b@x.test,', "\ufeff", "C,c@x.test,"],
             ["A", "B", "C"], []),
            (["Name,,", "Email,e@x.test,Name"], ["Name", "Email"], []),
        ]:
            with self.subTest(rows):
                octets = "".join(row + "\n" for row in ["Name,Email,Notes", *rows]).encode()
                ended = self.convert(octets)
                report = digest(lines, len(names), 0, len(lines))
                self.assertEqual((len(lines), report), (ended.status, ended.err.decode()))
                self.assertEqual(names, self.names(ended))

    def test_the_header_again_in_another_order(self):
        """At most 64 of its names may be in other columns than their own."""
        for moved in 64, 66:
            with self.subTest(moved):
                others = [f"C{place}" for place in range(moved)]
                rows = [["Name", "Email", *others], ["Name", "Email", *others[::-1]],
                        ["Ann", "a@x.test", *others[1:], ""]]
                ended = self.convert("".join(",".join(row) + "\n" for row in rows).encode())
                again = "row 1, line 2: not carried: it is the header again" in ended.err.decode()
                self.assertEqual((moved == 64, 1 if again else 0), (again, ended.status))
                self.assertEqual(["Ann"] if again else ["Name", "Ann"], self.names(ended))

    def test_line_ends_in_a_cell(self):
        """Each of CR LF, CR, LF and CR CR LF ends a line, whatever ends the rows."""
        note = "one\r\ntwo\rthree\nfour\r\r\nfive\n\rsix"
        ended = self.convert(f'Name,Email,Notes\r\nAnn,a@x.test,"{note}"\r\n'.encode())
        [card] = rows_of(ended.out)
        self.assertIn(r"NOTE:one\ntwo\nthree\nfour\nfive\n\nsix", self.lines(card))
        self.assertEqual((0, numbers(1, 0, 0, 0)), (ended.status, ended.err.decode()))
        for end in "\n", "\r", "\r\n", "\r\r\n":
            for inner in "\n", "\r\n", "\r\r\n":
                with self.subTest(end=end, inner=inner):
                    rows = ["Name,Email,Notes", f'Ann,a@x.test,"one{inner}two"', "Bob,b@x.test,n"]
                    ended = self.convert("".join(row + end for row in rows).encode())
                    cards = rows_of(ended.out)
                    self.assertEqual(2, len(cards))
                    self.assertIn(r"NOTE:one\ntwo", self.lines(cards[0]))

    def test_people_above_the_header(self):
        """A line with the header's cells may be a person; all others are told once, as notes."""
        person = "not carried: it is above the header"
        note = "a line above the header isn't carried"
        for above, lines in [
            ("Ann,a@x.test\nBob,b@x.test\n", [f"line 1: {person}", f"line 2: {person}"]),
            ("List of May\n\nAnn,\na,b,c\n",
             ["line 1: 2 lines above the header aren't carried", f"line 3: {person}"]),
            ("List of May\r\n", [f"line 1: {note}"]),
            ("sep=,\n\n,\nList of May\n", [f"line 4: {note}"]),
            ("\ufeffsep=,\r\n\r\n , \r\n", []),
        ]:
            with self.subTest(above):
                ended = self.convert((above + "Name,Email\nZed,z@x.test\n").encode())
                lost = sum(person in line for line in lines)
                self.assertEqual((int(lost > 0), digest(lines, 1, 0, lost)),
                                 (ended.status, ended.err.decode()))
                self.assertEqual(["Zed"], self.names(ended))

    def test_utf_16_without_a_mark(self):
        octets = (ROOT / "examples/google.csv").read_bytes()
        ended = self.convert(octets)
        for encoding in "utf-16-le", "utf-16-be":
            self.assertEqual(ended, self.convert(octets.decode().encode(encoding)), encoding)

    def test_files_of_other_formats(self):
        workbook = io.BytesIO()
        with zipfile.ZipFile(workbook, "w") as archive:
            archive.writestr("xl/workbook.xml", "")
        for octets, words in [
            (workbook.getvalue(), "an Excel workbook; save it as CSV UTF-8"),
            (b"version: 1\ndn: cn=Ann\n", "LDIF; export the contacts as vCard or CSV"),
            (b"%PDF-1.4\n", "a PDF; export the contacts as vCard or CSV"),
            *((octets, "XML or HTML; export the contacts as vCard or CSV") for octets in [
                b"<?xml version='1.0'?>", b"\xef\xbb\xbf\n<!DOCTYPE html>\n", b"<HTML>", b"<table>"]),
            *((octets, "JSON; export the contacts as vCard or CSV") for octets in [
                b'[\n  {"name": "Ann"}]', b'{"vcards": []}', b'["vcard", [["version"]]]', b"[]\n"]),
            (b"begin:VCALENDAR\r\n", "a calendar; export the contacts as vCard or CSV"),
            (b"7z\xbc\xaf'\x1c", "a 7-Zip archive; unpack it, and convert its files"),
            (b"Rar!\x1a\x07", "a RAR archive; unpack it, and convert its files"),
            (b"\xfd7zXZ\x00", "compressed by xz; unpack it, and convert its files"),
            (b"SQLite format 3\x00", "a database of SQLite; export the contacts as vCard or CSV"),
            (b"bplist00\xd1", "a property list of Apple; export the contacts as vCard or CSV"),
            (b"\xff\xd8\xff\xe0", "a picture; export the contacts as vCard or CSV"),
            (b"\x89PNG\r\n", "a picture; export the contacts as vCard or CSV"),
            (b"{\\rtf1 a}", "a text in RTF; export the contacts as vCard or CSV"),
        ]:
            for name in "a.csv", "a.vcf":
                ended = self.convert(octets, name=name)
                self.assertEqual(Ended(3, b"", f"fault device 1: {name} is {words}\n".encode()), ended)

    def test_a_table_that_begins_as_another_format(self):
        """A cell like a tag or an empty list is no sign of HTML or JSON."""
        for cell in "<none>", "<a>", "[]":
            with self.subTest(cell):
                ended = self.convert(f"{cell},Name,Email\n1,Ann,a@x.test\n".encode())
                self.assertEqual((0, ["Ann"]), (ended.status, self.names(ended)))
                ended = self.convert(f"{cell},Ann,a@x.test\n".encode(), "--columns", "#2=fn,#3=email")
                self.assertEqual((0, ["Ann"]), (ended.status, self.names(ended)))
        ended = self.convert(b"<none>,Ann,a@x.test\n")
        self.assertIn(b" has no header of contacts that is known", ended.err)

    def test_random_rows(self):
        """Cells with quotes, commas and line ends are those that Python's csv reads."""
        chance = random.Random(7)
        header = ["First Name", "E-mail Address", "Notes"]
        rows = []
        for number in range(300):
            note = "".join(chance.choice('ab ",;\n') for _ in range(chance.randrange(12)))
            rows.append([f"A{number}", "", note])
        quoting = chance.choice([csv.QUOTE_MINIMAL, csv.QUOTE_ALL])
        file = io.StringIO(newline="")
        csv.writer(file, quoting=quoting).writerows([header, *rows])
        ended = self.convert(file.getvalue().encode())
        self.assertEqual(0, ended.status)
        for row, made in zip(rows, rows_of(ended.out), strict=True):
            note = row[2].replace("\\", "\\\\").replace("\n", "\\n")
            note = note.replace(",", "\\,").replace(";", "\\;")
            notes = ["NOTE:" + note] if row[2].strip() else []
            self.assertEqual(notes, [it for it in self.lines(made) if it.startswith("NOTE")])


if __name__ == "__main__":
    unittest.main()
