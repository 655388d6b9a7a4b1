"""The options of `contacts convert` by which any spreadsheet comes in, and its report in a file.

The expected lines are worked out by hand from RFC 6350.
"""

import re
import unittest

from conversion_reports import digest
from converted_cards import added_uid
from csv_texts import csv_text, rows_of
from order_trials import OrderTest
from program import Ended, run

OPEN = ("fault device 1: {} has dates that may be two, as 05/04/1980; say which number is the day, "
        "by --day-first or --month-first\n")
TARGETS = (
    "fn, n.family, n.given, n.additional, n.prefix, n.suffix, nickname, org, org.unit, title, role, "
    "email, tel, adr, adr.street, adr.city, adr.region, adr.code, adr.country, adr.box, "
    "adr.extended, url, bday, anniversary, note, categories, uid, gender, lang, impp, and - to "
    "leave a column out")

# A spreadsheet of which no column is known but Firma and Titel; what is said of the others; and the
# lines of its first card in the order of the alphabet.
HEADER = ["Kunde", "Rufname", "1. Mail", "2. Mail", "Durchwahl", "Fax Zentrale", "Firma", "Bereich",
          "Anschrift", "PLZ-Nr", "Wohnort", "Geb. am", "Anlage", "Geschl.", "Spr.", "Chat", "Kd-Nr",
          "Titel", "Gruppen"]
SAID = ("Kunde=fn,rufname=nickname,1. Mail=email;type=work,2. Mail=email;TYPE=home,Durchwahl=tel;"
        "type=work,Fax Zentrale=tel;type=work;type=fax,Bereich=org.unit,Anschrift=adr.street;"
        "type=home,PLZ-Nr=adr.code;type=home,Wohnort=adr.city;type=home,#12=bday,Anlage=-,"
        "Geschl.=gender,Spr.=lang, Chat = impp,Kd-Nr=uid,Gruppen=categories")
ROW = ["Ann Lee", "Annie", "ann@x.test", "ann@home.test", "+49 30 1", "+49 30 2", "Acme; GmbH",
       "Verkauf", "Weg 1", "10115", "Berlin", "15.04.1980", "secret", "weiblich", "de",
       "xmpp:ann@x.test", "K-17", "Dr.", "A;B"]
LINES = [
    "ADR;TYPE=home:;;Weg 1;Berlin;;10115;",
    "BDAY:19800415",
    "CATEGORIES:A",
    "CATEGORIES:B",
    "EMAIL;TYPE=home:ann@home.test",
    "EMAIL;TYPE=work:ann@x.test",
    "FN:Ann Lee",
    "GENDER:F;weiblich",
    "IMPP:xmpp:ann@x.test",
    "LANG:de",
    "NICKNAME:Annie",
    "ORG:Acme\\; GmbH;Verkauf",
    "TEL;TYPE=work,fax:+49 30 2",
    "TEL;TYPE=work:+49 30 1",
    "TITLE:Dr.",
    "UID:K-17",
]


def lines_of(card):
    """The lines of a card between VERSION and END, in order."""
    lines = card.replace("\r\n ", "").split("\r\n")
    assert lines[:2] + lines[-2:] == ["BEGIN:VCARD", "VERSION:4.0", "END:VCARD", ""]
    return sorted(lines[2:-2])


def cards_of(ended):
    """The lines of each card that was printed."""
    return [lines_of(card) for _uid, card in rows_of(ended.out)]


def values(ended, name):
    """What follows the name in each line of it, card by card."""
    return [line[len(name):] for card in cards_of(ended) for line in card if line.startswith(name)]


class ConvertOptions(OrderTest):
    maxDiff = None

    def convert(self, octets, *options, name="a.csv", **more):
        """Converts a file with these octets."""
        (self.folder / name).write_bytes(octets)
        return run("convert", name, *options, cwd=self.folder, **more)

    def assert_refused(self, words, ended, name="a.csv"):
        """The file isn't converted, for this reason, and nothing is written."""
        text = words.format(name)
        self.assertEqual(Ended(3, b"", text.encode()), ended)

    # ---- dates

    def dated(self, cells, *options, **more):
        rows = [[f"A{place}", "a@x.test", cell] for place, cell in enumerate(cells)]
        header = ["First Name", "E-mail Address", "Birthday"]
        return self.convert(csv_text([header, *rows]).encode(), *options, **more)

    def test_order_of_dates(self):
        for cells, day, month in [
            (["05/04/1980"], [":19800405"], [":19800504"]),
            (["05/04/1980", "15/04/1980", "04/15/1980"],
             [":19800405", ":19800415", ":19800415"], [":19800504", ":19800415", ":19800415"]),
            (["5-4-80", "05.04.1980"], [":19800405"] * 2, [":19800504", ":19800405"]),
        ]:
            with self.subTest(cells):
                self.assertEqual(day, values(self.dated(cells, "--day-first"), "BDAY"))
                self.assertEqual(month, values(self.dated(cells, "--month-first"), "BDAY"))

    def test_a_file_that_does_not_say_the_order(self):
        (self.folder / "to").mkdir()
        for cells in ["05/04/1980"], ["05/04/1980", "15/04/1980", "04/15/1980"]:
            for options in [], ["--to", "to"], ["--rows", "5"], ["--report", "r"]:
                with self.subTest(cells, options=options):
                    self.assert_refused(OPEN, self.dated(cells, *options))
        self.assertEqual({"a.csv", "to"}, {path.name for path in self.folder.iterdir()})
        self.assertEqual([], list((self.folder / "to").iterdir()))

    def test_dates_that_say_enough(self):
        for cells, wanted in [
            (["05/05/1980"], [":19800505"]),
            (["15/04/1980", "04/15/1980"], [":19800415", ":19800415"]),
            (["0/0/00", "", "1980-04-05"], [":19800405"]),
            (["99/99/1980"], [";VALUE=text:99/99/1980"]),
        ]:
            with self.subTest(cells):
                ended = self.dated(cells)
                self.assertEqual((0, wanted), (ended.status, values(ended, "BDAY")))

    def test_dates_of_a_pipe(self):
        """It is read once, so a date that may be two stays as it is, unless the order is said."""
        text = b"First Name,E-mail Address,Birthday\nAnn,a@x.test,05/04/1980\n"
        for options, wanted in ([], ";VALUE=text:05/04/1980"), (["--day-first"], ":19800405"):
            ended = run("convert", "/dev/stdin", *options, input=text)
            self.assertEqual((0, [wanted]), (ended.status, values(ended, "BDAY")), options)

    # ---- columns

    def test_columns(self):
        for delimiter in ",", ";", "\t":
            ended = self.convert(csv_text([HEADER, ROW], delimiter).encode(), "--columns", SAID)
            report = "columns left out: Anlage\n"
            report += digest(["row 1, line 2: the cell of Geb. am rewritten"], 1, 1, 0)
            self.assertEqual((0, report), (ended.status, ended.err.decode()), delimiter)
            self.assertEqual([LINES], cards_of(ended))
            self.assertNotIn(b"secret", ended.out)

    def test_columns_after_other_lines(self):
        octets = ("sep=;\r\n" + csv_text([HEADER, ROW], ";")).encode()
        self.assertEqual([LINES], cards_of(self.convert(octets, "--columns", SAID)))

    def test_a_person_above_the_columns(self):
        ended = self.convert(csv_text([ROW, HEADER, ROW]).encode(), "--columns", SAID)
        report = "columns left out: Anlage\n" + digest([
            "line 1: not carried: it is above the header",
            "row 1, line 3: the cell of Geb. am rewritten"], 1, 1, 1)
        self.assertEqual((1, report), (ended.status, ended.err.decode()))
        self.assertEqual([LINES], cards_of(ended))

    def test_every_word(self):
        """A column for each word that is told, and the line that it becomes."""
        wanted = {
            "fn": "FN:v", "n.family": "N:v;;;;", "n.given": "N:;v;;;", "n.additional": "N:;;v;;",
            "n.prefix": "N:;;;v;", "n.suffix": "N:;;;;v", "nickname": "NICKNAME:v", "org": "ORG:v",
            "org.unit": "ORG:;v", "title": "TITLE:v", "role": "ROLE:v",
            "adr": "ADR;LABEL=v:;;;;;;", "adr.street": "ADR:;;v;;;;",
            "adr.city": "ADR:;;;v;;;", "adr.region": "ADR:;;;;v;;", "adr.code": "ADR:;;;;;v;",
            "adr.country": "ADR:;;;;;;v", "adr.box": "ADR:v;;;;;;", "adr.extended": "ADR:;v;;;;;",
            "url": "URL:v", "bday": "BDAY;VALUE=text:v", "anniversary": "ANNIVERSARY;VALUE=text:v",
            "note": "NOTE:v", "categories": "CATEGORIES:v", "uid": "UID:v", "gender": "GENDER:;v",
            # These take no such text: it is kept aside.
            "lang": "X-C1:v", "impp": "X-C1:v", "email": "X-C1:v", "tel": "X-C1:v",
        }
        told = re.split(", (?:and )?", TARGETS)
        self.assertEqual(set(told[:-1]), set(wanted))
        for word, line in wanted.items():
            with self.subTest(word):
                ended = self.convert(b"c1,c2\nv,\n", "--columns", f"c1={word}")
                self.assertEqual(0, ended.status)
                [card] = cards_of(ended)
                self.assertIn(line, card)

    def test_columns_that_are_not_named(self):
        """They keep what they have by known headers, but for what a named one takes."""
        octets = csv_text([["Name", "E-Mail", "Wer", "Telefon 9", "Notiz"],
                           ["A", "a@x.test", "Ann Lee", "1", "n"]]).encode()
        ended = self.convert(octets, "--columns", "wer=fn,telefon 9=tel;type=cell")
        self.assertEqual(
            [["EMAIL:a@x.test", "FN:Ann Lee", "NOTE:n", "TEL;TYPE=cell:1", "X-NAME:A"]],
            [[line for line in card if not line.startswith("UID")] for card in cards_of(ended)])
        self.assertIn(b"row 1, line 2: the cell of Name kept as X-NAME\n", ended.err)

    def test_two_columns_of_one_name(self):
        ended = self.convert(b"Wer,Mail,Mail\nAnn,a@x.test,b@x.test\n", "--columns",
                             "Wer=fn,Mail=email")
        self.assertEqual([":a@x.test", ":b@x.test"], values(ended, "EMAIL"))

    def test_letters_beyond_ascii(self):
        octets = "KÜRZEL,Wer\nal,Ann\n".encode()
        ended = self.convert(octets, "--columns", "kürzel=nickname,wer=fn")
        self.assertEqual([":al"], values(ended, "NICKNAME"))

    def test_faults_of_columns(self):
        octets = b"Wer,Mail,Tel\nAnn,a@x.test,1\n"
        for said, why in [
            ("Wer=name", f"'name' is no property here; there are {TARGETS}"),
            ("Wer", "'Wer' isn't COLUMN=PROPERTY"),
            ("Wer=fn,", "'' isn't COLUMN=PROPERTY"),
            ("=fn", "'=fn' isn't COLUMN=PROPERTY"),
            ("Wer=fn,Fax=tel", "there is no column 'Fax'; there are: Wer, Mail, Tel"),
            ("#4=fn", "there is no column '#4'; the number of columns is 3"),
            ("#0=fn", "there is no column '#0': columns are counted from 1"),
            ("Wer=fn,Mail=email;work",
             "';work' after 'Mail=email' isn't ;type=WORD, once for each type"),
            ("Wer=fn,Mail=email;type=a b",
             "';type=a b' after 'Mail=email' isn't ;type=WORD, once for each type"),
            ("Wer=fn;type=work", "'fn' has no types"),
            ("Wer=fn,Mail=fn", "'Mail' isn't the only column given to fn"),
            ("Wer=fn,wer=email", "'wer' is given more than once"),
            ("Wer=fn,#1=-", "'#1' is given more than once"),
            ("Wer=adr.city,Mail=adr.city", "'Mail' isn't the only column given to adr.city"),
            (1_001 * "Wer=fn,", "it has more than 1,000 entries; name only some columns"),
        ]:
            with self.subTest(said):
                ended = self.convert(octets, "--columns", said)
                self.assert_refused("fault device 1: {}, --columns: " + why + "\n", ended)

    def test_columns_of_a_file_without_columns(self):
        card = b"BEGIN:VCARD\r\nVERSION:4.0\r\nUID:a\r\nFN:A\r\nEND:VCARD\r\n"
        rows = csv_text([["uid", "vcard"], ["a", card.decode()]]).encode()
        for octets, said in (rows, "uid=uid"), (rows, "vcard=note"):
            ended = self.convert(octets, "--columns", said)
            self.assert_refused(
                "fault device 1: {}, --columns: the file has cards, and no columns\n", ended)
        self.assert_refused("fault device 1: {}, --columns: the file has cards, and no columns\n",
                            self.convert(card, "--columns", "Wer=fn"))

    def test_a_suggestion(self):
        """Where a header isn't known, the message has what to begin with, and it can be typed."""
        for text, said in [
            ("Imię,Nazwisko,Poczta\nAnn,Lee,a@x.test\n", "Imię=n.given,Nazwisko=n.family"),
            ("First Name;Labels;Mail (priv.);Mobil 2\nA;b;a@x.test;1\n",
             "Mail (priv.)=email,Mobil 2=tel;type=cell"),
            ("Wer,Mail,alt,Tel=2,O'Hara Fax\nAnn,,,1,2\n", "Wer=fn,#4=tel,#5=tel;type=fax"),
            ('"Mail, alt",Kd-Nr\na@x.test,1\n', "#1=email,Kd-Nr=fn"),
            ("Email\na@x.test\n", "Email=email"),
            ("Email,Phone\na@x.test,1\n", "Email=email"),
            ("Lautsprache Vorname,Wer,Position im Betrieb,Mail Label,Mail B\n,Ann,,,a@x.test\n",
             "Wer=fn,Position im Betrieb=title,Mail B=email"),
        ]:
            with self.subTest(text):
                ended = self.convert(text.encode())
                self.assertEqual((3, b""), (ended.status, ended.out))
                told = re.fullmatch(".*; say what its columns are, beginning with --columns '(.*)'\n",
                                    ended.err.decode())
                self.assertEqual(said, told[1])
                self.assertEqual(0, self.convert(text.encode(), "--columns", said).status)

    # ---- UIDs

    def test_uids_of_a_column(self):
        rows = [["uid", "First Name", "E-mail Address"], ["a", "Ann", "a@x.test"],
                ["", "Bob", ""], ["urn:x:1", "Cy", ""], ["x" * 256, "Dee", ""], ["a\tb", "Eve", ""]]
        ended = self.convert(csv_text(rows).encode())
        uids = [row[0] for row in rows_of(ended.out)]
        cells = ["First Name\x1fBob\x1e", None, f"uid\x1f{'x' * 256}\x1eFirst Name\x1fDee\x1e",
                 "uid\x1fa\tb\x1eFirst Name\x1fEve\x1e"]
        wanted = [text and added_uid(text.encode()) for text in cells]
        self.assertEqual(["a", wanted[0], "urn:x:1", *wanted[2:]], uids)
        # An illegal one is kept aside, and told; the first of them again as what to look at first.
        self.assertEqual(3, ended.err.count(b"the cell of uid kept as X-UID"), ended.err)
        # The same person is the same card in a later file, whatever else changed.
        rows[1] = ["a", "Anna", "anna@x.test"]
        self.assertEqual("a", rows_of(self.convert(csv_text(rows).encode()).out)[0][0])

    def test_a_uid_twice(self):
        """The same row twice is carried once. Another row keeps its person, under another UID."""
        octets = b"uid,First Name,E-mail Address\na,Ann,\na,Ann,\na,Bob,\n"
        ended = self.convert(octets)
        report = digest(["row 2, line 3: an earlier row has the same cells",
                         "row 3, line 4: the cell of uid kept as X-UID"], 2, 1, 0).encode()
        self.assertEqual((0, report), (ended.status, ended.err))
        uids = [row[0] for row in rows_of(ended.out)]
        self.assertEqual(["a", added_uid(b"uid\x1fa\x1eFirst Name\x1fBob\x1e")], uids)

    def test_identifiers(self):
        """A UID is computed from the program's own identifier alone."""
        for name, own in [("Object Id", "7"), ("RECORD ID", "7"), ("Id", "0035g00000XyZab"),
                          ("Contact ID", "6f1c2d3e-0000-4000-8000-000000000007")]:
            with self.subTest(name):
                rows = [[name, "First Name", "E-mail Address"], [own, "Ann", "a@x.test"],
                        ["", "Bob", ""]]
                first = self.convert(csv_text(rows).encode())
                rows[1][1] = "Anna"
                later = self.convert(csv_text(rows).encode())
                uid = added_uid(f"{name}\x1f{own}\x1e".encode())
                bob = added_uid(b"First Name\x1fBob\x1e")
                for ended in first, later:
                    self.assertEqual([uid, bob], [row[0] for row in rows_of(ended.out)])

    def test_a_running_number_is_no_identifier(self):
        """Two files that count their rows have other people under the same numbers."""
        for name, own in ("ID", "1"), ("Kontakt-ID", "00000017"), ("Contact ID", "12-345-678"):
            with self.subTest(name):
                uids = []
                for who in "Ann", "Zoe":
                    octets = f"{name},Name,Email\n{own},{who},x@x.test\n".encode()
                    ended = self.convert(octets)
                    self.assertEqual(0, ended.status)
                    uids += [row[0] for row in rows_of(ended.out)]
                cells = f"{name}\x1f{own}\x1eName\x1f%s\x1eEmail\x1fx@x.test\x1e"
                self.assertEqual([added_uid((cells % who).encode()) for who in ("Ann", "Zoe")],
                                 uids)

    def test_an_identifier_that_is_given_to_something_else(self):
        ended = self.convert(b"Id,Wer,Mail\n7,Ann,\n", "--columns", "Id=note,Wer=fn")
        self.assertEqual([":7"], values(ended, "NOTE"))
        self.assertEqual(added_uid(b"Id\x1f7\x1eWer\x1fAnn\x1e"), rows_of(ended.out)[0][0])

    def test_columns_that_are_left_out_change_no_uid(self):
        uids = []
        for seen in "", "today", "yesterday":
            octets = f"Wer,Mail,Seen\nAnn,a@x.test,{seen}\n".encode()
            ended = self.convert(octets, "--columns", "Wer=fn,Mail=email,Seen=-")
            uids += [row[0] for row in rows_of(ended.out)]
        self.assertEqual([added_uid(b"Wer\x1fAnn\x1eMail\x1fa@x.test\x1e")] * 3, uids)

    def imported(self, rows, key):
        """What an import of the converted rows prints, and the FN and EMAIL of each card then."""
        ended = self.convert(csv_text(rows).encode())
        self.assertEqual(0, ended.status, ended)
        (self.folder / "rows.csv").write_bytes(ended.out)
        said = run("import", "a.db", "staff", key, "rows.csv", cwd=self.folder).out.decode()
        found = []
        for card in cards_of(run("export", "a.db", "staff", cwd=self.folder)):
            lines = dict(line.split(":", 1) for line in card)
            found.append((lines["FN"], lines["EMAIL"]))
        return said, sorted(found)

    def test_a_later_export_is_imported(self):
        """Who changed in a later export is edited, if the file has an id of its own; who changed in
        one without an id becomes a second card. Nobody else changes, and nobody goes."""
        for command in ["init", "a.db"], ["book", "a.db", "staff"]:
            self.assertEqual(0, run(*command, cwd=self.folder).status)
        rows = [["Record ID", "First Name", "E-mail Address"],
                ["1", "Ann", "ann@x.test"], ["2", "Bob", "bob@x.test"], ["3", "Cy", "cy@x.test"]]
        said, found = self.imported(rows, "first")
        first = [("Ann", "ann@x.test"), ("Bob", "bob@x.test"), ("Cy", "cy@x.test")]
        self.assertEqual(("new 3 edited 0 same 0 number 3\n", first), (said, found))
        rows = [["First Name", "Middle Name", "E-mail Address", "Record ID"],
                ["Dan", "", "dan@x.test", "4"], ["Bob", "", "bob@y.test", "2"],
                ["Cy", "", "cy@x.test", "3"]]
        said, found = self.imported(rows, "second")
        later = [first[0], ("Bob", "bob@y.test"), first[2], ("Dan", "dan@x.test")]
        self.assertEqual(("new 1 edited 1 same 1 number 5\n", later), (said, found))
        rows = [["First Name", "E-mail Address"], ["Eve", "eve@x.test"], ["Fay", "fay@x.test"]]
        self.imported(rows, "third")
        rows = [["First Name", "Middle Name", "E-mail Address"],
                ["Eve", "", "eve@x.test"], ["Fay", "", "fay@y.test"]]
        said, found = self.imported(rows, "fourth")
        self.assertEqual("new 1 edited 0 same 1 number 8\n", said)
        self.assertEqual([("Eve", "eve@x.test"), ("Fay", "fay@x.test"), ("Fay", "fay@y.test")],
                         found[-3:])

    def test_the_header_of_import(self):
        """The cards are those that `import` makes of the same rows."""
        rows = [["uid", "fn", "family", "given", "email", "tel", "org", "note"],
                ["a", "Ann, Lee", "Lee", "Ann", "a@x.test", "+1 2", "Acme; Co", "one\ntwo"],
                ["b", "Bob", "", "", "", "", "", ""]]
        (self.folder / "rows.csv").write_text(csv_text(rows))
        for words in [["init", "a.db"], ["book", "a.db", "staff"],
                      ["import", "a.db", "staff", "k", "rows.csv"]]:
            self.assertEqual(0, run(*words, cwd=self.folder).status)
        wanted = cards_of(run("export", "a.db", "staff", cwd=self.folder))
        for name in "a.csv", "a.txt":
            ended = self.convert(csv_text(rows).encode(), name=name)
            self.assertEqual((0, wanted), (ended.status, cards_of(ended)))

    # ---- addresses of Exchange

    def test_addresses_of_exchange(self):
        """An address within a server is kept aside. The one of SMTP beside it is the EMAIL."""
        inner = "/o=ExchangeLabs/ou=Exchange Administrative Group/cn=Recipients/cn=0f1e-pat"
        head = ["First Name", "E-mail Address", "E-mail Type", "E-mail Display Name",
                "E-mail 2 Address", "E-mail 2 Type", "E-mail 2 Display Name"]
        for cells, mails in [
            ([inner, "EX", "Pat Lee (pat@example.com)", "", "", ""], ["EMAIL:pat@example.com"]),
            ([inner.upper(), "EX", "Pat (Sales) (pat@example.com) ", "PAT@example.com", "SMTP", ""],
             ["EMAIL:PAT@example.com"]),
            ([inner, "EX", "Pat Lee", "", "", ""], []),
            ([inner, "EX", "Pat (no address)", "", "", ""], []),
            ([inner, "EX", "Pat (a@)", "b@x.test", "SMTP", "B (b@x.test)"], ["EMAIL:b@x.test"]),
            (["a@x.test", "SMTP", "A (other@x.test)", inner, "EX", "B (b@x.test)"],
             ["EMAIL:a@x.test", "EMAIL:b@x.test"]),
        ]:
            with self.subTest(cells):
                ended = self.convert(csv_text([head, ["Pat", *cells]]).encode())
                [row] = rows_of(ended.out)
                found = [line for line in lines_of(row[1]) if line.startswith("EMAIL")]
                self.assertEqual((0, mails), (ended.status, found))
                self.assertRegex(row[1].replace("\r\n ", ""), "(?i)X-E-MAIL-(2-)?ADDRESS:/o=")
                self.assertRegex(ended.err.decode(), "the cell of E-mail (2 )?Address kept as X-")

    # ---- character sets

    def test_charsets(self):
        for name, codec, text in [
            ("ISO-8859-2", "iso8859_2", "Łódź"), ("iso-8859-15", "iso8859_15", "Œuvre €"),
            ("windows-1250", "cp1250", "Łódź"), ("Windows-1251", "cp1251", "Иванов"),
            ("KOI8-R", "koi8_r", "Иванов"), ("ISO-8859-7", "iso8859_7", "Ωμέγα"),
            ("UTF-16LE", "utf-16-le", "Łódź"), ("utf-16be", "utf-16-be", "Иванов"),
            ("UTF-16", "utf-16", "Ωμέγα"), ("UTF-8", "utf-8", "Łódź"),
            ("macintosh", "mac_roman", "Ünal Groß"),
        ]:
            rows = [["Name", "E-Mail", "Note"], [text, "a@x.test", text * 3000]]
            card = f"BEGIN:VCARD\r\nVERSION:3.0\r\nFN:{text}\r\nN:{text};;;;\r\nEND:VCARD\r\n"
            for file in csv_text(rows), card:
                with self.subTest(name, file=file[:5]):
                    ended = self.convert(file.encode(codec), "--charset", name)
                    self.assertEqual(0, ended.status, ended.err)
                    self.assertEqual([":" + text], values(ended, "FN"))
        # Dates are looked for in the same characters.
        dated = csv_text([["Name", "E-Mail", "Geburtstag"], ["Łódź", "", "05/04/1980"]])
        ended = self.convert(dated.encode("utf-16-le"), "--charset", "utf-16le")
        self.assert_refused(OPEN, ended)

    def test_every_octet_of_a_charset(self):
        """Each octet that Python's codec has a character for."""
        for name, codec in [("windows-1252", "cp1252"), ("koi8-u", "koi8_u"),
                            ("macintosh", "mac_roman"), ("X-Mac-Roman", "mac_roman")]:
            first = 0x80 if codec == "mac_roman" else 0xA0
            text = bytes(range(first, 0x100)).decode(codec)
            octets = csv_text([["Name", "E-Mail"], [text, ""]]).encode(codec)
            [fn] = values(self.convert(octets, "--charset", name), "FN:")
            self.assertEqual(text, fn)

    def test_a_charset_that_is_not_known(self):
        for name in "GB2312", "Shift_JIS", "EUC-KR", "x", "":
            ended = self.convert(b"Name,E-Mail\nAnn,\n", "--charset", name)
            words = (f"fault device 1: {name} is no character set that is known here; make UTF-8 of "
                     f"{{}}, as by iconv -f {name}\n")
            self.assert_refused(words, ended)

    # ---- the report

    def test_a_report_in_a_file(self):
        """It has a line for each change, and then the end of what is printed."""
        octets = b"First Name,E-mail Address,Shoe,Birthday\nAnn,a@x.test,38,1980-04-15\nBob,\n"
        ended = self.convert(octets, "--report", "r.txt")
        lines = ["row 1, line 2: the cell of Shoe kept as X-SHOE",
                 "row 1, line 2: the cell of Birthday rewritten",
                 "row 2, line 3: not carried: the row has 2 cells in place of 4"]
        self.assertEqual((1, digest(lines, 1, 1, 1)), (ended.status, ended.err.decode()))
        self.assertEqual(ended, self.convert(octets))
        listed = "".join(line + "\n" for line in lines)
        end = "".join(ended.err.decode().splitlines(True)[2:])
        self.assertEqual(listed + end, (self.folder / "r.txt").read_text())

    def test_a_report_overwrites_nothing(self):
        (self.folder / "r.txt").write_bytes(b"mine")
        ended = self.convert(b"First Name,E-mail Address\nAnn,\n", "--report", "r.txt")
        self.assertEqual(Ended(3, b"", b"fault device 1: r.txt exists\n"), ended)
        self.assertEqual(b"mine", (self.folder / "r.txt").read_bytes())
        ended = self.convert(b"First Name,E-mail Address\nAnn,\n", "--report", "no/r.txt")
        self.assertEqual(Ended(3, b"", b"fault device 1: no/r.txt can't be written\n"), ended)


class Borders(OrderTest):
    def test_cells_of_several_lines_are_carried_over_borders(self):
        """The program reads 65,536 octets at once; the cell has a line feed before the border."""
        header, front = "Name,E-mail 1 - Value,Notes\n", 'Ann,a@x.test,"'
        for after in (1, 2, 30):
            lines = "x" * (65_536 - len(header) - len(front) - after) + "\n" + "y" * 40 + "\nz"
            (self.folder / "a.csv").write_text(f'{header}{front}{lines}"\nBob,b@x.test,n\n')
            ended = run("convert", "a.csv", cwd=self.folder)
            told = b"2 cards written, 0 changed, 0 with parts kept aside, 0 not carried\n"
            self.assertEqual((0, told), (ended.status, ended.err))


if __name__ == "__main__":
    unittest.main()
