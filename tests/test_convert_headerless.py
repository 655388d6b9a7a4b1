"""`contacts convert` and `POST /convert`: files of contacts without a header.

What is expected is worked out by hand. The UIDs are those of docs/OPERATING.md, "UIDs", with the
numbers of the columns as their names.
"""

import csv
import io
import re
from urllib.parse import quote

from conversion_reports import digest
from converted_cards import added_uid
from program import run
from test_convert_posts import ConvertTest

SAID = "#1=fn,#2=email"
WIDTH = "not carried: the row has 1 cell in place of {}"


class Headerless(ConvertTest):
    def convert(self, octets, *options, said=SAID, name="a.csv"):
        (self.folder / name).write_bytes(octets)
        return run("convert", name, *options, "--columns", said, cwd=self.folder)

    def cards(self, ended):
        """The UID of each card, and its lines but the first two and the last one, unfolded."""
        rows = list(csv.reader(io.StringIO(ended.out.decode(), newline="")))[1:]
        return [(uid, card.replace("\r\n ", "").split("\r\n")[2:-2]) for uid, card in rows]

    def values(self, ended, name):
        """The values of the lines of this name, in order."""
        lines = [line for _, card in self.cards(ended) for line in card]
        return [line[len(name) + 1:] for line in lines if line.startswith(name + ":")]

    def test_a_quote_in_the_first_row_that_is_not_closed(self):
        """The file's lines end as the line of the quote does, whatever is in cells after it."""
        for end in "\n", "\r\n", "\r":
            for other in "\n", "\r":
                with self.subTest(end=end, other=other):
                    rows = ['"Ann,a@x.test,n', f'Bob,b@x.test,"n{other}m"', "Cy,c@x.test,n", ""]
                    ended = self.convert(end.join(rows).encode(), said="#1=fn,#2=email,#3=note")
                    self.assertEqual((1, ["Bob", "Cy"]), (ended.status, self.values(ended, "FN")))
                    told = "row 1, line 1: not carried: a quote isn't closed in its row\n"
                    self.assertTrue(ended.err.decode().startswith(told), ended.err)

    def test_each_row_is_a_person(self):
        for above, count in ("", 0), ("sep=,\n\n", 2), ("\n\n", 2), ("\ufeff", 0):
            for end in "\n", "\r\n", "\r":
                for last in "", end:
                    with self.subTest(above=above, end=end, last=last):
                        rows = ["Ann Lee,a@x.test,7", 'Bob,b@x.test,"8\n9"', "Cy", "Dee,d@x.test,"]
                        text = above.replace("\n", end) + end.join(rows) + last
                        ended = self.convert(text.encode(), said="#1=fn,#2=email,#3=note")
                        # A cell that has a line feed takes a line more.
                        report = digest([f"row 3, line {count + 4}: {WIDTH.format(3)}"], 3, 0, 1)
                        self.assertEqual((1, report), (ended.status, ended.err.decode()))
                        self.assertEqual(["Ann Lee", "Bob", "Dee"], self.values(ended, "FN"))
                        uid = added_uid(b"#1\x1fAnn Lee\x1e#2\x1fa@x.test\x1e#3\x1f7\x1e")
                        lines = ["FN:Ann Lee", "EMAIL:a@x.test", "NOTE:7", f"UID:{uid}"]
                        found, card = self.cards(ended)[0]
                        self.assertEqual((uid, sorted(lines)), (found, sorted(card)))

    def test_a_header_that_is_known_is_one(self):
        octets = b"Name,Email,Shoe\nAnn,a@x.test,\n"
        ended = self.convert(octets, said="#1=fn,#2=email,#3=note")
        self.assertEqual((0, ["Ann"]), (ended.status, self.values(ended, "FN")))
        ended = self.convert(b"Our list, of May\n" + octets)
        note = "line 1: a line above the header isn't carried\n"
        self.assertEqual((0, ["Ann"]), (ended.status, self.values(ended, "FN")))
        self.assertTrue(ended.err.decode().startswith(note), ended.err)
        # With the entry `rows` none is one.
        for entry in "rows", "rows=comma;cells=3":
            ended = self.convert(octets, said=f"#1=fn,#3=note,{entry}")
            self.assertEqual((0, ["Name", "Ann"]), (ended.status, self.values(ended, "FN")))
        ended = self.convert(octets, said="#4=fn")
        self.assertEqual(3, ended.status)
        self.assertIn(b"there is no column '#4'; there are: Name, Email, Shoe\n", ended.err)

    def test_an_entry_that_says_so(self):
        octets = b"Wer,Adresse\nAnn,a@x.test\n"
        for said, names in [(SAID + ",rows", ["Wer", "Ann"]), ("ROWS ," + SAID, ["Wer", "Ann"]),
                            (SAID + ",rows=comma;cells=2", ["Wer", "Ann"]),
                            (SAID + ",header", ["Ann"]), ("Header, " + SAID, ["Ann"]),
                            ("Wer=fn,#2=email", ["Ann"])]:
            with self.subTest(said):
                ended = self.convert(octets, said=said)
                self.assertEqual((0, names), (ended.status, self.values(ended, "FN")))

    def test_a_first_row_that_looks_like_a_header(self):
        """It is neither lost nor made a person until somebody says which it is."""
        why = ("the first row looks like a header: add the entry 'header', or 'rows' if it is a "
               "person")
        told = f"fault device 1: a.csv, --columns: {why}\n"
        for first, said in [("Wer,Adresse", SAID), ("Wer,Ruf", "#1=fn,#2=tel"),
                            ("\n\nWer,geboren", "#1=fn,#2=bday")]:
            octets = f"{first}\nAnn,a@x.test 1\n".encode()
            with self.subTest(first):
                ended = self.convert(octets, said=said)
                self.assertEqual((3, told, b""), (ended.status, ended.err.decode(), ended.out))
                status, value = self.post(octets, "?columns=" + quote(said))
                self.assertEqual((422, 35), (status, value["number"]))
                self.assertIn(why, value["text"])
        # Nothing in these contradicts its column.
        for first, said in ("Wer,", SAID), ("Wer,x", "#1=fn,#2=note"), (",a@x.test", SAID):
            with self.subTest(first):
                ended = self.convert(f"{first}\nAnn,a@x.test\n".encode(), said=said)
                self.assertEqual(0, ended.status)

    def test_a_fault_comes_before_the_doubt(self):
        """So the cell of a column is read once, however many entries are about it."""
        octets = b"Wer,Adresse\nAnn,a@x.test\n"
        for said, why in [("#1=fn,#2=email,#2=email", "'#2' is given more than once"),
                          ("#2=email,#1=email,#1=fn", "'#1' is given more than once"),
                          ("#2=email,#1=fn,#3=fn", "there is no column '#3'; the number of columns "
                                                   "is 2")]:
            with self.subTest(said):
                ended = self.convert(octets, said=said)
                told = f"fault device 1: a.csv, --columns: {why}\n"
                self.assertEqual((3, told), (ended.status, ended.err.decode()))

    def test_the_form_of_rows(self):
        """It is what the entry says, whatever most rows look like."""
        octets = b"Lee, Ann, Dr.;a@x.test\n"
        for said, names in [(SAID + ",rows=semicolon;cells=2", ["Lee\\, Ann\\, Dr."]),
                            (SAID + ",rows=comma;cells=3", ["Lee"])]:
            with self.subTest(said):
                self.assertEqual(names, self.values(self.convert(octets, said=said), "FN"))
        for entry in ("rows=semicolon", "rows=dot;cells=2", "rows=comma;cells=0",
                      "rows=comma;cells=x"):
            with self.subTest(entry):
                ended = self.convert(octets, said=f"{SAID},{entry}")
                self.assertEqual(3, ended.status)
                self.assertIn(b"is no property here", ended.err)
        ended = self.convert(octets, said="#3=fn,rows=semicolon;cells=2")
        self.assertIn(b"there is no column '#3'; the number of columns is 2\n", ended.err)

    def test_a_suggestion_keeps_the_header(self):
        octets = b'"Mail, alt","Name, ganz"\na@x.test,Ann\n'
        (self.folder / "b.csv").write_bytes(octets)
        ended = run("convert", "b.csv", cwd=self.folder)
        said = re.search(r"--columns '(.*)'", ended.err.decode())[1]
        self.assertEqual((3, "#1=email,#2=fn,header"), (ended.status, said))
        ended = self.convert(octets, said=said)
        self.assertEqual((0, ["Ann"]), (ended.status, self.values(ended, "FN")))

    def test_delimiters(self):
        """That by which most of the first rows have as many cells."""
        for text, names in [
            ("Lee, Ann;a@x.test\nRay, Bob;b@x.test\n", ["Lee\\, Ann", "Ray\\, Bob"]),
            ("Ann\ta@x.test\nBob\tb@x.test, c@x.test\n", ["Ann", "Bob"]),
            ("Ann|a@x.test|x;y\nBob|b@x.test|z\n", ["Ann", "Bob"]),
            ("Ann,a@x.test;x\nBob,b@x.test\nCy,c@x.test\n", ["Ann", "Bob", "Cy"]),
        ]:
            with self.subTest(text):
                ended = self.convert(text.encode())
                self.assertEqual((0, names), (ended.status, self.values(ended, "FN")))

    def test_a_short_row_comes_first(self):
        ended = self.convert(b"Total: 2\nAnn,a@x.test\nBob,b@x.test\n")
        self.assertEqual((1, digest([f"row 1, line 1: {WIDTH.format(2)}"], 2, 0, 1)),
                         (ended.status, ended.err.decode()))
        self.assertEqual(["Ann", "Bob"], self.values(ended, "FN"))

    def test_dates_of_the_first_row(self):
        """They say which number is the day, as all others do."""
        ended = self.convert(b"Ann,15/04/1980\nBob,05/04/1980\n", said="#1=fn,#2=bday")
        self.assertEqual(["19800415", "19800405"], self.values(ended, "BDAY"))

    def test_columns_that_nobody_asked_for(self):
        ended = self.convert(b"Ann,a@x.test,42\n")
        report = digest(["row 1, line 1: the cell of #3 kept as X--3"], 1, 1, 0)
        self.assertEqual((0, report), (ended.status, ended.err.decode()))
        self.assertEqual(["42"], self.values(ended, "X--3"))

    def test_a_column_that_no_row_has(self):
        """The cells of a person are no names to be told."""
        for said, why in [("#1=fn,#3=email", "there is no column '#3'; the number of columns is 2"),
                          ("#4=fn,rows", "there is no column '#4'; the number of columns is 2"),
                          ("#1=fn,#0=email", "there is no column '#0': columns are counted from 1")]:
            ended = self.convert(b"Ann,a@x.test\nBob,b@x.test\n", said=said)
            why += "\n"
            self.assertEqual((3, f"fault device 1: a.csv, --columns: {why}", b""),
                             (ended.status, ended.err.decode(), ended.out))

    def test_several_files(self):
        (self.folder / "c.csv").write_bytes(b"Bob,b@x.test\n")
        ended = self.convert(b"Ann,a@x.test\n", "c.csv")
        self.assertEqual((0, ["Ann", "Bob"]), (ended.status, self.values(ended, "FN")))

    def test_parts(self):
        """A file that is sent in parts gets the same, and no part begins with a header."""
        rows = "".join(f"Ann {number},a{number}@x.test,{number}\n" for number in range(3_000))
        rows += "too short\n" + 'Bob,b@x.test,"open\n' + "Cy,c@x.test,\n"
        said = "#1=fn,#2=email,#3=note"
        form = said + ",rows=comma;cells=3"
        more = "&columns=" + quote(form)
        octets = rows.encode()
        for sizes in [], [20_000], [40_000, 30_001], [len(octets) - 12]:
            with self.subTest(sizes):
                parts = self.compare(octets, "a.csv", sizes, ["--columns", said], more)
                self.assertEqual({0}, {part["header"] for part in parts})
                self.assertEqual({form}, {part["columns"] for part in parts})

    def test_a_later_part_has_the_form_of_the_first(self):
        """By its own rows alone this one would be cut at its commas, into other columns."""
        first = self.part(b"Lee, Ann;a@x.test\nRay, Bob;b@x.test\n", "?columns=" + quote(SAID))
        self.assertEqual(SAID + ",rows=semicolon;cells=2", first["columns"])
        query = f"?line={first['line']}&card={first['card']}&columns="
        last = b"Fox, Cy, Dr.;c@x.test\n"
        part = self.part(last, query + quote(first["columns"]))
        self.assertIn("FN:Fox\\, Cy\\, Dr.", part["rows"][0]["vcard"])
        status, value = self.post(last, query + quote(SAID))
        self.assertEqual((422, 35), (status, value["number"]))
        self.assertIn("needs the entry rows=", value["text"])
        # One with a header that is known needs none.
        self.part(b"Name,Email\nAnn,a@x.test\n", query + quote(SAID))

    def test_a_part_that_begins_with_a_line_feed(self):
        """It was cut between the octets of a CR LF. Its rows are told with their own lines."""
        form = SAID + ",rows=comma;cells=2"
        octets = b"Ann,a@x.test\r\nBob\r\nCy,c@x.test\r\n"
        query = "?columns=" + quote(form)
        for end in 13, 14, 18, 19:
            with self.subTest(end):
                first = self.part(octets[:end], query)
                self.assertEqual(end, first["taken"])
                more = f"{query}&line={first['line']}&card={first['card']}"
                second = self.part(octets[end:], more)
                parts = first, second
                rows = [(row["card"], row["line"]) for part in parts for row in part["rows"]]
                told = [(it["card"], it["line"]) for part in parts for it in part["report"]]
                self.assertEqual(([(1, 1), (3, 3)], [(2, 2)]), (rows, told))

    def test_a_part_that_has_no_whole_row(self):
        """A later part in which no row has all columns is told, and not refused."""
        said = SAID + ",rows=comma;cells=2"
        part = self.part(b"too short\n", "?line=9&card=9&columns=" + quote(said))
        self.assertEqual((0, 1, [{"card": 9, "line": 9, "text": WIDTH.format(2)}]),
                         (part["written"], part["not_carried"], part["report"]))
