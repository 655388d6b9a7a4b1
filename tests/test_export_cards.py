"""`contacts export --vcf`: the cards of a book as one file of vCards, of version 4.0 and 3.0.

The expected cards are in exported_cards.py, worked out by hand. What is written as vCard 3.0 is
converted back: it must be the same card, but for what the README of `vcard_export` names.
"""

import csv
import io
import re
import unittest

from converted_cards import CARDS as CONVERTED, card
from exported_cards import CARDS
from order_trials import OrderTest
from program import ROOT, Ended, run

csv.field_size_limit(1_000_000)


def text(lines):
    """A card's text, folded at 75 octets."""
    return b"".join(folded(line.encode()) for line in lines)


def folded(line):
    pieces, room = [b""], 75
    for char in line.decode():
        octets = char.encode()
        if room < len(octets):
            pieces.append(b" ")
            room = 74
        pieces[-1] += octets
        room -= len(octets)
    return b"\r\n".join(pieces) + b"\r\n"


def rows_of(octets):
    """The UID and the text of each card of an export in the form `cards`."""
    return list(csv.reader(io.StringIO(octets.decode(), newline="")))[1:]


def csv_of(cards):
    out = io.StringIO(newline="")
    csv.writer(out, lineterminator="\n").writerows([("uid", "vcard"), *cards])
    return out.getvalue().encode()


def unfolded(octets):
    return octets.decode().replace("\r\n ", "").split("\r\n")[:-1]


def said(line):
    """What a line says, in one spelling of those that say the same: the order of parameters, quotes
    that needn't be, the case of types, and that a picture or the like is a URI."""
    head, value = re.fullmatch(r'((?:"[^"]*"|[^":])*):(.*)', line, re.DOTALL).groups()
    name, *params = re.findall(r'(?:"[^"]*"|[^";])+', head)
    types, others = set(), []
    for param in params:
        key, words = param.split("=", 1)
        if key.upper() == "TYPE":
            types |= {it.lower() for it in words.replace('"', "").split(",")}
        elif key.upper() == "VALUE" and words.lower() == "uri":
            pass
        else:
            others.append((key.upper(), words.replace('"', "")))
    if name.split(".")[-1] == "TEL" and value.startswith("tel:"):
        value = value[4:]
    return name, frozenset(types), frozenset(others), value


class ExportCards(OrderTest):
    def make_book(self, rows, file="a.db"):
        """Makes a book with the cards of these rows."""
        (self.folder / "rows.csv").write_bytes(rows)
        for words in ["init", file], ["book", file, "staff"]:
            self.assertEqual(0, run(*words, cwd=self.folder).status)
        ended = run("import", file, "staff", "k", "rows.csv", cwd=self.folder)
        self.assertEqual(0, ended.status, ended)

    def export(self, *options, file="a.db"):
        ended = run("export", file, "staff", *options, cwd=self.folder)
        self.assertEqual((0, b""), (ended.status, ended.err))
        return ended.out

    def convert(self, octets):
        (self.folder / "cards.vcf").write_bytes(octets)
        ended = run("convert", "cards.vcf", cwd=self.folder)
        self.assertEqual(0, ended.status, ended)
        return ended.out

    def test_each_line(self):
        """Each card alone, in a book of its own: what is written, and what it is converted to."""
        for number, row in enumerate(CARDS):
            with self.subTest(row.title):
                file = f"{number}.db"
                whole = ["BEGIN:VCARD", "VERSION:4.0", "UID:urn:uuid:a", "FN:Ann \\; B, c", "N:;Ann;;;"]
                self.make_book(csv_of([("", "\r\n".join([*whole, *row.lines, "END:VCARD", ""]))]), file)
                older = ["BEGIN:VCARD", "VERSION:3.0", "UID:urn:uuid:a", "FN:Ann \\; B\\, c",
                         "N:;Ann;;;", *row.older, "END:VCARD"]
                made = self.export("--vcf", "--as", "3.0", file=file)
                self.assertEqual(text(older), made)
                [[_, back]] = rows_of(self.convert(made))
                wanted = ["BEGIN:VCARD", "VERSION:4.0", "UID:urn:uuid:a", "FN:Ann \\; B\\, c",
                          "N:;Ann;;;", *row.back, "END:VCARD"]
                self.assertEqual(wanted, unfolded(back.encode()))

    def test_texts_in_place_of_uris(self):
        """VALUE=text makes a text of what else is a URI or a date: it is escaped as one."""
        lines = ["UID;VALUE=text:a\\\\b", "FN:Ann", "N:;Ann;;;",
                 "RELATED;VALUE=text:C:\\\\new\\, d, e\\;", "RELATED:x\\\\y",
                 "KEY;VALUE=TEXT:a\\\\b", "BDAY;VALUE=text:circa 1800\\, in May"]
        older = ["UID;VALUE=text:a\\\\b", "FN:Ann", "N:;Ann;;;",
                 "RELATED;VALUE=text:C:\\\\new\\, d\\, e\\;", "RELATED:x\\\\\\\\y",
                 "KEY;VALUE=TEXT:a\\\\b", "BDAY;VALUE=text:circa 1800\\, in May"]
        self.make_book(csv_of([("", text(card("4.0", *lines)).decode())]))
        self.assertEqual(text(card("3.0", *older)), self.export("--vcf", "--as", "3.0"))

    def test_missing_names(self):
        """vCard 3.0 requires an N, which is made of the first FN, as one component."""
        for names, made in [(["FN:Ann Lee"], "N:Ann Lee;;;;"),
                            (["FN:", "FN:b"], "N:;;;;"),
                            (["FN:a;b\\;c\\, d, e\\n"], "N:a\\;b\\;c\\, d\\, e\\n;;;;")]:
            with self.subTest(names):
                file = f"{len(names[0])}.db"
                self.make_book(csv_of([("", "\r\n".join(card("4.0", "UID:a", *names, "")))]), file)
                made_lines = unfolded(self.export("--vcf", "--as=3.0", file=file))
                self.assertEqual([made, "END:VCARD"], made_lines[-2:])

    def test_all_converted_cards(self):
        """What `convert` makes of cards of other programs goes out and comes back."""
        cards = []
        for number, row in enumerate(CONVERTED):
            lines = [line for line in row.lines if not re.match(r"([\w-]+\.)?UID:", line)]
            cards.append((f"u{number:03}", text(card("4.0", f"UID:u{number:03}", *lines)).decode()))
        self.make_book(csv_of(cards))
        self.goes_and_comes(cards)

    def test_sample_office(self):
        octets = (ROOT / "examples/sample-office.csv").read_bytes()
        self.make_book(octets)
        self.goes_and_comes(rows_of(self.export()))

    def goes_and_comes(self, cards):
        """Exports the cards as vCard 3.0 and converts them, and exports them as vCard 4.0."""
        self.assertEqual("".join(text for _, text in cards).encode(), self.export("--vcf"))
        older = self.export("--vcf", "--as", "3.0")
        self.assertLessEqual(max(map(len, older.split(b"\r\n"))), 75)
        self.assertEqual(len(cards), older.count(b"BEGIN:VCARD\r\nVERSION:3.0\r\n"))
        back = rows_of(self.convert(older))
        self.assertEqual([uid for uid, _ in cards], [uid for uid, _ in back])
        for (uid, old), (_, new) in zip(cards, back):
            with self.subTest(uid):
                was, now = unfolded(old.encode())[2:-1], unfolded(new.encode())[2:-1]
                if not any(said(line)[0] == "N" for line in was):
                    self.assertTrue(now.pop().startswith("N:"))
                self.assertEqual([said(line) for line in was], [said(line) for line in now])

    def test_into_another_book(self):
        """The file of vCard 4.0 makes the same book, through `convert` and an import."""
        octets = (ROOT / "examples/sample-office.csv").read_bytes()
        self.make_book(octets)
        self.make_book(self.convert(self.export("--vcf")), "b.db")
        self.assertEqual(self.export(), self.export(file="b.db"))
        self.assertEqual(self.export("--vcf"), self.export("--vcf", file="b.db"))
        self.assertEqual(self.export("--vcf"), self.export("--as=4.0", "--vcf"))

    def test_empty_book_and_no_book(self):
        self.make_book(b"uid,vcard\n")
        self.assertEqual(b"", self.export("--vcf"))
        self.assertEqual(b"", self.export("--vcf", "--as", "3.0"))
        for options in [], ["--vcf"], ["--vcf", "--as", "3.0"]:
            self.assertEqual(Ended(1, b"", b"refused no-such-book 1\n"),
                             run("export", "a.db", "clients", *options, cwd=self.folder))

    def test_order_is_that_of_rows(self):
        """Byte order of UID, whatever the order in which the cards came."""
        cards = [(uid, "\r\n".join(card("4.0", f"UID:{uid}", "FN:A", ""))) for uid in "baZé1"]
        self.make_book(csv_of(cards))
        uids = re.findall(rb"^UID:(.*)\r$", self.export("--vcf"), re.MULTILINE)
        self.assertEqual(sorted(uid.encode() for uid, _ in cards), uids)
        self.assertEqual(uids, [uid.encode() for uid, _ in rows_of(self.export())])

    def test_vobject_reads_it(self):
        """Debian's python3-vobject reads each card of vCard 3.0, with the values that were meant."""
        try:
            import vobject
        except ImportError:
            self.skipTest("no python3-vobject on this machine")
        lines = ["UID:a", "FN:Ann\\, B", "NOTE:one\\, two\\nthree", "TEL;VALUE=uri;PREF=1:tel:+1-555",
                 "BDAY:19800412", "PHOTO:data:image/jpeg;base64,/9j/4AAQ",
                 "ADR;LABEL=\"1 Park Lane^nLondon\":;;1 Park Lane;London;;;", "X-LONG:" + "é" * 90]
        self.make_book(csv_of([("", "\r\n".join(card("4.0", *lines, "")))]))
        [read] = vobject.readComponents(self.export("--vcf", "--as", "3.0").decode())
        read.validate()
        self.assertEqual("3.0", read.version.value)
        self.assertEqual("Ann, B", read.fn.value)
        self.assertEqual("Ann, B", read.n.value.family)
        self.assertEqual("one, two\nthree", read.note.value)
        self.assertEqual(("+1-555", ["pref"]), (read.tel.value, read.tel.params["TYPE"]))
        self.assertEqual("1980-04-12", read.bday.value)
        self.assertEqual(bytes([255, 216, 255, 224, 0, 16]), read.photo.value)
        self.assertEqual(["JPEG"], read.photo.params["TYPE"])
        self.assertEqual("1 Park Lane", read.adr.value.street)
        self.assertEqual("1 Park Lane\nLondon", read.label.value)
        self.assertEqual("é" * 90, read.x_long.value)


if __name__ == "__main__":
    unittest.main()
