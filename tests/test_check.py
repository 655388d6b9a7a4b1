"""`contacts check`: a file of rows or a card, without a store.

What is printed is worked out by hand. The words are in tables here; the rows and numbers of causes
are the plain model's. The refusals are those of an import into an empty book, and of `try`, which
puts a card, of the same octets.
"""

import unittest

from model.cards import BadCard, read_card
from model.rows import BadImport, read_rows
from order_trials import OrderTest, numbered
from program import Ended, run

HEAD = "uid,fn,family,given,email,tel,org,note\n"
ANN = "BEGIN:VCARD\r\nVERSION:4.0\r\nUID:a\r\nFN:Ann\r\nEND:VCARD\r\n"
TOO_LONG = "it has more than 8,388,608 octets; make several files of it"

HEADER = "the header is neither uid,vcard nor uid,fn,family,given,email,tel,org,note"
COUNT = "the number of fields isn't that of the header"

# A name, the text, the faulty row with the number of its cause, and the words.
BAD_ROWS = [
    ("no octet", "", (0, 1), HEADER),
    ("another header", "uid,name\na,Ann\n", (0, 1), HEADER),
    ("seven fields", HEAD + "a,Ann,,,,,\n", (1, 2), COUNT),
    ("nine fields in the second row", HEAD + "a,Ann,,,,,,\nb,Bo,,,,,,,\n", (2, 2), COUNT),
    ("an empty name", HEAD + "a,Ann,,,,,,\nb,,,,,,,\n", (2, 4), "the name is empty"),
    ("an empty UID", HEAD + ",Ann,,,,,,\n", (1, 30), "the UID is empty, too long or has a tab"),
    ("a UID twice", HEAD + "a,Ann,,,,,,\nb,Bo,,,,,,\na,Ann,,,,,,\n", (3, 41),
     "an earlier row has the same UID"),
    ("a UID that isn't the card's", 'uid,vcard\nb,"' + ANN + '"\n', (1, 40),
     "the field uid isn't the UID of the card"),
    ("a card of vCard 3.0", 'uid,vcard\n,"' + ANN.replace("4.0", "3.0") + '"\n', (1, 26),
     "line 2: the version isn't 4.0; try contacts convert"),
    ("a card of vCard 3.0 in the second row",
     'uid,vcard\na,"' + ANN + '"\n,"' + ANN.replace("4.0", "3.0") + '"\n', (2, 26),
     "line 2: the version isn't 4.0; try contacts convert"),
    ("a control character in a card", 'uid,vcard\na,"' + ANN.replace("Ann", "A\x01n") + '"\n',
     (1, 23), "line 4: a line has a control character"),
    ("a line after a folded one", 'uid,vcard\n,"' + ANN.replace("UID:a", "NOTE:\n one\nUID\n a")
     + '"\n', (1, 24), "line 5: a line isn't a property line"),
    ("a card that is cut off", 'uid,vcard\n,"' + ANN[:-len("END:VCARD\r\n")] + '"\n', (1, 27),
     "END:VCARD is missing"),
    ("a control character in a column", HEAD + "a,A\x01n,,,,,,\n", (1, 23),
     "a line has a control character"),
    ("a card without a name", 'uid,vcard\n,"' + ANN.replace("FN", "NOTE") + '"\n', (1, 28),
     "FN is missing"),
]
GOOD_ROWS = [
    ("a header alone", HEAD, 0),
    ("a row", HEAD + "a,Ann,,,,,,\n", 1),
    ("a card", "uid,vcard\n" + 'a,"' + ANN + '"\n', 1),
    ("2000 rows", numbered(0, 2000), 2000),
]

# A name, the text, the number of the fault, its line if it is one of a line, and the words.
BAD_CARDS = [
    ("too long", ANN + " " * 262_144, 1, None, "the text is too long"),
    ("a control character", ANN.replace("Ann", "A\x01n"), 3, 4, "a line has a control character"),
    ("a control character in a folded line after one",
     "BEGIN:VCARD\nVERSION:4.0\nFN;X\n =1:A\nN\x01:A\n B\nEND:VCARD\n", 3, 5,
     "a line has a control character"),
    ("two cards", ANN + ANN, 4, 6, "a line isn't a property line"),
    ("a line without a colon", ANN.replace("UID:a", "NOTE\n one\nUID:a"), 4, 3,
     "a line isn't a property line"),
    ("a line after a folded one", ANN.replace("UID:a", "NOTE:\n one\n two\nUID\n a"), 4, 6,
     "a line isn't a property line"),
    ("no octet", "", 5, None, "BEGIN:VCARD is missing"),
    ("a line before the first", "FN:Ann\r\n" + ANN, 5, 1, "BEGIN:VCARD is missing"),
    ("vCard 3.0", ANN.replace("4.0", "3.0"), 6, 2,
     "the version isn't 4.0; try contacts convert"),
    ("one line", "BEGIN:VCARD\r\n", 6, None,
     "the version isn't 4.0; try contacts convert"),
    ("cut off", ANN[:-len("END:VCARD\r\n")], 7, None, "END:VCARD is missing"),
    ("no name", ANN.replace("FN:Ann\r\n", ""), 8, None, "FN is missing"),
    ("no UID", ANN.replace("UID:a\r\n", ""), 9, None, "UID is missing"),
    ("an empty UID", ANN.replace("UID:a", "UID:"), 10, 3,
     "the UID is empty, too long or has a tab"),
    ("two UIDs", ANN.replace("UID:a", "UID:a\r\n\r\nUID:a"), 11, 5, "UID or KIND occurs twice"),
    ("a member of no group", ANN.replace("FN:Ann", "FN:Ann\r\nMEMBER:b"), 12, None,
     "MEMBER outside a group"),
]


def unusable(name, words):
    """How a check ends if the file can't be read."""
    return Ended(3, b"", f"{name}: {words}\nfault device 1\n".encode())


class Check(OrderTest):
    def check(self, name, octets):
        (self.folder / name).write_bytes(octets)
        ended = run("check", name, cwd=self.folder)
        self.assertEqual([name], [path.name for path in self.folder.iterdir()])
        return ended

    def test_good_rows(self):
        for title, text, count in GOOD_ROWS:
            with self.subTest(title):
                self.assertEqual(count, len(read_rows(text.encode())))
                self.assertEqual(Ended(0, b"rows %d\n" % count, b""),
                                 self.check("a.csv", text.encode()))

    def test_bad_rows(self):
        for title, text, place, words in BAD_ROWS:
            with self.subTest(title):
                with self.assertRaises(BadImport) as caught:
                    read_rows(text.encode())
                self.assertEqual(place, (caught.exception.row, caught.exception.cause))
                self.assertEqual(
                    Ended(1, f"row {place[0]}: {words}\n".encode(), b"refused bad-import 14\n"),
                    self.check("a.csv", text.encode()))

    def test_an_import_has_the_same_refusal(self):
        self.make_books()
        for title, text, _, _ in BAD_ROWS:
            with self.subTest(title):
                (self.folder / "a.csv").write_bytes(text.encode())
                self.assertEqual(run("check", "a.csv", cwd=self.folder)._replace(out=b""),
                                 run("import", "a.db", "staff", "key", "a.csv", cwd=self.folder))

    def test_a_field_in_another_encoding(self):
        octets = HEAD.encode() + "a,Änn,,,,,,\n".encode("latin-1")
        self.assertEqual(Ended(1, b"row 1: a field isn't UTF-8\n", b"refused bad-import 14\n"),
                         self.check("a.csv", octets))

    def test_good_cards(self):
        for name in "a.vcf", "a.VCF":
            with self.subTest(name):
                self.assertEqual(Ended(0, b"card\n", b""), self.check(name, ANN.encode()))
                (self.folder / name).unlink()

    def test_bad_cards(self):
        for title, text, number, line, words in BAD_CARDS:
            with self.subTest(title):
                with self.assertRaises(BadCard) as caught:
                    read_card(text.encode())
                self.assertEqual((number,), caught.exception.args)
                place = "" if line is None else f"line {line}: "
                self.assertEqual(
                    Ended(1, f"card: {place}{words}\n".encode(), b"refused bad-card 5\n"),
                    self.check("a.vcf", text.encode()))

    def test_a_put_has_the_same_refusal(self):
        for title, text, _, _, _ in BAD_CARDS:
            with self.subTest(title):
                self.assertEqual(self.check("a.vcf", text.encode())._replace(out=b""),
                                 run("try", input=text.encode()))

    def test_a_card_in_another_encoding(self):
        ended = Ended(1, b"card: line 4: the text isn't UTF-8\n", b"refused bad-card 5\n")
        for octets in [
            ANN.replace("Ann", "Änn").encode("latin-1"),
            b"BEGIN:VCARD\nVERSION:4.0\n\nFN:\xff\nEND:VCARD\n",
        ]:
            with self.subTest(octets):
                self.assertEqual(ended, self.check("a.vcf", octets))

    def test_other_names_are_of_rows(self):
        for name in "a.vcard", "vcf", "a.vcf.csv", "a.Vcf":
            with self.subTest(name):
                self.assertEqual(1, self.check(name, ANN.encode()).status)
                (self.folder / name).unlink()

    def test_the_most_octets(self):
        text = HEAD
        while len(text) < 8_188_608:
            text += f"n{len(text)},Ann,,,,,,{'x' * 200_000}\n"
        count = text.count("\n")
        for octets, ended in (8_388_608, Ended(0, b"rows %d\n" % count, b"")), (
                8_388_609, unusable("a.csv", TOO_LONG)):
            with self.subTest(octets):
                row = "last,Ann,,,,,,"
                row += "x" * (octets - len(text) - len(row) - 1) + "\n"
                self.assertEqual(ended, self.check("a.csv", (text + row).encode()))

    def test_no_file(self):
        for name, words in [("none.csv", "there is no such file"),
                            ("none.vcf", "there is no such file"),
                            (".", "it is a folder; name a file")]:
            with self.subTest(name):
                self.assertEqual(unusable(name, words), run("check", name, cwd=self.folder))


if __name__ == "__main__":
    unittest.main()
