"""`contacts convert`: files of cards of other programs.

The expected cards are in converted_cards.py, worked out by hand. Whatever is converted must pass
`check` and an import, and the same file gives the same octets.
"""

import base64
import random
import re
import resource
import subprocess
import sys
import unittest
import uuid

from card_rows import octets as octets_of
from conversion_reports import digest
from converted_cards import ADDED_UID, CARDS, added_uid, card
from csv_texts import rows_of
from order_trials import OrderTest
from program import ROOT, Ended, run

HEAD = b"uid,vcard\n"

# Files, each in the pieces into which it is cut: a title, the cards and what is between them, and
# the report. No card has a UID, so those that are added show the octets of each piece.
PIECES = [
    ("a card within a card, a blank line, and a card without an end",
     [b"\xef\xbb\xbfBEGIN:VCARD\nFN:A\nAGENT:\nBEGIN:VCARD\nEND:VCARD\nEND:VCARD\n", b"\n",
      b"begin:vcard\n"],
     ["card 1, line 3: AGENT kept as X-AGENT", "card 1, line 4: BEGIN kept as X-AGENT",
      "card 1, line 5: END kept as X-AGENT", "card 1, line 1: UID added",
      "card 2, line 8: FN added", "card 2, line 8: UID added",
      "card 2, line 8: the card has no END: lines of it may be missing"]),
    ("a card without an end before another, and one that ends within the card of its AGENT",
     [b"BEGIN:VCARD\nFN:A\nTEL:1\n",
      b"BEGIN:VCARD\nFN:B\nAGENT:\nBEGIN:VCARD\nEND:VCARD\nNOTE:a\n"],
     ["card 1, line 1: UID added",
      "card 1, line 1: the card has no END: lines of it may be missing",
      "card 2, line 6: AGENT kept as X-AGENT", "card 2, line 7: BEGIN kept as X-AGENT",
      "card 2, line 8: END kept as X-AGENT", "card 2, line 4: UID added",
      "card 2, line 4: the card has no END: lines of it may be missing"]),
    ("joined files, without line feeds at their ends",
     [b"BEGIN:VCARD\r\nFN:Ann\r\nEND:VCARD", b"BEGIN:VCARD\r\nFN:Bob\r\nend:vcard ",
      b"\xef\xbb\xbfBegin:vCard\nFN:Cy\nEND:VCARD"],
     ["card 1, line 1: UID added", "card 2, line 3: UID added", "card 3, line 5: UID added"]),
]

# Names of character sets, each with the name of Python's codec. What is called ISO/IEC 8859-1, -9 or
# -11 is mostly Windows-1252, -1254 or -874, which only have more characters.
CHARSETS = [
    ("ISO-8859-1", "cp1252"), ("windows-1252", "cp1252"), ("latin1", "latin-1"),
    *((f"ISO-8859-{number}", f"iso8859-{number}") for number in range(2, 9)),
    ("ISO-8859-9", "cp1254"), ("iso_8859-10", "iso8859-10"), ("ISO-8859-11", "cp874"),
    *((f"ISO-8859-{number}", f"iso8859-{number}") for number in range(13, 17)),
    *((f"windows-{number}", f"cp{number}") for number in (874, *range(1250, 1259))),
    ("CP1251", "cp1251"), ("latin2", "iso8859-2"), ("KOI8-R", "koi8-r"), ("koi8-u", "koi8-u"),
    ("macintosh", "mac-roman"), ("x-mac-roman", "mac-roman"), ("MAC", "mac-roman"),
]


def text(lines, end="\r\n"):
    return "".join(line + end for line in lines)


def unfolded(octets):
    """The lines of a card's text."""
    return octets.decode().replace("\r\n ", "").split("\r\n")[:-1]


def report(lines, written, changed, refused, files=None, returns=False):
    """What is printed where these are the lines of the report."""
    return digest(lines, written, changed, refused, files, returns).encode()


class Convert(OrderTest):
    def convert(self, octets, *options, name="cards.vcf"):
        """Converts a file with these octets."""
        (self.folder / name).write_bytes(octets)
        return run("convert", name, *options, cwd=self.folder)

    def names(self):
        return sorted(path.name for path in self.folder.iterdir())

    def imported(self, octets, count):
        """The rows pass `check`, and can be imported into an empty book."""
        (self.folder / "rows.csv").write_bytes(octets)
        self.assertEqual(Ended(0, b"rows %d\n" % count, b""), run("check", self.folder / "rows.csv"))
        file = self.folder / "office.db"
        if not file.exists():
            run("init", file)
            run("book", file, "staff")
        ended = run("import", file, "staff", "key-%d" % count, self.folder / "rows.csv")
        self.assertEqual(0, ended.status, ended)

    def test_cards(self):
        for title, lines, wanted, changes in CARDS:
            for end in "\r\n", "\n", "\r", "\r\r\n":
                with self.subTest(title, end=end):
                    octets = octets_of(text(lines, end))
                    ended = self.convert(octets)
                    rows = rows_of(ended.out)
                    self.assertEqual(1, len(rows), ended)
                    # A carriage return that ends lines is read as a line feed.
                    read = octets.replace(b"\r", b"\n") if end == "\r" else octets
                    uid = "UID:" + added_uid(read)
                    made = card("4.0", *(uid if it == ADDED_UID else it for it in wanted))
                    self.assertEqual(made, unfolded(rows[0][1].encode()))
                    listed = [f"card 1, {line}" for line in changes]
                    due = report(listed, 1, bool(changes), 0, returns=end == "\r")
                    self.assertEqual((0, due), (ended.status, ended.err))
                    self.assertEqual(ended, self.convert(octets), "not the same again")
                    self.imported(ended.out, 1)

    def test_mixed_line_ends(self):
        """A card whose lines end with CR alone, in a file of LF, isn't carried, and takes no other
        card with it."""
        ends = [("a", "\n"), ("b", "\r"), ("c", "\r"), ("d", "\r\n"), ("e", "\r"), ("f", "\n")]
        octets = "".join(text(card("4.0", f"UID:{uid}", "FN:A"), end) for uid, end in ends).encode()
        ended = self.convert(octets)
        lines = [f"line {line}: not carried: no card begins here" for line in (6, 6, 11)]
        self.assertEqual((1, report(lines, 3, 0, 3)), (ended.status, ended.err))
        self.assertEqual(["a", "d", "f"], [row[0] for row in rows_of(ended.out)])

    def test_a_carriage_return_in_a_value(self):
        ended = self.convert(text(card("3.0", "UID:a", "FN:Ann", "TEL:1\r2")).encode())
        due = report(["card 1, line 5: TEL lost control characters"], 1, 1, 0)
        self.assertEqual((0, due), (ended.status, ended.err))
        made = card("4.0", "UID:a", "FN:Ann", "TEL:12")
        self.assertEqual(made, unfolded(rows_of(ended.out)[0][1].encode()))

    def test_many_cards_with_other_line_ends(self):
        """Each is a piece by itself, and the time doesn't grow with the square of their number."""
        one = text(card("4.0", "UID:a", "FN:A"), "\n")
        many = text(card("4.0", "UID:b", "FN:A"), "\r") * 50_000
        ended = self.convert((one + many).encode())
        self.assertTrue(ended.err.endswith(b"1 cards written, 0 changed, 0 with parts kept aside, "
                                           b"50000 not carried\n"), ended.err[-100:])

    def test_a_report_in_a_file(self):
        """It has a line for each change, and then what is printed at the end."""
        for title, lines, _wanted, changes in CARDS:
            with self.subTest(title):
                ended = self.convert(octets_of(text(lines)), "--report", "r.txt")
                file = self.folder / "r.txt"
                listed = "".join(f"card 1, {line}\n" for line in changes)
                told = [it for it in ended.err.decode().splitlines(True) if it.startswith("card 1, ")]
                end = ended.err.decode().removeprefix("".join(told))
                self.assertEqual(listed + end, file.read_text(encoding="utf-8"))
                file.unlink()

    def test_encodings(self):
        lines = card("3.0", "UID:a", "FN:Zoë Ångström")
        for title, octets in [
            ("UTF-8 with its mark", b"\xef\xbb\xbf" + text(lines).encode()),
            ("UTF-16, low octet first", b"\xff\xfe" + text(lines).encode("utf-16-le")),
            ("UTF-16, high octet first", b"\xfe\xff" + text(lines).encode("utf-16-be")),
            ("UTF-16 without a mark, low octet first", text(lines).encode("utf-16-le")),
            ("UTF-16 without a mark, high octet first", text(lines).encode("utf-16-be")),
            ("UTF-16 whose lines end with CR alone", text(lines, "\r").encode("utf-16")),
            ("UTF-8 with its mark, lines that end with CR alone",
             b"\xef\xbb\xbf" + text(lines, "\r").encode()),
            ("Latin-1", text(lines).encode("latin-1")),
        ]:
            with self.subTest(title):
                ended = self.convert(octets)
                self.assertEqual(0, ended.status, ended)
                wanted = card("4.0", "UID:a", "FN:Zoë Ångström")
                self.assertEqual(wanted, unfolded(rows_of(ended.out)[0][1].encode()))

    def test_charsets(self):
        """Each octet from 160 on of each known character set, as Python decodes it, and of Mac Roman
        also those from 128 on. Where the set has no character for it, the octet is U+FFFD."""
        for name, codec in CHARSETS:
            first = [bytes(range(128, 160))] * (codec == "mac-roman")
            for octets in [*first, bytes(range(160, 208)), bytes(range(208, 256))]:
                wanted = octets.decode(codec, "replace")
                encoded = "".join(f"={octet:02X}" for octet in octets).encode()
                for encoding, value in [(b"", octets), (b";QUOTED-PRINTABLE", encoded)]:
                    with self.subTest(name, octets=octets[0], encoding=encoding):
                        note = b"NOTE;CHARSET=" + name.encode() + encoding + b":" + value + b"\r\n"
                        before, after = text(card("2.1", "UID:a", "FN:A", "|")).encode().split(b"|\r\n")
                        ended = self.convert(before + note + after)
                        self.assertEqual(0, ended.status, ended)
                        made = card("4.0", "UID:a", "FN:A", "NOTE:" + wanted)
                        self.assertEqual(made, unfolded(rows_of(ended.out)[0][1].encode()))

    def test_charsets_that_are_not_known(self):
        """A card whose text depends on one is refused by its name; one of ASCII isn't."""
        ann = text(card("2.1", "UID:b", "FN:Ann"))
        for name, value in [("GB2312", "\udcd2\udcbb"), ("EUC-KR", "\udcb0\udca1"),
                            ("Shift_JIS", "\udc88\udc9f"), ("Big5", "\udca4@"),
                            ("ISO-2022-JP", "\x1b$B0l\x1b(B")]:
            for encoding in "", ";ENCODING=QUOTED-PRINTABLE":
                with self.subTest(name, encoding=encoding):
                    if encoding:
                        value = "".join(f"={octet:02X}" for octet in octets_of(value))
                    bad = text(card("2.1", "UID:a", f"FN;CHARSET={name}{encoding}:{value}"))
                    good = text(card("2.1", "UID:c", f"FN;CHARSET={name}{encoding}:Cy"))
                    ended = self.convert(octets_of(bad + ann + good))
                    lines = [f"card 1, line 1: not carried: the charset {name} isn't known: "
                             "export the card in UTF-8", "card 3, line 14: FN rewritten"]
                    self.assertEqual((1, report(lines, 2, 1, 1)), (ended.status, ended.err))
                    self.assertEqual(["b", "c"], [row[0] for row in rows_of(ended.out)])

    def test_other_character_sets(self):
        """A program in Python makes UTF-8 of them."""
        lines = card("2.1", "UID:a", "FN;CHARSET=GB2312:\udcd2\udcbb, b",
                     "N;CHARSET=Shift_JIS;ENCODING=QUOTED-PRINTABLE:=88=9F;b=\r\n=3D", "TEL:1")
        (self.folder / "old.vcf").write_bytes(octets_of(text(lines)))
        done = subprocess.run([sys.executable, ROOT / "examples/to-utf8.py", "old.vcf", "new.vcf"],
                              cwd=self.folder, capture_output=True)
        self.assertEqual((0, b""), (done.returncode, done.stderr))
        made = (self.folder / "new.vcf").read_bytes()
        # A second time it writes over nothing, and says so.
        done = subprocess.run(done.args, cwd=self.folder, capture_output=True)
        self.assertEqual(1, done.returncode)
        self.assertIn(b"File exists: 'new.vcf'", done.stderr)
        self.assertNotIn(b"Traceback", done.stderr)
        self.assertEqual(made, (self.folder / "new.vcf").read_bytes())
        ended = self.convert(made)
        self.assertEqual(0, ended.status, ended)
        made = card("4.0", "UID:a", "FN:一\\, b", "N:亜;b=", "TEL:1")
        self.assertEqual(made, unfolded(rows_of(ended.out)[0][1].encode()))

    def test_photos_that_are_too_large(self):
        """A card of at most 262,144 octets keeps its photo, and a longer one is carried without."""
        for version, kind in [("3.0", "PHOTO"), ("2.1", "LOGO"), ("3.0", "SOUND")]:
            for size, is_kept in [(100_000, True), (200_000, False)]:
                with self.subTest(version, kind=kind, size=size):
                    photo = base64.b64encode(b"\xff\xd8\xff" + bytes(size)).decode()
                    lines = card(version, "UID:a", "FN:Ann", f"{kind};ENCODING=BASE64:" + photo,
                                 "PHOTO:http://a.test/b.png", "TEL:1")
                    ended = self.convert(text(lines).encode())
                    what = "rewritten" if is_kept else "left out"
                    due = report([f"card 1, line 5: {kind} {what}"], 1, 1, 0)
                    self.assertEqual((0, due), (ended.status, ended.err))
                    media = "audio/basic" if kind == "SOUND" else "image/jpeg"
                    kept = [f"{kind}:data:{media};base64,{photo}"] if is_kept else []
                    made = card("4.0", "UID:a", "FN:Ann", *kept, "PHOTO:http://a.test/b.png",
                                "TEL:1")
                    self.assertEqual(made, unfolded(rows_of(ended.out)[0][1].encode()))
                    self.imported(ended.out, 1)

    def test_a_character_of_two_units(self):
        """RFC 2781, section 5: the Egyptian god Ra as a character, an equals sign, and his name."""
        before, after = text(card("3.0", "UID:a", "FN:|")).split("|")
        for mark, name, encoding in [
            (b"\xfe\xff", b"\xd8\x08\xdf\x45\x00\x3d\x00\x52\x00\x61", "utf-16-be"),
            (b"\xff\xfe", b"\x08\xd8\x45\xdf\x3d\x00\x52\x00\x61\x00", "utf-16-le"),
        ]:
            with self.subTest(encoding):
                ended = self.convert(mark + before.encode(encoding) + name + after.encode(encoding))
                wanted = card("4.0", "UID:a", "FN:\U00012345=Ra")
                self.assertEqual(wanted, unfolded(rows_of(ended.out)[0][1].encode()))

    def test_a_head_of_many_folds(self):
        """A head of 50,000 folds before 50,000 lines of base64 is one line."""
        folded = ["X", *50_000 * [" ="], " ;BASE64", *50_000 * ["A"]]
        ended = self.convert(text(card("3.0", "UID:a", "FN:Ann", *folded), "\n").encode())
        due = report(["card 1, line 5: kept as X-UNREADABLE"], 1, 1, 0)
        self.assertEqual((0, due), (ended.status, ended.err))
        kept = "X-UNREADABLE:X" + 50_000 * "=" + "\\;BASE64" + 50_000 * "A"
        wanted = card("4.0", "UID:a", "FN:Ann", kept)
        self.assertEqual(wanted, unfolded(rows_of(ended.out)[0][1].encode()))

    def test_pieces(self):
        for title, pieces, lines in PIECES:
            with self.subTest(title):
                ended = self.convert(b"".join(pieces))
                uids = [added_uid(piece) for piece in pieces if piece.strip()]
                self.assertEqual(uids, [row[0] for row in rows_of(ended.out)])
                self.assertEqual(report(lines, len(uids), len(uids), 0), ended.err)
                self.assertEqual(0, ended.status)

    def test_joined_files(self):
        """The first of two joined files has no line feed at its end."""
        first, second = text(card("3.0", "UID:a", "FN:Ann")), text(card("3.0", "UID:b", "FN:Bob"))
        ended = self.convert((first.removesuffix("\r\n") + second).encode())
        self.assertEqual((0, report([], 2, 0, 0)), (ended.status, ended.err))
        self.assertEqual([["a", "Ann"], ["b", "Bob"]], [
            [uid, unfolded(vcard.encode())[3].partition(":")[2]]
            for uid, vcard in rows_of(ended.out)
        ])
        self.imported(ended.out, 2)

    def test_a_uid_is_that_of_the_octets(self):
        octets = text(card("3.0", "FN:Ann")).encode()
        ended = self.convert(octets + text(card("3.0", "FN:Bob")).encode())
        uids = [row[0] for row in rows_of(ended.out)]
        self.assertEqual(2, len(set(uids)), uids)
        for uid in uids:
            self.assertEqual(5, uuid.UUID(uid).version)
        self.assertEqual(added_uid(octets), uids[0])
        self.assertEqual(uids[0], rows_of(self.convert(octets).out)[0][0])
        lines = ["card 1, line 1: UID added", "card 2, line 5: UID added"]
        self.assertEqual(report(lines, 2, 2, 0), ended.err)

    def test_what_is_not_carried(self):
        ann = text(card("4.0", "UID:a", "FN:Ann"))
        for title, octets, written, line in [
            ("blank lines between cards", "\n\n" + ann + "\r\n \n", 1, ""),
            ("words between cards", ann + "words\nmore\n" + ann.replace("UID:a", "UID:b"), 2,
             "line 6: not carried: no card begins here"),
            ("too long", ann.replace("Ann", "x" * 270_000), 0,
             "card 1, line 1: not carried: the text is too long; its longest line is line 4, FN"),
            ("too long in vCard 3.0", "BEGIN:VCARD\nVERSION:3.0\nNOTE:" + "a" * 262_144, 0,
             "card 1, line 1: not carried: the text is too long; its longest line is line 3, NOTE"),
            ("no card", "x", 0, "line 1: not carried: no card begins here"),
        ]:
            with self.subTest(title):
                ended = self.convert(octets.encode())
                refused = int(bool(line))
                self.assertEqual(report([line] * refused, written, 0, refused), ended.err)
                self.assertEqual(int(refused), ended.status)
                self.assertEqual(written, len(rows_of(ended.out)))
                self.assertTrue(ended.out.startswith(HEAD))

    def test_nothing_to_carry(self):
        """A file in which nothing is may be a failed export."""
        nothing = b"nothing was converted: there are no cards and no contacts\n"
        for octets in b"", b"\r\n \n", b"\xef\xbb\xbf":
            self.assertEqual(Ended(1, HEAD, nothing + report([], 0, 0, 0)), self.convert(octets))

    def test_what_has_no_text(self):
        (self.folder / "old").mkdir()
        self.assertEqual(b"fault device 1: old is a folder; convert the files in it\n",
                         run("convert", "old", cwd=self.folder).err)
        self.assertEqual(b"fault device 1: - can't be read; standard input is /dev/stdin\n",
                         run("convert", "-", cwd=self.folder).err)
        octets = text(card("4.0", "UID:a", "FN:Ann"))
        for encoding in "utf-32", "utf-32-le", "utf-32-be":
            ended = self.convert(octets.encode(encoding))
            self.assertEqual(3, ended.status)
            self.assertIn(b"cards.vcf is in UTF-32; make UTF-8 of it", ended.err)

    def test_cards_after_text_of_another_format(self):
        """Text of another format before a card is text that is no card, and refuses no file."""
        ann = text(card("4.0", "UID:a", "FN:Ann"))
        line = "line 1: not carried: no card begins here"
        for front in ["<!-- saved -->\n", "<!DOCTYPE html>\r\n<pre>\r\n", "<?xml version='1.0'?>\n",
                      "[]\n", "[\n", '{"a": 1}\n', "\n<html>\n",
                      "BEGIN:VCALENDAR\r\nVERSION:2.0\r\nEND:VCALENDAR\r\n"]:
            with self.subTest(front):
                ended = self.convert((front + ann).encode())
                self.assertEqual((1, report([line], 1, 0, 1)), (ended.status, ended.err))
                self.assertEqual(["a"], [row[0] for row in rows_of(ended.out)])

    def test_cards_after_a_megabyte_of_another_format(self):
        """They are carried. A file that goes on after its head is refused only if no card comes in
        it."""
        ann = text(card("4.0", "UID:a", "FN:Ann"))
        line = "line 1: not carried: no card begins here"
        for front, kind in [
            ("BEGIN:VCALENDAR\r\n" + "BEGIN:VEVENT\r\nEND:VEVENT\r\n" * 60_000, "a calendar"),
            ('[{"a": 1},\n' + '{"a": 2},\n' * 150_000, "JSON"),
            ("<html>\n" + "<p>a</p>\n" * 150_000, "XML or HTML"),
        ]:
            with self.subTest(kind):
                ended = self.convert((front + ann).encode())
                self.assertEqual((1, report([line], 1, 0, 1)), (ended.status, ended.err))
                self.assertEqual(["a"], [row[0] for row in rows_of(ended.out)])
                ended = self.convert(front.encode())
                words = f"cards.vcf is {kind}; export the contacts as vCard or CSV"
                self.assertEqual((3, f"{line}\nfault device 1: {words}\n".encode()),
                                 (ended.status, ended.err))
                self.assertEqual([], rows_of(ended.out))

    def test_a_line_of_a_million_parameters(self):
        """It isn't carried, in 60 MB of memory; 65,536 semicolons are, and the cards around it."""
        ann, bob = (text(card("3.0", f"UID:{name}", f"FN:{name}")) for name in ("Ann", "Bob"))
        crammed = text(card("3.0", "UID:c", "FN:C", "TEL" + ";A=1" * 1_000_000 + ":1"))

        def bounded():
            resource.setrlimit(resource.RLIMIT_AS, (60_000_000, 60_000_000))

        (self.folder / "cards.vcf").write_bytes((ann + crammed + bob).encode())
        ended = run("convert", "cards.vcf", cwd=self.folder, preexec_fn=bounded)
        lines = ["card 2, line 6: not carried: the card has more than 65,536 semicolons"]
        self.assertEqual((1, report(lines, 2, 0, 1)), (ended.status, ended.err))
        self.assertEqual(["Ann", "Bob"], [row[0] for row in rows_of(ended.out)])
        for count, carried in (65_536, 1), (65_537, 0):
            octets = text(card("4.0", "UID:a", "FN:A", "NOTE:" + ";" * count)).encode()
            ended = self.convert(octets)
            self.assertEqual((1 - carried, carried), (ended.status, len(rows_of(ended.out))))

    def test_a_line_of_many_pieces(self):
        """A line in which a BEGIN:VCARD often follows a carriage return is cut there, in a time that
        grows with its length: 1.6 MB took more than a minute when the rest of the line was looked
        through for each piece."""
        many = 114_000
        octets = b"x\n" + many * b"\rBEGIN:VCARDaa" + b"\n" + 200_000 * b"NOTE:aaaaaaaaaaaaaaaaa\n"

        def bounded():
            resource.setrlimit(resource.RLIMIT_CPU, (20, 20))

        (self.folder / "cards.vcf").write_bytes(octets)
        ended = run("convert", "cards.vcf", cwd=self.folder, preexec_fn=bounded)
        last = f"0 cards written, 0 changed, 0 with parts kept aside, {many + 1} not carried\n"
        self.assertEqual((1, HEAD), (ended.status, ended.out))
        self.assertTrue(ended.err.decode().endswith(last), ended.err[-200:])

    def test_a_uid_twice(self):
        """The same card is passed, however often it comes. Another one is kept under a UID that is
        computed from its text, which is canonical here."""
        ann, bob = (text(card("4.0", "UID:a", f"FN:{name}")) for name in ("Ann", "Bob"))
        old = text(card("3.0", "UID:a", "FN:Ann"), "\n")
        own = added_uid(bob.encode())
        ended = self.convert((ann + old + bob + bob + ann).encode())
        lines = ["card 2, line 6: an earlier card is the same",
                 f"card 3, line 11: an earlier card has the same UID; kept under {own}",
                 "card 4, line 16: an earlier card is the same",
                 "card 5, line 21: an earlier card is the same"]
        self.assertEqual((0, report(lines, 2, 1, 0)), (ended.status, ended.err))
        self.assertEqual([["a", card("4.0", "UID:a", "FN:Ann")],
                          [own, card("4.0", f"UID:{own}", "FN:Bob")]],
                         [[uid, unfolded(vcard.encode())] for uid, vcard in rows_of(ended.out)])
        self.imported(ended.out, 2)

    def test_no_room_for_another_uid(self):
        """A card of 262,144 octets with the UID of another one would be longer under its own."""
        ann, bob = text(card("4.0", "UID:a", "FN:Ann")), text(card("4.0", "UID:a", "FN:Bob"))
        notes = (262_144 - len(bob)) // len("NOTE:x\r\n") * "NOTE:x\r\n"
        ended = self.convert((ann + bob.replace("END", notes + "END")).encode())
        lines = ["card 2, line 6: not carried: an earlier card has the same UID, and with "
                 "another one the text is too long"]
        self.assertEqual((1, report(lines, 1, 0, 1)), (ended.status, ended.err))

    def test_a_file_for_each_card(self):
        uids = ["a", "urn:uuid:7f", "é", "../b", ".c", "x" * 201, "d.vcf"]
        octets = "".join(text(card("4.0", f"UID:{uid}", "FN:A")) for uid in uids).encode()
        (self.folder / "to").mkdir()
        ended = self.convert(octets, "--to", "to")
        self.assertEqual(Ended(0, b"", report([], 7, 0, 0, files=7)), ended)
        names = sorted(path.name for path in (self.folder / "to").iterdir())
        wanted = ["7f.vcf", "a.vcf", "card-3.vcf", "card-4.vcf", "card-5.vcf", "card-6.vcf",
                  "d.vcf.vcf"]
        self.assertEqual(wanted, names)
        self.assertEqual(text(card("4.0", "UID:a", "FN:A")).encode(),
                         (self.folder / "to/a.vcf").read_bytes())
        for name in names:
            self.assertEqual(Ended(0, b"card\n", b""), run("check", self.folder / "to" / name))
        # No file is overwritten.
        (self.folder / "to/a.vcf").write_bytes(b"mine")
        again = self.convert(octets, "--to", "to")
        self.assertEqual((1, b""), (again.status, again.out))
        self.assertIn(b"card 1, line 1: not carried: the file to/a.vcf exists\n", again.err)
        self.assertEqual(b"mine", (self.folder / "to/a.vcf").read_bytes())

    def test_files_of_rows(self):
        octets = "".join(text(card("4.0", f"UID:{n}", "FN:A")) for n in range(7)).encode()
        ended = self.convert(octets, "--rows", 3)
        self.assertEqual(Ended(0, b"", report([], 7, 0, 0, files=3)), ended)
        files = ["cards-1.csv", "cards-2.csv", "cards-3.csv"]
        self.assertEqual([*files, "cards.vcf"], self.names())
        counts = [len(rows_of((self.folder / name).read_bytes())) for name in files]
        self.assertEqual([3, 3, 1], counts)
        uids = [row[0] for name in files for row in rows_of((self.folder / name).read_bytes())]
        self.assertEqual(list("0123456"), uids)
        again = self.convert(octets, "--rows", 3)
        self.assertEqual((3, b"fault device 1: cards-1.csv exists\n"), (again.status, again.err))

    def test_files_of_octets(self):
        octets = "".join(text(card("4.0", f"UID:{n}", "FN:A")) for n in range(7)).encode()
        (self.folder / "to").mkdir()
        row = len(b'0,"' + text(card("4.0", "UID:0", "FN:A")).encode() + b'"\n')
        for most, counts in [(len(HEAD) + 2 * row, [2, 2, 2, 1]),
                             (len(HEAD) + 2 * row - 1, [1] * 7)]:
            with self.subTest(most=most):
                ended = self.convert(octets, "--octets", most, "--to", "to")
                self.assertEqual(Ended(0, b"", report([], 7, 0, 0, files=len(counts))), ended)
                files = sorted((self.folder / "to").iterdir())
                self.assertEqual(counts, [len(rows_of(it.read_bytes())) for it in files])
                for file in files:
                    self.assertLessEqual(file.stat().st_size, most)
                    file.unlink()
        ended = self.convert(octets, "--octets", len(HEAD) + row - 1, "--to", "to")
        self.assertEqual(1, ended.status)
        self.assertIn(b"card 7, line 31: not carried: the row is longer than --octets\n",
                      ended.err)
        self.assertEqual([], list((self.folder / "to").iterdir()))

    def test_files_that_cannot_be_used(self):
        (self.folder / "cards.vcf").write_bytes(text(card("4.0", "UID:a", "FN:A")).encode())
        for arguments, words in [
            (["missing.vcf"], "missing.vcf can't be read"),
            (["cards.vcf", "--to", "missing"], "missing is no folder"),
            (["cards.vcf", "--to", "cards.vcf"], "cards.vcf is no folder"),
        ]:
            with self.subTest(arguments):
                ended = run("convert", *arguments, cwd=self.folder)
                self.assertEqual(3, ended.status)
                self.assertTrue(ended.err.endswith(f"fault device 1: {words}\n".encode()), ended)

    def test_an_export_comes_back(self):
        octets = "".join(text(card("4.0", f"UID:{n}", "FN:A")) for n in range(5)).encode()
        rows = self.convert(octets).out
        self.assertEqual(rows, self.convert(rows, name="export.csv").out)

    def test_any_octets(self):
        """Whatever the file has, the order ends with a summary, and what it writes is imported."""
        drawn = random.Random(6350)
        whole = octets_of("".join(text(it.text) for it in CARDS))
        for number in range(60):
            octets = bytearray(whole)
            for _ in range(drawn.randrange(1, 40)):
                place = drawn.randrange(len(octets))
                kind = drawn.randrange(3)
                if kind == 0:
                    octets[place] = drawn.randrange(256)
                elif kind == 1:
                    del octets[place:place + drawn.randrange(1, 80)]
                else:
                    octets[place:place] = drawn.choice([b"\r\n", b"=", b":", b";", b"\n ", b"\0"])
            with self.subTest(number=number):
                ended = self.convert(bytes(octets))
                end = re.search(rb"(?:^|\n)(\d+) cards written, (\d+) changed, \d+ with parts kept "
                                rb"aside, (\d+) not carried\n$", ended.err)
                self.assertTrue(end, ended)
                self.assertEqual(1 if int(end[3]) else 0, ended.status)
                rows = rows_of(ended.out)
                self.assertEqual(int(end[1]), len(rows))
                (self.folder / "rows.csv").write_bytes(ended.out)
                checked = run("check", self.folder / "rows.csv")
                self.assertEqual(Ended(0, b"rows %d\n" % len(rows), b""), checked)


if __name__ == "__main__":
    unittest.main()
