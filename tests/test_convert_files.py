"""`contacts convert` of several files, and what its report says of many lines.

The expected rows and lines are worked out by hand. What is converted of several files is compared
with what is converted of each of them alone.
"""

import csv
import io
import re
import resource
import unittest

from conversion_reports import digest, guess, guesses, numbers
from converted_cards import added_uid, card
from order_trials import OrderTest
from program import Ended, run

HEAD = b"uid,vcard\n"


def text(lines, end="\r\n"):
    return "".join(line + end for line in lines)


def rows_of(octets):
    """The rows of a CSV text, without the header."""
    return list(csv.reader(io.StringIO(octets.decode(), newline="")))[1:]


class ConvertFiles(OrderTest):
    maxDiff = None

    def write(self, **files):
        """Writes files, each named with an underscore for its full stop."""
        for name, octets in files.items():
            (self.folder / name.replace("_", ".")).write_bytes(octets)

    def convert(self, *arguments, **more):
        return run("convert", *arguments, cwd=self.folder, **more)

    def names(self):
        return sorted(path.name for path in self.folder.iterdir())

    # ---- several files

    def test_several_files(self):
        """One header, and the rows of all, as each alone gives them."""
        ann = text(card("3.0", "UID:a", "FN:Ann", "CLASS:PUBLIC", "TEL;CELL:1")).encode()
        google = b"First Name,E-mail Address,Shoe\nBob,b@x.test,38\n"
        export = b'uid,vcard\n' + f'c,"{text(card("4.0", "UID:c", "FN:Cy"))}"\n'.encode()
        utf_16 = text(card("3.0", "UID:d", "FN:Dée")).encode("utf-16")
        self.write(a_vcf=ann, b_csv=google, c_csv=export, d_vcf=utf_16)
        files = ["a.vcf", "b.csv", "c.csv", "d.vcf"]
        ended = self.convert(*files)
        rows = [row for name in files for row in rows_of(self.convert(name).out)]
        self.assertEqual(4, len(rows))
        self.assertEqual(rows, rows_of(ended.out))
        self.assertEqual(1, ended.out.count(HEAD))
        told = ("a.vcf: card 1, line 5: CLASS kept as X-CLASS\n"
                "b.csv: row 1, line 2: the cell of Shoe kept as X-SHOE\n"
                "TEL: 1 line put into the form of vCard 4.0\n"
                "look first at: a.vcf: card 1, line 5: CLASS kept as X-CLASS\n"
                + numbers(4, 2, 2, 0))
        self.assertEqual((0, told), (ended.status, ended.err.decode()))
        (self.folder / "rows.csv").write_bytes(ended.out)
        self.assertEqual(Ended(0, b"rows 4\n", b""), run("check", self.folder / "rows.csv"))

    def test_the_report_of_several_files(self):
        self.write(a_vcf=text(card("3.0", "UID:a", "FN:A", "TEL;CELL:1")).encode(),
                   b_vcf=text(card("3.0", "UID:b", "FN:B", "TEL;CELL:2")).encode() + b"x\n")
        ended = self.convert("a.vcf", "b.vcf", "--report", "r.txt")
        lost = "b.vcf: line 7: not carried: no card begins here\n"
        end = ("TEL: 2 lines put into the form of vCard 4.0\nlook first at: " + lost
               + numbers(2, 2, 0, 1))
        self.assertEqual((1, lost + end), (ended.status, ended.err.decode()))
        listed = ("a.vcf: card 1, line 5: TEL rewritten\nb.vcf: card 2, line 5: TEL rewritten\n"
                  + lost + end)
        self.assertEqual(listed, (self.folder / "r.txt").read_text())

    def test_the_same_card_in_two_files(self):
        """It is written once. Another card with its UID gets one of its own; another row with it
        isn't carried."""
        ann, bob = (text(card("4.0", "UID:a", f"FN:{name}")).encode() for name in ("Ann", "Bob"))
        rows = b"uid,fn,family,given,email,tel,org,note\na,Cy,,,,,,\nd,Dee,,,,,,\n"
        self.write(a_vcf=ann, b_vcf=bob + ann, c_csv=rows, d_csv=rows.replace(b"Dee", b"Eve"))
        ended = self.convert("a.vcf", "b.vcf", "c.csv", "c.csv", "d.csv")
        own = added_uid(bob)
        self.assertEqual(["a", own, "d"], [row[0] for row in rows_of(ended.out)])
        why = "not carried: an earlier file has another card under the same UID\n"
        for place in "c.csv: row 1, line 2", "d.csv: row 1, line 2", "d.csv: row 2, line 3":
            self.assertIn(f"{place}: {why}", ended.err.decode())
        self.assertIn(b"1 row with the cells of an earlier one isn't written again\n", ended.err)
        self.assertEqual(1, ended.status)
        moved = ("b.vcf: card 2, line 1: an earlier card has the same UID; "
                 f"kept under {own}\n")
        self.assertTrue(ended.err.decode().startswith(moved), ended)
        self.assertIn(b"1 card the same as an earlier one isn't written again\n", ended.err)

    def test_numbers_go_on(self):
        """Files of cards are numbered through, and so are files of rows."""
        cards = text(card("4.0", "UID:é", "FN:A")) + text(card("4.0", "UID:ö", "FN:B"))
        more = text(card("4.0", "UID:ü", "FN:C"))
        self.write(a_vcf=cards.encode(), b_vcf=more.encode())
        (self.folder / "to").mkdir()
        ended = self.convert("a.vcf", "b.vcf", "--to", "to")
        self.assertEqual(Ended(0, b"", numbers(3, 0, 0, 0, 3).encode()), ended)
        names = sorted(path.name for path in (self.folder / "to").iterdir())
        self.assertEqual(["card-1.vcf", "card-2.vcf", "card-3.vcf"], names)
        ended = self.convert("a.vcf", "b.vcf", "--rows", 2)
        self.assertEqual(Ended(0, b"", numbers(3, 0, 0, 0, 2).encode()), ended)
        counts = [len(rows_of((self.folder / f"a-{number}.csv").read_bytes())) for number in (1, 2)]
        self.assertEqual([2, 1], counts)

    def test_one_file_that_cannot_be_converted(self):
        """Nothing is written before each file is known."""
        self.write(a_vcf=text(card("4.0", "UID:a", "FN:A")).encode(), c_csv=b"Imi,Nazw\nA,B\n",
                   d_pdf=b"%PDF-1.4\n",
                   e_csv=b"First Name,E-mail Address,Birthday\nA,,05/04/1980\n")
        (self.folder / "to").mkdir()
        before = self.names()
        for name, words in [
            ("b.vcf", "b.vcf can't be read"),
            ("c.csv", "c.csv has no header of contacts that is known"),
            ("d.pdf", "d.pdf is a PDF"),
            ("e.csv", "e.csv has dates that may be two"),
            ("/dev/null", "/dev/null can't be read twice; convert it alone, or first"),
        ]:
            for options in [], ["--to", "to"], ["--rows", "1"], ["--report", "r"]:
                for files in ["a.vcf", name], ["a.vcf", "a.vcf", name, "a.vcf"]:
                    with self.subTest(files, options=options):
                        ended = self.convert(*files, *options)
                        self.assertEqual((3, b""), (ended.status, ended.out))
                        self.assertTrue(ended.err.startswith(f"fault device 1: {words}".encode()))
                        self.assertEqual(1, ended.err.count(b"\n"))
        self.assertEqual(before, self.names())
        self.assertEqual([], list((self.folder / "to").iterdir()))

    def test_a_pipe_comes_first(self):
        self.write(a_vcf=text(card("4.0", "UID:a", "FN:A")).encode())
        b = text(card("4.0", "UID:b", "FN:B")).encode()
        ended = self.convert("/dev/stdin", "a.vcf", input=b)
        self.assertEqual((0, ["b", "a"]), (ended.status, [row[0] for row in rows_of(ended.out)]))

    def test_options_hold_of_each_file(self):
        head = "Wer,Mail,Geb\n"
        self.write(a_csv=(head + "Ann,,05/04/1980\n").encode("utf-16-le"),
                   b_csv=(head + "Bob,,15/04/1980\n").encode("utf-16-le"))
        ended = self.convert("a.csv", "b.csv", "--columns", "Wer=fn,Geb=bday", "--day-first",
                             "--charset", "UTF-16LE")
        cards = "".join(row[1] for row in rows_of(ended.out))
        self.assertIn("BDAY:19800405\r\n", cards)
        self.assertIn("BDAY:19800415\r\n", cards)
        # Without the option each file says the order by itself, or is refused.
        ended = self.convert("b.csv", "a.csv", "--columns", "Wer=fn,Geb=bday", "--charset",
                             "UTF-16LE")
        self.assertEqual((3, b""), (ended.status, ended.out))
        self.assertIn(b"fault device 1: a.csv has dates that may be two", ended.err)

    # ---- the report

    def test_changes_of_form_are_counted(self):
        lines = [f"TEL;CELL:{number}" for number in range(1000)]
        self.write(a_vcf=text(card("2.1", "UID:a", "FN:A", *lines)).encode())
        ended = self.convert("a.vcf")
        self.assertEqual("TEL: 1,000 lines put into the form of vCard 4.0\n" + numbers(1, 1, 0, 0),
                         ended.err.decode())

    def test_many_names(self):
        """64 names are counted apart, and all others together."""
        lines = [f"X-{number};A=1;CELL:v" for number in range(1, 101)]
        self.write(a_vcf=text(card("2.1", "UID:a", "FN:A", *lines)).encode())
        ended = self.convert("a.vcf")
        told = [f"X-{number}: 1 line put into the form of vCard 4.0\n" for number in range(1, 65)]
        told.append("other properties: 36 lines put into the form of vCard 4.0\n")
        self.assertEqual("".join(told) + numbers(1, 1, 0, 0), ended.err.decode())

    def test_many_changes_of_one_card(self):
        lines = [f"CLASS:{number}" for number in range(30)]
        self.write(a_vcf=text(card("3.0", "UID:a", "FN:A", *lines)).encode())
        ended = self.convert("a.vcf")
        listed = [f"card 1, line {number + 5}: CLASS kept as X-CLASS" for number in range(30)]
        self.assertEqual(digest(listed, 1, 1, 0), ended.err.decode())
        self.assertIn(b"line 12: CLASS kept as X-CLASS; and 22 more\n", ended.err)

    def test_memory_of_the_report(self):
        """It doesn't grow with the lines: 400,000 changes of form are told in 60 MB."""
        numbers = ["TEL;CELL:1"] * 1000
        cards = [text(card("2.1", f"FN:A{it}", *numbers), "\n") for it in range(400)]
        self.write(a_vcf="".join(cards).encode())

        def bounded():
            resource.setrlimit(resource.RLIMIT_AS, (60_000_000, 60_000_000))

        ended = self.convert("a.vcf", preexec_fn=bounded)
        self.assertEqual(0, ended.status, ended.err)
        self.assertEqual(3, ended.err.count(b"\n"), ended.err)
        self.assertIn(b"TEL: 400,000 lines", ended.err)

    def test_what_to_look_at_first(self):
        kept = text(card("3.0", "UID:a", "FN:A", "CLASS:1"))
        lost = text(card("2.1", "UID:b", "FN:A", "NOTE;CHARSET=ISO-8859-3:\xa5"))
        self.write(a_vcf=(kept + lost).encode("latin-1") + b"x\n", b_vcf=kept.encode(),
                   c_vcf=(kept + lost).encode("latin-1"))
        for name, line in [("a.vcf", "line 13: not carried: no card begins here"),
                           ("b.vcf", "card 1, line 5: CLASS kept as X-CLASS"),
                           ("c.vcf", "card 2, line 7: NOTE has U+FFFD in place of characters that "
                                     "couldn't be read")]:
            with self.subTest(name):
                told = self.convert(name).err.decode().splitlines()
                self.assertEqual("look first at: " + line, told[-2])

    def test_characters_that_are_lost(self):
        """An octet that a character set has no character for is told as a loss."""
        for octets in [
            b"NOTE;CHARSET=ISO-8859-3:\xa5", b"NOTE;CHARSET=windows-1253;QUOTED-PRINTABLE:=D2",
        ]:
            lines = [b"BEGIN:VCARD", b"VERSION:2.1", b"UID:a", b"FN:A", octets, b"END:VCARD", b""]
            self.write(a_vcf=b"\r\n".join(lines))
            ended = self.convert("a.vcf")
            told = ("card 1, line 1: NOTE has U+FFFD in place of characters that couldn't be "
                    "read\n")
            self.assertTrue(ended.err.decode().startswith(told), ended)
            self.assertIn("look first at: " + told, ended.err.decode())
        # So it is in a whole file of a character set, also in a spreadsheet.
        self.write(a_csv=b"First Name,E-mail Address,Notes\nAnn,,\xa5\n")
        ended = self.convert("a.csv", "--charset", "ISO-8859-3")
        told = "row 1, line 2: NOTE has U+FFFD in place of characters that couldn't be read\n"
        self.assertTrue(ended.err.decode().startswith(told), ended)
        # And where the cell is read as Windows-1252, which has none for five octets.
        for octet in b"\x81", b"\x8d", b"\x8f", b"\x90", b"\x9d":
            self.write(a_csv=b"First Name,E-mail Address,Notes\nAnn,,a" + octet + b"\n")
            ended = self.convert("a.csv")
            self.assertTrue(ended.err.decode().startswith(told), ended)
            self.assertIn("NOTE:a\ufffd\r\n", ended.out.decode())

    def test_a_guess_is_told(self):
        """Cells and lines that aren't UTF-8 are read as Windows-1252, and counted."""
        head = "First Name,E-mail Address,Notes\n"
        rows = "Jörg,a@x.test,Grüße aus Köln\nAnn,b@x.test,\nAndré,,\n"
        self.write(a_csv=(head + rows).encode("cp1252"))
        for options, guessed in [([], guesses(cells=3)), (["--charset", "windows-1252"], "")]:
            with self.subTest(options):
                ended = self.convert("a.csv", *options)
                self.assertEqual((0, guessed + numbers(3, 0, 0, 0)),
                                 (ended.status, ended.err.decode()))
                self.assertIn("NOTE:Grüße aus Köln\r\n", ended.out.decode())
        self.write(a_csv=(head + rows).encode(), b_csv=(head + "Zoë,,\n").encode("cp1252"))
        ended = self.convert("a.csv", "b.csv")
        self.assertEqual(guesses(cells=1) + numbers(4, 0, 0, 0), ended.err.decode())
        # A character set that a line names is no guess. A fold may be within a character.
        lines = card("3.0", "UID:a", "FN:Jörg", "NOTE;CHARSET=ISO-8859-1:ü", "TITLE:a\r\n ü")
        self.write(a_vcf=text(lines).encode("latin-1"), b_vcf=text(
            card("3.0", "UID:a", "FN:A")).encode().replace(b"FN:A", b"FN:J\xc3\r\n \xb6rg"))
        listed = [f"card 1, line {line}" for line in
                  ("4: FN rewritten", "5: NOTE rewritten", "6: TITLE rewritten",
                   "1: " + guess(2, "line"))]
        for name, changes in ("a.vcf", listed), ("b.vcf", []):
            with self.subTest(name):
                ended = self.convert(name)
                due = digest(changes, 1, bool(changes), 0)
                self.assertEqual((0, due), (ended.status, ended.err.decode()))

    def test_each_guess_is_listed(self):
        """The report in a file has a line for each row and card of which something is guessed."""
        rows = "First Name,E-mail Address,Notes\nJörg,a@x.test,Grüße\nAnn,b@x.test,\nAndré,,\n"
        self.write(a_csv=rows.encode("cp1252"), a_vcf=text(
            card("3.0", "UID:a", "FN:Zoë", "NOTE:ü") + card("3.0", "UID:b", "FN:Ann")
        ).encode("latin-1"))
        for name, listed in [
            ("a.csv", [f"row 1, line 2: {guess(2, 'cell')}", f"row 3, line 4: {guess(1, 'cell')}"]),
            ("a.vcf", ["card 1, line 4: FN rewritten", "card 1, line 5: NOTE rewritten",
                       f"card 1, line 1: {guess(2, 'line')}"]),
        ]:
            with self.subTest(name):
                ended = self.convert(name, "--report", "r.txt")
                report = (self.folder / "r.txt").read_text(encoding="utf-8")
                whole = "".join(f"{line}\n" for line in listed) + ended.err.decode()
                self.assertEqual((0, whole), (ended.status, report))
                (self.folder / "r.txt").unlink()

    def test_mac_roman(self):
        """A file whose lines end with CR alone may be Mac Roman: so it is told, if a guess is made,
        and read with its character set."""
        rows = "Name;E-Mail;Ort\nJörg Müller;a@x.test;Gänßhöhe\nÄnne Groß;b@x.test;Köln\n"
        names = ["Jörg Müller", "Änne Groß"]
        cards = "".join(text(card("3.0", f"UID:{name}", f"FN:{name}"), "\n") for name in names)
        for name, octets, told in [("a.csv", rows, guesses(cells=4, returns=True)),
                                   ("a.vcf", cards, guesses(lines=4, returns=True))]:
            for end in "\r", "\n":
                with self.subTest(name, end=end):
                    coded = octets.replace("\n", end).encode("mac_roman")
                    (self.folder / name).write_bytes(coded)
                    ended = self.convert(name)
                    due = told if end == "\r" else told.split("\n")[0] + "\n"
                    self.assertEqual(0, ended.status, ended)
                    self.assertIn(due, ended.err.decode())
                    self.assertEqual(end == "\r", "macintosh" in ended.err.decode(), ended)
                    for option in "macintosh", "Macintosh", "x-mac-roman", "mac":
                        ended = self.convert(name, "--charset", option)
                        self.assertEqual((0, numbers(2, 0, 0, 0)),
                                         (ended.status, ended.err.decode()))
                        found = re.findall("^FN:(.*)\r$", ended.out.decode(), re.MULTILINE)
                        self.assertEqual(names, found)
        # A file in UTF-8 whose lines end so is no guess.
        (self.folder / "a.csv").write_bytes(rows.replace("\n", "\r").encode())
        self.assertEqual(numbers(2, 0, 0, 0), self.convert("a.csv").err.decode())

    def test_lost_characters_count_as_a_change(self):
        told = "FN has U+FFFD in place of characters that couldn't be read"
        self.write(a_csv=b"Name,Email\nJ\x81rg,a@x.test\nAnn,b@x.test\n")
        ended = self.convert("a.csv")
        due = digest([f"row 1, line 2: {told}", f"row 1, line 2: {guess(1, 'cell')}"], 2, 1, 0)
        self.assertEqual((0, due), (ended.status, ended.err.decode()))
        # A card of vCard 4.0 that has such a character is carried as it is.
        self.write(a_vcf=text(card("4.0", "UID:a", "FN:J\ufffdrg")).encode())
        ended = self.convert("a.vcf")
        self.assertEqual((0, digest([f"card 1, line 1: {told}"], 1, 1, 0)),
                         (ended.status, ended.err.decode()))

    def test_an_export_that_was_saved_again(self):
        """One with its header in quotes is read. One without commas is told, and not taken for
        contacts."""
        vcard = text(card("4.0", "UID:a", "FN:Ann"))
        plain = f'uid,vcard\r\na,"{vcard}"\r\n'
        self.write(a_csv=plain.encode())
        due = self.convert("a.csv")
        self.assertEqual((0, numbers(1, 0, 0, 0).encode()), (due.status, due.err))
        for mark in "", "\ufeff":
            for head in '"uid","vcard"', 'uid,"vcard"', '"uid",vcard':
                with self.subTest(head, mark=mark):
                    self.write(b_csv=(mark + plain.replace("uid,vcard", head)).encode())
                    self.assertEqual(due, self.convert("b.csv"))
            for delimiter in ";", "\t", "|":
                for head in f"uid{delimiter}vcard", f'"uid"{delimiter}"vcard"':
                    for name, options in [("b.csv", []), ("b.txt", []),
                                          ("b.csv", ["--columns", "vcard=fn"])]:
                        with self.subTest(head, mark=mark, name=name, options=options):
                            rows = plain.replace("uid,vcard", head).replace("a,", "a" + delimiter)
                            (self.folder / name).write_bytes((mark + rows).encode())
                            ended = self.convert(name, *options)
                            words = (f"fault device 1: {name} is rows of cards that were saved "
                                     "again, without commas between uid and vcard; convert the "
                                     "file as it was exported\n")
                            self.assertEqual((3, b"", words),
                                             (ended.status, ended.out, ended.err.decode()))

    def test_text_that_is_not_quite_utf8(self):
        """U+FFFD stands for what is no character of it, also if all of it is said to be UTF-8."""
        head = b"First Name,E-mail Address,Notes\n"
        told = "row 1, line 2: NOTE has U+FFFD in place of characters that couldn't be read\n"
        for octets, options, note, is_told in [
            ("Müllfä".encode() + b"\xc3", [], "Müllfä\ufffd", True),
            ("Müll".encode() + b"\xe4", [], "MÃ¼llä", False),
            (b"\x84Spa\xdf\x93 und gr\xfc\xdfte", [], "„Spaß“ und grüßte", False),
            ("Müll".encode() + b"\xc3 1", ["--charset", "UTF-8"], "Müll\ufffd 1", True),
            (b"M\xfcll", [], "Müll", False),
            (b"M\xfcll", ["--charset", "UTF-8"], "M\ufffdll", True),
            (b"M\xe2\x82ll", ["--charset", "UTF-8"], "M\ufffdll", True),
            ("Müll€\U00012345".encode(), ["--charset", "UTF-8"], "Müll€\U00012345", False),
        ]:
            with self.subTest(octets, options=options):
                self.write(a_csv=head + b"Ann,," + octets + b"\n")
                ended = self.convert("a.csv", *options)
                self.assertIn(f"NOTE:{note}\r\n", ended.out.decode())
                self.assertEqual(is_told, ended.err.decode().startswith(told), ended)

    def test_cards_that_are_said_to_be_utf8(self):
        """A line may be folded within a character, and its own CHARSET goes first."""
        for front in b"", b"\xef\xbb\xbf", b"\n":
            self.write(a_vcf=front + b"BEGIN:VCARD\nVERSION:3.0\nFN:J\xc3\n \xbcrgen\n"
                       b"NOTE;CHARSET=ISO-8859-1:M\xfcll\nORG:O\xc5\x82aw\nEND:VCARD\n")
            with self.subTest(front):
                ended = self.convert("a.vcf", "--charset", "UTF-8")
                for line in "FN:Jürgen", "NOTE:Müll", "ORG:Oław":
                    self.assertIn(f"\r\n{line}\r\n", ended.out.decode())
                self.assertEqual(self.convert("a.vcf")[:3], ended[:3])

    def test_characters_between_two_reads(self):
        """A file is read in parts, and a character may be in two of them."""
        for front in range(4):
            for character in "ü", "€", "\U00012345":
                note = "a" * front + character * 5000
                lines = f"First Name,E-mail Address,Notes\nAnn,,{note}\n"
                with self.subTest(front=front, character=character):
                    self.write(a_csv=lines.encode())
                    ended = self.convert("a.csv", "--charset", "UTF-8")
                    plain = self.convert("a.csv")
                    self.assertEqual((0, plain.out, plain.err), ended[:3])
                    self.assertNotIn("\ufffd", ended.out.decode())

    def test_wrong_quotes_in_rows_of_cards(self):
        """A card is carried to its END, whatever its quotes, and those that are wrong are told. If a
        quote may have cut a card, only its own row is lost, which is told with its lines."""
        for end in "\r\n", "\n":
            def row(uid, old="", new=""):
                lines = [f'{uid},"BEGIN:VCARD', "VERSION:4.0", f"UID:{uid}", f"FN:{uid}", "END:VCARD",
                         '"', ""]
                return end.join(lines).replace(old, new) if old else end.join(lines)
            last = f'END:VCARD{end}"{end}'
            missing = row("b", last, f"END:VCARD{end}")
            inch = row("b", "FN:b", 'FN:b 5", thick')
            mended = "card 2, line 8: a quote in the row is missing, or isn't doubled\n"
            for wrong, name, told in [
                (missing, "b", mended),
                (row("b", "FN:b", 'FN:b "Bo"'), 'b "Bo"', mended),
                (row('"b"', "FN:\"b\"", 'FN:b 5" pipe').replace('UID:"b"', "UID:b"), 'b 5" pipe', mended),
                (inch, 'b 5", thick', mended),
                (row("b", "FN:b", 'FN:b 5"'), 'b 5"', mended),
                (row("b", "FN:b", 'FN:b","c'), 'b","c', mended),
                (missing.replace("FN:b", 'FN:b 5"'), 'b 5"', mended),
                (row("b", "FN:b", 'FN:b ""Bo""'), 'b "Bo"', ""),
                (row("b", f'{end}"', '"'), "b", ""),
                (row("b", "b,", '"b,'), None, 6),
                (inch.replace(f"END:VCARD{end}", ""), None, 5),
                (row("b", last, f'END:VCARD{end}"x{end}'), None, 6),
            ]:
                for after in row("c"), "":
                    with self.subTest(wrong, end=end, after=after):
                        self.write(a_csv=(f"uid,vcard{end}" + row("a") + wrong + after).encode())
                        ended = self.convert("a.csv")
                        status = int(name is None)
                        if status:
                            lost = (f"line 8: not carried: a quote isn't closed in its row, and {told} "
                                    "lines are lost with it\n")
                        else:
                            lost = told
                        carried = ["a", *([] if status else ["b"]), *(["c"] if after else [])]
                        names = ["a", *([] if status else [name]), *(["c"] if after else [])]
                        given = rows_of(ended.out)
                        self.assertEqual(carried, [it[0] for it in given])
                        self.assertEqual(names, [line[3:] for it in given for line in
                                                 it[1].splitlines() if line.startswith("FN:")])
                        lost += f"look first at: {lost}" if lost else ""
                        lost += numbers(len(carried), 0, 0, status)
                        self.assertEqual((status, lost), (ended.status, ended.err.decode()))
        self.write(a_csv=('uid,vcard\na,"b"c\n').encode())
        ended = self.convert("a.csv")
        self.assertIn(b"line 2: not carried: a quote isn't closed in its row\n", ended.err)

    def test_lines_of_a_broken_row(self):
        """A quote that isn't closed is told with the lines that it takes with it."""
        head = "First Name,E-mail Address,Notes\n"
        for rows, lines in [
            ('A,,"x\n' + "y\n" * 300 + "B,,\n", 301),
            ('A,,"x\nB,,\n', 1),
            ('A,,"x\n' + "y\n" * 300, 301),
            ('A,,"x\n', 1),
            ("B,,\n" + 'A,,"x\n' + "y,y,y,y\n" * 250 + 'C,,"x\n' + "y\n" * 9 + "B,,\n", 261),
        ]:
            with self.subTest(rows[:8], lines=lines):
                self.write(a_csv=(head + rows).encode())
                ended = self.convert("a.csv")
                place = 2 if rows.startswith("B") else 1
                why = "a quote isn't closed in its row"
                if lines > 200:
                    why = "a cell has more than 200 lines, or a quote isn't closed"
                told = f"row {place}, line {place + 1}: not carried: {why}"
                told += f", and {lines} lines are lost with it\n" if lines > 1 else "\n"
                self.assertTrue(ended.err.decode().startswith(told), ended.err)
                # The last row of the last file is that of its first person again.
                told = 4 if place == 2 else 3
                self.assertEqual(told, ended.err.count(b"\n"), ended.err)


if __name__ == "__main__":
    unittest.main()
