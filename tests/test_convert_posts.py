"""`POST /convert`: what a file becomes, part by part, before it is imported.

A file that is sent in parts gets the rows, the report and the numbers that `contacts convert` gives
for the whole file, wherever it is cut. What is too large or too slow is told in words, and holds up
no other client for long.
"""

import csv
import io
import json
import re
import threading
import unittest
from urllib.parse import quote

from card_rows import octets as octets_of
from contact_rows import EXPORTS
from converted_cards import CARDS
from http_requests import books, card, create, get, put, request, tally
from order_trials import OrderTest
from program import Server, processor_time, run

csv.field_size_limit(10_000_000)

HEAD_OCTETS = 16_384
PIECE = 262_144
KEYS = ["card", "changed", "columns", "dates", "header", "kind", "line", "not_carried", "report",
        "rows", "taken", "written"]
PLACE = re.compile(r"(?:card|row) (\d+), line (\d+): (.*)|line (\d+): (.*)")
GOOGLE = "Name,E-mail 1 - Value,Notes,Labels,Birthday\n"
BAD_QUERY = {"fault": "bad-query", "number": 30}


def reported(text):
    """The lines of a whole report, as the reply has them, and the numbers of its last line."""
    *lines, last = text.decode().splitlines()
    report = []
    for line in lines:
        found = PLACE.fullmatch(line)
        if found:
            card_number, line_number, words, other, other_words = found.groups()
            report.append({"card": int(card_number or 0), "line": int(line_number or other),
                           "text": words or other_words})
    written, changed, _aside, refused = [int(word) for word in re.findall(r"\d+", last)]
    return report, [written, changed, refused]


def old_card(number, *lines):
    """A card of vCard 3.0 without a UID, which is changed."""
    return "".join(f"{line}\n" for line in [
        "BEGIN:VCARD", "VERSION:3.0", f"N:Lee;Ann {number};;;", "CLASS:PUBLIC",
        f"TEL;TYPE=CELL:+1 {number}", *lines, "END:VCARD"]).encode()


def mixed_cards(octets):
    """Cards of all kinds, text between them, of about so many octets."""
    text, number = b"", 0
    while len(text) < octets:
        number += 1
        text += old_card(number, "NOTE:" + "x" * (number % 97))
        if number % 5 == 0:
            text += card(f"u{number}", f"Bob {number}").encode()
        if number % 7 == 0:
            text += b"no card\n\n" if number % 2 else b"\r\n \n"
        if number % 11 == 0:
            text += b"BEGIN:VCARD\nVERSION:4.0\nFN:open %d\n" % number
    return text


def mixed_rows(octets, end="\n"):
    """Rows of contacts: cells with line feeds, broken quotes, empty lines, wrong widths."""
    text, number = GOOGLE, 0
    while len(text) < octets:
        number += 1
        text += f'Ann {number},a{number}@x.test,"first\nsecond, and ""third""",A ::: B,' + end
        if number % 5 == 0:
            text += f'Bob {number},"b{number}@x.test,,,{end}'
        if number % 7 == 0:
            text += f"{end}{end}only one cell {number}{end}"
        if number % 11 == 0:
            text += f'Cy {number},c{number}@x.test,5" pipe,,31/12/1980{end}'
    return text.encode()


class ConvertTest(OrderTest):
    """A test with a server that runs."""

    def setUp(self):
        super().setUp()
        more = ["--create", "--host", "office"]
        self.server = Server(self.folder / "office.db", order="run", more=more)
        self.addCleanup(self.server.kill)
        self.connection = self.server.connect()
        self.addCleanup(self.connection.socket.close)

    def ask(self, octets):
        """The status and the body of the reply on the test's own connection."""
        self.connection.send(octets)
        head, _, body = self.connection.reply().partition(b"\r\n\r\n")
        return int(head.split()[1]), body

    def post(self, body, query=""):
        """The status and the value of the reply to a body."""
        return self.read(*self.ask(request("POST", f"/convert{query}", body)))

    def read(self, status, text):
        """The status and the value of a reply, which is written without spaces, names in order."""
        value = json.loads(text)
        self.assertEqual(text, json.dumps(value, separators=(",", ":"), sort_keys=True,
                                          ensure_ascii=False).encode())
        return status, value

    def part(self, body, query=""):
        status, value = self.post(body, query)
        self.assertEqual(200, status, value)
        self.assertEqual(KEYS, list(value))
        self.assertLessEqual(value["taken"], len(body))
        return value

    def in_parts(self, octets, sizes, more=""):
        """All rows, reports and numbers of a file whose bodies have these sizes, then the rest."""
        header, at, line, number = b"", 0, 1, 1
        rows, report, numbers, parts = [], [], [0, 0, 0], []
        sizes = list(sizes)
        while True:
            size = sizes.pop(0) if sizes else len(octets)
            goes_on = at + size < len(octets)
            body = header + octets[at:at + size]
            query = f"?line={line}&card={number}{more}" + ("&more=1" if goes_on else "")
            part = self.part(body, query)
            parts.append(part)
            rows += part["rows"]
            report += part["report"]
            numbers = [a + b for a, b in zip(
                numbers, [part["written"], part["changed"], part["not_carried"]])]
            if part["taken"]:
                at += part["taken"] - len(header)
                line, number = part["line"], part["card"]
                header = header or octets[:part["header"]]
            else:
                self.assertTrue(goes_on or not octets[at:], part)
            if at >= len(octets):
                return rows, report, numbers, parts

    def converted(self, octets, name, *options):
        """The rows, the report and the numbers of `contacts convert`."""
        (self.folder / name).write_bytes(octets)
        report = self.folder / "report.txt"
        if report.exists():
            report.unlink()
        ended = run("convert", name, "--report", report.name, *options, cwd=self.folder)
        rows = list(csv.reader(io.StringIO(ended.out.decode(), newline="")))[1:]
        return rows, *reported(report.read_bytes())

    def compare(self, octets, name, sizes=(), options=(), more=""):
        """The parts are what `contacts convert` gives. Returns them."""
        rows, report, numbers, parts = self.in_parts(octets, sizes, more)
        wanted, wanted_report, wanted_numbers = self.converted(octets, name, *options)
        self.assertEqual(wanted, [[row["uid"], row["vcard"]] for row in rows])
        self.assertEqual(wanted_report, report)
        self.assertEqual(wanted_numbers, numbers)
        return parts


class Converted(ConvertTest):
    def test_each_example_is_converted_as_by_the_order(self):
        for title, lines, _card, _report in CARDS:
            for end in "\r\n", "\n", "\r", "\r\r\n":
                with self.subTest(title, end=end):
                    self.compare(octets_of("".join(line + end for line in lines)), "cards.vcf")
        for export in EXPORTS:
            with self.subTest(export.title):
                parts = self.compare(export.octets, "contacts.csv")
                self.assertEqual({"contacts"}, {part["kind"] for part in parts})

    def test_each_row_has_its_card_and_its_line(self):
        octets = mixed_cards(1_000)
        for row in self.part(octets)["rows"]:
            line = octets.splitlines(True)[row["line"] - 1]
            self.assertEqual(b"BEGIN:VCARD", line.strip())
            begun = octets.splitlines()[:row["line"]].count(b"BEGIN:VCARD")
            self.assertEqual(begun, row["card"])
        octets = mixed_rows(1_000)
        for row in self.part(octets)["rows"]:
            line = octets.splitlines()[row["line"] - 1].decode()
            self.assertIn(line.split(",")[0], row["vcard"])

    def test_an_export_is_read_again(self):
        for octets in create("staff"), put("staff", "a", "Ann"), put("staff", "b", "Bob"):
            self.ask(octets)
        _, octets = self.ask(request("GET", "/books/staff/export"))
        part = self.part(octets)
        self.assertEqual(("rows", ["a", "b"], 10), (
            part["kind"], [row["uid"] for row in part["rows"]], part["header"]))
        self.assertEqual([card("a", "Ann"), card("b", "Bob")],
                         [row["vcard"] for row in part["rows"]])

    def test_rows_of_an_export_are_told_with_their_lines(self):
        text = '"' + card("a", "Ann") + '"'
        octets = f"uid,vcard\na,x\nb,y\na,{text},more\nb,z\nc,{text}\n".encode()
        part, = self.compare(octets, "rows.csv")
        lines = text.count("\n")
        other = "not carried: no card begins here"
        self.assertEqual([
            (0, 2, other), (0, 3, other), (1, 4, "the row has a third cell, which is left out"),
            (0, 5 + lines, other), (2, 6 + lines, "an earlier card is the same"),
            (2, 6 + lines, "the row has another UID, which is left out"),
        ], [(it["card"], it["line"], it["text"]) for it in part["report"]])
        self.assertEqual([(1, 4)], [(row["card"], row["line"]) for row in part["rows"]])

    def test_mixed_line_ends(self):
        ends = zip("abcd", ["\n", "\r", "\r\n", "\n"])
        octets = "".join(card(uid, "Ann").replace("\r\n", end) for uid, end in ends).encode()
        part, = self.compare(octets, "cards.vcf")
        self.assertEqual([("a", 1, 1), ("c", 2, 6), ("d", 3, 11)],
                         [(row["uid"], row["card"], row["line"]) for row in part["rows"]])
        self.assertEqual(1, part["not_carried"])

    def test_the_same_card_twice_in_a_part_is_passed(self):
        octets = card("a", "Ann").encode() * 2 + card("a", "Anna").encode()
        part = self.part(octets)
        self.assertEqual(["an earlier card is the same"],
                         [it["text"] for it in part["report"] if it["card"] == 2])
        self.assertEqual([1, 3], [row["card"] for row in part["rows"]])
        self.compare(octets, "cards.vcf")

    def test_blank_and_empty_bodies_have_no_cards(self):
        for octets in b"", b"\n", b" \r\n\n", b"\xef\xbb\xbf":
            part = self.part(octets)
            self.assertEqual(([], 0, len(octets)), (
                part["rows"], part["not_carried"], part["taken"]))


class Cut(ConvertTest):
    def test_cards_are_cut_at_every_octet(self):
        octets = mixed_cards(HEAD_OCTETS + 4_000)
        for size in range(1, 400):
            self.in_same_parts(octets, "cards.vcf", [HEAD_OCTETS + 900, size])

    def test_rows_are_cut_at_every_octet(self):
        for end in "\n", "\r\n":
            octets = mixed_rows(HEAD_OCTETS + 4_000, end)
            for size in range(1, 400):
                self.in_same_parts(octets, "rows.csv", [HEAD_OCTETS + 900, size])

    def test_exports_are_cut_at_every_octet(self):
        (self.folder / "cards.vcf").write_bytes(mixed_cards(HEAD_OCTETS + 4_000))
        octets = run("convert", "cards.vcf", cwd=self.folder).out
        for size in range(1, 400):
            self.in_same_parts(octets, "rows.csv", [HEAD_OCTETS + 900, size])

    def test_wrong_quotes_are_cut_at_every_octet(self):
        rows = [f'u{number},"{card(f"u{number}", "Ann")}"\r\n' for number in range(300)]
        for number in range(5, 300, 9):
            rows[number] = rows[number].replace("FN:Ann", 'FN:Ann "x')
        for number in range(7, 300, 11):
            rows[number] = rows[number].replace('"\r\n', "")
        octets = ("uid,vcard\r\n" + "".join(rows)).encode()
        for size in range(1, 400, 7):
            self.in_same_parts(octets, "rows.csv", [HEAD_OCTETS + 900, size])

    def test_rows_with_wrong_quotes_need_no_more_parts(self):
        """A part has 400 rows: only the octets that were looked at count beside a row."""
        for row in b'"P,p@x.test\n', b'P,"p@x.test\n', b'"P "x" y",p@x.test\n':
            *_, parts = self.in_parts(b"Name,Email\n" + 4_000 * row, [PIECE])
            self.assertLessEqual(len(parts), 11, row)

    def in_same_parts(self, octets, name, sizes):
        """The parts are those of the whole, which is converted once."""
        if getattr(self, "whole_of", None) != octets:
            self.whole, self.whole_of = self.converted(octets, name), octets
        rows, report, numbers, _ = self.in_parts(octets, sizes)
        with self.subTest(name, sizes=sizes):
            self.assertEqual(self.whole, (
                [[row["uid"], row["vcard"]] for row in rows], report, numbers))

    def test_large_files_are_converted_in_pieces(self):
        for octets, name in (mixed_cards(600_000), "cards.vcf"), (mixed_rows(400_000), "a.csv"):
            parts = self.compare(octets, name, [PIECE] * 100)
            self.assertLess(3, len(parts))
            for part in parts:
                self.assertLessEqual(part["taken"], 131_072 + 1_000)
                self.assertLessEqual(len(part["rows"]), 400)

    def test_a_short_first_piece_is_left_for_a_longer_one(self):
        for octets in mixed_cards(9_000), mixed_rows(9_000):
            part = self.part(octets, "?more=1")
            self.assertEqual((0, [], 1, 1), (
                part["taken"], part["rows"], part["card"], part["line"]))


class Columns(ConvertTest):
    def test_what_becomes_of_the_columns_is_said(self):
        part = self.part(b"First Name,Last Name,Mobile Phone,Business Fax,Hobby,E-mail Address\n"
                         b"Ann,Lee,1,2,tea,a@x.test\n")
        self.assertEqual("First Name=n.given,Last Name=n.family,Mobile Phone=tel;type=cell,"
                         "Business Fax=tel;type=work;type=fax,E-mail Address=email",
                         part["columns"])
        columns = quote("Hobby=note,#3=-")
        part = self.part(b"First Name,Last Name,Mobile Phone,Hobby,E-mail Address\n"
                         b"Ann,Lee,1,tea,a@x.test\n", f"?columns={columns}")
        self.assertEqual("First Name=n.given,Last Name=n.family,Mobile Phone=-,Hobby=note,"
                         "E-mail Address=email", part["columns"])
        self.assertIn("NOTE:tea", part["rows"][0]["vcard"])
        self.assertNotIn("TEL", part["rows"][0]["vcard"])

    def test_a_column_that_nobody_can_ask_for_is_missing(self):
        part = self.part(b"First Name,Mobile Phone,Spouse,Children\nAnn,1,Bo,Cy\n")
        self.assertIn("RELATED;TYPE=spouse;VALUE=text:Bo", part["rows"][0]["vcard"])
        self.assertEqual("First Name=n.given,Mobile Phone=tel;type=cell", part["columns"])

    def test_guesses_are_told(self):
        """Each card and row of which something isn't UTF-8 and is read as Windows-1252."""
        rows = "Name,E-Mail,Note\nJörg,a@x.test,Grüße\nAnn,b@x.test,\nAndré,c@x.test,\n"
        cards = ("BEGIN:VCARD\nVERSION:4.0\nUID:a\nFN:Zoë\nEND:VCARD\n"
                 "BEGIN:VCARD\nVERSION:4.0\nUID:b\nFN:Ann\nEND:VCARD\n"
                 "BEGIN:VCARD\nVERSION:2.1\nUID:c\nFN:Bo\n"
                 "NOTE;QUOTED-PRINTABLE:=FC=\n =E4\nTITLE:ä\nEND:VCARD\n")
        for name, text, wanted in [
            ("a.csv", rows, [(1, 2, "read as Windows-1252: 2 cells that aren't UTF-8"),
                             (3, 4, "read as Windows-1252: 1 cell that isn't UTF-8")]),
            ("a.vcf", cards, [(1, 4, "FN rewritten"),
                              (1, 1, "read as Windows-1252: 1 line that isn't UTF-8"),
                              (3, 15, "NOTE rewritten"), (3, 17, "TITLE rewritten"),
                              (3, 11, "read as Windows-1252: 2 lines that aren't UTF-8")]),
        ]:
            with self.subTest(name):
                octets = text.encode("latin-1")
                part = self.part(octets)
                found = [(it["card"], it["line"], it["text"]) for it in part["report"]]
                self.assertEqual(wanted, found)
                self.compare(octets, name)

    def test_dates_are_told(self):
        rows = [("05/04/1980", "unknown"), ("15/04/1980", "day"), ("04/15/1980", "month"),
                ("1980-04-05", "none"), ("04/04/1980", "none"), ("", "none")]
        for date, dates in rows:
            with self.subTest(date):
                octets = (GOOGLE + f"Ann,a@x.test,,,{date}\n").encode()
                self.assertEqual(dates, self.part(octets)["dates"])
        octets = (GOOGLE + "Ann,a@x.test,,,05/04/1980\n").encode()
        for query, line in [("", "BDAY;VALUE=text:05/04/1980"), ("?dates=day", "BDAY:19800405"),
                            ("?dates=month", "BDAY:19800504")]:
            part = self.part(octets, query)
            self.assertIn(line, part["rows"][0]["vcard"].splitlines())
        self.compare(octets, "a.csv", options=["--day-first"], more="&dates=day")

    def test_an_unknown_header_gets_columns_to_begin_with(self):
        status, value = self.post(b"Kunde,Mail (priv.)\nAnn,a@x.test\n")
        self.assertEqual((422, "not-converted", 35), (status, value["fault"], value["number"]))
        self.assertEqual("Kunde=fn,Mail (priv.)=email", value["columns"])
        query = "?columns=" + quote(value["columns"])
        part = self.part(b"Kunde,Mail (priv.)\nAnn,a@x.test\n", query)
        self.assertEqual((1, value["columns"]), (part["written"], part["columns"]))


class Refused(ConvertTest):
    def test_other_formats_are_told(self):
        for octets, words in [
            (b"version: 1\ndn: cn=Ann\n", "LDIF"), (b"PK\x03\x04 xl/", "Excel workbook"),
            (b"%PDF-1.7", "PDF"), (b"\x1f\x8b\x08", "gzip"), (b"<?xml ?>", "XML"),
            ("BEGIN:VCARD".encode("utf-16"), "UTF-16"), (b"hello\n", "no card"),
        ]:
            status, value = self.post(octets)
            self.assertEqual((422, 35), (status, value["number"]), octets)
            self.assertIn(words, value["text"])

    def test_a_later_part_may_begin_with_any_octets(self):
        """The first part of a file shows its format; a later one may begin with text or a row."""
        one, two = old_card(1, "NOTE:" + "x" * HEAD_OCTETS), old_card(2)
        for front in [b"[]\n", b"<html>\n", b"BEGIN:VCALENDAR\n", b"%PDF-1.7\n", b"\xff\xfe\n", b"dn: a\n"]:
            with self.subTest(front):
                parts = self.compare(one + front + two, "cards.vcf", [len(one + front)])
                self.assertEqual([1, 1], [part["written"] for part in parts])
        rows = b"".join(b"Ann %d,a%d@x.test\n" % (number, number) for number in range(2))
        for front in b"<none>,Name,Email\n", b"[],Name,Email\n":
            parts = self.compare(front + b"<none>," + rows.replace(b"\n", b"\n[],")[:-3], "a.csv")
            self.assertEqual([2], [part["written"] for part in parts])

    def test_wrong_columns_are_told(self):
        octets = (GOOGLE + "Ann,a@x.test,,,\n").encode()
        for columns, words in [
            ("Nme=fn", "there is no column 'Nme'"), ("Name", "isn't COLUMN"),
            ("Name=nm", "'nm' is no property"), ("Name=fn,#1=note", "more than"),
        ]:
            status, value = self.post(octets, f"?columns={quote(columns)}")
            self.assertEqual(422, status)
            self.assertIn(words, value["text"])
        status, value = self.post(card("a", "Ann").encode(), "?columns=Name%3Dfn")
        self.assertEqual((422, "--columns: the file has cards, and no columns"),
                         (status, value["text"]))

    def test_columns_that_take_too_long_are_told(self):
        names = [f"C{number:04}" for number in range(900)]
        wide = ",".join(["Name", *names]).encode() + b"\nAnn" + b"," * 900 + b"\n"
        umlauts = wide.replace(b"C0", "\u00c4".encode())
        for octets, columns, words in [
            (wide, ",".join(f"{name}=-" for name in names[:257]), "more than 256 columns"),
            (wide, ",".join(f"{name}=-" for name in names[:200]), "too many columns"),
            (umlauts, ",".join(f"\u00c4{number:03}=-" for number in range(30)), "too many columns"),
            (b"a," * 1_001 + b"\n", "", "more than 1,000 cells"),
        ]:
            status, value = self.post(octets, f"?columns={quote(columns)}" if columns else "")
            self.assertEqual(422, status, words)
            self.assertIn(words, value["text"])
        part = self.part(wide, "?columns=" + quote(",".join(f"{name}=-" for name in names[:70])))
        self.assertEqual(1, part["written"])

    def test_wide_lines_after_the_header(self):
        """They don't matter, nor where the header is known by what is said alone."""
        note = b'Ann,a@x.test,"' + b"a, " * 1_100 + b'"\n'
        for header, query in [(b"Name,Email,Notes\n", ""), (b"List\n\nName,Email,Notes\n", ""),
                              (b"Wer,Wo,Was\n", "?columns=" + quote("Wer=fn,Wo=email,Was=note"))]:
            for end in b"\n", b"\r":
                with self.subTest(header, end=end):
                    octets = (header + note + b"Bob,b@x.test,n\n").replace(b"\n", end)
                    part = self.part(octets, query)
                    self.assertEqual(("contacts", 2, len(octets)),
                                     (part["kind"], part["written"], part["taken"]))
        # Of a file without a header the form of the rows is enough.
        query = "?line=9&card=9&columns=" + quote("#1=fn,#2=email,#3=note,rows=comma;cells=3")
        self.assertEqual(1, self.part(note, query)["written"])
        # A header after such a line isn't looked for.
        status, value = self.post(note + b"Name,Email,Notes\n" + note)
        self.assertEqual((422, 35), (status, value["number"]))
        self.assertIn("a header of more than 1,000 cells", value["text"])

    def test_headers_that_go_on_after_the_first_octets(self):
        """They are counted whole."""
        long = b'Name,Email,"' + b"x" * 16_400 + b'"'
        for cells, status in (900, 200), (997, 200), (998, 422), (110_000, 422):
            with self.subTest(cells):
                row = b"\nAnn,a@x.test" + b"," * (cells + 1) + b"\n"
                found, value = self.post(long + b",a" * cells + row)
                self.assertEqual(status, found, value)
                if status == 200:
                    self.assertEqual(1, value["written"])
                else:
                    self.assertIn("a header of more than 1,000 cells", value["text"])
        status, value = self.post(b'Name,Email,"' + b"x" * 600_000 + b'"\nAnn,a@x.test,\n')
        self.assertEqual(422, status)
        self.assertIn("a header of more than 524,288 octets", value["text"])

    def test_wrong_queries(self):
        for query in ["?more=2", "?more=", "?line=0", "?card=0", "?line=x", "?line=1&line=2",
                      "?dates=year", "?charset=latin1", "?a=b", "?card=1234567890123456"]:
            with self.subTest(query):
                self.assertEqual((400, BAD_QUERY), self.post(b"", query))

    def test_only_post(self):
        for method in "GET", "PUT", "DELETE", "OPTIONS", "post":
            self.connection.send(request(method, "/convert", b""))
            head, _, body = self.connection.reply().partition(b"\r\n\r\n")
            self.assertIn(b"405 Method Not Allowed", head)
            self.assertIn(b"\r\nAllow: POST\r\n", head)
            self.assertEqual({"fault": "bad-method", "number": 28}, json.loads(body))

    def test_other_paths_are_the_apis(self):
        for target in "/convert/", "/converts", "/Convert", "/convert%3Fa", "//convert":
            status, _ = self.ask(request("POST", target, b""))
            self.assertEqual(404, status, target)

    def test_the_guard(self):
        for fields, number in [(["Origin: http://evil.example"], 32),
                               (["Sec-Fetch-Site: cross-site"], 32), (["If-Match: *"], 33)]:
            reply = self.server.ask(request("POST", "/convert", b"", fields=fields))
            self.assertIn(f'"number":{number}'.encode(), reply)
        reply = self.server.ask(request("POST", "/convert", b"", fields=["Host: evil"], host=False))
        self.assertIn(b'"number":31', reply)

    def test_serve_has_no_conversions(self):
        run("init", self.folder / "other.db")
        with Server(self.folder / "other.db", connections=1) as server:
            self.assertIn(b'"number":27', server.ask(request("POST", "/convert", b"")))

    def test_no_book_is_changed(self):
        self.ask(create("staff"))
        self.ask(put("staff", "a", "Ann"))
        before = self.ask(tally("staff"))
        self.part(card("a", "Other").encode())
        self.assertEqual(before, self.ask(tally("staff")))
        self.assertIn(b"FN:Ann", self.ask(get("staff", "a"))[1])


# Bodies that would be slow, if what is done at once weren't bounded. The most octets of a body:
MOST = 8_388_608
PHOTO = old_card(1, "PHOTO;ENCODING=b;TYPE=JPEG:" + "\n ".join(["QUJD" * 18] * 3_000), "")
WORST = {
    "cards with photos": PHOTO * 30,
    "small cards": b"".join(old_card(number) for number in range(40_000)),
    "the shortest rows": GOOGLE.encode() + b"A,,,,\n" * 1_000_000,
    "empty lines": GOOGLE.encode() + b"\n" * 8_000_000,
    "quotes": GOOGLE.encode() + b'"' * 8_000_000,
    "open quotes": GOOGLE.encode() + b'"a\n' * 2_000_000,
    "quotes that close late": GOOGLE.encode() + (b'x","\n' * 100_000 + b'x"\n') * 16,
    "quotes in cells": GOOGLE.encode() + b'a"b,' * 2_000_000,
    "BEGIN:VCARD alone": b"BEGIN:VCARD\n" * 600_000,
    "no line feed": b"BEGIN:VCARD\nVERSION:3.0\nNOTE:" + b"x" * 8_000_000,
    "a million parameters":
        b"BEGIN:VCARD\nVERSION:3.0\nTEL" + b";A=b" * 1_000_000 + b":1\nEND:VCARD\n",
    "short lines": b"BEGIN:VCARD\nVERSION:3.0\n" + b"A:\n" * 170_000 + b"END:VCARD\n",
    "labels": b"BEGIN:VCARD\nVERSION:3.0\n" + b"ADR:;;a\nLABEL:b\n" * 2_400 + b"END:VCARD\n",
    "agents": b"BEGIN:VCARD\nVERSION:2.1\n" + b"AGENT:\nBEGIN:VCARD\n" * 400_000,
    "many cells":
        b"Name,Phone 1 - Value" + b",c" * 900 + b"\n" + (b"A,1" + b",v" * 900 + b"\n") * 4_000,
    "many values": GOOGLE.encode() + b"A," + b"a ::: " * 1_000_000 + b",,,\n",
    "many addresses":
        b"Name,Phone 1 - Value,Address 1 - Formatted,Address 1 - Street\n"
        + (b"A,1," + b"a ::: " * 800 + b"," + b"a ::: " * 800 + b"\n") * 700,
    "a long header": b"a," * 4_000_000 + b"\n",
    "a header that goes on": b'Name,Email,"' + b"x" * 16_400 + b'"' + b",a" * 110_000 + b"\nA,a@x\n",
    "a header of several lines": b'Name,Email,"\n",' + b'",\n",' * 5_000 + b"\n",
    "a header without an end": b'Name,Email,"' + b"x" * 600_000 + b'"' + b",a" * 3_000_000,
    "a wide header": b",".join(b"Phone %d - Value" % n for n in range(900)) + b",Name\n",
    "nothing but text": b"hello, world\n" * 600_000,
}
# What the server may do while another client waits, in seconds of a processor: a machine that does
# other work may keep both waiting for longer. A part should take 20 ms; a slow machine may need
# many times as much. All at once would take several seconds.
WORK = 1


class Worst(ConvertTest):
    def watched(self, octets):
        """The status and the body of the reply, and the most work of the server till then while
        another client waits."""
        waits, done, pid = [], threading.Event(), self.server.process.pid

        def ask_for_books():
            with self.server.connect() as other:
                while not waits or not done.is_set():
                    before = processor_time(pid)
                    other.send(books())
                    other.reply()
                    waits.append(processor_time(pid) - before)

        client = threading.Thread(target=ask_for_books)
        client.start()
        try:
            status, text = self.ask(octets)
        finally:
            done.set()
            client.join()
        return status, text, max(waits)

    def test_no_body_holds_up_another_client(self):
        for title, octets in WORST.items():
            with self.subTest(title):
                query = "?more=1" if len(octets) > MOST else ""
                body = octets[:MOST]
                status, text, most = self.watched(request("POST", f"/convert{query}", body))
                status, value = self.read(status, text)
                self.assertIn(status, (200, 422))
                self.assertLess(most, WORK)
                if status == 200:
                    self.assertLess(0, value["taken"], value)
                    # All of the line of a row that is too large is passed.
                    if value["kind"] == "cards" or value["written"]:
                        self.assertLessEqual(value["taken"], 600_000)

    def test_cards_that_are_too_large_are_told(self):
        large = old_card(1, "NOTE:" + "x" * 600_000)
        heavy = old_card(2, *["A:"] * 20_000)
        octets = large + heavy + old_card(3)
        rows, report, numbers, _ = self.in_parts(octets, [])
        self.assertEqual(["not carried: it has more than 524,288 octets",
                          "not carried: no card begins here",
                          "not carried: it has too many lines, cells or parameters"],
                         [it["text"] for it in report if "not carried" in it["text"]])
        self.assertEqual(([3], 1, 3), ([row["card"] for row in rows], numbers[0], numbers[2]))
        self.assertEqual(octets.splitlines().index(b"N:Lee;Ann 3;;;") - 1, rows[0]["line"])

    def test_rows_that_are_too_large_are_told(self):
        octets = GOOGLE.encode() + b"Ann,a@x.test," + b"x" * 600_000 + b",,\nBob,b@x.test,,,\n"
        rows, report, numbers, _ = self.in_parts(octets, [])
        self.assertIn("not carried: it has more than 524,288 octets", report[0]["text"])
        self.assertEqual(("b@x.test", 3), (
            re.search("EMAIL[^:]*:(.*)\r", rows[0]["vcard"])[1], rows[0]["line"]))

    def test_files_that_were_joined(self):
        octets = b"\xef\xbb\xbf" + mixed_rows(3_000)
        self.compare(octets + octets + b"\xef\xbb\xbf\n" + octets, "rows.csv")

    def test_a_blank_line_above_the_header(self):
        """As in LinkedIn's file of connections. Each later part begins with the header, too."""
        rows = b"".join(b"Bob %d,b@x.test,,,\n" % number for number in range(1_000))
        for above in b"Notes:\n\n", b"\n", b"\r\n\r\n", b'Notes:\n"one, two"\n\n\n':
            with self.subTest(above):
                octets = above + GOOGLE.encode() + rows
                parts = self.compare(octets, "rows.csv", [PIECE] * 10)
                self.assertLess(2, len(parts))
                self.assertEqual({len(above + GOOGLE.encode())},
                                 {part["header"] for part in parts})

    def test_lines_above_the_header_are_told_once(self):
        """They are told with the first part, also if its first row is too large."""
        above = b"List of May\nAnn,a@x.test,,,\n"
        rows = b"".join(b"Bob %d,b@x.test,,,\n" % number for number in range(1_000))
        parts = self.compare(above + GOOGLE.encode() + rows, "rows.csv", [PIECE] * 10)
        lost = [part["not_carried"] for part in parts]
        self.assertLess(1, len(lost))
        self.assertEqual([1] + [0] * (len(lost) - 1), lost)
        large = b"Cy,c@x.test," + b"x" * 600_000 + b",,\n"
        octets = above + GOOGLE.encode() + large + b"Bob,b@x.test,,,\n"
        rows, report, numbers, _ = self.in_parts(octets, [])
        self.assertEqual([
            {"card": 0, "line": 1, "text": "a line above the header isn't carried"},
            {"card": 0, "line": 2, "text": "not carried: it is above the header"},
            {"card": 1, "line": 4, "text": "not carried: it has more than 524,288 octets"},
        ], report)
        self.assertEqual(([5], [1, 0, 2]), ([row["line"] for row in rows], numbers))

    def test_lines_that_end_with_a_carriage_return_alone(self):
        octets = mixed_cards(3_000).replace(b"\r\n", b"\n").replace(b"\n", b"\r")
        self.compare(octets, "cards.vcf")
        rows = mixed_rows(HEAD_OCTETS + 4_000)
        octets = b"List\r" + rows.replace(b"\n", b"\r")
        for size in range(1, 400, 7):
            parts = self.compare(octets, "rows.csv", [HEAD_OCTETS + 900, size])
        lines = octets.split(b"\r")
        for row in (row for part in parts for row in part["rows"]):
            self.assertIn(lines[row["line"] - 1].split(b",")[0].decode(), row["vcard"])


if __name__ == "__main__":
    unittest.main()
