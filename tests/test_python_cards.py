"""clients/python/vcard4.py: a card's properties are read and edited, and all other lines stay."""

import unittest

from histories import UIDS, Drawing
from http_requests import card
from model.cards import read_card
from test_python_client import HOSTILE, ClientTest

from tosculai import lines_of
from vcard4 import Name, VCard

LINES = [
    "N:Lee\\, Jr.;Pat,Patricia;;Dr.,Prof.;",
    'item1.TEL;VALUE=uri;PREF=1;TYPE="voice,home";X-A="a;b:c,d":tel:+1-555',
    "item1.X-ABLABEL:at\\, work",
    "TEL;TYPE=cell;TYPE=text:+1 556",
    "EMAIL;TYPE=work;PID=1.1:a\\,b@example.test",
    'ADR;LABEL="a, b";TYPE=home:;;S\\; 1;T,U;;;',
    "ORG:Tosculai\\, Inc.;Sales",
    "NICKNAME:An,Annie",
    "URL:https://example.test/a,b;c\\d",
    "NOTE:one\\ntwo\\, \\\\three",
    "BDAY:--0412",
    "X-NOTHING",
    "X-A.B;C=\"d:e:f",
]
TEXT = card("a", "Ann", *LINES)
VALID = card("a", "Ann", *LINES[:-2])
# Names that somebody might type, and none of which may become anything else.
NAMES = [
    "<b>&amp;</b>]]>", "a,b;c\\d", "\\n", "a\nb", "a\r\nEND:VCARD\r\nBEGIN:VCARD", "\"'$(x)`", "Päť",
    "\u202eevil", "\u0085\u009b31m", "x" * 200_000, "é" * 100_000, "\U0001f600", " a ", "tab\there",
    "=1+1", ":", ";;;;", "\\", "\\\\,",
]


class Reading(unittest.TestCase):
    def test_values(self):
        pat = VCard(TEXT)
        self.assertEqual(("a", "Ann", "--0412"), (pat.uid, pat.fn, pat.bday))
        self.assertEqual(Name("Lee, Jr.", "Pat,Patricia", "", "Dr.,Prof.", ""), pat.n)
        self.assertEqual("one\ntwo, \\three", pat.note)
        self.assertEqual("An,Annie", pat.nickname)
        self.assertEqual(["Tosculai, Inc.", "Sales"], pat.orgs[0].parts)
        self.assertEqual(["", "", "S; 1", "T,U", "", "", ""], pat.adrs[0].parts)
        self.assertEqual(["+1-555", "+1 556"], [it.value for it in pat.tels])
        self.assertEqual([["voice", "home"], ["cell", "text"]], [it.types for it in pat.tels])
        self.assertEqual((["a;b:c,d"], "item1"), (pat.tels[0].param("X-A"), pat.tels[0].group))
        self.assertEqual(["a,b@example.test"], [it.value for it in pat.emails])
        self.assertEqual(["https://example.test/a,b;c\\d"], [it.value for it in pat.urls])
        self.assertEqual(("", []), (pat.title, pat.members))

    def test_folds_and_cases(self):
        pat = VCard("begin:vcard\nVERSION:4.0\nuid:p\nfn;Type=Work:Pat\n  Lee\nend:vcard\n")
        self.assertEqual(("p", "Pat Lee"), (pat.uid, pat.fn))
        self.assertEqual(["work"], pat.all("fn")[0].types)

    def test_texts_that_are_no_cards(self):
        for text in ["", "\n", "x", "FN", ":", ";:", "BEGIN:VCARD", "FN;=:\n:a", "\x00:\x07"]:
            with self.subTest(text):
                self.assertEqual((text, ""), (VCard(text).text, VCard(text).fn))

    def test_nothing_changes_unless_it_is_edited(self):
        drawing = Drawing("cards")
        for drawing.drawn in range(200):
            text = read_card(drawing.text(drawing.random.choice(UIDS))).text.decode()
            pat = VCard(text)
            pat.fn, pat.n, pat.note = pat.fn, pat.n, pat.note
            for it in pat.lines:
                it.value, it.types, it.parts = it.value, it.types, it.parts
            self.assertEqual(text, pat.text)


class Editing(unittest.TestCase):
    def edited(self, edit, text=TEXT):
        """The lines that an edit takes away, and those that it adds, in their order."""
        pat = VCard(text)
        edit(pat)
        old, new = lines_of(text), lines_of(pat.text)
        self.assertTrue(pat.text.endswith("\r\nEND:VCARD\r\n"))
        rest = [it for it in new if it in old]
        self.assertEqual([it for it in old if it in new], rest)  # all others are in their order
        return [it for it in old if it not in new], [it for it in new if it not in old]

    def test_each_edit_changes_its_line_alone(self):
        def name(pat):
            pat.n = pat.n._replace(given="Anna, Bea")

        def parts(line, at, text):
            line.parts = [*line.parts[:at], text, *line.parts[at + 1:]]

        for edit, old, new in [
            (lambda it: setattr(it, "fn", "A;B"), "FN:Ann", "FN:A\\;B"),
            (name, LINES[0], "N:Lee\\, Jr.;Anna\\, Bea;;Dr.,Prof.;"),
            (lambda it: setattr(it.tels[0], "value", "+353 1"), LINES[1],
             LINES[1].replace("+1-555", "+353-1")),
            (lambda it: setattr(it.tels[0], "types", ["work"]), LINES[1],
             'item1.TEL;TYPE=work;VALUE=uri;PREF=1;X-A="a;b:c,d":tel:+1-555'),
            (lambda it: setattr(it.tels[1], "types", []), LINES[3], "TEL:+1 556"),
            (lambda it: setattr(it.emails[0], "value", "c"), LINES[4],
             "EMAIL;TYPE=work;PID=1.1:c"),
            (lambda it: parts(it.adrs[0], 2, "S 2; x"), LINES[5],
             'ADR;LABEL="a, b";TYPE=home:;;S 2\\; x;T,U;;;'),
            (lambda it: parts(it.orgs[0], 1, "A"), LINES[6], "ORG:Tosculai\\, Inc.;A"),
            (lambda it: setattr(it, "nickname", "An,Bea"), LINES[7], "NICKNAME:An,Bea"),
            (lambda it: setattr(it.urls[0], "value", "x:a,b"), LINES[8], "URL:x:a,b"),
            (lambda it: setattr(it, "note", "a\nb,"), LINES[9], "NOTE:a\\nb\\,"),
            (lambda it: setattr(it, "note", ""), LINES[9], None),
            (lambda it: it.remove(it.tels[1]), LINES[3], None),
            (lambda it: it.add("tel", "1", ["cell", "text"]), None, "TEL;TYPE=cell,text:1"),
            (lambda it: setattr(it, "title", "Boss"), None, "TITLE:Boss"),
        ]:
            with self.subTest(new=new):
                self.assertEqual(([old] if old else [], [new] if new else []), self.edited(edit))

    def test_a_new_line_follows_those_of_its_name(self):
        pat = VCard(TEXT)
        pat.add("TEL", "1")
        pat.add("ROLE", "r")
        lines = lines_of(pat.text)
        self.assertEqual(LINES[3], lines[lines.index("TEL:1") - 1])
        self.assertEqual(["ROLE:r", "END:VCARD"], lines[-2:])

    def test_edits_that_would_harm_the_card(self):
        pat = VCard(TEXT)
        for edit in [
            lambda: setattr(pat, "fn", ""),
            lambda: setattr(pat, "fn", "a\x07"),
            lambda: setattr(pat, "fn", "a\x00"),
            lambda: setattr(pat, "fn", "a\rb"),
            lambda: setattr(pat.urls[0], "value", "a\r\nb"),
            lambda: setattr(pat.urls[0], "value", "a\nNOTE:b"),
            lambda: setattr(pat.tels[0], "types", ["a:b"]),
            lambda: setattr(pat.tels[0], "types", ["a\r\nb"]),
            lambda: setattr(pat.orgs[0], "value", "a;b"),
            lambda: pat.add("NOTE:x\r\nTEL", "1"),
            lambda: pat.remove(pat.all("UID")[0]),
            lambda: pat.remove(pat.all("END")[0]),
            lambda: VCard.new("", "Ann"),
            lambda: VCard.new("a\r\nNOTE:b", "Ann"),
        ]:
            with self.subTest(edit), self.assertRaises(ValueError):
                edit()
        self.assertEqual(TEXT, pat.text)


class Stored(ClientTest):
    """What is written is what the server has, and what is read from it."""

    def test_hostile_names(self):
        self.staff.put(VALID)
        for name in NAMES:
            with self.subTest(name[:40]):
                there = self.staff.get("a")
                pat = VCard(there.text)
                wanted = name.replace("\r\n", "\n")
                pat.fn, pat.n, pat.note = name, Name(name[:1000], given=name[:1000]), name[:1000]
                pat.emails[0].value = name[:1000]
                self.staff.put(pat.text, there.version)
                read = VCard(self.staff.get("a").text)
                self.assertEqual(wanted, read.fn)
                self.assertEqual((wanted[:1000], wanted[:1000]), (read.n.family, read.n.given))
                self.assertEqual((wanted[:1000],) * 2, (read.note, read.emails[0].value))
                changed = ("FN:", "N:", "NOTE:", "EMAIL;")
                self.assertEqual([it for it in lines_of(VALID) if not it.startswith(changed)],
                                 [it for it in lines_of(read.text) if not it.startswith(changed)])

    def test_new_cards(self):
        for uid in HOSTILE:
            with self.subTest(uid):
                pat = VCard.new(uid, "Pat, Lee")
                pat.add("EMAIL", "p@example.test", types=["work"])
                self.staff.put(pat.text, 0)
                self.assertEqual((uid, "Pat, Lee"), (pat.uid, VCard(self.staff.get(uid).text).fn))


if __name__ == "__main__":
    unittest.main()
