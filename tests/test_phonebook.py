"""Phone books for desk phones, in the forms of their makers, and names of callers.

The documents that are wanted are written by hand after the makers' manuals. No phone was asked.
"""

import re
import time
import unittest
import xml.etree.ElementTree as ET
from statistics import median
from urllib.parse import quote

from carddav_client import Stack
from carddav_feeds import HALL, TOKEN, FeedTest
from http_requests import card
from program import Folder

from gateway.numbers import read_number
from gateway.people import People

ANN = card("ann", "Ann Müller", "N:Müller;Ann;;;", "TEL;TYPE=work;VALUE=uri:tel:+353-20-911-0177",
           "TEL;TYPE=cell;PREF=1:086 123 45 67", "TEL;TYPE=fax:020 911 0178")
BOB = card("bob", "Bob & Sons <ltd>", "TEL:101")
FORMS = ("cisco", "fanvil", "grandstream", "snom", "yealink")
SINGLE = """
  <DirectoryEntry><Name>Ann Müller (mobile)</Name><Telephone>0861234567</Telephone></DirectoryEntry>
  <DirectoryEntry>
    <Name>Ann Müller (work)</Name>
    <Telephone>+353209110177</Telephone>
  </DirectoryEntry>
  <DirectoryEntry><Name>Bob &amp; Sons &lt;ltd&gt;</Name><Telephone>101</Telephone></DirectoryEntry>
"""
WANTED = {
    "yealink": """
<YealinkIPPhoneDirectory>
  <DirectoryEntry>
    <Name>Ann Müller</Name>
    <Telephone>0861234567</Telephone>
    <Telephone>+353209110177</Telephone>
  </DirectoryEntry>
  <DirectoryEntry>
    <Name>Bob &amp; Sons &lt;ltd&gt;</Name>
    <Telephone>101</Telephone>
  </DirectoryEntry>
</YealinkIPPhoneDirectory>""",
    "fanvil": """
<FanvilIPPhoneDirectory>
  <DirectoryEntry>
    <Name>Ann Müller</Name>
    <Telephone>+353209110177</Telephone>
    <Mobile>0861234567</Mobile>
    <Other></Other>
  </DirectoryEntry>
  <DirectoryEntry>
    <Name>Bob &amp; Sons &lt;ltd&gt;</Name>
    <Telephone>101</Telephone>
    <Mobile></Mobile>
    <Other></Other>
  </DirectoryEntry>
</FanvilIPPhoneDirectory>""",
    "grandstream": """
<AddressBook>
  <Contact>
    <id>1</id>
    <LastName>Müller</LastName>
    <FirstName>Ann</FirstName>
    <Phone type="Cell">
      <phonenumber>0861234567</phonenumber>
      <accountindex>1</accountindex>
    </Phone>
    <Phone type="Work">
      <phonenumber>+353209110177</phonenumber>
      <accountindex>1</accountindex>
    </Phone>
  </Contact>
  <Contact>
    <id>2</id>
    <LastName></LastName>
    <FirstName>Bob &amp; Sons &lt;ltd&gt;</FirstName>
    <Phone type="Work">
      <phonenumber>101</phonenumber>
      <accountindex>1</accountindex>
    </Phone>
  </Contact>
</AddressBook>""",
    "snom": f"""
<SnomIPPhoneDirectory>
  <Title>staff</Title>
  <Prompt>1-3 of 3</Prompt>
  {SINGLE}
</SnomIPPhoneDirectory>""",
    "cisco": f"""
<CiscoIPPhoneDirectory>
  <Title>staff</Title>
  <Prompt>1-3 of 3</Prompt>
  {SINGLE}
  <SoftKeyItem><Name>Dial</Name><URL>SoftKey:Dial</URL><Position>1</Position></SoftKeyItem>
  <SoftKeyItem><Name>EditDial</Name><URL>SoftKey:EditDial</URL><Position>2</Position></SoftKeyItem>
  <SoftKeyItem><Name>Exit</Name><URL>SoftKey:Exit</URL><Position>3</Position></SoftKeyItem>
</CiscoIPPhoneDirectory>""",
}
# Numbers as a caller's is told, and as cards have them, of which each is the first one.
SPELLINGS = ["+353209110177", "00353209110177", "+353 (0)20 911 0177", "+353-20-911.0177",
             "tel:+353-20-911-0177", "sip:+353209110177@pbx.example", "353209110177",
             "tel:+353209110177;ext=12", "+353 20 911 0177 ext. 12", "+٣٥٣٢٠٩١١٠١٧٧",
             "00353 (0)20 911 0177", "00 353 20 911 0177"]
# These need the office's country, also to know a zero that doesn't belong there.
NATIONAL = ["0209110177", "(020) 911 0177", "020/911-0177", "+353 020 911 0177",
            "00353 020 9110177"]
OTHERS = ["+353209110178", "+44209110177", "0219110177", "110177", "9110177x", "anonymous", "+",
          "101", "++", "%", "+353"]


def tree(element):
    """An element as names and texts, whatever space is between elements."""
    text = element.text or ""
    return (element.tag, dict(element.attrib), text if text.strip() else "",
            [tree(it) for it in element])


class Books(FeedTest):
    def setUp(self):
        super().setUp()
        self.staff.put(ANN)
        self.staff.put(BOB)
        self.staff.put(card("carl", "Carl", "EMAIL:carl@e.test"))  # no number, no entry

    def book(self, path, **fields):
        reply = self.get("/phonebook/" + path, **fields)
        self.assertEqual(200, reply.status, reply)
        return reply

    def names(self, path):
        return [it.text for it in self.book(path).xml.iter("Name") if "SoftKey" not in it.text]

    def entries(self, path):
        return [it.findtext("Name") for it in self.book(path).xml.iter("DirectoryEntry")]

    def test_each_form(self):
        self.assertEqual(set(FORMS), set(WANTED))
        for form, wanted in WANTED.items():
            for path in f"{form}/staff", f"{form}/staff.xml", f"{form}/staff/phonebook.xml":
                with self.subTest(path):
                    reply = self.book(path)
                    self.assertEqual("text/xml; charset=utf-8", reply.fields["Content-Type"])
                    self.assertTrue(reply.text.startswith('<?xml version="1.0" encoding="utf-8"?>'))
                    self.assertEqual(tree(ET.fromstring(wanted)), tree(reply.xml))
        lines = self.text("/phonebook/").split()
        self.assertEqual({f"/phonebook/{it}/staff" for it in FORMS},
                         {re.sub(r"http://[^/]*", "", it) for it in lines})
        for path in "nokia/staff", "cisco", "cisco/staff/a/b", "cisco/%ff", "cisco/../staff":
            self.assertIn(self.get("/phonebook/" + path).status, (400, 403, 404))

    def test_tokens_in_the_path(self):
        reply = self.plain.ask("GET", f"/phonebook/{TOKEN}/yealink/staff")
        self.assertEqual((200, "1-2 of 2"), (reply.status, reply.fields["X-Entries"]))
        reply = self.plain.ask("GET", f"/phonebook/{TOKEN}/snom/staff?most=2")
        self.assertIn(f"/phonebook/{TOKEN}/snom/staff?most=2&from=3", reply.xml.findtext(".//URL"))

    def test_groups(self):
        self.staff.put(card("in", "Inner", "KIND:group", "MEMBER:bob", "MEMBER:outer"))
        self.staff.put(card("outer", "The Böard", "KIND:group", "MEMBER:urn:uuid:ann", "MEMBER:in",
                            "MEMBER:in", "MEMBER:nobody"))
        for group in "The%20B%C3%B6ard", "the%20board", "outer", "outer.xml":
            self.assertEqual(["Ann Müller", "Bob & Sons <ltd>"],
                             self.entries(f"yealink/staff/{group}"))
        self.assertEqual(["Bob & Sons <ltd>"], self.entries("yealink/staff/in?q=sons"))
        self.assertEqual("The Böard", self.book("snom/staff/outer").xml.findtext("Title"))
        self.assertEqual(404, self.get("/phonebook/snom/staff/ann").status)
        self.assertIn("no group nowhere", self.text("/phonebook/snom/staff/nowhere", 404))

    def test_names_and_numbers(self):
        self.assertEqual(["Ann Müller"], self.entries("yealink/staff?q=mueller"))
        self.assertEqual(["Bob & Sons <ltd>", "Müller Ann"],
                         self.entries("yealink/staff?by=family"))
        self.assertIn("<Telephone>00353209110177<", self.book("snom/staff?plus=00").text)
        self.assertEqual(400, self.get("/phonebook/snom/staff?plus=*21*").status)
        for number, wanted in [
            ("+353 (0)20 911 0177", "+353209110177"), ("(020) 911‑0177", "0209110177"),
            ("00353 (0)20 911 0177", "00353209110177"), ("0 (0)12", "0012"),
            ("020 911 0177 ext. 5", "0209110177"), ("*21*0900123#", None), ("0800 FLOWERS", None),
            ("none", None), ("1", None), ("12", "12"), ("1" * 40, None), ("٠٢٠٩١١", "020911"),
        ]:
            with self.subTest(number):
                self.staff.put(card("bob", "Bob", "TEL:" + number))
                found = self.book("snom/staff?q=bob").xml.findtext(".//Telephone")
                self.assertEqual(wanted, found)

    def test_pages_and_cuts(self):
        self.staff.import_rows("uid,fn,family,given,email,tel,org,note\n" + "".join(
            f"u{it},P{it:03},,,,+49{it:07},,\n" for it in range(150)))
        whole = self.entries("yealink/staff")
        self.assertEqual(152, len(whole))
        for form, most in ("cisco", 32), ("snom", 100):
            path, seen, pages = f"/phonebook/{form}/staff?token={TOKEN}", [], []
            while path:
                reply = self.plain.ask("GET", path)
                pages.append(len(reply.xml.findall("DirectoryEntry")))
                seen += [it.findtext("Telephone") for it in reply.xml.iter("DirectoryEntry")]
                urls = [it.text for it in reply.xml.iter("URL") if it.text.startswith("http")]
                path = urls[0].partition(str(self.stack.place[1]))[2] if urls else ""
            self.assertEqual([most] * (153 // most) + [153 % most], pages)
            self.assertEqual((153, 153), (len(seen), len(set(seen))))
        reply = self.book("grandstream/staff?most=10")
        self.assertEqual("1-10 of 152", reply.fields["X-Entries"])
        self.assertEqual(10, len(reply.xml.findall("Contact")))
        self.assertIn("1-10 of 152 numbers, as phones of grandstream take no more",
                      self.stack.logged())
        self.assertEqual("151-152 of 152", self.book("yealink/staff?from=151").fields["X-Entries"])
        self.assertEqual(400, self.get("/phonebook/snom/staff?from=x").status)

    def test_old_charsets(self):
        self.staff.put(card("bob", "Łukasz Őry 山 – “x”", "TEL:101"))
        reply = self.book("cisco/staff", Accept_Charset="iso-8859-1")
        self.assertEqual("text/xml; charset=iso-8859-1", reply.fields["Content-Type"])
        self.assertEqual(["Ann Müller (mobile)", "Ann Müller (work)", 'Lukasz Ory ? - ?x?'],
                         [it.findtext("Name") for it in reply.xml.iter("DirectoryEntry")])
        self.assertIn("Müller".encode("latin-1"), reply.body)
        reply = self.book("cisco/staff", Accept_Charset="iso-8859-1, utf-8;q=0.8")
        self.assertEqual("text/xml; charset=utf-8", reply.fields["Content-Type"])

    def test_a_question_for_a_name(self):
        root = self.book("cisco/staff?ask").xml
        self.assertEqual(("CiscoIPPhoneInput", "q"),
                         (root.tag, root.findtext("InputItem/QueryStringParam")))
        self.assertIn("/phonebook/cisco/staff", root.findtext("URL"))

    def test_hostile_cards(self):
        """Markup, long names, letters that XML can't carry, marks that turn a line around."""
        self.staff.remove("ann")
        names = ["<Name>x</Name>]]><!--", "&amp;&#0;%s", "x" * 200_000, "é" * 100_000,
                 "a\u202eb\u200bc\ufeff", "tab\there", "c\x85\x9f1", "\ufffe\uffff",
                 "\U0001f600 smile", "\\n\\n", '"; DROP', "=1+1", ""]
        for at, name in enumerate(names):
            self.staff.put(card(f"h{at}", name, "TEL:10" + str(at), "N:" + name[:10_000] + ";;;;",
                                "ORG:" + name[:5_000]))
        for form in FORMS:
            with self.subTest(form):
                reply = self.book(f"{form}/staff?by=family" if form == "snom" else f"{form}/staff")
                texts = [it.text or "" for it in reply.xml.iter()]
                self.assertLess(len(reply.body), 20_000)
                self.assertLessEqual(max(map(len, texts)), 70)
                self.assertIn("<Name>x</Name>]]><!--", texts)
                self.assertIn("a bc" if "a bc" in texts else "abc", texts)
                for text in texts:
                    self.assertIsNone(re.search("[\x00-\x08\x0b-\x1f\x7f-\x9f\u202e\u200b]", text))
                numbers = {it for it in texts if re.fullmatch("10[0-9]+", it)}
                self.assertEqual({"101"} | {f"10{at}" for at in range(len(names))}, numbers)

    def test_rights(self):
        self.check_rights("/phonebook/yealink/staff")
        self.assertNotIn("clients", self.text("/phonebook/", token="", X_Real_IP=HALL))


class Callers(FeedTest):
    more = ("--log", "--country", "353", "--url", "https://office.example")

    def lookup(self, tel, **more):
        reply = self.get(f"/lookup?tel={tel}", **more)
        self.assertEqual("text/plain; charset=utf-8", reply.fields["Content-Type"])
        self.assertIn((reply.status, bool(reply.body)), [(200, True), (404, False)])
        return reply.text

    def test_spellings(self):
        for stored in [*SPELLINGS, *NATIONAL]:
            self.staff.put(card("ann", "Ann Müller", "TEL:" + stored.replace(";", "\\;")))
            self.staff.put(card("bob", "Bob", "TEL:+4930123456"))
            for asked in [*SPELLINGS, *NATIONAL]:
                with self.subTest(stored=stored, asked=asked):
                    self.assertEqual("Ann Müller", self.lookup(quote(asked, safe="+")))
            if stored == SPELLINGS[0]:
                for other in OTHERS:
                    with self.subTest(other=other):
                        self.assertEqual("", self.lookup(quote(other, safe="+")))

    def test_the_house(self):
        """A short number is the same only as a whole."""
        self.staff.put(card("ann", "Ann", "TEL:101"))
        self.staff.put(card("bob", "Bob", "TEL:+353 20 9110101"))
        self.assertEqual(["Ann", "", "Bob"],
                         [self.lookup(it) for it in ("101", "0101", "0209110101")])

    def test_who_of_several(self):
        number = "TEL:+353209110177"
        self.staff.put(card("a", "Ann", number + " ext. 5"))
        self.assertEqual("Ann", self.lookup("+353209110177"))
        self.staff.put(card("b", "Bob", number))
        self.assertEqual("Bob", self.lookup("+353209110177"))
        self.staff.put(card("c", "Acme", number, "KIND:org"))
        self.assertEqual("Acme", self.lookup("+353209110177"))
        self.clients.put(card("d", "Aaa", number, "KIND:org"))
        self.assertEqual("Acme", self.lookup("+353209110177"))

    def test_changes_are_followed(self):
        """New, edited and removed cards; what a removal forgets; another start."""
        self.staff.put(ANN)
        self.assertEqual("Ann Müller", self.lookup("0861234567"))
        self.staff.put(ANN.replace("086 123 45 67", "087 123 45 67"))
        self.assertEqual(["", "Ann Müller"],
                         [self.lookup(it) for it in ("0861234567", "0871234567")])
        self.dav.ask("PUT", "/dav/books/staff/x.vcf", card("x", "Xaver", "TEL:0861234567"))
        self.assertEqual("Xaver", self.lookup("0861234567"))
        self.staff.remove("x")
        self.staff.forget(self.staff.tally()["number"])
        self.assertEqual(["", "Ann Müller"],
                         [self.lookup(it) for it in ("0861234567", "0871234567")])
        self.stack.restart()
        self.plain.close()
        self.dav.close()
        self.assertEqual("Ann Müller", self.lookup("0871234567"))

    def test_a_pbx_shows_no_refusal(self):
        """Whatever is in the body is taken for the caller's name."""
        for path, more in [("/lookup", {}), ("/lookup?tel=", {}), ("/lookup/x?tel=101", {}),
                           ("/lookup?tel=101", {"token": ""}), ("/lookup?tel=101&book=no", {}),
                           ("/lookup?tel=%ff%fe", {})]:
            reply = self.get(path, **more)
            self.assertIn(reply.status, (400, 401, 403, 404))
            self.assertEqual(b"", reply.body)
            self.assertTrue(reply.status == 404 or reply.fields["X-Reason"].isascii())
        self.stack.server.kill()
        try:
            reply = self.get("/lookup?tel=101")
            self.assertEqual((503, b""), (reply.status, reply.body))
        finally:
            self.stack.start_server()

    def test_hostile_cards(self):
        for name, wanted in [("A\\nB", "A B"), ("x" * 200_000, "x" * 80), ("a\u202eb\x85c", "ab c"),
                             ("é" * 300, "é" * 80)]:
            self.staff.put(card("h", name, "TEL:+353209110177"))
            self.assertEqual(wanted, self.lookup("0209110177"))

    def test_a_name_is_no_command(self):
        """A dialplan takes signs of a name for its own: none but letters' is passed on."""
        for name, wanted in [
            ('x" & 0 & "):System(touch /tmp/p', "x 0 System touch tmp p"),
            ("Bob O'Brien", "Bob O’Brien"),
            ("Bob & Sons <ltd>", "Bob Sons ltd"), ("${EXEC}\"'<>", "EXEC ’"), ("{}$[]|", ""),
            ("Anne-Marie Müller\\, M.A.", "Anne-Marie Müller M.A."), ("山田 太郎", "山田 太郎"),
            ("-rf 3i²\\;`id`", "rf 3i² id"), ("กำ e\u0301", "กำ e\u0301"), ("＄（ａ）", "ａ"),
        ]:
            with self.subTest(name):
                self.staff.put(card("h", name, "TEL:+353209110177"))
                self.assertEqual(wanted, self.lookup("0209110177"))
                for sign in "\"'()[]{}<>$&|;:,\\`!*?#%=~^/@":
                    self.assertNotIn(sign, self.lookup("0209110177"))

    def test_nothing_asked_begins_a_field(self):
        """What is asked comes back in a field: line ends in it would end that field."""
        evil = "x%0d%0aContent-Type:%20text/html%0d%0aContent-Length:%2060%0d%0a%0d%0a<script>"
        for path in ["/lookup?tel=1&book=" + evil, "/lookup?tel=1&book=%0aRefresh:0",
                     "/lookup?tel=1&book=M%C3%BCller%E5%B1%B1", "/find?q=x&book=" + evil, "/find?limit=" + evil,
                     "/phonebook/snom/" + evil.replace("/", "%2f"), "/birthdays/%E5%B1%B1%0a.ics"]:
            with self.subTest(path):
                reply = self.get(path)
                self.assertIn(reply.status, (400, 403, 404))
                self.assertEqual(["text/plain; charset=utf-8"],
                                 reply.fields.get_all("Content-Type"))
                self.assertIsNone(reply.fields["Refresh"])
                if path.startswith("/lookup"):
                    self.assertEqual(b"", reply.body)
                    self.assertRegex(reply.fields["X-Reason"], "no right to a book [ -~]+$")

    def test_rights(self):
        self.staff.put(ANN)
        self.check_rights("/lookup?tel=0861234567&book=staff")
        # Without a book's name it is looked up in those that may be read.
        self.assertEqual("", self.lookup("0861234567", token="b" * 32))

    def test_addresses_are_those_of_the_request(self):
        """Phones that came without TLS go on without it, whatever --url says."""
        self.staff.put(ANN)
        self.assertIn("http://phones.test/phonebook/snom/staff?", self.text(
            "/phonebook/snom/staff?most=1", Host="phones.test"))

    def test_among_ten_thousand(self):
        """By an index: among many it takes about as long as among few."""
        few, many = People("353"), People("353")
        for people, count in (few, 10), (many, 10_000):
            for at in range(count):
                people.take(f"u{at}", 1, card(f"u{at}", f"U{at}", f"TEL:086 {at:07}"))

        def seconds(people):
            begun = time.perf_counter()
            for at in range(10):
                self.assertEqual([f"U{at}"], [it.name for it in people.named(f"+35386{at:07}")])
            return time.perf_counter() - begun

        pairs = [(seconds(few), seconds(many)) for _ in range(50)]
        self.assertLess(median(it[1] for it in pairs), 5 * median(it[0] for it in pairs))


class Large(unittest.TestCase):
    def test_a_full_book(self):
        """With HTTP, and the question to the server whether something is new."""
        rows = [f"u{it},U{it},,,,+353 86 {it:07},,\n" for it in range(10_000)]
        with Folder(in_memory=True) as folder:
            stack = Stack(folder, books=("few", "many"))
            try:
                for book, count in zip(stack.books, (10, 10_000)):
                    book.import_rows("uid,fn,family,given,email,tel,org,note\n"
                                     + "".join(rows[:count]))
                client, times = stack.client(), {"few": [], "many": []}
                for at in range(50):
                    for book in times:
                        begun = time.perf_counter()
                        reply = client.ask("GET", f"/lookup?tel=+35386{at % 10:07}&book={book}")
                        times[book].append(time.perf_counter() - begun)
                        self.assertEqual(f"U{at % 10}", reply.text)
                client.close()
            finally:
                stack.stop()
            few, many = (median(it) for it in times.values())
            print(f"a lookup among 10: {few * 1000:.1f} ms, among 10,000: {many * 1000:.1f} ms")
            self.assertLess(many, 3 * few)


class Numbers(unittest.TestCase):
    def test_countries(self):
        for text, country, digits, is_whole in [
            ("0209110177", "353", "353209110177", True), ("0209110177", "", "0209110177", False),
            ("06 1234567", "39", "061234567", False), ("+39 06 1234567", "39", "39061234567", True),
            ("(555) 123-4567", "1", "15551234567", True),
            ("1 555 123 4567", "1", "15551234567", True),
            ("011 353 20 9110177", "1", "353209110177", True),
            ("555 1234", "354", "3545551234", True), ("4533123456", "45", "4533123456", False),
            ("8 495 1234567", "7", "74951234567", True), ("06 1 2345678", "36", "3612345678", True),
            ("101", "353", "101", False), ("0101", "353", "0101", False),
            ("+353 020 911 0177", "353", "353209110177", True),
            ("0049 (0)171 1234567", "353", "491711234567", True),
            ("+49 0171 1234567", "353", "4901711234567", True),  # not the office's country
            ("+39 06 1234567", "353", "39061234567", True),
            ("+7 812 1234567", "7", "78121234567", True),
            ("+36 06 1 2345678", "36", "3612345678", True),
            ("+1 1 555 1234567", "1", "115551234567", True),
            ("(0)20 9110177", "353", "353209110177", True),
            ("07 12 34 56 78", "225", "2250712345678", True),  # without a trunk: the zero stays
            ("+225 07 12 34 56 78", "225", "2250712345678", True),
        ]:
            with self.subTest(text=text, country=country):
                found = read_number(text, country)
                self.assertEqual((digits, is_whole), found[:2])
        for text in "", "anonymous", "+", "tel:", "sip:ann@example.test":
            self.assertIsNone(read_number(text))


if __name__ == "__main__":
    unittest.main()
