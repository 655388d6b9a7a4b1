"""The LDAP directory: what Outlook, Thunderbird, macOS, scanners and phones ask it."""

import random
import re
import shutil
import socket
import subprocess
import sys
import unittest

from carddav_client import HASH, PASSWORD, Stack
from http_requests import card
from ldap_client import Ldap, filter_of, number, text, write
from program import PATIENCE, ROOT, Folder

from gateway import accounts, readers

sys.path.insert(0, str(ROOT / "clients/ldap"))
from directory.session import Session  # noqa: E402 (it is found by the line before)

LDAP = ROOT / "clients/ldap/ldap"
TOKEN, OTHER = "a" * 32, "b" * 32
STAFF = "ou=staff,o=office"
CARDS = {
    "a": ("Ann Müller", "N:Müller;Ann;;;", "TEL;TYPE=work;VALUE=uri:tel:+353-20-911-0177",
          "TEL;TYPE=cell:086 1234567", "TEL;TYPE=\"work,fax\":020 9110178", "EMAIL:ann@e.test",
          "EMAIL:am@e.test", "ORG:Acme\\, Inc", "TITLE:Buyer"),
    "b,x": ("Bob O’Brien", "TEL:101", "EMAIL:bob-o@e.test"),
    "c": ("Smith (Jun.) \\\\ *", "N:Smith;Carl;;;", "TEL;TYPE=home:+49 30 123456"),
    "g": ("Board", "KIND:group", "MEMBER:a", "MEMBER:urn:uuid:c", "MEMBER:nobody"),
}
OUTLOOK = "(&(mail=*)(|(mail={0}*)(|(cn={0}*)(|(sn={0}*)(givenName={0}*)))))"
OUTLOOK_NEW = "(&(|(objectClass=user)(objectClass=person)(objectClass=groupOfNames))" \
    "(|(displayName={0}*)(givenName={0}*)(sn={0}*)(mail={0}*)(proxyAddresses=smtp:{0}*)))"
THUNDERBIRD = "(|(mail=*{0}*)(cn=*{0}*)(givenName=*{0}*)(sn=*{0}*))"
MACOS = "(&(objectclass=inetorgperson)(|(givenName={0}*)(sn={0}*)(cn={0}*)(mail={0}*)(uid={0}*)))"
SCANNER = "(&(mail=*)(cn=*{0}*))"
PHONE = "(|(cn={0}*)(sn={0}*))"
CALLER = "(|(telephoneNumber={0})(mobile={0})(homePhone={0}))"
# What is asked, and the cards that are found.
FILTERS = [(it.format(typed), found) for it in (OUTLOOK, OUTLOOK_NEW, THUNDERBIRD, MACOS, SCANNER)
           for typed, found in [("mul", "a"), ("Müll", "a"), ("MUELLER", "a"), ("ann", "a"),
                                ("zz", "")] if it != SCANNER or typed != "ann@"] + [
    (OUTLOOK.format("smith"), ""), (THUNDERBIRD.format("obri"), "b"), (PHONE.format("smi"), "c"),
    (OUTLOOK_NEW.format("boa"), "g"), (CALLER.format("+353209110177"), "a"),
    (CALLER.format("0209110177"), "a"), (CALLER.format("00353 86 123 45 67"), "a"),
    (CALLER.format("101"), "b"), (CALLER.format("01"), ""), (CALLER.format("*123456"), "c"),
    ("(facsimileTelephoneNumber=*)", "a"), ("(fax=+353209110178)", "a"),
    ("(mail=bob-o@e.test)", "b"),
    ("(cn=Bob OBrien)", "b"), ("(cn~=bob o'brien)", "b"), ("(cn=bob)", ""), ("(uid=B,X)", "b"),
    (r"(cn=Smith \28Jun.\29 \5c \2a)", "c"), (r"(cn=*\2a*)", "c"), ("(cn=sm*ju*)", "c"),
    ("(cn=*ju*sm*)", ""), ("(sn=*th)", "c"), ("(o=*acme*)", "a"), ("(company=acme inc)", "a"),
    ("(anr=buyer)", "a"), ("(anr=ann mul)", "a"), ("(cn:=ann müller)", "a"), ("(sn>=mz)", "bc"),
    (r"(cn=*\28*)", "c"), (r"(cn=*\2d*)", ""),
    ("(&(sn<=mz)(mail=*))", "a"), ("(nothing=*)", ""), ("(!(nothing=*))", "abcg"),
    ("(&(objectClass=inetOrgPerson)(!(mail=*)))", "c"), ("(member=uid=a,ou=staff,o=office)", "g"),
    ("(&)", "abcg"), ("(|)", ""), ("(mail;lang-en=ann@e.test)", "a"), ("(title=buyer)", "a"),
]


class LdapTest(unittest.TestCase):
    more = ()

    @classmethod
    def setUpClass(cls):
        cls.held = Folder(in_memory=True)
        cls.folder = cls.held.__enter__()
        cls.stack = Stack(cls.folder)
        cls.staff, cls.clients = cls.stack.books
        accounts.write(str(cls.stack.state / "users"), {
            "Ann": accounts.Account(HASH, {"*": "rw"}), "bob": accounts.Account(HASH, {
                "staff": "r"}),
            "scan": accounts.Account(readers.by_token(TOKEN), {"staff": "r"})})
        cls.start(*cls.more)

    @classmethod
    def start(cls, *more):
        cls.process = subprocess.Popen(
            [sys.executable, str(LDAP), "--server", cls.url(), "--state",
             str(cls.stack.state), "--port", "0", "--country", "353", *map(str, more)],
            stdout=subprocess.PIPE, stderr=open(cls.folder / "ldap.log", "ab"))
        cls.port = int(cls.process.stdout.readline().decode().rpartition(":")[2])

    @classmethod
    def url(cls):
        return cls.stack.url

    @classmethod
    def tearDownClass(cls):
        cls.process.terminate()
        cls.process.wait(PATIENCE)
        cls.process.stdout.close()
        cls.stack.stop()
        cls.held.__exit__(None, None, None)

    def setUp(self):
        for book in self.staff, self.clients:
            for it in [it.uid for it in book.page("").members if it.version]:
                book.remove(it)
        for uid, lines in CARDS.items():
            self.staff.put(card(uid, *lines))
        self.ldap = self.client("Ann", PASSWORD)

    def client(self, name="", password="", **more):
        one = Ldap(self.port, **more)
        self.addCleanup(one.close)
        if name:
            self.assertEqual(0, one.bind(name, password).code)
        return one

    def found(self, words):
        result = self.ldap.search(STAFF, words, scope=1)
        self.assertEqual(0, result.code, result)
        return "".join(sorted(re.match(r"uid=(.)", it)[1] for it in result.entries))


class Searches(LdapTest):
    def test_filters(self):
        for words, wanted in FILTERS:
            with self.subTest(words):
                self.assertEqual(wanted, self.found(words))

    def test_entries(self):
        entries = self.ldap.search("o=office").entries
        self.assertEqual({
            "o=office": {"objectClass": ["top", "organization"], "o": ["office"]},
            "ou=clients,o=office": {"objectClass": ["top", "organizationalUnit"],
                                    "ou": ["clients"]},
            STAFF: {"objectClass": ["top", "organizationalUnit"], "ou": ["staff"]},
            f"uid=a,{STAFF}": {
                "objectClass": ["top", "person", "organizationalPerson", "inetOrgPerson"],
                "cn": ["Ann Müller"], "displayName": ["Ann Müller"], "sn": ["Müller"],
                "givenName": ["Ann"], "mail": ["ann@e.test", "am@e.test"], "o": ["Acme, Inc"],
                "title": ["Buyer"], "uid": ["a"], "telephoneNumber": ["+353-20-911-0177"],
                "mobile": ["086 1234567"], "facsimileTelephoneNumber": ["020 9110178"]},
            f"uid=g,{STAFF}": {"objectClass": ["top", "groupOfNames"], "cn": ["Board"],
                               "displayName": ["Board"], "uid": ["g"],
                               "member": [f"uid=a,{STAFF}", f"uid=c,{STAFF}"]},
        }, {name: it for name, it in entries.items() if not re.match("uid=[bc]", name)})
        self.assertIn(f"uid=b\\,x,{STAFF}", entries)
        one = self.ldap.search("UID=B\\2cX , OU=Staff,O=Office", scope=0).entries
        self.assertEqual(["Bob O’Brien"], one[f"uid=b\\,x,{STAFF}"]["cn"])
        for wanted, names in [(("mail", "FAX", "company", "no"), {"mail", "FAX", "company"}),
                              (("1.1",), set()), (("+",), set())]:
            entry = self.ldap.search(f"uid=a,{STAFF}", scope=0, wanted=wanted)
            self.assertEqual(names, set(entry.entries[f"uid=a,{STAFF}"]))
        entry = self.ldap.search(f"uid=a,{STAFF}", scope=0, wanted=("cn",), types_only=True)
        self.assertEqual({"cn": []}, entry.entries[f"uid=a,{STAFF}"])

    def test_places(self):
        for base, scope, count in [("o=office", 0, 1), ("o=office", 1, 2), ("o=office", 2, 7),
                                   (STAFF, 0, 1), (STAFF, 1, 4), (STAFF, 2, 5), ("", 2, 7),
                                   (f"uid=a,{STAFF}", 2, 1), (f"uid=a,{STAFF}", 1, 0)]:
            self.assertEqual(count, len(self.ldap.search(base, scope=scope).entries), (base, scope))
        for base, name in [("o=other", ""), ("nonsense", ""), (f"uid=no,{STAFF}", STAFF),
                           ("ou=no,o=office", "o=office"), (f"x=y,uid=a,{STAFF}", STAFF)]:
            result = self.ldap.search(base)
            self.assertEqual((32, name, {}), (result.code, result.name, result.entries))
        root = self.client().search("", scope=0).entries[""]
        self.assertEqual((["3"], ["o=office"]),
                         (root["supportedLDAPVersion"], root["namingContexts"]))

    def test_changes_are_followed(self):
        self.staff.put(card("a", "Anna Weiß"))
        self.assertEqual(("a", ""), (self.found("(sn=weiss)"), self.found("(sn=müller)")))
        self.staff.remove("a")
        self.assertEqual("", self.found("(sn=weiss)"))
        group = self.ldap.search(f"uid=g,{STAFF}", scope=0).entries[f"uid=g,{STAFF}"]
        self.assertEqual([f"uid=c,{STAFF}"], group["member"])
        self.stack.server.kill()
        try:
            result = self.ldap.search(STAFF)
            self.assertEqual((52, "the contact server doesn't answer; try again"),
                             (result.code, result.words))
        finally:
            self.stack.start_server()
        self.stack.office.books()
        self.assertEqual("bcg", self.found("(uid=*)"))

    def test_hostile_cards(self):
        for at, name in enumerate(["x" * 200_000, "é" * 100_000, "\\n\\n", "", "\ufffe",
                                   "a\u202eb", " #,+\"\\\\<>\\;= "]):
            self.staff.put(card(f"h{at} #,+\"\\<>;= ", name, "TEL:*21*#", "EMAIL:\\n"))
        result = self.ldap.search(STAFF, "(uid=h*)")
        self.assertEqual((0, 7), (result.code, len(result.entries)))
        for name, entry in result.entries.items():
            self.assertLessEqual(max(len(it) for some in entry.values() for it in some), 300)
            again = self.ldap.search(name, scope=0)
            self.assertEqual([name], list(again.entries), again)


class Limits(LdapTest):
    def test_limits_and_pages(self):
        self.clients.import_rows("uid,fn,family,given,email,tel,org,note\n" + "".join(
            f"u{it},U{it},,,,,,\n" for it in range(1200)))
        base = "ou=clients,o=office"
        result = self.ldap.search(base, most=10)
        self.assertEqual((4, 10), (result.code, len(result.entries)))
        result = self.ldap.search(base)
        self.assertEqual((4, 1000), (result.code, len(result.entries)))
        seen, cookie, rounds = set(), b"", 0
        while cookie or not rounds:
            result = self.ldap.search(base, "(uid=*)", size=500, cookie=cookie)
            self.assertEqual(0, result.code)
            self.assertFalse(seen & set(result.entries))
            seen |= set(result.entries)
            cookie, rounds = result.cookie, rounds + 1
        self.assertEqual((1200, 3), (len(seen), rounds))
        first = self.ldap.search(base, "(uid=*)", size=5)
        self.assertEqual(53, self.ldap.search(base, "(cn=*)", size=5, cookie=first.cookie).code)
        self.assertEqual(53, self.ldap.search(base, size=5, cookie=b"nonsense").code)
        self.check_limits_over_pages(base)

    def check_limits_over_pages(self, base):
        """A limit is for the whole search (RFC 4511, 4.5.1.4), however small its pages are."""
        for most, size, pages in [(5, 2, [2, 2, 1]), (4, 2, [2, 2]), (3, 10, [3]), (1, 1, [1]),
                                  (1150, 1000, [1000, 150]), (5, 0, [0])]:
            with self.subTest(most=most, size=size):
                seen, cookie, code = [], b"", 0
                while cookie or not seen:
                    self.assertEqual(0, code)
                    result = self.ldap.search(base, "(uid=*)", most=most, size=size, cookie=cookie)
                    seen.append(len(result.entries))
                    code, cookie = result.code, result.cookie
                self.assertEqual((4 if size else 0, pages), (code, seen))
        for most in 1200, 1201, 0:
            result = self.ldap.search(base, "(uid=u7*)", most=most, size=1000)
            self.assertEqual((0, b""), (result.code, result.cookie))


class Users(LdapTest):
    def test_passwords_need_tls(self):
        """From another machine; here none is at hand, so the session is asked itself."""
        users = accounts.Users(str(self.stack.state / "users"), False)
        for is_private, code in (False, 13), (True, 0):
            session = Session(None, users, "192.0.2.1", is_private)
            request = write(0x60, number(3), text("bob"), text(PASSWORD, 0x80))
            reply = b"".join(session.answer(write(0x30, number(1), request)))
            self.assertIn(bytes([0x0A, 1, code]), reply)

    def test_who_may_read(self):
        nobody = self.client()
        for one in nobody, self.client():
            result = one.search(STAFF)
            self.assertEqual((50, {}), (result.code, result.entries))
            self.assertIn("carddav user add NAME --from", result.words)
        self.assertEqual(0, nobody.bind("", "").code)
        for name, password, code in [
            ("uid=Ann,o=office", PASSWORD, 0), ("cn=bob", PASSWORD, 0), ("scan", TOKEN, 0),
            ("uid=scan,o=office", TOKEN, 0), ("bob", "wrong", 49), ("ann", PASSWORD, 49),
            ("nobody", PASSWORD, 49), ("scan", OTHER, 49), ("bob", TOKEN, 49), ("bob", "", 53),
        ]:
            with self.subTest(name=name, password=password):
                self.assertEqual(code, nobody.bind(name, password).code)
                self.assertEqual(0 if not code else 50, nobody.search(STAFF).code)
        for name, password in ("bob", PASSWORD), ("scan", TOKEN):
            one = self.client(name, password)
            self.assertEqual({"o=office", STAFF}, {it for it in one.search(
                "o=office").entries if not it.startswith("uid=")})
            self.assertEqual(32, one.search("ou=clients,o=office").code)
        self.assertEqual(b"u:bob", self.client("bob", PASSWORD).ask(
            write(0x77, text("1.3.6.1.4.1.4203.1.11.3", 0x80))).more[0])

    def test_addresses(self):
        users = str(self.stack.state / "users")
        before = accounts.read(users)
        accounts.write(users, {**before, "printers": accounts.Account(
            readers.by_address(["127.0.0.0/8"]), {"staff": "r"})})
        self.addCleanup(accounts.write, users, before)
        self.assertEqual(6, len(self.client().search("o=office").entries))

    def test_other_binds(self):
        one = self.client()
        self.assertEqual(2, one.bind("bob", PASSWORD, version=2).code)
        sasl = write(0x60, number(3), text(""), write(0xA3, text("PLAIN"), text("x")))
        self.assertEqual(7, one.ask(sasl).code)

    def test_nothing_is_changed(self):
        for tag, reply in (0x66, 0x67), (0x68, 0x69), (0x6C, 0x6D), (0x6E, 0x6F):
            result = self.ldap.ask(write(tag, text(f"uid=a,{STAFF}"), write(0x30)))
            self.assertEqual((53, "this directory is only read"), (result.code, result.words))
        self.assertEqual(53, self.ldap.ask(text(f"uid=a,{STAFF}", 0x4A)).code)
        control = write(0xA0, write(0x30, text("1.2.3"), write(1, b"\xff")))
        self.assertEqual(12, self.ldap.ask(write(0x60, number(3), text(""), text("", 0x80)),
                                           control).code)
        self.ldap.send(number(1, 0x50))  # what is abandoned gets no reply
        self.assertEqual("abcg", self.found("(uid=*)"))


class Octets(LdapTest):
    def ended(self, octets):
        """Whether the server says why it ends the connection, and ends it."""
        one = self.client()
        one.socket.sendall(octets)
        try:
            got, (tag, body), _ = one.message()
        except EOFError:
            return None
        self.assertEqual((0, 0x78), (got, tag))
        with self.assertRaises(EOFError):
            one.message()
        return body

    def test_what_is_no_message(self):
        for octets in [b"GET / HTTP/1.1\r\n" + b"x" * 100, b"\x30\x80", b"\x30\x84\x7f\xff\xff\xff",
                       b"\x30\x02\x02\x00", b"\x30\x00", b"\x31\x05\x02\x01\x01\x42\x00",
                       b"\x1f" * 10, b"\x30\x89" + b"\1" * 9, write(0x30, number(1)),
                       write(0x30, number(1), b"\x63\x7f")]:
            with self.subTest(octets[:20]):
                self.assertIn(b"1.3.6.1.4.1.1466.20036", self.ended(octets))

    def test_bad_searches(self):
        deep = b"\x87\x02cn"
        for _ in range(60):
            deep = write(0xA2, deep)
        many = write(0xA1, *[b"\x87\x02cn"] * 600)
        for octets in [deep, many, write(0xA2), write(0xA4, text("cn"), write(0x30)), b"\x99\x00",
                       write(0xA3, text("cn")), write(0xA3, text("cn"), text(b"\xff\xfe")),
                       write(0xA4, text("cn"), write(0x30, text("x", 0x85)))]:
            result = self.ldap.search(STAFF, octets=octets)
            self.assertEqual((2, {}), (result.code, result.entries))
            self.assertTrue(result.words)
        self.assertEqual(2, self.ldap.search(STAFF, scope=7).code)
        self.assertEqual("abcg", self.found("(uid=*)"))

    def test_damaged_messages(self):
        """Random damage: a reply or an end, and the next one is served."""
        chance = random.Random(1)
        whole = write(0x30, number(1), write(
            0x63, text(STAFF), number(2, 10), number(0, 10), number(5), number(0), write(1, b"\0"),
            filter_of(THUNDERBIRD.format("ann")), write(0x30, text("cn"))))
        for _ in range(100):
            octets = bytearray(whole)
            for _ in range(chance.randint(1, 4)):
                octets[chance.randrange(len(octets))] = chance.randrange(256)
            with socket.create_connection(("127.0.0.1", self.port), PATIENCE) as one:
                one.sendall(octets[:chance.randint(1, len(octets))])
                one.shutdown(socket.SHUT_WR)
                while one.recv(65_536):
                    pass
        self.assertEqual("abcg", self.found("(uid=*)"))
        self.assertNotIn("fault in a reply", (self.folder / "ldap.log").read_text())

    def test_messages_in_pieces_and_together(self):
        one = self.client("bob", PASSWORD)
        asked = write(0x63, text(STAFF), number(0, 10), number(0, 10), number(0), number(0),
                      write(1, b"\0"), filter_of("(ou=*)"), write(0x30))
        octets = b"".join(write(0x30, number(it), asked) for it in (7, 8))
        for at in range(len(octets)):
            one.socket.sendall(octets[at:at + 1])
        self.assertEqual([(7, 0x64), (7, 0x65), (8, 0x64), (8, 0x65)],
                         [(got, it[0]) for got, it, _ in (one.message() for _ in range(4))])


class Program(LdapTest):
    def test_start_tls(self):
        self.assertEqual(2, self.ldap.start_tls(None).code)
        root = self.ldap.search("", scope=0).entries[""]
        self.assertEqual(["1.3.6.1.4.1.4203.1.11.3"], root["supportedExtension"])

    def test_arguments(self):
        for arguments, status, words in [
            ([], 2, "--port"), (["--port", "0", "--country", "x"], 2, "one to three digits"),
            (["--port", "0", "--key", "x"], 2, "--key needs --cert"),
            (["--port", "0", "--require-tls"], 2, "--require-tls needs --cert"),
            (["--port", "0", "--cert", "x", "--certificate", "y"], 2, "choose --cert"),
            (["--port", "0", "--cert", "x", "--require-tls", "--plain-passwords"], 2,
             "choose --require-tls"),
            (["--port", "0", "--certificate", "/nowhere"], 3, "ldap: "),
            (["--port", "0", "--base", "office"], 3, "isn't a name of a directory"),
            (["--port", "0", "--cert", "/nowhere"], 3, "ldap: "),
            (["--port", "0", "--server", "ftp://x"], 3, "not the URL"),
            (["--port", self.port], 3, "in use"),
        ]:
            with self.subTest(arguments):
                ran = subprocess.run([sys.executable, str(LDAP), "--state",
                                      str(self.stack.state), *map(str, arguments)],
                                     stdout=subprocess.PIPE, stderr=subprocess.PIPE)
                self.assertEqual(status, ran.returncode)
                self.assertIn(words, ran.stderr.decode())

    @unittest.skipUnless(shutil.which("ldapsearch"), "no ldapsearch")
    def test_ldapsearch(self):
        ran = subprocess.run(["ldapsearch", "-x", "-LLL", "-H", f"ldap://127.0.0.1:{self.port}",
                              "-D", "bob", "-w", PASSWORD, "-b", "o=office", "-E",
                              "pr=1/noprompt", "(&(mail=*)(sn=mue*))", "mail"],
                             stdout=subprocess.PIPE, check=True)
        self.assertIn(f"dn: uid=a,{STAFF}\nmail: ann@e.test\nmail: am@e.test\n",
                      ran.stdout.decode())


if __name__ == "__main__":
    unittest.main()
