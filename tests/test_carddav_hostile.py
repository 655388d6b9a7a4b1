"""What nobody should send to the CardDAV gateway: each gets a clear answer, and changes nothing."""

import socket
import threading
import unittest
from collections import Counter

from carddav_client import CLIENTS, D, PASSWORD, STAFF, Client, GatewayTest, card3
from http_requests import card
from program import PATIENCE, million_steps

from tosculai import lines_of

PROPFIND = '<D:propfind xmlns:D="DAV:"><D:prop><D:displayname/></D:prop></D:propfind>'
BOMB = ('<?xml version="1.0"?><!DOCTYPE a [<!ENTITY x "xxxxxxxxxx"><!ENTITY y "&x;&x;&x;&x;&x;">'
        ']><D:propfind xmlns:D="DAV:"><D:prop><D:displayname>&y;</D:displayname></D:prop>'
        "</D:propfind>")
OUTSIDE = ('<!DOCTYPE a [<!ENTITY x SYSTEM "file:///etc/passwd">]><D:propfind xmlns:D="DAV:">'
           "<D:prop><D:displayname>&x;</D:displayname></D:prop></D:propfind>")


class Xml(GatewayTest):
    def asked(self, body, kind="application/xml"):
        reply = self.dav.ask("PROPFIND", STAFF, body, Depth="0", Content_Type=kind)
        self.assertNotIn(b"root:", reply.body)
        self.assertTrue(reply.body)
        return reply.status

    def test_what_is_refused(self):
        for body in [BOMB, BOMB.encode("utf-16"), OUTSIDE, "<!DOCTYPE a>" + PROPFIND, "<a", "x",
                     "<a>" * 51 + "</a>" * 51, "<a>" * 100_000, "<a></b>", "<a/><b/>", "\x00",
                     '<D:propfind xmlns:D="DAV:">&y;</D:propfind>', "<x:a/>", "<a>\x01</a>",
                     "<a>" + "<b/>" * 50_001 + "</a>", "<a " + "x" * 100_000, b"<a>\xff</a>",
                     '<?xml version="1.0" encoding="utf-7"?>' + PROPFIND,
                     '<?xml version="1.0" encoding="cp037"?>' + PROPFIND,
                     '<?xml version="1.0" encoding="big5"?>' + PROPFIND]:
            with self.subTest(body[:60]):
                self.assertEqual(400, self.asked(body))
        for charset in "utf-7", "x-none", "cp1252":
            self.assertEqual(400, self.asked(PROPFIND, f"text/xml; charset={charset}"))

    def test_other_charsets(self):
        """XML's own encodings are read (XML 1.0, 4.3.3), as programs for Windows send them."""
        for body, kind in [
            (PROPFIND.encode("utf-8-sig"), "text/xml"), (PROPFIND.encode("utf-16"), "text/xml"),
            (b'<?xml version="1.0" encoding="iso-8859-1"?><!-- \xe9 -->' + PROPFIND.encode(),
             "text/xml"), (PROPFIND, 'text/xml; charset="UTF-8"'),
            (PROPFIND.encode("utf-16"), "text/xml; charset=utf-16"), ("", "text/xml"),
        ]:
            with self.subTest(body[:50]):
                self.assertEqual(207, self.asked(body, kind))

    def test_what_xml_cannot_carry(self):
        """A card's U+FFFF would make each reply with it unreadable; an edit must not lose it."""
        text = card("odd", "a\uffffb\ufffec & <d> ]]> \U0001f600", "TEL:+1",
                    "NOTE:\u0085\u2028\ufffe")
        self.staff.put(text)
        path = STAFF + "odd.vcf"
        reply = self.dav.multiget(STAFF, [path])
        read = reply.cards()[path]
        self.assertIn("FN:a\ufffdb\ufffdc & <d> ]]> \U0001f600\r\n", read)
        edited = self.dav.ask("PUT", path, read.replace("+1", "+2"), If_Match=reply.etags()[path])
        self.assertEqual(204, edited.status)
        self.assertEqual(lines_of(text.replace("+1", "+2")), lines_of(self.staff.get("odd").text))


class Addresses(GatewayTest):
    """What isn't an address is no fault of the gateway."""

    BAD = ["http://[/dav/", "http://[::1/dav/books/staff/a.vcf", "//[/", "http://[x]y/dav/"]

    def test_addresses(self):
        self.staff.put(card("a", "Ann"))
        path = STAFF + "a.vcf"
        reply = self.dav.multiget(STAFF, [*self.BAD, path])
        self.assertEqual({**dict.fromkeys(self.BAD, 404), path: 200}, reply.statuses())
        for bad in self.BAD:
            with self.subTest(bad):
                self.assertIn(self.dav.ask("MOVE", path, Destination=bad).status, (400, 404))
                for field, statuses in [(self.dav.fields["Authorization"], (b"400", b"404")),
                                        ("Basic x", (b"401",))]:
                    with socket.create_connection(self.stack.place, timeout=PATIENCE) as one:
                        one.sendall(f"GET {bad} HTTP/1.1\r\nHost: x\r\nAuthorization: {field}\r\n"
                                    "\r\n".encode())
                        self.assertIn(one.recv(1 << 16)[9:12], statuses)
        self.assertNotIn("fault", self.stack.logged())
        self.assertEqual({"a"}, self.members(self.staff))


class Bodies(GatewayTest):
    def test_too_large(self):
        """Of 100 MB nothing is read: the reply comes before them."""
        for method, path in [("PROPFIND", STAFF), ("REPORT", STAFF), ("PUT", STAFF + "a.vcf")]:
            with socket.create_connection(self.stack.place, timeout=PATIENCE) as one:
                head = [f"{method} {path} HTTP/1.1", "Host: x", "Content-Length: 100000000",
                        f"Authorization: {self.dav.fields['Authorization']}", "", ""]
                one.sendall("\r\n".join(head).encode() + b"x" * 1000)
                # Whoever waited for them would close a silent connection.
                self.assertTrue(one.recv(1 << 16).startswith(b"HTTP/1.1 413 "))

    def test_many_lines(self):
        """The processor time of a card of many lines is in proportion to them."""
        photo = "PHOTO;ENCODING=b;TYPE=JPEG:" + "A" * 2400
        begun = self.stack.processor_time()
        for lines, status in [(["A:"] * 6_000, 201), (["B:", "A:1"] * 3_000, 204),
                              (["A:"] * 70_000, 403), ([photo] * 3_000, 403)]:
            reply = self.dav.ask("PUT", STAFF + "many.vcf", card3("many", "M", *lines))
            self.assertEqual(status, reply.status)
        # It takes as long as 15 million steps.
        self.assertLess(self.stack.processor_time() - begun, 60 * million_steps())
        stored = Counter(lines_of(self.staff.get("many").text))
        self.assertEqual((3_000, 3_000, 0), tuple(stored[it] for it in ("B:", "A:1", "A:")))
        self.assertFalse((self.stack.state / "photos").exists())  # nothing of a refused card stays

    def raw(self, *lines, body=b""):
        with socket.create_connection(self.stack.place, timeout=PATIENCE) as one:
            one.sendall("".join(it + "\r\n" for it in [*lines, ""]).encode() + body)
            one.shutdown(socket.SHUT_WR)
            octets = b""
            while True:
                more = one.recv(1 << 16)
                if not more:
                    return octets
                octets += more

    def test_lengths_and_chunks(self):
        head = [f"PUT {STAFF}jo.vcf HTTP/1.1", "Host: x",
                f"Authorization: {self.dav.fields['Authorization']}"]
        text = card3("jo", "Jo").encode()
        for fields, body, status in [
            (["Content-Length: x"], b"", b"400"), (["Content-Length: -1"], b"", b"400"),
            (["Content-Length: 5", "Content-Length: 6"], b"hello!", b"400"),
            (["Transfer-Encoding: gzip"], b"", b"501"),
            (["Transfer-Encoding: chunked", "Content-Length: 5"], b"hello", b"501"),
            (["Transfer-Encoding: chunked"], b"zz\r\n", b"400"),
            (["Transfer-Encoding: chunked"], b"fffffff\r\n", b"413"),
            ([f"Content-Length: {len(text) + 1}"], text, b""),
            (["Transfer-Encoding: chunked"], b"%x;a=b\r\n%s\r\n0\r\nX: y\r\n\r\n"
             % (len(text), text), b"201"),
        ]:
            with self.subTest(fields):
                reply = self.raw(*head, *fields, body=body)
                self.assertEqual(status, reply[9:12])
                self.assertEqual({"jo"} if status == b"201" else set(), self.members(self.staff))

    def test_a_client_that_asks_before_its_body(self):
        """curl waits for `100 Continue`, or a second (RFC 9110, 10.1.1)."""
        text = card3("jo", "Jo").encode()
        with socket.create_connection(self.stack.place, timeout=PATIENCE) as one:
            head = [f"PUT {STAFF}jo.vcf HTTP/1.1", "Host: x", f"Content-Length: {len(text)}",
                    "Expect: 100-continue", f"Authorization: {self.dav.fields['Authorization']}"]
            one.sendall("".join(it + "\r\n" for it in [*head, ""]).encode())
            self.assertEqual(b"HTTP/1.1 100 Continue\r\n\r\n", one.recv(1 << 16))
            one.sendall(text)
            self.assertTrue(one.recv(1 << 16).startswith(b"HTTP/1.1 201 "))

    def test_cards_that_are_refused(self):
        good = card3("jo", "Jo")
        for text, element in [
            ("hello", "valid-address-data"), ("", "valid-address-data"),
            (good + good, "valid-address-data"), (good[:-20], "valid-address-data"),
            (good.replace("VERSION:3.0\r\n", ""), "valid-address-data"),
            (good.replace("FN:Jo", "FN:J\xf6").encode("latin-1"), "valid-address-data"),
            (good.replace("UID:jo", "UID:" + "x" * 256), "valid-address-data"),
            (good.replace("3.0", "2.1"), "supported-address-data"),
            (good.replace("3.0", "9.0"), "supported-address-data"),
            (good.replace("END:", "NOTE:" + "x" * 262_144 + "\r\nEND:"), "max-resource-size"),
        ]:
            with self.subTest(text[:80]):
                reply = self.dav.ask("PUT", STAFF + "jo.vcf", text)
                self.assertEqual((403, (element, True)), (reply.status, reply.reason))
        reply = self.dav.ask("PUT", STAFF + "jo.vcf", "{}", Content_Type="application/json")
        self.assertEqual((403, ("supported-address-data", True)), (reply.status, reply.reason))
        self.assertEqual(set(), self.members(self.staff))

    def test_charsets(self):
        """Charsets of people's texts are read; codecs of Python's are none. Some take very long."""
        text = card3("cs", "J\xf6", "NOTE:" + "a" * 200_000)
        for charset in ("utf-8", "UTF8", "utf-16", "iso-8859-15", "Windows-1252", "us-ascii"):
            octets = text.encode(charset, "replace" if charset == "us-ascii" else "strict")
            kind = f'text/vcard; charset="{charset}"'
            self.assertIn(self.dav.ask("PUT", STAFF + "cs.vcf", octets, Content_Type=kind).status,
                          (201, 204), charset)
        before = self.staff.get("cs")
        for charset in ("punycode", "idna", "unicode_escape", "raw_unicode_escape", "utf-7",
                        "rot13", "zip", "hex", "undefined", "x-none", "utf_8_sig", "../utf-8",
                        "a" * 1000):
            with self.subTest(charset):
                body = text.replace("\xf6", "o") + "-" + "b" * 200_000
                reply = self.dav.ask("PUT", STAFF + "cs.vcf", body,
                                     Content_Type="text/vcard; charset=" + charset)
                self.assertEqual((403, ("valid-address-data", True)), (reply.status, reply.reason))
        self.assertEqual(before, self.staff.get("cs"))

    def test_odd_cards_that_are_taken(self):
        """Lines that 4.0 doesn't allow live on under another name; UID and FN may be missing."""
        odd = ("begin:vcard\nVersion:3.0\nN:Lee;Ann\nTEL;HOME;VOICE:1\nX-BAD;P=a\"b:1\n"
               "NOTE:a\x07b\nno line\nend:vcard\n")
        self.assertEqual(201, self.dav.ask("PUT", STAFF + "odd.vcf", odd).status)
        lines = lines_of(self.staff.get("odd").text)
        for line in ("UID:odd", "FN:Ann Lee", "TEL;TYPE=home,voice:1", "NOTE:ab",
                     'X-UNREADABLE:X-BAD;P=a"b:1', "X-UNREADABLE:no line"):
            self.assertIn(line, lines)
        latin = card3("l1", "J\xf6").encode("latin-1")
        kind = "text/vcard; charset=iso-8859-1"
        self.assertEqual(201, self.dav.ask("PUT", STAFF + "l1.vcf", latin,
                                           Content_Type=kind).status)
        self.assertIn("FN:J\xf6", lines_of(self.staff.get("l1").text))


class Passwords(GatewayTest):
    def test_wrong_passwords(self):
        """The right password goes on being right while somebody guesses; then nobody may guess."""
        bob, statuses = Client(self.stack.place, "bob"), []
        self.addCleanup(bob.close)
        self.assertEqual(207, bob.propfind(STAFF, "<D:displayname/>").status)
        for number in range(12):
            guess = Client(self.stack.place, "bob", f"guess {number}")
            statuses.append(guess.ask("GET", STAFF).status)
            guess.close()
        self.assertEqual([401] * 10 + [429] * 2, statuses)
        for one in bob, self.dav:
            self.assertEqual(207, one.propfind(STAFF, "<D:displayname/>").status)
        self.assertIn("refused 429 GET", self.stack.logged())

    def test_many_guesses_at_once(self):
        """Those that wait for their turn are counted, too; and an IPv6 network is one address."""
        told = []

        def guess(at):
            one = Client(self.stack.place, "ann", f"guess {at}")
            told.append(one.ask("GET", STAFF, X_Real_IP=f"2001:db8:0:1::{at:x}").status)
            one.close()

        threads = [threading.Thread(target=guess, args=(at,)) for at in range(40)]
        for it in threads:
            it.start()
        for it in threads:
            it.join()
        statuses = Counter(told)
        # Two are tried at once, so one more may be tried.
        self.assertIn(statuses[401], (10, 11))
        self.assertEqual(40, statuses[401] + statuses[429])
        other = Client(self.stack.place, "ann", "guess")
        self.addCleanup(other.close)
        for place, status in [("2001:db8:0:1:ffff::", 429), ("2001:db8:0:2::1", 401)]:
            self.assertEqual(status, other.ask("GET", STAFF, X_Real_IP=place).status)

    def test_other_credentials(self):
        for value in ["", "Basic", "Basic !!!", "Basic YW5u", "Digest username=ann", "Bearer x",
                      "Basic " + "A" * 1000]:
            one = Client(self.stack.place)
            one.fields = {"Authorization": value}
            self.assertEqual(401, one.ask("PUT", STAFF + "a.vcf", card3("a", "A")).status)
            one.close()
        nobody = Client(self.stack.place, "nobody", PASSWORD)
        self.addCleanup(nobody.close)
        self.assertEqual(401, nobody.ask("GET", STAFF).status)
        self.assertEqual(set(), self.members(self.staff))

    def test_no_client_begins_a_line_of_the_log(self):
        guess = Client(self.stack.place, "hall", "guess")
        self.addCleanup(guess.close)
        self.assertEqual(401, guess.ask("GET", STAFF + "%0aok").status)
        with socket.create_connection(self.stack.place, timeout=PATIENCE) as one:
            one.sendall(b"GET /dav/\x1b[2J\\ HTTP/1.1\r\nHost: x\r\nAuthorization: x\r\n\r\n")
            one.recv(1 << 16)
        self.assertNotIn("\x1b", self.stack.logged())
        self.assertIn("\\u001b[2J\\u005c", self.stack.logged())


class Front(GatewayTest):
    """With --trust-front the user is the one whom the front server names."""

    more = ["--trust-front"]

    def test_the_front_server_is_believed(self):
        front = Client(self.stack.place)
        self.addCleanup(front.close)
        for fields, status in [({"X-Remote-User": "bob"}, 207), ({}, 403),
                               ({"X-Remote-User": "nobody"}, 403), ({"X-Remote-User": ""}, 403),
                               ({"Authorization": self.dav.fields["Authorization"]}, 403)]:
            front.fields = fields
            self.assertEqual(status, front.propfind(STAFF, "<D:displayname/>").status)
        with socket.create_connection(self.stack.place, timeout=PATIENCE) as one:
            one.sendall(f"GET {STAFF} HTTP/1.1\r\nHost: x\r\nX-Remote-User: ann\r\n"
                        "X-Remote-User: bob\r\n\r\n".encode())
            self.assertTrue(one.recv(1 << 16).startswith(b"HTTP/1.1 403 "))
        front.fields = {"X-Remote-User": "bob"}
        self.assertEqual(403, front.propfind(CLIENTS, "<D:displayname/>").status)
        self.assertEqual("/dav/users/bob/", front.propfind(
            "/dav/", "<D:current-user-principal/>").href(D + "current-user-principal"))


if __name__ == "__main__":
    unittest.main()
