"""What each program sends to the CardDAV gateway, request by request, and what it must get.

The requests are written after what iOS, macOS, DAVx5, Thunderbird, Evolution and CalDav
Synchronizer send: their namespaces, properties, fields, and how each respells the lines of a card.
What they must get is in RFC 4918, 6352 and 6578. Of an edit of one number, one line of the server's
card may differ, and those that the program itself adds.
"""

import re
import unittest
from urllib.parse import quote

from carddav_client import C, CLIENTS, CS, D, STAFF, Client, GatewayTest, card3
from http_requests import card

from tosculai import lines_of

ANN = card(
    "a", "Ann Lee", "N:Lee;Ann;;;", 'TEL;VALUE=uri;TYPE="voice,home";PREF=1;PID=1.1:tel:+1-555',
    "TEL;TYPE=cell:+1-777", "EMAIL;PREF=2:ann@example.test",
    "PHOTO:data:image/jpeg;base64,/9j/AAAA", "RELATED;TYPE=spouse:urn:uuid:b", "LANG:fr",
    "BDAY:--0412", "NICKNAME:An,Annie",
    "URL:https://e.test/a,b", "ORG:Office, Inc.;Desk", "TZ:+0100", "REV:20261101T100000Z",
    'ADR;LABEL="a, b";GEO="geo:1.5,2.5":;;Street 1;Town;;1;C', 'X-ODD;X-P="a,b":x,y;z',
    "NOTE:first\\nsecond, third; fourth", "IMPP:xmpp:ann@e.test", "CATEGORIES:Board,Paris")
EDITED = "TEL;TYPE=cell:+1-777"


class Program:
    """A program: how it finds the books, lists, reads and writes. The form of each request is its
    own; what follows from the replies is common to all."""

    agent, version, ending = "", "3.0", ".vcf"
    adds = []  # lines that it adds to a card which it edits
    drops = ()  # names of properties that it doesn't send back

    def __init__(self, stack):
        self.dav = Client(stack.place, program=self.agent)
        self.copy, self.token = {}, ""  # ETag and text by path

    def discover(self):
        """The paths of the books, found from the server's name alone."""
        reply = self.dav.ask("PROPFIND", "/.well-known/carddav", self.find_user, Depth="0",
                             Content_Type="text/xml", **self.fields)
        if reply.status != 301:
            raise AssertionError(reply)
        reply = self.dav.ask("PROPFIND", reply.fields["Location"], self.find_user, Depth="0",
                             Content_Type="text/xml", **self.fields)
        user = reply.href(D + "current-user-principal")
        home = self.dav.ask("PROPFIND", user, self.find_home, Depth="0", **self.fields).href(
            C + "addressbook-home-set")
        self.home = self.dav.ask("PROPFIND", home, self.find_books, Depth="1", **self.fields)
        return sorted(path for path, (_, props) in self.home.all().items()
                      if props[D + "resourcetype"].find(C + "addressbook") is not None)

    fields = {}
    find_user = ('<?xml version="1.0" encoding="UTF-8"?>\n<A:propfind xmlns:A="DAV:"><A:prop>'
                 "<A:current-user-principal/><A:principal-URL/><A:resourcetype/></A:prop>"
                 "</A:propfind>")
    find_home = ('<?xml version="1.0" encoding="UTF-8"?>\n<A:propfind xmlns:A="DAV:"><A:prop>'
                 '<B:addressbook-home-set xmlns:B="urn:ietf:params:xml:ns:carddav"/>'
                 '<B:directory-gateway xmlns:B="urn:ietf:params:xml:ns:carddav"/><A:displayname/>'
                 '<C:email-address-set xmlns:C="http://calendarserver.org/ns/"/>'
                 "<A:principal-collection-set/><A:principal-URL/><A:resource-id/>"
                 "<A:supported-report-set/></A:prop></A:propfind>")
    find_books = ('<?xml version="1.0" encoding="UTF-8"?>\n<A:propfind xmlns:A="DAV:"><A:prop>'
                  '<A:add-member/><C:bulk-requests xmlns:C="http://me.com/_namespace/"/>'
                  "<A:current-user-privilege-set/><A:displayname/>"
                  '<B:max-image-size xmlns:B="urn:ietf:params:xml:ns:carddav"/>'
                  '<B:max-resource-size xmlns:B="urn:ietf:params:xml:ns:carddav"/>'
                  '<C:me-card xmlns:C="http://calendarserver.org/ns/"/><A:owner/>'
                  '<C:push-transports xmlns:C="http://calendarserver.org/ns/"/>'
                  "<A:quota-available-bytes/><A:resource-id/><A:resourcetype/>"
                  "<A:supported-report-set/><A:sync-token/></A:prop></A:propfind>")
    changes = ('<?xml version="1.0" encoding="UTF-8"?>\n<A:sync-collection xmlns:A="DAV:">'
               "<A:sync-token>{token}</A:sync-token><A:sync-level>1</A:sync-level><A:prop>"
               "<A:getcontenttype/><A:getetag/></A:prop></A:sync-collection>")
    multiget = ('<?xml version="1.0" encoding="UTF-8"?>\n<B:addressbook-multiget '
                'xmlns:B="urn:ietf:params:xml:ns:carddav"><A:prop xmlns:A="DAV:"><A:getetag/>'
                "<B:address-data/></A:prop>{hrefs}</B:addressbook-multiget>")
    href = '<A:href xmlns:A="DAV:">{path}</A:href>'

    def pull(self, book):
        """Brings the copy up to date; returns the paths that changed."""
        reply = self.dav.ask("REPORT", book, self.changes.format(token=self.token),
                             Content_Type="text/xml", **self.fields)
        if reply.status == self.refused and reply.reason[0] == "valid-sync-token":
            self.token = ""
            return self.pull_all(book)
        if reply.status != 207:
            raise AssertionError(reply)
        changed = reply.statuses()
        for path in [path for path, status in changed.items() if status == 404]:
            self.copy.pop(path, None)
        self.fetch(book, reply.etags())
        self.token = reply.token
        return sorted(changed)

    refused = 403  # the status after which it lists all cards again (RFC 6578, 3.2)

    def pull_all(self, book):
        """Lists all cards, and drops those that aren't there."""
        changed = self.pull(book)
        self.copy = {path: it for path, it in self.copy.items() if path in changed}
        return changed

    def fetch(self, book, etags):
        """Reads the cards whose ETags aren't those of the copy."""
        wanted = [path for path, etag in etags.items() if self.copy.get(path, ("",))[0] != etag]
        if wanted:
            hrefs = "".join(self.href.format(path=quote(it)) for it in wanted)
            cards = self.dav.ask("REPORT", book, self.multiget.format(hrefs=hrefs), Depth="1",
                                 Content_Type="text/xml")
            texts, etags = cards.cards(), cards.etags()
            self.copy.update((path, (etags[path], texts[path])) for path in texts)

    def respelled(self, text):
        """The card as this program writes it, without an edit."""
        lines = [self.spell(it) for it in lines_of(text)
                 if re.split("[:;]", it)[0] not in (*self.drops, "REV")]
        return "\r\n".join([*lines[:-1], *self.adds, lines[-1], ""])

    def spell(self, line):
        return line

    has_conditions = True  # whether it says which version it changes

    def put(self, path, text, **fields):
        return self.dav.ask("PUT", quote(path), text, Content_Type=self.content_type,
                            **(fields if self.has_conditions else {}))

    content_type = "text/vcard; charset=utf-8"

    def edit(self, path, old, new):
        etag, text = self.copy[path]
        assert old in text, (old, text)
        return self.put(path, self.respelled(text).replace(old, new), If_Match=etag)


class Apple(Program):
    agent = "iOS/17.0 (21A329) dataaccessd/1.0"
    fields = {"Brief": "t", "Prefer": "return=minimal"}
    adds = ["REV:2026-11-27T10:00:00Z"]

    def spell(self, line):
        """Apple writes each type as a parameter of its own, and adds VOICE and INTERNET."""
        if line.startswith(("TEL", "EMAIL")):
            head, _, value = line.partition(":")
            name, *params = head.split(";")
            types = [it.upper() for param in params for it in param[5:].split(",")]
            types += ["INTERNET"] if name == "EMAIL" else ["VOICE"]
            types = [f"type={it}" if it != "PREF" else "type=pref" for it in types]
            return ";".join([name, *dict.fromkeys(types)]) + ":" + value
        return line.replace("ENCODING=b;TYPE=JPEG", "ENCODING=b;TYPE=JPEG")


class Mac(Apple):
    agent = "macOS/14.0 (23A344) AddressBookCore/2605"


class Davx5(Program):
    """DAVx5 reads and writes by ez-vcard, here as vCard 4.0."""

    agent, version = "DAVx5/4.3.11-ose (dav4jvm; okhttp/4.12.0) Android/14", "4.0"
    content_type = "text/vcard;charset=utf-8;version=4.0"
    adds = ["PRODID:ez-vcard 0.12.1", "REV:20261127T100000Z"]
    find_user = ('<?xml version="1.0"?><propfind xmlns="DAV:" '
                 'xmlns:CARD="urn:ietf:params:xml:ns:carddav"><prop><resourcetype/><displayname/>'
                 "<CARD:addressbook-description/><CARD:addressbook-home-set/>"
                 "<current-user-principal/></prop></propfind>")
    find_home = find_user
    find_books = ('<?xml version="1.0"?><propfind xmlns="DAV:" '
                  'xmlns:CARD="urn:ietf:params:xml:ns:carddav"><prop><resourcetype/><displayname/>'
                  "<current-user-privilege-set/><owner/><CARD:addressbook-description/>"
                  "<CARD:supported-address-data/><CARD:max-resource-size/><supported-report-set/>"
                  '<n0:getctag xmlns:n0="http://calendarserver.org/ns/"/><sync-token/></prop>'
                  "</propfind>")
    changes = ('<?xml version="1.0"?><sync-collection xmlns="DAV:"><sync-token>{token}</sync-token>'
               "<sync-level>1</sync-level><prop><getetag/></prop></sync-collection>")
    multiget = ('<?xml version="1.0"?><CARD:addressbook-multiget xmlns="DAV:" '
                'xmlns:CARD="urn:ietf:params:xml:ns:carddav"><prop><getcontenttype/><getetag/>'
                '<CARD:address-data content-type="text/vcard" version="4.0"/></prop>{hrefs}'
                "</CARD:addressbook-multiget>")
    href = "<href>{path}</href>"

    def spell(self, line):
        """ez-vcard escapes commas of texts, sorts parameters, and drops empty ends of N."""
        line = line.replace("N:Lee;Ann;;;", "N:Lee;Ann").replace("TZ:", "TZ;VALUE=utc-offset:")
        line = line.replace("URL:https://e.test/a,b", "URL:https://e.test/a\\,b")
        return line.replace('TEL;VALUE=uri;TYPE="voice,home";PREF=1;PID=1.1',
                            "TEL;PREF=1;PID=1.1;TYPE=voice,home;VALUE=uri")


class Thunderbird(Program):
    """After its CardDAVDirectory.sys.mjs of 153.8: it lists all cards by PROPFIND and reads its
    token after that, lists them again after a 400 alone, and changes cards without conditions."""

    agent = "Mozilla/5.0 (X11; Linux x86_64; rv:153.0) Gecko/20100101 Thunderbird/153.8.0"
    refused, has_conditions = 400, False
    list_all = ('<propfind xmlns="DAV:" xmlns:card="urn:ietf:params:xml:ns:carddav" '
                'xmlns:cs="http://calendarserver.org/ns/"><prop><resourcetype/><getetag/>'
                "<cs:getctag/></prop></propfind>")
    read_token = list_all.replace("<resourcetype/><getetag/>", "<displayname/>").replace(
        "</prop>", "<sync-token/></prop>")
    find_user = ('<propfind xmlns="DAV:" xmlns:card="urn:ietf:params:xml:ns:carddav" '
                 'xmlns:cs="http://calendarserver.org/ns/"><prop><resourcetype/><displayname/>'
                 "<current-user-principal/><current-user-privilege-set/></prop></propfind>")
    find_home = ('<propfind xmlns="DAV:" xmlns:card="urn:ietf:params:xml:ns:carddav"><prop>'
                 "<resourcetype/><card:addressbook-home-set/></prop></propfind>")
    find_books = find_user.replace("<current-user-principal/>", "<cs:getctag/>")
    changes = ('<sync-collection xmlns="DAV:" xmlns:card="urn:ietf:params:xml:ns:carddav">'
               "<sync-token>{token}</sync-token><sync-level>1</sync-level><prop><getetag/>"
               "<card:address-data/></prop></sync-collection>")
    href = "<d:href xmlns:d='DAV:'>{path}</d:href>"

    def pull(self, book):
        return super().pull(book) if self.token else self.pull_all(book)

    def pull_all(self, book):
        found = self.dav.ask("PROPFIND", book, self.list_all, Depth="1").etags()
        self.copy = {path: it for path, it in self.copy.items() if path in found}
        self.fetch(book, found)
        self.token = self.dav.ask("PROPFIND", book, self.read_token, Depth="0").prop(
            book, D + "sync-token").text
        return sorted(found)

    def spell(self, line):
        line = line.replace("BDAY;X-APPLE-OMIT-YEAR=1604:",
                            "BDAY;X-APPLE-OMIT-YEAR=1604;VALUE=DATE:")
        line = line.replace("URL:", "URL;VALUE=uri:").replace("TEL;TYPE=", "TEL;VALUE=TEXT;TYPE=")
        return line.replace("X-P=\"a,b\"", 'X-P="a,b"')


class Evolution(Program):
    agent = "Evolution/3.46.4"
    adds = ["X-EVOLUTION-FILE-AS:Lee\\, Ann", "REV:2026-11-27T10:00:00Z"]
    content_type = 'text/vcard; charset="utf-8"'

    def spell(self, line):
        """Evolution escapes commas, and notes the parts of numbers."""
        line = line.replace("TEL;TYPE", 'TEL;X-EVOLUTION-E164=555,"+1";TYPE')
        return line.replace("NICKNAME:An,Annie", "NICKNAME:An\\,Annie")


class Synchronizer(Program):
    """CalDav Synchronizer, which reads and writes Outlook's contacts by a vCard 3.0 library."""

    agent = "CalDavSynchronizer/4.4"
    adds = ["PRODID:-//Outlook//EN", "REV:2026-11-27T10:00:00Z"]
    # Outlook's contact has no place for these.
    drops = ("X-", "TZ")
    find_books = ('<?xml version="1.0"?><D:propfind xmlns:D="DAV:" '
                  'xmlns:C="urn:ietf:params:xml:ns:carddav"><D:prop><D:resourcetype/>'
                  "<D:displayname/><D:current-user-privilege-set/></D:prop></D:propfind>")


PROGRAMS = [Apple, Mac, Davx5, Thunderbird, Evolution, Synchronizer]


class Programs(GatewayTest):
    """A day of each program: it finds the books, syncs, edits one number, adds and removes."""

    def test_programs(self):
        for kind in PROGRAMS:
            with self.subTest(kind.__name__):
                self.setUp()
                self.staff.put(ANN)
                program = kind(self.stack)
                try:
                    self.day_of(program)
                finally:
                    program.dav.close()

    def day_of(self, program):
        self.assertEqual([CLIENTS, STAFF], program.discover())
        privileges = program.home.prop(STAFF, D + "current-user-privilege-set")
        self.assertIsNotNone(privileges.find(f"{D}privilege/{D}write-content"))
        self.assertEqual("staff", program.home.prop(STAFF, D + "displayname").text)
        self.assertEqual([STAFF + "a.vcf"], program.pull(STAFF))
        text = program.copy[STAFF + "a.vcf"][1]
        self.assertEqual(f"VERSION:{program.version}", lines_of(text)[1])
        self.edit_one_number(program)
        self.add_and_remove(program)
        self.start_again(program)

    def edit_one_number(self, program):
        before = lines_of(self.staff.get("a").text)
        reply = program.edit(STAFF + "a.vcf", "+1-777", "+1-778")
        self.assertEqual(204, reply.status, reply)
        after = lines_of(self.staff.get("a").text)
        added = {re.split("[:;]", it)[0] for it in program.adds}
        gone = [it for it in before if it not in after]
        self.assertEqual([EDITED], [it for it in gone if not it.startswith("REV:")])
        new = [it for it in after if it not in before and re.split("[:;]", it)[0] not in added]
        self.assertEqual(["TEL;TYPE=cell:+1-778"], new)
        # What wasn't edited is where it was.
        self.assertEqual([it for it in before if it in after], [it for it in after if it in before])
        if program.has_conditions:
            self.assertEqual(412, program.edit(STAFF + "a.vcf", "+1-777", "+1-779").status)
        self.assertEqual([STAFF + "a.vcf"], program.pull(STAFF))
        self.assertIn("+1-778", program.copy[STAFF + "a.vcf"][1])
        self.assertEqual([], program.pull(STAFF))

    def add_and_remove(self, program):
        text = card3("9F2A-1", "Jo", "TEL;TYPE=CELL:+1 2")
        text = text.replace("VERSION:3.0", f"VERSION:{program.version}")
        path = STAFF + "9F2A-1" + program.ending
        self.assertEqual(201, program.put(path, text, If_None_Match="*").status)
        again = program.put(path, text, If_None_Match="*").status
        self.assertEqual(412 if program.has_conditions else 204, again)
        self.assertEqual([path], program.pull(STAFF))
        self.staff.put(self.staff.get("9F2A-1").text.replace("FN:Jo", "FN:Joe"))
        old = program.copy[path][0]
        self.assertEqual(412, program.dav.ask("DELETE", path, If_Match=old).status)
        self.assertEqual([path], program.pull(STAFF))
        new = program.copy[path][0] if program.has_conditions else None
        self.assertEqual(204, program.dav.ask("DELETE", path, If_Match=new).status)
        self.assertIsNone(self.staff.find("9F2A-1"))
        self.assertEqual([path], program.pull(STAFF))
        self.assertEqual([STAFF + "a.vcf"], list(program.copy))


    def start_again(self, program):
        """Its token is too old: it lists all cards again, and has what is there."""
        self.staff.put(card3("b", "Bob").replace("3.0", "4.0"))
        self.staff.remove("a")
        self.staff.forget(self.staff.tally()["number"])
        self.assertEqual([STAFF + "b.vcf"], program.pull(STAFF))
        self.assertEqual([STAFF + "b.vcf"], list(program.copy))
        self.assertEqual([], program.pull(STAFF))


class Discovery(GatewayTest):
    """What is found on the way to a book (RFC 6764, RFC 6352, 6 and 7)."""

    def test_without_a_password(self):
        anybody = Client(self.stack.place)
        anybody.fields = {}
        reply = anybody.ask("PROPFIND", "/.well-known/carddav", Depth="0")
        self.assertEqual((301, "/dav/"), (reply.status, reply.fields["Location"]))
        for method, path in [("PROPFIND", "/dav/"), ("OPTIONS", STAFF), ("GET", STAFF)]:
            reply = anybody.ask(method, path)
            self.assertEqual(401, reply.status)
            self.assertRegex(reply.fields["WWW-Authenticate"],
                             '^Basic realm=".+", charset="UTF-8"$')

    def test_options(self):
        reply = self.dav.ask("OPTIONS", STAFF)
        self.assertEqual(200, reply.status)
        self.assertLess({"1", "3", "addressbook"}, set(reply.fields["DAV"].split(", ")))
        for method in "GET", "PUT", "DELETE", "MOVE", "PROPFIND", "REPORT":
            self.assertIn(method, reply.fields["Allow"].split(", "))

    def test_what_a_book_says_of_itself(self):
        props = ("<D:supported-report-set/><C:supported-address-data/><C:max-resource-size/>"
                 "<D:sync-token/><CS:getctag/><C:supported-collation-set/><X:none xmlns:X='u:x'/>")
        reply = self.dav.propfind(STAFF, props)
        reports = reply.prop(STAFF, D + "supported-report-set")
        self.assertEqual({D + "sync-collection", C + "addressbook-multiget",
                          C + "addressbook-query"},
                         {it.tag for it in reports.findall(f"{D}supported-report/{D}report/*")})
        versions = reply.prop(STAFF, C + "supported-address-data")
        self.assertEqual(["3.0", "4.0"], [it.get("version") for it in versions])
        self.assertEqual("262144", reply.prop(STAFF, C + "max-resource-size").text)
        self.assertEqual(reply.prop(STAFF, D + "sync-token").text,
                         reply.prop(STAFF, CS + "getctag").text)
        self.assertIn("404", reply.text)
        self.assertIn("none", reply.text)
        brief = self.dav.propfind(STAFF, props, Prefer="return=minimal")
        self.assertNotIn("none", brief.text)

    def test_a_home_for_each_book(self):
        """macOS shows one book of an account, so each book has a user and a home of its own."""
        start = "/dav/only/staff/"
        reply = self.dav.propfind(start, "<D:current-user-principal/><C:addressbook-home-set/>")
        self.assertEqual(start, reply.href(D + "current-user-principal"))
        self.assertEqual(start, reply.href(C + "addressbook-home-set"))
        found = self.dav.propfind(start, "<D:resourcetype/>", "1").all()
        self.assertEqual({start, start + "staff/"}, set(found))
        self.staff.put(ANN)
        path = start + "staff/a.vcf"
        self.assertEqual([path], list(self.dav.sync(start + "staff/").etags()))
        self.assertEqual(200, self.dav.ask("GET", path).status)
        self.assertEqual([path], list(self.dav.multiget(start + "staff/", [path]).cards()))
        self.assertEqual(404, self.dav.ask("GET", start + "clients/a.vcf").status)

    def test_what_is_on_the_way(self):
        """Each collection names itself, and what is in it."""
        for path, below in [("/dav/", ["/dav/users/ann/", "/dav/books/"]),
                            ("/dav/users/", ["/dav/users/ann/"]), ("/dav/users/ann/", []),
                            ("/dav/books/", [CLIENTS, STAFF]), (STAFF, [])]:
            found = self.dav.propfind(path, "<D:resourcetype/>", "1").all()
            self.assertEqual([path, *below], list(found))
            for _, props in found.values():
                self.assertIsNotNone(props[D + "resourcetype"].find(D + "collection"))
            self.assertEqual([path], list(self.dav.propfind(path, "<D:resourcetype/>").all()))
        for body in ("", '<D:propfind xmlns:D="DAV:"><D:allprop/></D:propfind>',
                     '<D:propfind xmlns:D="DAV:"><D:propname/></D:propfind>'):
            found = self.dav.ask("PROPFIND", STAFF, body, Depth="0").all()[STAFF][1]
            self.assertLessEqual({D + "resourcetype", D + "displayname"}, set(found))

    def test_a_browser_is_told_the_address(self):
        self.assertIn(f"http://127.0.0.1:{self.stack.place[1]}/dav/",
                      self.dav.ask("GET", "/dav/").text)

    def test_books_are_not_made_here(self):
        mkcol = ('<D:mkcol xmlns:D="DAV:" xmlns:C="urn:ietf:params:xml:ns:carddav"><D:set><D:prop>'
                 "<D:resourcetype><D:collection/><C:addressbook/></D:resourcetype></D:prop></D:set>"
                 "</D:mkcol>")
        reply = self.dav.ask("MKCOL", "/dav/books/new/", mkcol)
        self.assertEqual(403, reply.status)
        self.assertIn("books are made on the server", reply.text)
        self.assertEqual(403, self.dav.ask("DELETE", STAFF).status)
        reply = self.dav.ask("PROPPATCH", STAFF, '<D:propertyupdate xmlns:D="DAV:"><D:set><D:prop>'
                             "<D:displayname>x</D:displayname></D:prop></D:set></D:propertyupdate>")
        self.assertEqual(207, reply.status)
        self.assertIn("HTTP/1.1 403 Forbidden", reply.text)


if __name__ == "__main__":
    unittest.main()
