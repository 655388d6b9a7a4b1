"""The rules of WebDAV and CardDAV: conditions, names, tokens, limits, queries, moves, refusals.

Each wanted status and element is that of RFC 4918, 6352, 6578 or 9110.
"""

import base64
import threading
import unittest
from urllib.parse import quote

from carddav_client import C, CATEGORIES, CLIENTS, CS, D, STAFF, Client, GatewayTest, card3
from http_requests import card
from test_python_client import HOSTILE

from tosculai import lines_of, same

JO = card3("jo", "Jo", "TEL;TYPE=CELL:+1 2", "NICKNAME:J,Jo", "URL:https://x/a,b;c",
           "NOTE:plain, comma", "item1.EMAIL;type=INTERNET;type=pref:jo@e.test",
           "item1.X-ABLabel:_$!<Other>!$_", "IMPP;X-SERVICE-TYPE=Skype;type=HOME:skype:jo,a")


class Conditions(GatewayTest):
    def test_a_card_and_its_etag(self):
        reply = self.dav.ask("PUT", STAFF + "jo.vcf", JO, If_None_Match="*")
        self.assertEqual(201, reply.status)
        got = self.dav.ask("GET", STAFF + "jo.vcf")
        self.assertEqual((200, "text/vcard; charset=utf-8"),
                         (got.status, got.fields["Content-Type"]))
        # RFC 6352, 6.3.2.3: an ETag in the reply to a PUT only if what is read is what was sent.
        self.assertFalse("ETag" in reply.fields and not same(got.text, JO))
        for line in "NICKNAME:J,Jo", "URL:https://x/a,b;c", "NOTE:plain, comma":
            self.assertIn(line, lines_of(self.staff.get("jo").text))
        self.assertEqual(got.etag, self.dav.multiget(STAFF, [STAFF + "jo.vcf"]).etags()[
            STAFF + "jo.vcf"])
        head = self.dav.ask("HEAD", STAFF + "jo.vcf")
        self.assertEqual((b"", str(len(got.body)), got.etag),
                         (head.body, head.fields["Content-Length"], head.etag))
        again = self.dav.ask("GET", STAFF + "jo.vcf", If_None_Match=got.etag)
        self.assertEqual((304, b""), (again.status, again.body))
        size = self.dav.propfind(STAFF + "jo.vcf", "<D:getcontentlength/><D:getetag/>")
        self.assertEqual(str(len(got.body)), size.prop(STAFF + "jo.vcf",
                                                       D + "getcontentlength").text)

    def test_an_etag_of_what_was_sent(self):
        four = card("four", "Four", "TEL:+1")
        reply = self.dav.ask("PUT", STAFF + "four.vcf", four, If_None_Match="*")
        self.assertEqual((201, self.dav.ask("GET", STAFF + "four.vcf").etag),
                         (reply.status, reply.etag))
        # The office's edit gives another ETag; so does one that is taken back.
        self.staff.put(four.replace("+1", "+2"))
        two = self.dav.ask("GET", STAFF + "four.vcf").etag
        self.staff.put(four)
        self.assertEqual(3, len({reply.etag, two, self.dav.ask("GET", STAFF + "four.vcf").etag}))

    def test_conditions(self):
        self.staff.put(card("a", "Ann", "TEL:+1"))
        got = self.dav.ask("GET", STAFF + "a.vcf")
        edited = got.text.replace("+1", "+2")
        for fields, status in [
            ({"If_Match": '"nope"'}, 412), ({"If_None_Match": "*"}, 412),
            ({"If_None_Match": got.etag}, 412), ({"If_Match": f'"nope", W/{got.etag}'}, 204),
            ({"If_Match": got.etag}, 412), ({"If_Match": "*"}, 204),
        ]:
            with self.subTest(fields):
                text = edited if status == 204 else edited.replace("+2", "+3")
                self.assertEqual(status, self.dav.ask("PUT", STAFF + "a.vcf", text,
                                                      **fields).status)
                self.assertNotIn("+3", self.staff.get("a").text)
        self.assertEqual(412, self.dav.ask("PUT", STAFF + "no.vcf", JO, If_Match="*").status)
        self.assertEqual(412, self.dav.ask("DELETE", STAFF + "a.vcf", If_Match=got.etag).status)
        self.assertEqual(204, self.dav.ask("DELETE", STAFF + "a.vcf").status)
        self.assertEqual(404, self.dav.ask("DELETE", STAFF + "a.vcf").status)

    def test_the_same_put_again(self):
        """After a lost reply a phone sends the same under its old ETag (RFC 9110, 13.1.1)."""
        self.staff.put(card("a", "Ann", "TEL:+1"))
        got = self.dav.ask("GET", STAFF + "a.vcf")
        edited = got.text.replace("+1", "+2")
        for _ in range(2):
            reply = self.dav.ask("PUT", STAFF + "a.vcf", edited, If_Match=got.etag)
            self.assertEqual(204, reply.status)
        self.assertEqual(self.dav.ask("GET", STAFF + "a.vcf").etag, reply.etag)

    def test_one_of_many(self):
        """Of many edits of one version one is made, and the others are told."""
        self.staff.put(card("a", "Ann"))
        got, statuses = self.dav.ask("GET", STAFF + "a.vcf"), []

        def edit(number):
            one = self.stack.client()
            text = got.text.replace("FN:Ann", f"FN:Ann {number}")
            statuses.append(one.ask("PUT", STAFF + "a.vcf", text, If_Match=got.etag).status)
            one.close()

        threads = [threading.Thread(target=edit, args=(it,)) for it in range(12)]
        for it in threads:
            it.start()
        for it in threads:
            it.join()
        self.assertEqual([204] + [412] * 11, sorted(statuses))

    def test_the_office_edits_in_between(self):
        self.staff.put(card("a", "Ann", "TEL:+1", "LANG:fr"))
        got = self.dav.ask("GET", STAFF + "a.vcf")
        self.staff.put(self.staff.get("a").text.replace("LANG:fr", "LANG:de"))
        edited = got.text.replace("+1", "+2")
        self.assertEqual(412, self.dav.ask("PUT", STAFF + "a.vcf", edited,
                                           If_Match=got.etag).status)
        new = self.dav.ask("GET", STAFF + "a.vcf").etag
        self.assertEqual(204, self.dav.ask("PUT", STAFF + "a.vcf", edited, If_Match=new).status)
        self.assertLess({"LANG:de", "TEL:+2"}, set(lines_of(self.staff.get("a").text)))


class WithoutConditions(GatewayTest):
    """Thunderbird changes cards without If-Match: others may have changed them since it read them.

    It sends back lines that it doesn't know, reads a card again after it has sent it, and has a
    copy of its own on each machine of a user.
    """

    AGENT = "Mozilla/5.0 (X11; Linux x86_64; rv:153.0) Gecko/20100101 Thunderbird/153.8.0"
    PATH = STAFF + "a.vcf"
    users = CATEGORIES

    def setUp(self):
        super().setUp()
        self.thunderbird = self.stack.client(program=self.AGENT)
        self.addCleanup(self.thunderbird.close)

    def read(self, path=PATH, dav=None):
        return (dav or self.thunderbird).multiget(STAFF, [path]).cards()[path]

    def put(self, text, status=204, dav=None):
        reply = (dav or self.thunderbird).ask("PUT", self.PATH, text)
        self.assertEqual(status, reply.status, reply)
        found = self.staff.find("a")
        self.assertNotIn("TOSCULAI", found.text if found else "")
        return lines_of(found.text) if found else []

    def office(self, *lines, name="Ann"):
        self.staff.put(card("a", name, *lines))

    def test_edits_of_both_are_kept(self):
        """Whatever others have done since, and whatever becomes of the gateway."""
        for harm in (lambda: None, self.stack.restart, self.lose):
            self.office("TEL:+1", "TEL:+9", "NOTE:old", "LANG:fr", "X-ODD:1")
            text = self.read()
            for line in "NOTE:old", "EMAIL:a@e.test":
                self.office("TEL:+2", "TEL:+9", line, "LANG:de", "X-ODD:1", "X-NEW:1")
                self.dav.sync(STAFF)
            harm()
            self.dav.close()
            self.thunderbird.close()
            text = text.replace("FN:Ann", "FN:Anna").replace("TEL:+9", "TEL:+8")
            wanted = ["FN:Anna", "TEL:+2", "TEL:+8", "EMAIL:a@e.test", "LANG:de", "X-ODD:1",
                      "X-NEW:1"]
            for _ in range(2):  # the second time, since its reply was lost
                self.assertEqual(sorted(wanted), sorted(self.put(text)[3:-1]))

    def lose(self):
        """The state is lost, but not its users."""
        self.stack.kill_gateway()
        for path in self.stack.state.glob("names.db*"):
            path.unlink()
        self.stack.start()

    def test_two_machines_of_a_user(self):
        """What one of them has read says nothing of the other."""
        self.office("TEL:+1")
        text = self.read()
        self.office("TEL:+2")
        other = self.stack.client(program=self.AGENT)
        self.addCleanup(other.close)
        self.assertIn("TEL:+2", self.read(dav=other))
        lines = self.put(text.replace("FN:Ann", "FN:Anna"))
        self.assertEqual(["FN:Anna", "TEL:+2"], lines[3:-1])

    def test_both_change_one_line(self):
        """Both numbers stay; of a name, which a card has once, the later one."""
        self.office("TEL:+1", "N:Lee;Ann;;;")
        text = self.read()
        self.office("TEL:+2", "N:Lee;Anne;;;", name="Anne")
        found = self.put(text.replace("Ann", "Anna").replace("TEL:+1", "TEL:+3"))
        self.assertEqual(["FN:Anna", "N:Lee;Anna;;;", "TEL:+2", "TEL:+3"], sorted(found[3:-1]))

    def test_what_it_has_read_it_may_take_back(self):
        self.office("TEL:+1")
        old = self.read()
        self.office("TEL:+2")
        self.assertEqual(["FN:Ann", "TEL:+1"],
                         self.put(self.read().replace("TEL:+2", "TEL:+1"))[3:-1])
        self.assertEqual(["FN:Ann", "TEL:+1"], self.put(old)[3:-1])

    def test_two_lines_that_say_the_same(self):
        for gone, rest in [("TEL:+1\r\n", 1), ("", 2)]:
            self.office("TEL:+1", "TEL:+1")
            text = self.read()
            self.office("TEL:+1", "TEL:+1", "LANG:de")
            lines = self.put(text.replace(gone, "", 1))
            self.assertEqual((rest, 1), (lines.count("TEL:+1"), lines.count("LANG:de")))

    def test_a_card_that_somebody_has_removed(self):
        """It doesn't come back; but a copy of it under another UID is a card of its own."""
        self.office("TEL:+1")
        text = self.read()
        self.assertEqual(204, self.dav.ask("DELETE", self.PATH).status)
        self.put(text.replace("TEL:+1", "TEL:+2"), 412)
        self.assertIsNone(self.staff.find("a"))
        copy = text.replace("UID:a", "UID:b")
        self.assertEqual(201, self.thunderbird.ask("PUT", STAFF + "b.vcf", copy).status)
        self.assertEqual(201, self.thunderbird.ask("PUT", CLIENTS + "a.vcf", text).status)
        for book, uid in (self.staff, "b"), (self.clients, "a"):
            self.assertEqual(lines_of(card(uid, "Ann", "TEL:+1", "N:Ann;;;;")),
                             lines_of(book.get(uid).text))

    def test_groups_that_are_categories(self):
        """Each name is a thing of its own: one joins, another leaves, others change the rest."""
        cat = self.stack.client("cat", program=self.AGENT)
        self.addCleanup(cat.close)
        self.office("CATEGORIES:Own,Old")
        for uid, members in ("one", ["a"]), ("two", ["a"]), ("three", []), ("four", []):
            self.staff.put(card(uid, uid, "KIND:group", *(f"MEMBER:{it}" for it in members)))
        text = self.read(dav=cat)
        self.assertIn("CATEGORIES:Own,Old,one,two", lines_of(text))
        self.office("CATEGORIES:Own,New", "TEL:+1")
        for uid, members in ("one", []), ("three", ["a"]):
            self.staff.put(card(uid, uid, "KIND:group", *(f"MEMBER:{it}" for it in members)))
        lines = self.put(text.replace("Own,Old,one,two", "Own,Old,one,four"), dav=cat)
        self.assertEqual(["FN:Ann", "CATEGORIES:Own,New", "TEL:+1"], lines[3:-1])
        self.assertEqual({"one": [], "two": [], "three": ["a"], "four": ["a"]},
                         {it: self.staff.people(it)[0] for it in ("one", "two", "three", "four")})
        names = lines_of(self.read(dav=cat))
        self.assertIn("CATEGORIES:Own,New,four,three", names)

    def test_categories_of_a_card(self):
        for new, wanted in [("B", "B,D"), ("", "D"), ("A,B,C", "B,D,C")]:
            self.office("CATEGORIES:A,B")
            text = self.read().replace("CATEGORIES:A,B\r\n", f"CATEGORIES:{new}\r\n" if new else "")
            self.office("CATEGORIES:B,D")
            self.assertEqual([f"CATEGORIES:{wanted}"], self.put(text)[4:-1])

    def test_photos(self):
        """A photo that nobody edits stays, and one that others have changed or removed stays so,
        also if it is kept beside the card."""
        for size in 3_000, 100_000, 400_000:
            old, new = (["PHOTO;ENCODING=b;TYPE=JPEG:" + base64.b64encode(
                bytes(it * by % 251 for it in range(size))).decode()] for by in (3, 5))
            cases = {f"p{at}-{size}": it for at, it in enumerate((old, new, []))}
            paths = {uid: f"{STAFF}{uid}.vcf" for uid in cases}
            for uid, path in paths.items():
                self.dav.ask("PUT", path, card3(uid, "Ann", "TEL:+1", *old))
            texts = {uid: self.read(path) for uid, path in paths.items()}
            self.stack.restart()
            self.thunderbird.close()
            self.dav.close()
            for uid, photos in cases.items():
                path = paths[uid]
                self.assertEqual(204, self.dav.ask("PUT", path, card3(uid, "Ann", "TEL:+2",
                                                                      *photos)).status)
                text = texts[uid].replace("FN:Ann", "FN:Anna")
                self.assertEqual(204, self.thunderbird.ask("PUT", path, text).status)
                lines = lines_of(self.dav.ask("GET", path).text)
                self.assertLessEqual({"FN:Anna", "TEL:+2"}, set(lines))
                self.assertEqual(photos, [it for it in lines if it.startswith("PHOTO")])

    def test_the_line(self):
        """Thunderbird alone gets it, in each card that it reads as a whole, and no ETag after a
        put: what it has sent isn't what it would read."""
        self.office("TEL:+1")
        for text in (self.read(), self.thunderbird.ask("GET", self.PATH).text,
                     self.thunderbird.sync(STAFF, props="<C:address-data/>").cards()[self.PATH]):
            self.assertIn("\r\nX-TOSCULAI-READ:", text)
        self.assertNotIn("TOSCULAI", self.read(dav=self.dav))
        part = '<C:address-data><C:prop name="TEL"/></C:address-data>'
        self.assertNotIn("TOSCULAI", self.thunderbird.multiget(STAFF, [self.PATH], part).text)
        size = self.thunderbird.propfind(self.PATH, "<D:getcontentlength/>").prop(
            self.PATH, D + "getcontentlength").text
        self.assertEqual(size, str(len(self.thunderbird.ask("GET", self.PATH).body)))
        reply = self.thunderbird.ask("PUT", self.PATH, self.read().replace("+1", "+2"))
        self.assertEqual((204, None), (reply.status, reply.fields["ETag"]))

    def test_lines_that_say_nothing(self):
        """Of what isn't the gateway's own line nothing is believed, and it is never stored."""
        self.office("TEL:+1")
        text = self.read()
        line = next(it for it in lines_of(text) if it.startswith("X-TOSCULAI-READ"))
        self.office("TEL:+2")
        for other in ("X-TOSCULAI-READ:", line[:-1], line + "!", line + "\r\n" + line,
                      line.replace(":3-", ":3"), "X-TOSCULAI-READ:" + "A" * 100_000):
            with self.subTest(other[:60]):
                lines = self.put(text.replace("\r\n ", "").replace(line, other))
                self.assertEqual(["FN:Ann", "TEL:+1"], lines[3:-1])
        old = text.replace("\r\n ", "").replace("X-TOSCULAI-READ:", "X-TOSCULAI-READ:9")
        self.put(old.replace("TEL:+1", "TEL:+3"), 412)
        self.assertIn("TEL:+1", self.put(old.replace("X-TOSCULAI-READ:9", "X-OTHER:")))

    def test_respelled_lines_are_no_edits(self):
        self.office("TEL;TYPE=home:+1", "NICKNAME:a\\,b", "X-ODD:1")
        text = self.read().replace("\r\n ", "").replace("TEL;TYPE=home", "TEL;VALUE=TEXT;TYPE=HOME")
        self.office("TEL;TYPE=home:+2", "NICKNAME:a\\,b", "X-ODD:1")
        text = text.replace("X-TOSCULAI-READ:", "x-tosculai-read;value=unknown:")
        lines = self.put(text.replace("a\\,b", "a,b").replace("END:", "NOTE:new\r\nEND:"))
        self.assertEqual({"FN:Ann", "TEL;TYPE=home:+2", "NICKNAME:a\\,b", "X-ODD:1", "NOTE:new"},
                         set(lines[3:-1]))


class Names(GatewayTest):
    """Names that clients choose are kept, also of removed cards, and over kills."""

    def test_a_name_that_is_not_the_uid(self):
        path = STAFF + "Weird Näme.vcf"
        self.assertEqual(201, self.dav.ask("PUT", quote(path), JO, If_None_Match="*").status)
        self.assertEqual([path], list(self.dav.sync(STAFF).etags()))
        token = self.dav.sync(STAFF).token
        self.staff.remove("jo")
        self.stack.restart()
        self.dav.close()
        reply = self.dav.sync(STAFF, token)
        self.assertEqual({path: 404}, reply.statuses())
        self.assertEqual(201, self.dav.ask("PUT", STAFF + "new.vcf", JO).status)
        self.assertEqual({path: 404, STAFF + "new.vcf": 200},
                         self.dav.sync(STAFF, token).statuses())
        self.assertEqual([STAFF + "new.vcf"], list(self.dav.propfind(
            STAFF, "<D:getetag/>", "1").etags()))

    def test_uids_in_use(self):
        """RFC 6352, 6.3.2.1: no-uid-conflict, with the path of what is in the way."""
        self.dav.ask("PUT", STAFF + "jo%20x.vcf", JO)
        reply = self.dav.ask("PUT", STAFF + "other.vcf", JO, If_None_Match="*")
        self.assertEqual((409, ("no-uid-conflict", True)), (reply.status, reply.reason))
        self.assertEqual(STAFF + "jo%20x.vcf", reply.href(C + "no-uid-conflict"))
        reply = self.dav.ask("PUT", STAFF + "jo%20x.vcf", JO.replace("UID:jo", "UID:other"))
        self.assertEqual((409, ("no-uid-conflict", True)), (reply.status, reply.reason))
        self.assertEqual({"jo"}, self.members(self.staff))

    def test_a_refused_card_leaves_the_names(self):
        mia = JO.replace("UID:jo", "UID:mia")
        self.dav.ask("PUT", STAFF + "mine.vcf", mia)
        token = self.dav.sync(STAFF).token
        self.staff.remove("mia")
        bad = mia.replace("END:VCARD", "KIND:a\r\nX-ADDRESSBOOKSERVER-KIND:b\r\nEND:VCARD")
        reply = self.dav.ask("PUT", STAFF + "theirs.vcf", bad)
        self.assertEqual((403, ("valid-address-data", True)), (reply.status, reply.reason))
        self.assertEqual({STAFF + "mine.vcf": 404}, self.dav.sync(STAFF, token).statuses())

    def test_hostile_uids(self):
        """Cards of the office whose UIDs are hard to carry: a phone edits and removes each."""
        for uid in HOSTILE:
            self.staff.put(card(uid, "Hostile", "TEL:+1"), uid=uid)
        for path, text in self.dav.sync(STAFF, props="<D:getetag/><C:address-data/>"
                                        ).cards().items():
            uid = next(it[4:] for it in lines_of(text) if it.startswith("UID:"))
            with self.subTest(uid=uid):
                reply = self.dav.ask("PUT", quote(path), text.replace("TEL:+1", "TEL:+2"))
                self.assertEqual(204, reply.status)
                self.assertIn("TEL:+2", self.staff.get(uid).text)
                self.assertEqual(204, self.dav.ask("DELETE", quote(path)).status)
        self.assertEqual(set(), self.members(self.staff))

    def test_names_that_no_path_holds(self):
        self.staff.put(card("a", "Ann"))
        for name in "..%2fa.vcf", "%2e%2e", "a%2Fb.vcf", "a%00b.vcf", "x" * 300, "%ff":
            with self.subTest(name):
                reply = self.dav.ask("PUT", STAFF + name, JO)
                self.assertIn(reply.status, (400, 403, 404))
                self.assertTrue(reply.body)
        for path in (STAFF + "../clients/", STAFF + "a.vcf/b", "/dav/books/../users/ann/",
                     "/dav/users/bob/", "/dav/nothing/", "/etc/passwd", "/dav/../etc/passwd"):
            with self.subTest(path):
                self.assertEqual(404, self.dav.ask("GET", path).status)
        self.assertEqual({"a"}, self.members(self.staff))


class Tokens(GatewayTest):
    def test_nothing_new_and_what_is_new(self):
        self.staff.put(card("a", "Ann"))
        token = self.dav.sync(STAFF).token
        self.assertEqual({}, self.dav.sync(STAFF, token).statuses())
        self.staff.put(card("b", "Bob"))
        self.staff.remove("a")
        reply = self.dav.sync(STAFF, token)
        self.assertEqual({STAFF + "a.vcf": 404, STAFF + "b.vcf": 200}, reply.statuses())
        self.assertEqual({}, self.dav.sync(STAFF, reply.token).statuses())
        ctag = self.dav.propfind(STAFF, "<CS:getctag/>").prop(STAFF, CS + "getctag").text
        self.assertEqual(reply.token, ctag)

    def test_tokens_that_are_refused(self):
        """RFC 6578, 3.2: valid-sync-token."""
        self.staff.put(card("a", "Ann"))
        token = self.dav.sync(STAFF).token
        for bad in ("nonsense", token + "x", token.partition("?")[0], "?names=",
                    token.replace("/sync/1/", "/sync/2/"), self.dav.sync(CLIENTS).token):
            with self.subTest(bad):
                reply = self.dav.sync(STAFF, bad)
                self.assertEqual((403, ("valid-sync-token", True)), (reply.status, reply.reason))

    def test_a_token_of_thunderbird(self):
        """Its CardDAVDirectory.updateAllFromServerV2 takes 207 and 400: any other status is an
        error, after which it asks with the same token for ever."""
        agent = "Mozilla/5.0 (X11; Linux x86_64; rv:153.0) Gecko/20100101 Thunderbird/153.8.0"
        thunderbird = self.stack.client(program=agent)
        self.addCleanup(thunderbird.close)
        self.staff.put(card("a", "Ann"))
        token = thunderbird.sync(STAFF).token
        self.staff.put(card("b", "Bob"))
        self.assertEqual((207, {STAFF + "b.vcf": 200}), (
            thunderbird.sync(STAFF, token).status, thunderbird.sync(STAFF, token).statuses()))
        self.staff.remove("a")
        self.staff.forget(self.staff.tally()["number"])
        reply = thunderbird.sync(STAFF, token)
        self.assertEqual((400, ("valid-sync-token", True)), (reply.status, reply.reason))

    def test_what_the_book_has_forgotten(self):
        """A token that is too old for the server is refused here, and so is the gateway's own."""
        for uid in "ab":
            self.staff.put(card(uid, uid))
        token = self.dav.sync(STAFF).token
        self.staff.remove("a")
        self.staff.forget(self.staff.tally()["number"])
        reply = self.dav.sync(STAFF, token)
        self.assertEqual((403, ("valid-sync-token", True)), (reply.status, reply.reason))
        self.assertEqual([STAFF + "b.vcf"], list(self.dav.sync(STAFF).etags()))
        self.assertEqual([STAFF + "b.vcf"], list(self.dav.propfind(
            STAFF, "<D:getetag/>", "1").etags()))

    def test_limits(self):
        """RFC 6578, 3.6: what is left is told by a 507 of the book, and comes next."""
        for number in range(7):
            self.staff.put(card(f"u{number}", "U"))
        reply, seen, rounds = self.dav.sync(STAFF, limit=3), set(), 0
        while reply.statuses().get(STAFF) == 507:
            self.assertEqual(3, len(reply.etags()))
            seen |= set(reply.etags())
            self.staff.put(card("u0", f"U{rounds}"))
            rounds += 1
            reply = self.dav.sync(STAFF, reply.token, limit=3)
        self.assertEqual({f"{STAFF}u{it}.vcf" for it in range(7)}, seen | set(reply.etags()))
        self.assertEqual(507, self.dav.sync(STAFF, limit=0).status)
        self.assertEqual(400, self.dav.sync(STAFF, limit="x").status)


class Queries(GatewayTest):
    """RFC 6352, 8.6 and 10.5."""

    def setUp(self):
        super().setUp()
        for uid, name, *lines in [("a", "Ann Lee", "EMAIL;TYPE=work:ann@e.test", "TEL:+1"),
                                  ("b", "Bob Älee", "EMAIL;TYPE=home:bob@e.test"),
                                  ("g", "All", "KIND:group", "MEMBER:a")]:
            self.staff.put(card(uid, name, *lines))

    def found(self, inside, **more):
        return sorted(path[len(STAFF)] for path in self.dav.query(STAFF, inside, **more).etags())

    def test_filters(self):
        for inside, wanted in [
            ('<C:prop-filter name="FN"><C:text-match>LEE</C:text-match></C:prop-filter>', "ab"),
            ('<C:prop-filter name="FN"><C:text-match match-type="starts-with">ann</C:text-match>'
             "</C:prop-filter>", "a"),
            ('<C:prop-filter name="FN"><C:text-match collation="i;octet">LEE</C:text-match>'
             "</C:prop-filter>", ""),
            ('<C:prop-filter name="FN"><C:text-match negate-condition="yes">lee</C:text-match>'
             "</C:prop-filter>", "g"),
            ('<C:prop-filter name="TEL"><C:is-not-defined/></C:prop-filter>', "bg"),
            ('<C:prop-filter name="X-ADDRESSBOOKSERVER-KIND"><C:is-not-defined/></C:prop-filter>',
             "ab"),
            ('<C:prop-filter name="EMAIL"><C:param-filter name="TYPE"><C:text-match '
             'match-type="equals">HOME</C:text-match></C:param-filter></C:prop-filter>', "b"),
            ('<C:prop-filter name="TEL"/><C:prop-filter name="EMAIL"/>', "ab"),
            ("", "abg"),
        ]:
            with self.subTest(inside):
                self.assertEqual(sorted(wanted), self.found(f"<C:filter>{inside}</C:filter>"))
        self.assertEqual(["a"], self.found('<C:filter test="allof"><C:prop-filter name="TEL"/>'
                                           '<C:prop-filter name="EMAIL"/></C:filter>'))

    def test_parts_of_cards_and_limits(self):
        data = '<C:address-data><C:prop name="EMAIL"/></C:address-data>'
        reply = self.dav.query(STAFF, '<C:filter><C:prop-filter name="TEL"/></C:filter>', data)
        self.assertEqual(["BEGIN:VCARD", "VERSION:3.0", "UID:a", "FN:Ann Lee",
                          "EMAIL;TYPE=work:ann@e.test", "N:Ann Lee;;;;", "END:VCARD"],
                         lines_of(reply.cards()[STAFF + "a.vcf"]))
        limit = "<C:limit><C:nresults>2</C:nresults></C:limit>"
        reply = self.dav.query(STAFF, "<C:filter/>", limit=limit)
        self.assertEqual((2, 507), (len(reply.etags()), reply.statuses()[STAFF]))

    def test_what_is_refused(self):
        for inside, element in [
            ('<C:filter><C:prop-filter name="FN"><C:text-match collation="i;klingon">x'
             "</C:text-match></C:prop-filter></C:filter>", "supported-collation"),
        ]:
            reply = self.dav.query(STAFF, inside)
            self.assertEqual((403, (element, True)), (reply.status, reply.reason))
        many = '<C:prop-filter name="FN"><C:text-match>x</C:text-match></C:prop-filter>' * 200
        reply = self.dav.query(STAFF, f"<C:filter>{many}</C:filter>")
        self.assertEqual((403, ("supported-filter", True)), (reply.status, reply.reason))
        for data in ('<C:address-data content-type="text/vcard" version="2.1"/>',
                     '<C:address-data content-type="application/json" version="3.0"/>'):
            reply = self.dav.multiget(STAFF, [STAFF + "a.vcf"], data)
            self.assertEqual((403, ("supported-address-data", True)),
                             (reply.status, reply.reason))
        reply = self.dav.report(STAFF, "D:expand-property", "<D:property name='x'/>")
        self.assertEqual((403, ("supported-report", True)), (reply.status, reply.reason))
        reply = self.dav.propfind("/dav/books/", "<D:resourcetype/>", "infinity")
        self.assertEqual((403, ("propfind-finite-depth", True)), (reply.status, reply.reason))

    def test_a_multiget_says_what_is_not_there(self):
        paths = [STAFF + "a.vcf", STAFF + "no.vcf", CLIENTS + "a.vcf", "/dav/nothing"]
        reply = self.dav.multiget(STAFF, paths)
        self.assertEqual(dict(zip(paths, (200, 404, 404, 404))), reply.statuses())


class Moves(GatewayTest):
    """RFC 4918, 9.9, and RFC 6352, 6.3.2.1."""

    def move(self, path, to, **fields):
        place = f"http://127.0.0.1:{self.stack.place[1]}{to}"
        return self.dav.ask("MOVE", path, Destination=place, **fields).status

    def test_moves(self):
        self.staff.put(card("a", "Ann"))
        token = self.dav.sync(STAFF).token
        self.assertEqual(412, self.move(STAFF + "a.vcf", CLIENTS + "b.vcf", If_Match='"no"'))
        self.assertEqual(201, self.move(STAFF + "a.vcf", CLIENTS + "a%20b.vcf", Overwrite="F"))
        self.assertEqual({STAFF + "a.vcf": 404}, self.dav.sync(STAFF, token).statuses())
        self.assertEqual(200, self.dav.ask("GET", CLIENTS + "a%20b.vcf").status)
        self.staff.put(card("a", "Ann"))
        self.assertEqual(412, self.move(STAFF + "a.vcf", CLIENTS + "a%20b.vcf", Overwrite="F"))
        self.assertEqual(409, self.move(STAFF + "a.vcf", CLIENTS + "c.vcf"))
        self.assertEqual(204, self.move(STAFF + "a.vcf", CLIENTS + "a%20b.vcf"))
        self.assertEqual((set(), {"a"}), (self.members(self.staff), self.members(self.clients)))

    def test_moves_that_are_refused(self):
        self.staff.put(card("a", "Ann"))
        self.clients.put(card("b", "Bob"))
        self.assertEqual(409, self.move(STAFF + "a.vcf", CLIENTS + "b.vcf"))
        self.assertEqual(403, self.move(STAFF + "a.vcf", STAFF + "b.vcf"))
        self.assertEqual(403, self.move(STAFF, CLIENTS))
        self.assertEqual(404, self.move(STAFF + "no.vcf", CLIENTS + "c.vcf"))
        self.assertEqual(502, self.dav.ask("MOVE", STAFF + "a.vcf", Destination=
                                           "http://elsewhere.example/dav/books/clients/a").status)
        self.assertEqual(403, self.dav.ask("COPY", STAFF + "a.vcf", Destination=CLIENTS).status)
        self.assertEqual({"a"}, self.members(self.staff))


class Away(GatewayTest):
    """The server is away, or the book is full."""

    def test_the_server_is_away(self):
        self.staff.put(card("a", "Ann"))
        self.stack.server.kill()
        try:
            for reply in [self.dav.ask("PUT", STAFF + "a.vcf", JO, If_Match='"x"'),
                          self.dav.propfind(STAFF, "<D:sync-token/>"), self.dav.sync(STAFF),
                          self.dav.ask("DELETE", STAFF + "a.vcf")]:
                self.assertEqual((503, "30"), (reply.status, reply.fields["Retry-After"]))
                self.assertTrue(reply.body)
        finally:
            self.stack.start_server()
        self.stack.office.books()
        self.assertEqual([STAFF + "a.vcf"], list(self.dav.sync(STAFF).etags()))

    def test_a_full_book(self):
        rows = "".join(f"u{it},U,,,,,,\n" for it in range(10_000))
        book = self.stack.office.create("full")
        book.import_rows("uid,fn,family,given,email,tel,org,note\n" + rows)
        reply = self.dav.ask("PUT", "/dav/books/full/jo.vcf", JO, If_None_Match="*")
        self.assertEqual((507, ("quota-not-exceeded", True)), (reply.status, reply.reason))
        # A reply of several megabytes comes in pieces, whole.
        reply = self.dav.sync("/dav/books/full/", props="<D:getetag/><C:address-data/>")
        self.assertEqual(("chunked", 10_000),
                         (reply.fields["Transfer-Encoding"], len(reply.cards())))
        self.assertRegex(self.stack.logged(), r"full: 10,000 changes read in \d+\.\d s")


class Rights(GatewayTest):
    def test_rights(self):
        self.staff.put(card("a", "Ann"))
        bob, hall = (Client(self.stack.place, it) for it in ("bob", "hall"))
        self.addCleanup(bob.close)
        self.addCleanup(hall.close)
        books = bob.propfind("/dav/books/", "<D:resourcetype/>", "1").all()
        self.assertEqual({"/dav/books/", STAFF}, set(books))
        for path in CLIENTS, CLIENTS + "a.vcf", "/dav/books/nowhere/", "/dav/only/clients/":
            reply = bob.propfind(path, "<D:resourcetype/>")
            self.assertEqual((403, ("need-privileges", True)), (reply.status, reply.reason))
        self.assertEqual(403, bob.ask("MOVE", STAFF + "a.vcf",
                                      Destination=CLIENTS + "a.vcf").status)
        self.assertEqual({STAFF + "a.vcf": 200, CLIENTS + "a.vcf": 404}, bob.multiget(
            STAFF, [STAFF + "a.vcf", CLIENTS + "a.vcf"]).statuses())
        for method in "PUT", "DELETE":
            reply = hall.ask(method, STAFF + "a.vcf", JO)
            self.assertEqual((403, ("need-privileges", True)), (reply.status, reply.reason))
        self.assertEqual(200, hall.ask("GET", STAFF + "a.vcf").status)
        privileges = hall.propfind(STAFF, "<D:current-user-privilege-set/>")
        self.assertNotIn("write", privileges.text)
        self.assertEqual({"a"}, self.members(self.staff))


if __name__ == "__main__":
    unittest.main()
