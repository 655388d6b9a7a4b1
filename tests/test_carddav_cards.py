"""Cards between programs and the server: merges, groups, and what a program leaves out."""

import base64
import threading
import time
import unittest
from unittest import mock

from carddav_client import SPACES, STAFF, GatewayTest, card3
from histories import UIDS, Drawing
from http_requests import card
from model.cards import read_card
from program import Folder, million_steps

import vcard3
from gateway import cards, files, unseen
from gateway.books import Shelf
from gateway.dav import Dav
from gateway.messages import Request
from gateway.office import Offices
from gateway.photos import Photos
from gateway.state import Row, State
from tosculai import Unreachable, lines_of, same


def nobody(name):
    return False


class Merges(unittest.TestCase):
    """An edit of one line changes one line, in 3.0 and in 4.0, for any card."""

    def newer(self, text, base):
        return cards.newer(text, base, nobody, "new", nobody)

    def test_what_was_not_edited_stays(self):
        for form in "3.0", "4.0":
            drawing = Drawing("carddav " + form)
            for drawing.drawn in range(120):
                uid = drawing.random.choice(UIDS)
                base = read_card(drawing.text(uid)).text.decode()
                read = cards.written(base, form == "4.0")
                with self.subTest(form=form, base=base):
                    self.assertIn(f"VERSION:{form}", lines_of(read))
                    self.assertTrue(same(base, self.newer(read, base)))
                    more = read.replace("\r\nEND:", "\r\nTEL:+99\r\nEND:")
                    wanted = base.replace("\r\nEND:", "\r\nTEL:+99\r\nEND:")
                    self.assertTrue(same(wanted, self.newer(more, base)))
                    read_card(self.newer(more, base).encode())

    # The same line in two spellings; ez-vcard, Thunderbird and Apple write the second.
    SPELLINGS = [
        ("TEL;TYPE=home:1", "TEL;TYPE=HOME,VOICE:1"), ("EMAIL:a@b", "EMAIL;type=INTERNET:a@b"),
        ("BDAY:1985-04-12", "BDAY;VALUE=date:19850412"), ("TZ:+01:00", "TZ;VALUE=utc-offset:+0100"),
        ("N:Lee;Ann;;;", "N:Lee;Ann"), ("URL:https://x/a,b", "URL;VALUE=uri:https://x/a\\,b"),
        ("REV:2026-11-27T10:00:00Z", "REV:20261127T100000+0000"), ("NOTE:a\\nb", "NOTE:a\\Nb"),
        ("PHOTO;VALUE=uri:https://x/a.jpg", "PHOTO;VALUE=uri;TYPE=JPEG:https://x/a.jpg"),
        ("NICKNAME:a\\,b", "NICKNAME:a,b"), ("item1.TEL:1", "ITEM1.TEL:1"),
    ]
    # Two lines that don't say the same, although they look alike.
    OTHERS = [
        ("N:Lee\\;Ann;;;;", "N:Lee;Ann;;;"), ("TEL;TYPE=home:1", "TEL;TYPE=work:1"),
        ("NOTE:a", "NOTE:A"), ("ADR;LABEL=a:;;1;;;;", "ADR;LABEL=b:;;1;;;;"), ("TEL:1", "TEL:1 "
         "2"), ("BDAY:1985-04-12", "BDAY:1985-04-13"), ("item1.TEL:1", "item2.TEL:1"),
        ("X-A:1", "X-B:1"), ("ORG:a;b", "ORG:a\\;b"),
    ]

    def test_spellings(self):
        for one, other in self.SPELLINGS:
            with self.subTest(other):
                self.assertEqual(cards.key_of(one), cards.key_of(other))
        for one, other in self.OTHERS:
            with self.subTest(other):
                self.assertNotEqual(cards.key_of(one), cards.key_of(other))

    # The lines that a phone sends beside the UID, and the FN that the card gets.
    NAMED = [
        (["N:;;;;", "ORG:Acme;"], "FN:Acme"), (["FN:", "N:;;;;", "ORG:Acme;Sales"], "FN:Acme"),
        (["FN:", "N:Lee;Ann;;;"], "FN:Ann Lee"), (["FN: ", "N:Lee"], "FN:Lee"),
        (["FN;X-A=1:", "N:;Ann;;;"], "FN;X-A=1:Ann"), (["FN:", "N:Lee,Low;Ann,Bo;;;"],
                                                      "FN:Ann Bo Lee Low"),
        (["N:a\\;b\\,c;Ann;;;"], "FN:Ann a\\;b\\,c"), (["ORG:a\\;b;c"], "FN:a\\;b"),
        (["N:;;;;", "ORG:;Sales", "EMAIL:a@x.test"], "FN:a@x.test"), (["ORG: Acme ;"], "FN:Acme"),
        (["FN:", "TEL:+1"], "FN:+1"), (["FN:", "NOTE:a"], "FN:"), (["NOTE:a"], "FN:"),
        (["FN:", "FN:Ann", "N:Lee;;;;"], "FN:"), (["FN:Ann", "N:Lee;Bo;;;"], "FN:Ann"),
    ]

    def test_names_that_are_made(self):
        """Worked out by hand: N gives given and family names, ORG the organization."""
        for form in "3.0", "4.0":
            for lines, wanted in self.NAMED:
                with self.subTest(form=form, lines=lines):
                    sent = ["BEGIN:VCARD", f"VERSION:{form}", "UID:a", *lines, "END:VCARD"]
                    made = self.newer("".join(it + "\r\n" for it in sent), "")
                    names = [it for it in lines_of(made) if it.startswith("FN")]
                    self.assertEqual(wanted, names[0])
                    read_card(made.encode())

    def test_an_empty_name_of_an_edit(self):
        """It gets a name, unless it was empty before and nobody edited it."""
        for form in "3.0", "4.0":
            for before, wanted in ("FN:Ann Lee", "FN:Bo Lee"), ("FN:", "FN:"):
                with self.subTest(form=form, before=before):
                    base = card("a", "Ann Lee", "N:Lee;Ann;;;").replace("FN:Ann Lee", before)
                    sent = ["BEGIN:VCARD", f"VERSION:{form}", "UID:a", "FN:", "N:Lee;Bo;;;",
                            "END:VCARD"]
                    made = self.newer("".join(it + "\r\n" for it in sent), base)
                    self.assertEqual([wanted, "N:Lee;Bo;;;"], [
                        it for it in lines_of(made) if it.startswith(("FN", "N"))])

    def test_a_uid_in_another_spelling(self):
        for uid, spelled in [("a,b;c", "a\\,b\\;c"), ("urn:uuid:7-7", "7-7"),
                             ("7-7", "urn:uuid:7-7"), ("a", None)]:
            base = card(uid, "Ann")
            lines = [it for it in lines_of(cards.written(base, False)) if not it.startswith("UID")]
            lines[2:2] = [f"UID:{spelled}"] if spelled else []
            text = "\r\n".join(lines).replace("FN:Ann", "FN:Anna") + "\r\n"
            with self.subTest(uid):
                self.assertEqual(lines_of(card(uid, "Anna")), lines_of(self.newer(text, base)))

    def test_lines_that_are_slow_to_read(self):
        """The cost of a line is in proportion to its length, whatever it holds."""
        many = 10_000
        for line in ["N:" + ";" * many + "x", "ORG:" + "\\;" * many, "X" * many, "a." * many + ":x",
                     "X;" + "a=b;" * many + ":x", 'X;a="' + '"a"' * many, "NOTE:" + "\\" * many,
                     "TZ:" + ":" * many, "PHOTO:" + "/photos/" * many, "BDAY:" + "1" * many,
                     "X:" + "\\," * many, "PHOTO:data:image/a" + ";" * many, "REV:" + "-" * many,
                     "MEMBER;" + "x" * many, "TEL;TYPE=" + "a," * many + ":1", "UID;" + "x" * many]:
            with self.subTest(line[:20]):
                begun = time.process_time()
                base = self.newer(card3("jo", "Jo", line), "")
                self.newer(card3("jo", "Jo", line, "TEL:+1"), base)
                self.assertLess(time.process_time() - begun, 3)

    def test_two_lines_that_say_the_same(self):
        base = card("a", "Ann", "TEL:1", "TEL:1")
        once = cards.written(base, False).replace("TEL:1\r\n", "", 1)
        self.assertEqual(1, self.newer(once, base).count("TEL:1"))


class Unseen(unittest.TestCase):
    """An edit of what was read some versions ago is as if the newest card had been read."""

    def newer(self, text, base):
        return cards.newer(text, base, nobody, "new", nobody)

    def edit(self, text, gone, more):
        lines = [it for it in lines_of(text) if it not in gone]
        return "".join(it + "\r\n" for it in [*lines[:-1], *more, lines[-1]])

    def test_random_edits(self):
        for form in "3.0", "4.0":
            drawing, as4 = Drawing("unseen " + form), form == "4.0"
            for drawing.drawn in range(60):
                base = read_card(drawing.text(drawing.random.choice(UIDS))).text.decode()
                read = cards.written(base, as4)
                lines = [it for it in lines_of(read)
                         if unseen.said_by(it) and cards.name_of(it) not in unseen.ONCE]
                drawing.random.shuffle(lines)
                theirs, own = lines[:1], lines[1:2]
                if {cards.key_of(it) for it in theirs} & {cards.key_of(it) for it in own}:
                    continue  # two edits of one line
                with self.subTest(form=form, base=base, theirs=theirs, own=own):
                    now = self.newer(self.edit(read, theirs, ["NOTE:others"]), base)
                    seen = cards.written(now, as4)
                    text = self.edit(unseen.with_line(read, 1), own, ["TEL:+99"])
                    said = unseen.read_by(text).said
                    wanted = self.newer(self.edit(seen, own, ["TEL:+99"]), now)
                    for _ in range(2):  # also if it is sent twice
                        now = self.newer(unseen.edited(text, said, seen), now)
                        self.assertEqual(sorted(lines_of(wanted)), sorted(lines_of(now)))
                        seen = cards.written(now, as4)

    def test_what_a_card_has_once(self):
        """The later edit wins, whatever it is called in 3.0; a second KIND would be refused."""
        for form in "3.0", "4.0":
            for line, other, own in [
                ("ANNIVERSARY:20010101", "ANNIVERSARY:20010202", "ANNIVERSARY:20010303"),
                ("GENDER:F", "GENDER:M", "GENDER:O"), ("KIND:org", "KIND:location", "KIND:thing"),
                ("FN:Ann", "FN:Anne", "FN:Anna"), ("BDAY:19800101", "BDAY:19800202",
                                                   "BDAY:19800303")]:
                old, now, new = (cards.written(card("a", "Ann", it) if not it.startswith("FN")
                                               else card("a", it[3:]), form == "4.0")
                                 for it in (line, other, own))
                said = unseen.read_by(unseen.with_line(old, 1)).said
                with self.subTest(form=form, line=line):
                    made = unseen.edited(new, said, now)
                    self.assertEqual(sorted(lines_of(new)), sorted(lines_of(made)))

    def test_nobody_else_has_edited(self):
        """Then what the program sends is taken as it is."""
        text = unseen.with_line(cards.written(card("a", "Ann", "TEL:+1", "NOTE:n"), False), 1)
        sent = self.edit(text, ["NOTE:n"], ["TEL:+1", "X-NEW:1"])
        self.assertEqual(sent, unseen.edited(sent, unseen.read_by(sent).said,
                                             cards.written(card("a", "Ann", "TEL:+1", "NOTE:n"),
                                                           False)))

    def test_many_lines(self):
        """A card with too many lines for the line has none, and the cost is that of its lines."""
        lines = [f"TEL:+{it}" for it in range(1_900)]
        text = unseen.with_line(card("a", "Ann", *lines), 1)
        begun = time.process_time()
        made = unseen.edited(self.edit(text, lines[:900], []), unseen.read_by(text).said,
                             card("a", "Ann", *lines, "TEL:+n"))
        self.assertEqual([*lines[900:], "TEL:+n"], lines_of(made)[-1_002:-1])
        # It takes as long as 3 million steps.
        self.assertLess(time.process_time() - begun, 60 * million_steps())
        for more in [f"TEL:+{it}" for it in range(2_000)], ["CATEGORIES:" + ",".join(
                map(str, range(2_000)))]:
            text = card("a", "Ann", *more)
            self.assertEqual(text, unseen.with_line(text, 1))
        self.assertIsNone(unseen.read_by(f"X-TOSCULAI-READ:3-{'a' * 8}-{'a' * 16_008}"))
        self.assertIsNotNone(unseen.read_by(f"X-TOSCULAI-READ:3-{'a' * 8}-{'a' * 16_000}"))

    def test_a_card_that_was_exported_and_imported(self):
        """It has the line of another card, which says nothing and goes with the next edit."""
        plain = card("a", "Ann", "TEL:+1")
        stored = unseen.with_line(card("b", "Ann", "TEL:+1"), 1).replace("UID:b", "UID:a")
        self.assertEqual(unseen.with_line(plain, 1), unseen.with_line(stored, 1))
        text = unseen.with_line(cards.written(stored, True), 1)
        self.assertTrue(unseen.read_by(text).is_of(1, "a"))
        edited = self.edit(text, [], ["TEL:+2"])
        self.assertEqual(lines_of(card("a", "Ann", "TEL:+1", "TEL:+2")),
                         lines_of(self.newer(edited, stored)))

    def test_photos(self):
        """A photo is the same one if a mark stands for it, which is another one at each start."""
        octets = base64.b64encode(bytes(100_000)).decode()
        for head in "PHOTO;ENCODING=b;TYPE=JPEG:", "PHOTO:data:image/jpeg;base64,":
            marked = files.taken_out((head + octets).encode())[0].decode()
            self.assertNotIn(octets, marked)
            self.assertEqual(unseen.said_by(head + octets), unseen.said_by(marked))
            self.assertNotEqual(unseen.said_by(head + octets), unseen.said_by(head + "A" + octets))


class LeftOut(unittest.TestCase):
    """Whether a program sends back lines that it doesn't know is its own matter."""

    BASE = card("a", "Ann", "TEL:+1", "X-ODD:1", "KEY:https://k.test/", "item1.URL:https://x/",
                "item1.X-ABLABEL:Home page", "item2.EMAIL:a@b", "item2.X-ABLABEL:Work", "NOTE:n")

    def edited(self, gone, knows=nobody, form="3.0"):
        lines = [it for it in lines_of(cards.written(self.BASE, form == "4.0"))
                 if not it.startswith(gone)]
        text = "\r\n".join([*lines[:-1], "TEL:+2", "END:VCARD", ""])
        return lines_of(cards.newer(text, self.BASE, nobody, "a", knows))

    def test_lines_that_a_program_does_not_know_stay(self):
        for form in "3.0", "4.0":
            lines = self.edited(("X-", "KEY", "item1.X-AB", "item2.X-AB"), form=form)
            self.assertEqual([*lines_of(self.BASE)[:-1], "TEL:+2", "END:VCARD"], lines)

    def test_what_a_user_removes_goes_if_the_program_sends_back_what_it_does_not_know(self):
        """It sends the gateway's own line, too, which names the lines that it was shown."""
        for form in "3.0", "4.0":
            self.assertIn("X-TOSCULAI-SHOWN:X-ABLABEL,X-ODD",
                          lines_of(cards.written(self.BASE, form == "4.0")))
            for gone in ("X-ODD",), ("item2.X-AB",):
                lines = self.edited(gone, form=form)
                wanted = [it for it in lines_of(self.BASE) if not it.startswith(gone)]
                self.assertEqual([*wanted[:-1], "TEL:+2", "END:VCARD"], lines)
            # Of others than X- lines it says nothing, and of those that came later neither.
            self.assertIn("KEY:https://k.test/", self.edited("KEY", form=form))
            later = self.BASE.replace("X-ODD:1", "X-ODD:1\r\nX-NEW:1")
            text = cards.written(self.BASE, form == "4.0")
            self.assertIn("X-NEW:1", lines_of(cards.newer(text, later, nobody, "a", nobody)))

    def test_the_line_of_the_gateway(self):
        """It is never stored, no card without X- lines has it, and respellings are understood."""
        plain = card("a", "Ann", "TEL:+1", "NOTE:X-ODD")
        self.assertEqual(plain, cards.written(plain, True))
        self.assertNotIn("TOSCULAI", cards.written(plain, False))
        read = cards.written(self.BASE, False)
        for text in (read, read.replace("X-ABLABEL,X-ODD", "x-ablabel\\,x-odd"),
                     read.replace("X-TOSCULAI-SHOWN:", "x-tosculai-shown;TYPE=a:")):
            self.assertEqual(lines_of(self.BASE), lines_of(cards.newer(text, self.BASE, nobody,
                                                                       "a", nobody)))
            gone = "".join(it + "\r\n" for it in lines_of(text) if not it.startswith("X-ODD"))
            self.assertNotIn("X-ODD", cards.newer(gone, self.BASE, nobody, "a", nobody))
        self.assertNotIn("TOSCULAI", cards.newer(read, "", nobody, "a", nobody))

    def test_lines_that_every_program_knows_go(self):
        lines = self.edited(("NOTE", "TEL:+1"))
        self.assertNotIn("NOTE:n", lines)
        self.assertNotIn("TEL:+1", lines)

    def test_lines_that_the_program_has_sent_before_go(self):
        lines = self.edited("X-ODD", {"X-ODD"}.__contains__)
        self.assertNotIn("X-ODD:1", lines)

    def test_a_label_goes_with_its_line(self):
        lines = self.edited(("item1.",))
        self.assertNotIn("item1.X-ABLABEL:Home page", lines)
        self.assertIn("item2.X-ABLABEL:Work", lines)


class Groups(GatewayTest):
    """Groups of Apple's in 3.0, and of 4.0; members by UID, as the office writes them."""

    APPLE = card3("g", "All", "X-ADDRESSBOOKSERVER-KIND:group",
                  "X-ADDRESSBOOKSERVER-MEMBER:urn:uuid:a", "X-ADDRESSBOOKSERVER-MEMBER:urn:uuid:b")

    def setUp(self):
        super().setUp()
        for uid in "ab":
            self.staff.put(card(uid, uid))

    def stored(self, uid):
        return [it for it in lines_of(self.staff.get(uid).text) if "MEMBER" in it]

    def test_a_group_of_a_phone(self):
        self.assertEqual(201, self.dav.ask("PUT", STAFF + "g.vcf", self.APPLE).status)
        self.assertEqual((["a", "b"], []), self.staff.people("g"))
        text = self.dav.ask("GET", STAFF + "g.vcf").text
        self.assertIn("X-ADDRESSBOOKSERVER-MEMBER:urn:uuid:a\r\n", text)
        fewer = text.replace("X-ADDRESSBOOKSERVER-MEMBER:urn:uuid:a\r\n", "")
        self.assertEqual(204, self.dav.ask("PUT", STAFF + "g.vcf", fewer).status)
        self.assertEqual((["b"], []), self.staff.people("g"))

    def test_a_group_of_the_office(self):
        members = ["MEMBER:a", "MEMBER:urn:uuid:b", "MEMBER:mailto:x@e.test", "MEMBER:urn:uuid:a"]
        for kind in "3.0", "4.0":
            self.staff.put(card("og", "Office", "KIND:group", *members))
            accept = "text/vcard; version=4.0" if kind == "4.0" else None
            text = self.dav.ask("GET", STAFF + "og.vcf", Accept=accept).text
            self.assertIn("MEMBER:urn:uuid:a\r\n", text)
            self.assertIn("MEMBER:mailto:x@e.test\r\n", text)
            edited = text.replace("FN:Office", "FN:Everybody")
            self.assertEqual(204, self.dav.ask("PUT", STAFF + "og.vcf", edited).status)
            self.assertEqual(members, self.stored("og"))
            self.assertIn("FN:Everybody", lines_of(self.staff.get("og").text))

    def test_categories_stay_lines(self):
        text = card3("c", "C", "CATEGORIES:Board,Paris")
        self.dav.ask("PUT", STAFF + "c.vcf", text)
        self.assertIn("CATEGORIES:Board,Paris", lines_of(self.staff.get("c").text))


class States(unittest.TestCase):
    """Names in the state's file."""

    def test_names(self):
        state = State(":memory:")
        state.assign(1, ["a", "../x", "urn:uuid:7-7", "a.vcf"])
        names = [state.name(1, it) for it in ("a", "../x", "urn:uuid:7-7", "a.vcf")]
        self.assertEqual(["a.vcf", "7-7.vcf", "a.vcf.vcf"], [names[0], *names[2:]])
        self.assertRegex(names[1], r"^[0-9a-f]{32}\.vcf$")
        state.assign(1, ["A", "a"])
        self.assertEqual("a.vcf", state.name(1, "a"))

    def test_another_form_of_cards(self):
        """ETags of before are those of other texts, so each program lists all cards again; once."""
        with Folder() as folder:
            path, epochs = str(folder / "names.db"), []
            for form, token in [("1", ""), ("1", "token"), ("2", ""), ("2", "token")]:
                with mock.patch("gateway.state.FORM", form):
                    state = State(path)
                self.assertEqual(token, state.token(1))
                state.apply(1, [Row("a", 1, '"1-x"', "text")], "token", state.epoch)
                epochs.append(state.epoch)
                state.close()
            self.assertEqual([True, False, True],
                             [it == other for it, other in zip(epochs, epochs[1:])])

    def test_a_name_is_given_and_taken_back(self):
        state = State(":memory:")
        state.assign(1, ["a", "b"])
        undo = state.give(1, "b.vcf", "a")
        self.assertEqual(("b.vcf", ["a.vcf", "b.vcf"], None, ["b.vcf"]),
                         (state.name(1, "a"), sorted(state.names(1, "a")), state.name(1, "b"),
                          state.names(1, "b")))
        state.take_back(1, undo)
        self.assertEqual(("a.vcf", ["a.vcf"], "b.vcf", ["b.vcf"]),
                         (state.name(1, "a"), state.names(1, "a"), state.name(1, "b"),
                          state.names(1, "b")))

    def test_what_programs_know(self):
        state = State(":memory:")
        state.learn("iOS", ["X-A"])
        state.learn("iOS", ["X-A", "X-B"])
        self.assertEqual([True, True, False], [state.knows("iOS", "X-A"), state.knows("iOS", "X-B"),
                                               state.knows("DAVx5", "X-A")])


class FollowingTest(GatewayTest):
    """A copy of a book, within the test's own process."""

    def setUp(self):
        super().setUp()
        offices, state = Offices(self.stack.url), State(":memory:")
        self.shelf = Shelf(offices, state, Photos("/nowhere", state), lambda text: None)
        self.book, self.one, self.count = self.shelf.book("staff"), offices.one, 0


class Following(FollowingTest):
    def test_a_change_between_the_requests_of_a_sync(self):
        """An ETag never comes with a token that is newer than it: the change would be lost."""
        self.staff.put(card("a", "Ann"))
        token = self.book.changes("").token
        self.staff.put(card("a", "Anna"))
        for at in range(1, 5):
            with self.subTest(at=at):
                self.staff.put(card("a", f"Ann {at}"))
                self.shelf.offices.one, self.count = self.edits_at(at), 0
                changes = self.book.changes(token)
                token, told = changes.token, {it.uid: it.version for it in changes.there}
                # What isn't told now is told by the next sync.
                later = {it.uid: it.version for it in self.book.changes(token).there}
                now = self.staff.get("a").version
                self.assertEqual(now, later.get("a", told.get("a")))
                token = self.book.changes(token).token

    def test_a_stop_before_a_put_under_the_name_of_a_removed_card(self):
        """The name was kept, and its card never came: the removed card's removal is still told."""
        self.staff.put(card("a", "Ann"))
        token = self.book.changes("").token
        self.staff.remove("a")
        self.book.refresh()
        self.book.state.give(self.book.number, "a.vcf", "new")
        self.assertEqual(["a.vcf"], self.book.changes(token).gone)
        self.staff.put(card("new", "New"))
        changes = self.book.changes(token)
        self.assertEqual((["a.vcf"], []), ([it.name for it in changes.there], changes.gone))

    def edits_at(self, at):
        """The offices, with an edit of somebody else before the request of this number."""
        def one():
            self.count += 1
            if self.count == at:
                self.staff.put(card("a", f"Anna {at}"))
            return self.one()
        return one

    def test_a_card_that_goes_while_it_is_told(self):
        """It is there now, and gone by the next sync: a reply has no path twice."""
        self.staff.put(card("a", "Ann"))
        token, look, others = self.book.changes("").token, self.book.state.entry, []
        self.staff.put(card("a", "Anna"))

        def and_goes(*key):
            found = look(*key)
            if found and not others:
                self.staff.remove("a")
                others.append(threading.Thread(target=self.book.refresh))
                others[0].start()
                others[0].join(1)
            return found

        with mock.patch.object(self.book.state, "entry", and_goes):
            changes = self.book.changes(token)
        others[0].join()
        self.assertEqual((["a.vcf"], []), ([it.name for it in changes.there], changes.gone))
        later = self.book.changes(changes.token)
        self.assertEqual(([], ["a.vcf"]), (later.there, later.gone))

    def test_a_book_that_forgets_between_two_pages(self):
        """The token of the first page is refused at the second one: the book is read anew."""
        for number in range(130):
            self.staff.put(card(f"u{number:03}", "U"))
        # The first load has two pages; after that the copy's own token is refused before them.
        for at in 2, 3:
            with self.subTest(at=at):
                self.shelf.offices.one, self.count = self.forgets_at(at), 0
                self.book.refresh()
                self.assertGreater(self.count, at)
                self.assertEqual(self.members(self.staff), {it.uid for it in self.book.entries()})
                self.forget(f"u{at + 100}")

    def test_a_book_that_is_read_anew_can_be_read_meanwhile(self):
        """A reply in progress finds the cards that are there: a 404 would remove them from a phone.

        If the load breaks off, none of them goes, and none that is gone stays after the next one.
        """
        for number in range(130):
            self.staff.put(card(f"u{number:03}", "U"))
        self.book.refresh()
        self.forget("u007")
        found = []

        def one():
            self.count += 1
            found.append(len(self.book.entries()))
            if self.count == 3:  # the first request is refused, the next ones read two pages
                raise Unreachable("the server is away")
            return self.one()

        self.shelf.offices.one = one
        with self.assertRaises(Unreachable):
            self.book.refresh()
        self.assertEqual([130] * 3, found)
        self.book.refresh()
        self.assertEqual(self.members(self.staff), {it.uid for it in self.book.entries()})

    def forget(self, uid):
        self.staff.remove(uid)
        self.staff.forget(self.staff.tally()["number"])

    def forgets_at(self, at):
        """The offices; before the request of this number the book forgets a card."""
        def one():
            self.count += 1
            if self.count == at:
                self.forget(f"u{at:03}")
            return self.one()
        return one

    def test_pages_up_to_a_limit(self):
        for number in range(130):
            self.staff.put(card(f"u{number:03}", "U", "NOTE:" + "x" * 50_000 * (number > 100)))
        for limit in None, 1, 100, 101, 125:
            pages = [len(page.members) for page in self.book.pages("", limit)]
            self.assertEqual(limit or 130, sum(pages))
            self.assertLessEqual(max(pages), 100)


class Meanwhile(FollowingTest):
    """Somebody edits a card at each moment of a request: it is found all the same.

    A program that is told 404 of a card, or isn't told of it, may remove it.
    """

    def ask(self, method, path, body=""):
        """The reply, with an edit of the card after each look at the copy."""
        rows, is_at_it = self.book.state.rows, threading.Lock()

        def with_an_edit(*query):
            found = rows(*query)
            if is_at_it.acquire(blocking=False):
                self.count += 1
                self.staff.put(card("a", f"Ann {self.count}"))
                self.book.refresh()
                is_at_it.release()
            return found

        with mock.patch.object(self.book.state, "rows", with_an_edit):
            request = Request(method, path, {"depth": "1"}, body.encode(), "ann", {"*": "rw"})
            reply = Dav(self.shelf).reply(request)
            octets = reply.body if isinstance(reply.body, bytes) else b"".join(reply.body)
        self.assertGreater(self.count, 0)
        return reply.status, octets.decode()

    def test_reads(self):
        for uid in "ab":
            self.staff.put(card(uid, "Ann"))
        self.book.refresh()
        find = ('<C:filter><C:prop-filter name="FN"><C:text-match>Ann</C:text-match>'
                "</C:prop-filter></C:filter>")
        etag = "<D:prop><D:getetag/></D:prop>"
        for status, tag, count, method, path, body in [
            (200, "BEGIN:VCARD", 1, "GET", STAFF + "a.vcf", ""),
            (200, "BEGIN:VCARD", 2, "GET", STAFF, ""),
            (207, "<D:getetag>", 2, "PROPFIND", STAFF, f"<D:propfind {SPACES}>{etag}</D:propfind>"),
            (207, "<D:getetag>", 2, "REPORT", STAFF,
             f"<C:addressbook-query {SPACES}>{etag}{find}</C:addressbook-query>"),
            (207, "<D:getetag>", 2, "REPORT", STAFF,
             f"<D:sync-collection {SPACES}><D:sync-token/>{etag}</D:sync-collection>"),
            (207, "<D:getetag>", 1, "REPORT", STAFF,
             f"<C:addressbook-multiget {SPACES}>{etag}<D:href>{STAFF}a.vcf</D:href>"
             "</C:addressbook-multiget>"),
        ]:
            with self.subTest(method=method, body=body):
                reply = self.ask(method, path, body)
                self.assertEqual((status, count), (reply[0], reply[1].count(tag)), reply)


class Folds(unittest.TestCase):
    def test_folded_lines(self):
        for text in "NOTE:" + "x" * 300, "NOTE:" + "é" * 100, "NOTE:" + "x" * 70, "N:" + "😀" * 50:
            whole = vcard3.folded(text)
            self.assertEqual(text, whole.replace("\r\n ", "")[:-2])
            self.assertTrue(all(len(it.encode()) <= 75 for it in whole.split("\r\n")))


if __name__ == "__main__":
    unittest.main()
