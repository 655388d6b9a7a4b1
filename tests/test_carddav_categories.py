"""Groups as categories, for programs that know no others: what they read, and what they change."""

import re
import unittest

from carddav_client import CATEGORIES, CLIENTS, STAFF, GatewayTest, card3
from http_requests import card

from gateway import categories
from tosculai import lines_of


def values(text):
    """The categories of a card's lines, as a program reads them."""
    lines = [it.partition(":")[2] for it in lines_of(text) if it.startswith("CATEGORIES")]
    assert len(lines) < 2, lines
    raw = re.findall(r"(?:\\.|[^\\,])+", "".join(lines))
    return [re.sub(r"\\(.)", r"\1", it) for it in raw]


class CategoriesTest(GatewayTest):
    users = CATEGORIES

    def setUp(self):
        super().setUp()
        self.cat = self.stack.client("cat")
        self.addCleanup(self.cat.close)

    def team(self, uid, name, *members, more=()):
        return self.staff.put(card(uid, name, "KIND:group", *(f"MEMBER:{it}" for it in members),
                                   *more))

    def get(self, name="a.vcf", **more):
        return self.cat.ask("GET", STAFF + name, **more)

    def shown(self, name="a.vcf"):
        return values(self.get(name).text)

    def put(self, categories, name="a.vcf", got=None, **more):
        """Edits the categories of a card as a program does: one line, or none."""
        got = got or self.get(name)
        lines = [it for it in lines_of(got.text) if not it.startswith("CATEGORIES")]
        line = [f"CATEGORIES:{categories}"] if categories else []
        text = "\r\n".join([*lines[:-1], *line, lines[-1], ""])
        return self.cat.ask("PUT", STAFF + name, text, **{"If_Match": got.etag, **more})

    def groups(self):
        """The members of each group by its name, as the office has them."""
        found = {}
        for text in self.staff.export().split("BEGIN:")[1:]:
            lines = lines_of(text)
            if "KIND:group" in lines:
                name = next(line[3:] for line in lines if line.startswith("FN:"))
                found.setdefault(name, []).append(
                    sorted(line[7:] for line in lines if line.startswith("MEMBER:")))
        return {name: sorted(it) for name, it in found.items()}


class Reads(CategoriesTest):
    def test_groups_are_categories(self):
        self.staff.put(card("a", "Ann", "CATEGORIES:friend"))
        self.staff.put(card("b", "Bob"))
        self.team("g", "Board", "a", "urn:uuid:b")
        self.team("h", "Smith\\, Sons\\; \\\\ Co", "a", "nobody")
        for accept, line in [("text/vcard", "VERSION:3.0"),
                             ("text/vcard; version=4.0", "VERSION:4.0")]:
            text = self.get(Accept=accept).text
            self.assertIn(line, lines_of(text))
            self.assertIn("CATEGORIES:friend,Board,Smith\\, Sons\\; \\\\ Co", lines_of(text))
        self.assertEqual(["Board"], self.shown("b.vcf"))
        both = {STAFF + "a.vcf", STAFF + "b.vcf"}
        self.assertEqual(both, set(self.cat.sync(STAFF).etags()))
        self.assertEqual(both, set(self.cat.query(STAFF, "<C:filter/>").etags()))
        self.assertEqual(both | {STAFF}, set(self.cat.propfind(STAFF, "<D:getetag/>", "1").all()))
        self.assertEqual(404, self.get("g.vcf").status)
        self.assertEqual(404, self.cat.multiget(STAFF, [STAFF + "g.vcf"]).statuses()[
            STAFF + "g.vcf"])
        self.assertEqual(404, self.cat.ask("DELETE", STAFF + "g.vcf").status)
        # Others see what they saw.
        self.assertEqual(4, len(self.dav.sync(STAFF).etags()))
        self.assertIn("CATEGORIES:friend\r\n", self.dav.ask("GET", STAFF + "a.vcf").text)
        query = '<C:filter><C:prop-filter name="CATEGORIES"><C:text-match>board</C:text-match>' \
            "</C:prop-filter></C:filter>"
        self.assertEqual(both, set(self.cat.query(STAFF, query).etags()))
        self.assertEqual(set(), set(self.dav.query(STAFF, query).etags()))

    def test_a_card_without_groups_is_the_stored_one(self):
        self.staff.put(card("a", "Ann", "CATEGORIES;PREF=1:x,y"))
        self.assertEqual(self.dav.ask("GET", STAFF + "a.vcf").etag, self.get().etag)
        self.assertEqual(["x", "y"], self.shown())
        self.staff.put(card("b", "Bob", "CATEGORIES:x", "CATEGORIES:y"))  # some read one line
        self.assertEqual(["x", "y"], self.shown("b.vcf"))

    def sync(self):
        """What changed since the last call: paths with their statuses."""
        reply = self.cat.sync(STAFF, self.token)
        self.assertEqual(207, reply.status, reply)
        self.token = reply.token
        return {path[len(STAFF):]: status for path, status in reply.statuses().items()}

    def test_changes_of_groups_are_changes_of_people(self):
        for uid in "abc":
            self.staff.put(card(uid, uid))
        self.team("g", "Board", "a", "b")
        self.token = ""
        self.assertEqual({"a.vcf": 200, "b.vcf": 200, "c.vcf": 200}, self.sync())
        etags = {name: self.get(name + ".vcf").etag for name in "abc"}
        for change, wanted, board in [
            (lambda: self.team("g", "Board", "a", "c"), "bc", "ac"),
            (lambda: self.team("g", "Board", "a", "c", more=["NOTE:x"]), "", "ac"),
            (lambda: self.stack.restart(), "", "ac"),
            (lambda: self.team("g", "Council", "a", "c"), "ac", ""),
            (lambda: self.team("g", "Board", "c", "a"), "ac", "ac"),
            (lambda: (self.stack.kill_gateway(), self.team("g", "Board", "b"),
                      self.stack.start()), "abc", "b"),
            (lambda: self.staff.remove("g"), "b", ""),
            (lambda: self.staff.put(card("g", "Person")), "g", ""),
            (lambda: self.team("g", "Board", "c"), "cg", "c"),
            (lambda: self.staff.remove("c"), "c", ""),
            (lambda: self.staff.put(card("c", "c")), "c", "c"),
        ]:
            change()
            self.cat.close()
            self.assertEqual(list(wanted), sorted(it[0] for it in self.sync()), wanted)
            there = [it for it in "abc" if self.get(it + ".vcf").status == 200]
            now = {it: self.get(it + ".vcf").etag for it in there}
            for it in there:
                self.assertEqual(it in wanted, etags.get(it) != now[it], it)
            etags.update(now)
            self.assertEqual(list(board), [it for it in there if "Board" in self.shown(
                it + ".vcf")])

    def test_pages_and_tokens(self):
        for number in range(7):
            self.staff.put(card(f"p{number}", "P"))
        self.team("g", "Board", *(f"p{it}" for it in range(7)))
        first, found, more = self.cat.sync(STAFF).token, set(), True
        self.team("g", "Chair", *(f"p{it}" for it in range(7)))
        token = first
        while more:
            reply = self.cat.sync(STAFF, token, 3)
            etags = set(reply.etags())
            self.assertFalse(found & etags)
            found, token = found | etags, reply.token
            more = reply.statuses().get(STAFF) == 507
        self.assertEqual(7, len(found))
        number = int(re.search("[0-9]+", token)[0])
        plain = self.dav.sync(STAFF).token
        for bad in (plain, token.replace(str(number), str(number + 1)), token + "x", "x",
                    token.replace(str(number), "-1")):
            self.assertEqual("valid-sync-token", self.cat.sync(STAFF, bad).reason[0], bad)
        self.assertEqual("valid-sync-token", self.dav.sync(STAFF, token).reason[0])

    def test_the_book_is_read_anew(self):
        """After `forget` the server refuses old tokens of the copy; what is shown stays."""
        self.staff.put(card("a", "Ann"))
        self.team("g", "Board", "a")
        self.token = ""
        self.sync()
        self.stack.kill_gateway()
        self.team("h", "New", "a")
        self.team("g", "Board")
        self.staff.remove("h")
        self.staff.forget(self.staff.tally()["number"])
        self.stack.start()
        self.cat.close()
        self.assertEqual({"a.vcf": 200}, self.sync())
        self.assertEqual([], self.shown())


class Writes(CategoriesTest):
    def setUp(self):
        super().setUp()
        self.staff.put(card("a", "Ann", "CATEGORIES;TYPE=work:friend,x\\,y", "X-ODD:1"))
        self.staff.put(card("b", "Bob"))
        self.team("g", "Board", "b", "urn:uuid:c", more=["NOTE:kept"])

    def test_joining_and_leaving(self):
        stored = self.staff.get("a")
        reply = self.put("friend,x\\,y,Board,Smith\\, Sons")
        self.assertEqual(204, reply.status)
        self.assertEqual({"Board": [["a", "b", "urn:uuid:c"]], "Smith\\, Sons": [["a"]]},
                         self.groups())
        self.assertEqual(stored, self.staff.get("a"))  # the person's card isn't written
        self.assertIn("NOTE:kept", lines_of(self.staff.get("g").text))
        self.assertEqual(["friend", "x,y", "Board", "Smith, Sons"], self.shown())
        self.assertEqual(204, self.put("friend,x\\,y,Smith\\, Sons").status)
        self.assertEqual({"Board": [["b", "urn:uuid:c"]], "Smith\\, Sons": [["a"]]},
                         self.groups())
        self.assertEqual(204, self.put("").status)
        self.assertEqual({"Board": [["b", "urn:uuid:c"]], "Smith\\, Sons": [[]]}, self.groups())
        self.assertNotIn("CATEGORIES", self.staff.get("a").text)

    def test_the_first_edit_of_a_program(self):
        """It is known to show categories, although it has never sent any."""
        self.cat.close()
        self.cat = self.stack.client("cat", program="New/1.0")
        self.addCleanup(self.cat.close)
        self.assertEqual(204, self.put("").status)
        self.assertNotIn("CATEGORIES", self.staff.get("a").text)

    def test_own_categories(self):
        self.assertEqual(204, self.put("Board,x\\,y,friend").status)
        self.assertIn("CATEGORIES;TYPE=work:friend,x\\,y", lines_of(self.staff.get("a").text))
        self.assertEqual(204, self.put("x\\,y,Board").status)
        lines = lines_of(self.staff.get("a").text)
        self.assertIn("x\\,y", "".join(it for it in lines if it.startswith("CATEGORIES")))
        self.assertNotIn("friend", "".join(lines))
        self.assertEqual([["a", "b", "urn:uuid:c"]], self.groups()["Board"])
        self.assertIn("X-ODD:1", lines)

    def test_a_new_card(self):
        text = card3("n", "Nora", "CATEGORIES:Board,New")
        reply = self.cat.ask("PUT", STAFF + "n.vcf", text, If_None_Match="*")
        self.assertEqual(201, reply.status)
        self.assertNotIn("CATEGORIES", self.staff.get("n").text)
        self.assertEqual({"Board": [["b", "n", "urn:uuid:c"]], "New": [["n"]]}, self.groups())
        self.assertEqual(["Board", "New"], self.shown("n.vcf"))
        made = next(it.text for it in self.staff.page("").members if "FN:New" in it.text)
        self.assertRegex(made, "UID:urn:uuid:[0-9a-f-]{36}\r\n")
        self.assertEqual(204, self.cat.ask("DELETE", STAFF + "n.vcf").status)

    def test_etags(self):
        """One is sent if what is read is what was sent; an old one is refused."""
        got = self.get()
        reply = self.put("friend,x\\,y,Board", got=got)
        self.assertEqual((204, self.get().etag), (reply.status, self.get().etag))
        self.assertNotEqual(got.etag, self.get().etag)
        same = self.cat.ask("PUT", STAFF + "a.vcf", self.get().text, If_Match=self.get().etag)
        self.assertEqual((204, self.get().etag), (same.status, same.fields["ETag"]))
        # The same edit again, since its reply was lost; and another one, which comes too late.
        self.assertEqual(204, self.put("friend,x\\,y,Board", got=got).status)
        self.assertEqual(412, self.put("friend,x\\,y,Other", got=got).status)
        self.assertNotIn("Other", self.groups())
        self.team("g", "Board", "b")
        late = self.put("friend,x\\,y", got=got)
        self.assertEqual((204, {"Board": [["b"]]}), (late.status, self.groups()))

    def test_a_move(self):
        self.put("friend,x\\,y,Board")
        target = f"http://{self.stack.place[0]}:{self.stack.place[1]}{CLIENTS}a.vcf"

        def move(etag):
            return self.cat.ask("MOVE", STAFF + "a.vcf", Destination=target, If_Match=etag,
                                Host="%s:%d" % self.stack.place).status
        self.assertEqual(412, move('"1-0"'))
        self.clients.put(card("a", "Old"))
        self.assertEqual(204, move(self.get().etag))
        self.assertIn("FN:Ann", lines_of(self.clients.get("a").text))
        self.assertNotIn("Board", self.clients.get("a").text)

    def test_groups_are_out_of_reach(self):
        text = card3("n", "N", "X-ADDRESSBOOKSERVER-KIND:group")
        reply = self.cat.ask("PUT", STAFF + "n.vcf", text)
        self.assertEqual((403, "valid-address-data"), (reply.status, reply.reason[0]))
        for uid, name in ("g", "other.vcf"), ("other", "g.vcf"), ("g", "g.vcf"):
            reply = self.cat.ask("PUT", STAFF + name, card3(uid, "N"))
            self.assertEqual((409, "no-uid-conflict"), (reply.status, reply.reason[0]))
        self.assertEqual(["Board"], list(self.groups()))

    def test_rights(self):
        reader = self.stack.client("hall")
        self.addCleanup(reader.close)
        self.assertEqual(403, reader.ask("PUT", STAFF + "a.vcf", card3("a", "A")).status)


class Hostile(CategoriesTest):
    def setUp(self):
        super().setUp()
        self.staff.put(card("a", "Ann"))

    def test_names(self):
        """Each name comes back as the same group, however odd it is."""
        for name in ["a\\,b", "a\\;b", "a\\\\b", "\\\\", "\\,", "ü\U0001F600", "a\\nb", "x" * 1000,
                     "urn:uuid:a", "\"", "a  b", "=:'"]:
            with self.subTest(name[:20]):
                self.team("g", name, "a")
                shown = self.shown()
                self.assertEqual(1, len(shown))
                got, version = self.get(), self.staff.get("g").version
                self.assertEqual(204, self.cat.ask("PUT", STAFF + "a.vcf", got.text).status)
                self.assertEqual(version, self.staff.get("g").version)
                self.assertEqual(204, self.put("").status)
                self.assertEqual([[]], list(self.groups().values())[0])
                line = next(it for it in lines_of(got.text) if it.startswith("CATEGORIES:"))
                self.assertEqual(204, self.put(line[11:]).status)
                self.assertEqual([[["a"]]], list(self.groups().values()))

    def test_long_names(self):
        self.team("g", "x" * 200_000, "a")
        self.assertEqual([], self.shown())
        self.assertEqual(204, self.put("Board").status)
        self.assertEqual([["a"]], self.groups()["x" * 200_000])  # it isn't left
        reply = self.put("y" * 200_000)
        self.assertEqual((403, "valid-address-data"), (reply.status, reply.reason[0]))
        reply = self.put(",".join(f"g{it}" for it in range(101)))
        self.assertEqual((403, "valid-address-data"), (reply.status, reply.reason[0]))
        self.assertEqual({"Board", "x" * 200_000}, set(self.groups()))
        self.staff.put(card("b", "Bob", "CATEGORIES:" + "z" * 200_000))
        self.assertEqual(204, self.put("Board," + "z" * 200_000, "b.vcf").status)
        self.assertEqual([["a", "b"]], self.groups()["Board"])

    def test_two_groups_of_a_name(self):
        self.team("g", "Board", "a")
        self.team("h", "Board", "a")
        self.team("i", " ", "a")
        self.assertEqual(["Board"], self.shown())
        self.put("")
        self.assertEqual([[], []], self.groups()["Board"])
        self.put("Board,Board, Board ,,")
        self.assertEqual([[], ["a"]], self.groups()["Board"])
        self.assertIn("MEMBER:a", lines_of(self.staff.get("g").text))
        self.team("h", "Board", "a")
        self.assertEqual(["Board"], self.shown())

    def test_a_name_of_both_kinds(self):
        self.staff.put(card("a", "Ann", "CATEGORIES:Board", "CATEGORIES:two"))
        self.team("g", "Board", "a")
        self.assertEqual(["Board", "two"], self.shown())
        self.put("two")
        self.assertEqual({"Board": [[]]}, self.groups())
        self.assertEqual(["two"], self.shown())

    def test_a_member_twice_and_a_group_in_a_group(self):
        self.team("g", "Board", "a", "urn:uuid:a", "h")
        self.team("h", "Inner", "g", "h")
        self.assertEqual(["Board"], self.shown())
        self.put("")
        self.assertEqual({"Board": [["h"]], "Inner": [["g", "h"]]}, self.groups())

    def test_many_groups(self):
        for number in range(categories.SHOWN_MAX + 5):
            self.team(f"g{number:03}", f"G{number:03}", "a")
        shown = self.shown()
        self.assertEqual(categories.SHOWN_MAX, len(shown))
        self.assertEqual(204, self.put(",".join(shown[1:])).status)
        left = [name for name, it in self.groups().items() if it == [[]]]
        self.assertEqual(["G000"], left)


if __name__ == "__main__":
    unittest.main()
