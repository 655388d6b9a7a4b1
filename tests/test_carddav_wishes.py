"""Groups as categories: others change things, or all stops, between the requests of one edit."""

import threading
import time
import unittest

from carddav_client import CATEGORIES, STAFF
from http_requests import card
from program import PATIENCE
from test_carddav_categories import CategoriesTest
from test_carddav_races import BetweenTest

from tosculai import lines_of


class Between(BetweenTest, CategoriesTest):
    users = CATEGORIES

    def setUp(self):
        super().setUp()
        self.fill()

    def fill(self):
        self.cat.close()
        for it in [it.uid for it in self.staff.page("").members if it.version]:
            self.staff.remove(it)
        self.staff.put(card("a", "Ann", "TEL:+1"))
        self.team("g", "Board", "a", "b")
        self.team("h", "Choir", "b")

    def edit(self):
        """Another number, out of Board, into Choir and a new group."""
        got = self.get()
        self.first = got
        text = got.text.replace("+1", "+2").replace("Board", "Choir,New")
        return self.cat.ask("PUT", STAFF + "a.vcf", text, If_Match=got.etag).status

    def state(self):
        number = next(it[-2:] for it in lines_of(self.staff.get("a").text) if "TEL" in it)
        return number, self.groups()

    def test_the_person_is_changed(self):
        stored = self.staff.get("a")
        self.at(0, lambda: self.staff.put(stored.text.replace("+1", "+9")) and None)
        self.assertEqual(412, self.edit())
        self.assertEqual(("+9", {"Board": [["a", "b"]], "Choir": [["b"]]}), self.state())
        self.assertEqual(["Board"], self.shown())

    def test_a_group_is_changed(self):
        for number in 1, 2, 3:
            with self.subTest(number):
                self.fill()
                self.at(number, self.more_members)
                self.assertEqual(204, self.edit())
                number, groups = self.state()
                self.assertEqual("+2", number)
                self.assertEqual({"Board": [["b", "c"]], "Choir": [["a", "b", "c"]],
                                  "New": [["a"]]}, groups)

    def more_members(self):
        for uid in "gh":
            text = self.staff.get(uid).text
            self.staff.put(text.replace("END:", "MEMBER:c\r\nEND:"))

    def test_a_group_goes(self):
        self.at(2, lambda: self.staff.remove("h"))
        self.assertEqual(204, self.edit())
        self.assertEqual(("+2", {"Board": [["b"]], "Choir": [["a"]], "New": [["a"]]}),
                         self.state())

    def test_the_gateway_is_killed(self):
        """After the person's card was written, all of the edit is done; before that, nothing."""
        for number, is_patient in (0, True), (1, True), (2, False), (3, True), (3, False):
            with self.subTest(number=number, is_patient=is_patient):
                self.fill()
                self.kill_at(number)
                self.stack.start()
                shown = self.shown() if is_patient else None
                again = self.cat.ask("PUT", STAFF + "a.vcf", self.first.text.replace(
                    "+1", "+2").replace("Board", "Choir,New"), If_Match=self.first.etag)
                if is_patient:
                    self.assertEqual(["Choir", "New"] if number else ["Board"], shown)
                self.assertEqual(204, again.status)
                self.assertEqual(("+2", {"Board": [["b"]], "Choir": [["a", "b"]],
                                         "New": [["a"]]}), self.state())

    def test_others_change_a_group_while_the_gateway_is_down(self):
        """Theirs stays, whether the edit had been done or not; what nobody touched is repaired."""
        for number in 2, 3:
            with self.subTest(number):
                self.fill()
                self.kill_at(number)
                self.team("g", "Board", "a", "z")
                self.stack.start()
                self.assertEqual(["Board", "Choir", "New"], self.shown())
                self.assertEqual(("+2", {"Board": [["a", "z"]], "Choir": [["a", "b"]],
                                         "New": [["a"]]}), self.state())

    def test_others_change_the_person_while_the_gateway_is_down(self):
        self.kill_at(1)
        stored = self.staff.get("a")
        self.staff.put(stored.text.replace("+2", "+9"), stored.version)
        self.stack.start()
        self.assertEqual(["Board"], self.shown())
        self.assertEqual(("+9", {"Board": [["a", "b"]], "Choir": [["b"]]}), self.state())

    def kill_at(self, number):
        """Kills the gateway within an edit, at its request of this number."""
        killed = threading.Event()
        self.at(number, lambda: self.stack.kill_gateway() or killed.set() or "cut")
        self.assertRaises(OSError, self.edit)
        self.assertTrue(killed.wait(PATIENCE))

    def test_the_start_repairs(self):
        self.kill_at(2)
        self.stack.start()
        self.dav.ask("GET", STAFF + "a.vcf")
        ends = time.monotonic() + PATIENCE
        while "New" not in self.groups() and time.monotonic() < ends:
            time.sleep(0.05)
        self.assertEqual(("+2", {"Board": [["b"]], "Choir": [["a", "b"]], "New": [["a"]]}),
                         self.state())

    def test_a_wish_whose_card_was_never_written(self):
        self.at(0, lambda: (507, "book full", 12))
        self.assertEqual(507, self.edit())
        self.assertEqual(["Board"], self.shown())
        self.assertEqual({"Board": [["a", "b"]], "Choir": [["b"]]}, self.groups())

    def test_a_group_is_refused(self):
        self.at(3, lambda: (507, "book full", 12))
        self.assertEqual(507, self.edit())
        self.assertEqual(["Choir"], self.shown())
        self.stack.restart()
        self.cat.close()
        self.assertEqual(["Choir"], self.shown())


del BetweenTest, CategoriesTest
if __name__ == "__main__":
    unittest.main()
