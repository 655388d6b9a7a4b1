"""The people of groups: whom each group of `people_rows` reaches, and books of many groups."""

import json
import unittest
from urllib.parse import quote

from http_requests import FULL_CARDS, card, create, import_rows, people, request
from people_rows import NO_CARD, NO_GROUP, PEOPLE
from replies import WalkTest, fault

OK, CREATED = "200 OK", "201 Created"
REFUSED = {
    NO_CARD: ("404 Not Found", fault("no-such-card", 4)),
    NO_GROUP: ("409 Conflict", fault("not-group", 17)),
}
# The most cards of a book.
MOST = 10_000


def reached(found, missing):
    """The body of a reply."""
    return json.dumps({"missing": missing, "people": found}, ensure_ascii=False,
                      separators=(",", ":"))


def cards_of(shape):
    """The UID and the text of each card of the shape."""
    for words in shape.split(";"):
        uid, kind, *members = words.split(" ")
        yield uid, card(uid, "n", f"KIND:{kind}", *(f"MEMBER:{it}" for it in members))


def row_of(uid, text):
    """The row of a card in an import."""
    return f'{uid},"{text}"\n'


class PeopleTest(WalkTest):
    def rows(self, book, number, shape, wanted):
        """The requests that make a book of the shape, and then those for its groups."""
        yield "a book", create(book), CREATED, f'{{"id":{number}}}'
        for version, (uid, text) in enumerate(cards_of(shape), 1):
            put = request("PUT", f"/books/{book}/cards/{quote(uid, safe='')}", text)
            yield uid, put, CREATED, f'{{"put":"created","version":{version}}}'
        for uid, found in wanted.items():
            status, body = REFUSED[found] if isinstance(found, str) else (OK, reached(*found))
            yield f"{uid} of {shape}", people(book, quote(uid, safe="")), status, body

    def test_people(self):
        for number, (title, shape, wanted) in enumerate(PEOPLE, 1):
            with self.subTest(title):
                self.walk(self.rows(f"b{number}", number, shape, wanted))

    def reply_of(self, cards, group):
        """The reply for the group in a book of these cards. The model isn't asked: it is slow."""
        rows = FULL_CARDS + "".join(row_of(uid, text) for uid, text in cards)
        with self.server.connect() as connection:
            for octets in create("staff"), import_rows("staff", "k", rows), people("staff", group):
                connection.send(octets)
                replied = connection.reply()
        head, body = replied.split(b"\r\n\r\n", 1)
        self.assertTrue(head.startswith(b"HTTP/1.1 200 OK\r\n"), head)
        return json.loads(body)

    def test_a_long_chain(self):
        """Each group has the next one and a value that names no card; the last has a person."""
        groups = MOST - 1
        links = (f"m{it:05} group m{it + 1:05} n" for it in range(groups))
        cards = cards_of(";".join([*links, f"m{groups:05} individual"]))
        wanted = {"missing": ["n"], "people": [f"m{groups:05}"]}
        self.assertEqual(wanted, self.reply_of(cards, "m00000"))

    def test_a_wide_group(self):
        """The greatest first, even ones by a prefix; the cards of the last tenth are missing."""
        values = [f"m{it:05}" if it % 2 else f"urn:uuid:m{it:05}" for it in range(MOST)]
        found = [f"m{it:05}" for it in range(MOST - MOST // 10)]
        shape = [" ".join(["g group", *reversed(values)])]
        shape += [f"{it} individual" for it in reversed(found)]
        wanted = {"missing": sorted(values[len(found):]), "people": found}
        self.assertEqual(wanted, self.reply_of(cards_of(";".join(shape)), "g"))

    def test_many_members_of_one_name(self):
        """All members name one card with as many lines. None of these is looked at for its kind."""
        group = card("g", "n", "KIND:group", *["MEMBER:x"] * 20_000)
        one = card("x", "n", "KIND:org", *["NOTE:1"] * 20_000)
        wanted = {"missing": [], "people": ["x"]}
        self.assertEqual(wanted, self.reply_of([("g", group), ("x", one)], "g"))


if __name__ == "__main__":
    unittest.main()
