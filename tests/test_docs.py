"""The pages for users: the requests and commands that they show are sent and run.

The replies and the output must be those that the pages show.
"""

import json
import re
import unittest

from documented import record
from http_requests import COLUMNS, FULL_CARDS
from http_requests import card, create, forget, import_rows, move, put, remove, request, sync
from openapi import Document, read_reply
from pages import Page
from program import Folder, ROOT, Server, run
from refused_requests import BAD_CARDS, BAD_IMPORTS, ROWS
from shells import Shell, missing_tools, steps_of

PAGES = ["README.md", "docs/API.md", "docs/CLIENTS.md", "docs/OPERATING.md"]
API = Page("docs/API.md")
# Refusals that no request by itself can bring about: a trillion changes, a bad disk, little memory.
NOT_TRIED = {13, 19, 20, 34}


def refusals():
    """The page's table of refusals: status and text by number."""
    rows = API.table("Number", "Status", "`fault`", "When")
    return {int(number): (int(status), text.strip("`")) for number, status, text, _ in rows}


def bodies():
    """The bodies of JSON that were replied in the run."""
    replies = [octets for _, octets in record().all]
    return {it.partition(b"\r\n\r\n")[2].decode() for it in replies}


class ShownRequests(unittest.TestCase):
    """The session of docs/API.md."""

    def test_each_request_is_replied_as_shown(self):
        exchanges = API.exchanges()
        # There are twelve routes, each of which is shown.
        self.assertGreaterEqual(len(exchanges), 12)
        for exchange, reply in zip(exchanges, record().shown):
            with self.subTest(line=exchange.line):
                self.assertEqual(exchange.reply, reply)

    def test_the_shown_requests_are_whole(self):
        for exchange in API.exchanges():
            for octets in exchange.request, exchange.reply:
                with self.subTest(line=exchange.line):
                    head, _, body = octets.partition(b"\r\n\r\n")
                    length = re.search(rb"\r\nContent-Length: (\d+)", head)
                    self.assertEqual(int(length[1]) if length else 0, len(body))

    def test_bodies_within_lines_were_replied(self):
        for path in PAGES:
            for code in Page(path).code():
                # Two dots stand for what is left out.
                if code.startswith('{"') and ".." not in code:
                    with self.subTest(page=path, body=code):
                        self.assertIn(code, bodies())


class Refusals(unittest.TestCase):
    """The tables of refusals and of causes in docs/API.md."""

    def test_each_refusal_is_as_the_table_says(self):
        for row, octets in zip(ROWS, record().refused):
            with self.subTest(row=str(row)[:200]):
                status, fault = refusals()[row.number]
                reply = read_reply(row.request, octets)
                wanted = {"fault": fault, "number": row.number, **row.more}
                self.assertEqual(status, reply.status)
                self.assertEqual(
                    json.dumps(wanted, sort_keys=True, separators=(",", ":")), reply.body.decode()
                )

    def test_each_refusal_is_tried(self):
        self.assertEqual(set(range(1, 36)), set(refusals()))
        self.assertEqual(set(refusals()) - NOT_TRIED, {row.number for row in ROWS})

    def test_closing_faults_close(self):
        closing = {21, 22, 23, 24, 25, 26, 31, 32, 33, 34}
        for row, octets in zip(ROWS, record().refused):
            fields = read_reply(row.request, octets).fields
            with self.subTest(number=row.number):
                wanted = "close" if row.number in closing else "keep-alive"
                self.assertEqual(wanted, fields["Connection"])

    def test_each_cause_of_a_bad_card_is_tried(self):
        rows = API.table("`cause`", "What is wrong", "What to do")
        self.assertEqual([str(it) for it in range(1, 13)], [row[0] for row in rows])
        self.assertEqual(set(range(1, 13)), {cause for cause, _ in BAD_CARDS})

    def test_each_cause_of_a_bad_import_is_tried(self):
        rows = API.table("`cause`", "What is wrong with the row", "What to do")
        listed = [row[0] for row in rows]
        self.assertEqual(["1", "2", "3", "4", "21 to 32", "40", "41"], listed)
        tried = {cause for _, cause, _ in BAD_IMPORTS}
        self.assertLess({1, 2, 3, 4, 26, 40, 41}, tried)

    def test_the_tables_agree_with_openapi(self):
        document = Document(json.loads((ROOT / "docs/openapi.json").read_text(encoding="utf-8")))
        common = {19, 20, 21, 22, 23, 24, 25, 26, 28, 29, 30, 31, 34}
        wanted, found = {}, {}
        for route, _, _, numbers in API.table("Route", "Request", "Reply", "Refusals"):
            of_route = {int(it) for it in numbers.split(", ") if it}
            # `/books` has no part that could be wrong.
            everywhere = common - ({29} if route == "`GET /books`" else set())
            everywhere |= set() if route.startswith("`GET ") else {32, 33}
            # Nothing of `/convert` could be wrong but its query.
            everywhere -= {29} if route == "`POST /convert`" else set()
            wanted[route.strip("`")] = {refusals()[it][::-1] for it in of_route | everywhere}
        for path, method, status, response in document.responses():
            media = response["content"].get("application/json", {})
            faults = {(name, int(status)) for name in media.get("examples", {})}
            found.setdefault(f"{method.upper()} {path}", set()).update(faults)
        self.assertEqual(wanted, found)


class LostReplies(unittest.TestCase):
    """The table of lost replies: each request is done, and then comes again."""

    # A title of the page's table, requests before, the one that is repeated, status and body.
    ROWS = [
        (
            "PUT of a card with `version`",
            [put("staff", "a", "Ann")],
            put("staff", "a", "Anna", "?version=1"),
            (412, '{"fault":"version-mismatch","has":2,"number":7}'),
        ),
        (
            "PUT of a card without `version`",
            [],
            put("staff", "a", "Ann"),
            (200, '{"put":"unchanged","version":1}'),
        ),
        (
            "DELETE",
            [put("staff", "a", "Ann")],
            remove("staff", "a", "?version=1"),
            (404, '{"fault":"no-such-card","number":4}'),
        ),
        (
            "move",
            [create("clients"), put("staff", "a", "Ann")],
            move("a", "staff", "clients"),
            (404, '{"fault":"no-such-card","number":4}'),
        ),
        (
            "import",
            [],
            import_rows("staff", "2026-11-26-093000", COLUMNS + "a,Ann,,,,,,\n"),
            (200, '{"edited":0,"new":1,"number":1,"same":0}'),
        ),
        ("PUT of a book", [], create("clients"), (409, '{"fault":"book-exists","number":2}')),
        (
            "forget",
            [put("staff", "a", "Ann"), remove("staff", "a")],
            forget("staff", 2),
            (200, '{"dropped":0,"horizon":2}'),
        ),
    ]

    def test_the_table_has_these_rows(self):
        rows = API.table("Request", "If it had been done, the reply is")
        self.assertEqual([row[0] for row in self.ROWS], [row[0] for row in rows])
        for row, (_, says) in zip(self.ROWS, rows):
            with self.subTest(row=row[0]):
                self.assertEqual(str(row[3][0]), says[:3])

    def test_each_repeated_request(self):
        for title, before, repeated, wanted in self.ROWS:
            with self.subTest(title), Folder() as folder:
                run("init", folder / "file")
                run("book", folder / "file", "staff")
                with Server(folder / "file") as server:
                    for octets in [*before, repeated]:
                        self.assertRegex(server.ask(octets), rb"^HTTP/1\.1 20[01] ")
                    reply = read_reply(repeated, server.ask(repeated))
                    self.assertEqual(wanted, (reply.status, reply.body.decode()))


class PageSizes(unittest.TestCase):
    """The octets of a page, with the largest and with usual cards."""

    def setUp(self):
        rows = API.table(
            "`limit`",
            "Octets of the body, at most",
            "With cards of 350 octets",
            "With photos of 100 kB",
        )
        self.most = {re.match(r"\d+", row[0])[0]: int(row[1].replace(",", "")) for row in rows}

    def body(self, requests, ask):
        """The body of the last reply over a new file."""
        with Folder() as folder:
            run("init", folder / "file")
            run("book", folder / "file", "staff")
            with Server(folder / "file") as server:
                for octets in requests:
                    self.assertRegex(server.ask(octets), rb"^HTTP/1\.1 20")
                return server.ask(ask).partition(b"\r\n\r\n")[2]

    def test_the_bounds_are_of_the_largest_members(self):
        # Each octet doubled, the text around a card with the largest version, and the page's text.
        around = '{"card":"","status":200,"uid":"","version":1000000000000}'
        token = "http://contacts.invalid/sync/100/1000000000000/1000000000000"
        page = f'{{"members":[],"token":"{token}","truncated":false}}'
        member = 2 * (262_144 + 255) + len(around)
        for limit, octets in self.most.items():
            with self.subTest(limit=limit):
                count = int(limit)
                self.assertEqual(octets, count * member + count - 1 + len(page))

    def test_a_card_of_quotes_is_doubled(self):
        uid = '"' * 255
        # A whole line of the canonical text is 74 quotes, and with its fold 77 octets.
        text = card(uid, "Pat", "NOTE:" + '"' * 70, *["X:" + '"' * 73] * 3_390)
        self.assertLess(len(text), 262_144)
        ask = sync("staff")
        body = self.body([request("PUT", "/books/staff/cards/" + "%22" * 255, text)], ask)
        self.assertLessEqual(len(body), self.most["1"])
        self.assertGreater(len(body), self.most["1"] * 0.95)

    def test_a_page_of_usual_cards(self):
        lines = ["N:Person;P;;;", "EMAIL:person@example.test", "TEL:+1-555-0100", "NOTE:"]
        filled = [*lines[:-1], "NOTE:" + "x" * (350 - len(card("u000", "Pat Lee", *lines)))]
        texts = [card(f"u{number:03}", "Pat Lee", *filled) for number in range(100)]
        self.assertEqual({350}, {len(text) for text in texts})
        rows = FULL_CARDS + "".join(f',"{text}"\n' for text in texts)
        body = self.body([import_rows("staff", "k", rows)], sync("staff"))
        self.assertAlmostEqual(43_000, len(body), delta=1_500)


class Shells(unittest.TestCase):
    """The shell sessions of the pages."""

    def try_page(self, path, least):
        """Runs the page's steps, of which there are at least that many."""
        page = Page(path)
        steps = steps_of(page)
        self.assertGreaterEqual(len(steps), least)
        lacking = missing_tools(steps)
        if lacking:
            self.skipTest(f"no {lacking[0]} on this machine")
        with Folder() as folder, Shell(folder) as shell:
            for step in steps:
                with self.subTest(line=step.line, command=step.command):
                    printed, status = shell.run(step)
                    if step.prints is None:
                        self.assertEqual(0, status, printed)
                    else:
                        self.assertEqual(step.prints, printed)

    def test_the_readme(self):
        self.try_page("README.md", 1)

    def test_the_api(self):
        self.try_page("docs/API.md", 10)

    def test_the_clients(self):
        self.try_page("docs/CLIENTS.md", 14)

    def test_operating(self):
        self.try_page("docs/OPERATING.md", 10)

    def test_bodies_are_sent_at_once(self):
        """No example lets curl wait for `100 Continue`."""
        files = [ROOT / path for path in PAGES] + sorted((ROOT / "examples").glob("*.sh"))
        for path in files:
            for line in path.read_text(encoding="utf-8").splitlines():
                if re.search(r"(^|\s)(-T|--data-binary)\s", line) and "`-T`" not in line:
                    with self.subTest(file=path.name, line=line):
                        self.assertRegex(line, r"-H '?Expect:")


class Links(unittest.TestCase):
    """The links of the pages."""

    def test_each_leads_somewhere(self):
        for path in PAGES:
            page = Page(path)
            for link in page.links():
                name, _, anchor = link.partition("#")
                with self.subTest(page=path, link=link):
                    if re.match(r"https?:", name):
                        continue
                    target = page.path.parent / name if name else page.path
                    self.assertTrue(target.exists())
                    if anchor:
                        self.assertIn(anchor, Page(target.resolve().relative_to(ROOT)).anchors())


if __name__ == "__main__":
    unittest.main()
