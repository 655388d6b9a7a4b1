"""Birthdays and anniversaries as a calendar (RFC 5545), read as a calendar program reads them."""

import datetime
import re
import unittest

from carddav_client import GatewayTest
from carddav_feeds import TOKEN, FeedTest
from http_requests import card

PATH = "/birthdays/staff.ics"
ANN = card("ann", "Ann; Müller, \\\\x", "BDAY:19800229", "ANNIVERSARY:--0412",
           "REV:20260102T030405Z")


def read_calendar(text):
    """The properties of the calendar, and those of each event by UID: value by name and params."""
    assert text.endswith("\r\n") and "\n" not in text.replace("\r\n", "")
    for line in text.split("\r\n"):
        assert len(line.encode()) <= 75, line
    lines = text.replace("\r\n ", "").split("\r\n")[:-1]
    assert (lines[0], lines[-1]) == ("BEGIN:VCALENDAR", "END:VCALENDAR")
    whole, events, event = {}, {}, None
    for line in lines[1:-1]:
        name, _, value = line.partition(":")
        if line == "BEGIN:VEVENT":
            assert event is None
            event = {}
        elif line == "END:VEVENT":
            assert event["UID"] not in events
            events[event["UID"]], event = event, None
        else:
            here = whole if event is None else event
            assert name not in here, f"{name} comes twice"
            here[name] = value
    assert event is None
    return whole, events


def plain(value):
    """RFC 5545, 3.3.11."""
    assert not re.search(r"(?<!\\)(?:\\\\)*[;,]", value), value
    return re.sub(r"\\(.)", lambda it: "\n" if it[1] in "nN" else it[1], value)


def days(event, years):
    """The days of an event in these years, by its own rule."""
    start = datetime.datetime.strptime(event["DTSTART;VALUE=DATE"], "%Y%m%d").date()
    found = []
    for year in years:
        if event["RRULE"] == "FREQ=YEARLY;BYMONTH=2;BYMONTHDAY=-1":
            found.append(datetime.date(year, 3, 1) - datetime.timedelta(1))
        else:
            assert event["RRULE"] == "FREQ=YEARLY" and (start.month, start.day) != (2, 29)
            found.append(start.replace(year=year))
    # RFC 5545, 3.8.5.3: the start is the first day by the rule.
    assert start.year in years or event["DTSTART;VALUE=DATE"] in days(event, [start.year])
    return [it.strftime("%Y%m%d") for it in found]


class Birthdays(FeedTest):
    def events(self):
        """Events by what they are called."""
        found = read_calendar(self.text(PATH))[1].values()
        return {plain(it["SUMMARY"]): it for it in found}

    def test_a_whole_calendar(self):
        self.staff.put(ANN)
        version = self.staff.get("ann").version
        text = self.text(PATH)
        digests = re.findall(r"UID:([0-9a-f]{32})@tosculai\r\n", text)
        self.assertEqual(2, len(set(digests)))
        wanted = f"""BEGIN:VCALENDAR
VERSION:2.0
PRODID:-//Tosculai//carddav//EN
CALSCALE:GREGORIAN
X-WR-CALNAME:staff
REFRESH-INTERVAL;VALUE=DURATION:PT12H
X-PUBLISHED-TTL:PT12H
BEGIN:VEVENT
UID:{digests[0]}@tosculai
DTSTAMP:20260102T030405Z
SEQUENCE:{version}
DTSTART;VALUE=DATE:19800229
RRULE:FREQ=YEARLY;BYMONTH=2;BYMONTHDAY=-1
SUMMARY:Ann\\; Müller\\, \\\\x: birthday (1980)
CATEGORIES:BIRTHDAY
CLASS:PUBLIC
TRANSP:TRANSPARENT
END:VEVENT
BEGIN:VEVENT
UID:{digests[1]}@tosculai
DTSTAMP:20260102T030405Z
SEQUENCE:{version}
DTSTART;VALUE=DATE:20000412
RRULE:FREQ=YEARLY
SUMMARY:Ann\\; Müller\\, \\\\x: anniversary
CATEGORIES:ANNIVERSARY
CLASS:PUBLIC
TRANSP:TRANSPARENT
END:VEVENT
END:VCALENDAR
"""
        self.assertEqual(wanted.replace("\n", "\r\n"), text)
        reply = self.plain.ask("GET", f"/birthdays/{TOKEN}/staff.ics")
        self.assertEqual((200, "text/calendar; charset=utf-8", text),
                         (reply.status, reply.fields["Content-Type"], reply.text))

    def test_dates(self):
        """What RFC 6350 allows, and what cards have."""
        for value, wanted in [
            ("19800412", ["20260412", "20270412", "20280412"]),
            ("1980-04-12", ["20260412", "20270412", "20280412"]),
            ("19800412T101010Z", ["20260412", "20270412", "20280412"]),
            ("--0412", ["20260412", "20270412", "20280412"]),
            ("--0229", ["20260228", "20270228", "20280229"]),
            ("20000229", ["20260228", "20270228", "20280229"]),
            ("--0228", ["20260228", "20270228", "20280228"]),
            ("18520229", ["20260228", "20270228", "20280229"]),
            ("18120412", ["20260412", "20270412", "20280412"]),
            ("16040412", ["20260412", "20270412", "20280412"]),
            ("20261231", ["20261231", "20271231", "20281231"]),
            ("1980-04", None), ("1980", None), ("--04", None), ("---12", None), ("19810229", None),
            ("19801301", None), ("--0431", None), ("00000000", None), ("circa 1800", None),
            ("", None), ("١٩٨٠٠٤١٢", None),
        ]:
            with self.subTest(value):
                self.staff.put(card("a", "Ann", "BDAY:" + value))
                events = list(self.events().values())
                self.assertEqual(wanted, days(events[0], [2026, 2027, 2028]) if events else None)
        self.staff.put(card("a", "Ann", "BDAY;VALUE=text:19800412"))
        self.assertEqual({}, self.events())
        # A year that phones write for none isn't shown.
        self.staff.put(card("a", "Ann", "BDAY:16040412"))
        self.assertEqual({"Ann: birthday"}, set(self.events()))

    def test_what_stays(self):
        """A feed changes with its cards alone, and an event keeps its UID."""
        self.staff.put(ANN)
        self.staff.put(card("bob", "Bob", "BDAY:19700101"))
        first = self.get(PATH)
        self.stack.restart()
        self.plain.close()
        again = self.get(PATH)
        self.assertEqual((first.body, first.etag), (again.body, again.etag))
        reply = self.get(PATH, If_None_Match=first.etag)
        self.assertEqual((304, b"", first.etag), (reply.status, reply.body, reply.etag))
        self.staff.put(card("carl", "Carl", "TEL:1"))  # without a day
        self.assertEqual(304, self.get(PATH, If_None_Match=f'"x", W/{first.etag}').status)
        before = read_calendar(first.text)[1]
        self.staff.put(ANN.replace("19800229", "19800301").replace("Ann;", "Anna;"))
        reply = self.get(PATH, If_None_Match=first.etag)
        self.assertEqual(200, reply.status)
        after = read_calendar(reply.text)[1]
        self.assertEqual(set(before), set(after))
        changed = {uid for uid in before if before[uid] != after[uid]}
        self.assertEqual(2, len(changed))
        for uid in changed:
            self.assertGreater(int(after[uid]["SEQUENCE"]), int(before[uid]["SEQUENCE"]))
        self.staff.remove("ann")
        self.assertEqual({"Bob: birthday (1970)"}, set(self.events()))
        # The same card has the same events in another book.
        self.staff.move("bob", "clients")
        text = self.text("/birthdays/clients.ics", token="b" * 32)
        self.assertLess(set(read_calendar(text)[1]), set(before))

    def test_revisions(self):
        for rev, wanted in [("20260102T030405Z", "20260102T030405Z"),
                            ("2026-01-02T03:04:05Z", "20260102T030405Z"),
                            ("20260102T030405", "20260102T030405Z"),
                            ("20261302T030405Z", "19700101T000000Z"),
                            ("20260102T250405Z", "19700101T000000Z"), ("2026", "19700101T000000Z"),
                            ("yesterday\\nX:1", "19700101T000000Z"),
                            ("٢٠٢٦1128T101010Z", "19700101T000000Z"),
                            ("20261128T0١1010Z", "19700101T000000Z")]:
            with self.subTest(rev):
                self.staff.put(card("a", "Ann", "BDAY:--0412", "REV:" + rev))
                self.assertEqual(wanted, self.events()["Ann: birthday"]["DTSTAMP"])

    def test_hostile_cards(self):
        names = ["x" * 200_000, "é" * 100_000, "山" * 60, "a\\nEND:VEVENT\\nBEGIN:VALARM", "{year}",
                 "\u202edlo", "\x85\u2028", "", ";,:\\\\\\,", "🎂" * 80]
        for at, name in enumerate(names):
            self.staff.put(card(f"h{at}\\;", name, "BDAY:19800412", "ANNIVERSARY:--0412"))
        self.assertEqual(2 * len(names), len(read_calendar(self.text(PATH))[1]))
        events = self.events()
        self.assertIn("?: anniversary", events)
        self.assertIn("a END:VEVENT BEGIN:VALARM: birthday (1980)", events)
        self.assertIn("{year}: birthday (1980)", events)
        self.assertIn("{year}: anniversary", events)

    def test_other_paths(self):
        for path in "/birthdays/staff", "/birthdays/", "/birthdays/staff.ics/x", "/birthdays":
            self.assertEqual(404, self.get(path).status)
        self.assertEqual(403, self.get("/birthdays/nowhere.ics").status)
        self.assertEqual(404, self.dav.ask("GET", "/birthdays/nowhere.ics").status)
        self.assertEqual({}, self.events())

    def test_rights(self):
        self.staff.put(ANN)
        self.check_rights(PATH)


class OwnTexts(GatewayTest):
    more = ("--birthday-text", "Geburtstag: {name}, *{year}",
            "--anniversary-text", "{name} [{year}]")

    def test_texts(self):
        self.staff.put(card("a", "Ann", "BDAY:19800412", "ANNIVERSARY:20010203"))
        self.staff.put(card("b", "Bob", "BDAY:--0412", "ANNIVERSARY:--0203"))
        found = read_calendar(self.dav.ask("GET", PATH).text)[1].values()
        self.assertEqual({"Geburtstag: Ann, *1980", "Ann [2001]", "Geburtstag: Bob, *", "Bob"},
                         {plain(it["SUMMARY"]) for it in found})


if __name__ == "__main__":
    unittest.main()
