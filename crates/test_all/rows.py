#!/usr/bin/env python3
"""Writes the part `commands` of test_all: 2,000 commands, drawn from a fixed seed, 1,000 more among
asks of devices, and the rows of worked.py; and the replies of the model of tests/model.

The program isn't used for it. If the program prints another reply, one of the two is wrong."""

import csv
import io
import re
import sys

sys.dont_write_bytecode = True
import parts
from script import SYNC, Script, in_one_line
from worked import sections
from model.cards import unescape
from model.rows import HEADERS

COLUMNS = HEADERS["columns"]
COMMANDS = 2000
EVENTS = 1000
BETWEEN = 100
KEEPS = [10_000, 3]
LIMITS = 5, 8, 300, 4

BOOKS = ["staff", "clients", "friends", "old-times"]
UIDS = ["a", "b", "c", "d", "e", "f", "g", "h", "i", "j", "\u00e9", "urn:uuid:x", "x"]
UIDS += ["team", "team", "half", "half"]
NAMES = [
    ["FN:Ann"],
    ["FN:Bob", "N:Bee;Bob;;;"],
    ["fn:Cy", "NOTE:one\\, two\\; three\\\\four\\nfive"],
    ["FN:Dee", "item1.EMAIL;TYPE=work;PREF=1:dee@example.test", "EMAIL:later@example.test"],
    ["FN:Eve", 'TEL;VALUE=uri;TYPE="voice,home":tel:+1-555-555-5555;ext=5555', "ORG:N\\; S;Sales"],
    ["FN:" + "x" * 70 + " \u00e9t\u00e9 " + "y" * 80],
    ["FN:Lo", " ng", "KIND:org"],
]
GROUPS = [
    ["FN:Team", "KIND:group", "MEMBER:a", "MEMBER:half", "MEMBER:urn:uuid:b", "MEMBER:nobody"],
    ["FN:Half", "KIND:Group", "MEMBER:team", "MEMBER:URN:UUID:x", "MEMBER:\u00e9", "MEMBER:none"],
]
NO_CARDS = [
    "",
    "BEGIN:VCARD\n",
    "BEGIN:VCARD\nVERSION:3.0\nUID:{0}\nFN:A\nEND:VCARD\n",
    "BEGIN:VCARD\nVERSION:4.0\nUID:{0}\nFN:A\x7f\nEND:VCARD\n",
    "BEGIN:VCARD\nVERSION:4.0\nUID:{0}\nFN:A\nTEL;HOME:1\nEND:VCARD\n",
    "BEGIN:VCARD\nVERSION:4.0\nUID:{0}\nFN:A\n",
    "BEGIN:VCARD\nVERSION:4.0\nUID:{0}\nEND:VCARD\n",
    "BEGIN:VCARD\nVERSION:4.0\nFN:A\nEND:VCARD\n",
    "BEGIN:VCARD\nVERSION:4.0\nUID:\nFN:A\nEND:VCARD\n",
    "BEGIN:VCARD\nVERSION:4.0\nUID:{0}\nFN:A\nUID:{0}\nEND:VCARD\n",
    "BEGIN:VCARD\nVERSION:4.0\nUID:{0}\nFN:A\nMEMBER:b\nEND:VCARD\n",
]
ROWS = [
    ["Pat Lee", "Lee", "Pat", "pat@example.test", "", "", ""],
    ["Quin", "", "", "", "", "", ""],
    ["Rae, the third", "", "Rae", "", "555 5555", "South; North", "one\ntwo"],
    ["Sy \"the\" Su", "Su", "", "", "", "", "\\"],
]


class Dice:
    """A linear congruential generator, the same on every machine."""

    def __init__(self, seed):
        self.state = seed

    def roll(self, sides):
        self.state = (self.state * 6364136223846793005 + 1442695040888963407) % 2**64
        return (self.state >> 33) % sides

    def of(self, *things):
        return things[self.roll(len(things))]


class Drawing:
    """Draws commands one after another, and performs each over an office of the model, so that
    later ones are drawn from its state."""

    def __init__(self, seed, devices=()):
        self.dice = Dice(seed)
        self.script = Script((*LIMITS, KEEPS[0]))
        self.office = self.script.office
        self.tokens = {name: "" for name in BOOKS}
        self.devices = devices
        self.commands = []
        for name in devices:
            self.do("device", name)

    def do(self, *command):
        """Adds a command, and performs it."""
        self.commands.append(command)
        return self.script.reply(command)

    def some_book(self):
        """Mostly `staff`, so that it reaches the limit of its changes."""
        if self.dice.roll(60) == 0:
            return "none"
        return "staff" if self.dice.roll(2) else self.dice.of(*BOOKS)

    def some_uid(self, name):
        """Mostly the UID of a live member of the book."""
        live = sorted(self.office.books[name].live) if name in self.office.books else []
        return self.dice.of(*live) if live and self.dice.roll(10) < 7 else self.dice.of(*UIDS)

    def card_text(self, uid):
        if self.dice.roll(30) == 0:
            return self.dice.of(*NO_CARDS).replace("{0}", uid)
        lines = GROUPS[uid == "half"] if uid in ("team", "half") else self.dice.of(*NAMES)
        lines = ["BEGIN:VCARD", "VERSION:4.0", "UID:" + uid, *lines, "END:VCARD"]
        return "".join(line + "\n" for line in lines)

    def expected(self, name, uid):
        there = self.office.books[name].version(uid) if name in self.office.books else 0
        return self.dice.of(*[None] * 7, there, there, 0, there + 1)

    def put(self, name):
        uid = self.some_uid(name)
        named = "other" if self.dice.roll(30) == 0 else uid
        return self.do("put", name, named, self.expected(name, uid), self.card_text(uid))

    def remove(self, name):
        uid = self.some_uid(name)
        return self.do("remove", name, uid, self.expected(name, uid))

    def move(self, name):
        uid = self.some_uid(name)
        to = self.dice.of(*BOOKS, *BOOKS, "none")
        return self.do("move", name, uid, to, self.expected(name, uid))

    def body_row(self, columns):
        uid = self.dice.of(*UIDS)
        fault = self.dice.roll(30)
        if columns:
            row = [uid, *self.dice.of(*ROWS)]
            return row[:7] if fault == 0 else [uid, ""] + row[2:] if fault == 1 else row
        return ["other" if fault == 0 else self.dice.of(uid, ""), self.card_text(uid)]

    def import_rows(self, name):
        columns = self.dice.roll(3) > 0
        rows = [COLUMNS if columns else ["uid", "vcard"]]
        rows += [self.body_row(columns) for _row in range(self.dice.of(0, 1, 2, 2, 3, 4))]
        if self.dice.roll(20) == 0:
            rows[0] = ["uid", "name"]
        out = io.StringIO(newline="")
        csv.writer(out, lineterminator="\n").writerows(rows)
        key = "k/3" if self.dice.roll(25) == 0 else f"k{self.dice.roll(60)}"
        return self.do("import", name, key, out.getvalue())

    def some_token(self, name):
        number = self.office.books[name].number if name in self.office.books else 0
        book = self.office.books[name].id if name in self.office.books else 1
        base = self.dice.roll(number + 1)
        at = self.dice.roll(base + 1)
        kind = self.dice.roll(12)
        if kind == 0:
            return ""
        if kind == 1:
            return self.dice.of("x", SYNC, f"{SYNC}{book}/07/{base + 7}",
                                f"{SYNC}{book}/{base + 1}/{base}",
                                f"{SYNC}{book}/{at}/99999999999999")
        if kind == 2:
            return f"{SYNC}{book % 4 + 1}/{at}/{base}"
        if kind == 3:
            return f"{SYNC}{book}/{at}/{number + 1 + self.dice.roll(3)}"
        return f"{SYNC}{book}/{at}/{base}"

    def report(self, name):
        """Mostly a page from the last token of the book, and often a write before the next page."""
        limit = self.dice.of(None, None, 1, 1, 1, 2, 2, 3, 5, 7, 1000, 0)
        if self.dice.roll(3) == 0 or name not in self.tokens:
            return self.do("report", name, self.some_token(name), limit)
        reply = self.do("report", name, self.tokens[name], limit)
        if reply.startswith("page"):
            self.tokens[name] = SYNC + reply.split()[1]
        elif reply.startswith("refused 10"):
            self.tokens[name] = ""
        if " and more" in reply and (limit == 1 or self.dice.roll(2) == 0):
            self.put(name)
        return reply

    def ask(self, _name):
        """An ask of some device, and often a write before its next ask."""
        place = self.dice.roll(len(self.devices))
        reply = self.do("ask", place, self.dice.of(None, 1, 1, 2, 2, 3, 1000, 0))
        if " and more" in reply and self.dice.roll(2) == 0:
            self.put(self.devices[place])
        return reply

    def forget(self, name):
        book = self.office.books.get(name)
        if not book:
            return self.do("forget", name, 0)
        room = book.number - book.horizon
        upto = self.dice.of(book.number + 1, max(book.horizon, 1) - 1, book.horizon, book.number,
                            book.horizon + self.dice.roll(room // 2 + 1),
                            book.horizon + self.dice.roll(room // 4 + 1))
        return self.do("forget", name, upto)

    def create(self, _name):
        more = ["fifth"] if len(self.office.books) == LIMITS[3] else []
        return self.do("create",
                       self.dice.of("staff", "Staff", "a" * 41, "no_such", "clients", *more))

    def people(self, name):
        return self.do("people", name, self.dice.of("team", "half", "team", "half", *UIDS))

    def draw(self):
        """One command of some kind, or a report or an ask, and then a put."""
        kinds = [self.put] * 34 + [self.remove] * 9 + [self.move] * 10 + [self.import_rows] * 7
        kinds += [self.report] * 18 + [self.forget] * 2 + [self.create]
        kinds += [lambda name: self.do("get", name, self.some_uid(name))] * 6
        kinds += [self.people] * 4
        kinds += [lambda name: self.do("export", name, self.dice.of("cards", "columns"))] * 2
        kinds += [lambda name: self.do("tally", name)] * 5 + [lambda _name: self.do("books")] * 2
        if self.devices:
            kinds += [self.ask] * 40 + [self.forget] * 8
        self.dice.of(*kinds)(self.some_book())

    def draw_all(self, count):
        self.do("books")
        self.do("create", "staff")
        self.do("report", "staff", "", None)
        self.do("create", "clients")
        while len(self.commands) < count - 1:
            for name, at in [("friends", 100), ("old-times", 250)]:
                if name not in self.office.books and len(self.commands) >= at:
                    self.do("create", name)
            self.draw()
        self.do("books")
        del self.commands[count:]


def escaped(text):
    return text.replace("\\", "\\\\").replace("\n", "\\n")


def line_of(command):
    kind, *words = command
    words = ["-" if word in (None, "") and (kind, place) != ("put", 3) else str(word)
             for place, word in enumerate(words)]
    if kind in ("put", "import"):
        words[-1] = escaped(command[-1])
    return " ".join([kind, *words])


# The types of the words after the first one of a line: a word, a number, a token, or a text, which
# may have spaces.
WORDS = {
    "create": "w", "books": "", "get": "ww", "put": "wwnt", "card": "wwt", "remove": "wwn",
    "move": "wwwn", "import": "wwt", "report": "wkn", "forget": "wn", "tally": "w", "export": "ww",
    "people": "ww", "device": "w", "ask": "nn", "copy": "n", "mirror": "wnn",
}
READ = {
    "w": str,
    "n": lambda word: int(word) if word.isdigit() else None,
    "k": lambda word: "" if word == "-" else word,
    "t": unescape,
}


def command_of(line):
    """Parses a line as a command; a word that is left out is empty or None."""
    kinds = WORDS[line.split(" ")[0]]
    kind, *words = line.split(" ", len(kinds))
    words += [""] * (len(kinds) - len(words))
    return kind, *(READ[it](word) for it, word in zip(kinds, words))


def see_that_all_come(commands, answers):
    """Tests that each refusal, each cause of a refused token and each kind of reply occurs, and that
    there are writes between pages."""
    refused = {int(reply.split()[1]) for reply in answers if reply.startswith("refused")}
    assert refused == set(range(1, 19)), refused
    causes = {reply for reply in answers if reply.startswith("refused 10")}
    assert len(causes) == 4, causes
    kinds = {reply.split()[0] for reply in answers}
    wanted = "book books card created edited unchanged gone moved added"
    wanted += " page forgot cards rows people refused"
    assert kinds == set(wanted.split()), kinds
    both = list(zip(commands, answers))
    left = sum(asked[0] == "report" and asked[3] == 1 and " and more" in page
               and put[:2] == ("put", asked[1]) and reply.startswith(("created", "edited"))
               for (asked, page), (put, reply) in zip(both, both[1:]))
    assert left >= 10, left


def replies(limits, lines):
    """The replies of a new office to the lines; `again` has none."""
    script = Script(limits)
    return [None if line == "again" else script.reply(command_of(line)) for line in lines]


def expected_output(title, limits, lines):
    """The expected output of a section with these limits."""
    output, place = [f"==== {title}", limits_line(limits)], 0
    for reply in replies(limits, lines):
        if reply is None:
            output.append("-- adopted, and opened")
        else:
            place += 1
            output.append(f"{place}: {reply}")
    return output


def limits_line(limits):
    return " ".join(["limits", *map(str, limits)])


def lines_of(commands):
    """The commands as lines, with `again` after each hundredth."""
    lines = []
    for place, command in enumerate(commands, 1):
        line = line_of(command)
        assert command_of(line) == command, (line, command)
        lines += [line, "again"] if place % BETWEEN == 0 else [line]
    return lines


def see_that_devices_sync(commands, answers):
    """Tests that there are truncated pages with writes between them, dropped tokens, and complete
    copies."""
    asks = [reply for asked, reply in zip(commands, answers) if asked[0] == "ask"]
    assert sum(" and more" in reply for reply in asks) >= 50
    assert sum(" gone" in reply for reply in asks) >= 20
    assert sum(reply.startswith("refused 10") for reply in asks) >= 2


def expanded(text, join_card):
    """A line of a script, or its expected reply, with the short forms expanded. The lines of a card
    are expanded in a different way."""
    def card(found):
        uid, name = found.groups()
        return join_card(["BEGIN:VCARD", "VERSION:4.0", "UID:" + uid, "FN:" + name, "END:VCARD", ""])

    text = re.sub(r"\[(\S+) ([^]]*)\]", card, text)
    for short, long in [(".../", SYNC), ("COLUMNS", ",".join(COLUMNS)), ("BOM", "\ufeff")]:
        text = text.replace(short, long)
    return text


def worked(scripts):
    """The lines of the scripts, and the expected reply to each, or None."""
    lines, wanted = [], []
    for script in scripts:
        if lines:
            lines.append("again")
            wanted.append(None)
        for line in filter(None, script.split("\n")):
            line, _arrow, reply = line.partition(" => ")
            lines.append(expanded(line, lambda card: escaped("\n".join(card))))
            wanted.append(expanded(reply, lambda card: in_one_line("\r\n".join(card))))
    return lines, wanted


def see_that_the_model_agrees(title, limits, lines, wanted):
    """Tests that the replies that were worked out by hand are those of the model."""
    for line, want, reply in zip(lines, wanted, replies(limits, lines)):
        assert not want or want == reply, (title, line, want, reply)


def octets_of(lines):
    return "".join(line + "\n" for line in lines).encode()


given, outputs = [], []


def add_drawn(title, drawing, sees):
    """The drawn commands, over books that keep many tombstones, and over books that keep few."""
    lines = lines_of(drawing.commands)
    given.extend([f"==== {title}", *(limits_line((*LIMITS, keep)) for keep in KEEPS), *lines])
    for keep in KEEPS:
        sees(drawing.commands, list(filter(None, replies((*LIMITS, keep), lines))))
        outputs.extend(expected_output(title, (*LIMITS, keep), lines))


commands = Drawing(2000)
commands.draw_all(COMMANDS)
add_drawn("drawn", commands, see_that_all_come)
events = Drawing(6578, devices=["staff", "staff", "friends", "clients"])
events.draw_all(EVENTS)
for place in range(len(events.devices)):
    events.do("copy", place)
add_drawn("drawn, with devices", events, see_that_devices_sync)
for title, limits, scripts in sections():
    lines, wanted = worked(scripts)
    see_that_the_model_agrees(title, limits, lines, wanted)
    given += [f"==== {title}", limits_line(limits), *lines]
    outputs += expected_output(title, limits, lines)
parts.write_rows("commands", octets_of(given))
parts.write_expected("commands", octets_of(outputs))
