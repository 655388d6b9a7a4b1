"""The answer of each call over the tables as they are: an unreadable row that is read is a fault.
The calls are those of src/damage/changes.rt and src/damage/reads.rt."""

from model.cards import uid_of
from tables import NUMBERS, canonical_card, decoded, in_memory, small_store

PAGE_MAX, CARDS_MAX, CHANGES_MAX, BOOKS_MAX = 100, 100, 10**6, 10
STORE = "fault 19"


class Denied(Exception):
    """A refusal, or a fault."""


def natural(value):
    if not isinstance(value, int) or value < 0:
        raise Denied(STORE)
    return value


def text(value):
    if decoded(value) is None:
        raise Denied(STORE)
    return decoded(value)


def card_of(value):
    if value is None:
        return None
    spelled = canonical_card(value)
    if spelled is None:
        raise Denied(STORE)
    return spelled


def refuse(number, more=""):
    raise Denied(f"refused {number}{more}")


class Reader:
    """The calls that read."""

    def __init__(self, tables):
        self.tables = tables

    def rows(self, query, *values):
        return self.tables.rows(query, *values)

    def find(self, name):
        """The numbers of the book with the name. Their sums must be right."""
        found = self.rows(f"SELECT id, {', '.join(NUMBERS)} FROM book WHERE name = ?", name)
        if not found:
            refuse(1)
        book = dict(zip(["id", *NUMBERS], map(natural, found[0])))
        if sum(found[0][3:]) != book["number"] or book["horizon"] > book["number"]:
            raise Denied(STORE)
        arrived = book["created"] + book["imported"] + book["moved_in"]
        book["cards"] = max(0, arrived - book["deleted"] - book["moved_out"])
        return book

    def live(self, book, uid):
        """The version and the card of a live member."""
        for changed, text in self.rows("SELECT changed, card FROM member WHERE book = ? AND "
                                       "uid = ?", book["id"], uid):
            version, spelled = natural(changed), card_of(text)
            return None if spelled is None else (version, spelled)
        return None

    def remembered(self, book):
        return self.tables.remembered(book["id"], book["horizon"])

    def kept(self, book, key):
        for row in self.rows("SELECT added, edited, same, number FROM import_key WHERE book = ? "
                             "AND ikey = ?", book["id"], key):
            return "import " + " ".join(str(natural(number)) for number in row)
        return None

    def kept_import(self):
        return self.kept(self.find("staff"), "k1") or "none"

    def get(self):
        """The numbers of the book are read only if the UID has no member, live or removed."""
        members = self.rows("SELECT changed, card FROM member WHERE uid = 'ann' AND book = "
                            "(SELECT id FROM book WHERE name = 'staff')")
        if not members:
            self.find("staff")
            refuse(4)
        version, spelled = natural(members[0][0]), card_of(members[0][1])
        if spelled is None:
            refuse(4)
        return f"card {version} {uid_of(spelled)}"

    def books(self):
        rows = sorted(self.rows("SELECT name, id, number, horizon FROM book"))
        return "books" + "".join(f" | {text(name)} {' '.join(str(natural(n)) for n in numbers)}"
                                 for name, *numbers in rows)

    def book(self):
        book = self.find("staff")
        return f"staff {book['id']} {book['number']} {book['horizon']}"

    def cards(self):
        rows = self.rows("SELECT uid, changed, card FROM member WHERE book = ?",
                         self.find("staff")["id"])
        live = [card_of(card) for uid, changed, card in rows if (text(uid), natural(changed))]
        return f"cards {sum(card is not None for card in live)}"

    def tally(self):
        book = self.find("staff")
        names = sorted(["cards", "remembered", *NUMBERS])
        numbers = {**book, "remembered": self.remembered(book)}
        return "tally " + " ".join(str(numbers[name]) for name in names)

    def keep(self):
        keeps = self.rows("SELECT keep FROM keeping WHERE book = ?", self.find("staff")["id"])
        if not keeps:
            raise Denied(STORE)
        return f"keep {natural(keeps[0][0])}"

    def report(self, token=None):
        """The initial report, or one since the token, which is the book's id and two numbers."""
        book = self.find("staff")
        own, at, base = token or (book["id"], 0, book["number"])
        if own != book["id"]:
            refuse(10)
        if base < book["horizon"] or base > book["number"]:
            refuse(10)
        rows = self.tables.due(own, at, base)
        assert len(rows) <= PAGE_MAX
        page = f"page {own}/{book['number']}/{book['number']}"
        for uid, changed, card in rows:
            uid, spelled = text(uid), card_of(card)
            page += f", {uid} gone" if card is None else \
                f", {uid} {changed} {uid_of(spelled)}"
        return page


class Writer(Reader):
    """The calls that change books. Each change uses the book's next number, which must be
    free."""

    changes = True

    def next(self, book):
        if book["number"] >= CHANGES_MAX:
            refuse(13)
        return book["number"] + 1

    def free(self, book, number, uid):
        """Tests that no other member has the number."""
        if self.rows("SELECT uid FROM member WHERE book = ? AND changed = ? AND uid <> ?",
                     book["id"], number, uid):
            raise Denied(STORE)

    def create_book(self):
        if self.rows("SELECT id FROM book WHERE name = 'new'"):
            refuse(2)
        count = self.rows("SELECT count(*) FROM book")[0][0]
        if count >= BOOKS_MAX:
            refuse(18)
        if self.rows("SELECT id FROM book WHERE id = ?", count + 1):
            raise Denied(STORE)
        return f"book {count + 1}"

    def put(self):
        book = self.find("staff")
        live = self.live(book, "ann")
        if live is None and book["cards"] >= CARDS_MAX:
            refuse(12)
        number = self.next(book)
        self.free(book, number, "ann")
        return f"{'created' if live is None else 'edited'} {number}"

    def leave(self, book):
        """Reads the book's keep, and what it needs, before a member is removed."""
        keeps = self.rows("SELECT keep FROM keeping WHERE book = ?", book["id"])
        if not keeps:
            raise Denied(STORE)
        natural(keeps[0][0])
        self.free(book, book["number"] + 1, "ann")

    def remove(self):
        book = self.find("staff")
        if self.live(book, "ann") is None:
            refuse(4)
        number = self.next(book)
        self.leave(book)
        return f"gone {number}"

    def move_card(self):
        book, other = self.find("staff"), self.find("clients")
        here, there = self.live(book, "ann"), self.live(other, "ann")
        if here is None:
            refuse(4)
        if there is not None:
            refuse(8)
        if other["cards"] >= CARDS_MAX:
            refuse(12)
        numbers = self.next(book), self.next(other)
        self.leave(book)
        self.free(other, numbers[1], "ann")
        return f"moved {numbers[0]} {numbers[1]}"

    def forget(self):
        book = self.find("staff")
        if not book["horizon"] <= 5 <= book["number"]:
            refuse(16)
        dropped = self.rows("SELECT count(*) FROM member WHERE book = ? AND card IS NULL AND "
                            "changed <= 5", book["id"])[0][0]
        return f"forgot {dropped}"

    def import_cards(self):
        """Imports Ann's card and Zoe's. Each uses a number unless it is there already."""
        book = self.find("staff")
        kept = self.kept(book, "k3")
        if kept:
            self.changes = False
            return kept
        found = [self.live(book, "ann"), self.live(book, "zoe")]
        added = found.count(None)
        number = book["number"] + 2
        if added and book["cards"] + added > CARDS_MAX:
            refuse(12)
        if number > CHANGES_MAX:
            refuse(13)
        self.free(book, number - 1, "ann")
        self.free(book, number, "zoe")
        return f"import {added} {2 - added} 0 {number}"


CALLS = [("create_book", Writer.create_book), ("put", Writer.put), ("remove", Writer.remove),
         ("move_card", Writer.move_card), ("forget", Writer.forget),
         ("import", Writer.import_cards), ("kept_import", Reader.kept_import), ("get", Reader.get),
         ("books", Reader.books), ("book", Reader.book), ("cards", Reader.cards),
         ("tally", Reader.tally), ("keep", Reader.keep), ("report", Reader.report),
         ("report with a token", lambda reader: reader.report((1, 0, 0)))]


def answers(statements):
    """Each call over tables of its own. Rows change exactly if a changing call isn't denied and isn't
    an import under a kept key."""
    lines = []
    for place, (name, call) in enumerate(CALLS):
        tables = in_memory(small_store())
        tables.run(statements)
        writer = Writer(tables)
        try:
            answer = call(writer)
            answer += ", rows changed" if place < 6 and writer.changes else ""
        except Denied as denied:
            answer = str(denied)
        lines.append(f"\n  {name}: {answer}")
    return "".join(lines)
