"""What writers and devices ask of a server, drawn from a seed.

`Drawing` gives the requests of writers: every command of docs/API.md, over so few books and UIDs
that edits, removals, new cards of a removed UID, moves, conflicts and refusals come by themselves.
`Copy` is a device: it knows the JSON of pages and the rules of RFC 6578 for members and tokens.
Both look at requests and replies alone, and know neither the model nor the program.
"""

import csv
import io
import json
import random
from urllib.parse import quote, urlencode

from http_requests import SYNC, card, request

BOOKS = ["staff", "clients", "desk"]
ELSEWHERE = ["lent", "nowhere"]  # books that aren't there at first, or ever
NAMES = ["Ann", "Bob Low", "Zoë Ångström", "山田 太郎", "Mc\\, Kay\\; Jr"]
UIDS = ["a", "b", "c", "team", "all", "é/x", "o p%", "urn:uuid:7f", "7f", "q+&?#"]

# Lines of cards, of each kind that a reader has to treat in its own way.
LINES = [
    ["TEL;VALUE=uri;TYPE=\"voice,home\":tel:+1-555-555-5555;ext=5555"],
    ["item1.EMAIL;TYPE=work;PREF=1:ann@example.test", "item1.X-Label:at work"],
    ["N:Low;Bob;;;", "ORG:Acme\\, Inc.;Sales", "tel:12"],
    ["NOTE:a fold\r\n  in a line\r\n\tand another", "note:a second one"],
    ["NOTE:" + "Straße " * 40],
    ["KIND:org", "NOTE:line\\none\\, \\\\ and \"quotes\""],
    [],
]

# Texts that are no card of the UID `a`, one for each cause of the refusal.
NO_CARDS = [
    b"BEGIN:VCARD\nVERSION:4.0\nUID:a\nFN:\xff\nEND:VCARD\n",
    b"BEGIN:VCARD\nVERSION:4.0\nUID:a\nFN:A\x01\nEND:VCARD\n",
    b"BEGIN:VCARD\nVERSION:4.0\nUID:a\nFN Ann\nEND:VCARD\n",
    b"VERSION:4.0\nUID:a\nFN:Ann\nEND:VCARD\n",
    b"BEGIN:VCARD\nVERSION:3.0\nUID:a\nFN:Ann\nEND:VCARD\n",
    b"BEGIN:VCARD\nVERSION:4.0\nUID:a\nFN:Ann\n",
    b"BEGIN:VCARD\nVERSION:4.0\nUID:a\nEND:VCARD\n",
    b"BEGIN:VCARD\nVERSION:4.0\nFN:Ann\nEND:VCARD\n",
    b"BEGIN:VCARD\nVERSION:4.0\nUID:\nFN:Ann\nEND:VCARD\n",
    b"BEGIN:VCARD\nVERSION:4.0\nUID:a\nFN:Ann\nUID:a\nEND:VCARD\n",
    b"BEGIN:VCARD\nVERSION:4.0\nUID:a\nFN:Ann\nMEMBER:b\nEND:VCARD\n",
    b"",
]

# Rows that are refused, below a header of eight fields: each with its own cause.
NO_ROWS = [
    ["a", "Ann"],
    ["a", "", "", "", "", "", "", ""],
    ["a\tb", "Ann", "", "", "", "", "", ""],
    ["a", "Ann\x02", "", "", "", "", "", ""],
]

HEADER = ["uid", "fn", "family", "given", "email", "tel", "org", "note"]

# Requests that are no command, or one with a wrong query; none of them ends its connection.
NO_COMMANDS = [
    ("GET", "/nothing"),
    ("GET", "/books/staff/cards//people"),
    ("DELETE", "/books/staff"),
    ("POST", "/books/staff/cards/a"),
    ("GET", "/books/%FF/tally"),
    ("GET", "/books/staff/sync?limit=1&limit=2"),
    ("GET", "/books/staff/export?form=xml"),
    ("PUT", "/books/staff/cards/a?version=1e3"),
    ("POST", "/books/staff/import"),
    ("POST", "/books/staff/forget?upto="),
]


def path(*parts, **query):
    """A target: the parts below `/books`, and the query's names whose value is not None."""
    whole = "/".join(["/books", *(quote(part, safe="") for part in parts)])
    asked = {name: value for name, value in query.items() if value is not None}
    return whole + ("?" + urlencode(asked) if asked else "")


def csv_text(rows, end="\n"):
    """Rows as RFC 4180 writes them."""
    out = io.StringIO(newline="")
    csv.writer(out, lineterminator=end).writerows(rows)
    return out.getvalue().encode()


def parts_of(reply):
    """A reply's status, and the value of its body if that is JSON, else the body's octets."""
    head, _, body = reply.partition(b"\r\n\r\n")
    is_json = b"application/json" in head
    return int(head.split(b" ")[1]), json.loads(body.decode()) if is_json else body


class Drawing:
    """Requests of writers, each drawn with the weight of its kind."""

    KINDS = {
        "put": 30, "remove": 18, "move": 14, "import_rows": 6, "forget": 2, "get": 4, "report": 8,
        "tally": 6, "export": 3, "people": 6, "list_books": 1, "create": 2, "no_command": 3,
    }
    FRESH = 0.7  # the share of the cards that differ from each earlier one
    ROWS = (0, 6)  # the least and the greatest number of an import's rows
    WRONG = 0.06  # the share of the books, bodies and keys that are to be refused

    def __init__(self, seed, books=BOOKS, uids=UIDS):
        self.random = random.Random(seed)
        self.books, self.uids = books, uids
        self.drawn = 0
        self.place = "", ""  # the book and the UID of the last request
        self.to = ""  # where the last move went
        self.versions = {}  # by book and UID, as a reply gave it last, or 0
        self.tokens = ["", SYNC + "1/07/7"]
        self.texts = {}  # the last card drawn for a UID

    def draw(self):
        self.drawn += 1
        kinds, weights = zip(*self.KINDS.items())
        kind = self.random.choices(kinds, weights)[0]
        book = self.random.choice(ELSEWHERE if self.chance(self.WRONG) else self.books)
        self.place = book, self.random.choice(self.uids_for(kind, book))
        return getattr(self, kind)(*self.place)

    def uids_for(self, kind, book):
        """Any UIDs, or those of cards that are most likely there, if the command needs one. A
        move needs one that no other book has."""
        if kind not in ("remove", "move", "people") or self.chance(0.2):
            return self.uids
        fit = [uid for uid in self.uids if self.versions.get((book, uid))]
        if kind == "move":
            others = [it for it in self.books if it != book]
            fit = [uid for uid in fit if not any(self.versions.get((it, uid)) for it in others)]
        return fit or self.uids

    def learn(self, reply):
        """Keeps what a client would keep of the reply to the last request: versions and tokens."""
        _, body = parts_of(reply)
        if not isinstance(body, dict):
            return
        book, uid = self.place
        if "from" in body:
            self.versions[book, uid] = 0
            self.versions[self.to, uid] = body["version"]
        elif "version" in body or list(body) == ["number"]:
            # A removal's reply has its number alone.
            self.versions[book, uid] = body.get("version", 0)
        for member in body.get("members", []):
            self.versions[book, member["uid"]] = member.get("version", 0)
        if "token" in body:
            self.tokens = self.tokens[-10:] + [body["token"]]

    def chance(self, part):
        return self.random.random() < part

    def expectation(self, book, uid):
        """An expected version: mostly none, else the one that a reply had, or any."""
        if self.chance(0.6):
            return None
        known = self.versions.get((book, uid), 0)
        return self.random.choice([known] * 6 + [0, known + 1, self.drawn])

    # Cards.

    def lines(self, uid):
        """A card's lines after its name. Two of the UIDs are groups, mostly."""
        if self.chance(0.8 if uid in ("team", "all") else 0.05):
            named = self.random.choices([*self.uids, "nobody"], k=self.random.randrange(5))
            before = self.random.choice(["MEMBER:", "MEMBER:urn:uuid:"])
            return ["KIND:group", *(before + uid for uid in named)]
        # A note is long now and then.
        long = ["NOTE:" + "sixty thousand octets " * 2730]
        return long if self.chance(0.01) else self.random.choice(LINES)

    def text(self, uid):
        """A card's text, in one of the spellings that a reader accepts."""
        if uid not in self.texts or self.chance(self.FRESH):
            name = "%s %d" % (self.random.choice(NAMES), self.drawn)
            self.texts[uid] = card(uid, name, *self.lines(uid)).encode()
        whole = self.texts[uid]
        if self.chance(0.3):
            whole = whole.replace(b"\r\n", b"\n")
        if self.chance(0.1):
            whole = b"\xef\xbb\xbf" + whole.rstrip(b"\r\n")
        return whole

    # Commands that change a book.

    def put(self, book, uid):
        body = self.text(uid)
        if self.chance(self.WRONG):
            body = self.random.choice(NO_CARDS + [self.text("another")] * 4)
        return request("PUT", path(book, "cards", uid, version=self.expectation(book, uid)), body)

    def remove(self, book, uid):
        return request("DELETE", path(book, "cards", uid, version=self.expectation(book, uid)))

    def move(self, book, uid):
        others = [it for it in self.books if it != book]
        self.to = self.random.choice([*others * 6, *ELSEWHERE, book])
        version = self.expectation(book, uid)
        return request("POST", path(book, "cards", uid, "move", to=self.to, version=version))

    def import_rows(self, book, _):
        key = "k%d" % (self.drawn if self.chance(0.8) else self.random.randrange(self.drawn))
        if self.chance(self.WRONG):
            key = self.random.choice(["k/3", "", "k" * 65])
        return request("POST", path(book, "import", key=key), self.rows())

    def rows(self):
        uids = self.random.sample(self.uids, self.random.randint(*self.ROWS))
        if self.chance(0.5):
            rows = [["uid", "vcard"], *([uid, self.text(uid).decode()] for uid in uids)]
        else:
            rows = [HEADER, *map(self.columns, uids)]
        if self.chance(self.WRONG * 4):
            rows.append(self.random.choice(NO_ROWS + rows))
        return csv_text(rows, self.random.choice(["\n", "\r\n"]))

    def columns(self, uid):
        name = self.random.choice(["Lee, Pat", 'Q "Quick" Un', "Ünal;\\", "two\r\nlines"])
        family, note = self.random.choice(["", "Lee"]), "drawn as number %d" % self.drawn
        return [uid, name, family, "", "p@example.test", "", "A;B", note]

    def forget(self, book, _):
        seen = [version for (its, _), version in self.versions.items() if its == book]
        upto = self.random.choice([*seen[-3:], 0, self.drawn])
        return request("POST", path(book, "forget", upto=upto))

    def create(self, *_):
        name = self.random.choice(["lent", *self.books, "Staff", "a" * 41, "o p"])
        return request("PUT", path(name))

    # Commands that change nothing.

    def get(self, book, uid):
        return request("GET", path(book, "cards", uid))

    def people(self, book, uid):
        return request("GET", path(book, "cards", uid, "people"))

    def report(self, book, _):
        token = self.random.choice([None, *self.tokens])
        limit = self.random.choice([None, 0, 1, 2, 3, 100])
        return request("GET", path(book, "sync", token=token, limit=limit))

    def tally(self, book, _):
        return request("GET", path(book, "tally"))

    def export(self, book, _):
        form = self.random.choice([None, "cards", "columns"])
        return request("GET", path(book, "export", form=form))

    def list_books(self, *_):
        return request("GET", path())

    def no_command(self, *_):
        return request(*self.random.choice(NO_COMMANDS))


class Copy:
    """A device: its copy of a book, which is a version and a text by UID, and perhaps a token."""

    def __init__(self, book):
        self.book, self.token, self.members = book, "", {}

    def ask(self, limit=None):
        return request("GET", path(self.book, "sync", token=self.token or None, limit=limit))

    def hear(self, reply, whole=True):
        """Applies a page and returns it. A page that is applied in part leaves the old token, and a
        token that is refused is given up; both return None."""
        status, page = parts_of(reply)
        if status == 403:
            self.token = ""
            return None
        if not self.token:
            self.members = {}
        members = page["members"] if whole else page["members"][:len(page["members"]) // 2]
        for member in members:
            self.members.pop(member["uid"], None)
            if member["status"] == 200:
                self.members[member["uid"]] = member["version"], member["card"]
        if not whole:
            return None
        self.token = page["token"]
        return page
