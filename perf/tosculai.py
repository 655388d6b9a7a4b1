"""Tosculai's server over a new file, and the requests of its clients."""

import os
import subprocess
from hashlib import sha256
from pathlib import Path
from urllib.parse import quote

from cards import card, uid
from server import Server
from wire import Failure, Wire

ROOT = Path(__file__).resolve().parent.parent
# The cards of the day are in the first book; some move to the second; the third is for an import.
BOOKS = ("staff", "clients", "imports")


def find_program():
    """The path of the program: what CONTACTS names, or else the program of `./contacts`."""
    program = os.environ.get("CONTACTS")
    if not program:
        # The launcher makes the program if it is not there, and then runs it on a card.
        subprocess.run([str(ROOT / "contacts")], input=card(0), stdout=subprocess.DEVNULL)
        program = ROOT / "crates/contacts/out/contacts"
    program = os.path.abspath(str(program))
    if not os.access(program, os.X_OK):
        raise Failure(f"no program at {program}")
    return program


def digest(program):
    """The program's SHA-256."""
    return sha256(Path(program).read_bytes()).hexdigest()


class Tosculai(Server):
    """The server over `office.db` in the folder, which is made if it is not there."""

    name = "Tosculai"

    def __init__(self, program, folder, before=()):
        """`before` is a command, as valgrind's, that runs the server."""
        self.program, self.file, self.before = program, Path(folder) / "office.db", list(before)
        if not self.file.exists():
            self.order("init", self.file)
            for book in BOOKS:
                self.order("book", self.file, book)

    def start(self, connections=None, more=()):
        """Starts the server with these further arguments, and returns once it listens. By then it
        has opened the file and tested all rows. With a number of connections it serves these, one
        after another, and ends."""
        order = ["run", str(self.file), "--port", "0", "--host", "office", *more]
        if connections:
            order = ["serve", str(self.file), "--connections", str(connections), *more]
        self.launch([*self.before, self.program, *order], stdout=subprocess.PIPE)
        port = self.process.stdout.readline().rpartition(b":")[2].strip()
        if not port.isdigit():
            raise Failure(f"the server of {self.file} did not start")
        self.wire = Wire(int(port))

    def room(self):
        """The octets of the file, and of its log."""
        log = Path(f"{self.file}-wal")
        return {"file": self.file.stat().st_size, "log": log.stat().st_size if log.exists() else 0}

    def put(self, number, edition=0, tag=None, alone=False):
        """Puts a card; with a tag, only if the card has this version."""
        condition = f"?version={tag}" if tag else ""
        self._ask("PUT", self._path(number) + condition, card(number, edition), alone)

    def get(self, number):
        """Gets a card, and returns its version."""
        return self._ask("GET", self._path(number)).rpartition(b":")[2].rstrip(b"}").decode()

    def delete(self, number):
        self._ask("DELETE", self._path(number))

    def move(self, number):
        self._ask("POST", self._path(number) + "/move?to=clients")

    def sync(self, token):
        """Asks for pages of 100 until one is not truncated. Returns the last token, and how
        many members all pages had."""
        members = 0
        while True:
            token, count, truncated = self.page(token)
            members += count
            if not truncated:
                return token, members

    def page(self, token=""):
        """Asks for one page. Returns its token, its number of members, and if it is truncated."""
        query = f"token={quote(token, safe='')}&limit=100"
        body = self._ask("GET", f"/books/staff/sync?{query}")
        # Quotes in a card's text are escaped: what looks like a key here is one.
        token = body.rpartition(b'"token":"')[2].partition(b'"')[0].decode()
        return token, body.count(b'"status":'), body.endswith(b'"truncated":true}')

    def tally(self):
        self._ask("GET", "/books/staff/tally")

    def export(self):
        """Exports the book, and returns how many cards that has."""
        return self._ask("GET", "/books/staff/export").count(b"BEGIN:VCARD")

    def load(self, rows, book="imports", key="day"):
        """Imports the rows."""
        self._ask("POST", f"/books/{book}/import?key={key}", rows)

    def miss(self):
        """Asks for a route that does not exist: the server does not look at its books for that."""
        self._ask("GET", "/none", wanted=(404,))

    def _path(self, number):
        return f"/books/staff/cards/{uid(number)}"

    def _ask(self, method, path, body=b"", alone=False, wanted=(200, 201)):
        status, _, body = self.wire.ask(method, path, body, alone=alone)
        if status not in wanted:
            raise Failure(f"{method} {path}: {status} {body[:200]!r}")
        return body

    def order(self, *arguments):
        """Runs an order of the program to its end."""
        command = [self.program, *map(str, arguments)]
        ended = subprocess.run(command, stdin=subprocess.DEVNULL, stdout=subprocess.DEVNULL)
        if ended.returncode:
            raise Failure(f"{' '.join(command)} failed")
