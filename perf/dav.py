"""The peers: CardDAV servers that Debian has, and the requests of a CardDAV client (RFC 6352)."""

import os
import re
import socket
import subprocess
import time

from cards import card, uid
from server import Server
from wire import PATIENCE, Failure, Wire, field

XML = b"Content-Type: application/xml\r\n"
PROPERTIES = b"<d:prop><d:getetag/><c:address-data/></d:prop>"
BOOK = (
    b"<d:set><d:prop><d:resourcetype><d:collection/><c:addressbook/></d:resourcetype></d:prop>"
    b"</d:set>"
)
HREF = re.compile(rb"<[^>/]*href[^>]*>([^<]*\.vcf)<")
TOKEN = re.compile(rb"<[^>/]*sync-token[^>]*>([^<]*)<")


def xml(name, content):
    """A request's body: one element of this name."""
    return (
        b'<?xml version="1.0"?>'
        b'<%s xmlns:d="DAV:" xmlns:c="urn:ietf:params:xml:ns:carddav">%s</%s>'
        % (name, content, name)
    )


def free_port():
    with socket.socket() as it:
        it.bind(("127.0.0.1", 0))
        return it.getsockname()[1]


class Peer(Server):
    """A CardDAV server over a folder, with two address books. The day is about the first one."""

    fields = b""

    def __init__(self, folder):
        self.folder = str(folder)
        self.has_books = False

    def start(self):
        """Starts the server, and returns once it accepts connections."""
        port = free_port()
        self.launch(self.command(port), stdout=subprocess.DEVNULL, stderr=subprocess.DEVNULL)
        self._await(port)
        self.wire = Wire(port, self.fields)
        if not self.has_books:
            for book in (self.book, self.other):
                self._ask("MKCOL", book, xml(b"d:mkcol", BOOK), XML)
            self.has_books = True

    def room(self):
        """The octets of the disk's blocks that the files of the folder fill."""
        folders = os.walk(self.folder)
        paths = [os.path.join(folder, file) for folder, _, files in folders for file in files]
        return {"file": sum(os.stat(path).st_blocks for path in paths) * 512}

    def put(self, number, edition=0, tag=None, alone=False):
        """Puts a card; with a tag, only if the card has this one."""
        fields = b"Content-Type: text/vcard\r\n" + (b"If-Match: %s\r\n" % tag if tag else b"")
        self._ask("PUT", self._path(number), card(number, edition), fields, alone)

    def get(self, number):
        """Gets a card, and returns its tag."""
        return field(self._ask("GET", self._path(number))[0], b"etag")

    def delete(self, number):
        self._ask("DELETE", self._path(number))

    def sync(self, token):
        """Asks what changed, and then for the cards if the first reply has none. Returns the
        new token, and how many cards it got."""
        since = b"<d:sync-token>%s</d:sync-token><d:sync-level>1</d:sync-level>" % token.encode()
        report = xml(b"d:sync-collection", since + PROPERTIES)
        _, changes = self._ask("REPORT", self.book, report, XML + b"Depth: 0\r\n")
        cards, paths = changes, HREF.findall(changes)
        if paths and b"BEGIN:VCARD" not in changes:
            hrefs = b"".join(b"<d:href>%s</d:href>" % path for path in paths)
            report = xml(b"c:addressbook-multiget", PROPERTIES + hrefs)
            _, cards = self._ask("REPORT", self.book, report, XML + b"Depth: 1\r\n")
        new = TOKEN.search(changes)
        if new is None:
            raise Failure(f"a report without a token: {changes[:200]!r}")
        return new[1].decode(), cards.count(b"BEGIN:VCARD")

    def _path(self, number):
        return f"{self.book}{uid(number)}.vcf"

    def _ask(self, method, path, body=b"", fields=b"", alone=False):
        status, head, body = self.wire.ask(method, path, body, fields, alone)
        if not 200 <= status < 300:
            raise Failure(f"{method} {path}: {status} {body[:200]!r}")
        return head, body

    def _await(self, port):
        end = time.monotonic() + PATIENCE
        while time.monotonic() < end and self.process.poll() is None:
            try:
                socket.create_connection(("127.0.0.1", port), timeout=PATIENCE).close()
                return
            except ConnectionRefusedError:
                time.sleep(0.002)
        raise Failure(f"{self.name} did not start")


class Radicale(Peer):
    name, book, other = "Radicale", "/me/staff/", "/me/clients/"
    # A user's name is needed, and with this configuration any password is right.
    fields = b"Authorization: Basic bWU6bWU=\r\n"

    def command(self, port):
        path = os.path.join(self.folder, "config")
        with open(path, "w", encoding="utf-8") as file:
            file.write(
                f"[server]\nhosts = 127.0.0.1:{port}\n"
                "[auth]\ntype = none\n"
                "[rights]\ntype = authenticated\n"
                f"[storage]\nfilesystem_folder = {self.folder}/collections\n"
            )
        return ["radicale", "--config", path]

    def move(self, number):
        target = f"Destination: http://office{self.other}{uid(number)}.vcf\r\n"
        self._ask("MOVE", self._path(number), fields=target.encode())


class Xandikos(Peer):
    # It has no MOVE.
    name, book, other = "Xandikos", "/me/contacts/staff/", "/me/contacts/clients/"

    def command(self, port):
        return [
            *["xandikos", "--directory", self.folder, "--listen-address", "127.0.0.1"],
            *["--port", str(port), "--defaults", "--current-user-principal", "/me/"],
        ]
