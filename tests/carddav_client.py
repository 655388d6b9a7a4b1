"""What the tests of clients/carddav need: a server and a gateway, and a client that sends anything.

The client knows no more of the gateway than a phone does: it reads replies by the RFCs.
"""

import base64
import os
import re
import shutil
import signal
import subprocess
import sys
import time
import unittest
import xml.etree.ElementTree as ET
from http.client import HTTPConnection, HTTPException
from urllib.parse import quote, unquote

import resynced
from program import PATIENCE, ROOT, Folder, Server, free_port, processor_time, run
from python_client import office

FOLDER = ROOT / "clients/carddav"
sys.path.insert(0, str(FOLDER))
from gateway import accounts  # noqa: E402 (it is found by the line before)
from tosculai_urls import UnixConnection  # noqa: E402

D, C, CS = "{DAV:}", "{urn:ietf:params:xml:ns:carddav}", "{http://calendarserver.org/ns/}"
SPACES = ('xmlns:D="DAV:" xmlns:C="urn:ietf:params:xml:ns:carddav"'
          ' xmlns:CS="http://calendarserver.org/ns/"')
SPARE = 10  # seconds after which a client opens a new connection: the gateway closes silent ones
PASSWORD = "a pässword: long"
# The hash takes 50 ms, so it is made once for all users of all tests in a process.
HASH = accounts.hashed(PASSWORD, "salt")
USERS = {"ann": {"*": "rw"}, "bob": {"staff": "rw"}, "hall": {"staff": "r"}}
STAFF, CLIENTS = "/dav/books/staff/", "/dav/books/clients/"
CATEGORIES = {**USERS, "cat": accounts.Account(HASH, {"*": "rw"}, True)}


class Reply:
    """A reply, as a client reads it."""

    def __init__(self, status, fields, body):
        self.status, self.fields, self.body = status, fields, body

    def __repr__(self):
        return f"{self.status} {dict(self.fields)} {self.body[:2000]!r}"

    @property
    def text(self):
        return self.body.decode()

    @property
    def etag(self):
        return self.fields["ETag"]

    @property
    def xml(self):
        return ET.fromstring(self.body)

    @property
    def token(self):
        return self.xml.findtext(D + "sync-token")

    @property
    def reason(self):
        """The name of the precondition's element, and whether there are words for a person."""
        root = self.xml
        names = [it.tag.partition("}")[2] for it in root]
        return names[0], bool(root[-1].text)

    def all(self):
        """By path: the status of a response, and the properties that it has."""
        found = {}
        for response in self.xml.findall(D + "response"):
            props = {}
            for part in response.findall(D + "propstat"):
                if part.findtext(D + "status") == "HTTP/1.1 200 OK":
                    props.update((it.tag, it) for it in part.find(D + "prop"))
            status = response.findtext(D + "status") or "HTTP/1.1 200 OK"
            path = unquote(response.findtext(D + "href"))
            assert path not in found, f"{path} comes twice"
            found[path] = int(status.split()[1]), props
        return found

    def etags(self):
        return {path: props[D + "getetag"].text for path, (status, props) in self.all().items()
                if D + "getetag" in props}

    def cards(self):
        """The texts of cards by path."""
        return {path: props[C + "address-data"].text for path, (status, props)
                in self.all().items() if C + "address-data" in props}

    def statuses(self):
        return {path: status for path, (status, _) in self.all().items()}

    def prop(self, path, tag):
        return self.all()[path][1][tag]

    def href(self, tag):
        """The path within the only property of this name."""
        return self.xml.findtext(f".//{tag}/{D}href")


class Client:
    """A program with a user, over one connection that it opens again."""

    def __init__(self, place, user="ann", password=PASSWORD, program="Test/1.0"):
        self.place, self.connection, self.used = place, None, 0
        pair = base64.b64encode(f"{user}:{password}".encode()).decode()
        self.fields = {"Authorization": "Basic " + pair, "User-Agent": program}

    def connect(self):
        if isinstance(self.place, str):
            return UnixConnection(self.place, timeout=PATIENCE)
        return HTTPConnection(*self.place, timeout=PATIENCE)

    def ask(self, method, path, body=b"", **fields):
        named = {name.replace("_", "-"): it for name, it in fields.items() if it is not None}
        octets = body.encode() if isinstance(body, str) else body
        if time.monotonic() - self.used > SPARE:
            self.close()
        self.connection = self.connection or self.connect()
        try:
            self.connection.request(method, path, octets, {**self.fields, **named})
            reply = self.connection.getresponse()
            whole = Reply(reply.status, reply.headers, reply.read())
        except (OSError, HTTPException):
            self.close()
            raise
        self.used = time.monotonic()
        if reply.will_close:
            self.close()
        return whole

    def close(self):
        if self.connection:
            self.connection.close()
        self.connection = None

    def propfind(self, path, props, depth="0", **fields):
        return self.ask("PROPFIND", path, f"<D:propfind {SPACES}><D:prop>{props}</D:prop>"
                        "</D:propfind>", Depth=depth, Content_Type="text/xml", **fields)

    def report(self, path, name, inside, depth=None):
        return self.ask("REPORT", path, f'<?xml version="1.0" encoding="utf-8"?>\n<{name} {SPACES}>'
                        f"{inside}</{name}>", Content_Type="application/xml; charset=utf-8",
                        Depth=depth)

    def sync(self, path, token="", limit=None, props="<D:getetag/>"):
        most = "" if limit is None else f"<D:limit><D:nresults>{limit}</D:nresults></D:limit>"
        return self.report(path, "D:sync-collection", f"<D:sync-token>{token}</D:sync-token>"
                           f"<D:sync-level>1</D:sync-level>{most}<D:prop>{props}</D:prop>")

    def multiget(self, path, paths, data="<C:address-data/>"):
        hrefs = "".join(f"<D:href>{quote(it)}</D:href>" for it in paths)
        return self.report(path, "C:addressbook-multiget",
                           f"<D:prop><D:getetag/>{data}</D:prop>{hrefs}")

    def query(self, path, inside, data="", limit=""):
        return self.report(path, "C:addressbook-query",
                           f"<D:prop><D:getetag/>{data}</D:prop>{inside}{limit}", depth="1")


class Stack:
    """A server and a gateway over a folder; each may be killed and started again."""

    def __init__(self, folder, users=None, more=(), books=("staff", "clients"), socket=False):
        self.folder, self.more = folder, list(more)
        # Both are started again at the places that they had.
        self.place = str(folder / "gateway.sock") if socket else ("127.0.0.1", free_port())
        self.port = free_port()
        run("init", folder / "office.db")
        self.server = Server(folder / "office.db", port=self.port)
        self.url = f"http://127.0.0.1:{self.port}"
        self.office = office(self.server)
        self.books = [self.office.create(it) for it in books]
        self.state = folder / "state"
        self.state.mkdir()
        accounts.write(str(self.state / "users"), {
            name: rights if isinstance(rights, accounts.Account) else accounts.Account(HASH, rights)
            for name, rights in (USERS if users is None else users).items()})
        self.gateway = None
        self.start()

    def start(self):
        where = ["--socket", self.place] if isinstance(self.place, str) else \
            ["--port", self.place[1]]
        self.log = open(self.folder / "log", "ab")
        self.gateway = subprocess.Popen(
            [sys.executable, str(FOLDER / "carddav"), "--server", self.url, "--state",
             str(self.state), *map(str, where), *self.more],
            stdin=subprocess.DEVNULL, stdout=subprocess.PIPE, stderr=self.log)
        line = self.gateway.stdout.readline().decode()
        if not line.startswith("listening "):
            raise AssertionError(f"no gateway: {line}{self.logged()}")

    def logged(self):
        return (self.folder / "log").read_text()

    def kill_gateway(self):
        self.gateway.send_signal(signal.SIGKILL)
        self.gateway.wait(PATIENCE)
        self.gateway.stdout.close()
        self.log.close()

    def restart(self):
        self.kill_gateway()
        self.start()

    def start_server(self):
        self.server = Server(self.folder / "office.db", port=self.port)

    def restart_server(self):
        self.server.kill()
        self.start_server()

    def stop(self):
        self.kill_gateway()
        self.server.kill()

    # Restores.

    FILES = ("office.db", "office.db-wal")

    def back_up(self):
        """Keeps the server's file as it is."""
        self.server.kill()
        for name in self.FILES:
            if (self.folder / name).exists():
                shutil.copy(self.folder / name, self.folder / f"old-{name}")
        self.start_server()

    def restore(self):
        """Puts the kept file back, and starts nothing."""
        self.server.kill()
        for name in self.FILES:
            (self.folder / name).unlink(missing_ok=True)
            if (self.folder / f"old-{name}").exists():
                shutil.copy(self.folder / f"old-{name}", self.folder / name)

    def resync(self):
        """Makes all devices start again, and starts the server, which has been stopped or not."""
        self.server.kill()
        resynced.resync(self.folder / "office.db")
        self.start_server()

    def memory(self):
        """The most memory that the gateway has had, in octets."""
        with open(f"/proc/{self.gateway.pid}/status", encoding="ascii") as file:
            return int(re.search(r"VmHWM:\s+(\d+) kB", file.read())[1]) * 1024

    def processor_time(self):
        """The seconds of processors that the gateway has had."""
        return processor_time(self.gateway.pid)

    def client(self, user="ann", **more):
        return Client(self.place, user, **more)


class GatewayTest(unittest.TestCase):
    """Tests with a gateway that all tests of the class share."""

    more, users, socket = (), None, False

    @classmethod
    def setUpClass(cls):
        cls.held = Folder(in_memory=True)
        folder = cls.held.__enter__()
        cls.stack = Stack(folder, cls.users, cls.more, socket=cls.socket)
        cls.staff, cls.clients = cls.stack.books

    @classmethod
    def tearDownClass(cls):
        cls.stack.stop()
        cls.held.__exit__(None, None, None)

    def setUp(self):
        self.dav = self.stack.client()
        self.addCleanup(self.dav.close)
        for book in self.stack.books:
            for member in self.members(book):
                book.remove(member)

    def members(self, book):
        token, more, found = "", True, set()
        while more:
            page = book.page(token)
            found |= {it.uid for it in page.members if it.version}
            token, more = page.token, page.truncated
        return found


def card3(uid, name, *lines):
    """A card as a phone writes it."""
    whole = ["BEGIN:VCARD", "VERSION:3.0", f"UID:{uid}", f"FN:{name}", f"N:{name};;;;", *lines,
             "END:VCARD", ""]
    return "\r\n".join(whole)


if __name__ == "__main__":
    os.abort()
