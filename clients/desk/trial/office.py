"""An office to try the desk in: the server, nginx before it with examples/nginx.conf, and cards."""

import base64
import hashlib
import http.client
import json
import re
import shutil
import socket
import ssl
import subprocess
import sys
import tempfile
import time
import urllib.parse
from pathlib import Path

ROOT = Path(__file__).resolve().parents[3]
SITE = ROOT / "clients/desk/site"
PYTHON = ROOT / "clients/python"
DESK = "    # The desk: without it,"  # before which an office has the versions of cards
HEARD = "log_format heard '$status $remote_user $request_method $request_uri';"
USERS = ("admin", "ann", "bob", "hall")


def free_port():
    with socket.socket() as it:
        it.bind(("127.0.0.1", 0))
        return it.getsockname()[1]


def card(uid, *lines):
    return "\r\n".join(["BEGIN:VCARD", "VERSION:4.0", f"UID:{uid}", *lines, "END:VCARD", ""])


def uid_path(uid):
    return urllib.parse.quote(uid, safe="")


def rows(cards):
    """Cards as an import has them."""
    quoted = (text.replace('"', '""') for text in cards)
    return "uid,vcard\n" + "".join(f',"{text}"\n' for text in quoted)


class Office:
    """`front` is the address that browsers use; `ask` is curl's part, without nginx."""

    def __init__(self, program):
        self.program = program
        self.holder = tempfile.TemporaryDirectory(prefix="desk-office-")
        self.folder = Path(self.holder.name)
        self.file = self.folder / "office.db"
        self.memory = self.folder / "memory"
        self.site = self.folder / "site"
        shutil.copytree(SITE, self.site)
        self.nginx = None
        self.server = None
        self.socket = self.folder / "office.sock"
        self.front_port = free_port()
        self.front = f"https://127.0.0.1:{self.front_port}/"
        self.begin()
        self.certificate()
        self.configure()
        self.serve()
        self.open()

    def begin(self):
        """Makes the file, with two books."""
        self.order("init", self.file)
        for book in ("staff", "clients"):
            self.order("book", self.file, book)

    def order(self, *words):
        subprocess.run([self.program, *map(str, words)], check=True, stdout=subprocess.DEVNULL)

    def certificate(self):
        key, pem = self.folder / "office.key", self.folder / "office.pem"
        subprocess.run(
            ["openssl", "req", "-x509", "-newkey", "ec", "-pkeyopt", "ec_paramgen_curve:P-256",
             "-nodes", "-keyout", key, "-out", pem, "-days", "2", "-subj", "/CN=office",
             "-addext", "subjectAltName=IP:127.0.0.1"],
            check=True, stderr=subprocess.DEVNULL,
        )
        public = subprocess.run(
            ["openssl", "pkey", "-in", key, "-pubout", "-outform", "DER"],
            check=True, stdout=subprocess.PIPE,
        ).stdout
        self.spki = base64.b64encode(hashlib.sha256(public).digest()).decode()

    def configure(self):
        """examples/nginx.conf with this office's ports and paths, and nothing else changed."""
        users = self.folder / "users"
        lines = []
        for user in USERS:
            digest = subprocess.run(
                ["openssl", "passwd", "-apr1", f"{user}-pw"],
                check=True, stdout=subprocess.PIPE, text=True,
            ).stdout.strip()
            lines.append(f"{user}:{digest}\n")
        users.write_text("".join(lines))
        text = (ROOT / "examples/nginx.conf").read_text()
        for old, new in (
            ("listen 443 ssl", f"listen 127.0.0.1:{self.front_port} ssl"),
            ("/etc/ssl/office", f"{self.folder}/office"),
            ("/etc/nginx/contacts.users", str(users)),
            ("/run/tosculai/office.sock", str(self.socket)),
            ("/usr/local/share/tosculai/desk", str(self.site)),
        ):
            if old not in text:
                raise AssertionError(f"examples/nginx.conf has no {old}")
            text = text.replace(old, new)
        text = text.replace(DESK, "".join(map(self.handing_out, ("staff", "clients"))) + DESK)
        temporary = "".join(
            f"{kind}_temp_path {self.folder}/{kind};\n"
            for kind in ("client_body", "proxy", "fastcgi", "uwsgi", "scgi")
        )
        (self.folder / "nginx.conf").write_text(
            f"user root;\ndaemon off;\npid {self.folder}/pid;\nerror_log {self.folder}/error.log;\n"
            "events {}\nhttp {\ninclude /etc/nginx/mime.types;\n"
            f"{HEARD} access_log {self.folder}/access.log heard;\n{temporary}{text}}}\n"
        )

    def heard(self):
        """What nginx was asked: the status, the user, the method and the target of each."""
        return (self.folder / "access.log").read_text().splitlines()

    def handing_out(self, book):
        """docs/CLIENTS.md's lines that hand out a book's versions, with this office's paths."""
        block, = re.findall(r"```nginx\n(.*?)```", (ROOT / "docs/CLIENTS.md").read_text(), re.S)
        block = block.replace("/var/lib/tosculai-follow", str(self.memory))
        return block.replace("/staff/", f"/{book}/")

    def remember(self):
        """One round of `follow`: the versions of cards that are there by now are kept."""
        subprocess.run(
            [sys.executable, PYTHON / "follow.py", f"unix:{self.socket}", self.memory, "--once",
             "--dated"],
            check=True, stdout=subprocess.DEVNULL,
        )

    def serve(self):
        self.server = subprocess.Popen(
            [self.program, "run", self.file, "--socket", str(self.socket)],
            stdout=subprocess.PIPE,
        )
        self.server.stdout.readline()

    def stop(self):
        self.server.kill()
        self.server.wait()

    def open(self):
        """Starts nginx."""
        self.nginx = subprocess.Popen(["nginx", "-c", self.folder / "nginx.conf"])
        for _ in range(100):
            try:
                self.request("GET", "/")
                return
            except OSError:
                time.sleep(0.1)
        raise AssertionError("nginx doesn't listen")

    def shut(self):
        """Stops nginx: the network is gone, for a browser."""
        self.nginx.terminate()
        self.nginx.wait()

    def reopen(self):
        """Starts nginx if it is stopped."""
        if self.nginx.poll() is not None:
            self.open()

    def close(self):
        for process in (self.nginx, self.server):
            if process.poll() is None:
                process.terminate()
                process.wait()
        self.holder.cleanup()

    def request(self, method, path, body=None, user="admin"):
        """Through nginx: the status, the head and the body."""
        context = ssl._create_unverified_context()
        connection = http.client.HTTPSConnection(
            "127.0.0.1", self.front_port, context=context, timeout=70,
        )
        word = base64.b64encode(f"{user}:{user}-pw".encode()).decode()
        connection.putrequest(method, path, skip_host=False, skip_accept_encoding=True)
        connection.putheader("Authorization", f"Basic {word}")
        data = body.encode() if isinstance(body, str) else body
        if data is not None:
            connection.putheader("Content-Length", str(len(data)))
        connection.endheaders(data)
        reply = connection.getresponse()
        text = reply.read()
        connection.close()
        return reply.status, dict(reply.getheaders()), text

    def ask(self, method, path, body=None, user="admin"):
        """The same with a JSON body; a refusal is an error."""
        status, _, text = self.request(method, f"/books{path}", body, user)
        if status >= 400:
            raise AssertionError(f"{method} {path}: {status} {text[:300]}")
        return json.loads(text)

    def put(self, book, uid, text):
        return self.ask("PUT", f"/{book}/cards/{uid_path(uid)}", text)

    def ask_aside(self, method, path, body=None):
        """The same behind nginx's back: as from a place where the network is there."""
        connection = http.client.HTTPConnection("127.0.0.1", timeout=70)
        connection.sock = socket.socket(socket.AF_UNIX)
        connection.sock.settimeout(70)
        connection.sock.connect(str(self.socket))
        connection.request(method, f"/books{path}", None if body is None else body.encode())
        reply = connection.getresponse()
        text = reply.read().decode()
        connection.close()
        if reply.status >= 400:
            raise AssertionError(f"{method} {path}: {reply.status} {text[:300]}")
        return json.loads(text)

    def put_aside(self, book, uid, change):
        """Changes a card behind nginx's back."""
        path = f"/{book}/cards/{uid_path(uid)}"
        self.ask_aside("PUT", path, change(self.ask_aside("GET", path)["card"]))

    def order_book(self, book):
        self.ask("PUT", f"/{book}")

    def card(self, book, uid):
        return self.ask("GET", f"/{book}/cards/{uid_path(uid)}")

    def fill(self, book, cards):
        """Imports cards, as many at a time as an import may have."""
        all_cards = list(cards)
        for at in range(0, len(all_cards), 4000):
            part = rows(all_cards[at:at + 4000])
            self.ask("POST", f"/{book}/import?key=k{at}-{time.time_ns()}", part)


def logical(text):
    """The card's lines, unfolded."""
    return re.sub(r"\r?\n[ \t]", "", text).split("\r\n")
