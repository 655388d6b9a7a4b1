"""What both browsers have in common: a process, a socket to it, and the desks in it."""

import base64
import json
import os
import shutil
import socket
import struct
import subprocess
import tempfile
import time
from pathlib import Path

from pages import Page

INVERSE = bytes(range(255, -1, -1))
STARTS = 900  # tenths of a second


class Socket:
    """A WebSocket (RFC 6455), as far as a client of DevTools needs one."""

    def __init__(self, port, path):
        self.stream = socket.create_connection(("127.0.0.1", port))
        key = base64.b64encode(os.urandom(16)).decode()
        self.stream.sendall(
            f"GET {path} HTTP/1.1\r\nHost: 127.0.0.1:{port}\r\nUpgrade: websocket\r\n"
            f"Connection: Upgrade\r\nSec-WebSocket-Key: {key}\r\n"
            "Sec-WebSocket-Version: 13\r\n\r\n".encode()
        )
        self.file = self.stream.makefile("rb")
        status = self.file.readline()
        if b" 101 " not in status:
            raise RuntimeError(f"no WebSocket: {status!r}")
        while self.file.readline() not in (b"\r\n", b""):
            pass

    def send(self, text):
        data = text.encode()
        size = len(data)
        if size < 126:
            head = struct.pack("!BB", 0x81, 0x80 | size)
        elif size < 65536:
            head = struct.pack("!BBH", 0x81, 0x80 | 126, size)
        else:
            head = struct.pack("!BBQ", 0x81, 0x80 | 127, size)
        # Firefox closes the connection at a mask of zeros, so this one is of ones.
        self.stream.sendall(head + b"\xff\xff\xff\xff" + data.translate(INVERSE))

    def receive(self):
        """One message, its fragments put together."""
        parts = []
        while True:
            first, second = self.file.read(2)
            size = second & 0x7F
            if size == 126:
                (size,) = struct.unpack("!H", self.file.read(2))
            elif size == 127:
                (size,) = struct.unpack("!Q", self.file.read(8))
            data = self.file.read(size)
            if first & 0x0F in (8, 9, 10):
                continue
            parts.append(data)
            if first & 0x80:
                return b"".join(parts).decode()


class Driver:
    """Each browser's own has `page`, `context`, `send`, `heard` and `result`."""

    def __init__(self, program, kind):
        self.program = program
        self.folder = Path(tempfile.mkdtemp(prefix=f"desk-{kind}-"))

    def start(self, command, file, is_whole, environment=None):
        """Starts the browser anew. Returns what it writes into a file of its folder."""
        place = self.folder / file
        place.unlink(missing_ok=True)
        with open(self.folder / "log", "ab") as log:
            self.process = subprocess.Popen(
                command, stdout=log, stderr=log, env={**os.environ, **(environment or {})},
            )
        self.number = 0
        self.pages = {}
        for _ in range(STARTS * Page.slow):
            if place.exists() and is_whole(place.read_text()):
                break
            time.sleep(0.1)
        return place.read_text()

    def ask(self, message):
        """Sends a message, and hears what comes before its reply. Returns that."""
        self.number += 1
        number = self.number
        self.socket.send(json.dumps({"id": number, **message}))
        while True:
            reply = json.loads(self.socket.receive())
            if reply.get("id") == number:
                return reply
            self.heard(reply)

    def desk(self, address, user, isolated=True, **size):
        """A page of a user, with storage of its own unless `isolated` is false."""
        page = self.page(self.context() if isolated else None, **size)
        page.enter(address, user)
        return page

    def kill(self):
        """Ends the browser at once, as a crash does."""
        self.process.kill()
        self.process.wait()

    def end(self, method):
        """Ends the browser as it wants it, and removes what it kept."""
        try:
            self.call(method)
            self.process.wait(20)
        except Exception:
            self.kill()
        shutil.rmtree(self.folder, ignore_errors=True)
