"""HTTP/1.1: connections, bodies, passwords, and the log. A thread serves a connection."""

import os
import re
import socket
import socketserver
import sys
import threading
import time
from contextlib import nullcontext
from http.server import BaseHTTPRequestHandler
from typing import Any, Dict, Iterator, Optional, Tuple, Type

from gateway import davxml, readers
from gateway.accounts import Refusal, Users, Who
from gateway.dav import METHODS, Dav, is_discovery
from gateway.feeds import Feeds, bare, is_feed
from gateway.messages import TEXT, Reply, Request
from gateway.places import PREFIX

PUT_MAX = 25_165_824  # octets of a card that is sent: its photo may be kept beside
PATIENCE = 30.0  # seconds for which a connection may be silent
CONNECTIONS = 200  # that are served at once; others wait
LARGE, LARGE_AT_ONCE = 1_000_000, 2  # octets of a body that few requests may have at once
WHOLE = 262_144  # octets of a reply up to which it is sent with its length
NOT_IN_FIELDS = re.compile(r"[^\x20-\x7e]")
HOST = re.compile(r"[A-Za-z0-9._:\[\]-]+")
CHALLENGE = 'Basic realm="contacts", charset="UTF-8"'


def say(text: str) -> None:
    """One line of the log, whatever a client put into it."""
    line = "".join(it if " " <= it <= "~" and it != "\\" else f"\\u{ord(it):04x}" for it in text)
    try:
        print(line, file=sys.stderr, flush=True)
    except OSError:
        pass  # a log that can't be written stops nobody


class BadBody(Exception):
    """A body that isn't read; the connection ends after the reply."""

    def __init__(self, status: int, words: str) -> None:
        super().__init__(words)
        self.status, self.words = status, words


class Handler(BaseHTTPRequestHandler):
    protocol_version = "HTTP/1.1"
    server_version = "Tosculai-CardDAV"
    timeout = PATIENCE
    wbufsize = 65_536  # a head and its body in one packet
    server: "Server"

    def setup(self) -> None:
        super().setup()
        if self.connection.family != socket.AF_UNIX:
            self.connection.setsockopt(socket.IPPROTO_TCP, socket.TCP_NODELAY, 1)

    def handle_expect_100(self) -> bool:
        """Lets a client go on that asks before it sends its body, as curl does."""
        done = super().handle_expect_100()
        self.wfile.flush()
        return done

    def answer(self) -> None:
        """One request, from its head to the end of its reply."""
        self._begun, self._user, self._sent = time.monotonic(), "-", 0
        fields: Dict[str, str] = {}
        for key, value in ((name.lower(), it) for name, it in self.headers.items()):
            fields[key] = f"{fields[key]}, {value}" if key in fields else value  # RFC 9110, 5.3
        try:
            reply = self._reply(fields)
            pieces = iter([reply.body]) if isinstance(reply.body, bytes) else reply.body
            first, is_whole = gathered(pieces)
        except Exception as fault:
            reply = bare(self.path, self._fault(fault))
            first, is_whole, pieces = bytes(reply.body), True, iter(())  # type: ignore[arg-type]
        self._send(reply, first, is_whole, pieces)
        if self.server.logs_all or reply.status >= 500:
            self._log(reply.status)

    def _reply(self, fields: Dict[str, str]) -> Reply:
        # The password is checked before the body is read: a stranger can't fill the memory.
        if is_discovery(self.path):
            self._body(fields, WHOLE)
            return self.server.dav.reply(Request(self.command, self.path, fields, b"", "", {}))
        try:
            who = self._who(fields)
        except Refusal:
            self._drop_body(fields)
            raise
        self._user = who.user
        most = PUT_MAX if self.command == "PUT" else davxml.BODY_MAX
        place: Any = self.server.large if self._is_large(fields) else nullcontext()
        with place:
            body = self._body(fields, most)
            request = Request(self.command, self.path, fields, body, who.user, who.rights,
                              self._address(fields), who.has_categories)
            return (self.server.feeds if is_feed(self.path) else self.server.dav).reply(request)

    def _who(self, fields: Dict[str, str]) -> Who:
        """Who asks: by a password, or at a feed by a token or an address."""
        if is_feed(self.path):
            peer = self.client_address[0] if isinstance(self.client_address, tuple) else ""
            who = readers.find(self.server.users, self.path, fields, peer)
            if who:
                return who
            if "authorization" not in fields and not self.server.users.trusts_front:
                raise Refusal(401, readers.how_to_begin(self.path))
        return self.server.users.find(fields, self._client(fields))

    def _is_large(self, fields: Dict[str, str]) -> bool:
        """Whether the body takes much memory; few such are held at once."""
        text = fields.get("content-length", "0")
        return not text.isdigit() or int(text[:15]) > LARGE or "transfer-encoding" in fields

    def _fault(self, fault: Exception) -> Reply:
        """The reply to a request that is refused before it is a request of DAV, or that fails."""
        if isinstance(fault, BadBody):
            self.close_connection = True
            return text_reply(fault.status, fault.words)
        if isinstance(fault, Refusal):
            return self._refused(fault)
        if isinstance(fault, (ConnectionError, socket.timeout)):
            raise fault
        say(f"fault {type(fault).__name__}: {fault}")
        return text_reply(500, "the gateway failed; its log says why")

    def _client(self, fields: Dict[str, str]) -> str:
        """The address that the tries of passwords are counted for: what a front server says."""
        return fields.get("x-real-ip") or str(self.client_address[:1])

    def _address(self, fields: Dict[str, str]) -> str:
        # Desk phones may come another way than all others, as without TLS.
        if self.server.url and not (is_feed(self.path) and HOST.fullmatch(fields.get("host", ""))):
            return str(self.server.url) + PREFIX
        scheme = "https" if fields.get("x-forwarded-proto") == "https" else "http"
        host = fields.get("host", "")
        return f"{scheme}://{host if HOST.fullmatch(host) else 'localhost'}{PREFIX}"

    def _refused(self, refusal: Refusal) -> Reply:
        reply = text_reply(refusal.status, refusal.words)
        if refusal.status == 401:
            reply.fields["WWW-Authenticate"] = CHALLENGE
        if refusal.status == 429:
            reply.fields["Retry-After"] = "300"
        if "authorization" in self.headers or refusal.status != 401 or is_feed(self.path):
            say(f"refused {refusal.status} {self.command} {self._told_path()}: {refusal.words}")
        return reply

    # Bodies.

    def _body(self, fields: Dict[str, str], most: int) -> bytes:
        coding = fields.get("transfer-encoding", "")
        if coding:
            if coding.lower() != "chunked" or "content-length" in fields:
                raise BadBody(501, "a body comes with a Content-Length, or chunked")
            return self._chunked(most)
        text = fields.get("content-length", "0")
        if not (text.isascii() and text.isdigit()) or len(text) > 15:
            raise BadBody(400, "the Content-Length isn't a number")
        if int(text) > most:
            raise BadBody(413, f"a body has at most {most:,} octets")
        return self._exactly(int(text))

    def _exactly(self, count: int) -> bytes:
        octets = self.rfile.read(count)
        if len(octets) < count:
            raise ConnectionError("the client broke off")
        return octets

    def _chunked(self, most: int) -> bytes:
        """A body in chunks (RFC 9112, 7.1)."""
        whole = bytearray()
        while True:
            line = self.rfile.readline(1024)
            text = line.split(b";")[0].strip().decode("latin-1")
            if not line.endswith(b"\n") or not text or text.strip("0123456789abcdefABCDEF"):
                raise BadBody(400, "a chunk has no size")
            size = int(text[:16], 16)
            if len(whole) + size > most:
                raise BadBody(413, f"a body has at most {most:,} octets")
            whole += self._exactly(size)
            if not size:
                while self.rfile.readline(65_536) not in (b"\r\n", b"\n", b""):
                    pass
                return bytes(whole)
            self._exactly(2)

    def _drop_body(self, fields: Dict[str, str]) -> None:
        """After a refusal a small body is dropped; a larger one ends the connection."""
        text = fields.get("content-length", "0")
        if "transfer-encoding" in fields or not text.isdigit() or int(text[:15]) > WHOLE:
            self.close_connection = True
        else:
            self._exactly(int(text))

    # Replies.

    def _send(self, reply: Reply, first: bytes, is_whole: bool, rest: Iterator[bytes]) -> None:
        has_body = self.command != "HEAD" and reply.status not in (204, 304)
        self.send_response(reply.status)
        for name, value in reply.fields.items():
            self.send_header(name, value)
        self.send_header("X-Content-Type-Options", "nosniff")
        is_chunked = not is_whole and self.request_version != "HTTP/1.0"
        if is_chunked:
            self.send_header("Transfer-Encoding", "chunked")
        elif is_whole and reply.status not in (204, 304):
            self.send_header("Content-Length", str(len(first)))
        if not is_whole and not is_chunked:
            self.close_connection = True
        if self.close_connection:
            self.send_header("Connection", "close")
        self.end_headers()
        if has_body:
            self._write(first, None if is_whole else rest, is_chunked)
        self.wfile.flush()

    def send_header(self, keyword: str, value: str) -> None:
        """Every field goes through here: what was asked may be in one, and must not end it."""
        super().send_header(keyword, NOT_IN_FIELDS.sub("?", value))

    def _write(self, first: bytes, rest: Optional[Iterator[bytes]], is_chunked: bool) -> None:
        """The body. A fault within it ends the connection, so that no client takes it whole."""
        self._piece(first, is_chunked)
        while rest is not None:
            octets, is_last = gathered(rest)
            self._piece(octets, is_chunked)
            if is_last:
                break
        if is_chunked:
            self.wfile.write(b"0\r\n\r\n")

    def _piece(self, octets: bytes, is_chunked: bool) -> None:
        self._sent += len(octets)
        if is_chunked and octets:
            self.wfile.write(b"%x\r\n%s\r\n" % (len(octets), octets))
        elif octets:
            self.wfile.write(octets)

    # The log.

    def _log(self, status: int) -> None:
        taken = (time.monotonic() - self._begun) * 1000
        say(f"{self._user} {self.command} {self._told_path()} {status} {self._sent} octets "
            f"{taken:.1f} ms")

    def _told_path(self) -> str:
        """The path for the log, without a token."""
        return readers.masked(self.path, is_feed(self.path))[:200]

    def log_message(self, format: str, *arguments: object) -> None:
        """What http.server would say: faults of a head, which are a client's."""

    def version_string(self) -> str:
        return self.server_version

    def address_string(self) -> str:
        return "-"


for method in (*METHODS, "MKCOL", "COPY", "POST", "LOCK", "UNLOCK", "ACL", "MKADDRESSBOOK"):
    setattr(Handler, "do_" + method, Handler.answer)


def gathered(pieces: Iterator[bytes]) -> Tuple[bytes, bool]:
    """Pieces up to some size, and whether they were the last ones."""
    whole = bytearray()
    for piece in pieces:
        whole += piece
        if len(whole) > WHOLE:
            return bytes(whole), False
    return bytes(whole), True


def text_reply(status: int, words: str) -> Reply:
    return Reply(status, {"Content-Type": TEXT}, (words + "\n").encode())


class Server(socketserver.ThreadingMixIn, socketserver.TCPServer):
    """Connections by TCP on 127.0.0.1, or by a socket of the file system."""

    daemon_threads = True
    allow_reuse_address = True
    request_queue_size = 128

    def __init__(self, place: Any, dav: Dav, feeds: Feeds, users: Users, logs_all: bool = False,
                 url: str = "") -> None:
        self.address_family = socket.AF_UNIX if isinstance(place, str) else socket.AF_INET
        self.dav, self.feeds, self.users = dav, feeds, users
        self.logs_all, self.url = logs_all, url
        self.large = threading.Semaphore(LARGE_AT_ONCE)
        self._places = threading.BoundedSemaphore(CONNECTIONS)
        if isinstance(place, str):
            clear_socket(place)
        super().__init__(place, Handler)
        if isinstance(place, str):
            os.chmod(place, 0o660)

    def process_request(self, request: Any, client_address: Any) -> None:
        self._places.acquire()
        super().process_request(request, client_address)

    def process_request_thread(self, request: Any, client_address: Any) -> None:
        try:
            super().process_request_thread(request, client_address)
        finally:
            self._places.release()

    def handle_error(self, request: Any, client_address: Any) -> None:
        """A connection that breaks is no fault; what fails in a reply is said."""
        kind: Optional[Type[BaseException]] = sys.exc_info()[0]
        if kind and not issubclass(kind, OSError):
            say(f"fault in a reply, whose connection ends: {kind.__name__}: {sys.exc_info()[1]}")


def clear_socket(path: str) -> None:
    """Removes a socket that nobody listens at any more."""
    with socket.socket(socket.AF_UNIX, socket.SOCK_STREAM) as one:
        try:
            one.connect(path)
        except FileNotFoundError:
            return
        except ConnectionRefusedError:
            os.unlink(path)
            return
    raise OSError(f"{path}: another program listens there")
