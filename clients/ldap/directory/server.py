"""Connections by TCP, with TLS or without. A thread serves a connection."""

import ipaddress
import socket
import socketserver
import ssl
import sys
import threading
import time
from typing import Any, Dict, Optional

from gateway.accounts import Users, origin
from gateway.front import say

from directory import ber
from directory.entries import Directory
from directory.session import End, Session

MESSAGE_MAX = 65_536  # octets of a request
PATIENCE = 300.0  # seconds for which a connection may be silent
HANDSHAKE = 10.0  # seconds that TLS may take to begin
STRANGER = 30.0  # seconds after which who has no rights is sent away
CONNECTIONS, STRANGERS = 100, 20  # all, and those without rights of one address


class Handler(socketserver.BaseRequestHandler):
    server: "Server"

    def handle(self) -> None:
        self._place, self._until = self.request, time.monotonic() + STRANGER
        self._is_stranger = True
        try:
            if self.server.tls and not self.server.starts_tls:
                self._begin_tls(self.server.tls)
            self._serve()
        except (OSError, End):
            pass  # who breaks off, or says nothing
        finally:
            self._is_known()
            self._place.close()

    def _begin_tls(self, tls: ssl.SSLContext) -> None:
        self._place.settimeout(HANDSHAKE)
        self._place = tls.wrap_socket(self._place, server_side=True)

    def _is_known(self) -> None:
        """It is counted as a stranger no more."""
        if self._is_stranger:
            self.server.strangers.leave(self.client_address[0])
            self._is_stranger = False

    def _give_time(self, place: Any, session: Session) -> None:
        """Lets the next octets be waited for; a stranger has one time for all of them."""
        if session.who.rights:
            self._is_known()
            place.settimeout(PATIENCE)
            return
        left = self._until - time.monotonic()
        if left <= 0:
            raise End
        place.settimeout(left)

    def _session(self) -> Session:
        own, peer = self.server, str(self.client_address[0])
        has_tls = own.tls is not None and not own.starts_tls
        is_trusted = not own.requires_tls and (own.plain_passwords or is_local(peer))
        session = Session(own.directory, own.users, peer, has_tls or is_trusted, own.starts_tls)
        session.has_tls = has_tls
        return session

    def _serve(self) -> None:
        session, held = self._session(), b""
        while True:
            place = self._place
            held, message = self._message(place, held, session)
            if message is None:
                return
            replies = bytearray()
            try:
                for it in session.answer(message):
                    replies += it
                    if len(replies) > 65_536:
                        place.sendall(bytes(replies))
                        replies.clear()
            finally:
                place.sendall(bytes(replies))
            if session.starts and self.server.tls:
                if held:  # it was sent before the reply: anybody between may have added it
                    return
                self._begin_tls(self.server.tls)
                session.started()

    def _message(self, place: Any, held: bytes, session: Session) -> Any:
        """What is held after the next message, and that; None if the client has ended."""
        while True:
            try:
                _, begin, length = ber.head(held)
                if length > MESSAGE_MAX:
                    return b"", held  # which isn't whole: the session says so, and ends
                if len(held) >= begin + length:
                    return held[begin + length:], held[:begin + length]
            except IndexError:
                pass
            except ber.Bad:
                return b"", held  # the session says so, and ends
            self._give_time(place, session)
            more = place.recv(65_536)
            if not more:
                return b"", None
            held += more


class Strangers:
    """How many connections of each address have no rights yet."""

    def __init__(self) -> None:
        self._lock = threading.Lock()
        self._counts: Dict[str, int] = {}

    def enter(self, address: str) -> bool:
        """Whether there is a place for one more."""
        key = origin(address)
        with self._lock:
            count = self._counts.get(key, 0)
            if count < STRANGERS:
                self._counts[key] = count + 1
            return count < STRANGERS

    def leave(self, address: str) -> None:
        key = origin(address)
        with self._lock:
            self._counts[key] -= 1
            if not self._counts[key]:
                del self._counts[key]


class Server(socketserver.ThreadingMixIn, socketserver.TCPServer):
    daemon_threads = True
    allow_reuse_address = True
    request_queue_size = 64

    def __init__(self, address: str, port: int, directory: Directory, users: Users,
                 tls: Optional[ssl.SSLContext], plain_passwords: bool, starts_tls: bool = False,
                 requires_tls: bool = False) -> None:
        self.address_family = socket.AF_INET6 if ":" in address else socket.AF_INET
        self.directory, self.users = directory, users
        self.tls, self.plain_passwords = tls, plain_passwords
        self.starts_tls, self.requires_tls = starts_tls, requires_tls
        if starts_tls:
            directory.starts_tls = True
        self._places, self.strangers = threading.BoundedSemaphore(CONNECTIONS), Strangers()
        super().__init__((address, port), Handler)

    def process_request(self, request: Any, client_address: Any) -> None:
        if not self._places.acquire(blocking=False):
            say(f"{CONNECTIONS} connections: {client_address[0]} is turned away")
            self.shutdown_request(request)
            return
        if not self.strangers.enter(client_address[0]):
            self._places.release()
            say(f"{STRANGERS} connections of {client_address[0]} that haven't bound: "
                "one more is turned away")
            self.shutdown_request(request)
            return
        super().process_request(request, client_address)

    def process_request_thread(self, request: Any, client_address: Any) -> None:
        try:
            super().process_request_thread(request, client_address)
        finally:
            self._places.release()

    def handle_error(self, request: Any, client_address: Any) -> None:
        say(f"fault in a reply, whose connection ends: {sys.exc_info()[1]!r}")


def is_local(address: str) -> bool:
    return ipaddress.ip_address(address.partition("%")[0]).is_loopback
