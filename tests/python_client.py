"""What the tests of clients/python need: the client itself, stops at any step, and lost replies."""

import io
import os
import random
import socket
import sys
import threading
import time
from contextlib import redirect_stderr, redirect_stdout
from unittest import mock

from program import PATIENCE, ROOT

FOLDER = ROOT / "clients/python"
sys.path.insert(0, str(FOLDER))

from tosculai_tools import command  # noqa: E402 (these are found by the line before)
from tosculai import Copy, Office  # noqa: E402

# The functions, as Python's profiler names them, whose calls change something outside of a process.
STEPS = {
    "mkdir", "open", "BufferedWriter.write", "BufferedWriter.flush", "fsync", "replace", "unlink",
    "Connection.execute", "Connection.executemany", "Connection.executescript", "Connection.commit",
    "Connection.close", "socket.connect", "socket.sendall", "socket.recv_into", "socket.close",
}


def office(server, **options):
    """The client's office at a server, which doesn't wait long between two attempts."""
    host, port = server.address
    return Office(f"http://{host}:{port}", **{"pause": 0.001, "timeout": PATIENCE, **options})


def cards_of(book):
    """The texts of a book's cards by UID, as a new copy gets them."""
    copy = Copy()
    book.sync(copy)
    return dict(copy.cards)


def run_command(*arguments):
    """Runs a command of the client; returns its status and what it printed."""
    out, err = (io.TextIOWrapper(io.BytesIO(), "utf-8", newline="") for _ in range(2))
    with redirect_stdout(out), redirect_stderr(err), mock.patch.dict(os.environ, HOME="/nowhere"):
        try:
            status = command.main([*map(str, arguments)])
        except SystemExit as end:
            status = end.code
    for stream in out, err:
        stream.flush()
    return status, *(stream.buffer.getvalue().decode() for stream in (out, err))


def is_stopped(call, step):
    """Makes the call in a process of its own, which dies before its step of this number.

    Nothing of it runs after that, as with `kill -9`. Returns False if the call ended before.
    """
    child = os.fork()
    if child:
        _, status = os.waitpid(child, 0)
        if os.WEXITSTATUS(status) not in (0, 9):
            raise AssertionError(f"the call failed, to be stopped at step {step}")
        return os.WEXITSTATUS(status) == 9
    left = step

    def count(frame, event, argument):
        nonlocal left
        if event == "c_call" and getattr(argument, "__qualname__", "") in STEPS:
            left -= 1
            if not left:
                os._exit(9)

    try:
        sys.setprofile(count)
        call()
        sys.setprofile(None)
        os._exit(0)
    except BaseException:  # whatever it is, the child must not go on with the tests
        sys.setprofile(None)
        sys.excepthook(*sys.exc_info())
    finally:
        os._exit(1)


def is_killed(call, seconds):
    """Makes the call in a process of its own, which is killed after some seconds; was it?"""
    child = os.fork()
    if not child:
        try:
            call()
            os._exit(0)
        finally:
            os._exit(1)
    time.sleep(seconds)
    os.kill(child, 9)
    _, status = os.waitpid(child, 0)
    return os.WIFSIGNALED(status)


class Forwarder:
    """A socket of the file system whose connections go on to a server."""

    def __init__(self, path, address):
        self.address = address
        self.listener = socket.socket(socket.AF_UNIX, socket.SOCK_STREAM)
        self.listener.bind(path)
        self.listener.listen(16)
        threading.Thread(target=self.run, daemon=True).start()

    def run(self):
        while True:
            try:
                one, _ = self.listener.accept()
            except OSError:
                return
            other = socket.create_connection(self.address)
            for pair in (one, other), (other, one):
                threading.Thread(target=self.carry, args=pair, daemon=True).start()

    def carry(self, one, other):
        try:
            while True:
                octets = one.recv(1 << 16)
                if not octets:
                    break
                other.sendall(octets)
            other.shutdown(socket.SHUT_WR)
        except OSError:
            pass


class Lossy:
    """A proxy that loses requests and replies. It serves one connection at a time.

    `losses` says what happens to the next requests, one after another: "request" is lost before it
    reaches the server, "reply" after it was done, "fault" is done and replied as a failure of the
    disk may be, and "" arrives, as does all that follows.
    """

    FAULT = b'{"fault":"store-fault","number":19}'

    def __init__(self, server, losses=()):
        self.server, self.losses = server, list(losses)
        self.listener = socket.create_server(("127.0.0.1", 0))
        self.address = self.listener.getsockname()
        self.requests, self.connections, self.is_over = [], 0, False
        self.thread = threading.Thread(target=self.run, daemon=True)

    def __enter__(self):
        self.thread.start()
        return self

    def __exit__(self, *_):
        # A connection without a request wakes the thread, which then finds the listener closed.
        self.is_over = True
        socket.create_connection(self.address).close()
        self.thread.join(PATIENCE)
        self.listener.close()

    def run(self):
        while not self.is_over:
            client, _ = self.listener.accept()
            with client:
                client.settimeout(PATIENCE)
                self.connections += 1
                while self.pass_on(client):
                    pass

    def pass_on(self, client):
        """Passes one request on, and its reply back; returns whether both arrived."""
        octets = self.whole_request(client)
        if not octets:
            return False
        self.requests.append(octets)
        self.before_request(octets)
        loss = self.losses.pop(0) if self.losses else self.draw()
        reply = b"" if loss == "request" else self.server.ask(octets)
        if loss == "fault":
            head = "HTTP/1.1 503 Service Unavailable\r\nContent-Type: application/json\r\n"
            head += f"Content-Length: {len(self.FAULT)}\r\nConnection: close\r\n\r\n"
            client.sendall(head.encode() + self.FAULT)
        if loss:
            self.after_loss()
            return False
        client.sendall(reply)
        return True

    def settle(self):
        """Waits until all requests that have come so far are done."""
        with socket.create_connection(self.address, timeout=PATIENCE) as last:
            last.shutdown(socket.SHUT_WR)
            last.recv(1)

    def before_request(self, octets):
        """What somebody else does before a request reaches the server."""

    def after_loss(self):
        """What somebody else does after a loss."""

    def draw(self):
        """What happens to a request for which nothing is planned."""
        return ""

    def whole_request(self, client):
        """The octets of the next request; none if the client has gone."""
        octets = b""
        while True:
            head, end, body = octets.partition(b"\r\n\r\n")
            lines = [it for it in head.split(b"\r\n") if it.lower().startswith(b"content-length:")]
            if end and len(body) >= (int(lines[0][15:]) if lines else 0):
                return octets
            try:
                more = client.recv(1 << 16)
            except OSError:
                more = b""
            if not more:
                return b""
            octets += more


class Careless(Lossy):
    """A proxy that loses some of the requests and replies, drawn from a seed."""

    def __init__(self, server, seed, share):
        super().__init__(server)
        self.random, self.share = random.Random(f"careless {seed}"), share

    def draw(self):
        is_lost = self.random.random() < self.share
        return self.random.choice(["request", "reply"]) if is_lost else ""
