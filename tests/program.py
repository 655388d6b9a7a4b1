"""The program under test: its orders, and its server over raw sockets.

The program is the one that `./contacts` runs, or the file that the environment's CONTACTS names.
Nothing here knows what the program should reply; tests/model computes that.
"""

import itertools
import os
import shutil
import socket
import subprocess
import tempfile
import time
from collections import namedtuple
from pathlib import Path

ROOT = Path(__file__).resolve().parent.parent
PROGRAM = os.path.abspath(os.environ.get("CONTACTS") or ROOT / "crates/contacts/out/contacts")
# Seconds that any one wait may take before the test fails. All take far less, unless the machine
# does other work.
PATIENCE = 120
PORTS = itertools.count()

# How the program ended: its status, and the octets of its standard output and standard error.
Ended = namedtuple("Ended", "status out err")


def run(*arguments, input=b"", **options):
    """Runs the program to its end. Options are those of subprocess.run, as cwd or preexec_fn."""
    pipes = {"stdout": subprocess.PIPE, "stderr": subprocess.PIPE}
    done = subprocess.run(
        [PROGRAM, *map(str, arguments)],
        input=input,
        timeout=PATIENCE,
        **{**pipes, **options},
    )
    return Ended(done.returncode, done.stdout, done.stderr)


def free_port():
    """A port that nobody has, below those that the system gives for port 0.

    So nobody else gets it while the test's own server is down. Each of a test's ports is another
    one, and tests that run side by side have their own hundreds, as a rule.
    """
    first = 10_000 + os.getpid() % 220 * 100
    for _ in range(100):
        port = first + next(PORTS) % 100
        with socket.socket() as bound:
            try:
                bound.bind(("127.0.0.1", port))
                return port
            except OSError:
                continue
    raise OSError("no port is free")


def processor_time(pid):
    """The seconds of processors that a process has had, or 0 where that can't be seen."""
    try:
        text = Path(f"/proc/{pid}/stat").read_text()
    except OSError:
        return 0
    # After the program's name in brackets comes the third word.
    words = text.rpartition(")")[2].split()
    return (int(words[11]) + int(words[12])) / os.sysconf("SC_CLK_TCK")


def million_steps():
    """The processor seconds that a million steps of Python take here: a measure for other work."""
    begun, total = time.process_time(), 0
    for number in range(1_000_000):
        total += number
    return time.process_time() - begun


class Folder:
    """A folder of a test's own, which is removed with the context.

    In a folder in memory no change of a book waits for a disk.
    """

    def __init__(self, in_memory=False):
        self.parent = "/dev/shm" if in_memory and os.access("/dev/shm", os.W_OK) else None

    def __enter__(self):
        self.path = Path(tempfile.mkdtemp(prefix="contacts-test-", dir=self.parent))
        return self.path

    def __exit__(self, *_):
        shutil.rmtree(self.path, ignore_errors=True)


class Server:
    """A server of the file, which is killed at the end of the context unless it has ended.

    It is `contacts run` for the host `office`, which the tests' requests name, and ends when it is
    stopped. With a number of connections it is `contacts serve`, which serves so many, one after
    another, and then ends.
    """

    def __init__(
        self,
        file,
        connections=None,
        port=0,
        more=(),
        arguments=None,
        order=None,
        **options,
    ):
        """`more` are further arguments. If `arguments` are given, nothing else follows `serve`.

        With the order `run` no host is named but by `more`; with `serve` a million connections are
        served unless another number is given.
        """
        if order is None and connections is None and arguments is None:
            order, more = "run", ["--host", "office", *more]
        order = order or "serve"
        counted = ["--connections", connections or 1_000_000] if order == "serve" else []
        place = [] if "--socket" in more else ["--port", port]
        whole = [file, *place, *counted, *more]
        self.process = subprocess.Popen(
            [PROGRAM, order, *map(str, arguments or whole)],
            stdin=subprocess.DEVNULL,
            stdout=subprocess.PIPE,
            stderr=subprocess.PIPE,
            bufsize=0,
            **options,
        )
        # The line comes before the first accept, and the address is bound by then.
        self.line = self.process.stdout.readline()
        self.address = self.place_of(self.line.decode().replace("listening ", "", 1))

    @staticmethod
    def place_of(text):
        """Where it listens: a host and a port, or the path of a Unix socket."""
        if text.startswith("unix:"):
            return text[5:].rstrip("\n")
        host, _, number = text.strip().rpartition(":")
        return (host, int(number)) if number.isdigit() else None

    def __enter__(self):
        return self

    def __exit__(self, *_):
        self.kill()

    def connect(self):
        return Connection(self.address)

    def ask(self, octets):
        """All replies on a connection of its own, over which these octets are sent, and no more."""
        with self.connect() as connection:
            connection.send(octets)
            connection.finish()
            return connection.rest()

    def stop(self):
        """Stops it as systemd does, and returns how it ended."""
        self.process.terminate()
        return self.end()

    def kill(self):
        """Ends it as `kill -9` does."""
        if self.process.poll() is None:
            self.process.kill()
        self.end()

    def end(self):
        """Waits until it has ended, and returns how it ended."""
        if self.process.stdout.closed:
            return Ended(self.process.returncode, self.line, b"")
        out, err = self.process.communicate(timeout=PATIENCE)
        return Ended(self.process.returncode, self.line + out, err)


class Connection:
    """A client's raw connection. Each send goes out at once, as a segment of its own."""

    def __init__(self, address):
        """The address is a host and a port, or the path of a Unix socket."""
        if isinstance(address, str):
            self.socket = socket.socket(socket.AF_UNIX)
            self.socket.settimeout(PATIENCE)
            self.socket.connect(address)
        else:
            self.socket = socket.create_connection(address, timeout=PATIENCE)
            self.socket.setsockopt(socket.IPPROTO_TCP, socket.TCP_NODELAY, 1)
        self.read = b""

    def __enter__(self):
        return self

    def __exit__(self, *_):
        self.socket.close()

    def send(self, octets):
        """Sends what the server still accepts: after it closes, the rest is refused."""
        try:
            self.socket.sendall(octets)
        except (BrokenPipeError, ConnectionResetError):
            pass

    def finish(self):
        """Says that nothing more will be sent."""
        try:
            self.socket.shutdown(socket.SHUT_WR)
        except OSError:
            pass

    def rest(self):
        """All octets up to the connection's end."""
        while self._more():
            pass
        octets, self.read = self.read, b""
        return octets

    def reply(self):
        """The octets of the next whole reply, by its Content-Length."""
        while b"\r\n\r\n" not in self.read and self._more():
            pass
        head, _, _ = self.read.partition(b"\r\n\r\n")
        lines = [line for line in head.split(b"\r\n") if line.startswith(b"Content-Length:")]
        return self.take(len(head) + 4 + (int(lines[0][15:]) if lines else 0))

    def take(self, count):
        """The next `count` octets; fewer if the connection ends before."""
        while len(self.read) < count and self._more():
            pass
        octets, self.read = self.read[:count], self.read[count:]
        return octets

    def _more(self):
        try:
            octets = self.socket.recv(1 << 16)
        except ConnectionResetError:
            octets = b""
        self.read += octets
        return octets
