"""`contacts run --socket PATH`: a Unix socket in place of the port.

The file of the socket has the mode 0660. A socket file at which nobody listens is replaced;
anything else at the path is left alone, and the program ends. The server is the same as over a
port: the guard, many clients, its limits and its log.
"""

import os
import shutil
import signal
import socket
import stat
import subprocess
import time
import unittest
from threading import Thread

from dialogue import ServedTest, Talk
from http_requests import books, card, create, get, put, request, tally
from model.http import Session
from order_trials import OrderTest
from program import PATIENCE, Server, run
from test_run import FOREIGN

PATH_MAX = 107  # octets of the path of a socket, by the system
NAMES = ["--host", "office"]


def mode_of(path):
    return stat.S_IMODE(os.lstat(path).st_mode)


class SocketTest(OrderTest):
    """A test with the file `a.db`, and servers of it at sockets of the folder."""

    def setUp(self):
        super().setUp()
        self.path, self.server = self.folder / "s", None
        self.assertEqual(0, run("init", "a.db", cwd=self.folder).status)

    def start(self, path="s", more=(), **options):
        """Another server of the file, once the one before it has let it go.

        It runs in the folder, so that a short path names the socket.
        """
        self.kill()
        more = ["--socket", path, *NAMES, *more]
        self.server = Server("a.db", order="run", more=more, cwd=self.folder, **options)
        self.addCleanup(self.server.kill)
        if self.server.address:
            self.server.address = str(self.folder / self.server.address)
        return self.server

    def kill(self):
        if self.server:
            self.server.kill()


class Files(SocketTest):
    """What becomes of the path."""

    def assert_served(self, server):
        self.assertEqual(b"HTTP/1.1 200", server.ask(books())[:12], server.line)

    def test_the_line(self):
        self.assertEqual(b"listening unix:s\n", self.start().line)
        path = f"{self.folder}/t"
        self.assertEqual(b"listening unix:%s\n" % path.encode(), self.start(path).line)

    def test_the_mode(self):
        """It doesn't depend on the umask."""
        for umask in 0o022, 0o077, 0o000, 0o177:
            with self.subTest(oct(umask)):
                server = self.start(preexec_fn=lambda: os.umask(umask))
                self.assertEqual(0o660, mode_of(self.path))
                self.assertTrue(stat.S_ISSOCK(os.lstat(self.path).st_mode))
                self.assert_served(server)

    def test_a_socket_that_is_left_is_replaced(self):
        """`kill -9` leaves it; so does the end by a signal, and a listener of another program."""
        for end in Server.kill, Server.stop:
            server = self.start()
            self.assert_served(server)
            end(server)
            self.assertTrue(self.path.exists())
        self.assert_served(self.start())
        self.kill()
        other = self.folder / "other"
        with socket.socket(socket.AF_UNIX) as left:
            left.bind(str(other))
        self.assert_served(self.start("other"))
        self.assertEqual(0o660, mode_of(other))

    def refused(self, path="s"):
        """A server that starts at the path ends, says why, and prints nothing."""
        self.assert_device(self.start(path).end())

    def assert_device(self, ended):
        self.assertEqual((3, b""), (ended.status, ended.out))
        self.assertRegex(ended.err, rb"\A[^\n]+\nfault device 1\n\Z")

    def test_other_files_are_left_alone(self):
        (self.folder / "file").write_bytes(b"Dear office,\n")
        (self.folder / "empty").write_bytes(b"")
        (self.folder / "folder").mkdir()
        os.mkfifo(self.folder / "pipe")
        for name in "file", "empty", "folder", "pipe", "a.db":
            with self.subTest(name):
                before = os.lstat(self.folder / name)
                self.refused(name)
                after = os.lstat(self.folder / name)
                self.assertEqual((before.st_ino, before.st_mode), (after.st_ino, after.st_mode))
        self.assertEqual(b"Dear office,\n", (self.folder / "file").read_bytes())

    def test_links_are_left_alone(self):
        """Also one to a socket at which nobody listens, and one to nothing."""
        with socket.socket(socket.AF_UNIX) as left:
            left.bind(str(self.path))
        for name, target in [("to-socket", "s"), ("to-nothing", "none"), ("to-file", "a.db")]:
            (self.folder / name).symlink_to(target)
            with self.subTest(name):
                self.refused(name)
                self.assertEqual(target, os.readlink(self.folder / name))
        self.assertTrue(stat.S_ISSOCK(os.lstat(self.path).st_mode))
        self.assertFalse((self.folder / "none").exists())

    def test_a_socket_that_answers_is_left_alone(self):
        with socket.socket(socket.AF_UNIX) as other:
            other.bind(str(self.path))
            other.listen(0)
            before = os.lstat(self.path)
            self.refused()
            # Its queue is full by now, and nobody accepts.
            with socket.socket(socket.AF_UNIX) as waiting:
                waiting.settimeout(0.2)
                try:
                    waiting.connect(str(self.path))
                except OSError:
                    pass
                self.refused()
            self.assertEqual(before.st_ino, os.lstat(self.path).st_ino)
            self.assertEqual(before.st_mode, os.lstat(self.path).st_mode)

    def test_a_second_server(self):
        """It finds the socket answered, and the first one goes on. It has made its file by then."""
        first = self.start()
        second = Server("b.db", order="run", more=["--create", "--socket", "s"], cwd=self.folder)
        self.addCleanup(second.kill)
        self.assert_device(second.end())
        self.assert_served(first)
        self.assertTrue((self.folder / "b.db").exists())

    def test_paths_that_cannot_be(self):
        for path in "none/s", "folder/", "x" * (PATH_MAX + 1):
            with self.subTest(path[:20]):
                self.refused(path)
        self.assertEqual([], [it for it in self.folder.iterdir() if it.name[:4] != "a.db"])

    def test_no_path(self):
        """An empty path is none: the line of arguments is refused."""
        ended = self.start("").end()
        self.assertEqual((2, b""), (ended.status, ended.out))
        self.assertIn(b"it needs the path of a socket", ended.err)

    def test_the_longest_path(self):
        server = self.start("x" * PATH_MAX)
        self.assertEqual(b"listening unix:" + b"x" * PATH_MAX + b"\n", server.line)
        self.assertEqual(0o660, mode_of(self.folder / ("x" * PATH_MAX)))

    def test_a_folder_without_the_right_to_write(self):
        if os.geteuid() == 0:
            self.skipTest("root may write everywhere")
        (self.folder / "shut").mkdir(0o555)
        self.refused("shut/s")

    def test_the_file_is_opened_first(self):
        self.start()
        self.kill()
        self.path.unlink()
        server = Server("none.db", order="run", more=["--socket", "s"], cwd=self.folder)
        ended = server.end()
        self.assertEqual((3, b""), (ended.status, ended.out))
        self.assertTrue(ended.err.endswith(b"\nfault open 1\n"))
        self.assertFalse(self.path.exists())

    def test_no_port(self):
        """It listens at the socket alone."""
        server = self.start()
        if not os.path.exists("/proc/self/net/tcp"):
            self.skipTest("there is no /proc to look at")
        sockets = {os.readlink(f"/proc/{server.process.pid}/fd/{it}")
                   for it in os.listdir(f"/proc/{server.process.pid}/fd")}
        with open(f"/proc/{server.process.pid}/net/tcp") as lines:
            inodes = {f"socket:[{line.split()[9]}]" for line in list(lines)[1:]}
        self.assertEqual(set(), sockets & inodes)

    def test_curl(self):
        if not shutil.which("curl"):
            self.skipTest("curl is needed")
        self.start(more=["--log"])
        done = subprocess.run(
            ["curl", "-q", "-s", "-m", str(PATIENCE), "--unix-socket", self.path,
             "http://office/books"], stdout=subprocess.PIPE)
        self.assertEqual((0, b'{"books":[]}'), (done.returncode, done.stdout))


class Requests(SocketTest):
    """What is served, and what is printed."""

    def test_the_guard(self):
        server = self.start()
        self.assertIn(b'{"id":1}', server.ask(create("staff")))
        for number, fields in sorted(FOREIGN.items()):
            octets = request("PUT", "/books/staff/cards/a", card("a", "Ann"), fields, host=False)
            with self.subTest(number):
                self.assertIn(b'"number":%d}' % number, server.ask(octets))
        for host, status in [("office", 200), ("OFFICE:80", 200), ("localhost", 200),
                             ("127.0.0.1:8080", 200), ("[::1]", 200), ("evil.example", 421),
                             ("s", 421), ("", 421)]:
            with self.subTest(host):
                octets = request("GET", "/books", fields=[f"Host: {host}"], host=False)
                self.assertEqual(b"HTTP/1.1 %d" % status, server.ask(octets)[:12])
        self.assertIn(b'"cards":0,', server.ask(tally("staff")))

    def test_who(self):
        """The log names the user that the front server names, and not at a port."""
        who = ["Host: office", "X-Remote-User: Zo\xeb Q"]
        log = ["--log", "--host", "office"]
        for starts, said in [(lambda: self.start(more=["--log"]), rb" user Zo\\xc3\\xab\\x20Q"),
                             (lambda: Server(self.folder / "a.db", order="run", more=log), b"")]:
            with self.subTest(said), starts() as server:
                server.ask(request("PUT", "/books/staff", fields=who, host=False))
                server.ask(request("DELETE", "/books/staff/cards/a", fields=who, host=False))
                line = server.stop().err.splitlines()[-1]
                self.assertRegex(line, rb"microseconds [0-9]+" + said + rb" reply \{.*\}\Z")
                self.assertIn(b'"fault":"no-such-card"', line)

    def test_the_log(self):
        server = self.start(more=["--log"])
        replies = [server.ask(octets) for octets in (create("staff"), books())]
        replies.append(server.ask(request("GET", "/books", fields=["Host: evil"], host=False)))
        ended = server.stop()
        words = [b"request PUT /books/staff status 201 octets %d microseconds [0-9]+"
                 b" reply \\{\"id\":1\\}\n",
                 b"request GET /books status 200 octets %d microseconds [0-9]+\n",
                 b"refused foreign-host 31 status 421 octets %d\n"]
        wanted = b"".join(it % len(reply) for it, reply in zip(words, replies))
        self.assertRegex(ended.err, rb"\A" + wanted + rb"\Z")
        self.assertEqual((-signal.SIGTERM, b"listening unix:s\n"), (ended.status, ended.out))


class Clients(ServedTest):
    """Many clients at once, each of whom the model replies to."""

    order = "run"

    def start(self, connections=None, more=()):
        place = self.file.parent / "s"
        super().start(connections, ["--socket", place, *more])
        self.assertEqual(str(place), self.server.address)

    def test_one_after_another(self):
        self.serve(create("staff"))
        for number in range(300):
            self.serve(put("staff", "a", f"Ann {number}"), tally("staff"))

    def test_pieces(self):
        octets = create("staff") + put("staff", "a", "Ann") + get("staff", "a")
        self.serve(*[octets[place:place + 7] for place in range(0, len(octets), 7)])

    def test_many_at_once(self):
        """A silent client, one in the middle of a request, and a hundred that ask in turn."""
        silent, half = Talk(self), Talk(self)
        half.connection.send(create("staff")[:20])
        talks = [Talk(self) for _ in range(100)]
        for talk in talks:
            talk.ask(books())
        half.connection.send(create("staff")[20:])
        half.hear(create("staff"))
        for number, talk in enumerate(talks):
            talk.ask(put("staff", f"u{number}", "Pat"))
        for talk in talks:
            talk.ask(tally("staff"))
            talk.end()
        silent.ask(books())
        silent.end()

    def test_long_bodies_and_replies(self):
        """More than the system keeps on the way, in both directions."""
        lines = ["NOTE:" + "x" * 70] * 3_000
        self.serve(create("staff"), request("PUT", "/books/staff/cards/a", card("a", "A", *lines)))
        octets = get("staff", "a") * 40
        wanted = Session(self.office).feed(octets)
        with self.connection() as connection:
            sender = Thread(target=connection.send, args=[octets])
            sender.start()
            time.sleep(0.2)
            self.compare(octets, wanted, connection.take(len(wanted)))
            sender.join()
        self.serve(tally("staff"))

    def test_a_client_that_goes(self):
        self.serve(create("staff"))
        octets = put("staff", "a", "Ann")
        for place in range(0, len(octets), 5):
            with self.server.connect() as connection:
                connection.send(octets[:place])
        self.serve(tally("staff"))

    def test_a_silent_client_is_given_up(self):
        self.restart(more=["--idle-timeout", 1])
        begun = time.monotonic()
        with self.connection() as connection:
            self.assertEqual(b"", connection.rest())
        self.assertTrue(0.8 < time.monotonic() - begun < 13)

    def test_a_reply_that_closes(self):
        """It comes whole, though the client has sent more than is read."""
        octets = get("staff", "a", fields=["Connection: close"]) + b"x" * 100_000
        for _ in range(20):
            wanted = Session(self.office).feed(octets)
            with self.connection() as connection:
                connection.send(octets)
                self.compare(octets[:200], wanted, connection.rest())


if __name__ == "__main__":
    unittest.main()
