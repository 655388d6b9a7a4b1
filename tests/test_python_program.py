"""The programs of clients/python: TLS, servers that are dead, syncs that stay, and pip."""

import io
import re
import select
import shutil
import signal
import socket
import ssl
import subprocess
import sys
import threading
import time
import unittest
import zipfile
from contextlib import redirect_stdout
from unittest import mock

from http_requests import card
from program import PATIENCE, ROOT, Folder, Server, free_port, run
from python_client import FOLDER, Forwarder, Lossy, run_command
from test_python_client import ClientTest

from tosculai import Office, Unreachable
from tosculai_tools import follow

SAID = 3  # seconds


class Clock:
    """A clock that runs while the client waits, and not while others have the processors."""

    def __init__(self):
        self.now = 0.0

    def monotonic(self):
        return self.now

    def sleep(self, seconds):
        self.now += seconds
TOSCULAI = [sys.executable, str(FOLDER / "tosculai.py")]


class Watching(ClientTest):
    """`sync --watch`, in a process of its own."""

    def setUp(self):
        super().setUp()
        self.cards = self.folder / "cards"
        self.url = f"http://127.0.0.1:{self.server.address[1]}"
        self.process = None

    def watch(self, *options):
        arguments = ["sync", self.url, "staff", str(self.cards), "--watch", "--every", "0.2"]
        self.process = subprocess.Popen(
            [*TOSCULAI, *arguments, *options],
            stdout=subprocess.PIPE,
            stderr=subprocess.PIPE,
            # A suite that a shell started in the background ignores it, and so would this.
            preexec_fn=lambda: signal.signal(signal.SIGINT, signal.SIG_DFL),
        )
        self.addCleanup(self.end)

    def end(self):
        """Interrupts it, and returns what it printed and its status."""
        if self.process.stdout.closed:
            return None
        self.process.send_signal(signal.SIGINT)
        out, err = self.process.communicate(timeout=PATIENCE)
        return out.decode(), err.decode(), self.process.returncode

    def wait(self, condition):
        ends = time.monotonic() + PATIENCE
        while not condition():
            self.assertLess(time.monotonic(), ends)
            self.assertIsNone(self.process.poll())
            time.sleep(0.02)

    def has(self, text):
        path = self.cards / "a.vcf"
        return lambda: path.exists() and f"FN:{text}\r" in path.read_bytes().decode()

    def test_both_sides_until_it_is_interrupted(self):
        self.staff.put(card("a", "Ann"))
        self.watch()
        self.says("1 pulled, 0 pushed")
        self.assertTrue(self.has("Ann")())
        self.staff.put(card("a", "Anna"))
        self.says("1 pulled, 0 pushed")
        self.assertTrue(self.has("Anna")())
        (self.cards / "a.vcf").write_bytes(card("a", "Bea").encode())
        self.says("0 pulled, 1 pushed")
        self.assertIn("FN:Bea", self.staff.get("a").text)
        time.sleep(0.5)  # rounds in which nothing happens, which print nothing
        self.assertEqual(("", "", 130), self.end())

    def says(self, words):
        """Waits for its next line, at the end of a round."""
        self.assertTrue(select.select([self.process.stdout], [], [], PATIENCE)[0])
        self.assertEqual(f"{words}\n", self.process.stdout.readline().decode())

    def test_a_server_that_comes_back(self):
        self.staff.put(card("a", "Ann"))
        self.watch("--quiet")
        self.wait(self.has("Ann"))
        self.server.kill()
        said = self.process.stderr.readline()
        self.assertIn(b"Connection refused", said)
        self.server = Server(self.folder / "file", port=self.server.address[1])
        self.addCleanup(self.server.kill)
        self.staff.put(card("a", "Anna"))
        self.wait(self.has("Anna"))
        out, err, status = self.end()
        self.assertEqual(("", "", 130), (out, err, status))

    def test_what_has_to_be_looked_at_is_said_once(self):
        self.cards.mkdir()
        (self.cards / "x.vcf").write_text("x")
        self.watch("--quiet")
        said = self.process.stdout.readline()
        self.assertEqual(b"skipped x.vcf: it has no UID, or isn't UTF-8\n", said)
        self.staff.put(card("a", "Ann"))
        self.wait(self.has("Ann"))
        out, err, status = self.end()
        self.assertEqual(("", "", 130), (out, err, status))

    def test_what_no_round_can_mend_ends_it(self):
        self.url = self.url.replace("http:", "https:")
        self.watch()
        self.url = ""
        self.assertIn(b"tosculai: https://", self.process.stderr.readline())
        with self.assertRaises(subprocess.TimeoutExpired):
            self.process.wait(1)  # there is no TLS there: it tries again
        self.end()
        done = run_command("sync", "http://127.0.0.1:1", "staff", self.cards, "--watch",
                           "--ca-file", "none")
        self.assertEqual((3, "", "tosculai: none: No such file or directory\n"), done)
        url = f"http://127.0.0.1:{self.server.address[1]}"
        status, out, err = run_command("sync", url, "nowhere", self.cards, "--watch")
        self.assertEqual((3, ""), (status, out))
        self.assertIn(" belongs to https://", err)
        done = run_command("sync", url, "nowhere", self.folder / "new", "--watch")
        self.assertEqual((1, "", "tosculai: refused no-such-book\n"), done)

    def test_wrong_times(self):
        for text in "0", "-1", "x", "nan", "1e9":
            with self.subTest(text):
                done = run_command("sync", "x", "staff", self.cards, f"--every={text}")
                self.assertEqual(2, done[0])

    def test_quiet(self):
        self.staff.put(card("a", "Ann"))
        sync = ["sync", self.url, "staff", self.cards, "--quiet"]
        self.assertEqual((0, "", ""), run_command(*sync))
        (self.cards / "x.vcf").write_text("x")
        said = "skipped x.vcf: it has no UID, or isn't UTF-8\n"
        self.assertEqual((1, said, ""), run_command(*sync))


class Sockets(ClientTest):
    """`unix:PATH` in place of a URL: the library, the commands and `follow`."""

    def setUp(self):
        super().setUp()
        self.path = str(self.folder / "office.sock")
        forwarder = Forwarder(self.path, self.server.address)
        self.addCleanup(forwarder.listener.close)
        self.url = "unix:" + self.path

    def test_the_library(self):
        there = Office(self.url)
        with there.connected():
            self.assertEqual(1, there.book("staff").put(card("a", "Ann"), 0))
            self.assertEqual(card("a", "Ann"), there.book("staff").get("a").text)
        self.assertEqual(self.url, there.url)
        for url, context in [("unix:", None), (self.url, ssl.create_default_context())]:
            with self.assertRaises(ValueError):
                Office(url, context=context)

    def test_the_commands(self):
        self.assertEqual((0, "clients\nstaff\n", ""), run_command("books", self.url))
        self.staff.put(card("a", "Ann"))
        cards = self.folder / "cards"
        self.assertEqual((0, "1 pulled, 0 pushed\n", ""),
                         run_command("sync", self.url, "staff", cards))
        (cards / "a.vcf").write_bytes(card("a", "Anna").encode())
        self.assertEqual((0, "0 pulled, 1 pushed\n", ""),
                         run_command("sync", self.url, "staff", cards))
        self.assertEqual(card("a", "Anna"), self.staff.get("a").text)

    def test_follow(self):
        self.staff.put(card("a", "Ann"))
        folder = self.folder / "memory"
        with redirect_stdout(io.StringIO()):
            self.assertEqual(0, follow.main([self.url, str(folder), "--once", "--dated"]))
        self.assertEqual(card("a", "Ann").encode(), (folder / "staff/a.vcf").read_bytes())

    def test_nobody_listens(self):
        for path in self.path + "x", str(self.folder / "file"):
            clock = Clock()
            with mock.patch("tosculai.time", clock), \
                    self.assertRaisesRegex(Unreachable, "unix:" + path):
                Office("unix:" + path).books()
            self.assertLessEqual(clock.now, SAID)


class DeadServers(unittest.TestCase):
    """What no connection can be made to is said within 3 seconds; a slow reply isn't."""

    def seconds_of(self, url, **options):
        clock = Clock()
        with mock.patch("tosculai.time", clock), self.assertRaises(Unreachable) as caught:
            Office(url, **options).books()
        return clock.now, str(caught.exception)

    def test_nothing_listens(self):
        with socket.socket() as one:
            one.bind(("127.0.0.1", 0))
            seconds, said = self.seconds_of(f"http://127.0.0.1:{one.getsockname()[1]}")
        self.assertIn("refused", said)
        self.assertGreater(seconds, 1)  # it may be about to start
        self.assertLessEqual(seconds, SAID)

    def test_nobody_accepts(self):
        """The queue of a listener is full: the system drops what comes, as a dead machine does."""
        with socket.socket() as one:
            one.bind(("127.0.0.1", 0))
            one.listen(0)
            place = one.getsockname()
            waiting = [socket.socket() for _ in range(4)]
            for it in waiting:
                it.setblocking(False)
                it.connect_ex(place)
            begun = time.monotonic()
            with self.assertRaisesRegex(Unreachable, "timed out"):
                Office(f"http://127.0.0.1:{place[1]}", connect_timeout=0.5).books()
            self.assertGreater(time.monotonic() - begun, 0.4)
            self.assertLess(time.monotonic() - begun, PATIENCE)
            for it in waiting:
                it.close()

    def test_a_slow_reply(self):
        """A reply may take longer than a connection."""
        with socket.create_server(("127.0.0.1", 0)) as one:
            def reply():
                client, _ = one.accept()
                with client:
                    client.recv(1 << 16)
                    time.sleep(1.5)
                    body = b'{"books":[]}'
                    client.sendall(b"HTTP/1.1 200 OK\r\nContent-Type: application/json\r\n"
                                   b"Content-Length: %d\r\n\r\n%s" % (len(body), body))
            thread = threading.Thread(target=reply, daemon=True)
            thread.start()
            url = f"http://127.0.0.1:{one.getsockname()[1]}"
            self.assertEqual([], Office(url, connect_timeout=1, attempts=1).books())
            thread.join(PATIENCE)

    def test_a_server_that_is_started_meanwhile(self):
        with Folder(in_memory=True) as folder:
            run("init", folder / "file")
            port, started = free_port(), []
            timer = threading.Timer(
                0.5, lambda: started.append(Server(folder / "file", port=port))
            )
            timer.start()
            try:
                url = f"http://127.0.0.1:{port}"
                client = Office(url, pause=0.1, attempts=1_000, connect_timeout=PATIENCE)
                self.assertEqual([], client.books())
            finally:
                timer.join()
                started[0].kill()


class Secured(Lossy):
    """A front server with TLS."""

    def __init__(self, server, certificate, key):
        super().__init__(server)
        self.context = ssl.SSLContext(ssl.PROTOCOL_TLS_SERVER)
        self.context.load_cert_chain(certificate, key)
        self.refused = 0

    def pass_on(self, client):
        try:
            with self.context.wrap_socket(client, server_side=True) as secured:
                while super().pass_on(secured):
                    pass
        except OSError:
            self.refused += 1
        return False


@unittest.skipUnless(shutil.which("openssl"), "no openssl on this machine")
class OwnCertificates(ClientTest):
    def setUp(self):
        super().setUp()
        self.files = [self.make(name) for name in ("own", "other")]
        front = Secured(self.server, *self.files[0])
        self.front = front.__enter__()
        self.addCleanup(front.__exit__)
        self.url = f"https://127.0.0.1:{front.address[1]}"

    def make(self, name):
        certificate, key = self.folder / f"{name}.pem", self.folder / f"{name}.key"
        subprocess.run(
            ["openssl", "req", "-x509", "-newkey", "ec", "-pkeyopt",
             "ec_paramgen_curve:prime256v1", "-nodes", "-days", "2",
             "-subj", "/CN=office", "-addext", "subjectAltName=IP:127.0.0.1",
             "-keyout", str(key), "-out", str(certificate)],
            check=True, stderr=subprocess.DEVNULL, timeout=PATIENCE,
        )
        return certificate, key

    def test_a_context_of_ones_own(self):
        context = ssl.create_default_context(cafile=str(self.files[0][0]))
        secured = Office(self.url, context=context)
        secured.book("staff").put(card("a", "Ann"))
        self.assertEqual(1, self.staff.get("a").version)
        self.assertEqual(["clients", "staff"], [it["name"] for it in secured.books()])

    def test_a_certificate_that_nobody_vouches_for(self):
        """It is said at once, and nothing is sent."""
        other = ssl.create_default_context(cafile=str(self.files[1][0]))
        for context in None, other:
            begun = time.monotonic()
            secured = Office(self.url, context=context, pause=PATIENCE, connect_timeout=PATIENCE)
            with self.assertRaisesRegex(Unreachable, "CERTIFICATE_VERIFY_FAILED"):
                secured.book("staff").get("a")
            self.assertLess(time.monotonic() - begun, PATIENCE * 0.8)
        self.assertEqual([], self.front.requests)

    def test_the_command(self):
        path = str(self.files[0][0])
        listed = (0, "clients\nstaff\n", "")
        self.assertEqual(listed, run_command("books", self.url, "--ca-file", path))
        self.assertEqual(3, run_command("books", self.url, "--ca-file", str(self.files[1][0]))[0])
        status, out, err = run_command("books", self.url, "--ca-file", str(self.files[0][1]))
        self.assertEqual((3, ""), (status, out))
        self.assertIn("own.key has no certificate in PEM", err)
        plain = self.url.replace("https", "http")
        said = f"tosculai: not the URL of a server with TLS: {plain}\n"
        self.assertEqual((3, "", said), run_command("books", plain, "--ca-file", path))


class Installed(unittest.TestCase):
    """What `pip install ./clients/python` installs: here its package is made and used, by hand."""

    def test_the_package(self):
        with Folder() as folder:
            sys.path.insert(0, str(FOLDER / "packaging"))
            import wheels
            name = wheels.build_wheel(str(folder))
            newest = re.search(r"(?m)^## (\S+) - ", (ROOT / "CHANGELOG.md").read_text())[1]
            self.assertEqual(f"tosculai_client-{newest}-py3-none-any.whl", name)
            with zipfile.ZipFile(folder / name) as wheel:
                self.assertIsNone(wheel.testzip())
                wheel.extractall(folder / "installed")
            listed = (folder / "installed").glob("*.dist-info/RECORD")
            names = {line.split(",")[0] for line in next(listed).read_text().splitlines()}
            there = {str(it.relative_to(folder / "installed"))
                     for it in (folder / "installed").rglob("*") if it.is_file()}
            self.assertEqual(names, there)
            # All modules but the one that starts `follow` from a checkout.
            here = {str(it.relative_to(FOLDER)) for it in FOLDER.rglob("*.py")}
            here -= {"follow.py", "packaging/wheels.py"}
            self.assertEqual(here, {it for it in there if it.endswith(".py")})
            scripts = next((folder / "installed").glob("*.dist-info/entry_points.txt")).read_text()
            found = re.findall(r"^([\w-]+) = ([\w.]+):(\w+)$", scripts, re.MULTILINE)
            self.assertEqual(["tosculai", "tosculai-follow"], [it[0] for it in found])
            for _, module, call in found:
                code = f"import sys, {module} as it; sys.argv[1:] = ['--help']; it.{call}()"
                printed = subprocess.check_output(
                    [sys.executable, "-c", code], cwd=folder,
                    env={"PYTHONPATH": str(folder / "installed")}, timeout=PATIENCE)
                self.assertIn(b"usage:", printed)

    def test_an_editable_package(self):
        """What `pip install --editable ./clients/python` installs names the folder itself."""
        with Folder() as folder:
            sys.path.insert(0, str(FOLDER / "packaging"))
            import wheels
            with zipfile.ZipFile(folder / wheels.build_editable(str(folder))) as wheel:
                names = set(wheel.namelist())
                self.assertEqual([f"{FOLDER}\n".encode()],
                                 [wheel.read(it) for it in names if it.endswith(".pth")])
                self.assertEqual(set(), {it for it in names if it.endswith(".py")})
                self.assertEqual(1, sum(it.endswith("entry_points.txt") for it in names))

    def test_nothing_but_the_standard_library(self):
        own = {it.stem for it in FOLDER.glob("*.py")} | {"tosculai_tools"}
        for path in [*FOLDER.glob("*.py"), *FOLDER.glob("*/*.py")]:
            lines = re.findall(r"^(?:from|import) ([\w.]+)", path.read_text(), re.MULTILINE)
            for name in {it.split(".")[0] for it in lines} - own:
                with self.subTest(path=path.name, name=name):
                    standard = getattr(sys, "stdlib_module_names", {name})
                    self.assertIn(name, standard)


if __name__ == "__main__":
    unittest.main()
