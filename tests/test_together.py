"""Many connections at once: nobody waits for somebody else.

Clients that are silent, slow, greedy or gone hold up nobody, and are given up in time. More
connections than `--max-open` wait. Hundreds of clients change and follow two books at once: their
replies, their devices and the books are those of one order of all requests. `kill -9` among them
loses no change that was replied to.
"""

import os
import resource
import select
import shutil
import signal
import subprocess
import time
import unittest
from pathlib import Path
from threading import Thread

import crowd
from dialogue import ServedTest, Talk, again_if_slow, reset
from histories import Copy
from http_requests import books, card, create, export, get, put, request, tally
from model.http import Session
from program import PATIENCE, Ended

SLACK = 12  # seconds that a busy machine may need beside what is measured
HAS_PROC = os.path.isdir("/proc/self/fd")
NEEDS_PROC = unittest.skipUnless(HAS_PROC, "there is no /proc to look at")
BIG = request("PUT", "/books/staff/cards/big", card("big", "Big", *["NOTE:" + "x" * 70] * 3_000))
HEAD = b"PUT /books/staff/cards/b HTTP/1.1\r\nHost: office\r\nContent-Length: %d\r\n\r\n"


class TogetherTest(ServedTest):
    """A test with another client, which is served at any time."""

    order = "run"

    def setUp(self):
        super().setUp()
        self.serve(create("staff"), create("clients"), put("staff", "a", "Ann"))
        self.other = Talk(self)

    def renew_other(self, more=()):
        self.restart(more=more)
        self.other = Talk(self)

    def connect(self):
        connection = self.server.connect()
        self.addCleanup(connection.socket.close)
        return connection

    def end_of(self, connection):
        """Waits until the server has ended the connection, while it serves another client.

        Returns the time, and what came before.
        """
        ended = []

        def wait():
            octets = connection.rest()
            ended.append((time.monotonic(), octets))

        waits = Thread(target=wait)
        waits.start()
        while waits.is_alive():
            self.ask_other(tally("staff"))
            waits.join(0.05)
        self.assertTrue(ended, "the connection stays open")
        return ended[0]

    def send_in_time(self, octets):
        """A new connection on which the octets were sent long before a patience of a second ended,
        and a time before the connection."""
        for _ in range(5):
            begun, connection = time.monotonic(), self.connect()
            connection.send(octets)
            if time.monotonic() - begun < 0.8:
                break
        return begun, connection

    def ask_other(self, octets):
        """The other client gets its reply at once."""
        begun = time.monotonic()
        self.other.ask(octets)
        self.assertLess(time.monotonic() - begun, SLACK)

    def descriptors(self):
        return len(os.listdir(f"/proc/{self.server.process.pid}/fd"))

    def wake_ups(self, seconds):
        """How often the server wakes up in a second, looked at for so many at least."""
        def count():
            lines = Path(f"/proc/{self.server.process.pid}/status").read_text().splitlines()
            return int([it for it in lines if it.startswith("voluntary_ctxt")][0].split()[1])

        before, begun = count(), time.monotonic()
        time.sleep(seconds)
        return (count() - before) / (time.monotonic() - begun)


class Patience(TogetherTest):
    """A client that does nothing for `--idle-timeout` seconds is given up, and nobody else.

    A machine that does other work may stop a client for as long. So the clock begins before what
    the server's patience begins with, and a client that has to be in time has far more of it than
    it needs.
    """

    def setUp(self):
        super().setUp()
        self.restart(more=["--idle-timeout", 1])

    def ask_other(self, octets):
        """The other client has a new connection each time, since it may be slow itself."""
        begun = time.monotonic()
        again_if_slow(lambda pace: self.serve(octets), 0.8)
        self.assertLess(time.monotonic() - begun, SLACK)

    def given_up(self, octets, replied=b""):
        """Such a client gets these replies, and then the connection's end after a second."""
        begun, connection = self.send_in_time(octets)
        ended, came = self.end_of(connection)
        self.assertEqual(replied, came)
        self.assertGreater(ended - begun, 0.8)
        self.assertLess(ended - begun, 1 + SLACK)

    def test_silent_client(self):
        self.given_up(b"")

    def test_client_that_stops(self):
        """In a head, in a body, and after a reply."""
        self.given_up(b"GET /books HTTP/1.1\r\nHo")
        self.given_up(HEAD % 100 + b"BEGIN")
        self.given_up(books(), Session(self.office).feed(books()))

    def test_head_without_end(self):
        """An octet now and then doesn't keep a connection open."""
        begun, connection = time.monotonic(), self.connect()
        connection.send(b"GET /books HTTP/1.1\r\nHost: office\r\nX-Slow: ")
        while not select.select([connection.socket], [], [], 0.1)[0]:
            connection.send(b"x")
            self.ask_other(books())
            self.assertLess(time.monotonic() - begun, 1 + SLACK)
        self.assertEqual(b"", connection.rest())
        self.assertGreater(time.monotonic() - begun, 0.8)

    def test_body_octet_by_octet(self):
        """A body that comes slowly is handled if it is there in time, beside others."""
        # Of each octet another client waits for its reply, which may take long in all.
        self.restart(more=["--idle-timeout", 60])
        octets = put("staff", "b", "Bob")
        talk, rest = Talk(self), len(octets) - 30
        talk.connection.send(octets[:rest])
        for place in range(rest, len(octets)):
            time.sleep(0.01)
            talk.connection.send(octets[place:place + 1])
            if place < len(octets) - 1:
                self.ask_other(tally("staff"))
        talk.hear(octets)
        talk.end()

    def end_of_slow_body(self, length, most):
        """The seconds after which a client's connection ends, at most so many, that sends an octet
        of such a body now and then."""
        begun, connection = time.monotonic(), self.connect()
        connection.send(HEAD % length)
        while not select.select([connection.socket], [], [], 0.1)[0]:
            connection.send(b"x")
            self.ask_other(books())
            self.assertLess(time.monotonic() - begun, most)
        self.assertEqual(b"", connection.rest())
        return time.monotonic() - begun

    def test_body_without_end(self):
        """An octet now and then doesn't keep a connection open."""
        self.assertGreater(self.end_of_slow_body(4_000, 1 + SLACK), 0.8)

    def test_a_long_body_has_longer(self):
        """One second more for each 4,096 octets: two, for a request of 8,192 and some."""
        self.assertGreater(self.end_of_slow_body(8_192, 3 + SLACK), 2.8)

    def test_requests_one_after_another(self):
        """Each has its own time, so a client that goes on is served for longer than one has."""
        self.restart(more=["--idle-timeout", 3])

        def attempt(pace):
            talk, octets = Talk(self), tally("staff")
            for _ in range(6):
                talk.connection.send(octets[:20])
                time.sleep(0.6)
                talk.connection.send(octets[20:])
                talk.hear(octets)
                pace.mark()
            talk.end()

        # Two steps in turn are within the patience.
        again_if_slow(attempt, 1.2)

    def test_client_that_takes_nothing(self):
        """More is replied than fits on the way: the replies are cut off, but nothing is wrong."""
        self.serve(BIG)
        octets = get("staff", "big") * 60
        wanted = Session(self.office).feed(octets)
        # The patience begins once the server has sent what fits, which a slow machine does late.
        for seconds in 2.5, 5, 10, 20:
            connection = self.connect()
            connection.send(octets)
            ends = time.monotonic() + seconds
            while time.monotonic() < ends:
                self.ask_other(tally("staff"))
                time.sleep(0.05)
            came = connection.rest()
            self.assertTrue(wanted.startswith(came))
            if len(came) < len(wanted):
                break
        self.assertLess(len(came), len(wanted))

    def test_slow_taker(self):
        """It takes some of its replies now and then, for longer than the patience."""
        self.serve(BIG)
        self.restart(more=["--idle-timeout", 3])
        octets = get("staff", "big") * 90
        wanted = Session(self.office).feed(octets)

        def attempt(pace):
            connection, came, begun = self.connect(), [], time.monotonic()
            connection.send(octets)
            left = len(wanted)
            while left:
                came.append(connection.take(min(left, 1_000_000)))
                left -= len(came[-1])
                self.assertTrue(came[-1], f"{left} octets before the end")
                self.ask_other(tally("staff"))
                time.sleep(0.25)
                pace.mark()
            self.compare(octets, wanted, b"".join(came))
            self.assertGreater(time.monotonic() - begun, 4)
            connection.finish()
            self.assertEqual(b"", connection.rest())

        # Two steps in turn are within the patience.
        again_if_slow(attempt, 1.2)


class Together(TogetherTest):
    """`--max-open`: how many connections are open at once."""

    def is_quiet(self, connection, seconds=0.3):
        return not select.select([connection.socket], [], [], seconds)[0]

    def test_more_connections_than_places(self):
        self.renew_other(more=["--max-open", 3])
        self.other.ask(books())
        talks = [self.other] + [Talk(self) for _ in range(7)]
        for talk in talks[1:]:
            talk.connection.send(books())
        for talk in talks[1:3]:
            talk.hear(books())
        for first, waiting in zip(talks, talks[3:]):
            self.assertTrue(self.is_quiet(waiting.connection))
            # Those that are open are served, however many wait.
            first.ask(tally("staff"))
            first.end()
            waiting.hear(books())

    def test_one_after_another(self):
        self.renew_other(more=["--max-open", 1])
        self.other.ask(books())
        second = Talk(self)
        second.connection.send(tally("staff"))
        for name in "Bob", "Rob":
            self.assertTrue(self.is_quiet(second.connection))
            self.other.ask(put("staff", "b", name))
        self.other.end()
        second.hear(tally("staff"))

    def test_silent_client_with_one_place(self):
        """It keeps the next one waiting for as long as its patience lasts."""
        self.restart(more=["--max-open", 1, "--idle-timeout", 1])
        begun, first = self.send_in_time(books())
        self.compare(books(), Session(self.office).feed(books()), first.reply())
        _, second = self.send_in_time(tally("staff"))
        self.compare(tally("staff"), Session(self.office).feed(tally("staff")), second.reply())
        self.assertGreater(time.monotonic() - begun, 0.8)
        self.assertLess(time.monotonic() - begun, 1 + SLACK)

    def test_end_of_one_among_others(self):
        """Connections end one by one, however they do, and the server goes on."""
        self.renew_other(more=["--max-open", 3])
        talks = [self.other, Talk(self), Talk(self)]
        for talk in talks:
            talk.ask(books())
        fourth = Talk(self)
        fourth.connection.send(books())
        self.assertTrue(self.is_quiet(fourth.connection))
        reset(talks[1].connection)
        fourth.hear(books())
        talks[0].end()
        talks[2].ask(tally("staff"))
        talks[2].end()
        fourth.ask(tally("staff"))
        self.assertIsNone(self.server.process.poll())

    @NEEDS_PROC
    def test_few_descriptors(self):
        """As many are served as there are descriptors; the others follow when some end."""
        self.other.ask(books())
        pid, most = self.server.process.pid, self.descriptors() + 5
        _, greatest = resource.prlimit(pid, resource.RLIMIT_NOFILE)
        resource.prlimit(pid, resource.RLIMIT_NOFILE, (most, greatest))
        talks = [Talk(self) for _ in range(20)]
        for talk in talks:
            talk.connection.send(books())
        for talk in talks[:5]:
            talk.hear(books())
        self.assertTrue(all(self.is_quiet(talk.connection, 0.02) for talk in talks[5:]))
        # It tries again now and then, and doesn't spin.
        self.assertLess(self.wake_ups(0.5), 100)
        for first, waiting in zip(talks, talks[5:]):
            self.ask_other(tally("staff"))
            first.end()
            waiting.hear(books())

    @NEEDS_PROC
    def test_idle_connections(self):
        """Open connections cost nothing while nobody sends."""
        talks = [Talk(self) for _ in range(100)]
        for talk in talks:
            talk.ask(books())
        self.assertLess(self.wake_ups(1), 10)
        for talk in talks:
            talk.ask(tally("staff"))


class BreakingOff(TogetherTest):
    """Clients that go in each state of a connection."""

    def states(self):
        """What a client has done when it goes: octets that it sent, and what it waits for."""
        whole = put("staff", "b", "Bob")
        closing = get("staff", "a", fields=["Connection: close"])
        return [
            (b"", None),
            (b"\r\n", None),
            (b"GET /bo", None),
            (b"GET /books HTTP/1.1\r\nHost: off", None),
            (HEAD % 100, None),
            (HEAD % 100 + b"BEGIN:VC", None),
            (whole[:-1], None),
            (books(), lambda it: it.reply()),
            (books() * 3, lambda it: it.reply()),
            (books() + b"GET /bo", lambda it: it.reply()),
            (get("staff", "big") * 40, lambda it: it.take(1)),
            (closing, lambda it: it.rest()),
            (b"no head\r\n\r\n", lambda it: it.rest()),
        ]

    def go(self, octets, wait, end):
        with self.server.connect() as connection:
            connection.send(octets)
            if wait:
                wait(connection)
            end(connection)

    def test_each_state(self):
        self.serve(BIG)
        ends = [reset, lambda it: it.socket.close(), lambda it: it.finish()]
        self.renew_other()
        for octets, wait in self.states():
            for end in ends:
                self.go(octets, wait, end)
                self.ask_other(tally("staff"))
        self.ask_other(export("clients"))
        self.assertEqual(Ended(-signal.SIGTERM, self.server.line, b""), self.server.stop())

    @NEEDS_PROC
    def test_descriptors_come_back(self):
        self.serve(BIG)
        self.ask_other(books())
        self.let_finish()
        before = self.descriptors()
        for octets, wait in self.states():
            self.go(octets, wait, reset)
        begun = time.monotonic()
        while self.descriptors() > before:
            self.assertLess(time.monotonic() - begun, SLACK)
            self.ask_other(books())
            time.sleep(0.05)

    def test_line_feeds_alone(self):
        """An empty line before a request is no fault. The server looks at each one."""
        octets = b"\n" * 16_000 + books()
        talks = [Talk(self) for _ in range(20)]
        for talk in talks:
            talk.connection.send(octets)
        self.ask_other(tally("staff"))
        for talk in talks:
            talk.hear(octets)
            self.ask_other(books())
        endless = b"\n" * 1_000_000
        connection = self.connect()
        connection.send(endless)
        self.compare(endless, Session(self.office).feed(endless[:20_000]), connection.rest())
        self.ask_other(books())


class Crowds(TogetherTest):
    CLIENTS = 200
    STEPS = 14

    def numbers(self):
        return {book: self.office.books[book].number for book in crowd.BOOKS}

    def contents(self, book):
        """The cards of a book: version and text by UID."""
        live = self.office.books[book].live
        return {uid: (stored.version, stored.card.text.decode()) for uid, stored in live.items()}

    def check_pages(self, copies):
        for (book, number), members in copies:
            for it in members:
                self.assertEqual(self.contents(book), it, f"a copy of {book} at {number}")

    def replay(self, clients):
        """The model does all changes in their order; each reply and each copy is as it has them."""
        copies = crowd.pages_by_number(clients)
        at_first = [(at, copies.pop(at)) for at in self.numbers().items() if at in copies]
        self.check_pages(at_first)
        for change in crowd.Order(clients, self.numbers()):
            replied = Session(self.office).feed(change.octets)
            if change.reply is not None:
                self.compare(change.octets, replied, change.reply)
            self.check_pages([(at, copies.pop(at)) for at in change.numbers.items()
                              if at in copies])
        self.assertEqual({}, copies, "copies at numbers that no book had")

    def check_books(self):
        """The server has what the model has."""
        for book in crowd.BOOKS:
            self.serve(tally(book), export(book))
            self.assertEqual(self.contents(book), self.copy_of(book).members)

    def copy_of(self, book):
        """A new device's whole copy of the book."""
        device = Copy(book)
        with self.server.connect() as connection:
            while True:
                connection.send(device.ask())
                if not device.hear(connection.reply())["truncated"]:
                    return device

    def test_all_at_once(self):
        """Each device is right whenever its page is whole, and at the end."""
        clients = [crowd.Client(1, number) for number in range(self.CLIENTS)]

        def work(client, connection):
            self.assertTrue(client.go(connection, self.STEPS))

        crowd.run_together(self.server, clients, work)()
        crowd.run_together(self.server, clients, crowd.Client.catch_up)()
        self.replay(clients)
        for client in clients:
            self.assertEqual(self.contents(client.device.book), client.device.members)
        self.check_books()
        self.assertGreater(sum(len(client.done) for client in clients), 8 * self.CLIENTS)

    def test_kills(self):
        """The server is killed among 60 clients, again and again."""
        without_reply = 0
        for kill in range(4):
            clients = [crowd.Writer(100 + kill, number) for number in range(60)]
            begun = self.numbers()
            wait = crowd.run_together(
                self.server, clients, lambda client, connection: client.go(connection, 10_000))
            latest = time.monotonic() + PATIENCE
            while sum(len(it.done) for it in clients) < 100 * kill + 50:
                self.assertLess(time.monotonic(), latest)
                time.sleep(0.001)
            self.server.kill()
            wait()
            self.start()
            copies = {book: self.copy_of(book) for book in crowd.BOOKS}
            holds = {book: copy.members for book, copy in copies.items()}
            numbers = {book: int(copy.token.rpartition("/")[2]) for book, copy in copies.items()}
            self.assertGreater(sum(numbers.values()), sum(begun.values()))
            without_reply += crowd.recover(clients, holds, begun, numbers)
            self.replay(clients)
            self.assertEqual(numbers, self.numbers())
            self.check_books()

    def test_browsers_and_curl(self):
        """Connections that browsers keep open, and curl beside them."""
        browsers = [Talk(self) for _ in range(6)]
        for browser in browsers:
            browser.ask(books())
        if shutil.which("curl"):
            self.curl("-X", "PUT", "--data-binary", "@-", "/books/staff/cards/b",
                      asks=put("staff", "b", "Bob"), input=card("b", "Bob").encode())
            self.curl("/books/staff/cards/a", asks=get("staff", "a"))
        for browser in browsers:
            browser.ask(get("staff", "b"))
            browser.ask(tally("staff"))

    def curl(self, *arguments, asks, input=b""):
        """Curl prints what the model replies."""
        *options, target = arguments
        url = "http://%s:%d%s" % (*self.server.address, target)
        command = ["curl", "-q", "-s", "-m", str(PATIENCE), "--noproxy", "*", *options, url]
        done = subprocess.run(command, input=input, stdout=subprocess.PIPE)
        wanted = Session(self.office).feed(asks)
        self.assertEqual((0, wanted.partition(b"\r\n\r\n")[2]), (done.returncode, done.stdout))


if __name__ == "__main__":
    unittest.main()
