"""`contacts try`: one card of standard input, put into an empty book in memory.

The texts and what they spell are in `card_rows`, written by hand. What is printed is the put, the
card in its canonical text, and the token of the book's initial report. The cause for which a text
is refused isn't printed, so the same text is also put to a server, whose reply has the cause.
"""

import os
import socket
import subprocess
import unittest

from card_rows import ANN, MOST, accepted, refused
from http_requests import create, request
from model.cards import BadCard, read_card, write_card
from office_files import up_to
from program import PATIENCE, PROGRAM, Ended, Folder, Server, run

CARD = ANN.encode()
REFUSED = Ended(1, b"", b"refused bad-card 5\n")
DEVICE = Ended(3, b"", b"fault device 1\n")
WAITING = (b"waiting for a vCard on standard input; "
           b"Ctrl-D ends it, contacts --help lists commands\n")
# What is printed of Ann's card: 147 octets.
PRINTED = b"""\
put created 1
card a version 1 octets 52
BEGIN:VCARD\r
VERSION:4.0\r
UID:a\r
FN:Ann\r
END:VCARD\r
token http://contacts.invalid/sync/1/1/1
truncated no
"""


def printed(uid, card):
    first = f"put created 1\ncard {uid} version 1 octets {len(card)}\n"
    return first.encode() + card + b"token http://contacts.invalid/sync/1/1/1\ntruncated no\n"


class Texts(unittest.TestCase):
    """Each text of `card_rows`."""

    def test_accepted(self):
        for name, text, uid, card in accepted():
            with self.subTest(name):
                self.assertEqual(Ended(0, printed(uid, card), b""), run("try", input=text))

    def test_written_cards_are_read_back(self):
        for name, text, uid, card in accepted():
            if text != card:
                with self.subTest(name):
                    self.assertEqual(Ended(0, printed(uid, card), b""), run(input=card))

    def test_refused(self):
        for name, text, _ in refused():
            with self.subTest(name):
                self.assertEqual(REFUSED, run("try", input=text))

    def test_causes(self):
        """The same texts are put over one connection, and change nothing."""
        with Folder() as folder:
            run("init", folder / "office.db")
            with Server(folder / "office.db") as server, server.connect() as connection:
                connection.send(create("staff"))
                self.assertIn(b'{"id":1}', connection.reply())
                for name, text, cause in refused():
                    with self.subTest(name):
                        connection.send(request("PUT", "/books/staff/cards/a", text))
                        self.assertEqual(self.bad_card(cause), connection.reply())
            self.assertIn(b"number                    0\n",
                          run("tally", folder / "office.db", "staff").out)

    @staticmethod
    def bad_card(cause):
        body = b'{"cause":%d,"fault":"bad-card","number":5}' % cause
        return (b"HTTP/1.1 400 Bad Request\r\nContent-Type: application/json\r\n"
                b"Content-Length: %d\r\nConnection: keep-alive\r\n\r\n" % len(body)) + body

    def test_model_agrees(self):
        """What is written by hand here is what the model of the other tests computes."""
        for name, text, uid, card in accepted():
            with self.subTest(name):
                spelled = read_card(text)
                self.assertEqual((uid, card), (spelled.uid, write_card(spelled)))
        for name, text, cause in refused():
            with self.subTest(name), self.assertRaises(BadCard) as caught:
                read_card(text)
            self.assertEqual(cause, caught.exception.cause, name)


class Inputs(unittest.TestCase):
    """Standard input: how much of it is read, in which pieces, and how it may fail."""

    def setUp(self):
        folder = Folder()
        self.path = folder.__enter__() / "text"
        self.addCleanup(folder.__exit__)

    def test_without_an_argument(self):
        self.assertEqual(147, len(PRINTED))
        typed = b"BEGIN:VCARD\nVERSION:4.0\nUID:a\nfn:An\n n\nEND:VCARD\n"
        self.assertEqual(Ended(0, PRINTED, b""), run(input=typed))
        self.assertEqual(Ended(0, PRINTED, b""), run("try", input=typed))

    def test_one_octet_more_than_the_most_is_read(self):
        """And no more. The octets after these are left to whoever reads the same file next."""
        for octets, read in [(0, 0), (7, 7), (MOST, MOST), (MOST + 1, MOST + 1),
                             (MOST + 2, MOST + 1), (3 * MOST, MOST + 1)]:
            self.path.write_bytes(octets * b"x")
            with self.subTest(octets=octets), open(self.path, "rb", buffering=0) as text:
                self.assertEqual(REFUSED, run("try", input=None, stdin=text))
                self.assertEqual(read, text.seek(0, os.SEEK_CUR))

    def test_endless_input(self):
        with open("/dev/zero", "rb") as zeros:
            self.assertEqual(REFUSED, run("try", input=None, stdin=zeros))

    def test_no_input(self):
        with open(os.devnull, "rb") as nothing:
            self.assertEqual(REFUSED, run("try", input=None, stdin=nothing))

    def test_a_terminal_shows_what_is_awaited(self):
        """Only if standard input is a terminal: each other test here finds no line."""
        for arguments, first in ([], WAITING), (["try"], WAITING), (["nothing"], None):
            with self.subTest(arguments):
                keyboard, terminal = os.openpty()
                pipes = {"stdout": subprocess.PIPE, "stderr": subprocess.PIPE}
                with subprocess.Popen([PROGRAM, *arguments], stdin=terminal, **pipes) as process:
                    os.close(terminal)
                    line = process.stderr.readline()
                    if first:
                        self.assertEqual(first, line)
                        os.write(keyboard, CARD.replace(b"\r", b"") + b"\x04")
                        out, err = process.communicate(timeout=PATIENCE)
                        self.assertEqual((0, PRINTED, b""), (process.returncode, out, err))
                    else:
                        self.assertNotEqual(WAITING, line)
                os.close(keyboard)

    def test_octet_by_octet(self):
        """Each read gets one octet."""
        ours, theirs = socket.socketpair(socket.AF_UNIX, socket.SOCK_SEQPACKET)
        with ours, theirs:
            process = subprocess.Popen(
                [PROGRAM, "try"], stdin=theirs, stdout=subprocess.PIPE, stderr=subprocess.PIPE)
            theirs.close()
            ours.settimeout(PATIENCE)
            for octet in CARD:
                ours.send(bytes([octet]))
            ours.close()
            out, err = process.communicate(timeout=PATIENCE)
        self.assertEqual(Ended(0, PRINTED, b""), Ended(process.returncode, out, err))

    def test_inputs_that_fail(self):
        folder = os.open(self.path.parent, os.O_RDONLY)
        self.addCleanup(os.close, folder)
        self.assertEqual(DEVICE, run("try", input=None, stdin=folder))
        self.assertEqual(DEVICE, run("try", input=None, preexec_fn=lambda: os.close(0)))

    def test_input_that_only_can_be_written(self):
        with open(self.path, "wb") as text:
            self.assertEqual(DEVICE, run("try", input=None, stdin=text))


class Outputs(unittest.TestCase):
    """Standard output: it is written at once, and may have room for all, for a part or for none."""

    def test_one_write(self):
        """Each write is a packet of its own."""
        ours, theirs = socket.socketpair(socket.AF_UNIX, socket.SOCK_SEQPACKET)
        with ours, theirs:
            self.assertEqual(0, run("try", input=CARD, stdout=theirs).status)
            theirs.close()
            self.assertEqual([PRINTED, b""], [ours.recv(1 << 16), ours.recv(1 << 16)])

    def test_room_for_a_part(self):
        """A file may grow so far, and no farther."""
        with Folder() as folder:
            for room in len(PRINTED), len(PRINTED) - 1, 100, 1, 0:
                path = folder / str(room)
                with self.subTest(room=room), open(path, "wb") as output:
                    ended = run("try", input=CARD, stdout=output, preexec_fn=up_to(room))
                    self.assertEqual(PRINTED[:room], path.read_bytes())
                    wanted = (0, b"") if room == len(PRINTED) else (3, DEVICE.err)
                    self.assertEqual(wanted, (ended.status, ended.err))

    @unittest.skipUnless(os.path.exists("/dev/full"), "there is no /dev/full")
    def test_no_room(self):
        with open("/dev/full", "wb") as full:
            self.assertEqual((3, DEVICE.err), run("try", input=CARD, stdout=full)[::2])
            # Nothing is printed of a text that is refused.
            self.assertEqual((1, REFUSED.err), run("try", input=b"x", stdout=full)[::2])

    def test_closed_output(self):
        for stream, wanted in [(1, DEVICE), (2, Ended(0, PRINTED, b""))]:
            with self.subTest(stream=stream):
                closed = run("try", input=CARD, preexec_fn=lambda: os.close(stream))
                self.assertEqual(wanted, closed)

    def test_pipe_that_nobody_reads(self):
        reading, writing = os.pipe()
        os.close(reading)
        with open(writing, "wb", buffering=0) as pipe:
            ended = run("try", input=CARD, stdout=pipe)
        self.assertEqual((3, DEVICE.err), (ended.status, ended.err))


if __name__ == "__main__":
    unittest.main()
