#!/usr/bin/env python3
"""Measures many offices on one machine, each with a server and devices of its own.

Usage: perf/offices.py [--offices N] [--devices N] [--quick] [--write] [--folder DIR]

The program is that of `./contacts`, or the file that CONTACTS names. README.md beside this file
says what is measured.
"""

import argparse
import heapq
import multiprocessing
import os
import random
import re
import selectors
import sys
import tempfile
from collections import namedtuple
from contextlib import contextmanager
from pathlib import Path
from subprocess import PIPE, SubprocessError
from time import perf_counter, sleep
from urllib.parse import quote

# Python leaves no caches in the repository.
sys.dont_write_bytecode = True

from cards import card, rows, uid
from load import request
from server import Server
from table import duration, machine, octets, put_between
from tosculai import digest, find_program
from wire import PATIENCE, Failure, Wire

PAGE = Path(__file__).resolve().parent / "README.md"
BEGIN, END = "<!-- Offices begin. -->\n", "<!-- Offices end. -->\n"
CARDS = 200
TICK = os.sysconf("SC_CLK_TCK")

# A kind of work: what each device does, the seconds between two requests of a device (0: the next
# follows the reply), and every how many of its requests is a put.
Work = namedtuple("Work", "title pause puts")
WORKS = [
    Work("each device asks what is new every 10 seconds, and puts a card each minute", 10, 6),
    Work("each device asks what is new at once again", 0, 0),
    Work("each device puts a card at once again", 0, 1),
]


class Office(Server):
    """A server over a file of its own, with one book."""

    def __init__(self, program, folder):
        self.folder = Path(folder)
        self.folder.mkdir()
        file = str(self.folder / "office.db")
        self.launch([program, "run", file, "--create", "--port", "0", "--host", "office"],
                    stdout=PIPE)
        port = self.process.stdout.readline().rpartition(b":")[2].strip()
        if not port.isdigit():
            raise Failure(f"the server of {folder} did not start")
        self.port = int(port)
        self.wire = Wire(self.port)

    def fill(self):
        """Makes the book, and returns its token."""
        for method, path, body in [("PUT", "/books/staff", b""),
                                   ("POST", "/books/staff/import?key=k", rows(CARDS)),
                                   ("GET", "/books/staff/sync?limit=100", b"")]:
            status, _, reply = self.wire.ask(method, path, body)
            if status not in (200, 201):
                raise Failure(f"{method} {path}: {status} {reply[:200]!r}")
        while reply.endswith(b'"truncated":true}'):
            path = f"/books/staff/sync?limit=100&token={quote(token_of(reply), safe='')}"
            reply = self.wire.ask("GET", path)[2]
        return token_of(reply)

    def memory(self):
        """The octets that the process has, with its share of what it has in common with others."""
        text = Path(f"/proc/{self.process.pid}/smaps_rollup").read_text(encoding="ascii")
        return int(re.search(r"(?m)^Pss: +(\d+)", text)[1]) * 1024

    def seconds(self):
        """The seconds of processors that the process has had."""
        words = Path(f"/proc/{self.process.pid}/stat").read_text().rpartition(")")[2].split()
        return (int(words[11]) + int(words[12])) / TICK


def token_of(reply):
    return reply.rpartition(b'"token":"')[2].partition(b'"')[0].decode()


class Device:
    """A connection that stays open, and the requests of one device."""

    def __init__(self, port, token, number, puts):
        self.wire = Wire(port)
        self.wire.open()
        self.socket, self.read = self.wire.socket, b""
        self.token, self.number, self.puts, self.count, self.sent = token, number, puts, 0, None

    def send(self):
        self.count += 1
        if self.puts and self.count % self.puts == 0:
            body = card(self.number, self.count + 1_000 * self.number)
            octets = request("PUT", f"/books/staff/cards/{uid(self.number)}", body)
        else:
            octets = request("GET", f"/books/staff/sync?token={quote(self.token, safe='')}")
        self.socket.sendall(octets)

    def hear(self):
        """Takes what came; returns whether it makes the reply whole."""
        octets = self.socket.recv(1 << 18)
        if not octets:
            raise Failure("a server closed a connection")
        self.read += octets
        head, end, body = self.read.partition(b"\r\n\r\n")
        length = head.partition(b"Content-Length: ")[2].partition(b"\r\n")[0]
        if not end or len(body) < int(length):
            return False
        if not head.startswith((b"HTTP/1.1 200", b"HTTP/1.1 201")):
            raise Failure(f"a server replied {self.read[:200]!r}")
        if b'"token":"' in body:
            self.token = token_of(body)
        self.read = b""
        return True


def work_for(places, work, seconds, begin, results):
    """Does the work of these devices, and puts the seconds that each of their replies took."""
    selector = selectors.DefaultSelector()
    devices = [Device(*place, work.puts) for place in places]
    for device in devices:
        selector.register(device.socket, selectors.EVENT_READ, device)
    begin.wait(PATIENCE)
    begun, times = perf_counter(), []
    draw = random.Random(len(places))
    # What each device sends next, and when. The number tells equal times apart.
    due = [(begun + draw.random() * work.pause, number) for number in range(len(devices))]
    heapq.heapify(due)
    numbers = {id(device): number for number, device in enumerate(devices)}
    while perf_counter() < begun + seconds:
        now = perf_counter()
        while due and due[0][0] <= now:
            device = devices[heapq.heappop(due)[1]]
            device.sent = perf_counter()
            device.send()
        wait = min(due[0][0] if due else begun + seconds, begun + seconds) - perf_counter()
        for key, _ in selector.select(max(0, wait)):
            device = key.data
            if device.hear():
                times.append(perf_counter() - device.sent)
                heapq.heappush(due, (device.sent + work.pause, numbers[id(device)]))
    results.put((times, perf_counter() - begun))


def machine_seconds():
    """The seconds that all processors of the machine had in all, idle, and waiting for a disk."""
    with open("/proc/stat", encoding="ascii") as file:
        words = [int(it) / TICK for it in file.readline().split()[1:9]]
    return sum(words), words[3], words[4]


def do(work, offices, tokens, count, seconds):
    """Rows of the table on this work."""
    places = [(office.port, token, number) for office, token in zip(offices, tokens)
              for number in range(count)]
    processes = max(1, (os.cpu_count() or 2) // 2)
    begin, results = multiprocessing.Barrier(processes + 1), multiprocessing.Queue()
    workers = [multiprocessing.Process(target=work_for, daemon=True, args=(
        places[first::processes], work, seconds, begin, results)) for first in range(processes)]
    for worker in workers:
        worker.start()
    begin.wait(PATIENCE)
    before, used = machine_seconds(), sum(it.seconds() for it in offices)
    found = [results.get(timeout=seconds + PATIENCE) for _ in workers]
    after, used = machine_seconds(), sum(it.seconds() for it in offices) - used
    for worker in workers:
        worker.join(PATIENCE)
    times = sorted(time for part, _ in found for time in part)
    if not times:
        raise Failure("no reply came")
    whole = max(it for _, it in found)
    late = times[min(len(times) - 1, len(times) * 99 // 100)]
    idle, waiting = ((after[at] - before[at]) / (after[0] - before[0]) for at in (1, 2))
    return [
        (work.title + ": requests a second", f"{len(times) / whole:,.0f}"),
        ("its replies", f"{duration(times[len(times) // 2])}; 99 of 100 within {duration(late)}"),
        ("processors that the servers used", f"{used / whole:.2f} of {os.cpu_count()}"),
        ("of the machine's processors idle", f"{100 * (idle + waiting):.0f} %, of which"
         f" {100 * waiting:.0f} % wait for the disk"),
        ("memory of all servers", octets(sum(it.memory() for it in offices))),
    ]


@contextmanager
def started(program, folder, count):
    offices = []
    try:
        for number in range(count):
            offices.append(Office(program, Path(folder) / f"office-{number}"))
        yield offices
    finally:
        for office in offices:
            office.stop()


def measure(offices, devices, seconds, folder):
    """All rows, as a table."""
    program, found, load = find_program(), [], os.getloadavg()[0]
    begun = perf_counter()
    with started(program, folder, offices) as servers:
        found.append(("start of all servers, over new files", duration(perf_counter() - begun)))
        tokens = [it.fill() for it in servers]
        sleep(1)
        each = sorted(it.memory() for it in servers)
        found.append(("memory of all servers, idle", octets(sum(each))))
        found.append(("memory of one, idle", f"{octets(each[0])} to {octets(each[-1])}"))
        for work in WORKS:
            print(work.title, file=sys.stderr, flush=True)
            long = max(seconds, 2 * work.pause + 1) if work.pause else seconds
            found += do(work, servers, tokens, devices, long)
    lines = "".join(f"| {title} | {text} |\n" for title, text in found)
    return (f"{machine(folder)} The load was {load:.1f} before. The program's SHA-256 is"
            f" `{digest(program)[:16]}..`.\n\n"
            f"| {offices} offices of {CARDS} cards, each with {devices} devices | |\n"
            f"| --- | --- |\n{lines}")


def main():
    parser = argparse.ArgumentParser(description=__doc__.partition("\n")[0])
    parser.add_argument("--offices", type=int, default=50, help="servers (%(default)s)")
    parser.add_argument("--devices", type=int, default=20, help="of each office (%(default)s)")
    parser.add_argument("--quick", action="store_true", help="a few seconds of each work")
    parser.add_argument("--write", action="store_true", help="put the table into README.md too")
    place = tempfile.gettempdir()
    parser.add_argument("--folder", default=place, help="where files are made (%(default)s)")
    given = parser.parse_args()
    try:
        with tempfile.TemporaryDirectory(prefix="contacts-perf-", dir=given.folder) as folder:
            text = measure(given.offices, given.devices, 2 if given.quick else 10, folder)
        print(text, end="")
        if given.write:
            put_between(PAGE, BEGIN, END, text)
    except (Failure, OSError, SubprocessError) as failure:
        print(f"offices: {failure}", file=sys.stderr)
        return 1
    return 0


if __name__ == "__main__":
    sys.exit(main())
