#!/usr/bin/env python3
"""Measures the server with many connections at once, and prints one table.

The program is that of `./contacts`, or the file that CONTACTS names. README.md beside this file
says what is measured.
"""

import argparse
import os
import sys
import tempfile
from collections import namedtuple
from contextlib import contextmanager
from pathlib import Path
from statistics import median
from subprocess import SubprocessError
from threading import Thread
from time import perf_counter, sleep

# Python leaves no caches in the repository.
sys.dont_write_bytecode = True

from cards import rows
from instructions import CALLS, TIMES, count_run, have_valgrind
from load import FEEDS, Load, rate, request
from table import duration, instructions, machine, octets, put_between
from tosculai import ROOT, Tosculai, digest, find_program
from wire import Failure, Wire

PAGE = ROOT / "docs/OPERATING.md"
BEGIN, END = "<!-- The table begins. -->\n", "<!-- The table ends. -->\n"
CARDS = 1_000
BODY_MAX = 8_388_608
COMPARED = ["get-instructions", "put-instructions"]

# The seconds of a load, and of idling; how many new clients come.
Plan = namedtuple("Plan", "seconds idle clients")
FULL = Plan(5, 10, 100)
QUICK = Plan(1, 2, 20)


class Office:
    """A file with a book of cards, and servers over it."""

    def __init__(self, program, folder):
        self.program, self.folder = program, Path(folder)
        with self.serve() as server:
            server.load(rows(CARDS), "staff")

    @contextmanager
    def serve(self, *more):
        server = Tosculai(self.program, self.folder)
        try:
            server.start(more=more)
            yield server
        finally:
            server.stop()


def status(server, name):
    """A number of /proc/PID/status."""
    lines = Path(f"/proc/{server.process.pid}/status").read_text(encoding="ascii").splitlines()
    return next(int(line.split()[1]) for line in lines if line.startswith(name + ":"))


def run_time(server):
    """The seconds for which the server's process ran so far."""
    text = Path(f"/proc/{server.process.pid}/schedstat").read_text(encoding="ascii")
    return int(text.split()[0]) / 1e9


def first_replies(port, count):
    """The seconds until a new client has its first reply, for some clients."""
    times = []
    for _ in range(count):
        begun = perf_counter()
        wire = Wire(port)
        wire.ask("GET", "/books/staff/cards/u7")
        times.append(perf_counter() - begun)
        wire.close()
        sleep(0.02)
    return times


def spread(times):
    return f"{duration(median(times))}, at most {duration(max(times))}"


# Each function below measures something, and returns rows of the table.

def throughput(office, plan):
    """Over one connection and over many."""
    found = []
    with office.serve() as server:
        port = server.wire.port
        for kind, what in [("get", "gets"), ("put", "cards changed by puts")]:
            one, many = rate(port, 1, kind, plan.seconds), rate(port, 64, kind, plan.seconds)
            found.append((f"{what} a second, over one connection", f"{one:,.0f}"))
            found.append(
                (f"{what} a second, over 64 connections", f"{many:,.0f}, {many / one:.1f}×")
            )
    return found


def latency(office, plan):
    """A new client, alone and among busy ones."""
    title = "a new client's first reply, "
    seconds = max(plan.seconds, plan.clients * 0.05)
    with office.serve() as server:
        port = server.wire.port
        found = [(title + "alone", spread(first_replies(port, plan.clients)))]
        for kind, count, what in [
            ("get", 200, "beside 200 connections that get cards"),
            ("put", 200, "beside 200 connections that put cards"),
            ("feeds", 8, "beside 8 connections that send line feeds alone"),
        ]:
            with Load(port, count, kind, seconds) as load:
                found.append((title + what, spread(first_replies(port, plan.clients))))
            if kind == "feeds":
                text = octets(load.rate * len(FEEDS))
                found.append(("line feeds a second, over these 8 connections", text))
    return found


def worst_body(office, _):
    """A body of line feeds, of which each is a piece of its own."""
    body = request("PUT", "/books/staff/cards/u7", b"\n" * BODY_MAX)
    with office.serve() as server:
        wire = Wire(server.wire.port)
        wire.open()
        sender = Thread(target=wire.socket.sendall, args=[body])
        begun = perf_counter()
        sender.start()
        times, ended = [], []

        def hear():
            wire.socket.recv(1 << 16)
            ended.append(perf_counter() - begun)

        hearer = Thread(target=hear)
        hearer.start()
        while hearer.is_alive():
            times += first_replies(server.wire.port, 1)
        sender.join()
    return [
        (f"a body of {BODY_MAX:,} line feeds, until its reply", duration(ended[0])),
        ("a new client's first reply, beside that body", spread(times)),
    ]


def idle(office, plan):
    """Connections that are open, with nothing to do."""
    with office.serve() as server:
        wires = [Wire(server.wire.port) for _ in range(200)]
        for wire in wires:
            wire.ask("GET", "/none")
        sleep(0.5)
        before = status(server, "voluntary_ctxt_switches"), run_time(server)
        sleep(plan.idle)
        woken = status(server, "voluntary_ctxt_switches") - before[0]
        ran = run_time(server) - before[1]
        for wire in wires:
            wire.close()
    what = f"in {plan.idle} seconds with 200 idle connections"
    return [(f"wake-ups {what}", f"{woken}"), (f"processor time {what}", duration(ran))]


def settled_memory(server):
    """The octets of the server's memory, once they don't change any more."""
    before, size = -1, 0
    while size != before:
        sleep(0.5)
        before, size = size, status(server, "VmRSS") * 1024
    return size


def memory(office, _):
    """By the number of places, and by what connections hold."""
    found = []
    for most in (1, 256, 1_000):
        with office.serve("--max-open", str(most)) as server:
            server.miss()
            size = octets(settled_memory(server))
            found.append((f"memory with `--max-open {most}`", size))
    with office.serve() as server:
        wires = [Wire(server.wire.port) for _ in range(100)]
        for wire in wires:
            wire.open()
            # All of a body but its last octet.
            wire.socket.sendall(request("PUT", "/books/staff/cards/u7", b"x" * 1_000_000)[:-1])
        size = octets(settled_memory(server))
        for wire in wires:
            wire.close()
    return found + [("memory with 100 bodies of 1,000,000 octets under way", size)]


def counted(program, old, folder):
    """Instructions of one connection's calls, compared with an older program if one is given."""
    found = []
    template = Path(folder) / "template"
    template.mkdir()
    Office(program, template)
    counts = {it: count_calls(it, template) for it in filter(None, [program, old])}
    for name in COMPARED:
        now = counts[program][name]
        text = instructions(now)
        if old:
            before = counts[old][name]
            text += f"; before {instructions(before)}, {100 * (now / before - 1):+.1f} %"
        found.append((f"instructions of a {name.partition('-')[0]}, over one connection", text))
    return found


def count_calls(program, template):
    base = count_run(program, template, None, 0)
    counts = {name: count_run(program, template, CALLS[name], TIMES) for name in COMPARED}
    return {name: (count - base) / TIMES for name, count in counts.items()}


def measure(plan, place, old, with_instructions):
    """Measures all, and returns what is printed."""
    program, found = find_program(), []
    for part in (throughput, latency, worst_body, idle, memory):
        begun = perf_counter()
        os.sync()
        with tempfile.TemporaryDirectory(prefix="contacts-perf-", dir=place) as folder:
            found += part(Office(program, folder), plan)
        report(f"{part.__name__}: {perf_counter() - begun:.1f} s")
    if with_instructions:
        with tempfile.TemporaryDirectory(prefix="contacts-perf-", dir=place) as folder:
            found += counted(program, old, folder)
    lines = "".join(f"| {title} | {text} |\n" for title, text in found)
    return (
        f"{machine(place)} The program's SHA-256 is `{digest(program)[:16]}..`.\n\n"
        f"| | |\n| --- | --- |\n{lines}"
    )


def report(line):
    print(line, file=sys.stderr, flush=True)


def main():
    parser = argparse.ArgumentParser(description=__doc__.partition("\n")[0])
    parser.add_argument("--quick", action="store_true", help="shorter loads and fewer clients")
    parser.add_argument("--write", action="store_true", help="put the table into OPERATING.md too")
    with_valgrind = "count instructions too, by valgrind"
    parser.add_argument("--instructions", action="store_true", help=with_valgrind)
    parser.add_argument("--old", help="an older program to compare instructions with")
    place = tempfile.gettempdir()
    parser.add_argument("--folder", default=place, help="where files are made (%(default)s)")
    options = parser.parse_args()
    if options.instructions and not have_valgrind():
        parser.error("valgrind is not installed")
    old = os.path.abspath(options.old) if options.old else None
    try:
        plan = QUICK if options.quick else FULL
        text = measure(plan, options.folder, old, options.instructions)
        print(text, end="")
        if options.write:
            put_between(PAGE, BEGIN, END, text)
    except (Failure, OSError, SubprocessError) as failure:
        report(f"together: {failure}")
        return 1
    return 0


if __name__ == "__main__":
    sys.exit(main())
