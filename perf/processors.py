#!/usr/bin/env python3
"""Measures how much of a processor each server needs for a request, in one run for all.

Usage: perf/processors.py [--cards N] [--seconds S] [--folder DIR]

Other programs of the machine change these figures little, where they change times a lot. The program
is that of `./contacts`, or the file that CONTACTS names. README.md beside this file says more.
"""

import argparse
import itertools
import os
import sys
import tempfile
from pathlib import Path
from subprocess import SubprocessError
from time import monotonic

# Python leaves no caches in the repository.
sys.dont_write_bytecode = True

from peers import find_peers
from table import duration, machine, octets
from tosculai import Tosculai, digest, find_program
from wire import Failure

TICK = os.sysconf("SC_CLK_TCK")
# So many ticks of a processor are enough for a figure.
ENOUGH = 40


def parents():
    """Each process of the machine with its parent's number, and its ticks with those of children
    that have ended."""
    found = {}
    for folder in Path("/proc").glob("[0-9]*"):
        try:
            words = (folder / "stat").read_text().rpartition(")")[2].split()
        except OSError:
            continue
        found[int(folder.name)] = int(words[1]), sum(int(it) for it in words[11:15])
    return found


def ticks(pid):
    """What the process and all that it has started had of the processors."""
    found, wanted = parents(), {pid}
    while True:
        more = {it for it, (parent, _) in found.items() if parent in wanted} - wanted
        if not more:
            return sum(found[it][1] for it in wanted)
        wanted |= more


def cost(server, call, seconds):
    """The seconds of a processor for a call, once enough calls were made for that."""
    call()
    begun, end, count = ticks(server.process.pid), monotonic() + seconds, 0
    while True:
        for _ in range(max(1, count)):
            call()
            count += 1
            if monotonic() > end:
                break
        used = ticks(server.process.pid) - begun
        if used >= ENOUGH or monotonic() > end:
            return used / TICK / count


def figures_of(server, cards, seconds):
    """The figures of a server whose book is empty."""
    server.start()
    try:
        for number in range(cards):
            server.put(number)
        numbers, editions = itertools.cycle(range(cards)), itertools.count(1)
        token, found = server.sync("")
        if found != cards:
            raise Failure(f"a sync has {found} of {cards} cards")
        calls = {
            "a put that changes a card": lambda: server.put(next(numbers), next(editions)),
            "a get": lambda: server.get(next(numbers)),
            "a first sync of all cards": lambda: server.sync(""),
            "a sync where nothing changed": lambda: server.sync(token),
        }
        found = {}
        for name, call in calls.items():
            token = server.sync("")[0]
            found[name] = duration(cost(server, call, seconds))
        found["most memory"] = octets(server.most_memory())
        return found
    finally:
        server.stop()


def measure(cards, seconds, place):
    program, peers = find_program(), find_peers()
    begun = f"{machine(place)} The load was {os.getloadavg()[0]:.1f} before."
    columns = {}
    for name, make in [("Tosculai", lambda folder: Tosculai(program, folder)),
                       *((kind.name, kind) for kind in peers)]:
        with tempfile.TemporaryDirectory(prefix="contacts-perf-", dir=place) as folder:
            columns[name] = figures_of(make(folder), cards, seconds)
        print(name, columns[name], file=sys.stderr, flush=True)
    versions = "".join(f", {kind.name} {version}" for kind, version in peers.items())
    rows = [f"| {row} | " + " | ".join(column[row] for column in columns.values()) + " |\n"
            for row in next(iter(columns.values()))]
    return (f"{begun} The program's SHA-256 is `{digest(program)[:16]}..`{versions}.\n\n"
            f"| processor time of the server, {cards:,} cards | " + " | ".join(columns) + " |\n"
            + "| --- " * (len(columns) + 1) + "|\n" + "".join(rows))


def main():
    parser = argparse.ArgumentParser(description=__doc__.partition("\n")[0])
    parser.add_argument("--cards", type=int, default=500, help="of the book (%(default)s)")
    parser.add_argument("--seconds", type=int, default=20, help="the most for a kind of request, "
                        "if a server needs little for it (%(default)s)")
    place = tempfile.gettempdir()
    parser.add_argument("--folder", default=place, help="where files are made (%(default)s)")
    given = parser.parse_args()
    try:
        print(measure(given.cards, given.seconds, given.folder), end="")
    except (Failure, OSError, SubprocessError) as failure:
        print(f"processors: {failure}", file=sys.stderr)
        return 1
    return 0


if __name__ == "__main__":
    sys.exit(main())
