#!/usr/bin/env python3
"""Measures the CardDAV gateway beside Radicale on files, in one run, and prints a table.

Usage: perf/carddav.py [--quick] [--write] [--folder DIR]

Both hold the same cards. One client sends the requests that phones send, and waits for each reply;
a value is the median. Radicale is left out if it isn't installed.
"""

import argparse
import base64
import os
import re
import shutil
import subprocess
import sys
import tempfile
import time
from pathlib import Path
from statistics import median

from cards import card, uid
from dav import HREF, PROPERTIES, TOKEN, XML, Peer, Radicale, xml
from table import machine, octets, put_between
from tosculai import ROOT, Tosculai, digest, find_program
from wire import Failure, Wire, field

PAGE = ROOT / "perf/README.md"
BEGIN, END = "<!-- CardDAV begins. -->\n", "<!-- CardDAV ends. -->\n"
PHONES, PHOTOS = 50, 500
TICK = os.sysconf("SC_CLK_TCK")


class Gateway(Peer):
    """The gateway over Tosculai's server."""

    name, book, other = "the gateway", "/dav/books/staff/", "/dav/books/clients/"
    fields = b"Authorization: Basic " + base64.b64encode(b"me:me") + b"\r\n"

    def __init__(self, folder):
        super().__init__(folder)
        self.server, self.has_books = Tosculai(find_program(), folder), True
        self.server.start()
        self.state = Path(folder) / "state"
        self.tool = [sys.executable, str(ROOT / "clients/carddav/carddav")]
        subprocess.run([*self.tool, "user", "add", "me", "--book", "*:rw", "--state",
                        str(self.state)], input=b"me\n", check=True)

    def command(self, port):
        return [*self.tool, "--server", f"http://127.0.0.1:{self.server.wire.port}", "--state",
                str(self.state), "--port", str(port)]

    def end(self):
        self.stop()
        self.server.stop()

    def forget(self):
        """Removes the copy and the names, as at a first start."""
        for path in self.state.glob("names.db*"):
            path.unlink()

    def pids(self):
        return [self.process.pid, self.server.process.pid]


class Files(Radicale):
    """Radicale on files."""

    def end(self):
        self.stop()

    def forget(self):
        """Removes what Radicale keeps of parsed cards, as after an upgrade."""
        for path in Path(self.folder).rglob(".Radicale.cache"):
            shutil.rmtree(path)

    def pids(self):
        return [self.process.pid]


def propfind(names):
    return xml(b"d:propfind", b"<d:prop>" + names + b"</d:prop>")


def sync(token, props=b"<d:prop><d:getetag/></d:prop>"):
    return xml(b"d:sync-collection", b"<d:sync-token>%s</d:sync-token><d:sync-level>1"
               b"</d:sync-level>%s" % (token.encode(), props))


class Day:
    """The requests against one peer, with their times."""

    def __init__(self, peer, count):
        self.peer, self.count, self.figures = peer, count, {}

    def ask(self, method, path, body=b"", fields=b""):
        status, head, reply = self.peer.wire.ask(method, path, body, fields)
        if not 200 <= status < 300:
            raise Failure(f"{self.peer.name}: {method} {path} {status} {reply[:300]!r}")
        return head, reply

    def timed(self, name, calls, ask):
        times = []
        for number in range(calls):
            begun = time.perf_counter()
            ask(number)
            times.append(time.perf_counter() - begun)
        self.figures[name] = median(times)

    def token(self):
        reply = self.ask("REPORT", self.peer.book, sync(""), XML)[1]
        return TOKEN.search(reply)[1].decode()

    def etags(self, depth=b"1"):
        return self.ask("PROPFIND", self.peer.book, propfind(b"<d:getetag/>"),
                        XML + b"Depth: %s\r\n" % depth)[1]

    def run(self, few):
        book = self.peer.book
        self.first("first")
        self.timed("poll", 20 * few, lambda _: self.ask(
            "PROPFIND", book, propfind(b"<d:sync-token/>"), XML + b"Depth: 0\r\n"))
        self.timed("etags", few, lambda _: self.etags())
        self.timed("all", few, lambda _: self.ask("REPORT", book, sync(""), XML))
        token = self.token()
        self.timed("nothing", 20 * few, lambda _: self.ask("REPORT", book, sync(token), XML))
        hrefs = b"".join(b"<d:href>%s</d:href>" % it for it in HREF.findall(self.etags())[:100])
        body = xml(b"c:addressbook-multiget", PROPERTIES + hrefs)
        self.timed("multiget", few, lambda _: self.ask("REPORT", book, body,
                                                       XML + b"Depth: 1\r\n"))
        self.timed("edit", 10 * few, self.edit)
        self.timed("new", 10 * few, self.new)
        self.phones(few)
        self.figures["memory"] = self.memory()
        self.peer.stop()
        self.peer.start()
        self.first("second")
        self.peer.stop()
        self.peer.forget()
        self.peer.start()
        self.first("cold")

    def first(self, name):
        """The first request after the start: all ETags."""
        begun = time.perf_counter()
        if self.etags().count(b".vcf<") < self.count:
            raise Failure(f"{self.peer.name} lists too few cards")
        self.figures[name] = time.perf_counter() - begun

    def edit(self, number):
        """A get, which isn't a part of the time elsewhere, and a put with its ETag."""
        path = f"{self.peer.book}{uid(number)}.vcf"
        head, text = self.ask("GET", path)
        begun = time.perf_counter()
        new = re.sub(rb"(\d{7})\r", lambda it: b"%07d\r" % (int(it[1]) + 1), text)
        self.ask("PUT", path, new, b"Content-Type: text/vcard\r\nIf-Match: %s\r\n"
                 % field(head, b"etag"))
        self.edits = getattr(self, "edits", []) + [time.perf_counter() - begun]
        self.figures["put"] = median(self.edits)

    def new(self, number):
        name = 100_000 + number
        text = card(name).replace(b"VERSION:4.0", b"VERSION:3.0")
        self.ask("PUT", f"{self.peer.book}{uid(name)}.vcf", text,
                 b"Content-Type: text/vcard\r\nIf-None-Match: *\r\n")

    def phones(self, few):
        """The share of a processor that phones cost which ask for news once a minute."""
        token, rounds, begun = self.token(), max(1, few // 5), self.processor()
        wires = [Wire(self.peer.wire.port, self.peer.fields) for _ in range(PHONES)]
        for _ in range(rounds):
            for wire in wires:
                status, _, _ = wire.ask("REPORT", self.peer.book, sync(token), XML)
                if status != 207:
                    raise Failure(f"{self.peer.name}: {status}")
        self.figures["phones"] = (self.processor() - begun) / rounds / 60
        for wire in wires:
            wire.close()

    def processor(self):
        """Seconds of processors that the processes have had."""
        whole = 0
        for pid in self.peer.pids():
            words = Path(f"/proc/{pid}/stat").read_text().rpartition(")")[2].split()
            whole += int(words[11]) + int(words[12])
        return whole / TICK

    def memory(self):
        text = Path(f"/proc/{self.peer.process.pid}/status").read_text()
        return int(re.search(r"VmHWM:\s+(\d+)", text)[1]) * 1024


def photos(peer):
    """The gateway's memory after photos of 100 kB each were put, and all read by one request."""
    photo = base64.b64encode(os.urandom(100_000))
    day = Day(peer, 0)
    for number in range(PHOTOS):
        text = card(200_000 + number).replace(b"VERSION:4.0", b"VERSION:3.0").replace(
            b"TITLE:", b"PHOTO;ENCODING=b;TYPE=JPEG:" + photo + b"\r\nTITLE:")
        day.ask("PUT", f"{peer.other}{uid(number)}.vcf", text)
    begun = time.perf_counter()
    reply = day.ask("REPORT", peer.other, sync("", PROPERTIES), XML)[1]
    taken = time.perf_counter() - begun
    if reply.count(b"BEGIN:VCARD") != PHOTOS:
        raise Failure("photos are missing")
    return day.memory(), taken


def large(peer):
    """How much more memory the gateway needs for a photo of 10 MB, which is sent and read."""
    photo, day = base64.b64encode(os.urandom(10_000_000)), Day(peer, 0)
    before, path = day.memory(), f"{peer.other}{uid(300_000)}.vcf"
    text = card(300_000).replace(b"VERSION:4.0", b"VERSION:3.0").replace(
        b"TITLE:", b"PHOTO;ENCODING=b;TYPE=JPEG:" + photo + b"\r\nTITLE:")
    day.ask("PUT", path, text)
    reply = day.ask("REPORT", peer.other, sync("", PROPERTIES), XML)[1]
    if len(reply) < len(photo):
        raise Failure("the photo is missing")
    return day.memory() - before


ROWS = [
    ("nothing", "a sync where nothing is new"), ("poll", "PROPFIND of the sync token"),
    ("etags", "all ETags, by PROPFIND"), ("all", "a first sync, all ETags"),
    ("multiget", "a multiget of 100 cards"), ("put", "a put that edits a card"),
    ("new", "a put of a new card"), ("second", "the first request after a start, all ETags"),
    ("cold", "the same, without what was kept of the cards"),
]


def milliseconds(value):
    return f"{value * 1000:,.1f} ms" if value < 0.1 else f"{value * 1000:,.0f} ms"


def report(count, days, more):
    names = [day.peer.name for day in days]
    lines = [f"| {count:,} cards of 340 octets | " + " | ".join(names) + " |",
             "| --- |" + " --- |" * len(names)]
    for key, title in ROWS:
        lines.append(f"| {title} | " + " | ".join(milliseconds(it.figures[key]) for it in days)
                     + " |")
    lines.append(f"| {PHONES} phones that ask once a minute | " + " | ".join(
        f"{it.figures['phones'] * 100:.2f} % of a processor" for it in days) + " |")
    lines.append("| most memory | " + " | ".join(octets(it.figures["memory"]) for it in days)
                 + " |")
    if more:
        lines.append(f"| most memory with {PHOTOS} photos of 100 kB, read by one request |"
                     f" {octets(more[0])}, in {more[1]:.1f} s |" + " |" * (len(names) - 1))
        lines.append("| more memory for a photo of 10 MB, which is sent and read |"
                     f" {octets(more[2])} |" + " |" * (len(names) - 1))
    return "".join(it + "\n" for it in lines)


def measure(count, few, folder):
    kinds = [Gateway] + ([Files] if shutil.which("radicale") else [])
    days, more = [], None
    for kind in kinds:
        with tempfile.TemporaryDirectory(prefix="carddav-", dir=folder) as room:
            peer = kind(room)
            try:
                peer.start()
                day = Day(peer, count)
                for number in range(count):
                    peer.put(number)
                day.run(few)
                if kind is Gateway:
                    more = (*photos(peer), large(peer))
                days.append(day)
                print(f"measured {peer.name}", file=sys.stderr, flush=True)
            finally:
                peer.end()
    return report(count, days, more)


def main():
    parser = argparse.ArgumentParser(description=__doc__.partition("\n")[0])
    parser.add_argument("--quick", action="store_true", help="200 cards and few calls")
    parser.add_argument("--write", action="store_true", help="put the table into perf/README.md")
    parser.add_argument("--folder", default=tempfile.gettempdir())
    given = parser.parse_args()
    count, few = (200, 3) if given.quick else (2_000, 10)
    load = os.getloadavg()[0]
    text = (f"{machine(given.folder)} The load was {load:.1f} before. The server's SHA-256 is "
            f"`{digest(find_program())[:16]}..`.\n\n" + measure(count, few, given.folder))
    print(text, end="")
    if given.write:
        put_between(PAGE, BEGIN, END, text)
    return 0


if __name__ == "__main__":
    sys.exit(main())
