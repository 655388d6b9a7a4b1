"""Lives of a file at random, over a disk that stops, fails, and loses what wasn't synced.

    lives.py              the lives of the seeds 1 to 10000
    --seeds A-B           those of these seeds; `--seeds 7-7` is one alone
    --jobs N              parallel processes; by default the number of processors
    --lying-disk          the disk syncs nothing: most lives must differ
    --losing-disk         the disk loses a synced write, too: most lives must differ

A life is a new file, its books, and five devices. Some runs of the program follow, each preloaded
with `crash.c`, which is built with `cc`: at a drawn call that changes the file or its log the power
fails, or calls fail for a while, in the opening or in a command. Then what wasn't synced is lost,
as wholes or in sectors or octets. Requests are sent one after another. Devices page between them,
and keep their tokens. Now and then the file and its log are put back from a copy, with a resync.
All of it follows from the seed.

tests/model computes each reply, which must be the same, octet for octet. A command whose reply was
lost, or was `store-fault`, was made or not: what the books hold then tells which, and all later
replies must agree with that. Each opening must succeed, unless a call failed in it. At the end each
device must have its book's cards and versions, and `contacts verify` must find nothing, nor SQLite
in each 100th file. One life in eight begins with a log so long that it is soon written into the
file.

A `run --create` in which a call failed may say of a file whose making was stopped that it isn't
its own; a later one goes on with it. Only if a call failed while the file was made, and what was
written was lost then, may there be one that no order goes on with: that is removed, and counted.
The orders `restore` and `copy`, which rename files, aren't run.
"""

import argparse
import collections
import multiprocessing
import os
import pathlib
import random
import shutil
import subprocess
import sys
import tempfile
import time
import traceback

sys.dont_write_bytecode = True
HERE = pathlib.Path(__file__).resolve().parent
sys.path.insert(0, str(HERE.parent / "tests"))
from histories import UIDS, Copy, Drawing, parts_of, path  # noqa: E402
from http_requests import request  # noqa: E402
from model.books import Office  # noqa: E402
from model.http import Session  # noqa: E402
from offices import BOOKS, SKIP, contents, long_files, numbers, resync, twin  # noqa: E402
from program import Server, run  # noqa: E402
from test_kills import CAN_CHECK, damage, whole_replies  # noqa: E402

LATER = "lent"  # a book that a writer may make
SHOWN = 600  # characters of a reply in a message
STOPPED = 99  # how crash.c ends a process
EIO, ENOSPC, FOREVER = 5, 28, 10**9
HAS_TABLES, NO_STORE = "fault open 5", "fault open 2"
FAULTS = ["fault open 1", "fault store-fault 19"]  # what a failing disk may bring about
STORE_FAULT = 503, {"fault": "store-fault", "number": 19}

# All that the books hold.
EVERYTHING = [request("GET", path())] + [
    request("GET", path(book, part))
    for book in [*BOOKS, LATER] for part in ["tally", "export", "sync"]
]


class Difference(Exception):
    """What the program did, and what it should have done."""


class Asked(Drawing):
    """Requests of writers: mostly changes."""

    KINDS = {
        "put": 30, "remove": 12, "move": 14, "import_rows": 7, "forget": 2, "get": 2, "report": 3,
        "tally": 2, "export": 1, "people": 1, "list_books": 1, "create": 2, "no_command": 1,
    }


class Life:
    """A file from its first octet on, and the office that it holds, or several that it may hold."""

    def __init__(self, seed, folder, settings):
        self.seed, self.folder, self.settings = seed, pathlib.Path(folder), settings
        self.random = random.Random("life %d" % seed)
        self.file, self.socket = self.folder / "office.db", self.folder / "socket"
        self.is_begun = self.is_torn = self.is_made = False  # how far the file's making is
        self.asked = Asked("life %d" % seed, BOOKS, UIDS)
        self.devices = [Copy(book) for book in [*BOOKS * 2, LATER]]
        self.offices, self.saved = [twin(Office())], []
        self.again = None  # a request whose reply was lost
        self.counts, self.told = collections.Counter(lives=1), []

    def chance(self, part):
        return self.random.random() < part

    def live(self):
        if self.chance(0.125):
            self.take_long()
        for _ in range(self.random.randint(3, 8)):
            self.make()
            self.serve(self.failing(12, 90), self.work)
            if self.is_made and self.chance(0.2):
                self.put_back()
        self.make(works=True)
        self.serve(self.working(), self.finish)
        self.verify()

    # What is wanted.

    def need(self, is_so, what, *found):
        if not is_so:
            raise Difference("\n  ".join([what, *("%.*s" % (SHOWN, repr(it)) for it in found)]))

    def doubt(self, change):
        """A change was made or not: it is made in a twin of each office that it changes."""
        for office in self.offices[:]:
            after = twin(office)
            change(after)
            if numbers(after) != numbers(office):
                after.made += 1
                self.offices.append(after)

    def agree(self, octets, reply):
        """Leaves the offices that give this reply. There must be one."""
        due = [Session(office).feed(octets) for office in self.offices]
        fit = [office for office, it in zip(self.offices, due) if it == reply]
        self.need(fit, "another reply: to, has, due", octets, reply, *due)
        self.offices = fit

    # Processes, and how they end.

    def working(self):
        """The environment in which no call fails, with random octets that follow from the seed."""
        seed = str(self.random.getrandbits(60))
        return {"LD_PRELOAD": self.settings.shim, "CRASH_SEED": seed}

    def failing(self, opening, calls):
        """The environment in which the disk fails under a process, as crash.c reads it. Of its
        calls the first ones are those of an opening."""
        kind = self.random.random()
        words = {self.settings.disk: 1, **self.working()}
        at = self.random.randint(1, opening) if self.chance(0.2) else self.random.randint(1, calls)
        if kind < 0.75:
            words["CRASH_STOP"] = at
        if 0.6 < kind < 0.9:
            first = self.random.randint(1, at)
            last = first + self.random.choice([0, 0, self.random.randrange(9), FOREVER])
            words.update(CRASH_FAULT=first, CRASH_UPTO=last)
            words["CRASH_ERROR"] = self.random.choice([EIO, ENOSPC])
        if self.chance(0.6):
            words["CRASH_AT_END"] = 1
        return {name: str(value) for name, value in words.items()}

    def hear_end(self, name, environment, ended, has_faults=False):
        """What a process said at its end, which must have a cause if it isn't a good one."""
        self.counts["runs"] += 1
        lines = ended.err.decode().splitlines()
        said = [line for line in lines if not line.startswith("crash: ")]
        self.told.append("%s %s: %s %s" % (name, environment, ended.status, lines))
        did_fail = any(" fails: " in line for line in lines)
        self.counts["stops"] += ended.status == STOPPED
        self.counts["faults"] += did_fail
        if ended.status == 3:
            fit = FAULTS * did_fail + [HAS_TABLES] * (self.is_begun and name == "init")
            fit += [NO_STORE] * (not self.is_made and (did_fail or self.is_torn))
            self.need(said[-1] in fit, "a fault without its cause", ended)
            if said[-1] == NO_STORE and not did_fail:
                self.counts["removed"] += 1
                self.is_begun = self.is_torn = False
                self.clear()
        else:
            self.need(ended.status in (0, -9, STOPPED) and not said, "another end", ended)
        self.need(did_fail or not has_faults, "store-fault without a cause")
        self.is_torn |= did_fail and not self.is_made
        return said[-1:]

    def order(self, *words, works=False):
        """An order over the disk. Returns whether it was done, and its fault."""
        works = works or self.chance(0.5)
        environment = self.working() if works else self.failing(10, 30)
        ended = run(words[0], self.file, *words[1:], env=environment)
        fault = self.hear_end(words[0], environment, ended)
        return ended.out if ended.status == 0 else None, fault

    def make(self, works=False):
        """Makes the file by `init`, or leaves it to `run --create`."""
        while not self.is_made and (works or self.chance(0.6)):
            printed, fault = self.order("init", works=works)
            self.need(printed in (None, b"made\n"), "init", printed)
            self.is_begun, self.is_made = True, printed is not None or fault == [HAS_TABLES]

    def clear(self):
        for it in self.folder.glob("office.db*"):
            it.unlink()

    def take_long(self):
        """Begins with a file whose log is long."""
        folder, office = self.random.choice(self.settings.long)
        for it in folder.iterdir():
            shutil.copy(it, self.folder)
        self.offices, self.is_made = [twin(office)], True

    def put_back(self):
        """Copies the file and its log, or puts such a copy back, with a resync. A new book would
        get the id of one that a copy hasn't, with its tokens: so each copy has all the books."""
        saved = self.folder / "saved"
        counts = {len(office.books) for office in [*self.offices, *self.saved]}
        if not self.saved or len(counts) > 1:
            self.saved = list(map(twin, self.offices))
            shutil.rmtree(saved, ignore_errors=True)
            saved.mkdir()
            for it in self.folder.glob("office.db*"):
                shutil.copy(it, saved)
            return
        for office in self.saved:
            office.made = self.offices[0].made
        self.offices, self.saved = self.saved, []
        self.clear()
        for it in saved.iterdir():
            shutil.move(str(it), self.folder)
        while True:
            printed, _ = self.order("resync", "--skip", SKIP)
            if printed is not None:
                break
            self.doubt(resync)
        fit = [it for it in self.offices if b"resynced %d\n" % len(it.books) == printed]
        self.need(fit, "resync", printed)
        self.offices = fit
        for office in fit:
            resync(office)
        self.counts["back"] += 1

    # Runs of the server.

    def serve(self, environment, talk):
        more = [] if self.is_made else ["--create"]
        more += ["--host", "office", "--socket", self.socket]
        with Server(self.file, order="run", more=more, env=environment) as server:
            self.is_begun, self.is_made = True, self.is_made or bool(server.line)
            self.faults, self.is_cut = 0, not server.line
            if server.line:
                with server.connect() as self.connection:
                    talk()
            if not self.is_cut and "CRASH_AT_END" in environment:
                server.process.terminate()
            elif not self.is_cut:
                server.process.kill()
            self.hear_end("run", environment, server.end(), self.faults > 0)

    def ask(self, octets):
        self.connection.send(octets)
        return self.hear(octets)

    def hear(self, octets):
        """The reply to a request; None if it is lost, or a fault of the store."""
        reply = self.connection.reply()
        self.counts["requests"] += 1
        self.is_cut = not whole_replies(reply)
        if not self.is_cut and parts_of(reply) != STORE_FAULT:
            self.agree(octets, reply)
            return reply
        self.faults += not self.is_cut
        self.counts["lost"] += self.is_cut
        self.doubt(lambda office: Session(office).feed(octets))
        self.again = octets if self.chance(0.5) else None
        return None

    def look(self):
        """Asks for everything, so that it's known what was made."""
        self.connection.send(b"".join(EVERYTHING))
        for octets in EVERYTHING:
            if not self.is_cut:
                self.hear(octets)

    def work(self):
        """Writers, and devices that page. After a fault of the store a few more requests come."""
        self.look()
        missing = [book for book in BOOKS if book not in self.offices[0].books]
        asked = [request("PUT", path(book)) for book in missing]
        left = len(asked) + self.random.randint(4, 24)
        while left and not self.is_cut:
            left = min(left - 1, 3) if self.faults else left - 1
            if asked:
                self.ask(asked.pop(0))
            elif self.again and self.chance(0.7):
                self.ask(self.again)
            elif self.chance(0.3):
                self.page(self.random.choice(self.devices))
            else:
                self.write()

    def write(self):
        self.again = None
        reply = self.ask(self.asked.draw())
        if reply:
            self.asked.learn(reply)

    def page(self, device):
        """A page for a device. Returns whether it has its book now, or there is no such book."""
        octets = device.ask(self.random.choice([1, 2, 3, None]))
        reply = self.ask(octets)
        if reply is None or parts_of(reply)[0] == 404:
            return reply is not None
        page = device.hear(reply, whole=self.chance(0.9))
        if page is None or page["truncated"]:
            return False
        for office in self.offices:
            due = contents(office.books[device.book])
            self.need(device.members == due, "a device has, due", device.members, due)
        return True

    def finish(self):
        """Each device goes on until it has its book."""
        self.look()
        for device in self.devices:
            while not self.page(device):
                self.need(not self.is_cut and not self.faults, "the last run was stopped")

    def verify(self):
        ended = run("verify", self.file)
        last = ended.out.splitlines()[-1:]
        due = [b"verified %d" % len(self.offices[0].books)]
        self.need((ended.status, last, ended.err) == (0, due, b""), "verify", ended)
        if self.seed % 100 == 0 and CAN_CHECK:
            found = damage(self.file, self.folder / "copy")
            self.need(not found, "SQLite found", found)
        self.counts["made"] += self.offices[0].made
        self.counts["long"] += self.file.stat().st_size > 4096


# All lives.

Settings = collections.namedtuple("Settings", "shim disk long memory")
SETTINGS = None


def live(seed):
    """The life of a seed: its counts, and what differs, or None."""
    with tempfile.TemporaryDirectory(dir=SETTINGS.memory) as folder:
        life = Life(seed, folder, SETTINGS)
        try:
            life.live()
            return life.counts, None
        except Exception as wrong:
            told = str(wrong) if isinstance(wrong, Difference) else traceback.format_exc()
            where = "** seed %d (lives.py --seeds %d-%d), after %d requests: " % (
                seed, seed, seed, life.counts["requests"])
            return life.counts, where + "\n  ".join([told, *life.told[-4:]])


def main():
    global SETTINGS
    parser = argparse.ArgumentParser(description=__doc__.splitlines()[0])
    parser.add_argument("--seeds", default="1-10000")
    parser.add_argument("--jobs", type=int, default=os.cpu_count())
    for name in "lying", "losing":
        disk = {"action": "store_const", "dest": "disk", "const": "CRASH_" + name.upper()}
        parser.add_argument(f"--{name}-disk", default="CRASH_HONEST", **disk)
    given = parser.parse_args()
    first, _, last = given.seeds.partition("-")
    seeds = range(int(first), int(last or first) + 1)
    memory = "/dev/shm" if os.access("/dev/shm", os.W_OK) else None
    counts, differences, begun = collections.Counter(), 0, time.monotonic()
    with tempfile.TemporaryDirectory(prefix="lives-", dir=memory) as folder:
        shim = os.path.join(folder, "crash.so")
        words = ["cc", "-O2", "-shared", "-fPIC", "-o", shim, str(HERE / "crash.c")]
        subprocess.run(words, check=True)
        SETTINGS = Settings(shim, given.disk, long_files(folder), folder)
        with multiprocessing.get_context("fork").Pool(given.jobs) as pool:
            for some, wrong in pool.imap_unordered(live, seeds, 4):
                counts += some
                if wrong:
                    differences += 1
                    print(wrong, flush=True)
                if counts["lives"] % 500 == 0:
                    seconds = time.monotonic() - begun
                    print(f"{counts['lives']} lives, {seconds:.0f} s", flush=True)
    print(
        f"{counts['lives']} lives, {counts['runs']} runs, {counts['stops']} stops, "
        f"{counts['faults']} with calls that failed, {counts['lost']} replies lost, "
        f"{counts['made']} interrupted commands that were made, {counts['back']} files put back, "
        f"{counts['long']} logs written into their files, {counts['removed']} files removed before "
        f"they were made, {differences} differences"
    )
    return 1 if differences else 0


if __name__ == "__main__":
    sys.exit(main())
