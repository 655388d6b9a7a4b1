"""Files of the program: made by orders and requests, copied, read and changed by sqlite3."""

import json
import os
import resource
import shutil
import signal
import sqlite3
import tempfile
from collections import namedtuple
from pathlib import Path

from http_requests import put, remove, sync
from program import Ended, Folder, Server, run
from tables import Tables

# What a file holds: the statements that declare its tables, and the rows of each table.
Contents = namedtuple("Contents", "declared rows")


# What a device is told whose token is of before a resync.
TOO_OLD = {"cause": 4, "fault": "valid-sync-token", "number": 10}
MEMORY = "/dev/shm"
ROOM = 40_000_000  # octets, more than any of these tests writes


class QuickFolder(Folder):
    """A folder in memory, if the system offers one, for files that need no disk.

    Each time that a file of books is opened, it is written to the disk, which is slow.
    """

    def __enter__(self):
        has_room = os.access(MEMORY, os.W_OK) and shutil.disk_usage(MEMORY).free > ROOM
        where = MEMORY if has_room else None
        self.path = Path(tempfile.mkdtemp(prefix="contacts-test-", dir=where))
        return self.path


def fault(number):
    """How the program ends if it can't open a file."""
    return Ended(3, b"", b"fault open %d\n" % number)


def run_order(*words, **options):
    """How an order ends, without the sentence before its last line, which test_words has."""
    ended = run(*words, **options)
    return ended._replace(err=ended.err[ended.err.rfind(b"\n", 0, -1) + 1:])


def log_of(file):
    return Path(f"{file}-wal")


def make(file, *books):
    """Makes a new file with these books, by orders."""
    ended = [run("init", file), *(run("book", file, book) for book in books)]
    wanted = [b"made\n", *(b"book %d\n" % number for number in range(1, 1 + len(books)))]
    assert ended == [Ended(0, line, b"") for line in wanted], ended
    return file


def serve(file, *requests):
    """The replies to these requests over one connection."""
    with Server(file) as server:
        return server.ask(b"".join(requests))


def bodies(replies):
    """The JSON values of the replies."""
    return [json.loads(it.rpartition(b"\r\n\r\n")[2]) for it in replies.split(b"HTTP/1.1 ")[1:]]


def ask(file, *requests):
    """The JSON values of the replies to these requests over one connection."""
    return bodies(serve(file, *requests))


def start_again(test, file, lost):
    """Changes the book that was put back, as its test_lost_time says, and returns its page.

    Three changes bring the book to the number of the device that was there before, 5. The device is
    told to start again, and then equals the book. No version of the lost time names another card.
    """
    changes = [put("staff", "e", "Eve"), remove("staff", "b"), put("staff", "a", "Annabel")]
    test.assertEqual([{"put": "created", "version": 1_000_003}, {"number": 1_000_004},
                      {"put": "edited", "version": 1_000_005}], ask(file, *changes))
    refused, page = ask(file, sync("staff", "1/5/5"), sync("staff"))
    test.assertEqual(TOO_OLD, refused)
    test.assertEqual({"e": 1_000_003, "a": 1_000_005},
                     {it["uid"]: it["version"] for it in page["members"]})
    for uid, version in lost.items():
        with test.subTest(uid=uid):
            refused, = ask(file, put("staff", uid, "Zoe", f"?version={version}"))
            test.assertEqual("version-mismatch", refused["fault"])
    return page


def copy(file, folder):
    """A copy of the file, and of its log if it has one, in the new folder."""
    folder.mkdir()
    for it in file, log_of(file):
        if it.exists():
            shutil.copy(it, folder / it.name)
    return folder / file.name


def contents(file, folder):
    """What the file holds, read from a copy in the new folder, which SQLite must find sound."""
    with Tables(copy(file, folder)) as tables:
        assert tables.rows("PRAGMA integrity_check") == [(b"ok",)]
        assert tables.rows("PRAGMA foreign_key_check") == []
        return Contents(tables.declared(), tables.all_rows())


def is_damaged(tables, statements):
    """Runs the statements. Returns whether the tables allowed the rows that they make."""
    try:
        tables.run(statements)
    except sqlite3.IntegrityError:
        return False
    return True


def renew(file, octets):
    """Makes the file one with these octets, without a log."""
    for old in file.parent.glob(f"{file.name}*"):
        old.unlink()
    file.write_bytes(octets)
    return file


def up_to(octets, is_killed=False):
    """For `preexec_fn`: no file grows past this size. A write past it fails, or kills the program.

    This tests full disks without having one, and crashes at any write.
    """

    def limit():
        signal.signal(signal.SIGXFSZ, signal.SIG_DFL if is_killed else signal.SIG_IGN)
        resource.setrlimit(resource.RLIMIT_CORE, (0, 0))
        _, most = resource.getrlimit(resource.RLIMIT_FSIZE)
        resource.setrlimit(resource.RLIMIT_FSIZE, (octets, most))

    return limit
