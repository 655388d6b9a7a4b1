"""The commands that `follow --exec` runs for each version that it keeps.

A version is queued in the book's database before it is kept, and leaves the queue after its command
ended with status 0. So each command runs at least once, whenever `follow` is killed, and twice if
it is killed while the command runs or right after it. A command that fails is run again in the next
round, after the others.
"""

import json
import os
import signal
import sqlite3
import subprocess
import time
from typing import Any, Dict, List, NamedTuple

LONGEST = 60.0  # seconds that a command may take
FAILURES = 3  # that end the commands of a round
SCHEMA = """CREATE TABLE IF NOT EXISTS hooks (number INTEGER PRIMARY KEY AUTOINCREMENT,
    uid TEXT NOT NULL, version INTEGER NOT NULL, removed INTEGER NOT NULL,
    tries INTEGER NOT NULL DEFAULT 0, UNIQUE (uid, version, removed))"""


class Due(NamedTuple):
    """A version whose command is still to be run."""

    number: int
    uid: str
    version: int
    removed: bool


class Queue:
    """The queue of a book, in its database, which is open."""

    def __init__(self, db: sqlite3.Connection) -> None:
        self._db = db
        db.execute(SCHEMA)
        db.commit()

    def add(self, uid: str, version: int, removed: bool) -> None:
        """Adds a version that is about to be kept; `commit` makes it last."""
        self._db.execute("INSERT OR IGNORE INTO hooks (uid, version, removed) VALUES (?, ?, ?)",
                         (uid, version, removed))

    def commit(self) -> None:
        self._db.commit()

    def due(self) -> List[Due]:
        """All that is due, in order; what failed comes last."""
        rows = self._db.execute("SELECT number, uid, version, removed FROM hooks "
                                "ORDER BY tries, number").fetchall()
        return [Due(number, uid, version, bool(removed)) for number, uid, version, removed in rows]

    def done(self, due: Due) -> None:
        self._db.execute("DELETE FROM hooks WHERE number = ?", (due.number,))
        self._db.commit()

    def failed(self, due: Due) -> None:
        self._db.execute("UPDATE hooks SET tries = tries + 1 WHERE number = ?", (due.number,))
        self._db.commit()


def run_hook(command: str, event: Dict[str, Any], longest: float = LONGEST) -> str:
    """Runs a shell command with the event as a line of JSON; returns what went wrong, if anything.

    Nothing of a card is part of the command itself.
    """
    options: Dict[str, Any] = {}
    if os.name == "posix":
        options["preexec_fn"] = os.setpgrp  # so that all that it started can be ended with it
    try:
        process = subprocess.Popen(command, shell=True, stdin=subprocess.PIPE, **options)
    except OSError as fault:
        return str(fault)
    try:
        process.communicate((json.dumps(event) + "\n").encode(), timeout=longest)
    except BaseException as fault:
        end(process)
        if not isinstance(fault, subprocess.TimeoutExpired):
            raise
        return f"it took more than {longest:g} seconds"
    return f"status {process.returncode}" if process.returncode else ""


def end(process: "subprocess.Popen[bytes]") -> None:
    """Ends a command, and what it started."""
    try:
        if os.name == "posix":
            os.killpg(process.pid, signal.SIGTERM)
            begun = time.monotonic()
            while process.poll() is None and time.monotonic() - begun < 1:
                time.sleep(0.02)
            os.killpg(process.pid, signal.SIGKILL)
        else:
            process.kill()
    except ProcessLookupError:
        pass
    process.wait()
