"""A live backup of a server: follows all books, and keeps each version of each card that it sees.

Usage: follow.py URL FOLDER [--every SECONDS] [--once] [--dated] [--log FILE] [--exec COMMAND]
       follow.py log FOLDER BOOK UID                  list the versions of a card
       follow.py diff FOLDER BOOK UID [FROM [TO]]     compare two of them
       follow.py restore FOLDER BOOK UID VERSION      put one back into the book
       follow.py purge FOLDER BOOK UID                end what is kept of a card
       follow.py purge FOLDER --text TEXT             .. of all versions that have a text

FOLDER/BOOK has the cards as they are, a file each, and FOLDER/BOOK/versions/CARD each version of
one, with its list in index.json. If git is installed, FOLDER is also a repository, with a commit
for each page of changes, unless --dated says otherwise. A book has no history of its own: of two
edits between two rounds, only the second is seen.

Following never sends anything to the server. It may be stopped at any moment, and goes on where it
was. Each of the other commands says more with --help.
"""

import argparse
import os
import random
import shutil
import sys
import time
from contextlib import contextmanager
from typing import Any, Dict, Iterator, List, Optional

from tosculai import Error, Office, Page, Refused, Report, Row
from tosculai_tools import git, memory
from tosculai_tools.authors import Authors
from tosculai_tools.command import DONE, FAULT, INTERRUPTED, office_at, seconds
from tosculai_tools.folder import FolderCopy, FolderError
from tosculai_tools.hooks import FAILURES, Due, Queue, run_hook
from tosculai_tools.memory import say
from tosculai_tools.versions import New, Version, Versions

KEPT = "memory"  # the fact that the versions of before are in the folder `versions`
WHOLE = "whole"  # the fact that a sync without a token isn't at its end


class Settings:
    """What all backups of a run share."""

    def __init__(self, authors: Authors, command: Optional[str], has_git: bool) -> None:
        self.authors, self.command, self.has_git = authors, command, has_git


class Backup(FolderCopy):
    """A copy of a book whose edits are never sent, with all versions of its cards."""

    def __init__(self, path: str, settings: Settings, starts_over: bool = False) -> None:
        super().__init__(path, may_be_empty=True, starts_over=starts_over)
        self.versions = Versions(os.path.join(path, memory.VERSIONS))
        self.book, self._settings = os.path.basename(path), settings
        self.due = 0  # commands that are still to be run

    def edits(self) -> Dict[str, str]:
        return {}

    @contextmanager
    def opened(self, url: str) -> Iterator[None]:
        with super().opened(url):
            self._queue = Queue(self._db)
            self._keep_what_was_there()
            memory.write_book(self.path, url)
            yield
            if self._settings.command:
                self._run_hooks(self._settings.command)

    def _keep_what_was_there(self) -> None:
        """Keeps the versions of a folder of before, which may lack them or their lists."""
        if self._db.execute("SELECT 1 FROM facts WHERE name = ?", (KEPT,)).fetchone():
            return
        for uid in self.versions.all():
            self.versions.write_index(uid, self.versions.of(uid))
        for uid, row in self.rows.items():
            if row.text:
                self.versions.keep([New(uid, row.version, row.text)])
        self._db.execute("INSERT INTO facts VALUES (?, '1')", (KEPT,))
        self._db.commit()

    def apply(self, changes: Dict[str, bool], rows: Dict[str, Row], token: str,
              report: Report) -> None:
        self._keep(rows)
        super().apply(changes, rows, token, report)

    def _keep(self, rows: Dict[str, Row]) -> None:
        """Keeps what the memory lacks of these cards, of which each is now as its row."""
        self._settings.authors.read()
        new = [it for it in (self._news(uid, row) for uid, row in rows.items()) if it]
        for uid, number, text, _ in new if self._settings.command else ():
            if not self.versions.ends_with(uid, number, text):
                self._queue.add(uid, number, not text)
        self._queue.commit()
        self.versions.keep(new)  # also if a stop came before their lists were written

    def _news(self, uid: str, row: Row) -> Optional[New]:
        """The version or the removal that this row is, unless the memory has it.

        A stop may have come after a version was kept, and before its row was. So a row that is as
        before is compared with the last version.
        """
        before = self.row(uid)
        is_same = (row.version, row.text) == (before.version, before.text)
        last = self.versions.of(uid)[-1:] if is_same or not row.text else []
        if is_same and (self.versions.ends_with(uid, row.version, row.text) if row.text
                        else not last or last[0].removed):
            return None
        number = row.version if row.text else last[0].version if last else before.version
        return New(uid, number, row.text,
                   self._settings.authors.who(self.book, uid, number, not row.text))

    def take(self, page: Page, report: Report) -> None:
        if not self.token and (self.rows or self.versions.folders()):
            self._db.execute("INSERT OR IGNORE INTO facts VALUES (?, '1')", (WHOLE,))
            self._db.commit()
        super().take(page, report)
        if not page.truncated:
            self._end_start()
        if self._settings.has_git:
            gone = sum(not it.text for it in page.members)
            git.commit(os.path.dirname(self.path), f"{self.book}: "
                       f"{len(page.members) - gone} cards changed, {gone} removed")

    def _end_start(self) -> None:
        """After a sync without a token no page names the cards that only the memory has."""
        if self._db.execute("SELECT 1 FROM facts WHERE name = ?", (WHOLE,)).fetchone():
            self._keep({uid: Row() for uid in self.versions.all() if uid not in self.rows})
            self._db.execute("DELETE FROM facts WHERE name = ?", (WHOLE,))
            self._db.commit()

    # The commands of --exec.

    def _run_hooks(self, command: str) -> None:
        failures = 0
        for due in self._queue.due():
            event = self._event(due)
            fault = run_hook(command, event) if event else ""
            if not fault:
                self._queue.done(due)
                continue
            self._queue.failed(due)
            say(f"{self.book}: the command failed ({fault}) for version {due.version} of "
                f"{memory.shown(due.uid)}; it is run again in the next round")
            failures += 1
            if failures == FAILURES:
                break
        self.due = len(self._queue.due())

    def _event(self, due: Due) -> Dict[str, Any]:
        """What a command is told; nothing if the version wasn't kept, since a stop came before."""
        kept = self.versions.of(due.uid)
        at = next((at for at in reversed(range(len(kept)))
                   if (kept[at].version, kept[at].removed) == (due.version, due.removed)), None)
        if at is None:
            return {}
        return {"book": self.book, "uid": due.uid, "version": due.version,
                "event": "removed" if due.removed else "changed",
                "seen": kept[at].seen, "who": kept[at].who,
                "file": self._path_of(due.uid, kept[at]),
                "before": self._path_of(due.uid, kept[at - 1]) if at else None}

    def _path_of(self, uid: str, version: Version) -> Optional[str]:
        path = os.path.join(self.versions.folder_of(uid), version.file)
        return None if version.removed else os.path.abspath(path)


class Follower:
    """What follows all books of an office."""

    def __init__(self, office: Office, folder: str, settings: Settings,
                 starts_over: bool = False) -> None:
        self.office, self.folder, self.settings = office, folder, settings
        self.starts_over = starts_over  # each book, when it is followed for the first time
        self.seen: Dict[str, Dict[str, Any]] = {}  # the line of each book, once it was followed

    def round(self) -> int:
        """Brings the backups of all books to what the books are; returns the number of faults."""
        faults = 0
        try:
            with memory.locked(self.folder):
                for line in self.office.books():
                    if not memory.is_book_name(line["name"]):
                        faults += say(f"{memory.shown(str(line['name']))} can't be the name of a "
                                      "book: nothing is written for it")
                        continue
                    try:
                        faults += self.follow(line)
                    except (Refused, FolderError) as fault:
                        faults += say(f"{line['name']}: {fault}")
            self.settings.authors.begin_round()
        except (Error, OSError) as fault:
            faults += say(str(fault))
        return faults

    def follow(self, line: Dict[str, Any]) -> int:
        """Brings the backup of a book to what it is, unless it is as it was at the last time.

        Returns the number of commands that failed, or weren't run because others failed.
        """
        name, due = line["name"], 0
        if self.seen.get(name) != line:
            starts_over = self.starts_over and name not in self.seen
            copy = Backup(os.path.join(self.folder, name), self.settings, starts_over)
            report = self.office.book(name).sync(copy)
            if report.pulled:
                now = time.strftime("%Y-%m-%d %H:%M:%S", time.gmtime())
                print(f"{now} {name}: {len(report.pulled)} changed", flush=True)
            due = copy.due
            if not due:
                self.seen[name] = line
        return due


def parser() -> argparse.ArgumentParser:
    texts = (__doc__ or "").split("\n\n", 2)
    whole = argparse.ArgumentParser(
        prog="follow.py", description=texts[0] + "\n\n" + texts[1], epilog=texts[2],
        usage=argparse.SUPPRESS, formatter_class=argparse.RawDescriptionHelpFormatter
    )
    whole.usage = "follow.py URL FOLDER [options]"
    whole.add_argument("url", metavar="URL")
    whole.add_argument("folder", metavar="FOLDER")
    whole.add_argument("--every", type=seconds, default=60, metavar="SECONDS",
                       help="the time between two rounds; 60 without this")
    whole.add_argument("--once", action="store_true", help="end after one round")
    whole.add_argument("--dated", action="store_true", help="keep versions as files, without git")
    whole.add_argument("--start-over", dest="over", action="store_true",
                       help="compare all cards, after the server's file was restored")
    whole.add_argument("--log", metavar="FILE", help="the server's log, for who changed a card")
    whole.add_argument("--exec", dest="command", metavar="COMMAND",
                       help="a shell command to run for each version, which gets it as a line of "
                       "JSON on standard input, at least once")
    whole.add_argument("--ca-file", metavar="FILE", help="for https: trust the certificates of "
                       "this file (PEM), and no others")
    return whole


def follow(given: argparse.Namespace) -> int:
    """Follows the books, until it is stopped or, with --once, for one round."""
    os.makedirs(given.folder, exist_ok=True)
    has_git = bool(shutil.which("git")) and not given.dated
    try:
        office = office_at(given.url, given.ca_file)
        settings = Settings(Authors(given.log), given.command, has_git)
        if has_git:
            with memory.locked(given.folder):
                git.prepare(given.folder)
    except (Error, OSError, ValueError) as fault:
        say(str(fault))
        return FAULT
    follower = Follower(office, given.folder, settings, given.over)
    while True:
        faults = follower.round()
        if given.once:
            return FAULT if faults else DONE
        time.sleep(given.every * random.uniform(0.9, 1.1))


def main(arguments: List[str]) -> int:
    if arguments and arguments[0] in memory.COMMANDS:
        return memory.main(arguments)
    return follow(parser().parse_args(arguments))


def run() -> int:
    """The program; it ends quietly when it is interrupted."""
    try:
        return main(sys.argv[1:])
    except KeyboardInterrupt:
        return INTERRUPTED
