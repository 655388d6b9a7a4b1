"""A copy of a book in a folder of .vcf files, a card a file (vdir, as khard and vdirsyncer use it).

    staff.sync(FolderCopy("cards"))

Edit, add and remove files as you like; the next sync sends what changed. It may be killed at any
moment. What it knows is in the file `.tosculai.db` in the folder (SQLite). It changes files so:

1. It writes the new cards of a page beside the old ones, under names that begin with `.tosculai-`.
2. It writes into the database what it is about to do.
3. It renames each new file to its card's name, and each removed card to a name as in step 1.
4. It writes into the database what the server has, and the page's token.

After a stop between 2 and 4, the names tell which files were renamed, whatever was edited since.
"""

import hashlib
import itertools
import os
import re
import sqlite3
import stat
from contextlib import contextmanager
from typing import Any, Dict, Iterator, List, NamedTuple, Optional, Set, Tuple

from tosculai import ROUNDS, Copy, Error, Page, Report, Row, same, uid_of
from tosculai_tools.disk import sync_folder, write_file, write_files

STATE = ".tosculai.db"
ASIDE = ".tosculai-"  # the names of files that are only there during a sync begin so
CONFLICT = re.compile(r"\.conflict(?:-\d+)?$")
NO_TEXT = re.compile("[\udc80-\udcff]")  # octets that aren't UTF-8, once they are decoded
PLAIN = re.compile(r"[a-z0-9_][a-z0-9_@+=.-]{0,79}")
DEVICES = re.compile(r"(?:con|prn|aux|nul|com[0-9]|lpt[0-9])(?:\..*)?")  # no file names on Windows
SCHEMA = """
CREATE TABLE IF NOT EXISTS facts (name TEXT PRIMARY KEY, value TEXT NOT NULL);
CREATE TABLE IF NOT EXISTS rows (uid TEXT PRIMARY KEY, version INTEGER NOT NULL,
    text TEXT NOT NULL, sent TEXT, stale INTEGER NOT NULL, name TEXT NOT NULL,
    digest TEXT NOT NULL);
CREATE TABLE IF NOT EXISTS plans (number INTEGER PRIMARY KEY, uid TEXT NOT NULL,
    version INTEGER NOT NULL, text TEXT NOT NULL, name TEXT NOT NULL, kept TEXT NOT NULL);
"""


class FolderError(Error):
    """The folder can't be used: another sync runs, it belongs to another book, or is empty."""


class WrongFolder(FolderError):
    """The folder belongs to another book, or has files of another form. Time doesn't mend that."""


class Changed(Exception):
    """A file was changed since it was read."""


class Plan(NamedTuple):
    """A change of a file: the card that is to be there, and the name of a copy of the old one."""

    number: int
    uid: str
    version: int
    text: str  # "" if the file is to be removed
    name: str
    kept: str  # "" if nothing is to be kept


class Plain:
    """Files that hold the cards as the server has them."""

    name = "4.0"

    @staticmethod
    def read(text: str, base: str) -> str:
        """The card of a file, if the server has or had `base`."""
        return text

    @staticmethod
    def write(text: str) -> str:
        """The text of a card's file."""
        return text


class Place(NamedTuple):
    """The file of a card; the digest of its octets if it has the card that the server had."""

    name: str = ""
    digest: str = ""


class Mark(NamedTuple):
    """What shows that a file is still the one that was read."""

    inode: int
    size: int
    time: int


def digest_of(octets: bytes) -> str:
    return hashlib.sha256(octets).hexdigest()


def mark_of(path: str) -> Optional[Mark]:
    """The mark of a file, or None if there is none."""
    try:
        found = os.stat(path)
    except FileNotFoundError:
        return None
    return Mark(found.st_ino, found.st_size, found.st_mtime_ns)


def file_name(uid: str, number: int = 1) -> str:
    """A name for the file of a card, which no other UID and number have, on any file system.

    Names differ in more than case. A UID that isn't a name of a file gets one with a digest.
    """
    name = uid
    if not PLAIN.fullmatch(uid) or DEVICES.fullmatch(uid) or uid.endswith("."):
        digest = digest_of(uid.encode())[:32]
        name = re.sub(r"[^a-z0-9]+", "-", uid.lower()).strip("-")[:40] + "~" + digest
    return name + (f"~{number}" if number > 1 else "") + ".vcf"


class FolderCopy(Copy):
    """A copy in a folder. A card that lost a conflict is kept as `NAME.vcf.conflict`, or `-2` ..

    `form` says how cards are written to files; the module vcard3 is another one. It is a
    FolderError if all cards are gone at once, unless the folder `may_be_empty`. If it `starts_over`
    the next sync begins without a token, as it has to after the server's file was restored.
    """

    def __init__(self, path: str, form: Any = Plain, may_be_empty: bool = False,
                 starts_over: bool = False) -> None:
        super().__init__()
        self.path, self.form = path, form
        self.may_be_empty, self.starts_over = may_be_empty, starts_over
        self._places: Dict[str, Place] = {}  # by UID, as the database has them
        self._files: Dict[str, Place] = {}  # by UID, as they were read
        self._marks: Dict[str, Optional[Mark]] = {}  # of files by name, when they were read

    def conflicts(self) -> List[str]:
        """The names of the files that keep cards which lost a conflict."""
        return sorted(it for it in os.listdir(self.path) if CONFLICT.search(it))

    # A sync from its beginning to its end.

    @contextmanager
    def opened(self, url: str) -> Iterator[None]:
        os.makedirs(self.path, exist_ok=True)
        self._db = sqlite3.connect(self._at(STATE), timeout=1)
        try:
            self._open(url)
            self._recover()
            yield
        except sqlite3.Error as fault:
            raise FolderError(f"{self.path}: another sync runs, or {fault}") from fault
        finally:
            self._db.close()

    def _open(self, url: str) -> None:
        """Locks the folder, and makes sure that it belongs to this book."""
        self._db.execute("PRAGMA locking_mode = EXCLUSIVE")
        self._db.execute("PRAGMA synchronous = FULL")
        self._db.execute("PRAGMA secure_delete = ON")  # nothing stays of a card that was removed
        self._db.executescript("BEGIN EXCLUSIVE;" + SCHEMA)
        for fact in ("book", url), ("form", self.form.name), ("token", ""):
            self._db.execute("INSERT OR IGNORE INTO facts VALUES (?, ?)", fact)
        self._db.commit()
        facts = dict(self._db.execute("SELECT name, value FROM facts"))
        if facts["book"] != url:
            raise WrongFolder(f"{self.path} belongs to {facts['book']}, says its {STATE}")
        if facts["form"] != self.form.name:
            raise WrongFolder(f"{self.path} holds cards as vCard {facts['form']}")
        self.token = "" if self.starts_over else facts["token"]

    def _recover(self) -> None:
        """Finds out which files were changed before a stop, and removes what is left of it."""
        for plan in map(Plan._make, self._db.execute("SELECT * FROM plans").fetchall()):
            if plan.text:
                is_done = not os.path.lexists(self._aside(plan.number, "new"))
            else:
                is_done = os.path.lexists(self._aside(plan.number, "old"))
            if is_done:
                Copy.save(self, {plan.uid: Row(plan.version, plan.text)}, self.token)
                octets = self.form.write(plan.text).encode() if plan.text else b""
                self._write_row(plan.uid, Place(plan.name, digest_of(octets)))
            elif plan.kept and os.path.lexists(self._at(plan.kept)):
                os.unlink(self._at(plan.kept))
        self._db.execute("DELETE FROM plans")
        self._db.commit()
        for name in os.listdir(self.path):
            if name.startswith(ASIDE):
                os.unlink(self._at(name))
        self.rows, self._places = {}, {}
        for uid, version, text, sent, stale, *place in self._db.execute("SELECT * FROM rows"):
            self.rows[uid] = Row(version, text, sent, bool(stale))
            self._places[uid] = Place(*place)

    def _at(self, name: str) -> str:
        return os.path.join(self.path, name)

    def _aside(self, number: int, ending: str) -> str:
        return self._at(f"{ASIDE}{number}.{ending}")

    # Files to cards.

    def read(self, report: Report) -> None:
        """Reads all files; a file that can't be one of the cards is skipped in the report."""
        report.skipped.clear()
        self.cards, self._files, self._marks = {}, {}, {}
        owners = {place.name: uid for uid, place in self._places.items()}
        found = []
        for name in os.listdir(self.path):
            if not name.endswith(".vcf") or name[0] == ".":
                continue
            octets, owner = self._read_file(name), owners.get(name, "")
            if octets is None:
                self._skip(name, owner, report)
            else:
                digest = digest_of(octets)
                if owner and self._places[owner].digest == digest:
                    found.append((False, name, owner, "", digest))  # it is as it was written
                    continue
                text = octets.decode("utf-8", "surrogateescape")
                is_text = not NO_TEXT.search(name + text)
                uid = uid_of(text) if is_text else ""
                uid = uid or owner
                found.append((owner != uid, name, uid, text, digest))
        if not found and len(self.rows) > 1 and not self.may_be_empty:
            raise FolderError(f"all cards of {self.path} are gone")
        # The file that had a card already comes before others with the same UID.
        for _, name, uid, text, digest in sorted(found):
            if not uid:
                report.skipped[name] = "it has no UID, or isn't UTF-8"
            elif uid in self._files:
                report.skipped[name] = f"it has the same UID as {self._files[uid].name}"
            else:
                self._files[uid] = Place(name, digest)
                self.cards[uid] = self._card(uid, text, digest)
                if NO_TEXT.search(text):
                    report.refused[uid] = "it isn't UTF-8"

    def _card(self, uid: str, text: str, digest: str) -> str:
        """The card of a file. An empty file is no card, but it isn't a removal either."""
        base = self.row(uid).text
        if self._places.get(uid, Place()).digest == digest:
            return base
        return self.form.read(text, base) or "\n"

    def _skip(self, name: str, owner: str, report: Report) -> None:
        """Skips what is no file, unless it is where the file of a card was."""
        if os.path.lexists(self._at(name)):
            if owner:
                raise FolderError(f"{self._at(name)} is no file any more: move it away, so that "
                                  "it is clear whether the card is to be removed")
            report.skipped[name] = "it is no file"

    def _read_file(self, name: str, is_new: bool = True) -> Optional[bytes]:
        """The octets of a file, or None if it is no file.

        A link that points to nothing is a FolderError: its file may be on a disk that comes back,
        and must not be taken for one that was removed.
        """
        path = self._at(name)
        try:
            if is_new:
                self._marks[name] = mark_of(path)
            if stat.S_ISREG(os.stat(path).st_mode):  # a pipe would wait for somebody who writes
                with open(path, "rb") as file:
                    return file.read()
        except FileNotFoundError as fault:
            if os.path.islink(path):
                raise FolderError(f"{path} points to nothing: mend or remove this link") from fault
        return None

    # Cards to files.

    def take(self, page: Page, report: Report) -> None:
        for _ in range(ROUNDS):
            try:
                return super().take(page, report)
            except Changed:
                self._recover()
                self.read(report)
        raise FolderError(f"somebody edits {self.path} all the time")

    def apply(self, changes: Dict[str, bool], rows: Dict[str, Row], token: str,
              report: Report) -> None:
        plans: List[Plan] = []
        names, files = set(), {}  # type: Set[str], Dict[str, bytes]
        for uid, is_conflict in changes.items():
            file = self._files.get(uid)
            name = file.name if file else self._new_name(uid, names)
            names.add(name)
            kept = self._kept_name(name) if file and is_conflict else ""
            plans.append(Plan(len(plans), uid, rows[uid].version, rows[uid].text, name, kept))
            if rows[uid].text:
                octets = self.form.write(rows[uid].text).encode()
                files[self._aside(plans[-1].number, "new")] = octets
        write_files(files)
        if plans:
            sync_folder(self.path)
            self._db.executemany("INSERT INTO plans VALUES (?, ?, ?, ?, ?, ?)", plans)
            self._db.commit()
        for plan in plans:
            self._carry_out(plan)
            report.pulled.append(plan.uid)
            if changes[plan.uid]:
                report.conflicts[plan.uid] = plan.kept
        if plans:
            sync_folder(self.path)
        self.save(rows, token)
        for plan in plans:
            if not plan.text:
                os.unlink(self._aside(plan.number, "old"))

    def _new_name(self, uid: str, taken: Set[str]) -> str:
        """The name that the card's file had, or the first free one of its names."""
        names = (file_name(uid, number) for number in itertools.count(1))
        before = self._places.get(uid, Place()).name
        return next(it for it in itertools.chain([before], names)
                    if it and it not in taken and not os.path.lexists(self._at(it)))

    def _kept_name(self, name: str) -> str:
        names = (f"{name}.conflict" + (f"-{it}" if it > 1 else "") for it in itertools.count(1))
        return next(it for it in names if not os.path.lexists(self._at(it)))

    def _carry_out(self, plan: Plan) -> None:
        """Changes the file, unless somebody changed it since it was read."""
        path, new = self._at(plan.name), self._aside(plan.number, "new")
        if plan.kept:
            octets = self._read_file(plan.name, is_new=False)
            if octets is not None:
                write_file(self._at(plan.kept), octets)
        if mark_of(path) != self._marks.get(plan.name):
            raise Changed
        if plan.text:
            self._marks[plan.name] = mark_of(new)
            os.replace(new, path)
            digest = digest_of(self.form.write(plan.text).encode())
            self.cards[plan.uid], self._files[plan.uid] = plan.text, Place(plan.name, digest)
        else:
            os.replace(path, self._aside(plan.number, "old"))
            del self.cards[plan.uid], self._files[plan.uid], self._marks[plan.name]

    # The database.

    def save(self, rows: Dict[str, Row], token: str) -> None:
        super().save(rows, token)
        for uid in rows:
            place = self._files.get(uid, self._places.get(uid, Place()))
            is_edited = not same(self.cards.get(uid, ""), self.row(uid).text)
            self._write_row(uid, place._replace(digest="") if is_edited else place)
        self._db.execute("DELETE FROM plans")
        self._db.execute("UPDATE facts SET value = ? WHERE name = 'token'", (token,))
        self._db.commit()

    def _write_row(self, uid: str, place: Place) -> None:
        """Brings a row of the database to what `rows` has."""
        if uid in self.rows:
            self._places[uid] = place
            row = (uid, *self.rows[uid], *place)
            self._db.execute("INSERT OR REPLACE INTO rows VALUES (?, ?, ?, ?, ?, ?, ?)", row)
        else:
            self._places.pop(uid, None)
            self._db.execute("DELETE FROM rows WHERE uid = ?", (uid,))
