"""The end of a person's data in the folder of `follow`.

What a purge drops: files of versions, their lists, cards that lost a conflict, and in git the same
texts. It empties the pages that the database doesn't use, and lets git drop what no commit has. A
purge that was stopped is made again as a whole by the next one.
"""

import os
import shutil
import sqlite3
from typing import Callable, Dict, Iterator, List

from tosculai import lines_of, uid_of
from tosculai_tools import git
from tosculai_tools.command import DONE, LOOK
from tosculai_tools.disk import sync_folder
from tosculai_tools.folder import CONFLICT, STATE, FolderCopy
from tosculai_tools.hooks import Queue
from tosculai_tools.memory import NotDone, VERSIONS, locked, shown, versions_of
from tosculai_tools.versions import INDEX, LEFT, Versions, read_text
from vcard4 import unescaped

Test = Callable[[str], bool]  # whether a card's text has to end


def has_text(wanted: str) -> Test:
    """Whether a card has a text in one of its lines, as it is spelled there or as it is read."""
    def test(card: str) -> bool:
        whole = "\n".join(lines_of(card))
        return wanted in whole.casefold() or wanted in unescaped(whole).casefold()

    wanted = wanted.casefold()
    return test


def books_of(folder: str) -> List[str]:
    """The books that a folder follows."""
    return sorted(it for it in os.listdir(folder)
                  if os.path.isfile(os.path.join(folder, it, STATE)))


def copy_of(folder: str, book: str) -> FolderCopy:
    return FolderCopy(os.path.join(folder, book), may_be_empty=True)


def url_in(path: str) -> str:
    """The book that a folder belongs to, by its database."""
    with sqlite3.connect(os.path.join(path, STATE), timeout=10) as db:
        url = str(db.execute("SELECT value FROM facts WHERE name = 'book'").fetchone()[0])
    db.close()
    return url


def is_in_git(folder: str) -> bool:
    """Whether a folder has a history in git, which can't be read without git."""
    if git.has_repository(folder) and not shutil.which("git"):
        raise NotDone(f"{folder} has a history in git, but git isn't installed")
    return git.has_repository(folder)


def of_octets(is_bad: Test) -> Callable[[bytes], bool]:
    return lambda octets: is_bad(octets.decode("utf-8", "surrogateescape"))


def rest_of(path: str) -> Dict[str, str]:
    """What a book's folder may have of a card besides its file and versions: files, and why."""
    found = {it: "a card that lost a conflict"
             for it in sorted(os.listdir(path)) if CONFLICT.search(it)}
    for folder in Versions(os.path.join(path, VERSIONS)).folders():
        for name in set(LEFT).intersection(os.listdir(folder)):
            found[os.path.relpath(os.path.join(folder, name), path)] = "what a stop left"
    return found


def strays_of(folder: str, book: str) -> Iterator[str]:
    """A line for each folder of versions whose card isn't known."""
    path = os.path.join(folder, book)
    for it in Versions(os.path.join(path, VERSIONS)).strays():
        yield (f"{book} {shown(os.path.relpath(it, path))}: nothing in it says whose versions "
               "these are; look there yourself")


class Purge:
    """What one purge does, and what it couldn't end."""

    def __init__(self, folder: str, is_bad: Test) -> None:
        self.folder, self.is_bad = folder, is_bad
        self.ended: Dict[str, int] = {}  # versions by card
        self.rest: List[str] = []  # other files that ended
        self.present: Dict[str, str] = {}  # texts of present cards that stay, by card

    def run(self, books: List[str]) -> int:
        has_history = is_in_git(self.folder)
        for book in books:
            self.purge_book(book)
        if has_history:
            stay = {text.encode() for text in self.present.values()}
            is_bad = of_octets(self.is_bad)
            count = git.forget(self.folder, books, lambda it: it not in stay and is_bad(it))
            print(f"{count} texts of git's history ended")
        for card, count in self.ended.items():
            print(f"{card}: {count} versions ended")
        for name in self.rest:
            print(f"{name}: ended")
        strays = [it for book in books for it in strays_of(self.folder, book)]
        for line in strays:
            print(line)
        for card in self.present:
            print(f"{card}: the book still has the card, so its present text stays; remove or edit "
                  "it there, let follow run once, and purge again")
        if not (self.ended or self.rest or strays or self.present):
            print("no version was kept")
        return LOOK if self.present or strays else DONE

    def purge_book(self, book: str) -> None:
        path = os.path.join(self.folder, book)
        versions, copy = Versions(os.path.join(path, VERSIONS)), copy_of(self.folder, book)
        with copy.opened(url_in(path)):
            for uid, row in copy.rows.items():
                if row.text and self.is_bad(row.text):
                    self.present[f"{book} {shown(uid)}"] = row.text
            self.purge_rest(book, path)
            for uid in list(versions.all()):
                self.purge_card(book, versions, uid, copy.row(uid).text)
            drop_empty(versions.path)
            drop_due(Queue(copy._db), versions)
            empty(copy._db)

    def purge_rest(self, book: str, path: str) -> None:
        """Ends all that a stop left, and the bad ones of the other files."""
        for name in rest_of(path):
            is_bad = self.is_bad(read_text(os.path.join(path, name)))
            if is_bad:
                self.rest.append(f"{book} {shown(name)}")
            if is_bad or os.path.basename(name) in LEFT:
                os.unlink(os.path.join(path, name))

    def purge_card(self, book: str, versions: Versions, uid: str, present: str) -> None:
        """Ends the bad versions of a card but its present text."""
        kept, folder = versions.of(uid), versions.folder_of(uid)
        bad = []
        for at, it in enumerate(kept):
            text = versions.text(uid, it)
            is_present = bool(present) and at == len(kept) - 1 and text == present
            if text and not is_present and self.is_bad(text):
                bad.append(it)
        for it in bad:
            os.unlink(os.path.join(folder, it.file))
        left = [it for it in kept if it not in bad]
        if all(it.removed for it in left):
            end_folder(folder)
        else:
            versions.write_index(uid, left)
        if bad:
            self.ended[f"{book} {shown(uid)}"] = len(bad)


def end_folder(folder: str) -> None:
    """Removes the folder of a card; its list goes last, since it tells whose folder it is."""
    for name in sorted(os.listdir(folder), key=lambda it: it == INDEX):
        os.unlink(os.path.join(folder, name))
    os.rmdir(folder)
    sync_folder(os.path.dirname(folder))


def drop_empty(path: str) -> None:
    """Removes the folders of cards that a stop left empty."""
    for name in os.listdir(path) if os.path.isdir(path) else ():
        try:
            os.rmdir(os.path.join(path, name))
        except OSError:
            pass  # it isn't empty


def drop_due(queue: Queue, versions: Versions) -> None:
    """Drops the commands that are due for versions which aren't kept."""
    for due in queue.due():
        kept = {(it.version, it.removed) for it in versions.of(due.uid)}
        if (due.version, due.removed) not in kept:
            queue.done(due)


def empty(db: sqlite3.Connection) -> None:
    """Writes the database anew, without what was deleted from it."""
    db.commit()
    db.execute("VACUUM")


def purge_uid(folder: str, book: str, uid: str) -> int:
    """Ends all versions of a card, but the present text of one that the book still has."""
    versions_of(folder, book)
    with locked(folder):
        if book not in books_of(folder):
            raise NotDone(f"{folder} has no book {shown(book)}")
        purge = Purge(folder, lambda card: uid_of(card) == uid)
        status = purge.run([book])
        left = versions_of(folder, book).folder_of(uid)
        if not purge.present and os.path.isdir(left):
            end_folder(left)  # removals alone, or what a stop left
    return status


def purge_text(folder: str, text: str, is_sure: bool) -> int:
    """Ends all versions that have this text; only lists them unless the user `is_sure`."""
    if len(text.strip()) < 3:
        raise NotDone("the text needs three characters at least")
    test = has_text(text)
    with locked(folder):
        if is_sure:
            return Purge(folder, test).run(books_of(folder))
        found = [line for book in books_of(folder) for line in bad_ones(folder, book, test)]
        strays = [line for book in books_of(folder) for line in strays_of(folder, book)]
        if is_in_git(folder):
            count = sum(of_octets(test)(octets) for _, octets in git.blobs(folder))
            found += [f"{count} texts of git's history"] * bool(count)
    for line in found + strays:
        print(line)
    print("nothing was ended: look at this list, and add --yes" if found else "no version has it")
    return LOOK if found or strays else DONE


def bad_ones(folder: str, book: str, is_bad: Test) -> Iterator[str]:
    """A line for each card and other file of which a purge would end something."""
    path = os.path.join(folder, book)
    versions = Versions(os.path.join(path, VERSIONS))
    for uid in versions.all():
        numbers = [it.label for it in versions.of(uid) if is_bad(versions.text(uid, it))]
        if numbers:
            yield f"{book} {shown(uid)}: {', '.join(numbers)}"
    for name, why in rest_of(path).items():
        if is_bad(read_text(os.path.join(path, name))):
            yield f"{book} {shown(name)}: {why}"
