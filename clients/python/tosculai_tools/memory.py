"""What was there before: the commands of `follow` that read its folder, and put a version back."""

import argparse
import difflib
import hashlib
import json
import os
import re
import sys
import time
import unicodedata
from collections import Counter
from contextlib import contextmanager
from typing import Any, Callable, Dict, Iterator, List

from tosculai import Conflict, Error, Refused, lines_of, same
from tosculai_tools.command import DONE, FAULT, LOOK, office_at
from tosculai_tools.disk import write_file
from tosculai_tools.folder import FolderError
from tosculai_tools.versions import Version, Versions, read_json
from vcard4 import Property

try:
    import fcntl
except ImportError:  # not on this system
    fcntl = None  # type: ignore[assignment]

VERSIONS = "versions"
BOOK = ".tosculai.json"  # which book a folder follows
LOCK = ".tosculai.lock"
BUSY_MAX = 60.0  # seconds that a command waits for a round of `follow` to end
SHOWN_MAX = 1_000  # characters of a line that are printed, at most
# Characters that turn the direction of a text, so that it seems to say something else.
TURNING = set("\u200e\u200f\u061c\u202a\u202b\u202c\u202d\u202e\u2066\u2067\u2068\u2069")


class NotDone(Error):
    """The command can't be done, for a reason that the user may change."""


def say(fault: str) -> int:
    """Prints a fault. Returns that it is one."""
    print(f"follow: {fault}", file=sys.stderr, flush=True)
    return 1


def shown(text: str) -> str:
    """A text as a line that a terminal shows and doesn't obey."""
    if len(text) > SHOWN_MAX:
        digest = hashlib.sha256(text.encode("utf-8", "surrogateescape")).hexdigest()[:16]
        text = f"{text[:SHOWN_MAX // 10]}.. ({len(text)} characters, SHA-256 {digest})"
    plain = (it if it not in TURNING and unicodedata.category(it) not in ("Cc", "Cs", "Zl", "Zp")
             else f"\\u{ord(it):04x}" for it in text)
    return "".join(plain)


@contextmanager
def locked(folder: str) -> Iterator[None]:
    """Within, no other `follow` changes the folder."""
    if not fcntl:
        yield
        return
    with open(os.path.join(folder, LOCK), "ab") as file:
        ends = time.monotonic() + BUSY_MAX
        while True:
            try:
                fcntl.flock(file, fcntl.LOCK_EX | fcntl.LOCK_NB)
                break
            except OSError as fault:
                if time.monotonic() > ends:
                    raise FolderError(f"{folder}: another follow is at work") from fault
                time.sleep(0.05)
        yield


def is_book_name(name: Any) -> bool:
    """Whether a book can have this name. No other one may become part of a path."""
    return isinstance(name, str) and bool(re.fullmatch("[a-z0-9-]{1,40}", name))


def write_book(path: str, url: str) -> None:
    """Notes which book the folder follows."""
    whole = {"book": os.path.basename(path), "url": url}
    if read_json(os.path.join(path, BOOK)) != whole:
        new = os.path.join(path, BOOK + ".new")
        write_file(new, (json.dumps(whole) + "\n").encode())
        os.replace(new, os.path.join(path, BOOK))


def url_of(folder: str, book: str) -> str:
    """The URL of the office whose book this folder follows."""
    url = str(read_json(os.path.join(folder, book, BOOK)).get("url", ""))
    if not url.endswith("/books/" + book):
        raise NotDone(f"{folder} doesn't say where the book {shown(book)} is: let follow run once, "
                      "or give --url")
    return url[:-len("/books/" + book)]


def versions_of(folder: str, book: str) -> Versions:
    path = os.path.join(folder, book)
    if not is_book_name(book) or not os.path.isdir(path):
        raise NotDone(f"{folder} has no book {shown(book)}")
    return Versions(os.path.join(path, VERSIONS))


def kept_of(given: argparse.Namespace) -> List[Version]:
    """The versions of the card that the arguments name."""
    kept = versions_of(given.folder, given.book).of(given.uid)
    if not kept:
        raise NotDone(f"no version of a card {shown(given.uid)} of {given.book} is kept")
    return kept


def choose(given: argparse.Namespace, kept: List[Version], wanted: str) -> int:
    """The place of the version that has this number or label."""
    found = [at for at, it in enumerate(kept)
             if it.label == wanted or str(it.version) == wanted and not it.removed]
    if not found:
        raise NotDone(f"no version {shown(wanted)} of this card is kept: see the list by `log`")
    versions = versions_of(given.folder, given.book)
    if len({versions.text(given.uid, kept[at]) for at in found}) > 1:
        labels = " or ".join(kept[at].label for at in found)
        raise NotDone(f"several texts have the version {shown(wanted)}: name {labels}")
    return found[-1]


def title(version: Version) -> str:
    what = f"version {version.version}, {version.seen}"
    who = f", by {shown(version.who)}" if version.who else ""
    return what + (", removed" if version.removed else "") + who


# The commands. Each gets its arguments, and returns the status.

def log(given: argparse.Namespace) -> int:
    kept, versions = kept_of(given), versions_of(given.folder, given.book)
    numbers = Counter(it.version for it in kept if not it.removed)
    before = ""
    for it in kept:
        text = versions.text(given.uid, it)
        name = it.label if numbers[it.version] > 1 and not it.removed else str(it.version)
        who = f" by {shown(it.who)}" if it.who else ""
        print(f"version {name} {it.seen}{who}: {summary(before, text)}")
        before = text
    return DONE


def summary(before: str, text: str) -> str:
    """What a change changed, by the names of properties."""
    if not before or not text:
        return "new" if text else "removed"
    old, new = Counter(lines_of(before)), Counter(lines_of(text))
    names = sorted({Property(it).name or "?" for it in [*(old - new), *(new - old)]})
    return shown(", ".join(names)) or "the order of lines"


def diff(given: argparse.Namespace) -> int:
    kept, versions = kept_of(given), versions_of(given.folder, given.book)
    if given.old is None and len(kept) < 2:
        raise NotDone("only one version of this card is kept")
    old = len(kept) - 2 if given.old is None else choose(given, kept, given.old)
    new = len(kept) - 1 if given.new is None else choose(given, kept, given.new)
    one, other = (lines_of(versions.text(given.uid, kept[at])) for at in (old, new))
    titles = title(kept[old]), title(kept[new])
    for line in difflib.unified_diff(one, other, *titles, lineterm=""):
        print(shown(line))
    return DONE


def changed(now: int, last: Version) -> str:
    """That the card isn't what was seen last; it has the version `now`, or 0 if there is none."""
    what = f"is at version {now}" if now else "isn't in the book"
    seen = "removed" if last.removed else f"at version {last.version}"
    return (f"the card {what} now, and follow saw it last {seen}: somebody changed it meanwhile. "
            "Nothing was changed. Let follow run once, look at `log`, and try again")


def restore(given: argparse.Namespace) -> int:
    kept, versions = kept_of(given), versions_of(given.folder, given.book)
    chosen, last = kept[choose(given, kept, given.version)], kept[-1]
    if chosen.removed:
        raise NotDone("this is the card's removal, which has no text: give a version before it")
    text = versions.text(given.uid, chosen)
    office = office_at(given.url or url_of(given.folder, given.book), given.ca_file)
    book = office.book(given.book)
    there = book.find(given.uid)
    # After a restore of the server's file another text may have the same version.
    is_known = there.version == last.version and same(there.text, versions.text(given.uid, last)) \
        if there and not last.removed else not there and last.removed
    if not is_known:
        raise NotDone(changed(there.version if there else 0, last))
    try:
        number = book.put(text, there.version if there else 0, given.uid)
    except Conflict as conflict:
        raise NotDone(changed(int(conflict.has or 0), last)) from conflict
    print(f"version {number} has the text of version {chosen.version}")
    return DONE


def purge(given: argparse.Namespace) -> int:
    from tosculai_tools.purge import purge_text, purge_uid
    if given.text is not None and not given.book:
        return purge_text(given.folder, given.text, given.yes)
    if given.text is None and given.uid:
        return purge_uid(given.folder, given.book, given.uid)
    raise NotDone("give either a book and a UID, or --text TEXT")


COMMANDS: Dict[str, Callable[[argparse.Namespace], int]] = {
    "log": log, "diff": diff, "restore": restore, "purge": purge
}


def parser() -> argparse.ArgumentParser:
    whole = argparse.ArgumentParser(prog="follow.py")
    commands = whole.add_subparsers(metavar="COMMAND", required=True)

    def add(name: str, text: str, *arguments: str) -> Any:
        one = commands.add_parser(name, help=text, description=text)
        one.set_defaults(call=COMMANDS[name])
        for argument in ("folder", *arguments):
            one.add_argument(argument, metavar=argument.upper())
        return one

    add("log", "List the versions of a card, oldest first, with what changed.", "book", "uid")
    one = add("diff", "Compare two versions of a card: without numbers, the last two.", "book",
              "uid")
    one.add_argument("old", metavar="FROM", nargs="?", help="its number, or its label")
    one.add_argument("new", metavar="TO", nargs="?", help="the last one without this")
    one = add("restore", "Put a version of a card back into the book, also of one that was "
              "removed. It is refused if the card was changed since follow last saw it.", "book",
              "uid", "version")
    one.add_argument("--url", help="the server, if it isn't where follow found it, or with a user")
    one.add_argument("--ca-file", metavar="FILE", help="for https: trust this file alone")
    one = add("purge", "End what the folder keeps of a card that was removed from its book, or of "
              "all versions that have a text; the present cards of a book stay. Only `--yes` ends "
              "something with --text: without it, it is listed.")
    one.add_argument("book", metavar="BOOK", nargs="?")
    one.add_argument("uid", metavar="UID", nargs="?")
    one.add_argument("--text", help="in small or capital letters, within a line of a card")
    one.add_argument("--yes", action="store_true", help="end what --text finds")
    return whole


def main(arguments: List[str]) -> int:
    """Runs a command and returns its status."""
    if hasattr(sys.stdout, "reconfigure"):
        sys.stdout.reconfigure(errors="backslashreplace")  # what the system can't print
    given = parser().parse_args(arguments)
    try:
        if not os.path.isdir(given.folder):
            raise NotDone(f"no folder {given.folder}")
        return int(given.call(given))
    except NotDone as fault:
        say(str(fault))
        return LOOK
    except Refused as refusal:
        say(f"refused {refusal}")
        return LOOK
    except (Error, OSError, ValueError) as fault:
        say(str(fault))
        return FAULT
