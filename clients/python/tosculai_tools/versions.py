"""All versions of the cards of a book that `follow` has seen, in the folder `versions` of its copy.

    versions/CARD/0000000000012-2026-11-27T031200Z.vcf          the text of a version
    versions/CARD/0000000000012-2026-11-27T031500Z.vcf.removed  empty: the card was removed
    versions/CARD/index.json                                    the list of them, oldest first

CARD is `file_name` of the card's UID, without its ending. Each file is written aside and renamed,
so that it is there whole or not at all. A version's own file comes first: one that the index lacks
was written right before a stop, and counts. The index can be made again from the names, but for
`who`.
"""

import itertools
import json
import os
import re
import time
from typing import Any, Dict, Iterable, Iterator, List, NamedTuple, Optional

from tosculai import uid_of
from tosculai_tools.disk import sync_folder, sync_folders, write_file, write_files
from tosculai_tools.folder import file_name

INDEX = "index.json"
NAME = re.compile(r"(\d{13})-(\d{4}-\d\d-\d\d)T(\d\d)(\d\d)(\d\d)Z(?:-\d+)?\.vcf(\.removed)?")
LEFT = (".new", ".index")  # what a stop may leave in a card's folder


class Version(NamedTuple):
    """A version of a card, or its removal, which has the version of the card that was removed."""

    version: int
    seen: str  # when, such as 2026-11-27T03:12:00Z
    file: str
    removed: bool
    who: Optional[str] = None  # who made it, if that is known

    @property
    def label(self) -> str:
        """What names it among all versions of the card, also if the server's file was restored."""
        return self.file.split(".", 1)[0].lstrip("0") + ("-removed" if self.removed else "")


class New(NamedTuple):
    """A version that is to be kept. A removal has no text."""

    uid: str
    version: int
    text: str
    who: Optional[str] = None


def version_of(name: str) -> Optional[Version]:
    """The version that a file of this name holds, or None if it is no such file."""
    found = NAME.fullmatch(name)
    if not found:
        return None
    number, day, hour, minute, second, ending = found.groups()
    return Version(int(number), f"{day}T{hour}:{minute}:{second}Z", name, bool(ending))


class Versions:
    """The folder `versions` of a book."""

    def __init__(self, path: str) -> None:
        self.path = path

    def folder_of(self, uid: str) -> str:
        return os.path.join(self.path, file_name(uid)[:-len(".vcf")])

    def all(self) -> Iterator[str]:
        """The UIDs of all cards that have versions."""
        return filter(None, map(self._uid_in, self.folders()))

    def folders(self) -> List[str]:
        """The folders of all cards."""
        names = sorted(os.listdir(self.path)) if os.path.isdir(self.path) else []
        return [it for it in (os.path.join(self.path, name) for name in names) if os.path.isdir(it)]

    def strays(self) -> List[str]:
        """The folders of which nothing says whose versions they have."""
        return [it for it in self.folders()
                if set(os.listdir(it)) - {*LEFT} and not self._uid_in(it)]

    def _uid_in(self, folder: str) -> str:
        """The UID of the card in this folder, by its list, its name or a text, if one fits."""
        listed = str(read_json(os.path.join(folder, INDEX)).get("uid", ""))
        names = [it for it in sorted(os.listdir(folder), reverse=True) if NAME.fullmatch(it)]
        texts = (uid_of(read_text(os.path.join(folder, it))) for it in names)
        own = [os.path.basename(folder)] if names else []
        uids = itertools.chain([listed], own, texts)
        return next((it for it in uids if self._is_of(folder, it)), "")

    def _is_of(self, folder: str, uid: str) -> bool:
        try:
            return bool(uid) and self.folder_of(uid) == folder
        except UnicodeEncodeError:  # no card has such a UID
            return False

    def of(self, uid: str) -> List[Version]:
        """The versions of a card, oldest first."""
        folder = self.folder_of(uid)
        if not os.path.isdir(folder):
            return []
        there = {it.file: it for it in map(version_of, sorted(os.listdir(folder))) if it}
        listed = []
        for line in read_json(os.path.join(folder, INDEX)).get("versions", []):
            version = there.pop(str(line.get("file")), None) if isinstance(line, dict) else None
            if version:
                listed.append(version._replace(who=line.get("who")))
        return listed + sorted(there.values(), key=lambda it: (it.seen, it.version, it.removed))

    def text(self, uid: str, version: Version) -> str:
        """The text of a version, which is empty for a removal."""
        return read_text(os.path.join(self.folder_of(uid), version.file))

    def ends_with(self, uid: str, number: int, text: str) -> bool:
        """Whether this version is the last one that is kept. A removal has no text."""
        last = self.of(uid)[-1:]
        return bool(last) and (last[0].version, last[0].removed) == (number, not text) and \
            self.text(uid, last[0]) == text

    def keep(self, news: Iterable[New]) -> None:
        """Keeps versions of cards that differ, but those that are there as the last ones."""
        files, indexes = {}, {}
        for uid, number, text, who in news:
            folder, kept = self.folder_of(uid), self.of(uid)
            if not self.ends_with(uid, number, text):
                os.makedirs(folder, exist_ok=True)
                kept.append(self._new_version(kept, number, not text))
                files[os.path.join(folder, LEFT[0])] = kept[-1].file, text.encode()
            kept[-1] = kept[-1]._replace(who=kept[-1].who or who)
            lines = [it._asdict() for it in kept]
            whole = json.dumps({"uid": uid, "versions": lines}, indent=1) + "\n"
            indexes[os.path.join(folder, LEFT[1])] = INDEX, whole.encode()
        for renamed in files, indexes:
            write_files({new: octets for new, (_, octets) in renamed.items()})
            for new, (name, _) in renamed.items():
                os.replace(new, os.path.join(os.path.dirname(new), name))
        sync_folders([os.path.dirname(new) for new in indexes])
        if indexes:
            sync_folder(self.path)

    @staticmethod
    def _new_version(kept: List[Version], number: int, removed: bool) -> Version:
        """The next version, under a name that none has. A restored server repeats numbers."""
        now, names = time.strftime("%Y-%m-%dT%H%M%SZ", time.gmtime()), {it.file for it in kept}
        ending, more = ".vcf.removed" if removed else ".vcf", 1
        name = f"{number:013}-{now}{ending}"
        while name in names:
            more += 1
            name = f"{number:013}-{now}-{more}{ending}"
        version = version_of(name)
        assert version
        return version

    def write_index(self, uid: str, kept: List[Version]) -> None:
        """Writes the index of a card, unless it has these versions already."""
        folder = self.folder_of(uid)
        lines = [it._asdict() for it in kept]
        whole = {"uid": uid, "versions": lines}
        if read_json(os.path.join(folder, INDEX)) != whole:
            new = os.path.join(folder, LEFT[1])
            write_file(new, (json.dumps(whole, indent=1) + "\n").encode())
            os.replace(new, os.path.join(folder, INDEX))
            sync_folder(folder)


def read_json(path: str) -> Dict[str, Any]:
    """The object in a file; an empty one if the file is missing or damaged."""
    try:
        value = json.loads(read_text(path))
    except (OSError, ValueError):
        return {}
    return value if isinstance(value, dict) else {}


def read_text(path: str) -> str:
    with open(path, "rb") as file:
        return file.read().decode("utf-8", "surrogateescape")
