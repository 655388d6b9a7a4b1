"""The Debian package: its control files, and the three members of deb(5)."""

import hashlib
import re
from email.utils import formatdate
from pathlib import Path
from typing import Dict, List, Tuple

from archives import Entry, ar, folders_of, tar, xz
from tree import UNITS, USERS

HERE = Path(__file__).resolve().parent / "debian"
KEPT = [*(it.folder for it in USERS), "/var/backups/tosculai"]


def text_of(name: str) -> str:
    return (HERE / name).read_text("utf-8")


def changelog(version: str, epoch: int) -> str:
    """The one entry of Debian's changelog. What changed for users is in CHANGELOG.md."""
    who = re.search(r"^Maintainer: (.*)$", text_of("control"), re.M)
    return (f"tosculai ({version}) unstable; urgency=medium\n\n"
            "  * CHANGELOG.md says what users can notice.\n\n"
            f" -- {who[1] if who else ''}  {formatdate(epoch).replace('-0000', '+0000')}\n")


def scripts() -> Dict[str, str]:
    """The maintainer's scripts, with the names of the units, users and folders."""
    accounts = [f"    account {it.name} {it.folder} '{it.said}'" for it in USERS]
    # The backup's service is started by its timer alone.
    others = [it for it in UNITS if it not in ("contacts.service", "contacts-backup.service")]
    names = {"@ACCOUNTS@": "\n".join(accounts), "@OTHERS@": " ".join(others),
             "@UNITS@": " ".join(UNITS), "@FOLDERS@": " ".join(KEPT)}
    found = {}
    for script in "postinst", "prerm", "postrm":
        text = text_of(script)
        for name, value in names.items():
            text = text.replace(name, value)
        found[script] = text
    return found


def control(version: str, entries: List[Entry]) -> str:
    """The control file. A folder counts for a KiB, and each file for its KiBs."""
    size = len(folders_of([it.path for it in entries])) + 1
    size += sum((len(it.at("/usr")) + 1023) // 1024 for it in entries)
    return text_of("control").replace("@VERSION@", version).replace("@SIZE@", str(size))


def package(version: str, entries: List[Entry], epoch: int, preset: int) -> bytes:
    """The octets of the .deb."""
    data = {it.path: (it.at("/usr"), it.mode) for it in entries}
    sums = [f"{hashlib.md5(octets).hexdigest()}  {path}\n" for path, (octets, _) in data.items()
            if not path.startswith("etc/")]
    conffiles = [f"/{path}\n" for path in data if path.startswith("etc/")]
    files: Dict[str, Tuple[bytes, int]] = {
        "control": (control(version, entries).encode(), 0o644),
        "md5sums": ("".join(sums).encode(), 0o644),
        "conffiles": ("".join(conffiles).encode(), 0o644),
    }
    files.update({name: (text.encode(), 0o755) for name, text in scripts().items()})
    return ar([("debian-binary", b"2.0\n"),
               ("control.tar.xz", xz(tar(files, epoch, "."), preset)),
               ("data.tar.xz", xz(tar(data, epoch, "."), preset))], epoch)
