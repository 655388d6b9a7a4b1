"""Archives whose octets follow from their members alone: tar, xz, gzip, and ar as Debian has it.

No time, user, mask or name of the machine comes in. The members are sorted by their paths.
"""

import gzip
import io
import lzma
from typing import Dict, List, NamedTuple, Tuple

XZ = 6 | lzma.PRESET_EXTREME
BLOCK, RECORD = 512, 10240


class Entry(NamedTuple):
    """A file of the package. `path` begins with usr/ or etc/, without a slash before it.

    If `adapted`, its text has @PREFIX@ in place of /usr.
    """

    path: str
    octets: bytes
    mode: int = 0o644
    adapted: bool = False

    def at(self, prefix: str) -> bytes:
        """The octets of the file where the package is installed below this prefix."""
        return self.octets.replace(b"@PREFIX@", prefix.encode()) if self.adapted else self.octets


def gzipped(octets: bytes) -> bytes:
    """The octets in gzip's format, without a name and a time."""
    made = io.BytesIO()
    with gzip.GzipFile(filename="", mode="wb", compresslevel=9, fileobj=made, mtime=0) as file:
        file.write(octets)
    return made.getvalue()


def xz(octets: bytes, preset: int = XZ) -> bytes:
    return lzma.compress(octets, format=lzma.FORMAT_XZ, check=lzma.CHECK_CRC64, preset=preset)


def folders_of(paths: List[str]) -> List[str]:
    """All folders above these paths."""
    found = set()
    for path in paths:
        while "/" in path:
            path = path.rpartition("/")[0]
            found.add(path)
    return sorted(found)


def tar(files: Dict[str, Tuple[bytes, int]], epoch: int, root: str = "") -> bytes:
    """A tar of files, which are octets and modes by path, and of their folders.

    With a root its name is before each path, and is a member itself, as `./`.
    """
    before = f"{root}/" if root else ""
    made = [head("./", 0o755, 0, epoch, b"5")] if root == "." else []
    for path in sorted([*folders_of(list(files)), *files]):
        if path in files:
            octets, mode = files[path]
            made += [head(before + path, mode, len(octets), epoch, b"0"), octets,
                     bytes(-len(octets) % BLOCK)]
        else:
            made.append(head(f"{before}{path}/", 0o755, 0, epoch, b"5"))
    whole = b"".join(made)
    # Two blocks of zeros are the end, and the whole fills records.
    return whole + bytes(2 * BLOCK + -(len(whole) + 2 * BLOCK) % RECORD)


def head(path: str, mode: int, size: int, epoch: int, kind: bytes) -> bytes:
    """The head of a member of root's, as POSIX has it (ustar).

    Versions of Python's tarfile don't agree on the numbers of devices, so it isn't made by that.
    """
    before, name = halves(path.encode())
    numbers = f"{mode:07o}\0{0:07o}\0{0:07o}\0{size:011o}\0{epoch:011o}\0".encode()
    root = b"root".ljust(32, b"\0")
    rest = kind + bytes(100) + b"ustar\x0000" + root * 2 + b"0000000\0" * 2
    rest += before.ljust(155 + 12, b"\0")
    total = sum(name) + sum(numbers) + sum(rest) + 8 * ord(" ")
    return name.ljust(100, b"\0") + numbers + f"{total:06o}\0 ".encode() + rest


def halves(path: bytes) -> Tuple[bytes, bytes]:
    """A path as its head has it: a name of at most 100 octets, and what is before its slash."""
    if len(path) <= 100:
        return b"", path
    cut = path.find(b"/", len(path) - 101, len(path) - 1)
    if not 0 < cut <= 155:
        raise ValueError(f"a path that is too long for a tar: {path.decode()}")
    return path[:cut], path[cut + 1:]


def ar(members: List[Tuple[str, bytes]], epoch: int) -> bytes:
    """The common format of ar, as deb(5) wants it."""
    made = [b"!<arch>\n"]
    for name, octets in members:
        first = f"{name:<16}{epoch:<12}{0:<6}{0:<6}{'100644':<8}{len(octets):<10}`\n"
        made += [first.encode("ascii"), octets, b"\n" * (len(octets) % 2)]
    return b"".join(made)
