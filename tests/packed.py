"""What tools/package makes of the program under test, read by Python alone."""

import io
import lzma
import os
import re
import subprocess
import sys
import tarfile
from functools import lru_cache

from help_texts import HELP
from program import PATIENCE, PROGRAM

EPOCH = "1790000000"
# The orders of the program.
ORDERS = [it for it in HELP if it]


def pack(tree, out, mask, *more, **environment):
    """Starts tools/package of a tree, in a hurry."""
    command = [sys.executable, str(tree / "tools/package"), "--program", PROGRAM, "--preset", "0"]
    return subprocess.Popen(
        [*command, "--out", str(out), *more], cwd=tree,
        env={**os.environ, "SOURCE_DATE_EPOCH": EPOCH, **environment},
        preexec_fn=lambda: os.umask(mask), stdout=subprocess.PIPE, stderr=subprocess.STDOUT)


def wait_for(process):
    """Waits until it has packed. It takes some seconds of a processor."""
    said = process.communicate(timeout=PATIENCE)[0]
    if process.returncode:
        raise AssertionError(said.decode())


@lru_cache(maxsize=None)
def members(packed):
    """The members of a tar.xz by their paths, without the root's name, and their octets."""
    with tarfile.open(fileobj=io.BytesIO(lzma.decompress(packed))) as archive:
        return {it.name: (it, archive.extractfile(it).read() if it.isfile() else b"")
                for it in archive.getmembers()}


class Packed:
    """The files of a packing, in its folder."""

    def __init__(self, folder):
        self.folder = folder

    def only(self, pattern):
        """The one file that has such a name."""
        found, = self.folder.glob(pattern)
        return found

    def deb(self):
        """The three members of the .deb by their names, read as deb(5) says."""
        octets, found, at = self.only("*.deb").read_bytes(), {}, 8
        assert octets[:8] == b"!<arch>\n"
        while at < len(octets):
            name, date, user, group, mode, size = octets[at:at + 58].decode().split()
            assert (date, user, group, mode) == (EPOCH, "0", "0", "100644")
            at += 60
            found[name] = octets[at:at + int(size)]
            at += int(size) + int(size) % 2
        return found

    def installed(self):
        """The octets of each file that the .deb installs, by its path."""
        found = members(self.deb()["data.tar.xz"])
        return {path[2:]: octets for path, (it, octets) in found.items() if it.isfile()}


def options_of(order):
    """All options that the help of an order names."""
    lines = re.findall(r"^ +(-\S.*?)  ", HELP[order], re.M)
    return {it for line in lines for it in re.findall(r"(?<!\S)--?[\w-]+", line)}
