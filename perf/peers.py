"""The peers that are installed here."""

import shutil
import subprocess
import sys

from cyrus import Cyrus
from dav import Radicale, Xandikos


def find_peers():
    """The peers, each with its version."""
    found = {}
    for peer in (Radicale, Xandikos):
        command = shutil.which(peer.name.lower())
        if command:
            version = subprocess.run([command, "--version"], stdout=subprocess.PIPE, check=False)
            found[peer] = version.stdout.decode().strip().rpartition(" ")[2]
    if Cyrus.version():
        found[Cyrus] = Cyrus.version()
    for peer in (Radicale, Xandikos, Cyrus):
        if peer not in found:
            print(f"{peer.name} is not installed: left out", file=sys.stderr)
    return found
