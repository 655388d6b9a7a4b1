"""Files that are on the disk when they have to be."""

import ctypes
import os
from typing import Any, Dict, Iterable, Optional

MANY = 8  # files from which on the whole file system is synchronized at once: that is much faster


def _found_syncfs() -> Optional[Any]:
    """Linux's syncfs, where there is one."""
    try:
        return ctypes.CDLL(None, use_errno=True).syncfs
    except (AttributeError, OSError, TypeError):
        return None


_SYNCFS = _found_syncfs()


def _sync_all(path: str) -> bool:
    """Waits until all of the file system of this folder is on the disk, if that can be done."""
    if not _SYNCFS:
        return False
    folder = os.open(path, os.O_RDONLY)
    try:
        return bool(_SYNCFS(folder) == 0)
    finally:
        os.close(folder)


def write_file(path: str, octets: bytes) -> None:
    """Writes a file, which is on the disk when this returns."""
    with open(path, "wb") as file:
        file.write(octets)
        file.flush()
        os.fsync(file.fileno())


def write_files(files: Dict[str, bytes]) -> None:
    """Writes files of one file system, which are all on the disk when this returns."""
    if len(files) >= MANY:
        for path, octets in files.items():
            with open(path, "wb") as file:
                file.write(octets)
        if _sync_all(os.path.dirname(path) or "."):
            return
    for path, octets in files.items():
        write_file(path, octets)


def sync_folder(path: str) -> None:
    """Waits until the names in a folder are on the disk, where the system can do that."""
    if os.name == "posix":
        folder = os.open(path, os.O_RDONLY)
        try:
            os.fsync(folder)
        finally:
            os.close(folder)


def sync_folders(paths: Iterable[str]) -> None:
    """Waits until the names in folders of one file system are on the disk."""
    paths = list(paths)
    if len(paths) < MANY or not _sync_all(paths[0]):
        for path in paths:
            sync_folder(path)
