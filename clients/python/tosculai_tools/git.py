"""The repository of a folder that `follow` keeps with git."""

import os
import subprocess
import time
from typing import Callable, Dict, Iterator, List, Set, Tuple

from tosculai import Error
from tosculai_tools.disk import write_file

LOCKED_MAX = 10  # seconds that a git which was stopped may leave its lock behind
IGNORED = ".gitignore"
SETTINGS = ["user.name=follow", "user.email=follow@localhost", "commit.gpgsign=false",
            "core.autocrlf=false", "core.hooksPath=/dev/null", "gc.auto=0"]


def command(folder: str, *arguments: str) -> List[str]:
    """A git command, which runs without anybody's settings."""
    options = [it for setting in SETTINGS for it in ("-c", setting)]
    return ["git", "-C", folder, *options, *arguments]


def environment(folder: str) -> Dict[str, str]:
    """What a git command gets, so that it finds no repository but the folder's own.

    Within a hook of git the environment names another one, and a folder without a whole one may be
    below another.
    """
    own = {name: it for name, it in os.environ.items() if not name.startswith("GIT_")}
    return {**own, "GIT_CEILING_DIRECTORIES": os.path.dirname(os.path.realpath(folder))}


def git(folder: str, *arguments: str) -> int:
    """The status of a git command."""
    return subprocess.run(command(folder, *arguments), env=environment(folder)).returncode


def has_repository(folder: str) -> bool:
    return os.path.isdir(os.path.join(folder, ".git"))


def commit(folder: str, message: str) -> None:
    """Commits what changed in the folder, if anything did."""
    if git(folder, "add", "-A") or git(folder, "diff", "--cached", "--quiet") not in (0, 1):
        raise Error(f"git can't add the files of {folder}")
    if git(folder, "diff", "--cached", "--quiet") and git(folder, "commit", "-q", "-m", message):
        raise Error(f"git can't commit in {folder}")


def prepare(folder: str) -> None:
    """Makes the repository, or what a stop left out of it, and commits what was there."""
    git(folder, "init", "-q")
    write_file(os.path.join(folder, IGNORED), b".tosculai*\n/*/versions/\n")
    lock = os.path.join(folder, ".git", "index.lock")
    begun = time.monotonic()
    while os.path.exists(lock):
        if time.monotonic() - begun > LOCKED_MAX:
            os.unlink(lock)
        time.sleep(0.1)
    commit(folder, "what was there before a stop")


# The end of a person's data.

def blobs(folder: str) -> Iterator[Tuple[bytes, bytes]]:
    """The names and octets of all files of all commits, and of those that no commit has any more.

    It ends with an Error if git can't read one.
    """
    with subprocess.Popen(command(folder, "cat-file", "--batch", "--batch-all-objects"),
                          stdout=subprocess.PIPE, env=environment(folder)) as process:
        assert process.stdout
        for head in process.stdout:
            name, kind, size = head.split()
            octets = process.stdout.read(int(size))
            process.stdout.read(1)
            if kind == b"blob":
                yield name, octets
    if process.returncode:
        raise Error(f"git can't read the history of {folder}")


def forget(folder: str, books: List[str], is_bad: Callable[[bytes], bool]) -> int:
    """Makes a history without these files of the books, and drops the old one.

    Returns how many texts they have.
    """
    bad = {name for name, octets in blobs(folder) if is_bad(octets)}
    if bad:
        rewrite(folder, tuple(f"{book}/".encode() for book in books), bad)
    for arguments in (["reset", "-q"], ["reflog", "expire", "--expire=now", "--all"],
                      ["gc", "--quiet", "--prune=now"]):
        if git(folder, *arguments):
            raise Error(f"git {arguments[0]} failed in {folder}: the old history is still there")
    return len(bad)


def is_dropped(line: bytes, places: Tuple[bytes, ...], bad: Set[bytes]) -> bool:
    """Whether a line of the history puts one of these texts into one of these places."""
    if not line.startswith(b"M "):
        return False
    _, _, name, path = line.split(b" ", 3)
    return name in bad and path.lstrip(b'"').startswith(places)


def rewrite(folder: str, places: Tuple[bytes, ...], bad: Set[bytes]) -> None:
    """Writes all commits again without these files; a file that had such a text keeps the last one
    that it had before."""
    reading = command(folder, "fast-export", "--no-data", "--all", "--signed-tags=strip")
    writing = command(folder, "fast-import", "--force", "--quiet")
    own = environment(folder)
    with subprocess.Popen(reading, stdout=subprocess.PIPE, env=own) as source, \
            subprocess.Popen(writing, stdin=subprocess.PIPE, env=own) as target:
        assert source.stdout and target.stdin
        for line in source.stdout:
            if line.startswith(b"data "):
                target.stdin.write(line + source.stdout.read(int(line[5:])))
            elif not is_dropped(line, places, bad):
                target.stdin.write(line)
        target.stdin.close()
        target.wait()
    if source.returncode or target.returncode:
        raise Error(f"git can't write the history of {folder} again")
