"""The program's help, read into its parts: what man pages and the completion are made from."""

import re
import subprocess
from typing import Dict, List, NamedTuple, Tuple

# A term and what is said of it.
Item = Tuple[str, str]
HEADINGS = ("Commands", "Arguments", "Options", "Example")


class Help(NamedTuple):
    about: str
    usage: str
    commands: List[Item]
    arguments: List[Item]
    options: List[Item]
    example: List[str]
    notes: List[str]


def read(text: str) -> Help:
    """The parts of a help text. A line that has no place in them is a ValueError."""
    about, found, rest = text.strip("\n").partition("\n\nUsage: ")
    if not found:
        raise ValueError(f"a help without its usage: {text[:60]!r}")
    usage, *blocks = rest.split("\n\n")
    parts: Dict[str, List[str]] = {it: [] for it in HEADINGS}
    notes = []
    for block in blocks:
        first, *lines = block.splitlines()
        if first.rstrip(":") in parts:
            parts[first.rstrip(":")] = lines
        else:
            notes.append(" ".join(block.split()))
    commands, arguments, options = (items(parts[it]) for it in HEADINGS[:3])
    example = [it.strip() for it in parts["Example"]]
    return Help(about, usage, commands, arguments, options, example, notes)


def items(lines: List[str]) -> List[Item]:
    """The two columns of a block."""
    found = []
    for line in lines:
        columns = re.match(r"\s+(\S.*?)\s{2,}(\S.*)$", line)
        if not columns:
            raise ValueError(f"not a line of two columns: {line!r}")
        found.append((columns[1], columns[2]))
    return found


def flags(term: str) -> List[str]:
    """The spellings of an option: -h and --help of `-h, --help`."""
    return re.findall(r"(?<!\S)--?[\w-]+", term)


def value(term: str) -> str:
    """The name of an option's value, or nothing: P of `--port <P>`."""
    found = re.search(r"<(\w+)>", term)
    return found[1] if found else ""


def choices(said: str) -> List[str]:
    """The values that the text of an option names: cards and columns of `cards` for .."""
    return re.findall(r"`([a-z]+)` for\b", said)


def ask(program: str, *arguments: str) -> str:
    """What the program prints of these arguments, on whichever output."""
    done = subprocess.run([program, *arguments], stdin=subprocess.DEVNULL, env={"LC_ALL": "C"},
                          stdout=subprocess.PIPE, stderr=subprocess.PIPE, timeout=60)
    return (done.stdout + done.stderr).decode()


def all_of(program: str) -> Dict[str, Help]:
    """The program's help under "", and each order's under its name."""
    found = {"": read(ask(program, "--help"))}
    for order, _ in found[""].commands:
        found[order] = read(ask(program, "help", order))
    return found
