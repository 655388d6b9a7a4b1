"""The parts of the program: the rows of each in the folder data, and the expected output for them
in the file stdout, below the part's name. The scripts that generate rows write them through this.
Run as a program, it counts the rows of the parts whose rows have the expected result beside them."""

import pathlib
import re

HERE = pathlib.Path(__file__).resolve().parent
TITLE = re.compile(rb"^######## ([a-z]+)\n", re.MULTILINE)


def expected_parts():
    """The expected output of each part, by name, in their order."""
    pieces = TITLE.split((HERE / "stdout").read_bytes())[1:]
    return {name.decode(): output[:-1] for name, output in zip(pieces[::2], pieces[1::2])}


def rows(part):
    return (HERE / "data" / part).read_bytes()


def expected(part):
    return expected_parts()[part]


def write_rows(part, octets):
    (HERE / "data" / part).write_bytes(octets)


def write_expected(part, octets):
    parts = {**expected_parts(), part: octets}
    whole = b"".join(b"######## %s\n%s\n" % (name.encode(), octets) for name, octets in parts.items())
    (HERE / "stdout").write_bytes(whole)


def count_rows():
    for part in ("cards", "formats"):
        lines = rows(part).decode().split("\n")
        count = sum(1 for line in lines if line and not line.startswith("#"))
        write_expected(part, b"%d rows\n" % count)


if __name__ == "__main__":
    count_rows()
