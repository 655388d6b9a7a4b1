#!/usr/bin/env python3
"""Measures how the cost of a call grows with the cards of a book and with the number of books.

The program is that of `./contacts`, or the file that CONTACTS names. README.md beside this file
says what is measured.
"""

import argparse
import os
import shutil
import subprocess
import sys
import tempfile
from collections import namedtuple
from concurrent.futures import ThreadPoolExecutor
from pathlib import Path
from statistics import median
from subprocess import SubprocessError
from time import perf_counter

# Python leaves no caches in the repository.
sys.dont_write_bytecode = True

from cards import rows, uid
from instructions import CALLS, TIMES, count_run, have_valgrind
from table import duration, instructions, machine, octets, put_between
from tosculai import BOOKS, ROOT, Tosculai, digest, find_program
from wire import Failure

sys.path.append(str(ROOT / "tests"))
from page_sums import changing  # noqa: E402

PAGE = ROOT / "docs/OPERATING.md"
BEGIN, END = "<!-- The table of growth begins. -->\n", "<!-- The table of growth ends. -->\n"
GONE = 40  # the cards that are deleted before the calls, so that a book can reach its keep
MANY = 10_000

# A file: its books with cards, the cards of each, and whether each book has as many tombstones as
# it keeps.
Office = namedtuple("Office", "books cards is_full")
SMALL, LARGE, WIDE = Office(1, 100, False), Office(1, MANY, False), Office(100, 100, False)

# A row for instructions: the call, its name in the table, and whether the books are full.
Row = namedtuple("Row", "call title is_full")
ROWS = [
    Row("get", "a get", False),
    Row("put", "a put that changes a card", False),
    Row("page", "a page of 100 cards", False),
    Row("tally", "a tally", False),
    Row("delete", "a delete", False),
    Row("delete", "a delete, where the book is at its keep", True),
    Row("move", "a move", False),
    Row("move", "a move, where the book is at its keep", True),
]


def group(size):
    """A group of the first cards, as a row of CSV."""
    members = "".join(f"MEMBER:{uid(number)}\r\n" for number in range(size))
    begin = "BEGIN:VCARD\r\nVERSION:4.0\r\nUID:group\r\nFN:Group\r\nKIND:group\r\n"
    return f'group,"{begin}{members}END:VCARD\r\n"\n'.encode()


def make(program, folder, office, more=b""):
    """A file with these books, after some deletes; `staff` is the first of them, and has the rows
    `more`, too."""
    folder.mkdir()
    server = Tosculai(program, folder)
    names = [f"other{number}" for number in range(office.books - len(BOOKS))]
    for name in names:
        server.order("book", server.file, name)
    try:
        server.start()
        server.load(rows(GONE, office.cards), "staff", "gone")
        for number in range(GONE):
            server.delete(office.cards + number)
        server.load(rows(office.cards) + more, "staff")
        for name in names:
            server.load(rows(office.cards), name)
    finally:
        server.stop()
    if office.is_full:
        with changing(server.file) as database:
            database.execute("UPDATE keeping SET keep = ?", [GONE])


def count_call(program, template, name):
    """The instructions of one call, after a first one of its kind."""
    call = CALLS[f"{name}-instructions"]
    first = count_run(program, template, call, 1)
    return (count_run(program, template, call, 1 + TIMES) - first) / TIMES


def count_all(program, folder):
    """The instructions of each call, by its row and office."""
    jobs = {}
    with ThreadPoolExecutor(os.cpu_count()) as pool:
        for number, office in enumerate([SMALL, LARGE, WIDE]):
            for is_full in (False, True):
                template = folder / f"{number}-{is_full}"
                make(program, template, office._replace(is_full=is_full))
                for row in (row for row in ROWS if row.is_full == is_full):
                    jobs[row, office] = pool.submit(count_call, program, template, row.call)
        return {key: job.result() for key, job in jobs.items()}


def run_order(program, *words):
    """Runs an order. Returns its seconds and the most octets that its process had."""
    begun = perf_counter()
    with subprocess.Popen([program, *map(str, words)], stdout=subprocess.DEVNULL) as process:
        _, status, usage = os.wait4(process.pid, 0)
        process.returncode = os.waitstatus_to_exitcode(status)
    if process.returncode:
        raise Failure(f"{words} ended with {process.returncode}")
    return perf_counter() - begun, usage.ru_maxrss * 1024


def orders(program, folder):
    """What orders over a book of 10,000 cards hold in memory, and how long an import takes."""
    template = folder / "orders"
    make(program, template, LARGE._replace(cards=MANY - 1), group(1_000))
    file, found = template / "office.db", {}
    for title, *words in [
        ("a tally, so opening the file", "tally", file, "staff"),
        ("an export", "export", file, "staff"),
        ("a mirror", "mirror", file, "staff"),
        ("an expand of a group of 1,000", "expand", file, "staff", "group"),
    ]:
        found[title] = run_order(program, *words)[1]
    (folder / "rows.csv").write_bytes(rows(MANY))
    times = []
    for number in range(3):
        copy = folder / f"copy-{number}"
        shutil.copytree(str(template), str(copy))
        file = copy / "office.db"
        opening = run_order(program, "tally", file, "imports")[0]
        whole = run_order(program, "import", file, "imports", "day", folder / "rows.csv")[0]
        times.append(whole - opening)
    return found, median(times)


def measure(programs, place):
    """Measures each program, and returns the text that is printed."""
    counts, held, imports = [], [], []
    for program in programs:
        with tempfile.TemporaryDirectory(prefix="contacts-perf-", dir=place) as folder:
            counts.append(count_all(program, Path(folder)))
            sizes, seconds = orders(program, Path(folder))
        held.append(sizes)
        imports.append(seconds)
    columns = ["before", "now"] if len(programs) == 2 else ["now"]
    head = ["instructions of"] + [f"100 cards, {it}" for it in columns]
    head += [f"10,000 cards, {it}" for it in columns] + ["10,000 to 100", "100 books to 1"]
    lines = [head, ["---"] * len(head)] + [count_cells(row, counts) for row in ROWS]
    text = "".join("| " + " | ".join(cells) + " |\n" for cells in lines)
    head = ["over 10,000 cards"] + columns
    lines = [head, ["---"] * len(head)]
    lines.append(["seconds of an import of 10,000 rows"] + [duration(it) for it in imports])
    for title in held[0]:
        lines.append([f"most memory of {title}"] + [octets(sizes[title]) for sizes in held])
    more = "".join("| " + " | ".join(cells) + " |\n" for cells in lines)
    return (
        f"{machine(place)} The program's SHA-256 is `{digest(programs[-1])[:16]}..`.\n\n"
        f"{text}\n{more}"
    )


def count_cells(row, counts):
    """A row of the table: the counts of each program, and how the last one's grow."""
    small = [instructions(count[row, SMALL]) for count in counts]
    large = [instructions(count[row, LARGE]) for count in counts]
    now = counts[-1]
    cards, books = now[row, LARGE] / now[row, SMALL], now[row, WIDE] / now[row, SMALL]
    return [row.title, *small, *large, f"{cards:,.2f}×", f"{books:,.2f}×"]


def main():
    parser = argparse.ArgumentParser(description=__doc__.partition("\n")[0])
    parser.add_argument("--write", action="store_true", help="put the table into OPERATING.md too")
    parser.add_argument("--old", help="an older program to compare with")
    place = tempfile.gettempdir()
    parser.add_argument("--folder", default=place, help="where files are made (%(default)s)")
    options = parser.parse_args()
    if not have_valgrind():
        parser.error("valgrind is not installed")
    try:
        old = [os.path.abspath(options.old)] if options.old else []
        text = measure(old + [find_program()], options.folder)
        print(text, end="")
        if options.write:
            put_between(PAGE, BEGIN, END, text)
    except (Failure, OSError, SubprocessError) as failure:
        print(f"growth: {failure}", file=sys.stderr)
        return 1
    return 0


if __name__ == "__main__":
    sys.exit(main())
