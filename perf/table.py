"""The figures as one Markdown table, and the machine that they were measured on."""

import os
import platform
import sqlite3
from collections import namedtuple
from datetime import date
from statistics import median

from wire import Failure

# A column of the table: its heading, the column that its times are compared with or None, and
# its figures, a dictionary for each round.
Column = namedtuple("Column", "title base rounds")


def rate(seconds):
    return f"{1 / seconds:,.0f}"


def duration(seconds):
    milliseconds = seconds * 1000
    digits = 2 if milliseconds < 1 else 1 if milliseconds < 10 else 0
    return f"{milliseconds:,.{digits}f} ms"


def octets(count):
    return f"{count / 1e6:,.1f} MB" if count >= 1e5 else f"{count / 1e3:,.1f} kB"


def instructions(count):
    return f"{round(count, -2):,.0f}"


# A row of the table: the figure that it shows, what it says of it, how it is written, and
# whether the least and the greatest of the rounds are shown too.
Row = namedtuple("Row", "key title unit spread")
ROWS = [
    Row("new", "new cards put a second, over one connection", rate, True),
    Row("change", "cards changed by puts a second, over one connection", rate, True),
    Row("alone", "the same, a connection each", rate, True),
    Row("condition", "a put that names the card's version", duration, False),
    Row("delete", "a delete", duration, False),
    Row("move", "a move to another book", duration, False),
    Row("get", "a get", duration, False),
    Row("miss", "a request for no route", duration, False),
    Row("tally", "a tally", duration, False),
    Row("first", "a first sync of all cards", duration, True),
    Row("later", "a sync after ten changes", duration, True),
    Row("same", "a sync where nothing changed", duration, True),
    Row("import", "an import of as many rows", duration, True),
    Row("export", "an export", duration, True),
    Row("start", "a start over the cards", duration, True),
    Row("opened", "most memory, from start to listening", octets, False),
    Row("memory", "most memory, over the day", octets, False),
    Row("loaded", "most memory, from start to the import's end", octets, False),
    Row("file", "the cards on the disk", octets, False),
    Row("log", "the log beside them", octets, False),
    Row("put-instructions", "instructions of a put that changes a card", instructions, False),
    Row("delete-instructions", "instructions of a delete", instructions, False),
    Row("move-instructions", "instructions of a move", instructions, False),
    Row("get-instructions", "instructions of a get", instructions, False),
    Row("tally-instructions", "instructions of a tally", instructions, False),
    Row("page-instructions", "instructions of a page of 100 cards", instructions, False),
]


def table(columns):
    """The rows that any column has a figure for."""
    head = [[""] + [column.title for column in columns], ["---"] * (len(columns) + 1)]
    body = [[row.title] + [cell(row, column) for column in columns] for row in ROWS]
    lines = head + [cells for cells in body if any(cells[1:])]
    return "".join("| " + " | ".join(cells) + " |\n" for cells in lines)


def cell(row, column):
    """The median of the rounds, their least and greatest, and the ratio to the base."""
    values = [figures[row.key] for figures in column.rounds if row.key in figures]
    if not values:
        return ""
    text = row.unit(median(values))
    if row.spread and len(values) > 1:
        # The greatest rate is that of the least time. The unit is written once.
        ends = sorted(values, reverse=row.unit is rate)
        text += " ({} to {})".format(*(row.unit(end).split()[0] for end in (ends[0], ends[-1])))
    return text + ratio(row, column)


def ratio(row, column):
    """How many times as long as the base, by the median of the rounds' ratios."""
    if column.base is None or row.unit not in (rate, duration):
        return ""
    pairs = zip(column.rounds, column.base.rounds)
    ratios = [mine[row.key] / base[row.key] for mine, base in pairs if row.key in base]
    if not ratios:
        return ""
    times = median(ratios)
    return f", {times:,.0f}×" if times >= 10 else f", {times:,.1f}×"


def put_between(page, begin, end, text):
    """Puts the text into the page, between its two marks, each of which is a line."""
    before, begin, rest = page.read_text(encoding="utf-8").partition(begin)
    _, end, after = rest.partition(end)
    if not (begin and end):
        raise Failure(f"{page} lacks its marks")
    page.write_text(f"{before}{begin}\n{text}\n{end}{after}", encoding="utf-8")


def machine(folder):
    """The day, the machine, and where the files are."""
    today = date.today()
    return (
        f"{today.day} {today:%B %Y}, on {os.cpu_count()} cores of {processor()}, Linux"
        f" {platform.release()}, files on {file_system(folder)}, Python"
        f" {platform.python_version()}, its SQLite {sqlite3.sqlite_version}."
    )


def processor():
    """The processor's name."""
    with open("/proc/cpuinfo", encoding="utf-8") as file:
        names = [line.partition(":")[2].strip() for line in file if line.startswith("model name")]
    return names[0] if names else platform.machine()


def file_system(folder):
    """The kind of the file system that has the folder: that of the longest path above it."""
    folder = os.path.realpath(folder)
    with open("/proc/mounts", encoding="utf-8") as file:
        mounts = [line.split()[1:3] for line in file]
    above = [(len(path), kind) for path, kind in mounts if is_below(folder, path)]
    # Of mounts at one path, the last one is seen.
    return max(reversed(above), key=lambda mount: mount[0])[1]


def is_below(path, folder):
    return os.path.commonpath([path, folder]) == folder
