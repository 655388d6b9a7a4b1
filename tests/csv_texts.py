"""Rows of CSV as texts, by Python's csv."""

import csv
import io

# A row may have a card of 262,144 octets.
csv.field_size_limit(1_000_000)


def csv_text(rows, delimiter=","):
    """The rows as CSV."""
    file = io.StringIO(newline="")
    csv.writer(file, delimiter=delimiter).writerows(rows)
    return file.getvalue()


def rows_of(octets):
    """The rows of a CSV text, without the header."""
    return list(csv.reader(io.StringIO(octets.decode(), newline="")))[1:]
