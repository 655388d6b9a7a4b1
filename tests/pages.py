"""Reads the Markdown pages of the project: blocks of code, tables, links, and exchanges of HTTP.

An exchange is a block with a request and its reply as they go over a connection, but for the line
ends, which Markdown can't show: lines of heads and of cards end in CRLF, rows in LF, and JSON has
no line end.
"""

import re
from collections import namedtuple

from program import ROOT

# A block of code: what its fence says, its text, and the number of its first line.
Block = namedtuple("Block", "info text line")
# A request and its reply, as octets, and the number of the line where they begin.
Exchange = namedtuple("Exchange", "request reply line")


class Page:
    """A page, by its path from the project's root."""

    def __init__(self, path):
        self.path = ROOT / path
        self.text = self.path.read_text(encoding="utf-8")

    def blocks(self):
        """All blocks of code, in order."""
        found = []
        for match in re.finditer(r"^```(.*)\n((?:.*\n)*?)```$", self.text, re.MULTILINE):
            line = self.text.count("\n", 0, match.start()) + 2
            found.append(Block(match[1].strip(), match[2], line))
        return found

    def prose(self):
        """The page without its blocks of code."""
        return re.sub(r"^```.*\n(?:.*\n)*?```$", "", self.text, flags=re.MULTILINE)

    def exchanges(self):
        """All exchanges of HTTP, in order."""
        found = []
        for block in self.blocks():
            if re.match(r"[A-Z]+ \S+ HTTP/1\.1\n", block.text):
                request, mark, reply = block.text.partition("\n\nHTTP/1.1 ")
                reply = mark.strip("\n") + reply
                found.append(Exchange(octets_of(request + "\n"), octets_of(reply), block.line))
        return found

    def table(self, *header):
        """The rows of the tables with this header: each a list of its cells' texts."""
        rows, inside = [], False
        for line in self.text.splitlines():
            cells = cells_of(line)
            if not inside:
                inside = cells == list(header)
            elif cells is None:
                inside = False
            elif not all(re.fullmatch(r":?-+:?", cell) for cell in cells):
                rows.append(cells)
        return rows

    def code(self):
        """What is marked as code within lines."""
        return re.findall(r"`([^`\n]+)`", self.prose())

    def links(self):
        """The targets of all links."""
        return re.findall(r"\]\(([^)\s]+)\)", self.prose())

    def anchors(self):
        """The names by which links reach the page's headings, as GitHub makes them.

        Of a link in a heading only the text counts.
        """
        headings = re.findall(r"^#+ (.*)$", self.prose(), re.MULTILINE)
        headings = [re.sub(r"\[([^]]*)\]\([^)]*\)", r"\1", it) for it in headings]
        return {re.sub(r"[^\w\- ]", "", it.lower()).replace(" ", "-") for it in headings}


def cells_of(line):
    """The cells of a line of a table, or None for another line."""
    if not line.startswith("|"):
        return None
    return [cell.strip() for cell in re.split(r"(?<!\\)\|", line.strip()[1:-1])]


def octets_of(text):
    """The octets of a request or a reply that a page shows."""
    head, _, body = text.partition("\n\n")
    lines = head.strip("\n").replace("\n", "\r\n") + "\r\n\r\n"
    return (lines + body_of(body)).encode()


def body_of(text):
    """A body with its line ends: none in JSON, LF in rows outside of quotes, CRLF in a card."""
    if text.startswith("{"):
        return text.rstrip("\n")
    if not text.startswith("uid,"):
        return text.replace("\n", "\r\n")
    # What is between the first quote and the second one is quoted, and so on.
    parts = text.split('"')
    parts[1::2] = [part.replace("\n", "\r\n") for part in parts[1::2]]
    return '"'.join(parts)
