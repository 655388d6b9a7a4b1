"""The man pages: of the program and its orders from its help, tosculai(7) from OPERATING.md, and
those of the commands beside it from what these say of themselves."""

import time
from pathlib import Path
from typing import Dict, List

from commands import PARSERS, head_of, page_of
from helps import Help, Item
from roff import cells, code, escaped, guarded, inline, markdown, paragraph, section, tagged

# What tosculai(7) has of docs/OPERATING.md, by its own headings.
OVERVIEW = [("FILES", "What the package has"), ("LIMITS", "Limits and sizes"),
            ("EXIT STATUS AND MESSAGES", "Messages on standard error")]


class Manuals:
    """Makes pages that name one version and one date."""

    def __init__(self, version: str, epoch: int, root: Path) -> None:
        self.version, self.root = version, root
        self.date = time.strftime("%Y-%m-%d", time.gmtime(epoch))

    def page(self, name: str, number: int, about: str, lines: List[str]) -> str:
        """A whole page. Its description has no full stop."""
        head = [f'.TH "{escaped(name.upper())}" {number} "{self.date}" '
                f'"Tosculai {escaped(self.version)}" "Tosculai"', ".nh", ".ad l",
                ".SH NAME", rf"{escaped(name)} \- {inline(about)}"]
        return "\n".join(head + lines) + "\n"

    def every(self, helps: Dict[str, Help], operating: str) -> Dict[str, str]:
        """All pages by their paths below a folder of man pages."""
        pages = {"man1/contacts.1": self.program(helps[""])}
        for order, one in helps.items():
            if order:
                pages[f"man1/contacts-{order}.1"] = self.order(order, one)
        pages["man7/tosculai.7"] = self.overview(operating)
        for name, number, said in commands(operating):
            pages[f"man{number}/{name}.{number}"] = self.client(name, number, said)
        return pages

    def program(self, one: Help) -> str:
        lines = [".SH SYNOPSIS", synopsis(one.usage), ".SH COMMANDS"]
        for name, said in one.commands:
            lines += tagged(rf"\fBcontacts\-{escaped(name)}\fR(1)", [inline(said)])
        return self.page("contacts", 1, one.about, lines + details(one) + see(["tosculai(7)"]))

    def order(self, order: str, one: Help) -> str:
        lines = [".SH SYNOPSIS", synopsis(one.usage)]
        pages = ["contacts(1)", "tosculai(7)"]
        return self.page(f"contacts-{order}", 1, one.about, lines + details(one) + see(pages))

    def overview(self, operating: str) -> str:
        lines = [".SH DESCRIPTION"] + paragraph(
            "This page has sections of docs/OPERATING.md, which is in the folder of documentation.")
        for heading, source in OVERVIEW:
            lines += [f".SH {heading}"] + markdown(section(operating, source))
        return self.page("tosculai", 7, "files, limits and exit status of the contact server",
                         lines + see(["contacts(1)", "contacts-run(1)"]))

    def client(self, name: str, number: int, said: str) -> str:
        lines = [".SH SYNOPSIS", rf"\fB{escaped(name)}\fR [\fIARGUMENT\fR ...]", ".SH DESCRIPTION",
                 guarded(inline(said[0].upper() + said[1:] + "."))]
        if name in PARSERS:
            lines += page_of(self.root / "clients", name)
        else:
            lines += head_of(self.root / "examples/backup.sh", name)
        return self.page(name, number, said.partition(";")[0], lines + see(["tosculai(7)"]))


def commands(operating: str) -> List[tuple]:
    """The programs of the package beside `contacts`: name, section and what is said of them."""
    found = []
    for row in section(operating, "What the package has").splitlines():
        if row.startswith("| `/usr/bin/tosculai") or row.startswith("| `/usr/sbin/"):
            path, said = cells(row)
            name = path.strip("`").rpartition("/")[2]
            found.append((name, 8 if "/sbin/" in path else 1, said))
    return found


def synopsis(usage: str) -> str:
    """A usage, in which the words of the command are bold."""
    words = [rf"\fB{escaped(it)}\fR" if it[0] not in "[<" else escaped(it)
             for it in usage.split()]
    return " ".join(words)


def details(one: Help) -> List[str]:
    """What follows the synopsis of a help."""
    lines = listed("ARGUMENTS", one.arguments) + listed("OPTIONS", one.options)
    if one.notes:
        lines.append(".SH NOTES")
        for note in one.notes:
            lines += paragraph(note)
    if one.example:
        lines += [".SH EXAMPLE", *code(one.example)[1:]]
    return [*lines, ".SH EXIT STATUS", r"See \fBtosculai\fR(7)."]


def listed(heading: str, items: List[Item]) -> List[str]:
    lines = [f".SH {heading}"] if items else []
    for term, said in items:
        lines += tagged(rf"\fB{escaped(term)}\fR", [inline(said)])
    return lines


def see(pages: List[str]) -> List[str]:
    names = [rf"\fB{escaped(name)}\fR({number}" for name, _, number in
             (it.partition("(") for it in pages)]
    return [".SH SEE ALSO", ", ".join(names)]
