"""Text and Markdown of our pages in the language of man(7)."""

import re
from typing import List, Tuple

# What groff prints otherwise than it is typed.
SIGNS = {"\\": r"\(rs", "-": r"\-", "'": r"\(aq", "`": r"\(ga", "^": r"\(ha", "~": r"\(ti"}
INLINE = re.compile(r"`([^`]+)`|\*\*([^*]+)\*\*|\[([^\]]+)\]\([^)]+\)")
# A tag of a list is no longer than this; a longer one is a paragraph.
TAG = 44


def escaped(text: str) -> str:
    return "".join(SIGNS.get(it, it) for it in text)


def guarded(line: str) -> str:
    """A line that can't be taken for a request."""
    return r"\&" + line if line[:1] in ".'" else line


def inline(text: str) -> str:
    """A text of Markdown without its links: code and what is strong are bold."""
    text, made, at = " ".join(text.split()), "", 0
    for found in INLINE.finditer(text):
        made += escaped(text[at:found.start()])
        code, strong, link = found.groups()
        made += inline(link) if link else rf"\fB{escaped(code or strong)}\fR"
        at = found.end()
    return made + escaped(text[at:])


def paragraph(text: str) -> List[str]:
    return [".PP", guarded(inline(text))]


def code(lines: List[str]) -> List[str]:
    """Lines as they are."""
    return [".PP", ".nf", ".RS 4", *(guarded(escaped(it)) for it in lines), ".RE", ".fi"]


def tagged(tag: str, said: List[str]) -> List[str]:
    """A tag in roff's language and the paragraphs that are said of it."""
    width = len(re.sub(r"\\f.|\\\(..", "", tag))
    if width > TAG:
        lines = [".PP", guarded(tag), ".RS 4"]
        for at, one in enumerate(said):
            lines += [".PP"][:at] + [guarded(one)]
        return [*lines, ".RE"]
    lines = [".TP", guarded(tag)]
    for at, one in enumerate(said):
        lines += [".IP"][:at] + [guarded(one)]
    return lines


def cells(row: str) -> List[str]:
    """The cells of a row, where \\| is no border."""
    parts = re.split(r"(?<!\\)\|", row.strip()[1:-1])
    return [it.strip().replace(r"\|", "|") for it in parts]


def table(rows: List[str]) -> List[str]:
    """A table as a list: each first cell is a tag. With more than two columns each is named."""
    heads, lines = cells(rows[0]), []
    for row in rows[2:]:
        first, *rest = cells(row)
        said = [inline(it if len(rest) == 1 else f"{head}: {it}")
                for head, it in zip(heads[1:], rest) if it]
        lines += tagged(inline(first), said)
    return lines


def blocks(text: str) -> List[Tuple[str, List[str]]]:
    """The blocks of Markdown, each with its kind: fence, table, list, heading or text."""
    found: List[Tuple[str, List[str]]] = []
    kind = ""
    for line in text.splitlines():
        if line.startswith("```"):
            kind = "" if kind == "fence" else "fence"
            if kind:
                found.append((kind, []))
            continue
        if kind != "fence":
            if not line.strip():
                kind = ""
                continue
            begun = begins(line)
            if begun == "item" or begun != kind and not (begun == "text" and kind):
                found.append((begun, []))
                kind = begun
        found[-1][1].append(line)
    return found


def begins(line: str) -> str:
    if line.startswith("|"):
        return "table"
    if line.startswith("- ") or re.match(r"\d+\. ", line):
        return "item"
    return "heading" if line.startswith("#") else "text"


def markdown(text: str) -> List[str]:
    """A section of a page, without its own heading."""
    lines: List[str] = []
    for kind, block in blocks(text):
        if kind == "fence":
            lines += code(block)
        elif kind == "table":
            lines += table(block)
        elif kind == "heading":
            lines.append(f".SS {inline(block[0].lstrip('# '))}")
        elif kind == "item":
            lines += [r".IP \(bu 3", guarded(inline(" ".join(block).partition(" ")[2]))]
        else:
            lines += paragraph(" ".join(block))
    return lines


def section(page: str, heading: str) -> str:
    """The text below a heading of a page, up to the next one of its rank or of a higher one."""
    found, rank = [], 0
    for line in page.splitlines():
        marks = re.match(r"#+(?= )", line)
        if rank and marks and len(marks[0]) <= rank:
            break
        if rank:
            found.append(line)
        elif marks and line[marks.end():].strip() == heading:
            rank = len(marks[0])
    if not rank:
        raise ValueError(f"the page has no heading {heading!r}")
    return "\n".join(found).strip("\n")
