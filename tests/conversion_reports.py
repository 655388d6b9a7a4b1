"""What `contacts convert` prints of the changes that its report in a file lists.

The rules are those of docs/OPERATING.md, "Move in".
"""

import re

# A change of form, what is said of how often it came, and of what.
FORMS = [
    (r"the cell of (.+) rewritten", "{name}: {count} put into the form of vCard 4.0", "cell"),
    (r"(.+) rewritten", "{name}: {count} put into the form of vCard 4.0", "line"),
    (r"(.+) renamed", "{name}: {count} renamed for vCard 4.0", "line"),
    (r"(.+) joined to its ADR", "{name}: {count} joined to an address", "line"),
    (r"(.+) given a LABEL", "{name}: {count} given the text of a LABEL", "line"),
    (r"(UID) added", "{name}: {count} that had none got one", "card"),
    (r"(an earlier card is the same)", "{count} the same as an earlier one {be} written again", "card"),
    (r"(an earlier row has the same cells)",
     "{count} with the cells of an earlier one {be} written again", "row"),
]
PARTS_MAX = 8


def numbers(written, changed, aside, refused, files=None):
    """The last line."""
    made = "" if files is None else f", {files} files made"
    return (f"{written} cards written, {int(changed)} changed, {aside} with parts kept aside, "
            f"{int(refused)} not carried{made}\n")


GUESS = re.compile(r"read as Windows-1252: ([\d,]+) (cell|line)s? that (?:isn't|aren't) UTF-8")
MAC_ROMAN = ("lines end with CR alone, so the letters may be Mac Roman: if a name is wrong, convert "
             "with --charset macintosh\n")


def guess(count, thing):
    """What is said of so many cells or lines that are read as Windows-1252 since they aren't UTF-8."""
    things = f"{count:,} {thing} that isn't" if count == 1 else f"{count:,} {thing}s that aren't"
    return f"read as Windows-1252: {things} UTF-8"


def guesses(cells=0, lines=0, returns=False):
    """What is said of them at the end. If lines end with a carriage return alone, they may be those
    of a Mac."""
    told = "".join(guess(count, thing) + "\n"
                   for count, thing in ((cells, "cell"), (lines, "line")) if count)
    return told + MAC_ROMAN * (returns and bool(told))


def guessed_by(lines, returns):
    """What is said at the end of the guesses that these lines list."""
    counts = {"cell": 0, "line": 0}
    for line in lines:
        found = GUESS.fullmatch(line.split(": ", 1)[1])
        if found:
            counts[found[2]] += int(found[1].replace(",", ""))
    return guesses(counts["cell"], counts["line"], returns)


def are_changes(lines):
    """Whether one of the lines says more than that something was read as Windows-1252."""
    return any(not GUESS.fullmatch(line.split(": ", 1)[1]) for line in lines)


def form_of(words):
    """The change of form that the words tell: the text for it, its name and its thing."""
    for pattern, text, thing in FORMS:
        found = re.fullmatch(pattern, words)
        if found:
            return text, found[1], thing
    return None


def weight(line):
    if ": not carried: " in line:
        return 3
    lost = (" left out", "U+FFFD", "lost the fraction of a second", "lost control characters",
            "the card has no END", " is a part of ")
    return 2 if any(words in line for words in lost) else 1


def digest(lines, written, changed, refused, files=None, returns=False):
    """What is printed if these lines are listed, each `card 1, line 2: WORDS` or `row ..`. `returns`
    says that the lines of the file end with a carriage return alone."""
    forms, told, aside = {}, [], set()
    for line in lines:
        found = re.fullmatch(r"(?:(card|row) (\d+), )?line (\d+): (.*)", line)
        kind, number, place, words = found.groups()
        if GUESS.fullmatch(words):
            continue
        form = form_of(words)
        if form:
            forms[form] = forms.get(form, 0) + 1
            continue
        if re.search(r"kept (as X-|under another name)", words):
            aside.add((kind, number))
        part = words if kind == "row" else f"line {place}: {words}"
        head = f"row {number}, line {place}: " if kind == "row" else f"card {number}, "
        if kind is None or words.startswith("not carried"):
            told.append(("", [line]))
        elif told and told[-1][0] == head:
            told[-1][1].append(part)
        else:
            told.append((head, [part]))
    printed = []
    for head, parts in told:
        more = [f"and {len(parts) - PARTS_MAX} more"] if len(parts) > PARTS_MAX else []
        printed.append(head + "; ".join(parts[:PARTS_MAX] + more))
    end = []
    for (text, name, thing), count in forms.items():
        things = f"{count:,} {thing}" + ("" if count == 1 else "s")
        end.append(text.format(name=name, count=things, be="isn't" if count == 1 else "aren't"))
    end += guessed_by(lines, returns).splitlines()
    if printed:
        end.append("look first at: " + max(printed, key=weight))
    return ("".join(line + "\n" for line in printed + end)
            + numbers(written, changed, len(aside), refused, files))
