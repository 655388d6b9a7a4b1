"""The cards of the day: vCard 4.0 texts of 340 octets each, with lines of at most 75 octets."""

SIZE = 340
# A note of three physical lines; the third has room for what a card lacks to its size.
NOTE = "NOTE:" + "x" * 70 + "\r\n " + "x" * 74 + "\r\n "
END = "\r\nEND:VCARD\r\n"


def uid(number):
    return f"u{number}"


def card(number, edition=0):
    """One person's card. Another edition of it is another text of the same size."""
    lines = [
        "BEGIN:VCARD",
        "VERSION:4.0",
        f"UID:{uid(number)}",
        f"FN:Person {number}",
        f"N:Person;P{number};;;",
        f"EMAIL:u{number}@example.test",
        f"TEL:+1-555-{number:07d}",
        "ORG:Office",
        f"TITLE:Edition {edition:06d}",
        NOTE,
    ]
    head = "\r\n".join(lines)
    return (head + "x" * (SIZE - len(head) - len(END)) + END).encode()


def rows(count, first=0):
    """Some cards as CSV rows of whole cards, a form that an import accepts."""
    numbers = range(first, first + count)
    body = [b'%s,"%s"\n' % (uid(number).encode(), card(number)) for number in numbers]
    return b"uid,vcard\n" + b"".join(body)
