"""What orders print, in terms of the reply that the same command gets over HTTP."""

from histories import parts_of
from program import Ended


def outcome(reply, text):
    """How an order ends; `text` formats the body of a reply that is no refusal."""
    status, body = parts_of(reply)
    if status < 400:
        return Ended(0, text(body), b"")
    return Ended(1, b"", "refused {fault} {number}\n".format(**body).encode())


def tally_text(body):
    """A line for each number: its name left-aligned in 14 columns, itself right-aligned in 13."""
    return "".join("%-14s%13d\n" % line for line in sorted(body.items())).encode()


def export_text(body):
    return body


def import_text(body):
    return "new {new} edited {edited} same {same} number {number}\n".format(**body).encode()


def forget_text(body):
    return "dropped {dropped} horizon {horizon}\n".format(**body).encode()


def books_text(lines):
    """A line for each book: dictionaries of name, id, cards, number, horizon and keep, sorted by
    name."""
    form = "name {name} id {id} cards {cards} number {number} horizon {horizon} keep {keep}\n"
    return "".join(form.format(**line) for line in lines).encode()


def people_text(body):
    lines = [("person", uid) for uid in body["people"]]
    lines += [("missing", value) for value in body["missing"]]
    return "".join("%s %s\n" % line for line in lines).encode()


def mirror_text(copy, pages, is_done):
    """A new device's copy after a number of pages: versions in 13 columns, and UIDs."""
    lines = ["pages %d done %s" % (pages, "yes" if is_done else "no")]
    uids = sorted(copy.members, key=str.encode)
    lines += ["%13d %s" % (copy.members[uid][0], uid) for uid in uids]
    return "".join(line + "\n" for line in [*lines, "token " + copy.token]).encode()
