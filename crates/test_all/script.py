"""Runs lists of commands over the model of tests/model, and formats each reply in one line."""

import pathlib
import sys

sys.path.append(str(pathlib.Path(__file__).resolve().parents[2] / "tests"))

from model.books import SYNC, Device, Office  # noqa: E402

# The details of a refusal beside its number.
MORE = {5: [("fault", "cause")], 7: [("has", "has")], 10: [("cause", "cause")],
        14: [("row", "row"), ("cause", "cause")]}


class Script:
    """An office of the model, and its devices. Replies to commands are lines."""

    def __init__(self, limits):
        self.office, self.devices = Office(*limits), []

    def reply(self, command):
        """The reply to a command: a kind and its arguments, which are texts and numbers."""
        kind, *arguments = command
        return getattr(self, "do_" + kind, self.do)(*arguments, kind=kind)

    def do(self, *arguments, kind):
        return reply_line(self.office.do((kind, *arguments)))

    def do_put(self, name, uid, version, text, kind):
        return self.do(name, uid, version, text.encode(), kind=kind)

    def do_card(self, name, uid, lines, kind):
        text = f"BEGIN:VCARD\nVERSION:4.0\nUID:{uid}\n{lines}\nEND:VCARD\n"
        return self.do_put(name, uid, None, text, "put")

    def do_import(self, name, key, body, kind):
        return self.do(name, key, body.encode(), kind=kind)

    def do_device(self, name, kind):
        self.devices.append(Device(name))
        return f"{kind} {len(self.devices) - 1}"

    def do_ask(self, place, limit, kind):
        return reply_line(self.page(self.devices[place], limit))

    def do_copy(self, place, kind):
        return f"{kind} " + device_line(self.devices[place])

    def do_mirror(self, name, limit, pages_max, kind):
        device, pages, more = Device(name), 0, True
        while more and pages < pages_max:
            reply = self.page(device, limit)
            if reply.kind == "refused":
                return reply_line(reply)
            more = reply.parts["truncated"]
            pages += 1
        return f"pages {pages} {'more' if more else 'done'} {device_line(device)}"

    def page(self, device, limit):
        """The reply to the device's ask. After a last page the device must have the book's cards."""
        reply = device.ask(self.office, limit)
        if reply.kind == "page" and not reply.parts["truncated"]:
            live = self.office.books[device.book].live
            assert device.copy == live, (device.copy, live)
        return reply


def in_one_line(text):
    return text.replace("\\", "\\\\").replace("\r", "\\r").replace("\n", "\\n")


def card_line(uid, version, card):
    return f"{uid} {version} {in_one_line(card.text.decode())}"


def member_line(member):
    if member["status"] == 404:
        return f"{member['uid']} gone"
    return card_line(member["uid"], member["version"], member["card"])


def with_bars(first, others):
    return " | ".join([first, *others])


def device_line(device):
    cards = [card_line(uid, *device.copy[uid]) for uid in sorted(device.copy)]
    return with_bars(device.token[len(SYNC):] or "none", cards)


def page_line(members, token, truncated):
    front = f"page {token[len(SYNC):]}{' and more' if truncated else ''}"
    return with_bars(front, map(member_line, members))


def books_line(books):
    return with_bars("books", (f"{it['name']} {it['id']} {it['number']} {it['horizon']}"
                            for it in books))


def refused_line(number, **parts):
    more = [f" {label} {parts[name]}" for label, name in MORE.get(number, [])]
    return f"refused {number}" + "".join(more)


def tally_line(**parts):
    return " ".join(f"{name} {parts[name]}" for name in sorted(parts))


def people_line(missing, people):
    return " ".join(["people", *people, "|", "missing", *missing])


LINES = {
    "created": lambda it: f"book {it['id']}",
    "books": lambda it: books_line(**it),
    "card": lambda it: "card " + card_line(it["uid"], it["version"], it["card"]),
    "put": lambda it: f"{it['put']} {it['version']}",
    "gone": lambda it: f"gone {it['number']}",
    "moved": lambda it: f"moved {it['from']} {it['version']}",
    "imported": lambda it: f"added {it['new']} edited {it['edited']} same {it['same']} "
                           f"number {it['number']}",
    "page": lambda it: page_line(**it),
    "forgot": lambda it: f"forgot {it['dropped']} horizon {it['horizon']}",
    "tally": lambda it: tally_line(**it),
    "csv": lambda it: "rows " + in_one_line(it["csv"].decode()),
    "people": lambda it: people_line(**it),
    "refused": lambda it: refused_line(**it),
}


def reply_line(reply):
    return LINES[reply.kind](reply.parts)
