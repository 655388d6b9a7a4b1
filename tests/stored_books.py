"""What is served of books, computed from the rows of their tables, which must be well formed.

`requests` asks for everything that a file holds, and `replies` gives the octets of the replies.
"""

import http_requests
from model.http import fault_message, json_text, message
from tables import NUMBERS, decoded

STORE_FAULT = 19


def books(tables):
    """The rows of the books by name, each as a dictionary."""
    columns = ["name", "id", *NUMBERS]
    return [dict(zip(columns, row))
            for row in tables.rows(f"SELECT {', '.join(columns)} FROM book ORDER BY name")]


def requests(tables):
    """Asks for the list of books, and for each book's tally, its initial report, and a report of
    each change and each removal that it remembers."""
    asked = [http_requests.books()]
    for book in books(tables):
        name = book["name"].decode()
        asked += [http_requests.tally(name), http_requests.sync(name),
                  http_requests.sync(name, f"{book['id']}/0/{book['horizon']}")]
    return b"".join(asked)


def replies(tables):
    """The replies to these requests."""
    wanted = [list_reply(tables)]
    for book in books(tables):
        wanted += [tally_reply(tables, book), page_reply(tables, book, book["number"]),
                   page_reply(tables, book, book["horizon"])]
    return b"".join(wanted)


def reply(value):
    return message(200, json_text(value), close=False)


def list_reply(tables):
    lines = [{"name": book["name"].decode(), "id": book["id"], "number": book["number"],
              "horizon": book["horizon"]} for book in books(tables)]
    return reply({"books": lines})


def tally(tables, book):
    """The book in numbers."""
    numbers = {name: book[name] for name in NUMBERS}
    arrived = book["created"] + book["imported"] + book["moved_in"]
    numbers["cards"] = arrived - book["deleted"] - book["moved_out"]
    numbers["remembered"] = tables.remembered(book["id"], book["horizon"])
    return numbers


def tally_reply(tables, book):
    return reply(tally(tables, book))


def page_reply(tables, book, base):
    """All changes, and the removals after this number. None of these books fills a page."""
    members = []
    for uid, changed, card in tables.due(book["id"], 0, base):
        if decoded(uid) is None:
            # A removed member's UID isn't tested before it has to be sent.
            return fault_message({"number": STORE_FAULT}, close=False)
        member = {"uid": uid.decode(), "status": 404}
        if card is not None:
            member.update(status=200, version=changed, card=card.decode())
        members.append(member)
    token = f"{http_requests.SYNC}{book['id']}/{book['number']}/{book['number']}"
    return reply({"members": members, "token": token, "truncated": False})
