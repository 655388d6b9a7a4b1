"""One run of what docs/API.md shows: its session, and then each refusal that a request can have.

The run is made once in a process, and tests compare its replies with the pages.
"""

import functools
from collections import namedtuple

from http_requests import create, put
from pages import Page
from program import Folder, Server, run
from refused_requests import ROWS

# What makes the refusals possible: two cards in `staff`, one of them edited, and all books made.
PREPARED = [put("staff", "p", "Pat"), put("staff", "q", "Quin"), put("staff", "q", "Quinn")]
BOOKS_MADE = [create(f"b{number}") for number in range(3, 101)]

# The replies to the exchanges of the page, those to the rows of refusals, and all requests beside
# their replies, in order.
Record = namedtuple("Record", "shown refused all")


@functools.lru_cache(maxsize=None)
def record():
    """Sends all these requests to a server with a new file."""
    exchanges = Page("docs/API.md").exchanges()
    with Folder() as folder:
        run("init", folder / "office.db")
        with Server(folder / "office.db", order="run", more=["--host", "office"]) as server:
            shown = ask_in_turn(server, [it.request for it in exchanges])
            requests = [*PREPARED, *BOOKS_MADE]
            prepared = ask_in_turn(server, requests)
            # A connection each, since some close it.
            refused = [server.ask(row.request) for row in ROWS]
    requests = [it.request for it in exchanges] + requests + [row.request for row in ROWS]
    return Record(shown, refused, list(zip(requests, shown + prepared + refused)))


def ask_in_turn(server, requests):
    """The replies to these requests, over one connection."""
    replies = []
    with server.connect() as connection:
        for request in requests:
            connection.send(request)
            replies.append(connection.reply())
    return replies
