"""Many clients at once, and the order in which the server did what they asked.

Each client has cards of its own, shares some with the others, and follows a book as a device. The
reply to a change has its number in the book, or in both books of a move. The numbers of each book
and the requests of each client leave an order of all changes. If the model does them in this order,
it gives the same replies, octet for octet, and each whole page leaves a device with exactly the
cards that the model has at the page's number.
"""

import random
import threading
from collections import defaultdict, namedtuple
from concurrent.futures import ThreadPoolExecutor

from histories import Copy, parts_of, path
from http_requests import card, request
from program import PATIENCE

BOOKS = ["staff", "clients"]
SHARED = ["all-%d" % number for number in range(8)]

# A request that changes one or two books, and the reply if it came. A move has its source first.
Change = namedtuple("Change", "octets books reply numbers")


def is_whole(reply):
    """Whether these octets are a reply with its whole body."""
    head, end, body = reply.partition(b"\r\n\r\n")
    length = head.partition(b"Content-Length: ")[2].partition(b"\r\n")[0]
    return bool(end) and len(body) == int(length)


def numbers_in(body, books):
    """The number that a change has in each of the books, by the body of its reply."""
    last = body["version"] if "version" in body else body["number"]
    return dict(zip(books, [body["from"], last] if "from" in body else [last]))


class Client:
    """A client with a connection, whose requests are drawn from a seed.

    `under_way` is a change that was sent and has no reply yet; `done` are those with one.
    """

    KINDS = {"put": 5, "share": 3, "move": 3, "remove": 1, "page": 3}
    LIMITS = [None, 30, 100]

    def __init__(self, seed, number):
        self.random, self.name = random.Random(f"client {seed} {number}"), f"c{seed}-{number}"
        self.at = {}  # the book of each of its own cards
        self.device, self.pages = Copy(self.random.choice(BOOKS)), []
        self.done, self.under_way, self.count = [], None, 0

    def go(self, connection, steps):
        """Sends requests in turn, each after the reply before it. Returns whether all came."""
        for _ in range(steps):
            kind = self.random.choices(list(self.KINDS), list(self.KINDS.values()))[0]
            if not getattr(self, kind)(connection):
                return False
        return True

    # Changes.

    def put(self, connection):
        """Adds or changes a card of its own."""
        uid = f"{self.name}-{self.random.randrange(3)}"
        book = self.at.setdefault(uid, self.random.choice(BOOKS))
        return self.change(connection, self.card_request(book, uid), [book])

    def share(self, connection):
        """Adds or changes a card that others change too."""
        book = self.random.choice(BOOKS)
        return self.change(connection, self.card_request(book, self.random.choice(SHARED)), [book])

    def card_request(self, book, uid):
        """A put of a text that nobody else sends."""
        self.count += 1
        return request("PUT", path(book, "cards", uid), card(uid, f"{self.name} {self.count}"))

    def move(self, connection):
        if not self.at:
            return self.put(connection)
        uid = self.random.choice(sorted(self.at))
        book, to = self.at[uid], BOOKS[1 - BOOKS.index(self.at[uid])]
        self.at[uid] = to
        octets = request("POST", path(book, "cards", uid, "move", to=to))
        return self.change(connection, octets, [book, to])

    def remove(self, connection):
        if not self.at:
            return self.put(connection)
        uid = self.random.choice(sorted(self.at))
        book = self.at.pop(uid)
        return self.change(connection, request("DELETE", path(book, "cards", uid)), [book])

    def change(self, connection, octets, books):
        self.under_way = Change(octets, books, None, None)
        connection.send(octets)
        reply = connection.reply()
        if not is_whole(reply):
            return False
        status, body = parts_of(reply)
        # None of these requests is ever refused.
        if status not in (200, 201):
            raise AssertionError(f"{reply!r} after {octets!r}")
        self.done.append(Change(octets, books, reply, numbers_in(body, books)))
        self.under_way = None
        return True

    # The device.

    def page(self, connection):
        """Asks for a page, and applies it."""
        connection.send(self.device.ask(self.random.choice(self.LIMITS)))
        reply = connection.reply()
        if not is_whole(reply):
            return False
        page = self.device.hear(reply)
        if not page["truncated"]:
            number = int(page["token"].rpartition("/")[2])
            self.pages.append((self.device.book, number, dict(self.device.members)))
        return True

    def catch_up(self, connection):
        """Pages until the copy is whole."""
        count = len(self.pages)
        while len(self.pages) == count and self.page(connection):
            pass


class Writer(Client):
    """A client that puts and moves its own cards: a book then shows which of it was done."""

    KINDS = {"put": 5, "move": 2}


def run_together(server, clients, work):
    """Does each client's work in a thread, on a connection of its own. All connect before any
    begins. Returns a function that waits until all have ended."""
    begin = threading.Barrier(len(clients))

    def run(client):
        with server.connect() as connection:
            begin.wait(PATIENCE)
            work(client, connection)

    pool = ThreadPoolExecutor(len(clients))
    runs = [pool.submit(run, client) for client in clients]

    def wait():
        pool.shutdown()
        for it in runs:
            it.result()

    return wait


class Order:
    """The changes of clients in the order in which they were done, from these numbers on."""

    def __init__(self, clients, numbers):
        self.clients, self.numbers = clients, dict(numbers)
        self.heads = [0] * len(clients)
        self.found = {}  # the client and the place of the change with each number of a book
        for which, client in enumerate(clients):
            for place, change in enumerate(client.done):
                for at in change.numbers.items():
                    if at in self.found:
                        raise AssertionError(f"two changes have the number {at}")
                    self.found[at] = which, place

    def __iter__(self):
        for _ in range(sum(len(client.done) for client in self.clients)):
            which, place = self.next_place()
            change = self.clients[which].done[place]
            self.heads[which] += 1
            self.numbers.update(change.numbers)
            yield change

    def next_place(self):
        """The change with the next number of its book, or of both, that is its client's next."""
        for book, number in self.numbers.items():
            which, place = self.found.get((book, number + 1), (0, -1))
            if place == self.heads[which] and self.is_next(self.clients[which].done[place]):
                return which, place
        raise AssertionError(f"no order of changes has these replies, from {self.numbers} on")

    def is_next(self, change):
        return all(self.numbers[book] + 1 == number for book, number in change.numbers.items())


def pages_by_number(clients):
    """The copies of all devices after whole pages, by book and number."""
    found = defaultdict(list)
    for client in clients:
        for book, number, members in client.pages:
            found[book, number].append(members)
    return found


def recover(clients, holds, begun, numbers):
    """Finds the changes without a reply that were done before the server was killed.

    `holds` has the cards of each book now, version and text by UID; its number was that of `begun`
    and is that of `numbers`. The clients are writers. A put or a move that was done has left its
    card in the book. A move's number in the book that it left is one that nothing else has; of
    several such, the lower one is of the move that came first. Returns how many were found.
    """
    shown = [it for it in (shown_change(client, holds) for client in clients) if it]
    taken = {at for client in clients for change in client.done for at in change.numbers.items()}
    taken |= {(change.books[-1], number) for _, change, number in shown}
    gaps = {}
    for book in BOOKS:
        whole = range(begun[book] + 1, numbers[book] + 1)
        gaps[book] = iter([it for it in whole if (book, it) not in taken])
    for client, change, number in sorted(shown, key=lambda it: it[2]):
        known = {book: next(gaps[book]) for book in change.books[:-1]}
        client.done.append(change._replace(numbers={**known, change.books[-1]: number}))
    return len(shown)


def shown_change(client, holds):
    """The client, its change under way, and the number of it, if the books show that it was
    done."""
    change = client.under_way
    if change is None:
        return None
    head, _, text = change.octets.decode().partition("\r\n\r\n")
    uid = head.split("/cards/")[1].split(" ")[0].split("/")[0]
    number, has = holds[change.books[-1]].get(uid, (0, None))
    # A move has no body: its card wasn't in the other book before.
    return (client, change, number) if has and text in ("", has) else None
