"""Many connections that are busy at once, from processes of their own."""

import multiprocessing
import os
import selectors
from time import perf_counter

from cards import card, uid
from wire import PATIENCE, Wire

# Without a head, an empty line is no request yet: the server looks at each of these octets.
FEEDS = b"\n" * 16_000


def request(method, path, body=b""):
    head = f"{method} {path} HTTP/1.1\r\nHost: office\r\nContent-Length: {len(body)}\r\n\r\n"
    return head.encode() + body


# What a busy client asks, by its number and that of its request. All texts of a put differ.
KINDS = {
    "get": lambda client, count: request("GET", f"/books/staff/cards/{uid(client)}"),
    "put": lambda client, count: request(
        "PUT", f"/books/staff/cards/{uid(client)}", card(client, count)
    ),
    "feeds": lambda client, count: FEEDS + request("GET", "/none"),
}


class Client:
    """A connection on which a request follows each reply."""

    def __init__(self, port, number, ask):
        self.wire = Wire(port)
        self.wire.open()
        self.socket, self.read = self.wire.socket, b""
        self.number, self.ask, self.count = number, ask, 0

    def send(self):
        self.socket.sendall(self.ask(self.number, self.count))

    def hear(self):
        """Takes what came; returns whether it makes the reply whole."""
        self.read += self.socket.recv(1 << 18)
        head, end, body = self.read.partition(b"\r\n\r\n")
        length = head.partition(b"Content-Length: ")[2].partition(b"\r\n")[0]
        if not end or len(body) < int(length):
            return False
        self.read = b""
        self.count += 1
        return True


def keep_busy(port, numbers, kind, seconds, begin, results):
    """Keeps a connection for each number busy, and puts how many replies came into `results`."""
    selector = selectors.DefaultSelector()
    clients = [Client(port, number, KINDS[kind]) for number in numbers]
    for client in clients:
        selector.register(client.socket, selectors.EVENT_READ, client)
    begin.wait(PATIENCE)
    begun = perf_counter()
    for client in clients:
        client.send()
    while perf_counter() < begun + seconds:
        for key, _ in selector.select(seconds):
            if key.data.hear():
                key.data.send()
    results.put(sum(client.count for client in clients) / (perf_counter() - begun))


class Load:
    """So many busy connections, for some seconds. Within the context they are at work."""

    def __init__(self, port, connections, kind, seconds):
        # One processor is the server's.
        processes = min(connections, max(1, (os.cpu_count() or 2) - 1))
        self.begin = multiprocessing.Barrier(processes + 1)
        self.results = multiprocessing.Queue()
        self.processes = [
            multiprocessing.Process(
                target=keep_busy,
                args=[port, range(first, connections, processes), kind, seconds]
                + [self.begin, self.results],
                daemon=True,
            )
            for first in range(processes)
        ]

    def __enter__(self):
        for process in self.processes:
            process.start()
        self.begin.wait(PATIENCE)
        return self

    def __exit__(self, *_):
        """The replies a second, of all connections together."""
        self.rate = sum(self.results.get(timeout=PATIENCE) for _ in self.processes)
        for process in self.processes:
            process.join(PATIENCE)


def rate(port, connections, kind, seconds):
    """The replies a second that so many busy connections get."""
    with Load(port, connections, kind, seconds) as load:
        pass
    return load.rate
