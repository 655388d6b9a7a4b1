"""An HTTP/1.1 client for all servers, small enough to weigh little on what it times."""

import socket

PATIENCE = 60  # seconds that any one wait may last
PIECE = 1 << 18


class Failure(Exception):
    """A server did not do what the day asks of it."""


class Wire:
    """A client's connection, opened anew if the server, or the client, closed the last one."""

    def __init__(self, port, fields=b""):
        """`fields` are header fields of every request, each ended by CRLF."""
        self.port, self.fields = port, fields
        self.socket, self.read = None, b""

    def ask(self, method, path, body=b"", fields=b"", alone=False):
        """Sends one request in one piece. Returns its reply: the status, the head in lower case,
        and the body. A request that is alone has a connection of its own."""
        if alone:
            self.close()
            fields += b"Connection: close\r\n"
        if self.socket is None:
            self.open()
        self.socket.sendall(
            b"%s %s HTTP/1.1\r\nHost: office\r\n%s%sContent-Length: %d\r\n\r\n%s"
            % (method.encode(), path.encode(), self.fields, fields, len(body), body)
        )
        head = self._until(b"\r\n\r\n").lower()
        status = int(head[9:12])
        body = self._body(status, head)
        if field(head, b"connection") == b"close" or head.startswith(b"http/1.0"):
            self.close()
        return status, head, body

    def open(self):
        self.socket = socket.create_connection(("127.0.0.1", self.port), timeout=PATIENCE)
        self.socket.setsockopt(socket.IPPROTO_TCP, socket.TCP_NODELAY, 1)

    def close(self):
        if self.socket is not None:
            self.socket.close()
        self.socket, self.read = None, b""

    def _body(self, status, head):
        if status in (204, 304):
            return b""
        length = field(head, b"content-length")
        if length is not None:
            return self._octets(int(length))
        if field(head, b"transfer-encoding") == b"chunked":
            return self._chunks()
        return self._rest()

    def _chunks(self):
        body = []
        while True:
            size = int(self._until(b"\r\n").partition(b";")[0], 16)
            # A chunk ends with CRLF, and so does the last one, which is empty.
            body.append(self._octets(size + 2)[:size])
            if size == 0:
                return b"".join(body)

    def _until(self, mark):
        """What comes up to the mark, without it."""
        while mark not in self.read:
            self.read += self._piece()
        octets, _, self.read = self.read.partition(mark)
        return octets

    def _octets(self, count):
        """The next `count` octets."""
        pieces, lacking = [self.read], count - len(self.read)
        while lacking > 0:
            pieces.append(self._piece())
            lacking -= len(pieces[-1])
        octets = b"".join(pieces)
        self.read = octets[count:]
        return octets[:count]

    def _rest(self):
        """All that comes until the server closes."""
        octets = self.read + b"".join(iter(lambda: self.socket.recv(PIECE), b""))
        self.close()
        return octets

    def _piece(self):
        octets = self.socket.recv(PIECE)
        if not octets:
            raise Failure("a connection ended before its reply did")
        return octets


def field(head, name):
    """The value of a field of a head in lower case, or None."""
    _, found, rest = head.partition(b"\r\n" + name + b":")
    return rest.partition(b"\r\n")[0].strip() if found else None
