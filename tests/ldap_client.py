"""A small LDAP client for tests, written from RFC 4511, 4515 and X.690: it shares no code."""

import re
import socket
import ssl

PATIENCE = 60
NAMES = {0: "base", 1: "one", 2: "sub"}


def write(tag, *parts):
    body = b"".join(parts)
    size = len(body)
    if size < 128:
        return bytes([tag, size]) + body
    octets = size.to_bytes(4, "big")  # not the shortest form, which BER allows
    return bytes([tag, 0x84]) + octets + body


def text(value, tag=4):
    return write(tag, value if isinstance(value, bytes) else value.encode())


def number(value, tag=2):
    return write(tag, value.to_bytes(4, "big", signed=True))


def read(octets):
    """All elements: tags with bodies."""
    found = []
    while octets:
        size, at = octets[1], 2
        if size >= 128:
            at += size - 128
            size = int.from_bytes(octets[2:at], "big")
        assert len(octets) >= at + size
        found.append((octets[0], octets[at:at + size]))
        octets = octets[at + size:]
    return found


def filter_of(words):
    """The octets of a filter as RFC 4515 writes it."""
    made, rest = _filter(words)
    assert not rest, rest
    return made


def _filter(words):
    assert words[0] == "(", words
    if words[1] in "&|!":
        tag, rest, parts = {"&": 0xA0, "|": 0xA1, "!": 0xA2}[words[1]], words[2:], []
        while rest[0] == "(":
            one, rest = _filter(rest)
            parts.append(one)
        return write(tag, *parts), rest[1:]
    body, _, rest = words[1:].partition(")")
    return _item(body), rest


def _item(body):
    name, kind, value = re.fullmatch(r"([^=<>~:]+)(=|>=|<=|~=|:=)(.*)", body, re.DOTALL).groups()

    def plain(it):
        return re.sub(rb"\\([0-9a-fA-F]{2})", lambda it: bytes.fromhex(it[1].decode()),
                      it.encode())
    if kind == ":=":
        return write(0xA9, text(name, 0x82), text(plain(value), 0x83))
    if kind != "=":
        return write({">=": 0xA5, "<=": 0xA6, "~=": 0xA8}[kind], text(name), text(plain(value)))
    if value == "*":
        return text(name, 0x87)
    pieces = value.split("*")
    if len(pieces) == 1:
        return write(0xA3, text(name), text(plain(value)))
    tags = [0x80, *[0x81] * (len(pieces) - 2), 0x82]
    return write(0xA4, text(name), write(0x30, *(
        text(plain(it), tag) for tag, it in zip(tags, pieces) if it)))


class Result:
    """The end of a reply: its code, words and matched name, the entries, and the next cookie."""

    def __init__(self, parts, entries, controls):
        self.code = int.from_bytes(parts[0][1], "big")
        self.name, self.words = parts[1][1].decode(), parts[2][1].decode()
        self.more = [body for _, body in parts[3:]]
        self.entries, self.cookie = entries, b""
        for _, control in controls:
            (_, kind), (_, value) = read(control)
            assert kind == b"1.2.840.113556.1.4.319"
            self.cookie = read(read(value)[0][1])[1][1]

    def __repr__(self):
        return f"{self.code} {self.words} {self.entries}"


class Ldap:
    def __init__(self, port, tls=None):
        self.socket = socket.create_connection(("127.0.0.1", port), PATIENCE)
        if tls:
            self.socket = tls.wrap_socket(self.socket, server_hostname="localhost")
        self.held, self.number = b"", 0

    def close(self):
        self.socket.close()

    def message(self):
        """The next message: its number, its request and its controls."""
        while True:
            if len(self.held) > 6:
                size, at = self.held[1], 2
                if size >= 128:
                    at += size - 128
                    size = int.from_bytes(self.held[2:at], "big")
                if len(self.held) >= at + size:
                    whole, self.held = read(self.held[:at + size])[0][1], self.held[at + size:]
                    parts = read(whole)
                    controls = read(parts[2][1]) if len(parts) > 2 else []
                    return int.from_bytes(parts[0][1], "big"), parts[1], controls
            more = self.socket.recv(65_536)
            if not more:
                raise EOFError
            self.held += more

    def send(self, request, controls=b""):
        self.number += 1
        self.socket.sendall(write(0x30, number(self.number), request, controls))

    def ask(self, request, controls=b""):
        self.send(request, controls)
        entries = {}
        while True:
            got, (tag, body), more = self.message()
            assert got == self.number, (got, tag, body)
            if tag != 0x64:
                return Result(read(body), entries, more)
            (_, name), (_, rows) = read(body)
            assert name.decode() not in entries
            entries[name.decode()] = {
                one.decode(): [it.decode() for _, it in read(values)]
                for (_, one), (_, values) in (read(row) for _, row in read(rows))}

    def start_tls(self, tls, more=b""):
        """Asks for TLS, and begins it if that is granted."""
        name = text("1.3.6.1.4.1.1466.20037", 0x80)
        self.number += 1
        self.socket.sendall(write(0x30, number(self.number), write(0x77, name)) + more)
        _, (tag, body), _ = self.message()
        assert tag == 0x78, tag
        result = Result(read(body), {}, [])
        if not result.code:
            assert result.more == [b"1.3.6.1.4.1.1466.20037"], result.more
            self.socket = tls.wrap_socket(self.socket, server_hostname="localhost")
        return result

    def bind(self, name, password, version=3):
        return self.ask(write(0x60, number(version), text(name), text(password, 0x80)))

    def search(self, base, words="(objectClass=*)", scope=2, most=0, wanted=(), size=None,
               cookie=b"", types_only=False, octets=None):
        control = b""
        if size is not None:
            control = write(0xA0, write(0x30, text("1.2.840.113556.1.4.319"), write(1, b"\xff"),
                                        text(write(0x30, number(size), text(cookie)))))
        return self.ask(write(
            0x63, text(base), number(scope, 10), number(0, 10), number(most), number(0),
            write(1, b"\xff" if types_only else b"\0"), octets or filter_of(words),
            write(0x30, *map(text, wanted))), control)


def trusting(path):
    """TLS that trusts this certificate."""
    return ssl.create_default_context(cafile=str(path))
