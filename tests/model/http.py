"""A connection, from the octets that come to the octets that go (RFC 9112, in a small profile).

A request is read once it is whole, however it comes. A head ends at the first empty line after its
first line; it has at most 16,384 octets and 64 fields. Lines may end in a line feed alone.
"""

import json
import re
from collections import namedtuple
from urllib.parse import unquote_to_bytes

from .cards import Card

HEAD_MAX = 16_384
FIELDS_MAX = 64
BODY_MAX = 8_388_608

TOKEN = rb"[!#$%&'*+\-.^_`|~0-9A-Za-z]+"
TARGET = rb"[!-~\x80-\xff]+"
CONTENT = rb"[\t -~\x80-\xff]*"
REQUEST_LINE = re.compile(rb"(%s) (%s) HTTP/1\.([01])" % (TOKEN, TARGET))
FIELD_LINE = re.compile(rb"(%s):(%s)" % (TOKEN, CONTENT))

# The beginnings of the two lines, which more octets can make whole. A target is looked at as UTF-8
# once the space after it has come.
VERSION = b"|".join(re.escape(b"HTTP/1."[:count]) for count in range(8)) + rb"|HTTP/1\.[01]\r?"
BEGUN_REQUEST_LINE = re.compile(
    rb"\r?|%s(?: (?:%s)?)?|%s (%s) (?:%s)" % (TOKEN, TARGET, TOKEN, TARGET, VERSION)
)
BEGUN_FIELD_LINE = re.compile(rb"\r?|%s(?::%s\r?)?" % (TOKEN, CONTENT))

PHRASES = {
    200: "OK",
    201: "Created",
    400: "Bad Request",
    403: "Forbidden",
    404: "Not Found",
    405: "Method Not Allowed",
    409: "Conflict",
    412: "Precondition Failed",
    413: "Payload Too Large",
    421: "Misdirected Request",
    431: "Request Header Fields Too Large",
    501: "Not Implemented",
    503: "Service Unavailable",
    507: "Insufficient Storage",
}

BAD_HEAD, HEAD_TOO_LARGE, BAD_HOST, TRANSFER_ENCODING, BAD_LENGTH, BODY_TOO_LARGE = range(21, 27)
NO_ROUTE, BAD_METHOD, BAD_PATH, BAD_QUERY = range(27, 31)
FOREIGN_HOST, FOREIGN_SITE, PRECONDITION = range(31, 34)

# The names that each server has which looks at Host, and the fields that are preconditions.
LOOPBACK = ["127.0.0.1", "localhost", "[::1]"]
PRECONDITIONS = {
    b"if-match", b"if-none-match", b"if-modified-since", b"if-unmodified-since", b"if-range"
}

# The refusals of commands and the faults of requests: number, status, text.
FAULTS = {
    1: (404, "no-such-book"),
    2: (409, "book-exists"),
    3: (400, "bad-book-name"),
    4: (404, "no-such-card"),
    5: (400, "bad-card"),
    6: (409, "uid-mismatch"),
    7: (412, "version-mismatch"),
    8: (409, "uid-taken"),
    9: (409, "same-book"),
    10: (403, "valid-sync-token"),
    11: (507, "number-of-matches-within-limits"),
    12: (507, "book-full"),
    13: (507, "changes-spent"),
    14: (400, "bad-import"),
    15: (400, "bad-key"),
    16: (409, "bad-forget"),
    17: (409, "not-group"),
    18: (507, "too-many-books"),
    19: (503, "store-fault"),
    20: (503, "no-memory"),
    BAD_HEAD: (400, "bad-head"),
    HEAD_TOO_LARGE: (431, "head-too-large"),
    BAD_HOST: (400, "bad-host"),
    TRANSFER_ENCODING: (501, "transfer-encoding"),
    BAD_LENGTH: (400, "bad-length"),
    BODY_TOO_LARGE: (413, "body-too-large"),
    NO_ROUTE: (404, "no-route"),
    BAD_METHOD: (405, "bad-method"),
    BAD_PATH: (400, "bad-path"),
    BAD_QUERY: (400, "bad-query"),
    FOREIGN_HOST: (421, "foreign-host"),
    FOREIGN_SITE: (403, "foreign-site"),
    PRECONDITION: (501, "precondition"),
    34: (503, "busy"),
}


class Fault(Exception):
    """What is wrong with a request, and the methods of its route if the method is wrong."""

    def __init__(self, number, allow=None):
        super().__init__(number)
        self.number, self.allow = number, allow


# Replies.

def message(status, body, close, kind="application/json", allow=None):
    """A reply's octets."""
    lines = [f"HTTP/1.1 {status} {PHRASES[status]}", f"Content-Type: {kind}"]
    lines += [f"Allow: {allow}"] if allow else []
    lines.append(f"Content-Length: {len(body)}")
    lines.append("Connection: close" if close else "Connection: keep-alive")
    return "".join(line + "\r\n" for line in lines + [""]).encode() + body


def json_text(value):
    """Compact, keys in order, and nothing escaped that needn't be."""
    options = {"separators": (",", ":"), "sort_keys": True, "ensure_ascii": False}
    return json.dumps(with_texts(value), **options).encode()


def with_texts(value):
    """The value with each card's text in place of the card."""
    if isinstance(value, Card):
        return value.text.decode()
    if isinstance(value, dict):
        return {key: with_texts(it) for key, it in value.items()}
    return [with_texts(it) for it in value] if isinstance(value, list) else value


def fault_message(parts, close, allow=None):
    status, text = FAULTS[parts["number"]]
    return message(status, json_text({"fault": text, **parts}), close, allow=allow)


def reply_message(reply, close):
    """The octets of an office's reply."""
    if reply.kind == "refused":
        return fault_message(reply.parts, close)
    if reply.kind == "csv":
        return message(200, reply.parts["csv"], close, "text/csv")
    is_new = reply.kind == "created" or reply.parts.get("put") == "created"
    return message(201 if is_new else 200, json_text(reply.parts), close)


# Heads.

Head = namedtuple("Head", "method target length close")


def split_head(octets):
    """The lines at the front, those before the first left out if they are empty; the beginning of
    a further line; and where the head ends, or None if its empty line hasn't come."""
    lines, at = [], 0
    while True:
        end = octets.find(b"\n", at)
        if end < 0:
            return lines, octets[at:], None
        line = octets[at:end - 1] if octets[at:end].endswith(b"\r") else octets[at:end]
        at = end + 1
        if line:
            lines.append(line)
        elif lines:
            return lines, b"", at


def is_text(octets):
    try:
        octets.decode("utf-8")
    except UnicodeDecodeError:
        return False
    return True


def read_fields(lines):
    """The fields, their names in lower case; None if a line is no field or there are too many."""
    found = [FIELD_LINE.fullmatch(line) for line in lines]
    if None in found or len(found) > FIELDS_MAX:
        return None
    return [(it[1].lower(), it[2].strip(b" \t")) for it in found]


def is_begun(lines, last):
    """Whether more octets can make a head of these lines and this beginning of a further one."""
    if not lines:
        begun = BEGUN_REQUEST_LINE.fullmatch(last)
        return begun is not None and is_text(begun[1] or b"")
    found = REQUEST_LINE.fullmatch(lines[0])
    if not found or not is_text(found[2]) or read_fields(lines[1:]) is None:
        return False
    is_full = len(lines) - 1 == FIELDS_MAX
    return bool(re.fullmatch(rb"\r?", last) if is_full else BEGUN_FIELD_LINE.fullmatch(last))


def read_head(lines):
    """The head that these lines are; Fault if they are no head that is served."""
    found = REQUEST_LINE.fullmatch(lines[0])
    fields = read_fields(lines[1:])
    if not found or not is_text(found[2]) or fields is None:
        raise Fault(BAD_HEAD)
    method, target, minor = found.groups()
    values = {name: [value for key, value in fields if key == name] for name, _ in fields}
    if minor == b"1" and len(values.get(b"host", [])) != 1:
        raise Fault(BAD_HOST)
    if b"transfer-encoding" in values:
        raise Fault(TRANSFER_ENCODING)
    lengths = values.get(b"content-length", [])
    if len(lengths) > 1 or not all(re.fullmatch(rb"[0-9]{1,15}", it) for it in lengths):
        raise Fault(BAD_LENGTH)
    length = int(lengths[0]) if lengths else 0
    if length > BODY_MAX:
        raise Fault(BODY_TOO_LARGE)
    options = b",".join(values.get(b"connection", [])).split(b",")
    close = minor == b"0" or b"close" in [it.strip(b" \t").lower() for it in options]
    return Head(method.decode(), target, length, close)


def guard(names, method, fields):
    """Fault if a server with these names refuses a request with these fields, by `read_fields`."""
    hosts = [value for name, value in fields if name == b"host"]
    known = b"|".join(re.escape(it.encode()) for it in [*LOOPBACK, *names] if it)
    if not hosts or not all(re.fullmatch(rb"(?i:%s)(:[0-9]*)?" % known, it) for it in hosts):
        raise Fault(FOREIGN_HOST)
    if method not in ("POST", "PUT", "DELETE"):
        return
    own = re.compile(rb"https?://" + re.escape(hosts[0]), re.IGNORECASE)
    for name, value in fields:
        if name == b"sec-fetch-site" and value != b"same-origin":
            raise Fault(FOREIGN_SITE)
        if name == b"origin" and not own.fullmatch(value):
            raise Fault(FOREIGN_SITE)
    if PRECONDITIONS & {name for name, _ in fields}:
        raise Fault(PRECONDITION)


# Routes: each path's methods. A method has the kind of its command, what its query may have, and
# how the command's arguments follow from the path's parts, the query and the body.

def number(octets):
    return int(octets) if re.fullmatch(rb"[0-9]{1,15}", octets) else None


def text(octets):
    return octets.decode("utf-8", "replace")


def form(octets):
    return octets.decode() if octets in (b"cards", b"columns") else None


Method = namedtuple("Method", "kind query needed arguments")


def method(kind, arguments, needed=(), **query):
    return Method(kind, query, needed, arguments)


ROUTES = {
    "": {"GET": method("books", lambda parts, query, body: [])},
    "/{}": {"PUT": method("create", lambda parts, query, body: parts)},
    "/{}/tally": {"GET": method("tally", lambda parts, query, body: parts)},
    "/{}/sync": {
        "GET": method(
            "report",
            lambda parts, query, body: parts + [query.get("token", ""), query.get("limit")],
            token=text,
            limit=number,
        )
    },
    "/{}/import": {
        "POST": method(
            "import", lambda parts, query, body: parts + [query["key"], body], ["key"], key=text
        )
    },
    "/{}/export": {
        "GET": method(
            "export", lambda parts, query, body: parts + [query.get("form", "cards")], form=form
        )
    },
    "/{}/forget": {
        "POST": method(
            "forget", lambda parts, query, body: parts + [query["upto"]], ["upto"], upto=number
        )
    },
    "/{}/cards/{}": {
        "GET": method("get", lambda parts, query, body: parts),
        "PUT": method(
            "put", lambda parts, query, body: parts + [query.get("version"), body], version=number
        ),
        "DELETE": method(
            "remove", lambda parts, query, body: parts + [query.get("version")], version=number
        ),
    },
    "/{}/cards/{}/move": {
        "POST": method(
            "move",
            lambda parts, query, body: parts + [query["to"], query.get("version")],
            ["to"],
            to=text,
            version=number,
        )
    },
    "/{}/cards/{}/people": {"GET": method("people", lambda parts, query, body: parts)},
}
PATHS = [
    (re.compile(re.escape("/books" + path).replace(r"\{\}", "([^/]+)").encode()), methods)
    for path, methods in ROUTES.items()
]


def read_query(query, wanted):
    """The values of the query by name; Fault if it isn't as wanted."""
    values = {}
    for piece in filter(None, query.replace(b"+", b" ").split(b"&")):
        name, _, value = (unquote_to_bytes(it) for it in piece.partition(b"="))
        name = text(name)
        if name in values or name not in wanted.query:
            raise Fault(BAD_QUERY)
        values[name] = wanted.query[name](value)
    if None in values.values() or not all(name in values for name in wanted.needed):
        raise Fault(BAD_QUERY)
    return values


def read_command(head, body):
    """The command that a whole request asks for; Fault if it asks for none."""
    path, _, query = head.target.partition(b"?")
    found = [(it.fullmatch(path), methods) for it, methods in PATHS if it.fullmatch(path)]
    if not found:
        raise Fault(NO_ROUTE)
    [(parts, methods)] = found
    if head.method not in methods:
        raise Fault(BAD_METHOD, ", ".join(methods))
    parts = [unquote_to_bytes(part) for part in parts.groups()]
    if not all(map(is_text, parts)):
        raise Fault(BAD_PATH)
    wanted = methods[head.method]
    values = read_query(query, wanted)
    return (wanted.kind, *wanted.arguments(list(map(text, parts)), values, body))


class Session:
    """A connection of its own to an office; with a list of names, to one behind a guard."""

    def __init__(self, office, names=None):
        self.office, self.names, self.closed, self.rest = office, names, False, b""

    def feed(self, octets):
        """The octets of the replies to all requests that these octets make whole."""
        self.rest += octets
        replies = []
        while not self.closed:
            try:
                reply = self.next_reply()
            except Fault as fault:
                # A head with a fault is the last of its connection.
                self.closed = True
                reply = fault_message({"number": fault.number}, True)
            if reply is None:
                break
            replies.append(reply)
        return b"".join(replies)

    def next_reply(self):
        """The reply to the request at the front, which is taken away; None if it isn't whole."""
        lines, last, end = split_head(self.rest[:HEAD_MAX])
        if end is None:
            if len(self.rest) < HEAD_MAX:
                return None
            raise Fault(HEAD_TOO_LARGE if is_begun(lines, last) else BAD_HEAD)
        head = read_head(lines)
        if self.names is not None:
            guard(self.names, head.method, read_fields(lines[1:]))
        if len(self.rest) < end + head.length:
            return None
        body = self.rest[end:end + head.length]
        self.rest, self.closed = self.rest[end + head.length:], head.close
        try:
            return reply_message(self.office.do(read_command(head, body)), head.close)
        except Fault as fault:
            return fault_message({"number": fault.number}, head.close, fault.allow)
