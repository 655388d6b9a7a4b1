"""Heads of requests, each with the number that its first reply has: 0, or a refusal's or a fault's.

The numbers are written from the descriptions of the API and of heads (RFC 9112): 21 no head, 22
too long, 23 Host, 24 Transfer-Encoding, 25 Content-Length, 26 a body too large, 27 no route, 28 the
method, 29 a part that isn't UTF-8, 30 the query. To add a head, copy a line.
"""

from collections import namedtuple

Head = namedtuple("Head", "title number octets")
Closing = namedtuple("Closing", "title closes octets")

HOST = "Host: office"
GET = "GET /books HTTP/1.1"
OLD = "GET /books HTTP/1.0"


def head(*lines, end=b"\r\n"):
    """A head of these lines, which are octets or texts."""
    octets = [line if isinstance(line, bytes) else line.encode() for line in lines]
    return b"".join(line + end for line in [*octets, b""])


def get(*fields):
    return head(GET, HOST, *fields)


def target(text, method="GET"):
    text = text if isinstance(text, bytes) else text.encode()
    return head(method.encode() + b" " + text + b" HTTP/1.1", HOST)


def start(line):
    return head(line, HOST)


def length(value, body=b""):
    return get(f"Content-Length:{value}") + body


def counted(count):
    """That many fields."""
    return [f"X-{number}: 1" for number in range(count)]


def sized(octets, line_end=b"\r\n"):
    """A head of exactly that many octets."""
    empty = head(GET, HOST, "X: ", end=line_end)
    return head(GET, HOST, "X: " + "x" * (octets - len(empty)), end=line_end)


START_LINES = [
    Head("a method in lower case", 28, start("get /books HTTP/1.1")),
    Head("a method that has no meaning", 28, start("BREW /books HTTP/1.1")),
    Head("a method of other characters of a token", 28, start("!#$%&'*+-.^_`|~9 /books HTTP/1.1")),
    Head("the method HEAD", 28, start("HEAD /books HTTP/1.1")),
    Head("a method with a colon", 21, start("GET: /books HTTP/1.1")),
    Head("a method beyond ASCII", 21, start("GÉT /books HTTP/1.1")),
    Head("no method", 21, start(" /books HTTP/1.1")),
    Head("no target", 21, start("GET  HTTP/1.1")),
    Head("a method alone", 21, start("GET")),
    Head("no version", 21, start("GET /books")),
    Head("a version in lower case", 21, start("GET /books http/1.1")),
    Head("version 0.9", 21, start("GET /books HTTP/0.9")),
    Head("version 1.2", 21, start("GET /books HTTP/1.2")),
    Head("version 2.0", 21, start("GET /books HTTP/2.0")),
    Head("version 1.10", 21, start("GET /books HTTP/1.10")),
    Head("version 1", 21, start("GET /books HTTP/1")),
    Head("two spaces before the target", 21, start("GET  /books HTTP/1.1")),
    Head("two spaces after the target", 21, start("GET /books  HTTP/1.1")),
    Head("a space after the version", 21, start("GET /books HTTP/1.1 ")),
    Head("a tab in place of a space", 21, start("GET\t/books HTTP/1.1")),
    Head("a space in the target", 21, start("GET /books /staff HTTP/1.1")),
    Head("a control character in the target", 21, start("GET /boo\x1fks HTTP/1.1")),
    Head("a reply", 21, head("HTTP/1.1 200 OK", "Content-Length: 0")),
    Head("the preface of version 2", 21, b"PRI * HTTP/2.0\r\n\r\nSM\r\n\r\n"),
    Head("the beginning of TLS", 21, b"\x16\x03\x01\x02\x00\x01\x00\x01\xfc\x03\x03\r\n\r\n"),
]

LINE_ENDS = [
    Head("LF alone", 0, head(GET, HOST, end=b"\n")),
    Head("LF after the first line alone", 0, GET.encode() + b"\n" + head(HOST)),
    Head("LF as the empty line alone", 0, GET.encode() + b"\r\nHost: office\r\n\n"),
    Head("CR alone after the first line", 21, GET.encode() + b"\r" + head(HOST)),
    Head("CR alone after a field", 21, get("X: 1\rY: 2")),
    Head("CR twice at a line end", 21, get("X: 1\r")),
    Head("a field folded with a space", 21, get("X: 1", " 2")),
    Head("a field folded with a tab", 21, get("X: 1", "\t2")),
    Head("a space before the first field", 21, head(GET, " Host: office")),
    Head("an empty line first", 0, b"\r\n" + get()),
    Head("three empty lines first", 0, b"\n\r\n\n" + get()),
    Head("a hundred empty lines first", 0, b"\r\n" * 100 + get()),
    Head("CR twice in an empty line first", 21, b"\r\r\n" + get()),
    Head("CR alone first", 21, b"\r" + get()),
    Head("a space first", 21, b" " + get()),
    Head("a byte order mark first", 21, b"\xef\xbb\xbf" + get()),
]

FIELDS = [
    Head("no field, version 1.0", 0, head(OLD)),
    Head("a value that is empty", 0, get("X:")),
    Head("a value without a space", 0, get("X:1")),
    Head("a value with spaces and tabs around", 0, get("X: \t1 \t ")),
    Head("a value with a tab", 0, get("X: a\tb")),
    Head("a value beyond ASCII", 0, get("X: é")),
    Head("a value that isn't UTF-8", 0, get(b"X: \xff\x80")),
    Head("a value with a colon", 0, get("X: a:b")),
    Head("a value with NUL", 21, get("X: a\x00b")),
    Head("a value with ESC", 21, get("X: a\x1bb")),
    Head("a value with DEL", 21, get("X: a\x7fb")),
    Head("a name of other characters of a token", 0, get("!#$%&'*+-.^_`|~9: 1")),
    Head("a space before the colon", 21, get("X : 1")),
    Head("a tab before the colon", 21, get("X\t: 1")),
    Head("an empty name", 21, get(": 1")),
    Head("a name with a space", 21, get("X Y: 1")),
    Head("a name in brackets", 21, get("(X): 1")),
    Head("a name beyond ASCII", 21, get("É: 1")),
    Head("no colon", 21, get("X")),
    Head("64 fields", 0, get(*counted(63))),
    Head("65 fields", 21, get(*counted(64))),
    Head("64 fields, and no Host", 23, head(GET, *counted(64))),
    Head("65 fields, and no Host", 21, head(GET, *counted(65))),
    Head("64 fields, version 1.0", 0, head(OLD, *counted(64))),
    Head("65 fields, version 1.0", 21, head(OLD, *counted(65))),
    Head("Host in lower case", 0, head(GET, "host: office")),
    Head("Host without a value", 0, head(GET, "Host:")),
    Head("Host with a value that is no host", 0, head(GET, "Host: a, b/c")),
    Head("no Host", 23, head(GET)),
    Head("no Host, and another field", 23, head(GET, "X-Host: office")),
    Head("two Hosts", 23, get(HOST)),
    Head("two Hosts in different cases", 23, get("HOST: office")),
    Head("two Hosts, version 1.0", 0, head(OLD, HOST, HOST)),
    Head("no Host, and no route", 23, head("GET /nothing HTTP/1.1")),
    Head("Transfer-Encoding", 24, get("Transfer-Encoding: chunked") + b"0\r\n\r\n"),
    Head("Transfer-Encoding identity", 24, get("Transfer-Encoding: identity")),
    Head("Transfer-Encoding without a value", 24, get("Transfer-Encoding:")),
    Head("Transfer-Encoding in lower case", 24, get("transfer-encoding: gzip")),
    Head("Transfer-Encoding, version 1.0", 24, head(OLD, "Transfer-Encoding: chunked")),
    Head("Transfer-Encoding, and no Host", 23, head(GET, "Transfer-Encoding: chunked")),
    Head("Transfer-Encoding, and no number", 24, get("Transfer-Encoding: x", "Content-Length: x")),
    Head("another encoding's field", 0, get("TE: trailers", "Accept-Encoding: gzip")),
    Head("Expect, which is ignored", 0, get("Expect: 100-continue")),
    Head("Expect, and a body", 0, get("Expect: 100-continue", "Content-Length: 2") + b"ab"),
    Head("Expect of something else", 0, get("Expect: the best")),
    Head("Upgrade, which is ignored", 0, get("Connection: upgrade", "Upgrade: websocket")),
    Head("Range and conditions, which are ignored", 0, get("Range: bytes=0-1", "If-None-Match: *")),
]

LENGTHS = [
    Head("no octets", 0, length(" 0")),
    Head("no octets, in 15 digits", 0, length(" 000000000000000")),
    Head("five octets", 0, length(" 5", b"abcde")),
    Head("five octets, without a space", 0, length("5", b"abcde")),
    Head("five octets, with spaces and tabs around", 0, length("\t 5 \t", b"abcde")),
    Head("five octets that are a request's", 0, length(" 5", b"GET /")),
    Head("a name in lower case", 0, get("content-length: 5") + b"abcde"),
    Head("no number", 25, length("")),
    Head("a plus sign", 25, length(" +5")),
    Head("a minus sign", 25, length(" -5")),
    Head("two numbers", 25, length(" 5 5")),
    Head("a list", 25, length(" 5, 5")),
    Head("a fraction", 25, length(" 5.0")),
    Head("an exponent", 25, length(" 1e1")),
    Head("hexadecimal digits", 25, length(" 0x5")),
    Head("a digit beyond ASCII", 25, length(" ٥")),
    Head("16 digits", 25, length(" 0000000000000005")),
    Head("two fields with one length", 25, get("Content-Length: 5", "Content-Length: 5")),
    Head("two fields with two lengths", 25, get("Content-Length: 0", "Content-Length: 5")),
    Head("two fields in different cases", 25, get("Content-Length: 0", "CONTENT-LENGTH: 0")),
    Head("no number, version 1.0", 25, head(OLD, "Content-Length: x")),
    Head("no number, and no Host", 23, head(GET, "Content-Length: x")),
    Head("one octet too many", 26, length(" 8388609")),
    Head("one octet too many, in 15 digits", 26, length(" 000000008388609")),
    Head("the greatest number of 15 digits", 26, length(" 999999999999999")),
    Head("too many, and no route", 26, head("GET / HTTP/1.1", HOST, "Content-Length: 8388609")),
]

PATHS = [
    Head("no slash", 27, target("books")),
    Head("an asterisk", 27, target("*", "OPTIONS")),
    Head("a whole address", 27, target("http://office/books")),
    Head("a host and a port", 27, target("office:80", "CONNECT")),
    Head("the root", 27, target("/")),
    Head("two slashes first", 27, target("//books")),
    Head("a slash at the end", 27, target("/books/")),
    Head("an empty part", 27, target("/books//tally")),
    Head("a part too many", 27, target("/books/staff/tally/x")),
    Head("another case", 27, target("/Books")),
    Head("a fragment", 27, target("/books#top")),
    Head("a fragment after a longer path", 27, target("/books/staff/tally#top")),
    Head("a number sign in a part", 1, target("/books/staff#top/tally")),
    Head("a dot segment", 1, target("/books/./tally")),
    Head("an escaped letter of a route", 27, target("/%62ooks")),
    Head("an escaped letter of a name", 0, target("/books/%73taff/tally")),
    Head("an escaped slash", 1, target("/books/a%2Fb/tally")),
    Head("an escaped question mark", 1, target("/books/a%3Fb/tally")),
    Head("a plus sign, which is no space", 4, target("/books/staff/cards/a+b")),
    Head("an escaped NUL", 4, target("/books/staff/cards/%00")),
    Head("a percent sign alone", 1, target("/books/%/tally")),
    Head("a percent sign with one digit", 1, target("/books/%4/tally")),
    Head("a percent sign without digits", 1, target("/books/%zz/tally")),
    Head("characters that addresses don't have", 1, target('/books/"<>\\^`{|}/tally')),
    Head("a character beyond ASCII", 1, target("/books/é/tally")),
    Head("an escaped character beyond ASCII", 1, target("/books/%C3%A9/tally")),
    Head("an octet that isn't UTF-8", 21, target(b"/books/\xff/tally")),
    Head("a surrogate", 21, target(b"/books/\xed\xa0\x80/tally")),
    Head("an escaped octet that isn't UTF-8", 29, target("/books/%FF/tally")),
    Head("an escaped surrogate", 29, target("/books/%ED%A0%80/tally")),
    Head("half a character, escaped", 29, target("/books/staff/cards/%C3")),
    Head("half a character, escaped, in either part", 29, target("/books/%C3/cards/a")),
    Head("no route and another method", 27, target("/nothing", "PUT")),
    Head("another method and a bad part", 28, target("/books/%FF/tally?x=1", "POST")),
    Head("a bad part and a bad query", 29, target("/books/%FF/tally?x=1")),
    Head("a bad query and no book", 30, target("/books/none/tally?x=1")),
]

METHODS = [
    Head("books", 28, target("/books", "PUT")),
    Head("a book", 28, target("/books/staff", "GET")),
    Head("a tally", 28, target("/books/staff/tally", "PUT")),
    Head("a report", 28, target("/books/staff/sync", "POST")),
    Head("an import", 28, target("/books/staff/import", "PUT")),
    Head("an export", 28, target("/books/staff/export", "POST")),
    Head("forgetting", 28, target("/books/staff/forget", "GET")),
    Head("a card", 28, target("/books/staff/cards/a", "POST")),
    Head("a move", 28, target("/books/staff/cards/a/move", "PUT")),
    Head("the people of a group", 28, target("/books/staff/cards/a/people", "PATCH")),
]

QUERIES = [
    Head("an empty query", 0, target("/books?")),
    Head("empty pieces", 0, target("/books?&&")),
    Head("a name that isn't known", 30, target("/books?x=1")),
    Head("an empty name", 30, target("/books?=")),
    Head("a name where none is known", 30, target("/books/staff?version=1", "PUT")),
    Head("a second question mark", 30, target("/books/staff/sync?limit=1?")),
    Head("a fragment", 30, target("/books/staff/sync?limit=1#top")),
    Head("a name in another case", 30, target("/books/staff/sync?Limit=1")),
    Head("an escaped name", 0, target("/books/staff/sync?%6Cimit=1")),
    Head("an escaped value", 0, target("/books/staff/sync?limit=%31")),
    Head("an empty piece before and after", 0, target("/books/staff/sync?&limit=1&")),
    Head("a name twice", 30, target("/books/staff/sync?limit=1&limit=1")),
    Head("a semicolon", 30, target("/books/staff/sync?limit=1;token=")),
    Head("a number without digits", 30, target("/books/staff/sync?limit=")),
    Head("a name without a value", 30, target("/books/staff/sync?limit")),
    Head("a number with a sign", 30, target("/books/staff/sync?limit=-1")),
    Head("a number after a space", 30, target("/books/staff/sync?limit=+1")),
    Head("a digit beyond ASCII", 30, target("/books/staff/sync?limit=٥")),
    Head("a number that isn't UTF-8", 30, target("/books/staff/sync?limit=%FF")),
    Head("15 digits", 0, target("/books/staff/sync?limit=000000000000001")),
    Head("16 digits", 30, target("/books/staff/sync?limit=0000000000000001")),
    Head("the limit 0", 11, target("/books/staff/sync?limit=0")),
    Head("an empty token", 0, target("/books/staff/sync?token=")),
    Head("a token without a value", 0, target("/books/staff/sync?token")),
    Head("a token that is a space", 10, target("/books/staff/sync?token=+")),
    Head("a token that isn't UTF-8", 10, target("/books/staff/sync?token=%FF")),
    Head("a token twice", 30, target("/books/staff/sync?token=&token=")),
    Head("no form", 0, target("/books/staff/export")),
    Head("an escaped form", 0, target("/books/staff/export?form=c%61rds")),
    Head("an empty form", 30, target("/books/staff/export?form=")),
    Head("a form in another case", 30, target("/books/staff/export?form=Cards")),
    Head("no key", 30, target("/books/staff/import", "POST")),
    Head("an empty key", 15, target("/books/staff/import?key=", "POST")),
    Head("a key with a space", 15, target("/books/staff/import?key=a+b", "POST")),
    Head("no number to forget up to", 30, target("/books/staff/forget", "POST")),
    Head("nothing to forget", 0, target("/books/staff/forget?upto=0", "POST")),
    Head("no book to move to", 30, target("/books/staff/cards/a/move", "POST")),
    Head("a book to move to without a name", 1, target("/books/staff/cards/a/move?to=", "POST")),
    Head("a version without digits", 30, target("/books/staff/cards/a?version=", "DELETE")),
    Head("a version where none is known", 30, target("/books/staff/cards/a?version=1")),
]

SIZES = [
    Head("16,383 octets", 0, sized(16383)),
    Head("16,384 octets", 0, sized(16384)),
    Head("16,385 octets", 22, sized(16385)),
    Head("16,384 octets with LF alone", 0, sized(16384, b"\n")),
    Head("16,385 octets with LF alone", 22, sized(16385, b"\n")),
    Head("16,384 octets with empty lines first", 0, b"\r\n" * 100 + sized(16184)),
    Head("16,385 octets with empty lines first", 22, b"\r\n" * 100 + sized(16185)),
    Head("empty lines alone", 22, b"\r\n" * 8192),
    Head("16,384 octets without a line end", 22, b"GET /".ljust(16384, b"a")),
    Head("16,384 octets of a method", 22, b"G" * 16384),
    Head("16,384 octets of a name", 22, (GET + "\r\n").encode().ljust(16384, b"a")),
    Head("16,384 octets, and bad from the first line on", 21, b"GET  ".ljust(16384, b"a")),
    Head("16,384 octets, and 65 fields", 21, head(GET, *counted(65))[:-2].ljust(16384, b"a")),
    Head("16,384 octets, and NUL", 21, b"GET /\x00".ljust(16384, b"a")),
]

TABLES = {
    "start lines": START_LINES,
    "line ends": LINE_ENDS,
    "fields": FIELDS,
    "lengths": LENGTHS,
    "paths": PATHS,
    "methods": METHODS,
    "queries": QUERIES,
    "sizes": SIZES,
}

# Whether the connection is closed after the reply.
CLOSING = [
    Closing("version 1.1", False, get()),
    Closing("version 1.0", True, head(OLD)),
    Closing("version 1.0 with keep-alive", True, head(OLD, "Connection: keep-alive")),
    Closing("close", True, get("Connection: close")),
    Closing("capitals", True, get("CONNECTION: CLOSE")),
    Closing("both cases", True, get("connection: cLoSe")),
    Closing("the last of a list", True, get("Connection: keep-alive, close")),
    Closing("the first of a list", True, get("Connection: close ,keep-alive")),
    Closing("a list without spaces", True, get("Connection: x,close,y")),
    Closing("a list with tabs", True, get("Connection: x,\tclose\t")),
    Closing("a list with empty parts", True, get("Connection: ,,close,")),
    Closing("the second field", True, get("Connection: keep-alive", "Connection: close")),
    Closing("the first field", True, get("Connection: close", "Connection: keep-alive")),
    Closing("keep-alive", False, get("Connection: keep-alive")),
    Closing("no value", False, get("Connection:")),
    Closing("a longer word", False, get("Connection: closed")),
    Closing("a shorter word", False, get("Connection: clos")),
    Closing("two words", False, get("Connection: not close")),
    Closing("a parameter", False, get("Connection: close;x=1")),
    Closing("quotes", False, get('Connection: "close"')),
    Closing("another field", False, get("Proxy-Connection: close", "Keep-Alive: timeout=1")),
    Closing("no route", True, head("GET /nothing HTTP/1.1", HOST, "Connection: close")),
    Closing("no book, version 1.0", True, head("GET /books/none/tally HTTP/1.0")),
    Closing("a body", True, get("Connection: close", "Content-Length: 5") + b"abcde"),
]
