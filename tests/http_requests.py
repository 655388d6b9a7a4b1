"""Requests over HTTP, written as the octets that a client sends, and the cards and rows in them."""

from urllib.parse import quote

SYNC = "http://contacts.invalid/sync/"
COLUMNS = "uid,fn,family,given,email,tel,org,note\n"
FULL_CARDS = "uid,vcard\n"


def request(method, target, body=None, fields=(), version="1.1", host=True):
    """A request with these further fields. With a body, even an empty one, it has its length."""
    head = [f"{method} {target} HTTP/{version}", *(["Host: office"] if host else []), *fields]
    body = body.encode() if isinstance(body, str) else body
    if body is not None:
        head.append(f"Content-Length: {len(body)}")
    return "".join(line + "\r\n" for line in [*head, ""]).encode() + (body or b"")


def card(uid, name, *lines):
    """The text of a card with further lines."""
    lines = ["BEGIN:VCARD", "VERSION:4.0", f"UID:{uid}", f"FN:{name}", *lines, "END:VCARD"]
    return "".join(line + "\r\n" for line in lines)


def create(book):
    return request("PUT", f"/books/{book}")


def books(**options):
    return request("GET", "/books", **options)


def tally(book):
    return request("GET", f"/books/{book}/tally")


def get(book, uid, **options):
    return request("GET", f"/books/{book}/cards/{uid}", **options)


def put(book, uid, name, query=""):
    return request("PUT", f"/books/{book}/cards/{uid}{query}", card(uid, name))


def remove(book, uid, query=""):
    return request("DELETE", f"/books/{book}/cards/{uid}{query}")


def move(uid, book, to):
    return request("POST", f"/books/{book}/cards/{uid}/move?to={to}")


def people(book, uid):
    return request("GET", f"/books/{book}/cards/{uid}/people")


def sync(book, token=None, limit=None):
    """A request for a page; `token` is its three numbers, separated by slashes."""
    query = [f"token={quote(SYNC + token, safe='')}"] if token else []
    query += [f"limit={limit}"] if limit is not None else []
    return request("GET", f"/books/{book}/sync" + ("?" + "&".join(query) if query else ""))


def import_rows(book, key, rows):
    return request("POST", f"/books/{book}/import?key={key}", rows)


def export(book, form=None):
    return request("GET", f"/books/{book}/export" + (f"?form={form}" if form else ""))


def forget(book, upto):
    return request("POST", f"/books/{book}/forget?upto={upto}")


# A request for each route of the book `staff` and its card a; the book `clients` isn't there.
EACH_OF_A_BOOK = [
    tally("staff"),
    sync("staff"),
    import_rows("staff", "k", COLUMNS),
    export("staff"),
    forget("staff", 0),
    get("staff", "a"),
    put("staff", "a", "Ann"),
    remove("staff", "a"),
    move("a", "staff", "clients"),
    people("staff", "a"),
]
