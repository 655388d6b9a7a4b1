"""Requests and replies without sockets, and refusals in words."""

from typing import Dict, Iterator, NamedTuple, Union
from urllib.parse import SplitResult, urlsplit

from gateway import davxml
from gateway.davxml import C, D

XML = "application/xml; charset=utf-8"
TEXT = "text/plain; charset=utf-8"
RETRY_AFTER = "30"  # seconds
QUOTA, TOO_MANY = f"{{{D}}}quota-not-exceeded", f"{{{D}}}number-of-matches-within-limits"
TOO_LARGE, NO_CARD = f"{{{C}}}max-resource-size", f"{{{C}}}valid-address-data"
NO_VERSION, UID_CONFLICT = f"{{{C}}}supported-address-data", f"{{{C}}}no-uid-conflict"
NO_RIGHT, BAD_TOKEN = f"{{{D}}}need-privileges", f"{{{D}}}valid-sync-token"
NO_REPORT, NO_DEPTH = f"{{{D}}}supported-report", f"{{{D}}}propfind-finite-depth"
NO_COLLATION, NO_FILTER = f"{{{C}}}supported-collation", f"{{{C}}}supported-filter"
# Programs that change cards without a condition.
BLIND = ("Thunderbird",)


class Request(NamedTuple):
    method: str
    target: str  # as it was sent
    fields: Dict[str, str]  # by names in lower case
    body: bytes
    user: str
    rights: Dict[str, str]  # of the user: "r" or "rw" by book, and "*" for all others
    address: str = ""  # of the gateway for clients, as https://office.example/dav
    has_categories: bool = False  # whether the user's programs know groups as categories alone

    def field(self, name: str) -> str:
        return self.fields.get(name, "")

    @property
    def charset(self) -> str:
        """The charset that the Content-Type names."""
        for part in self.field("content-type").split(";")[1:]:
            key, _, value = part.partition("=")
            if key.strip().lower() == "charset":
                return value.strip().strip("\"'").lower()
        return ""

    def right(self, book: str) -> str:
        return self.rights.get(book, self.rights.get("*", ""))

    @property
    def program(self) -> str:
        """Which program sends this, without its version: the last name of a browser's kind."""
        words = [it.partition("/")[0] for it in self.field("user-agent").split(" ") if "/" in it]
        name = (words[-1] if words[:1] == ["Mozilla"] else words[0]) if words else "?"
        return name[:40]

    @property
    def is_noted(self) -> bool:
        """Whether the program's cards say what it has read of them (unseen.py)."""
        return self.program in BLIND


def parts_of(address: str) -> SplitResult:
    """The parts of an address or a path, as clients send it."""
    try:
        return urlsplit(address)
    except ValueError:
        raise Fault(400, "this isn't an address") from None


class Reply(NamedTuple):
    status: int
    fields: Dict[str, str]
    body: Union[bytes, Iterator[bytes]]


class Fault(Exception):
    """A refusal: its status, the element of the precondition that failed, if any, and words."""

    def __init__(self, status: int, words: str, condition: str = "", href: str = "",
                 **fields: str) -> None:
        super().__init__(words)
        self.status, self.words, self.condition, self.href = status, words, condition, href
        self.fields = {name.replace("_", "-"): value for name, value in fields.items()}

    def reply(self) -> Reply:
        if self.condition:
            body = davxml.error(self.condition, self.words, self.href)
            return Reply(self.status, {"Content-Type": XML, **self.fields}, body)
        return Reply(self.status, {"Content-Type": TEXT, **self.fields},
                     (self.words + "\n").encode())
