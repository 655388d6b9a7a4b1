"""The name of a caller, and cards that match what was typed."""

import json
import unicodedata
from typing import TYPE_CHECKING, Any, Dict, Iterator, List, Tuple
from urllib.parse import quote

from gateway.books import AddressBook
from gateway.finding import best
from gateway.messages import TEXT, Fault, Reply
from gateway.people import Named, Person
from gateway.places import SAFE, path_to

if TYPE_CHECKING:
    from gateway.feeds import Asked

NAME_MAX = 80  # letters of a caller's name
APOSTROPHES = "'’ʼ"
MOST, DEFAULT = 10_000, 50  # cards that a search gives
JSON = "application/json; charset=utf-8"
FORMS = ("json", "mails", "phones")


def lookup(asked: "Asked") -> Reply:
    """`/lookup?tel=`: the name and nothing else; 404 and nothing if nobody has the number."""
    tel = asked.get("tel").strip()
    if not tel or asked.rest:
        raise Fault(400, "ask as /lookup?tel=+353209110177")
    found: List[Named] = []
    for book in asked.books():
        with book.lock:
            found += book.people().named(tel)
    name = harmless(min(found).name)[:NAME_MAX] if found else ""
    return Reply(200 if name else 404, {"Content-Type": TEXT}, name.encode())


def harmless(name: str) -> str:
    """The name without any sign that a PBX's dialplan, a shell or a database takes for its own.

    Letters and digits of all scripts, spaces, full stops and hyphens stay, and so do apostrophes,
    as ’. It begins with none of the signs: it is no option of a command.
    """
    signs = (it if it.isalnum() or it in ".-" or unicodedata.category(it)[0] == "M"
             else "’" if it in APOSTROPHES else " " for it in name)
    return " ".join("".join(signs).split()).lstrip(" .-")


Found = Tuple[AddressBook, Person]


def find(asked: "Asked") -> Reply:
    """`/find?q=`: the best matches first; `form=mails` or `phones` for lines with tabs."""
    form = asked.get("form") or "json"
    if asked.rest or form not in FORMS:
        raise Fault(400, f"ask as /find?q=ann, with form={', '.join(FORMS)} or none")
    found = matches(asked.books(), asked.get("q"))
    if form == "json":
        limit = asked.number("limit", 1, MOST, DEFAULT)
        values = {"found": [told(*it) for it in found[:limit]], "more": len(found[limit:])}
        text = json.dumps(values, ensure_ascii=False, separators=(",", ":")) + "\n"
        return Reply(200, {"Content-Type": JSON}, text.encode())
    limit = asked.number("limit", 1, MOST, MOST)
    rows = [row for it in found for row in lines(it[1], form)][:limit]
    return Reply(200, {"Content-Type": TEXT}, "".join(it + "\n" for it in rows).encode())


def matches(books: List[AddressBook], text: str) -> List[Found]:
    rows = []
    for book in books:
        with book.lock:
            people = book.people().in_order()
        rows += [(book, it) for it in people]
    if len(books) > 1:
        rows.sort(key=lambda it: (it[1].row.names, it[0].name, it[1].uid))
    return best(((it[1].row, it) for it in rows), text)


def told(book: AddressBook, one: Person) -> Dict[str, Any]:
    """A card in JSON. Its path is that of CardDAV."""
    name = book.state.name(book.number, one.uid)
    return {"book": book.name, "uid": one.uid, "name": one.name, "kind": one.kind,
            "org": one.org, "title": one.title, "mails": one.mails,
            "phones": [{"number": it.text, "uses": it.uses} for it in one.phones],
            "path": path_to("books", book.name) + quote(name or "", safe=SAFE)}


def lines(one: Person, form: str) -> Iterator[str]:
    """A line for each address, or each number: it, the name, and what else tells people apart."""
    if form == "mails":
        for mail in one.mails:
            yield "\t".join((mail, one.name, one.org or one.title))
    else:
        for phone in one.phones:
            yield "\t".join((phone.text, one.name, ", ".join(phone.uses) or one.org))
