"""Phone books for desk phones, at `/phonebook/FORM/BOOK[/GROUP]`; each form is a file of `phones/`.

A reply has at most as many numbers as the form's phones take, or `?most=`. Forms with pages have
the address of the next page in each; the others are cut. The field X-Entries says what is there:
`1-32 of 210`.
"""

import re
from typing import TYPE_CHECKING, Dict, Iterable, List, Tuple

from gateway.finding import best, fold
from gateway.messages import TEXT, Fault, Reply
from gateway.numbers import FROM_ABROAD, ascii_digits
from gateway.people import Person, sorted_people
from gateway.phones import cisco, fanvil, grandstream, snom, yealink
from gateway.phones.entries import NUMBER_MAX, Entry, Form, Listing, Number, in_charset
from gateway.readers import masked
from gateway.values import EXTENSION

if TYPE_CHECKING:
    from gateway.feeds import Asked

FORMS: Dict[str, Form] = {"cisco": cisco.FORM, "fanvil": fanvil.FORM,
                          "grandstream": grandstream.FORM, "snom": snom.FORM,
                          "yealink": yealink.FORM}
FILES = ("phonebook.xml", "gs_phonebook.xml")  # which a Grandstream adds to the address it has
NUMBER = re.compile(r"(\+)?[0-9\s().\-/\u2010-\u2015\xa0]+")
NOT_TALKED_AT = {"fax", "pager", "textphone"}
MOST = 10_000


def reply(asked: "Asked") -> Reply:
    if not asked.rest:
        return greet(asked)
    form = FORMS.get(asked.rest[0])
    if asked.rest[-1] in FILES:
        asked.rest.pop()
    if not form or not 2 <= len(asked.rest) <= 3:
        raise Fault(404, "a phone book is at /phonebook/FORM/BOOK or /phonebook/FORM/BOOK/GROUP; "
                    f"a FORM is {', '.join(FORMS)}")
    if not re.fullmatch("[0-9]{0,5}", asked.get("plus")):
        raise Fault(400, "plus= is what is dialled for a plus, as 00")
    if "ask" in asked.query and form.question:
        text = form.question(asked.rest[1], asked.url(*asked.rest))
        return _sent(asked, form, text, {})
    people, title = chosen(asked)
    entries = [it for it in (entry_of(one, asked) for one in people) if it.numbers]
    if form.is_single:
        entries = [single for it in entries for single in it.singles()]
    return _page(asked, form, title, entries)


def _page(asked: "Asked", form: Form, title: str, entries: List[Entry]) -> Reply:
    most = asked.number("most", 1, MOST, form.most)
    begin = asked.number("from", 1, max(1, len(entries)), 1)
    shown = entries[begin - 1:begin - 1 + most]
    end = begin - 1 + len(shown)
    following = ""
    if form.has_pages and end < len(entries):
        query = {**asked.query, "from": str(end + 1)}
        following = asked.url(*asked.rest, query=query)
    said = f"{begin if shown else 0}-{end} of {len(entries)}"
    if end < len(entries) and not following:
        asked.shelf.say(f"{masked(asked.request.target[:200])}: {said} numbers, as phones of "
                        f"{asked.rest[0]} take no more: name a group, or ask with ?q=")
    listing = Listing(title, shown, following, said)
    return _sent(asked, form, form.written(listing), {"X-Entries": said})


def _sent(asked: "Asked", form: Form, text: str, fields: Dict[str, str]) -> Reply:
    charset = form.charset(asked.request.fields)
    declared = f'<?xml version="1.0" encoding="{charset}"?>\n' + text
    return Reply(200, {"Content-Type": f"text/xml; charset={charset}", **fields},
                 in_charset(declared, charset))


def chosen(asked: "Asked") -> Tuple[List[Person], str]:
    """The people of the book or of the group, those that match `q`, sorted; and the title."""
    name = re.sub(r"\.xml$", "", asked.rest[1])
    book = asked.book(name)
    with book.lock:
        people = book.people()
        rows = people.in_order()
        if len(asked.rest) == 3:
            group = group_named(rows, asked.rest[2])
            rows, name = sorted_people(people.of_group(group)), group.name or name
    if asked.get("by") == "family":
        rows = sorted(rows, key=lambda it: fold(it.family or it.name))
    return best(((it.row, it) for it in rows), asked.get("q")), name


def group_named(people: Iterable[Person], text: str) -> Person:
    """The group of this UID, or of this name, in any case."""
    groups = [it for it in people if it.kind == "group"]
    for wanted in text, re.sub(r"\.xml$", "", text):
        for it in groups:
            if wanted in (it.uid, it.name) or fold(wanted) and fold(wanted) == fold(it.name):
                return it
    raise Fault(404, f"the book has no group {text[:60]}")


def entry_of(one: Person, asked: "Asked") -> Entry:
    by_family = asked.get("by") == "family" and one.family
    name = f"{one.family} {one.given}".strip() if by_family else one.name or one.org
    numbers = [Number(kind_of(it.uses), dialled(it.text, asked.get("plus")))
               for it in one.phones if not NOT_TALKED_AT & set(it.uses)]
    some = [it for it in numbers if it.text]
    return Entry(name or "".join(it.text for it in some[:1]), one.family, one.given, some)


def kind_of(uses: Iterable[str]) -> str:
    return next((it for it in ("cell", "home", "work") if it in uses), "work")


def dialled(text: str, plus: str) -> str:
    """The number as a phone dials it, with what stands for its plus; empty if it is none.

    Stars and hashes are orders to the telephone network, as to send all calls elsewhere. No book
    gives them to a phone.
    """
    bare = ascii_digits(EXTENSION.sub("", text)).strip()
    found = NUMBER.fullmatch(bare)
    if not found:
        return ""
    is_abroad = found.group(1) or FROM_ABROAD.match(bare)
    number = re.sub("[^0-9]", "", bare.replace("(0)", "") if is_abroad else bare)
    whole = (plus or "+") * bool(found.group(1)) + number
    return whole if 2 <= len(number) and len(whole) <= NUMBER_MAX else ""


def greet(asked: "Asked") -> Reply:
    """The addresses of the phone books, for who sets phones up."""
    names = [it for it in asked.shelf.names() if asked.request.right(it)]
    lines = [asked.url(form, name) for name in names for form in FORMS]
    text = "".join(it + "\n" for it in lines) or "no book may be read\n"
    return Reply(200, {"Content-Type": TEXT}, text.encode())
