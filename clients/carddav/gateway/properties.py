"""The properties of places (RFC 4918, 15; 3744, 4 and 5; 6352, 6.2; 6578, 4), as XML."""

from typing import Callable, Dict, Iterable, List, NamedTuple, Optional

from gateway.davxml import C, CS, D, element, escaped, href, prop_status
from gateway.messages import Request
from gateway.photos import CARD_MAX
from gateway.places import Place, home_of, path_of, path_to, principal_of
from gateway.state import Entry

VCARD = "text/vcard; charset=utf-8"
COLLATIONS = ("i;ascii-casemap", "i;octet", "i;unicode-casemap")


def dav(name: str) -> str:
    return f"{{{D}}}{name}"


def card(name: str) -> str:
    return f"{{{C}}}{name}"


REPORTS = [dav("sync-collection"), card("addressbook-multiget"), card("addressbook-query")]
ADDRESS_DATA, GETETAG = card("address-data"), dav("getetag")


class Resource(NamedTuple):
    """A place of which properties are asked; a card comes with its entry."""

    request: Request
    place: Place
    has4: bool
    entry: Optional[Entry] = None
    known_token: str = ""

    def token(self) -> str:
        assert self.place.book
        return self.known_token or self.place.book.refresh()

    @property
    def path(self) -> str:
        return path_of(self.place, self.request.user)


Made = Callable[[Resource], Optional[str]]


def on(*kinds: str) -> Callable[[Made], Made]:
    """Makes a property of places of these kinds alone."""
    def only(made: Made) -> Made:
        return lambda it: made(it) if it.place.kind in kinds else None
    return only


def resource_type(it: Resource) -> Optional[str]:
    kinds: Dict[str, List[str]] = {
        "card": [], "book": [dav("collection"), card("addressbook")],
        "user": [dav("collection"), dav("principal")],
        "only": [dav("collection"), dav("principal")]}
    return "".join(element(kind) for kind in kinds.get(it.place.kind, [dav("collection")]))


def display_name(it: Resource) -> Optional[str]:
    names = {"user": it.request.user, "home": "Books", "root": "Tosculai"}
    if it.place.kind in ("book", "only") and it.place.book:
        return escaped(it.place.book.name)
    return escaped(names[it.place.kind]) if it.place.kind in names else None


def principal(it: Resource) -> Optional[str]:
    return href(principal_of(it.place, it.request.user))


def home_set(it: Resource) -> Optional[str]:
    return href(home_of(it.place)) if it.place.kind not in ("book", "card") else None


def privileges(it: Resource) -> Optional[str]:
    names = ["read", "read-current-user-privilege-set"]
    if it.place.kind in ("book", "card") and it.place.book and \
            "w" in it.request.right(it.place.book.name):
        names += ["write", "write-content", "bind", "unbind"]
    return "".join(element(dav("privilege"), element(dav(name))) for name in names)


def address_data_types(it: Resource) -> Optional[str]:
    return "".join(element(card("address-data-type"), content_type="text/vcard", version=version)
                   for version in (["3.0", "4.0"] if it.has4 else ["3.0"]))


def reports(it: Resource) -> Optional[str]:
    return "".join(element(dav("supported-report"), element(dav("report"), element(name)))
                   for name in REPORTS)


def length(it: Resource) -> Optional[str]:
    """The octets of what a GET without Accept returns."""
    assert it.place.book and it.entry
    text = it.place.book.text(it.entry)
    return None if text is None else str(sum(map(
        len, it.place.book.filled(text, False, it.request.is_noted))))


PROPERTIES: Dict[str, Made] = {
    dav("resourcetype"): resource_type,
    dav("displayname"): display_name,
    dav("current-user-principal"): principal,
    dav("principal-URL"): on("user", "only")(principal),
    dav("principal-collection-set"): lambda it: href(path_to("users")),
    dav("owner"): principal,
    dav("current-user-privilege-set"): privileges,
    dav("supported-report-set"): on("book")(reports),
    dav("sync-token"): on("book")(lambda it: escaped(it.token())),
    dav("getetag"): on("card")(lambda it: escaped(it.entry.etag) if it.entry else None),
    dav("getcontenttype"): on("card")(lambda it: VCARD),
    dav("getcontentlength"): on("card")(length),
    f"{{{CS}}}getctag": on("book")(lambda it: escaped(it.token())),
    card("addressbook-home-set"): home_set,
    card("supported-address-data"): on("book")(address_data_types),
    card("supported-collation-set"): on("book")(lambda it: "".join(
        element(card("supported-collation"), name) for name in COLLATIONS)),
    # Phones that can make a photo smaller do it down to this. A larger card is taken, too.
    card("max-resource-size"): on("book")(lambda it: str(CARD_MAX)),
}
# Those of RFC 4918, which a client gets that names none (RFC 4918, 9.1).
ALL = [dav("resourcetype"), dav("displayname"), dav("getetag"), dav("getcontenttype"),
       dav("getcontentlength")]


def respond(it: Resource, tags: Iterable[str], minimal: bool, data: Optional[str] = None,
            names_only: bool = False) -> str:
    """The response for a place. `data` is its address-data, if that is wanted."""
    have: List[str] = []
    lack: List[str] = []
    for tag in tags:
        made = PROPERTIES.get(tag)
        value = data if tag == ADDRESS_DATA else made(it) if made else None
        if value is None:
            lack.append(element(tag))
        else:
            have.append(element(tag, "" if names_only else value))
    parts = prop_status(have, "200 OK") if have or not lack else ""
    if lack and not (minimal and have):
        parts += prop_status(lack, "404 Not Found")
    return f"<D:response>{href(it.path)}{parts}</D:response>"
