"""Fanvil: the remote XML phone book. UTF-8; a number of each of three kinds.

    <FanvilIPPhoneDirectory>
      <DirectoryEntry>
        <Name>Ann Lee</Name>
        <Telephone>+353209110177</Telephone>
        <Mobile>+353861234567</Mobile>
        <Other></Other>
      </DirectoryEntry>
    </FanvilIPPhoneDirectory>
"""

from typing import Dict

from gateway.phones.entries import NUMBER_MAX, Entry, Form, Listing, element

FIRST = {"work": "Telephone", "cell": "Mobile", "home": "Other"}  # the place of a kind, if free
PLACES = ("Telephone", "Mobile", "Other")


def placed(entry: Entry) -> Dict[str, str]:
    """Numbers by their places: each in that of its kind, or else in the next free one."""
    found: Dict[str, str] = {}
    for it in entry.numbers:
        free = [place for place in (FIRST[it.kind], *PLACES) if place not in found]
        if free:
            found[free[0]] = it.text
    return found


def written(listing: Listing) -> str:
    rows = ["<FanvilIPPhoneDirectory>"]
    for it in listing.entries:
        numbers = placed(it)
        parts = "".join(element(place, numbers.get(place, ""), NUMBER_MAX) for place in PLACES)
        rows.append(f"<DirectoryEntry>{element('Name', it.name)}{parts}</DirectoryEntry>")
    return "\n".join([*rows, "</FanvilIPPhoneDirectory>", ""])


FORM = Form(written, most=1000, is_single=False, has_pages=False)
