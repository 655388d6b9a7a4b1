"""Yealink: the remote phone book of the administrators' guide. UTF-8; up to three numbers each.

    <YealinkIPPhoneDirectory>
      <DirectoryEntry>
        <Name>Ann Lee</Name>
        <Telephone>+353209110177</Telephone>
        <Telephone>+353861234567</Telephone>
      </DirectoryEntry>
    </YealinkIPPhoneDirectory>
"""

from gateway.phones.entries import NUMBER_MAX, Form, Listing, element

NUMBERS = 3


def written(listing: Listing) -> str:
    rows = ["<YealinkIPPhoneDirectory>"]
    for it in listing.entries:
        some = it.numbers[:NUMBERS]
        numbers = "".join(element("Telephone", one.text, NUMBER_MAX) for one in some)
        rows.append(f"<DirectoryEntry>{element('Name', it.name)}{numbers}</DirectoryEntry>")
    return "\n".join([*rows, "</YealinkIPPhoneDirectory>", ""])


FORM = Form(written, most=5000, is_single=False, has_pages=False)
