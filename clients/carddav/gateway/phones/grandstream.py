"""Grandstream: the XML phonebook guide (GXP, GRP). UTF-8; numbers with their types.

    <AddressBook>
      <Contact>
        <id>1</id>
        <LastName>Lee</LastName>
        <FirstName>Ann</FirstName>
        <Phone type="Work">
          <phonenumber>+353209110177</phonenumber>
          <accountindex>1</accountindex>
        </Phone>
      </Contact>
    </AddressBook>

The phone adds /phonebook.xml to the address that it is given.
"""

from gateway.phones.entries import NUMBER_MAX, Entry, Form, Listing, element

TYPES = {"work": "Work", "home": "Home", "cell": "Cell"}
ACCOUNT = 1  # the first line of the phone


def written(listing: Listing) -> str:
    rows = ["<AddressBook>"]
    for at, it in enumerate(listing.entries, 1):
        rows += ["<Contact>", f"<id>{at}</id>", names(it)]
        for one in it.numbers:
            rows.append(f'<Phone type="{TYPES[one.kind]}">'
                        f"{element('phonenumber', one.text, NUMBER_MAX)}"
                        f"<accountindex>{ACCOUNT}</accountindex></Phone>")
        rows.append("</Contact>")
    return "\n".join([*rows, "</AddressBook>", ""])


def names(entry: Entry) -> str:
    """Both names; a card without a family name has its whole name as the first one."""
    given = entry.given if entry.family else entry.name
    return element("LastName", entry.family) + element("FirstName", given)


FORM = Form(written, most=1000, is_single=False, has_pages=False)
