"""Snom: a directory of the XML minibrowser. UTF-8; an entry has one number; pages.

    <SnomIPPhoneDirectory>
      <Title>staff</Title>
      <Prompt>1-100 of 210</Prompt>
      <DirectoryEntry>
        <Name>Ann Lee</Name>
        <Telephone>+353209110177</Telephone>
      </DirectoryEntry>
      <SoftKeyItem>
        <Name>F4</Name>
        <Label>Next</Label>
        <URL>http://office.example/phonebook/snom/staff?from=101</URL>
      </SoftKeyItem>
    </SnomIPPhoneDirectory>
"""

from gateway.phones.entries import NUMBER_MAX, Form, Listing, element

URL_MAX = 2000


def written(listing: Listing) -> str:
    rows = ["<SnomIPPhoneDirectory>", element("Title", listing.title),
            element("Prompt", listing.said)]
    for it in listing.entries:
        rows.append(f"<DirectoryEntry>{element('Name', it.name)}"
                    f"{element('Telephone', it.numbers[0].text, NUMBER_MAX)}</DirectoryEntry>")
    if listing.following:
        rows.append("<SoftKeyItem><Name>F4</Name><Label>Next</Label>"
                    f"{element('URL', listing.following, URL_MAX)}</SoftKeyItem>")
    return "\n".join([*rows, "</SnomIPPhoneDirectory>", ""])


FORM = Form(written, most=100, is_single=True, has_pages=True)
