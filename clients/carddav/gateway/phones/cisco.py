"""Cisco: a directory of IP phone services (the application development notes). An entry has one
number; a page has 32 entries at most. Older phones know ISO-8859-1 alone: Accept-Charset says it.

    <CiscoIPPhoneDirectory>
      <Title>staff</Title>
      <Prompt>1-32 of 210</Prompt>
      <DirectoryEntry>
        <Name>Ann Lee</Name>
        <Telephone>+353209110177</Telephone>
      </DirectoryEntry>
      <SoftKeyItem>
        <Name>Dial</Name>
        <URL>SoftKey:Dial</URL>
        <Position>1</Position>
      </SoftKeyItem>
    </CiscoIPPhoneDirectory>

With `?ask` it is a form for a name, whose answer comes as `q`.
"""

from typing import Dict

from gateway.phones.entries import NUMBER_MAX, Form, Listing, element

URL_MAX = 2000  # of which phones take 256
TITLE_MAX = 32
KEYS = (("Dial", "SoftKey:Dial"), ("EditDial", "SoftKey:EditDial"), ("Exit", "SoftKey:Exit"))


def written(listing: Listing) -> str:
    rows = ["<CiscoIPPhoneDirectory>", element("Title", listing.title, TITLE_MAX),
            element("Prompt", listing.said, TITLE_MAX)]
    for it in listing.entries:
        rows.append(f"<DirectoryEntry>{element('Name', it.name)}"
                    f"{element('Telephone', it.numbers[0].text, NUMBER_MAX)}</DirectoryEntry>")
    keys = KEYS + ((("Next", listing.following),) if listing.following else ())
    for place, (name, url) in enumerate(keys, 1):
        rows.append(f"<SoftKeyItem>{element('Name', name)}{element('URL', url, URL_MAX)}"
                    f"<Position>{place}</Position></SoftKeyItem>")
    return "\n".join([*rows, "</CiscoIPPhoneDirectory>", ""])


def question(title: str, url: str) -> str:
    return "\n".join(["<CiscoIPPhoneInput>", element("Title", title, TITLE_MAX),
                      "<Prompt>Name or number</Prompt>", element("URL", url, URL_MAX),
                      "<InputItem><DisplayName>Name</DisplayName>"
                      "<QueryStringParam>q</QueryStringParam><DefaultValue></DefaultValue>"
                      "<InputFlags>A</InputFlags></InputItem>", "</CiscoIPPhoneInput>", ""])


def charset(fields: Dict[str, str]) -> str:
    accepted = fields.get("accept-charset", "utf-8").lower()
    return "utf-8" if "utf-8" in accepted or "*" in accepted else "iso-8859-1"


FORM = Form(written, most=32, is_single=True, has_pages=True, charset=charset, question=question)
