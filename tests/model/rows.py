"""Rows: lists of cards as CSV (RFC 4180), of either form, read and written.

Records end at a line feed, a return, or both; empty lines are none. A field that begins with a
quote ends at the next quote that isn't doubled, and what follows up to the comma is added as it is.
The text's end ends an open field. This is how the widespread library `csv` of Rust reads.
"""

import re

from .cards import BadCard, card_of_values, components, escape, first, read_card, unescape

MARK = b"\xef\xbb\xbf"
HEADERS = {
    "cards": ["uid", "vcard"],
    "columns": ["uid", "fn", "family", "given", "email", "tel", "org", "note"],
}

# The causes for which a row is bad. A card's fault adds its own number to CARD.
BAD_HEADER, COLUMNS, NOT_UTF8, EMPTY_NAME = range(1, 5)
CARD, UID_MISMATCH, DUPLICATE_UID = 20, 40, 41

FIELD = re.compile(rb'"([^"]*(?:""[^"]*)*)"?([^,\r\n]*)|[^,\r\n]*')
LINE_ENDS = re.compile(rb"[\r\n]*")


class BadImport(Exception):
    """The first row that is bad, counted from 1 below the header, which is 0, and its cause."""

    def __init__(self, row, cause):
        super().__init__(row, cause)
        self.row, self.cause = row, cause


def records(octets):
    """The records of a text, each a list of fields, in octets."""
    found, at = [], LINE_ENDS.match(octets).end()
    while at < len(octets):
        fields = []
        while True:
            field = FIELD.match(octets, at)
            quoted, more = field.groups()
            fields.append(field[0] if quoted is None else quoted.replace(b'""', b'"') + more)
            at = field.end()
            if octets[at:at + 1] != b",":
                break
            at += 1
        found.append(fields)
        at = LINE_ENDS.match(octets, at).end()
    return found


def read_rows(octets):
    """The cards of the rows; BadImport if the text isn't a header and rows of cards."""
    octets = octets[len(MARK):] if octets.startswith(MARK) else octets
    header, *rows = records(octets) or [[]]
    forms = [form for form, names in HEADERS.items() if header == [it.encode() for it in names]]
    if not forms:
        raise BadImport(0, BAD_HEADER)
    cards, uids = [], set()
    for number, fields in enumerate(rows, 1):
        try:
            card = CARD_OF_ROW[forms[0]](fields)
        except BadRow as bad:
            raise BadImport(number, bad.cause) from None
        except BadCard as bad:
            raise BadImport(number, CARD + bad.cause) from None
        if fields[0].decode() not in ("", card.uid):
            raise BadImport(number, UID_MISMATCH)
        if card.uid in uids:
            raise BadImport(number, DUPLICATE_UID)
        uids.add(card.uid)
        cards.append(card)
    return cards


class BadRow(Exception):
    """A row that is bad before it is looked at as a card."""

    def __init__(self, cause):
        super().__init__(cause)
        self.cause = cause


def texts_of(fields, form):
    """The fields as texts, as many as the form has."""
    if len(fields) != len(HEADERS[form]):
        raise BadRow(COLUMNS)
    try:
        return [field.decode("utf-8") for field in fields]
    except UnicodeDecodeError:
        raise BadRow(NOT_UTF8) from None


def card_of_card(fields):
    texts_of(fields, "cards")
    return read_card(fields[1])


def card_of_columns(fields):
    texts = [text.replace("\r\n", "\n") for text in texts_of(fields, "columns")]
    uid, name, family, given, *others = texts
    if not name:
        raise BadRow(EMPTY_NAME)
    values = [("UID", uid), ("FN", escape(name))]
    if family or given:
        values.append(("N", f"{escape(family)};{escape(given)};;;"))
    named = zip(["EMAIL", "TEL", "ORG", "NOTE"], others)
    values += [(name, escape(text)) for name, text in named if text]
    return card_of_values(values)


CARD_OF_ROW = {"cards": card_of_card, "columns": card_of_columns}


def columns_of(card):
    """What the columns say of a card: the first of each kind of line."""
    name = components(first(card.lines, "N") or "") + [""]
    org = components(first(card.lines, "ORG") or "")
    full, email, tel, note = (
        unescape(first(card.lines, it) or "") for it in ("FN", "EMAIL", "TEL", "NOTE")
    )
    return [card.uid, full, name[0], name[1], email, tel, org[0], note]


def field_text(text):
    """The field, in quotes if it needs them."""
    return '"' + text.replace('"', '""') + '"' if re.search('[,"\r\n]', text) else text


def row_text(texts):
    return ",".join(map(field_text, texts)).encode() + b"\n"


def write_rows(cards, form):
    """The header and a row for each card, in the order of their UIDs."""
    rows = [HEADERS[form]]
    for card in sorted(cards, key=lambda it: it.uid.encode()):
        rows.append(columns_of(card) if form == "columns" else [card.uid, card.text.decode()])
    return b"".join(map(row_text, rows))
