"""Cards for the trial: an office's, hostile ones, and as many as a book may have."""

import base64
import struct
import zlib

from office import card

PEOPLE = """\
Amara|Okafor|Brightwater Marine|Harbour pilot|020 7946 0131|07700 900131|w
Beatrix|Lindqvist|Lindqvist & Daughters|Bookbinder|01632 960012||w
Cai|Morgan|Morgan Roofing|Foreman|029 2018 0144|07700 900144|w
Dalia|Haddad|Cedar Street Clinic|Physiotherapist|0117 496 0155|07700 900155|w
Edmund|Fairweather|Fairweather Coaches|Dispatcher|01632 960163||w
Farida|Rahimi|Rahimi Carpets|Owner|0161 496 0170|07700 900170|w
Gwen|Ashdown|Ashdown Orchard|Sales|01632 960184|07700 900184|w
Hugo|Petit|Petit & Vale Solicitors|Partner|020 7946 0192|07700 900192|w
Ines|Carvalho|Tagus Imports|Buyer|0131 496 0201|07700 900201|w
Jonas|Weber|Weber Scales|Calibration|0113 496 0213||w
Kerstin|Ångström|Nordljus|Lighting designer|+46 8 465 004 42|+46 70 174 06 05|w
Liam|O’Hara|Quay Electric|Electrician|028 9018 0228|07700 900228|w
Miriam|O’Hara|Harbour & Vale|Head of accounts|020 7946 0236|07700 900236|w
Nadia|Kowalska|Kowalska Interiors|Designer|0121 496 0243|07700 900243|w
Oskar|Nowak|Nowak Joinery|Cabinetmaker|01632 960255||w
Priya|Raman|Raman & Co|Auditor|0191 498 0262|07700 900262|w
Quentin|Marsh|Marsh Glass|Glazier|01632 960271||w
Rosa|Delgado|Delgado Catering|Chef|0151 496 0283|07700 900283|w
Samir|Aziz|Aziz Couriers|Dispatcher|0116 496 0290|07700 900290|w
Tamsin|Pell|Pell Print|Studio manager|01632 960303|07700 900303|w
Ulrike|Brandt|Brandt Orgelbau|Organ builder|+49 30 23125 014||w
Viktor|Sokolov|Sokolov Piano Service|Tuner|020 7946 0317|07700 900317|w
Wanjiru|Kamau|Savanna Travel|Agent|0118 496 0322|07700 900322|w
Xanthe|Papadaki|Papadaki Ceramics|Potter|01632 960338||w
Yusuf|Demir|Demir Optics|Optician|0114 496 0341|07700 900341|w
Zoë|Angelopoulou|Cooperative North Light|Translator|+30 21 0000 0042||w
"""

COLOURS = [(13, 92, 99), (217, 154, 43), (240, 236, 226)]


def png(side=96):
    """A small picture, made here: a disc before a ground."""
    lines = []
    for y in range(side):
        line = b"\0"
        for x in range(side):
            face = (x - side / 2) ** 2 + (y - side * 0.42) ** 2 < (side * 0.2) ** 2
            body = (x - side / 2) ** 2 + (y - side * 1.02) ** 2 < (side * 0.36) ** 2
            line += bytes(COLOURS[2] if face else COLOURS[1] if body else COLOURS[0])
        lines.append(line)

    def chunk(kind, data):
        sum_ = zlib.crc32(kind + data)
        return struct.pack("!I", len(data)) + kind + data + struct.pack("!I", sum_)

    head = struct.pack("!IIBBBBB", side, side, 8, 2, 0, 0, 0)
    data = zlib.compress(b"".join(lines), 9)
    return b"\x89PNG\r\n\x1a\n" + chunk(b"IHDR", head) + chunk(b"IDAT", data) + chunk(b"IEND", b"")


PHOTO = "PHOTO:data:image/png;base64," + base64.b64encode(png()).decode()


def office_cards():
    """The clients of a small office."""
    cards = []
    for number, line in enumerate(PEOPLE.splitlines()):
        given, family, org, title, phone, mobile, _ = line.split("|")
        mail = f"{given}.{family}".lower().replace("’", "").encode("ascii", "ignore").decode()
        lines = [
            f"FN:{given} {family}", f"N:{family};{given};;;", f"ORG:{org}", f"TITLE:{title}",
            f"TEL;TYPE=work:{phone}",
        ]
        if mobile:
            lines.append(f"TEL;TYPE=cell:{mobile}")
        lines.append(f"EMAIL;TYPE=work:{mail}@example.test")
        if family == "O’Hara" and given == "Miriam":
            lines += [
                "ADR;TYPE=work:;;12 Harbour Lane;Exampletown;;EX1 2MP;United Kingdom",
                "URL:https://harbour-vale.example/", "BDAY:--0412",
                "NOTE:Prefers mail\\; calls only after ten.\\nInvoices go to Amara first.",
                "CATEGORIES:Suppliers,Finance", PHOTO, "X-ACCOUNT-NO:4711",
            ]
        cards.append(card(f"c{number:02}", *lines))
    members = [f"MEMBER:c{number:02}" for number in (0, 7, 12, 15)]
    cards.append(card("g1", "KIND:group", "FN:Accounts and law", *members, "MEMBER:nobody"))
    cards.append(card("g2", "KIND:group", "FN:Everybody to invite", "MEMBER:g1", "MEMBER:c17"))
    return cards


def many_cards(count=10000):
    """Cards of some 350 octets with names that differ."""
    first = ["Ada", "Björn", "Chloé", "Dmitri", "Elif", "Finn", "Grace", "Hana", "Ivo", "Jun"]
    last = ["Abel", "Brook", "Castle", "Dunn", "Ellis", "Frost", "Gale", "Hart", "Ives", "Jarvis"]
    for number in range(count):
        given = first[number % 10] + ("" if number < 5000 else "-Lu")
        family = f"{last[number // 10 % 10]}{'aeiou'[number % 5]}{number // 100}"
        yield card(
            f"urn:uuid:00000000-0000-4000-8000-{number:012}",
            f"FN:{given} {family}", f"N:{family};{given};;;", f"ORG:Company {number % 311}",
            f"TITLE:Position {number % 17}", f"TEL;TYPE=work:+44 20 7946 {number:06}",
            f"EMAIL;TYPE=work:{number}@company{number % 311}.example.test",
            "NOTE:A note of some length\\, as cards of an office have one or two of them.",
        )


MARK = "<img src=x onerror=alert(1)><script>alert(2)</script>"
EVIL = "https://evil.example"


def hostile_cards():
    """Cards that try to be markup, to run, to be loaded, to be confused with others."""
    long = "x" * 60000
    cards = {
        "h-markup": [f"FN:Hostile {MARK}", f"NOTE:{MARK}</textarea></pre>{MARK}", f"ORG:{MARK}",
                     f"TITLE:{MARK}", f"CATEGORIES:{MARK}", f"NICKNAME:{MARK}",
                     f"X-EVIL:{MARK}", f"ROLE:{MARK}", f"TZ:{MARK}"],
        "h-links": ["FN:Hostile links", "URL:javascript:alert(3)", "URL:JaVaScRiPt:alert(4)",
                    "URL:java\tscript:alert(5)", "URL:data:text/html,<script>alert(6)</script>",
                    "URL:vbscript:alert(7)", "TEL:javascript:alert(8)", "IMPP:javascript:alert(9)",
                    "TEL;VALUE=uri:javascript:alert(10)", "EMAIL:javascript:alert(11)@x",
                    'EMAIL:a@b.example"><b>', "RELATED:javascript:alert(12)",
                    "TEL:tel:+1%0d%0aX", "URL:https://ok.example/?a=<b>"],
        "h-photo-svg": ["FN:Hostile photo svg", "PHOTO:data:image/svg+xml;base64,"
                        + base64.b64encode(b"<svg xmlns='http://www.w3.org/2000/svg'"
                                           b" onload='alert(13)'/>").decode()],
        "h-photo-far": ["FN:Hostile photo far", f"PHOTO:{EVIL}/track.png"],
        "h-photo-js": ["FN:Hostile photo js", "PHOTO:javascript:alert(14)"],
        "h-photo-bad": ["FN:Hostile photo bad", "PHOTO:data:image/png;base64,AAAA"],
        "h-label": ["FN:Hostile label", f"item1.TEL:+44 20 7946 0999", f"item1.X-ABLabel:{MARK}",
                    'ADR;LABEL="<b>x</b>\\n<script>":;;<i>street</i>;;;;'],
        "h-bidi": ["FN:Hostile \u202egnp.exe\u2066 bidi", "ORG:\u202e\u202e\u202eorg",
                   "NOTE:\u202eright to left without an end"],
        "h-zalgo": ["FN:Hostile " + "Z\u0300\u0301\u0302\u0303\u0304\u0305" * 200],
        "h-long": [f"FN:Hostile {long}", f"NOTE:{long}", f"TEL:{'1' * 5000}", f"X-L:{long}"],
        "h-proto": ["FN:Hostile __proto__", "__PROTO__:x".replace("_", "-"), "NOTE:__proto__"],
        "__proto__": ["FN:Hostile uid proto"],
        "constructor": ["FN:Hostile uid constructor"],
        "a/b?c=d&e#f%2F%2e%2e": ["FN:Hostile uid path"],
        "../../../../../etc": ["FN:Hostile uid steps"],
        "..": ["FN:Hostile uid dots"],
        "'\"><b>": ["FN:Hostile uid quotes"],
        "\u202eüñí 😀": ["FN:Hostile uid signs"],
        "h-kind": ["KIND:<b>weird</b>", "FN:Hostile kind"],
        "h-group": ["KIND:group", "FN:Hostile group", "MEMBER:h-group",
                    f"MEMBER:{MARK}", "MEMBER:javascript:alert(15)",
                    *(f"MEMBER:m{number}" for number in range(2000))],
        "h-template": ["FN:Hostile ${alert(16)} {{alert(17)}} {name}", "NOTE:{book}"],
        "h-dates": ["FN:Hostile dates", "BDAY:99999999", "BDAY;VALUE=text:<b>spring</b>",
                    "ANNIVERSARY:--1399"],
        "h-many": ["FN:Hostile many", *(f"TEL:+44 20 7946 {n:04}" for n in range(1500))],
    }
    return {uid: card(uid, *lines) for uid, lines in cards.items()}
