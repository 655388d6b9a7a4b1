#!/usr/bin/env python3
"""Prints a made-up office as rows that `contacts import` takes: examples/sample-office.csv.

Usage: sample-office.py > sample-office.csv

It has 200 people, whose names are in twenty languages and fourteen scripts, and twelve groups: each
person is in one, and the last group has all others for its members. A few people have a photo. All
is made up from lists of frequent names: nobody's data are in it. The telephone numbers are of a
range that is kept for fiction, and the addresses are under example.test (RFC 2606). It needs Python
3.8 and nothing else, and always prints the same octets.
"""

import base64
import csv
import io
import struct
import sys
import uuid
import zlib

# Language, whether the family's name comes first and what is between the two, five given names and
# four names of families: ten people.
NAMES = """
ga   -  Aoife Ciarán Sadhbh Tadhg Órla | de_Búrca Breathnach de_Paor Caomhánach
pl   -  Łucja Zbigniew Żaneta Bożena Wacław | Wójcik Zając Dąbek Źrebiec
de   -  Jörg Änne Käthe Günther Björn | Müller Weiß Schäfer Köhler
tr   -  İpek Ömer Şule Çağrı Işıl | Yıldız Öztürk Güneş Şahin
vi   +  Ngọc_Ánh Đức Thảo Hữu_Phước Quỳnh | Nguyễn Trần Đặng Võ
el   -  Ελένη Γιώργος Ζωή Θανάσης Χριστίνα | Παππά Γεωργίου Ιωάννου Νικολάου
uk   -  Оксана Тарас Юлія Гнат Єва | Шевченко Бондаренко Ткаченко Щербак
sr   -  Љиљана Ђорђе Весна Жарко Чедомир | Петровић Јовановић Ђурић Џаковић
hy   -  Անահիտ Արամ Նարե Տիգրան Լուսինե | Պետրոսյան Հակոբյան Սարգսյան Գրիգորյան
ka   -  ნინო გიორგი თამარ დავით ქეთევან | ბერიძე კაპანაძე გელაშვილი მაისურაძე
he   -  נועה יוסף מיכל דוד שירה | כהן לוי מזרחי פרץ
ar   -  فاطمة يوسف ليلى عمر مريم | حداد منصور خوري نجار
fa   -  شیرین کامران پریسا گیتی بهرام | کریمی احمدی رضایی حسینی
hi   -  प्रिया राहुल अनीता विक्रम मीरा | शर्मा वर्मा गुप्ता जोशी
ta   -  கவிதா முருகன் மீனா அருண் லட்சுமி | ராமன் குமார் செல்வம் நடராஜன்
th   -  สมชาย มาลี อรุณ กนกวรรณ ชัยวัฒน์ | ใจดี แสงทอง วงศ์ไทย ศรีสุข
ko   ++ 민준 서연 지훈 하은 도윤 | 김 이 박 최
zh   ++ 伟 芳 秀英 建国 晓明 | 王 李 张 陈
ja   +  太郎 花子 健一 さくら 陽菜 | 山田 佐藤 鈴木 高橋
am   -  አበበ ሰላም ተስፋዬ ሃና ዮሐንስ | ከበደ ታደሰ ገብሬ ወልዴ
"""
GROUPS = ["Accounts", "Archive", "Canteen", "Design", "Front desk", "Law", "Library", "Research",
          "Sales", "Translation", "Workshop"]
ALL = "The whole office"
TITLES = ["Assistant", "Clerk", "Head of the group", "Engineer", "Adviser", "Trainee", "Editor"]
NOTES = {3: "In on Mondays, Tuesdays and Fridays; reads letters in three languages.",
         57: "Ring twice \\ then wait, please.\nThe bell of the second door is broken.",
         120: "📇 keeps the paper cards, too",
         171: "A long note, so that its line is folded: " + "ከ那αжש" * 12}
PHOTOS = {0, 31, 64, 97, 130, 163, 196}


def people():
    """Language, given name, name of the family, and the whole name, of each person."""
    for line in NAMES.strip().splitlines():
        language, order, rest = line.split(None, 2)
        given, family = (part.split() for part in rest.split("|"))
        for at in range(10):
            first, last = given[at % 5].replace("_", " "), family[at % 4].replace("_", " ")
            whole = {"-": f"{first} {last}", "+": f"{last} {first}", "++": f"{last}{first}"}[order]
            yield language, first, last, whole


def uid(name):
    return str(uuid.uuid5(uuid.NAMESPACE_DNS, f"{name}.sample-office.example.test"))


def text(value):
    """A text as a vCard has it (RFC 6350, section 3.4)."""
    for sign in "\\,;":
        value = value.replace(sign, "\\" + sign)
    return value.replace("\n", "\\n")


def chunk(kind, octets):
    return struct.pack(">I", len(octets)) + kind + octets + struct.pack(
        ">I", zlib.crc32(kind + octets))


def photo(number):
    """A symmetric pattern of 48 by 48 points in one colour, as PNG.

    Its data are stored and not compressed, so that each version of zlib makes the same octets.
    """
    rows = b""
    for row in range(8):
        bits = (number * 2654435761 >> row * 3) & 15 | 1 << row % 4
        half = [str(bits >> column & 1) * 6 for column in range(4)]
        line = int("".join(half + half[::-1]), 2).to_bytes(6, "big")
        rows += (b"\0" + line) * 6
    colour = bytes([number * 37 % 200, number * 91 % 200, number * 53 % 200])
    stored = struct.pack("<BHH", 1, len(rows), len(rows) ^ 0xFFFF) + rows
    data = b"\x78\x01" + stored + struct.pack(">I", zlib.adler32(rows))
    return (b"\x89PNG\r\n\x1a\n" + chunk(b"IHDR", struct.pack(">IIBBBBB", 48, 48, 1, 3, 0, 0, 0))
            + chunk(b"PLTE", b"\xff\xff\xff" + colour) + chunk(b"IDAT", data) + chunk(b"IEND", b""))


def person(number, language, given, family, whole):
    """The lines of a person's card."""
    group = GROUPS[number % len(GROUPS)]
    lines = [f"FN:{text(whole)}", f"N:{text(family)};{text(given)};;;",
             f"ORG:Sample Office;{group}", f"TITLE:{TITLES[number * 5 % len(TITLES)]}",
             f"LANG:{language}", f"EMAIL;TYPE=work:person-{number:03}@example.test",
             f"TEL;VALUE=uri;TYPE=work:tel:+353-20-911-{number:04}"]
    if number % 3 == 0:
        lines.append(f"TEL;VALUE=uri;TYPE=cell:tel:+353-20-912-{number:04}")
    if number % 4 == 0:
        lines.append(f"BDAY:{1955 + number % 45}{number % 12 + 1:02}{number % 28 + 1:02}")
    if number % 10 == 0:
        lines.append(f"ADR;TYPE=home:;;{number + 1} Sample Street;Exampleton;;;Ireland")
    if number in NOTES:
        lines.append(f"NOTE:{text(NOTES[number])}")
    if number in PHOTOS:
        image = base64.b64encode(photo(number)).decode()
        lines.append(f"PHOTO:data:image/png;base64,{image}")
    return lines


def folded(line):
    """The line in pieces of at most 75 octets, each of whole characters."""
    pieces, width = [""], 0
    for sign in line:
        size = len(sign.encode())
        if width + size > 75:
            pieces.append(" ")
            width = 1
        pieces[-1] += sign
        width += size
    return "\r\n".join(pieces)


def card(name, lines):
    whole = ["BEGIN:VCARD", "VERSION:4.0", f"UID:{uid(name)}", *lines, "END:VCARD"]
    return uid(name), "".join(folded(it) + "\r\n" for it in whole)


def rows():
    """The UID and the card of each person, and then of each group."""
    count = 0
    for number, one in enumerate(people()):
        yield card(f"person-{number}", person(number, *one))
        count += 1
    for at, group in enumerate(GROUPS):
        members = [f"MEMBER:urn:uuid:{uid(f'person-{number}')}"
                   for number in range(at, count, len(GROUPS))]
        yield card(group, ["KIND:group", f"FN:{group}", *members])
    groups = [f"MEMBER:urn:uuid:{uid(group)}" for group in GROUPS]
    yield card(ALL, ["KIND:group", f"FN:{ALL}", *groups])


def main():
    made = io.StringIO(newline="")
    writer = csv.writer(made, lineterminator="\n")
    writer.writerow(["uid", "vcard"])
    writer.writerows(rows())
    sys.stdout.buffer.write(made.getvalue().encode())


if __name__ == "__main__":
    main()
