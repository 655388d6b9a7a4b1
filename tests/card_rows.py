"""Texts, and the card that each one spells or the cause for which it is refused.

All that is expected here was written by hand, from RFC 6350 (sections 3.2 to 3.4 and 6.1) and the
profile that docs/API.md describes: lines end in LF or CRLF and may be folded by a space or a tab;
a card is written with CRLF, with property names in upper case, and folded at 75 octets.

The causes: 1 too long, 2 not UTF-8, 3 a control character, 4 no line of a card, 5 no BEGIN,
6 no VERSION:4.0 after it, 7 no END, 8 no FN, 9 no UID, 10 a UID that isn't 1 to 255 octets or has
a tab, 11 a second UID or KIND, 12 a MEMBER in a card that is no group.
"""

BEGIN = "BEGIN:VCARD\r\nVERSION:4.0\r\n"
HEAD = BEGIN + "UID:a\r\nFN:Ann\r\n"
END = "END:VCARD\r\n"
ANN = HEAD + END
LF_ANN = ANN.replace("\r", "")
MOST = 262_144  # the most octets that a text may have, as it is read and as it is written


def fold(line):
    """The line of ASCII characters as it is written: 75 octets, and then 74 after each space."""
    pieces = [line[:75]] + [line[at:at + 74] for at in range(75, len(line), 74)]
    return "\r\n ".join(pieces)


# 3,403 lines of 77 octets each. With a card of 52 octets, 61 octets are left up to the limit.
NOTES = 3_403 * ("NOTE:" + 70 * "x" + "\r\n")
LONG_NOTES = NOTES + "NOTE:" + 54 * "x"
# Written with 3,403 folds, this note has as many octets as the limit leaves to it.
LONG_NOTE = "NOTE:" + 251_876 * "x"
MANY_PARAMETERS = "X-MANY" + 8_000 * ';P=a,"b"' + ":v"
GERMAN = 'item1.NOTE;LANGUAGE=de;TYPE="a,b":Straße, Platz und Allee, und noch viel m'

# Lines before the END of Ann's card that are written as they are read: what is shown, the lines.
KEPT = [
    ("no line", ""),
    ("a group and parameters", "item1.EMAIL;TYPE=work;PREF=1:ann@example.test"),
    ("a value in quotes", 'TEL;VALUE=uri;TYPE="voice,home":tel:+1-555-555-5555;ext=5555'),
    ("two such lines", 'item1.EMAIL;TYPE=work;PREF=1:a@b\r\nTEL;VALUE=uri;TYPE="voice,home":tel:1'),
    ("quotes keep a semicolon, a colon and a comma", 'X;P=";:,":v'),
    ("a plain value may be empty", "X;P=:v"),
    ("a plain value may be empty, in a group", "g.TEL;TYPE=:1"),
    ("a plain value in a group", "g.TEL;TYPE=a:1"),
    ("a comma outside quotes separates", 'X;P=a,,"b",c:v'),
    ("a comma at the end of the values", 'X;P="a",:v'),
    ("quotes may be empty", 'X;P="":v'),
    ("two parameters, one with quotes", 'g.TEL;TYPE=a,"b";PREF=1:1'),
    ("a parameter twice", "X;P=a;P=b:v"),
    ("a parameter's name keeps its case", "X;Type=Home:v"),
    ("a parameter's name of digits and hyphens", "X;1-=a:v"),
    ("an equals sign in a plain value", "X;P=a=b:v"),
    ("spaces and single quotes in a plain value", "X;P='a b':v"),
    ("a dot and a backslash in a plain value", "X;P=a.b\\n^n:v"),
    ("a character outside ASCII in a plain value", "X;P=é:v"),
    ("a tab in a plain value", "X;P=a\tb:v"),
    ("a tab in quotes", 'X;P="a\tb":v'),
    ("the value is the rest of the line", 'X:a;b,c:"d"=e.f'),
    ("a value may be empty", "X:"),
    ("a value may be empty after a parameter", "X;P=a:"),
    ("a value of one digit", "TEL:1"),
    ("a tab in a value", "X:a\tb"),
    ("a value that begins with a space", "X: a"),
    ("a value of spaces", "X:   "),
    ("escapes are kept", "NOTE:a\\,b\\;c\\nd\\\\e\\"),
    ("names and groups of digits and hyphens", "1-2.X-Y-3:v"),
    ("a name of one hyphen", "-.-;-=-:-"),
    ("a second name", "FN:Anna"),
    ("a name in a group", "g.FN:Anna"),
    ("a kind: individual", "KIND:individual"),
    ("a kind: org", "KIND:org"),
    ("a kind: location, in upper case", "KIND:LOCATION"),
    ("a kind of another value", "KIND:robot"),
    ("an empty kind", "KIND:"),
    ("a kind with a group and a parameter", "g.KIND;X=1:org"),
    ("a group without a member", "KIND:Group"),
    ("members of a group", "KIND:group\r\nMEMBER:b\r\nNOTE:c\r\nMEMBER:urn:uuid:d\\,\r\nMEMBER:b"),
    ("a member before the kind", "MEMBER:b\r\nKIND:group"),
    ("a member with a group and a parameter", "KIND:GROUP\r\ng.MEMBER;X=1:b"),
    ("controls above the delete character", "NOTE:\u0080\u0085\u009f"),
    ("a byte order mark in a value", "NOTE:\ufeffa"),
    ("the separators of lines and paragraphs", "NOTE:a\u2028b\u2029c"),
    ("characters of two, three and four octets", "NOTE:é漢😀"),
    ("a character that has no name", "NOTE:\U0010ffff\ufffe"),
    ("a line of 75 octets", "FN:" + 72 * "x"),
    ("four octets that end at 75", "NOTE:" + 66 * "x" + "😀"),
    ("a text of the most octets", LONG_NOTES),
]

# Lines before the END of Ann's card that are written otherwise: what is shown, the lines, and the
# lines that are written.
WRITTEN = [
    ("a property's name in any case", "x-Note:v", "X-NOTE:v"),
    ("a group keeps its case", "Item1.email:v", "Item1.EMAIL:v"),
    ("a name after a group",
     'item1.Tel;TYPE=a,"b;";PREF=1:+1;2', 'item1.TEL;TYPE=a,"b;";PREF=1:+1;2'),
    ("a name before a parameter", 'g.Tel;x=1,"2":3', 'g.TEL;x=1,"2":3'),
    ("a kind and a member", "kind:GROUP\r\nmember:b", "KIND:GROUP\r\nMEMBER:b"),
    ("a fold by a space", "NOTE:ab\r\n cd", "NOTE:abcd"),
    ("a fold by a tab", "NOTE:ab\r\n\tcd", "NOTE:abcd"),
    ("a fold after LF", "NOTE:ab\n cd", "NOTE:abcd"),
    ("a continuation of one space", "NOTE:ab\r\n \r\n cd", "NOTE:abcd"),
    ("continuations of spaces", "NOTE:a\r\n \r\n  \r\n b", "NOTE:a b"),
    ("one character of a fold is dropped", "NOTE:ab\r\n  cd", "NOTE:ab cd"),
    ("a tab after the space of a fold", "NOTE:ab\r\n \tcd", "NOTE:ab\tcd"),
    ("a fold in a name", "NO\r\n TE:ab", "NOTE:ab"),
    ("a fold in a group", "it\r\n em.NOTE:ab", "item.NOTE:ab"),
    ("a fold before a colon", "NOTE\r\n :ab", "NOTE:ab"),
    ("a fold in quotes", 'X;P="a\r\n b":v', 'X;P="ab":v'),
    ("a fold after each octet", "\r\n ".join("NOTE:abcd"), "NOTE:abcd"),
    ("empty lines are left out", "\r\n\n\r\nNOTE:ab\r\n", "NOTE:ab"),
    ("an empty line that is continued", "\r\n X:v", "X:v"),
    ("a line of 76 octets", "FN:" + 73 * "x", "FN:" + 72 * "x" + "\r\n x"),
    ("a line of 75 and 74 octets", "FN:" + 146 * "x", "FN:" + 72 * "x" + "\r\n " + 74 * "x"),
    ("one octet more", "FN:" + 147 * "x", "FN:" + 72 * "x" + "\r\n " + 74 * "x" + "\r\n x"),
    ("two octets stay together", "FN:" + 71 * "x" + "éy", "FN:" + 71 * "x" + "\r\n éy"),
    ("three octets stay together", "FN:" + 70 * "x" + "漢", "FN:" + 70 * "x" + "\r\n 漢"),
    ("four octets stay together", "FN:" + 69 * "x" + "😀", "FN:" + 69 * "x" + "\r\n 😀"),
    (
        "octets stay together in a continuation",
        "FN:" + 72 * "x" + 73 * "y" + "é",
        "FN:" + 72 * "x" + "\r\n " + 73 * "y" + "\r\n é",
    ),
    ("a space after a fold", "FN:" + 72 * "x" + " y", "FN:" + 72 * "x" + "\r\n  y"),
    ("a long line", GERMAN + "ehr Worte bis zum Ende", GERMAN + "\r\n ehr Worte bis zum Ende"),
    ("many parameters", MANY_PARAMETERS, fold(MANY_PARAMETERS)),
    ("a line that fills the most octets", LONG_NOTE, fold(LONG_NOTE)),
]

# Lines before the END of Ann's card for which it is refused: what is shown, the lines, the cause.
REFUSED = [
    ("a quote inside a plain value", 'X;P=a"b:v', 4),
    ("a quote that isn't closed", 'X;P="a:v', 4),
    ("text after a closing quote", 'X;P="a"b:v', 4),
    ("a parameter without an equals sign", "TEL;HOME:1", 4),
    ("a parameter without an equals sign, in upper case", "TEL;TYPE:1", 4),
    ("a parameter without a name", "X;=a:v", 4),
    ("a semicolon without a parameter", "X;:v", 4),
    ("a semicolon after a parameter", "X;P=a;:v", 4),
    ("a parameter's name with a tab", "X;P\t=a:v", 4),
    ("a line without a colon", "X", 4),
    ("a line without a colon, in upper case", "TEL", 4),
    ("a line without a name", ":v", 4),
    ("a line that is a value alone", ":1", 4),
    ("a parameter without a property", ";X=a:v", 4),
    ("a group without a name", "g.:v", 4),
    ("a group without a name, with a parameter", "g.;P=a:v", 4),
    ("a dot without a group", ".TEL:1", 4),
    ("two groups", "g.h.X:v", 4),
    ("a name that isn't ASCII", "é:v", 4),
    ("a name with a space", "NO TE:v", 4),
    ("a name with a tab", "NO\tTE:v", 4),
    ("a name with an underscore", "X_Y:v", 4),
    ("a byte order mark before a name", "\ufeffX:v", 4),
    ("a space before the colon", "X :v", 4),
    ("the null character", "X:\0", 3),
    ("a control character", "X:\x01", 3),
    ("a control character in a name", "T\x01L", 3),
    ("the escape character in quotes", 'X;P="\x1b":v', 3),
    ("a vertical tab", "X:\x0b", 3),
    ("a form feed", "X:\x0c", 3),
    ("the last character below the space", "X:\x1f", 3),
    ("the delete character", "X:\x7f", 3),
    ("the delete character in a value", "TEL:\x7f", 3),
    ("a CR before CRLF", "X:a\r", 3),
    ("a CR inside a line", "X:a\rb", 3),
    ("a CR before a fold", "X:a\r\r\n b", 3),
    ("a bad character in a line that is none", "\x01", 3),
    ("a bad character in a second UID", "UID:\x01", 3),
    ("a second BEGIN", "BEGIN:VCARD", 4),
    ("a second BEGIN with a group", "g.BEGIN:VCARD", 4),
    ("a BEGIN of something else", "BEGIN:VEVENT", 4),
    ("text after END", "END:VCARD\r\nX:v", 4),
    ("another card after END", "END:VCARD\r\n" + HEAD, 4),
    ("a bad character after END", "END:VCARD\r\n\x01", 3),
    ("END with a parameter", "END;P=a:VCARD", 4),
    ("END with a group", "g.END:VCARD", 4),
    ("END of something else", "END:VCALENDAR", 4),
    ("END that is continued", "END:VCARD\r\n x", 4),
    ("VERSION twice", "VERSION:4.0", 6),
    ("another VERSION later", "VERSION:3.0", 6),
    ("a VERSION in a group", "g.VERSION:4.0", 6),
    ("a VERSION that is no line", "VERSION;:4.0", 4),
    ("UID twice", "UID:b", 11),
    ("the same UID twice", "UID:a", 11),
    ("UID twice, with a group and a parameter", "g.uid;P=1:b", 11),
    ("a second UID that is empty", "UID:", 10),
    ("a second UID with a tab", "UID:a\tb", 10),
    ("a second UID of 256 octets", "UID:" + 256 * "u", 10),
    ("the first line with a fault counts", "UID:b\r\nX:\x01", 11),
    ("the first line with a fault counts, of two", "X\r\nX:\x01", 4),
    ("KIND twice", "KIND:group\r\nKIND:group", 11),
    ("KIND twice, with a group and a parameter", "KIND:org\r\ng.kind;P=1:group", 11),
    ("a member without a kind", "MEMBER:b", 12),
    ("a member of an individual", "KIND:individual\r\nMEMBER:b", 12),
    ("a member of an organization", "MEMBER:b\r\nKIND:org", 12),
    ("a member of a kind that begins with a space", "KIND: group\r\nMEMBER:b", 12),
    ("a line's fault counts before a member's", "MEMBER:b\r\nX", 4),
    ("one octet more than the most", LONG_NOTES + "x", 1),
    ("one octet more than the most as it is written", LONG_NOTE + "x", 1),
]

# Whole texts: what is shown, the text, the card's UID, and the card as it is written.
READ = [
    ("LF, a fold and a small name",
     "BEGIN:VCARD\nVERSION:4.0\nUID:a\nfn:An\n n\nEND:VCARD\n", "a", ANN),
    ("no end of the last line", ANN[:-2], "a", ANN),
    ("LF alone", LF_ANN, "a", ANN),
    ("LF alone, and no end of the last line", LF_ANN[:-1], "a", ANN),
    ("both line ends", "BEGIN:VCARD\r\nVERSION:4.0\nUID:a\r\nFN:Ann\nEND:VCARD\r\n", "a", ANN),
    ("a byte order mark", "\ufeff" + ANN, "a", ANN),
    ("an empty first line and a fold", "\n " + ANN, "a", ANN),
    ("empty lines around", "\n\r\n" + ANN + "\r\n\n", "a", ANN),
    ("a fold inside BEGIN", "BEG\r\n IN:VC\n\tARD" + ANN[11:], "a", ANN),
    ("a fold inside END", HEAD + "END:VC\r\n ARD", "a", ANN),
    ("END that is continued by nothing", ANN + " \r\n", "a", ANN),
    ("names in any case", "begin:vCard\nVersion:4.0\nuid:a\nFn:Ann\neNd:vcaRD\n", "a", ANN),
    ("parameters of VERSION aren't kept", ANN.replace("VERSION:", 'VERSION;P="a;:",b:'), "a", ANN),
    ("LF, and the most octets as it is written",
     (HEAD + LONG_NOTES).replace("\r", "") + "\nEND:VCARD\n", "a",
     HEAD + LONG_NOTES + "\r\n" + END),
    ("LF, and a byte order mark", "\ufeff" + LF_ANN, "a", ANN),
    ("LF, an empty first line and a fold", "\n " + LF_ANN, "a", ANN),
    ("LF, and a fold inside BEGIN", "BEG\r\n IN:VC\n\tARD" + LF_ANN[11:], "a", ANN),
    ("LF, and a parameter of VERSION", LF_ANN.replace("VERSION:", "VERSION;P=a:"), "a", ANN),
    ("a byte order mark, and the most octets with it",
     "\ufeff" + HEAD + LONG_NOTES[:-3] + "\r\n" + END, "a", HEAD + LONG_NOTES[:-3] + "\r\n" + END),
]

# The lines of a card after VERSION, which are written as they are read, and its UID.
WITH_UID = [
    ("a UID of one octet", "FN:Ann\r\nUID:u", "u"),
    ("a UID of 75 octets with its name", "FN:Ann\r\nUID:" + 71 * "u", 71 * "u"),
    ("a UID in a group", "item1.UID:a\r\nFN:Ann", "a"),
    ("a UID with a parameter", "UID;VALUE=text:a\r\nFN:Ann", "a"),
    ("a UID with spaces", "UID: a b \r\nFN:Ann", " a b "),
    ("a UID isn't unescaped", "UID:a\\,b\\n\r\nFN:Ann", "a\\,b\\n"),
    ("a UID with a slash and a percent sign", "UID:a/b%2F\r\nFN:Ann", "a/b%2F"),
    ("a UID of other letters", "UID:é漢😀\r\nFN:Ann", "é漢😀"),
    ("an empty name", "UID:a\r\nFN:", "a"),
    ("a name in a group alone", "UID:a\r\ng.FN:Ann", "a"),
]

# The same, where the lines are folded as they are written: the lines, the UID, what is written.
WITH_LONG_UID = [
    ("a UID of 255 octets", "FN:Ann\r\nUID:" + 255 * "u", 255 * "u",
     "FN:Ann\r\nUID:" + 71 * "u" + 2 * ("\r\n " + 74 * "u") + "\r\n " + 36 * "u"),
    ("a UID of 255 octets in 128 characters", "FN:Ann\r\nUID:" + 127 * "é" + "u", 127 * "é" + "u",
     "FN:Ann\r\nUID:" + 35 * "é" + 2 * ("\r\n " + 37 * "é") + "\r\n " + 18 * "é" + "u"),
]


def octets(text):
    """The octets of a text, in which a surrogate U+DC80 to U+DCFF is an octet from 128 on."""
    return text.encode("utf-8", "surrogateescape")


# Whole texts that are refused: what is shown, the text or its octets, the cause.
NO_CARDS = [
    ("the empty text", "", 5),
    ("empty lines alone", "\n\r\n", 5),
    ("a byte order mark alone", "\ufeff", 5),
    ("BEGIN alone, without a line end", "BEGIN:VCARD", 6),
    ("a letter", "Dear Ann,\n", 4),
    ("VERSION first", "VERSION:4.0\n", 5),
    ("another property first", "FN:Ann\n", 5),
    ("END first", "END:VCARD\n", 5),
    ("a wrong END first", "END:X\n", 4),
    ("BEGIN with a group", "g." + ANN, 5),
    ("BEGIN with a parameter", "BEGIN;P=a:VCARD\n", 5),
    ("BEGIN of a calendar", "BEGIN:VCALENDAR\n", 5),
    ("BEGIN with a space after it", "BEGIN:VCARD \r\n" + ANN[13:], 5),
    ("two byte order marks", "\ufeff\ufeff" + ANN, 4),
    ("a first line that begins with a space", " " + ANN, 4),
    ("a first line that begins with a tab", "\t" + ANN, 4),
    ("version 3.0", ANN.replace("4.0", "3.0"), 6),
    ("version 2.1", ANN.replace("4.0", "2.1"), 6),
    ("a version with a space after it", ANN.replace("4.0", "4.0 "), 6),
    ("VERSION with a group", ANN.replace("VERSION", "g.VERSION"), 6),
    ("VERSION third", "BEGIN:VCARD\r\nUID:a\r\nVERSION:4.0\r\nFN:Ann\r\n" + END, 6),
    ("a second line that is none", ANN.replace("VERSION:", "VERSION "), 4),
    ("BEGIN again in line two", "BEGIN:VCARD\r\n" + ANN, 4),
    ("END in line two", "BEGIN:VCARD\r\nEND:VCARD\r\n", 6),
    ("a wrong END in line two", "BEGIN:VCARD\r\nEND:X\r\n", 4),
    ("no END", HEAD, 7),
    ("no END comes before no FN", BEGIN, 7),
    ("no FN", BEGIN + "UID:a\r\n" + END, 8),
    ("no FN comes before no UID", BEGIN + END, 8),
    ("no FN comes before a member", BEGIN + "UID:a\r\nMEMBER:b\r\n" + END, 8),
    ("no UID", BEGIN + "FN:Ann\r\n" + END, 9),
    ("no UID comes before a member", BEGIN + "FN:Ann\r\nMEMBER:b\r\n" + END, 9),
    ("a second UID comes before no FN", BEGIN + "UID:a\r\nUID:b\r\n" + END, 11),
    ("a second UID comes before no END", HEAD + "UID:b\r\n", 11),
    ("an empty UID", BEGIN + "FN:Ann\r\nUID:\r\n" + END, 10),
    ("a UID with a tab", BEGIN + "UID:a\tb\r\nFN:Ann\r\n" + END, 10),
    ("a UID of 256 octets", BEGIN + "FN:Ann\r\nUID:" + 256 * "u" + "\r\n" + END, 10),
    ("a UID of 256 octets in 128 characters",
     BEGIN + "FN:Ann\r\nUID:" + 128 * "é" + "\r\n" + END, 10),
    ("CR for line ends", ANN.replace("\n", ""), 3),
    ("a CR at the end", ANN[:-1], 3),
    ("two cards", ANN + ANN, 4),
    ("an octet that no text has", "BEGIN:VCARD\n\udcff", 2),
    ("such an octet in a name", ANN.replace("Ann", "\udcff"), 2),
    ("such an octet after a control character", "\x01\udcff", 2),
    ("an octet that continues nothing", ANN + "\udc80", 2),
    ("a character that is cut off", "\udcc3", 2),
    ("a character that is cut off after a card", ANN + "\udcf0\udc9f\udc98", 2),
    ("a character that is folded inside", HEAD + "NOTE:\udcc3\r\n \udca9\r\n" + END, 2),
    ("a slash in two octets", HEAD + "NOTE:\udcc0\udcaf\r\n" + END, 2),
    ("half of a pair", HEAD + "NOTE:\udced\udca0\udc80\r\n" + END, 2),
    ("a number above all characters", HEAD + "NOTE:\udcf4\udc90\udc80\udc80\r\n" + END, 2),
    ("UTF-16", ANN.encode("utf-16"), 2),
    ("too long comes before not UTF-8", (MOST + 1) * "\udcff", 1),
    ("the most octets, and not UTF-8", MOST * "\udcff", 2),
    ("the most octets, and one more as it is written",
     (HEAD + LONG_NOTES).replace("\r", "") + "x\nEND:VCARD\n", 1),
    ("the most octets, with a line that is folded",
     HEAD + "NOTE:" + 262_085 * "x" + "\r\n" + END, 1),
    ("an empty line more than the most, with a byte order mark",
     "\ufeff" + HEAD + LONG_NOTES[:-3] + "\r\n" + END + "\n", 1),
]

# The same, where each line ends in LF.
NO_CARDS_IN_LF = [
    ("BEGIN with a group", "g.BEGIN:VCARD\n", 5),
    ("two byte order marks", "\ufeff\ufeff" + LF_ANN, 4),
    ("a first line that begins with a space", " " + LF_ANN, 4),
    ("version 3.0", LF_ANN.replace("4.0", "3.0"), 6),
    ("VERSION with a group", LF_ANN.replace("VERSION", "g.VERSION"), 6),
    ("VERSION third", "BEGIN:VCARD\nUID:a\nVERSION:4.0\nFN:Ann\nEND:VCARD\n", 6),
    ("BEGIN again in line two", "BEGIN:VCARD\nBEGIN:VCARD\n", 4),
    ("no END", LF_ANN[:-len("END:VCARD\n")], 7),
    ("no END comes before no FN", "BEGIN:VCARD\nVERSION:4.0\n", 7),
    ("no UID", LF_ANN.replace("UID:a\n", ""), 9),
    ("no FN", LF_ANN.replace("FN:Ann\n", ""), 8),
    ("no FN comes before no UID", "BEGIN:VCARD\nVERSION:4.0\nEND:VCARD\n", 8),
    ("a second UID comes before no FN", LF_ANN.replace("FN:Ann", "UID:b"), 11),
    ("a UID with a tab", LF_ANN.replace("UID:a", "UID:a\tb"), 10),
]


def accepted():
    """Each accepted text: what is shown, its octets, the card's UID, and the card's octets."""
    for name, lines in KEPT:
        text = octets(HEAD + lines + "\r\n" + END) if lines else octets(ANN)
        yield name, text, "a", text
    for name, lines, written in WRITTEN:
        yield name, octets(HEAD + lines + "\r\n" + END), "a", octets(HEAD + written + "\r\n" + END)
    for name, text, uid, written in READ:
        yield name, octets(text), uid, octets(written)
    for name, lines, uid in WITH_UID:
        text = octets(BEGIN + lines + "\r\n" + END)
        yield name, text, uid, text
    for name, lines, uid, written in WITH_LONG_UID:
        text, card = (octets(BEGIN + it + "\r\n" + END) for it in (lines, written))
        yield name, text, uid, card


def refused():
    """Each refused text: what is shown, its octets, and the cause."""
    for name, lines, cause in REFUSED:
        yield name, octets(HEAD + lines + "\r\n" + END), cause
    for name, text, cause in NO_CARDS:
        yield name, text if isinstance(text, bytes) else octets(text), cause
    for name, text, cause in NO_CARDS_IN_LF:
        yield f"{name}, in LF", octets(text), cause
