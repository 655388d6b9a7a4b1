"""Groups, and whom each of them reaches: the people, and the values that name no card.

A shape is the cards of a book, separated by semicolons; a card is its UID, its kind and the values
of its members, separated by spaces. A value names the card of that UID, or else the card whose UID
it is after `urn:uuid:`, in any case, was taken off once (docs/API.md). What is expected was worked
out by hand from that; both lists are in the order of their octets.
"""

NO_CARD, NO_GROUP = "no card", "no group"

# A title, a shape, and for a UID its people and what is missing; or why it has neither.
PEOPLE = [
    (
        "a cycle of groups",
        "g group g2 urn:uuid:x nobody;g2 group g y;x individual;y individual",
        {
            "g": (["x", "y"], ["nobody"]),
            "g2": (["x", "y"], ["nobody"]),
        },
    ),
    (
        "no member",
        "g group;x individual",
        {
            "g": ([], []),
        },
    ),
    (
        "urn:uuid: in any case",
        "g group URN:UUID:x uRn:UuId:y;x individual;y individual",
        {
            "g": (["x", "y"], []),
        },
    ),
    (
        "a card may have the whole value as its UID",
        "g group urn:uuid:x;x individual;urn:uuid:x individual",
        {
            "g": (["urn:uuid:x"], []),
        },
    ),
    (
        "only one urn:uuid: is removed",
        "g group urn:uuid:urn:uuid:x;x individual",
        {
            "g": ([], ["urn:uuid:urn:uuid:x"]),
        },
    ),
    (
        "two of them name the UID that has one",
        "g group urn:uuid:urn:uuid:x;urn:uuid:x individual",
        {
            "g": (["urn:uuid:x"], []),
        },
    ),
    (
        "another urn",
        "g group urn:oid:x;x individual",
        {
            "g": ([], ["urn:oid:x"]),
        },
    ),
    (
        "a value repeated",
        "g group x x urn:uuid:x;x individual",
        {
            "g": (["x"], []),
        },
    ),
    (
        "a group that is its own member",
        "g group g x urn:uuid:g;x individual",
        {
            "g": (["x"], []),
        },
    ),
    (
        "a diamond of groups",
        "g group a b;a group c;b group c x;c group y;x individual;y individual",
        {
            "g": (["x", "y"], []),
            "a": (["y"], []),
            "b": (["x", "y"], []),
            "c": (["y"], []),
        },
    ),
    (
        "a group with the prefix urn:uuid:",
        "g group urn:uuid:h;h Group x;x individual",
        {
            "g": (["x"], []),
            "h": (["x"], []),
        },
    ),
    (
        "a missing value in two groups",
        "g group n h;h group n",
        {
            "g": ([], ["n"]),
            "h": ([], ["n"]),
        },
    ),
    (
        "missing values as they are written",
        "g group urn:uuid:n n URN:uuid:n",
        {
            "g": ([], ["URN:uuid:n", "n", "urn:uuid:n"]),
        },
    ),
    (
        "values of eight and of nine octets",
        "g group urn:uuid urn:uuid:",
        {
            "g": ([], ["urn:uuid", "urn:uuid:"]),
        },
    ),
    (
        "a character of two octets over the ninth",
        "g group urn:uuidé urn:uuid:é;é individual",
        {
            "g": (["é"], ["urn:uuidé"]),
        },
    ),
    (
        "characters of two octets before the ninth",
        "g group éééé: ééééé",
        {
            "g": ([], ["éééé:", "ééééé"]),
        },
    ),
    (
        "any kind but group is listed among the people",
        "g group r o l i;r robot;o org;l location;i individual",
        {
            "g": (["i", "l", "o", "r"], []),
        },
    ),
    (
        "the order of octets",
        "g group é a B aa;é individual;a individual;B individual;aa individual",
        {
            "g": (["B", "a", "aa", "é"], []),
        },
    ),
    (
        "a UID in another case is another UID",
        "g group X urn:uuid:Y;x individual;y individual",
        {
            "g": ([], ["X", "urn:uuid:Y"]),
        },
    ),
    (
        "groups that lead nowhere",
        "g group a;a group b;b group a g",
        {
            "g": ([], []),
            "a": ([], []),
            "b": ([], []),
        },
    ),
    (
        "a card that no member names",
        "g group x;x individual;y individual;h group y",
        {
            "g": (["x"], []),
            "h": (["y"], []),
        },
    ),
    (
        "a card of another group that is reached on two paths",
        "g group x h;h group x i;i group x;x individual",
        {
            "g": (["x"], []),
            "h": (["x"], []),
            "i": (["x"], []),
        },
    ),
    (
        "no group",
        "g individual;h group g",
        {
            "g": NO_GROUP,
            "h": (["g"], []),
        },
    ),
    (
        "no card",
        "h group g",
        {
            "g": NO_CARD,
            "h": ([], ["g"]),
        },
    ),
    (
        "a UID in the path is a UID, and no value of a member",
        "g group x;x individual",
        {
            "urn:uuid:g": NO_CARD,
            "G": NO_CARD,
            "x": NO_GROUP,
            "g": (["x"], []),
        },
    ),
    (
        "two empty values",
        "g group  ",
        {
            "g": ([], [""]),
        },
    ),
    (
        "a ring of four groups",
        "a group b;b group c;c group d;d group a x;x individual",
        {
            "a": (["x"], []),
            "b": (["x"], []),
            "c": (["x"], []),
            "d": (["x"], []),
        },
    ),
    (
        "two rings that share a group",
        "a group b c;b group a x;c group b urn:uuid:y;x individual;y org",
        {
            "a": (["x", "y"], []),
            "b": (["x", "y"], []),
            "c": (["x", "y"], []),
        },
    ),
    (
        "a chain that ends in a group of itself",
        "a group a;b group a;c group b z;d group c;z location",
        {
            "a": ([], []),
            "b": ([], []),
            "c": (["z"], []),
            "d": (["z"], []),
        },
    ),
    (
        "a chain with people and missing values at each link",
        "a group x1 n1;b group a x2 n2;c group b x3;x1 individual;x2 individual;x3 individual",
        {
            "a": (["x1"], ["n1"]),
            "b": (["x1", "x2"], ["n1", "n2"]),
            "c": (["x1", "x2", "x3"], ["n1", "n2"]),
        },
    ),
    (
        "a chain by prefixes, one of them doubled",
        "a group urn:uuid:b;b group urn:uuid:c;c group urn:uuid:urn:uuid:d;d group x;"
        "x individual",
        {
            "a": ([], ["urn:uuid:urn:uuid:d"]),
            "b": ([], ["urn:uuid:urn:uuid:d"]),
            "c": ([], ["urn:uuid:urn:uuid:d"]),
            "d": (["x"], []),
        },
    ),
    (
        "a group whose UID is another one with the prefix",
        "a group c;b group c;c group n;urn:uuid:c group x;d group URN:UUID:c urn:uuid:c;"
        "x individual",
        {
            "a": ([], ["n"]),
            "b": ([], ["n"]),
            "c": ([], ["n"]),
            "urn:uuid:c": (["x"], []),
            "d": (["x"], ["n"]),
        },
    ),
    (
        "UIDs outside ASCII",
        "é group ü urn:uuid:ü;ü group é ö;ö individual;urn:uuid:ü individual;o group é",
        {
            "é": (["urn:uuid:ü", "ö"], []),
            "ü": (["urn:uuid:ü", "ö"], []),
            "o": (["urn:uuid:ü", "ö"], []),
        },
    ),
    (
        "members named again, on many paths",
        "a group b b b;b group c c;c group d e;d group n;e group n d;f group e f",
        {
            "a": ([], ["n"]),
            "b": ([], ["n"]),
            "c": ([], ["n"]),
            "d": ([], ["n"]),
            "e": ([], ["n"]),
            "f": ([], ["n"]),
        },
    ),
]
