"""Fields of requests, and how `contacts run` refuses them: the number of the fault, or None.

The server has the names NAMES beside those of the loopback. The rules are those of docs/API.md,
written out by hand; `model.http.guard` computes the same.
"""

NAMES = ["contacts.example", "Office"]

# Values of a Host field.
HOSTS = [
    ("127.0.0.1", None),
    ("127.0.0.1:8080", None),
    ("127.0.0.1:1", None),
    ("localhost", None),
    ("localhost:8080", None),
    ("LOCALHOST:8080", None),
    ("lOcAlHoSt", None),
    ("localhost:", None),
    ("[::1]", None),
    ("[::1]:8080", None),
    ("contacts.example", None),
    ("contacts.example:443", None),
    ("Contacts.EXAMPLE", None),
    ("office", None),
    ("OFFICE:8443", None),
    ("", 31),
    (":8080", 31),
    (":", 31),
    ("evil", 31),
    ("evil:8080", 31),
    ("evil.example", 31),
    ("localhost.evil.com", 31),
    ("evil.localhost", 31),
    ("localhost.", 31),
    ("localhos", 31),
    ("localhostx", 31),
    ("localhosté", 31),
    ("localhoſt", 31),
    ("localhost:80x", 31),
    ("localhost:x", 31),
    ("localhost:-1", 31),
    ("localhost:+1", 31),
    ("localhost::1", 31),
    ("localhost:80:80", 31),
    ("localhost:8080.evil", 31),
    ("localhost 8080", 31),
    ("localhost :8080", 31),
    ("localhost: 8080", 31),
    ("localhost/", 31),
    ("localhost,localhost", 31),
    ("http://localhost", 31),
    ("evil@localhost", 31),
    ("127.0.0.1.evil", 31),
    ("127.0.0.1.", 31),
    ("127.0.0.10", 31),
    ("127.0.0.2", 31),
    ("127.0.0", 31),
    ("127.1", 31),
    ("127x0x0x1", 31),
    ("0.0.0.0", 31),
    ("0", 31),
    ("[::1]x", 31),
    ("[::1]:80x", 31),
    ("[::1", 31),
    ("::1", 31),
    ("[::]", 31),
    ("[::2]", 31),
    ("[0:0:0:0:0:0:0:1]", 31),
    ("contacts.example.evil", 31),
    ("xcontacts.example", 31),
    ("contacts-example", 31),
    ("contacts", 31),
    ("offic", 31),
    ("offices", 31),
    ("contacts.example,office", 31),
]

# All Host fields of a request of HTTP/1.1, and of one of HTTP/1.0.
SEVERAL_HOSTS = [
    ([], 23),
    (["localhost", "localhost"], 23),
    (["localhost", "evil"], 23),
]
OLD_HOSTS = [
    ([], 31),
    (["localhost"], None),
    (["evil"], 31),
    ([""], 31),
    (["localhost", "127.0.0.1:80"], None),
    (["localhost", "evil"], 31),
    (["evil", "localhost"], 31),
    (["localhost", ""], 31),
]

SAME = "Sec-Fetch-Site: same-origin"
CROSS = "Sec-Fetch-Site: cross-site"
OWN = "Origin: http://localhost:8080"
EVIL = "Origin: http://evil.example"
NULL = "Origin: null"

# Further fields of a POST, a PUT or a DELETE with the Host `localhost:8080`.
SITES = [
    ([], None),
    ([SAME], None),
    (["sec-fetch-site: same-origin"], None),
    (["SEC-FETCH-SITE:same-origin"], None),
    (["Sec-Fetch-Site: \t same-origin \t"], None),
    ([SAME, SAME], None),
    (["Sec-Fetch-Mode: cors", "Sec-Fetch-Dest: empty", "Sec-Fetch-User: ?1"], None),
    (["Sec-Fetch-Sites: cross-site", "X-Sec-Fetch-Site: cross-site"], None),
    ([CROSS], 32),
    (["sec-fetch-site: cross-site"], 32),
    (["SEC-FETCH-SITE:cross-site"], 32),
    (["Sec-Fetch-Site: same-site"], 32),
    (["Sec-Fetch-Site: none"], 32),
    (["Sec-Fetch-Site:"], 32),
    (["Sec-Fetch-Site: Same-Origin"], 32),
    (["Sec-Fetch-Site: SAME-ORIGIN"], 32),
    (["Sec-Fetch-Site: same-origi"], 32),
    (["Sec-Fetch-Site: same-originx"], 32),
    (["Sec-Fetch-Site: same-origin, same-origin"], 32),
    (["Sec-Fetch-Site: same-origin;x"], 32),
    (['Sec-Fetch-Site: "same-origin"'], 32),
    ([SAME, CROSS], 32),
    ([CROSS, SAME], 32),
    ([SAME, "Sec-Fetch-Site:"], 32),
    ([OWN], None),
    (["origin: http://localhost:8080"], None),
    (["ORIGIN:https://localhost:8080"], None),
    (["Origin: HTTP://LocalHost:8080"], None),
    (["Origin: hTTps://LOCALHOST:8080"], None),
    ([OWN, OWN], None),
    ([OWN, "Origin: https://localhost:8080"], None),
    (["X-Origin: null", "Origins: null", "Referer: http://evil.example/"], None),
    ([NULL], 32),
    (["ORIGIN: NULL"], 32),
    (["Origin:"], 32),
    ([EVIL], 32),
    (["Origin: http://localhost"], 32),
    (["Origin: http://localhost:"], 32),
    (["Origin: http://localhost:808"], 32),
    (["Origin: http://localhost:8081"], 32),
    (["Origin: http://localhost:80800"], 32),
    (["Origin: https://localhost:8443"], 32),
    (["Origin: http://127.0.0.1:8080"], 32),
    (["Origin: http://[::1]:8080"], 32),
    (["Origin: http://contacts.example"], 32),
    (["Origin: http://localhost:8080.evil"], 32),
    (["Origin: http://localhost:8080/"], 32),
    (["Origin: http://localhost:8080 http://evil.example"], 32),
    (["Origin: http://evil.localhost:8080"], 32),
    (["Origin: http://evil@localhost:8080"], 32),
    (["Origin: localhost:8080"], 32),
    (["Origin: //localhost:8080"], 32),
    (["Origin: http:localhost:8080"], 32),
    (["Origin: http:///localhost:8080"], 32),
    (["Origin: http://"], 32),
    (["Origin: httpss://localhost:8080"], 32),
    (["Origin: ftp://localhost:8080"], 32),
    (["Origin: xhttp://localhost:8080"], 32),
    ([OWN, NULL], 32),
    ([NULL, OWN], 32),
    ([OWN, EVIL], 32),
    ([OWN, "Origin:"], 32),
    ([SAME, OWN], None),
    ([OWN, SAME], None),
    ([SAME, EVIL], 32),
    ([SAME, NULL], 32),
    ([CROSS, OWN], 32),
    ([CROSS, NULL], 32),
]

# A Host, an Origin beside it, and the number.
ORIGINS = [
    ("localhost", "http://localhost", None),
    ("localhost", "https://LOCALHOST", None),
    ("LOCALHOST", "http://localhost", None),
    ("localhost", "http://localhost:80", 32),
    ("localhost:80", "http://localhost", 32),
    ("localhost:443", "https://localhost:443", None),
    ("127.0.0.1:8080", "http://127.0.0.1:8080", None),
    ("127.0.0.1:8080", "http://localhost:8080", 32),
    ("[::1]:8080", "http://[::1]:8080", None),
    ("[::1]:8080", "http://[::1]", 32),
    ("contacts.example", "https://contacts.example", None),
    ("contacts.example", "https://Contacts.Example", None),
    ("contacts.example", "https://office", 32),
    ("contacts.example:443", "https://contacts.example", 32),
    ("evil", "http://evil", 31),
]

PRECONDITIONS = [
    ([f"{name}:{value}"], 33)
    for name in [
        "If-Match", "If-None-Match", "If-Modified-Since", "If-Unmodified-Since", "If-Range"
    ]
    for value in ["", " *", ' "1"', " Sat, 28 Nov 2026 03:40:00 GMT"]
] + [
    (["if-match: *"], 33),
    (["IF-NONE-MATCH: *"], 33),
    (['If-Match: "1"', 'If-Match: "2"'], 33),
    ([SAME, OWN, "If-None-Match: *"], 33),
    (["If: x", "If-Matches: x", "X-If-Match: *", "If-None: *", "Range: bytes=0-1"], None),
]

# Fields that break several rules, the Host among them: the first rule counts, and faults of a head
# come before them all.
IN_ORDER = [
    (["Host: evil", CROSS, NULL, "If-Match: *"], 31),
    (["Host: evil", "If-Match: *"], 31),
    (["Host: evil", CROSS], 31),
    (["If-Match: *", CROSS, "Host: evil"], 31),
    (["Host: localhost", "If-Match: *", CROSS], 32),
    (["If-Match: *", NULL, "Host: localhost"], 32),
    (["Host: localhost", "If-Match: *"], 33),
    (["Host: evil", CROSS, "If-Match: *", "Transfer-Encoding: chunked"], 24),
    (["Host: evil", CROSS, "If-Match: *", "Content-Length: ten"], 25),
    (["Host: evil", CROSS, "If-Match: *", "Content-Length: 8388609"], 26),
    (["Host: evil", CROSS, "If-Match: *", "no field"], 21),
    (["Host: evil", CROSS, "If-Match: *", "X: " + "x" * 16_384], 22),
    (["Host: evil", "Host: evil", CROSS, "If-Match: *"], 23),
]
