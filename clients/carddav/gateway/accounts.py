"""Who may do what: one file of users and rights, for the gateway and for nginx.

A line of the file is a user, the hash of the password, and the rights by book:

    ann $7$C6..../....SALT$HASH staff:rw clients:r

The hash is scrypt's in the form that crypt(3) of Debian's libxcrypt knows, so nginx can check it,
too. `-` is no password: such a user comes by a front server alone. `token:` and `from:` are none,
either: readers.py has them. The book `*` is all others. `groups=categories` after the rights shows
groups as categories.
"""

import hashlib
import hmac
import os
import re
import secrets
import threading
import time
from base64 import b64decode
from ipaddress import IPv4Address, IPv6Network, ip_address
from typing import Dict, List, NamedTuple, Optional, Tuple

LETTERS = "./0123456789ABCDEFGHIJKLMNOPQRSTUVWXYZabcdefghijklmnopqrstuvwxyz"
COST, BLOCK, LANES = 14, 8, 1  # 2 ** 14 rounds: 16 MB and some 50 ms for a password
NAME = re.compile(r"[A-Za-z0-9][A-Za-z0-9._@+-]{0,63}")
RIGHT = re.compile(r"(\*|[a-z0-9-]{1,40}):(r|rw)")
CATEGORIES = "groups=categories"
NO_PASSWORD, BY_TOKEN, BY_ADDRESS = "-", "token:", "from:"
TRIES, TRIES_OF_ADDRESS, WINDOW = 10, 100, 300.0  # wrong passwords in so many seconds
KNOWN_MAX = 4096


class Account(NamedTuple):
    hash: str
    rights: Dict[str, str]  # "r" or "rw" by book
    has_categories: bool = False  # whether groups are shown as categories


class BadUsers(ValueError):
    """The file of users, or an argument, is wrong; the message says how."""


def has_password(account: Account) -> bool:
    return account.hash != NO_PASSWORD and not is_reader(account)


def is_reader(account: Account) -> bool:
    """Whether it is one of those who read by a token or from an address."""
    return account.hash.startswith((BY_TOKEN, BY_ADDRESS))


def encoded(octets: bytes) -> str:
    """Octets as crypt(3) writes them: six bits a letter, the lowest first."""
    text = ""
    for at in range(0, len(octets), 3):
        piece = octets[at:at + 3]
        value = int.from_bytes(piece, "little")
        text += "".join(LETTERS[value >> bits & 63] for bits in range(0, len(piece) * 8, 6))
    return text


def number(value: int) -> str:
    """A number of 30 bits, as crypt(3) writes it."""
    return "".join(LETTERS[value >> bits & 63] for bits in range(0, 30, 6))


def hashed(password: str, salt: str) -> str:
    digest = hashlib.scrypt(password.encode(), salt=salt.encode(), n=2 ** COST, r=BLOCK, p=LANES,
                            dklen=32)
    return f"$7${LETTERS[COST]}{number(BLOCK)}{number(LANES)}{salt}${encoded(digest)}"


def is_right(password: str, stored: str) -> bool:
    """Whether this is the password. It takes the same time for a user who isn't there."""
    parts = stored.split("$")
    salt = parts[2][11:] if len(parts) == 4 else "none"
    return hmac.compare_digest(hashed(password, salt), stored)


def read(path: str) -> Dict[str, Account]:
    """The users of a file; nobody if there is none."""
    try:
        with open(path, encoding="utf-8") as file:
            rows = [(at, line.split()) for at, line in enumerate(file, 1)]
    except FileNotFoundError:
        return {}
    found: Dict[str, Account] = {}
    for at, row in rows:
        if row and not row[0].startswith("#"):
            if not NAME.fullmatch(row[0]) or len(row) < 2:
                raise BadUsers(f"{path}, line {at}: a line is NAME HASH BOOK:RIGHT ..")
            words = [it for it in row[2:] if it != CATEGORIES]
            found[row[0]] = Account(row[1], rights_of(words, f"{path}, line {at}: "),
                                    CATEGORIES in row[2:])
    return found


def rights_of(words: List[str], place: str = "") -> Dict[str, str]:
    found = [RIGHT.fullmatch(it) for it in words]
    for word, it in zip(words, found):
        if not it:
            raise BadUsers(f"{place}{word} isn't BOOK:r or BOOK:rw")
    return {it.group(1): it.group(2) for it in found if it}


def write(path: str, users: Dict[str, Account]) -> None:
    """Writes the file anew, for its owner alone. It is there whole, or as it was before."""
    lines = ["# NAME HASH BOOK:RIGHT .. (carddav user add NAME --book BOOK:rw)\n"]
    for name, account in sorted(users.items()):
        rights = (f"{book}:{right}" for book, right in sorted(account.rights.items()))
        form = [CATEGORIES] if account.has_categories else []
        lines.append(" ".join([name, account.hash, *rights, *form]) + "\n")
    aside = f"{path}.new"
    descriptor = os.open(aside, os.O_WRONLY | os.O_CREAT | os.O_TRUNC, 0o600)
    with open(descriptor, "w", encoding="utf-8") as file:
        file.writelines(lines)
        file.flush()
        os.fsync(file.fileno())
    os.replace(aside, path)


class Who(NamedTuple):
    """Who sends a request, and what they may do."""

    user: str
    rights: Dict[str, str]
    has_categories: bool = False


class Refusal(Exception):
    """Why nobody is served: a status, and words."""

    def __init__(self, status: int, words: str) -> None:
        super().__init__(words)
        self.status, self.words = status, words


class Users:
    """The file, read again when it changes. If it `trusts_front`, that has the passwords."""

    def __init__(self, path: str, trusts_front: bool) -> None:
        self.path, self.trusts_front = path, trusts_front
        self._lock, self._slow = threading.Lock(), threading.Semaphore(2)
        self._mark: object = None
        self._accounts: Dict[str, Account] = {}
        self._key = secrets.token_bytes(16)
        self._known: Dict[bytes, None] = {}  # marks of passwords that were right
        self._tries = Tries()

    def accounts(self) -> Dict[str, Account]:
        try:
            found = os.stat(self.path)
            mark: object = (found.st_mtime_ns, found.st_ino, found.st_size)
        except FileNotFoundError:
            mark = None
        with self._lock:
            if mark != self._mark:
                self._accounts, self._mark = read(self.path), mark
            return self._accounts

    def find(self, fields: Dict[str, str], address: str) -> Who:
        accounts = self.accounts()
        if self.trusts_front:
            return self._named_by_front(fields, accounts)
        if not any(map(has_password, accounts.values())):
            raise Refusal(401, how_to_begin(self.path))
        user, password = credentials(fields.get("authorization", ""))
        if not user:
            raise Refusal(401, "a user and a password are needed")
        account = accounts.get(user)
        if not self._is_right(user, password, account.hash if account else "", address):
            raise Refusal(401, "the user or the password is wrong")
        assert account
        return Who(user, account.rights, account.has_categories)

    def _named_by_front(self, fields: Dict[str, str], accounts: Dict[str, Account]) -> Who:
        user = fields.get("x-remote-user", "")
        if not user:
            raise Refusal(403, "the front server sends no X-Remote-User")
        if user not in accounts:
            raise Refusal(403, f"{user[:64]} isn't in the file of users: carddav user add")
        return Who(user, accounts[user].rights, accounts[user].has_categories)

    def _is_right(self, user: str, password: str, stored: str, address: str) -> bool:
        """Whether the password is right. One that was right before costs no scrypt again."""
        secret = f"{user}\0{password}\0{stored}".encode("utf-8", "surrogateescape")
        mark = hmac.new(self._key, secret, "sha256").digest()
        if stored and mark in self._known:
            return True
        address = origin(address)
        self._tries.check(user, address)
        with self._slow:  # so that guesses leave processors to others
            self._tries.check(user, address)  # again: others may have guessed while it waited
            if not is_right(password, stored):
                self._tries.note(user, address)
                return False
        with self._lock:
            while len(self._known) >= KNOWN_MAX:
                del self._known[next(iter(self._known))]
            self._known[mark] = None
        return True


class Tries:
    """The wrong passwords of the last minutes, by user and address, and by address."""

    def __init__(self) -> None:
        self._lock = threading.Lock()
        self._times: Dict[Tuple[str, str], List[float]] = {}

    def check(self, user: str, address: str) -> None:
        with self._lock:
            for key, most in ((user, address), TRIES), (("", address), TRIES_OF_ADDRESS):
                if len(self._recent(key)) >= most:
                    raise Refusal(429, "too many wrong passwords: try again in five minutes")

    def note(self, user: str, address: str) -> None:
        with self._lock:
            for key in (user, address), ("", address):
                self._times[key] = [*self._recent(key), time.monotonic()]
            if len(self._times) > KNOWN_MAX:
                self._times = {key: it for key in self._times if (it := self._recent(key))}

    def _recent(self, key: Tuple[str, str]) -> List[float]:
        since = time.monotonic() - WINDOW
        return [it for it in self._times.get(key, ()) if it > since]


def origin(address: str) -> str:
    """The address as it is counted: of IPv6 its network, all of whose addresses one line has."""
    try:
        place = ip_address(address.partition("%")[0])
    except ValueError:
        return address
    if isinstance(place, IPv4Address):
        return str(place)
    return str(place.ipv4_mapped or IPv6Network((int(place), 64), strict=False))


def credentials(field: str) -> Tuple[str, str]:
    """The user and the password of an Authorization field; empty texts if it has none."""
    kind, _, pair = field.partition(" ")
    try:
        octets = b64decode(pair.strip(), validate=True)
    except ValueError:
        return "", ""
    if kind.lower() != "basic":
        return "", ""
    try:
        text = octets.decode()
    except UnicodeDecodeError:
        text = octets.decode("latin-1")
    user, _, password = text.partition(":")
    return user, password


def how_to_begin(path: str) -> str:
    return (f"nobody is served: {path} has no user with a password. "
            "Add one: carddav user add NAME --book BOOK:rw")


# For nginx.

def nginx_map(users: Dict[str, Account]) -> str:
    """The lines of the map of users in examples/nginx.conf."""
    lines = []
    for name, account in sorted(users.items()):
        if is_reader(account):
            continue
        user = re.escape(name)
        every = account.rights.get("*", "")
        guarded = "|".join(re.escape(it) for it, right in sorted(account.rights.items())
                           if right == "r" and it != "*")
        if every == "rw" and guarded:  # these lines come first, so they count
            lines.append(f'"~^{user} (?!GET )\\S+ ({guarded}) \\S+$" 0;')
            lines.append(f'"~^{user} \\S+ \\S* ({guarded})$" 0;')
        if every == "rw":
            lines.append(f'"~^{user} \\S+ \\S* \\S+$" 1;')
        elif every:
            lines.append(f'"~^{user} GET \\S* _$" 1;')
        writable = [re.escape(it) for it, right in sorted(account.rights.items())
                    if right == "rw" and it != "*"]
        readable = [re.escape(it) for it in sorted(account.rights) if it != "*"]
        if writable:
            books = "|".join(writable)
            lines.append(f'"~^{user} \\S+ ({books}) ({books}|_)$" 1;')
        if len(readable) > len(writable):
            lines.append(f'"~^{user} GET ({"|".join(readable)}) _$" 1;')
    return "".join(it + "\n" for it in lines)


def nginx_passwords(users: Dict[str, Account]) -> str:
    """The lines of nginx's auth_basic_user_file."""
    return "".join(f"{name}:{account.hash}\n" for name, account in sorted(users.items())
                   if has_password(account))


def find_account(users: Dict[str, Account], name: str) -> Optional[Account]:
    if not NAME.fullmatch(name):
        raise BadUsers(f"{name}: a user's name has 1 to 64 letters, digits, full stops, _, @, +, -")
    return users.get(name)
