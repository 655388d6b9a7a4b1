"""Who reads without a password: desk phones, by their addresses, and programs, by a token.

They are users of the one file, with one of these in place of a password's hash:

    hall from:10.0.0.0/8,fd00::/8 staff:r
    calendar token:SHA256 staff:r

They may only read, and only what is at the paths of `feeds.py`. A token is a part of a path, or the
parameter `token` of it.
"""

import functools
import hashlib
import re
import secrets
from ipaddress import IPv4Network, IPv6Address, IPv6Network, ip_address, ip_network
from typing import Dict, List, Optional, Tuple, Union
from urllib.parse import parse_qs, urlsplit

from gateway.accounts import BY_ADDRESS, BY_TOKEN, Account, BadUsers, Users, Who

LETTERS = "abcdefghijkmnpqrstuvwxyz23456789"  # five bits each, and none looks like another
TOKEN = re.compile(rf"[{LETTERS}]{{32}}")
# A front server that passes on for others says so. Without its X-Real-IP, the address is its own.
PASSED_ON = ("x-forwarded-for", "forwarded", "via")

Network = Union[IPv4Network, IPv6Network]


def new_token() -> str:
    return "".join(secrets.choice(LETTERS) for _ in range(32))


def by_token(token: str) -> str:
    return BY_TOKEN + hashlib.sha256(token.encode()).hexdigest()


def by_address(ranges: List[str]) -> str:
    """What stands for these ranges in the file; BadUsers if one isn't a range."""
    for it in ranges:
        try:
            ip_network(it)
        except ValueError as fault:
            raise BadUsers(f"{it}: {fault}; a range is as 10.0.0.0/8") from None
    return BY_ADDRESS + ",".join(ranges)


def told(account: Account) -> str:
    """How the reader comes, in words."""
    if account.hash.startswith(BY_ADDRESS):
        return "from " + account.hash[len(BY_ADDRESS):].replace(",", ", ")
    return "by a token"


@functools.lru_cache(maxsize=256)
def networks(text: str) -> Tuple[Network, ...]:
    found = []
    for it in text.split(","):
        try:
            found.append(ip_network(it))
        except ValueError:
            pass  # a range that was written by hand, and is wrong, is nobody's
    return tuple(found)


def token_of(target: str) -> str:
    """The token in a request's target; an empty text if it has none."""
    parts = urlsplit(target)
    given = parse_qs(parts.query).get("token") or parts.path.split("/")[2:3]
    return given[0] if TOKEN.fullmatch(given[0] if given else "") else ""


def masked(target: str, is_feed: bool = True) -> str:
    """The target for a log, which no token goes into. Elsewhere a name may look like one."""
    bare = re.sub("(?<=[?&]token=)[^&]*", "..", target)
    return TOKEN.sub("..", bare) if is_feed else bare


def address_of(fields: Dict[str, str], peer: str) -> str:
    """The address of who asks; an empty text if a front server stands before it and says none."""
    if "x-real-ip" in fields:
        return fields["x-real-ip"].strip()
    return "" if any(it in fields for it in PASSED_ON) else peer


def find(users: Users, target: str, fields: Dict[str, str], peer: str) -> Optional[Who]:
    """Who reads by a token or from an address, with the rights of all that fit; None if nobody."""
    token, address = token_of(target), address_of(fields, peer)
    mark = by_token(token) if token else None
    names, rights = [], {}  # type: List[str], Dict[str, str]
    for name, account in users.accounts().items():
        if account.hash == mark or not token and _is_within(account.hash, address):
            names.append(name)
            rights.update(dict.fromkeys(account.rights, "r"))
    return Who("+".join(names), rights) if names else None


def _is_within(mark: str, address: str) -> bool:
    if not mark.startswith(BY_ADDRESS):
        return False
    try:
        place = ip_address(address)
    except ValueError:
        return False
    if isinstance(place, IPv6Address) and place.ipv4_mapped:
        place = place.ipv4_mapped
    return any(place in it for it in networks(mark[len(BY_ADDRESS):]))


def how_to_begin(target: str) -> str:
    """What is said to who may not read."""
    if token_of(target):
        return "nobody has this token: carddav user add NAME --token --book BOOK:r makes one"
    return ("a password, a token or an address is needed: carddav user add NAME --book BOOK:r, "
            "with --token, or with --from 10.0.0.0/8")
