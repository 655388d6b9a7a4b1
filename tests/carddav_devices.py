"""The devices of the random test, and the ledger of what they were told.

Each number, and each person's place in a group, is added once and by one device, so what may be
there in the end is known.
"""

import random
import threading
from collections import defaultdict
from http.client import HTTPException
from urllib.parse import quote

from carddav_client import STAFF, Client, card3
from http_requests import card
from python_client import office

from tosculai import Conflict, Error, NoSuchCard, lines_of

OFFICE = ("X-ODD;X-P=\"a,b\":x", "LANG:fr", "RELATED;TYPE=spouse:urn:uuid:b", "KEY:https://k.test/")


def numbers(text):
    return {it.rpartition(":")[2] for it in lines_of(text) if it.startswith("TEL")}


def is_team(text):
    return "KIND:group" in text  # also X-ADDRESSBOOKSERVER-KIND


def categories(text):
    return {name for it in lines_of(text) if it.startswith("CATEGORIES:")
            for name in it[11:].split(",")}


def teams(cards):
    """The names of groups by member, of these texts by UID."""
    found = defaultdict(set)
    for text in filter(is_team, cards.values()):
        name = next(it[3:] for it in lines_of(text) if it.startswith("FN:"))
        for it in lines_of(text):
            if it.startswith("MEMBER:"):
                found[it[7:].replace("urn:uuid:", "")].add(name)
    return found


class Ledger:
    """What was asked, and what was answered with success. Each number is added once."""

    def __init__(self):
        self.lock, self.next = threading.Lock(), 0
        self.added = defaultdict(dict)  # by UID and number: whether it was acknowledged
        self.taken = defaultdict(dict)
        self.joined, self.left = defaultdict(dict), defaultdict(dict)  # by UID and group's name
        self.made, self.removed, self.names = {}, {}, []

    def number(self):
        with self.lock:
            self.next += 1
            return f"+{self.next}"

    def join(self, uid, chance, makes=True):
        """The name of a group that this person hasn't been in; a new one, or None."""
        with self.lock:
            some = [it for it in self.names if it not in self.joined[uid]]
            if some and (chance.random() < 0.7 or not makes):
                name = chance.choice(some)
            elif makes:
                self.next += 1
                name = f"G{self.next}"
                self.names.append(name)
            else:
                return None
            self.joined[uid][name] = False
            return name

    def check_teams(self, cards):
        """Whether people are in the groups in which they may be."""
        faults, there = [], teams(cards)
        for uid in cards:
            joined, left = self.joined[uid], self.left[uid]
            faults += [f"{uid} isn't in {it}" for it, was in joined.items()
                       if was and it not in there[uid] and it not in left]
            faults += [f"{uid} is in {it} again" for it, was in left.items()
                       if was and it in there[uid]]
            faults += [f"{uid} is in {it}, from nowhere" for it in there[uid] if it not in joined]
        return faults

    def check(self, cards):
        """Whether these texts by UID are what may be there."""
        faults = self.check_teams(cards)
        cards = {uid: it for uid, it in cards.items() if not is_team(it)}
        for uid, is_acknowledged in self.made.items():
            if uid not in cards and is_acknowledged and uid not in self.removed:
                faults.append(f"{uid} is lost")
        for uid, text in cards.items():
            if self.removed.get(uid):
                faults.append(f"{uid} came back")
            there, added, taken = numbers(text), self.added[uid], self.taken[uid]
            faults += [f"{uid}: {it} is lost" for it, was in added.items()
                       if was and it not in there and it not in taken]
            faults += [f"{uid}: {it} came back" for it, was in taken.items() if was and it in there]
            faults += [f"{uid}: {it} from nowhere" for it in there if it not in added]
            if uid.startswith("office"):
                faults += [f"{uid}: {it} is lost" for it in OFFICE if it not in lines_of(text)]
        return faults


class Device:
    """One that changes cards at random. `put` and the like return whether it was acknowledged."""

    pause = 0.0  # seconds between two changes
    moves = 0.0  # how many of its changes are of groups

    def __init__(self, name, ledger, seed):
        self.name, self.ledger = name, ledger
        self.random = random.Random(f"{name} {seed}")
        self.done = 0

    def step(self):
        """One change, and whether it was done. What isn't acknowledged may be done all the same."""
        kind = self.random.random()
        uids = sorted(self.seen())
        if kind < 0.15 or not uids:
            uid = f"{self.name}-{self.ledger.number()[1:]}"
            self.ledger.made[uid] = False
            number = self.ledger.number()
            self.ledger.added[uid][number] = False
            if self.make(uid, number):
                self.ledger.made[uid] = self.ledger.added[uid][number] = True
                self.done += 1
            return
        uid = self.random.choice(uids)
        if kind < 0.25 and len(uids) > 3:
            self.ledger.removed.setdefault(uid, False)
            if self.remove(uid):
                self.ledger.removed[uid] = True
            return
        if self.random.random() < self.moves:
            self.regroup(uid, self.random.random() < 0.4)
        else:
            self.change(uid, kind < 0.4)

    def change(self, uid, takes):
        """Adds a number, or takes one away."""
        there = sorted(numbers(self.text(uid)))
        if takes and there:
            number, what = self.random.choice(there), self.ledger.taken[uid]
            edit = self.without(self.text(uid), number)
        else:
            number, what = self.ledger.number(), self.ledger.added[uid]
            edit = self.text(uid).replace("END:VCARD", f"TEL;TYPE=CELL:{number}\r\nEND:VCARD")
        what.setdefault(number, False)
        if self.put(uid, edit):
            what[number] = True
            self.done += 1

    def regroup(self, uid, takes):
        """Puts a person into a group, or takes it out of one."""
        there = sorted(self.groups(uid))
        if takes and there:
            name, what = self.random.choice(there), self.ledger.left[uid]
        else:
            name, what = self.ledger.join(uid, self.random, self.makes), self.ledger.joined[uid]
        if name:
            what.setdefault(name, False)
            if self.put_group(uid, name, what is self.ledger.joined[uid]):
                what[name] = True
                self.done += 1

    def without(self, text, number):
        return "".join(it + "\r\n" for it in lines_of(text)
                       if not (it.startswith("TEL") and it.endswith(":" + number)))


class Phone(Device):
    """A phone: a copy by path, a token, and requests that carry the ETag which it saw."""

    user, agent, refused = "ann", "", 403  # the status of a token that is refused

    def __init__(self, name, ledger, seed, place, version):
        super().__init__(name, ledger, seed)
        self.version, self.copy, self.token = version, {}, ""
        self.dav = Client(place, self.user, program=self.agent or f"{name}/1.0")

    def pull(self):
        """As a phone does it. Raises OSError if it isn't answered."""
        reply = self.asked(lambda: self.dav.sync(STAFF, self.token, self.random.choice([None, 3])))
        if reply.status == self.refused:
            assert reply.reason[0] == "valid-sync-token", reply
            self.copy, self.token = {}, ""
            return self.pull()
        if reply.status != 207:
            raise OSError(reply.status)
        statuses, etags = reply.statuses(), reply.etags()
        wanted = [it for it in etags if self.copy.get(it, ("",))[0] != etags[it]]
        texts = {}
        if wanted:
            data = f'<C:address-data content-type="text/vcard" version="{self.version}"/>'
            cards = self.asked(lambda: self.dav.multiget(STAFF, wanted, data))
            if cards.status != 207:
                raise OSError(cards.status)
            now = cards.etags()
            texts = {path: (now[path], text) for path, text in cards.cards().items()}
            for path in set(wanted) - set(texts):
                self.copy.pop(path, None)
        for path, status in statuses.items():
            if status == 404:
                self.copy.pop(path, None)
        self.copy.update(texts)
        self.token = reply.token
        return self.pull() if statuses.get(STAFF) == 507 else None

    def asked(self, ask):
        try:
            return ask()
        except HTTPException as fault:
            raise OSError(str(fault)) from None

    def seen(self):
        if self.random.random() < 0.6:
            self.pull()
        self.paths = {next(it[4:] for it in lines_of(text) if it.startswith("UID:")): path
                      for path, (_, text) in self.copy.items() if not is_team(text)}
        return self.paths

    def text(self, uid):
        return self.copy[self.paths[uid]][1]

    def put(self, uid, text):
        path = self.paths[uid]
        if self.version == "3.0":  # it drops what it doesn't know
            text = "".join(it + "\r\n" for it in lines_of(text)
                           if not it.startswith(("X-", "KEY")))
        return self.sent("PUT", path, text, If_Match=self.copy[path][0])

    def make(self, uid, number):
        text = card3(uid, uid, f"TEL;TYPE=CELL:{number}").replace("3.0", self.version)
        return self.sent("PUT", f"{STAFF}{uid} of {self.name}.vcf", text, If_None_Match="*")

    def remove(self, uid):
        path = self.paths[uid]
        return self.sent("DELETE", path, "", If_Match=self.copy[path][0])

    def sent(self, method, path, text, **fields):
        reply = self.asked(lambda: self.dav.ask(method, quote(path), text, **fields))
        if reply.status in (412, 404):
            self.pull()
        elif reply.status not in (201, 204, 503):
            raise AssertionError(reply)
        return reply.status in (201, 204)


class CategoryPhone(Phone):
    """A phone whose groups are categories."""

    user, moves, makes = "cat", 0.5, True

    def groups(self, uid):
        return categories(self.text(uid))

    def put_group(self, uid, name, joins):
        text = self.text(uid)
        names = (self.groups(uid) | {name}) if joins else self.groups(uid) - {name}
        lines = [it for it in lines_of(text) if not it.startswith("CATEGORIES:")]
        lines[-1:-1] = ["CATEGORIES:" + ",".join(sorted(names))] if names else []
        return self.put(uid, "".join(it + "\r\n" for it in lines))


class Unseeing(Phone):
    """Thunderbird: it changes cards without a condition, keeps lines that it doesn't know, and
    reads a card again after it has sent it."""

    agent = "Mozilla/5.0 (X11; Linux x86_64; rv:153.0) Gecko/20100101 Thunderbird/153.8.0"
    refused = 400

    def put(self, uid, text):
        path = self.paths[uid]
        is_done = self.sent("PUT", path, text)
        got = self.asked(lambda: self.dav.ask("GET", quote(path)))
        if got.status == 200:
            self.copy[path] = got.etag, got.text
        return is_done


class Api(Device):
    """A device of the server's own API. It is faster than phones, so it waits for them."""

    pause = 0.05

    def __init__(self, name, ledger, seed, server):
        super().__init__(name, ledger, seed)
        self.book = office(server, attempts=1).book("staff")

    def seen(self):
        self.copy, token, more = {}, "", True
        while more:
            page = self.book.page(token)
            self.copy.update((it.uid, it) for it in page.members)
            token, more = page.token, page.truncated
        self.copy = {uid: it for uid, it in self.copy.items() if it.version}
        return self.people()

    def people(self):
        return {uid: it for uid, it in self.copy.items() if not is_team(it.text)}

    def text(self, uid):
        return self.copy[uid].text

    def put(self, uid, text):
        return self.asked(lambda: self.book.put(text, self.copy[uid].version, uid))

    def make(self, uid, number):
        return self.asked(lambda: self.book.put(card(uid, uid, f"TEL:{number}"), 0))

    def remove(self, uid):
        return self.asked(lambda: self.book.remove(uid, self.copy[uid].version) or True)

    def asked(self, ask):
        try:
            return bool(ask())
        except (Conflict, NoSuchCard):
            return False
        except Error as fault:
            raise OSError(str(fault)) from None


class Desk(Api):
    """The desk: it edits an older copy, and puts its edit and those of others together."""

    moves, makes, rounds = 0.3, False, 30

    def __init__(self, name, ledger, seed, server, merge):
        super().__init__(name, ledger, seed, server)
        self.merge, self.copy, self.merged = merge, {}, 0

    def seen(self):
        return super().seen() if not self.copy or self.random.random() < 0.3 else self.people()

    def groups(self, uid):
        return teams({it: one.text for it, one in self.copy.items()})[uid]

    def put_group(self, uid, name, joins):
        found = [it for it, one in self.copy.items() if is_team(one.text)
                 and f"FN:{name}" in lines_of(one.text)]
        if not found:
            return False
        text = self.copy[found[0]].text
        lines = [it for it in lines_of(text) if it not in (f"MEMBER:{uid}",
                                                           f"MEMBER:urn:uuid:{uid}")]
        lines[-1:-1] = [f"MEMBER:{uid}"] if joins else []
        return self.put(found[0], "".join(it + "\r\n" for it in lines))

    def put(self, uid, text):
        base = self.copy[uid]
        for _ in range(self.rounds):
            try:
                version = self.book.put(text, base.version, uid)
                self.copy[uid] = base._replace(version=version, text=text)
                return True
            except Conflict as conflict:
                theirs = conflict.card
            except Error as fault:
                raise OSError(str(fault)) from None
            if not theirs or not theirs.version:
                del self.copy[uid]
                return False
            self.merged += 1
            text, base = self.merge(base.text, text, theirs.text), theirs
        return False
