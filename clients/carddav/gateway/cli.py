"""The command line: `carddav`, and `carddav user`."""

import argparse
import fcntl
import getpass
import os
import secrets
import signal
import sys
import threading
import time
from typing import Any, Dict, List, Optional, Set

from tosculai import Error

from gateway import accounts, birthdays, photos, readers
from gateway.books import Shelf
from gateway.check import check
from gateway.dav import Dav
from gateway.feeds import Feeds
from gateway.front import Server, say
from gateway.groups import view_of
from gateway.numbers import COUNTRY
from gateway.office import Offices, new_office
from gateway.photos import SPACE, Photos
from gateway.state import State

USAGE = """Phones and mail programs use the books of Tosculai as address books, by CardDAV.

  carddav --server URL --state DIR --port P      serves at 127.0.0.1:P
  carddav --server unix:PATH --state DIR --socket PATH
  carddav user add NAME --book BOOK:rw --state DIR    then enter the password
  carddav user add NAME --groups categories      for programs that know no other groups
  carddav user add NAME --book BOOK:r --token         reads phone books, birthdays and searches
  carddav user add NAME --book BOOK:r --from 10.0.0.0/8   the same, for addresses
  carddav user remove NAME --state DIR
  carddav user list --state DIR
"""
STATE = "/var/lib/tosculai-carddav"
MEGA = 1_000_000
DAYS = 30  # for which a photo is kept that no card names
DAY = 86_400.0  # seconds
SOON = 60.0  # seconds after the start, which other work takes


def main(arguments: List[str]) -> int:
    os.umask(0o077)
    try:
        if arguments[:1] == ["user"]:
            return change_users(user_parser().parse_args(arguments[1:]))
        return run(parser(), arguments)
    except (accounts.BadUsers, OSError, ValueError, Error) as fault:
        print(f"carddav: {fault}", file=sys.stderr)
        return 3


def parser() -> argparse.ArgumentParser:
    made = argparse.ArgumentParser(prog="carddav", description=USAGE,
                                   formatter_class=argparse.RawDescriptionHelpFormatter)
    made.add_argument("--server", default="http://127.0.0.1:8080", metavar="URL|unix:PATH",
                      help="the contact server (%(default)s)")
    made.add_argument("--state", default=STATE, metavar="DIR",
                      help="users, names and photos (%(default)s)")
    made.add_argument("--port", type=int, metavar="P", help="listen at 127.0.0.1:P; 0 chooses one")
    made.add_argument("--socket", metavar="PATH", help="listen at this socket instead")
    made.add_argument("--url", default="", help="the address before which a front server stands, "
                      "as https://office.example; else that of each request")
    made.add_argument("--trust-front", action="store_true",
                      help="believe X-Remote-User of a front server, which has the passwords")
    made.add_argument("--only-3", action="store_true", help="don't offer vCard 4.0")
    made.add_argument("--left-out", choices=["keep", "remove"], default="keep",
                      help="what becomes of lines that a program leaves out and has never sent "
                      "(%(default)s)")
    made.add_argument("--country", default="", metavar="CODE", help="the office's country, as 353, "
                      "for national numbers at /lookup")
    made.add_argument("--birthday-text", default=birthdays.Texts().birthday, metavar="TEXT",
                      help="what a birthday is called (%(default)s)")
    made.add_argument("--anniversary-text", default=birthdays.Texts().anniversary, metavar="TEXT",
                      help="what an anniversary is called (%(default)s)")
    made.add_argument("--photo-space", type=int, default=SPACE // MEGA, metavar="MB",
                      help="how many megabytes of large photos a user may store (%(default)s)")
    made.add_argument("--log", action="store_true", help="a line for each request")
    made.add_argument("--check", action="store_true", help="say what a phone would see, and end")
    made.add_argument("--nginx", choices=["map", "passwords"],
                      help="print the users for nginx, and end")
    made.add_argument("--start-over", action="store_true",
                      help="let all programs list all names again, as after this state was "
                      "restored from a backup; and end")
    made.add_argument("--tidy", action="store_true",
                      help=f"remove photos that no card has named for {DAYS} days, and end; a "
                      "gateway that runs does so each day")
    return made


def run(made: argparse.ArgumentParser, arguments: List[str]) -> int:
    given = made.parse_args(arguments)
    new_office(given.server)
    if given.check:
        return check(given.server, given.state, given.trust_front)
    if given.nginx:
        users = accounts.read(users_of(given.state))
        print((accounts.nginx_map if given.nginx == "map" else accounts.nginx_passwords)(users),
              end="")
        return 0
    if not (given.start_over or given.tidy) and (given.port is None) == (given.socket is None):
        made.error("one of --port and --socket is needed")
    if given.photo_space < 0:
        made.error(f"--photo-space {given.photo_space}: a number of megabytes")
    if given.country and not COUNTRY.fullmatch(given.country):
        made.error(f"--country {given.country}: a code has one to three digits, as 353")
    os.makedirs(given.state, exist_ok=True)
    with open(os.path.join(given.state, "lock"), "w", encoding="ascii") as lock:
        try:
            fcntl.flock(lock, fcntl.LOCK_EX | fcntl.LOCK_NB)
        except OSError:
            raise OSError(f"{given.state}: another gateway uses it") from None
        state = State(os.path.join(given.state, "names.db"))
        if given.start_over:
            state.start_over()
            state.end()
            return 0
        kept = Photos(os.path.join(given.state, "photos"), state, given.photo_space * MEGA)
        shelf = Shelf(Offices(given.server), state, kept, say, given.country)
        if given.tidy:
            for name in tidied(shelf):
                print(f"removed {name}")
            state.end()
            return 0
        return serve(given, shelf)


def serve(given: argparse.Namespace, shelf: Shelf) -> int:
    dav = Dav(shelf, has4=not given.only_3, keeps_unknown=given.left_out == "keep")
    feeds = Feeds(shelf, birthdays.Texts(given.birthday_text, given.anniversary_text))
    users = accounts.Users(users_of(given.state), given.trust_front)
    if not given.trust_front and not users.accounts():
        say(accounts.how_to_begin(users.path))
    place: Any = given.socket or ("127.0.0.1", given.port)
    server = Server(place, dav, feeds, users, given.log, given.url.rstrip("/"))
    where = given.socket or f"127.0.0.1:{server.server_address[1]}"
    print(f"listening {where}", flush=True)
    threading.Thread(target=load, args=(shelf, users), daemon=True).start()
    threading.Thread(target=tidy_daily, args=(shelf,), daemon=True).start()
    threading.Thread(target=compare_daily, args=(shelf,), daemon=True).start()
    signal.signal(signal.SIGTERM, lambda *_: os._exit(0))  # all that was replied to is kept
    try:
        server.serve_forever()
    except KeyboardInterrupt:
        pass
    return 0


def load(shelf: Shelf, users: accounts.Users) -> None:
    """Reads all books aside, so that no phone waits for that; and people, if any are asked for."""
    try:
        shelf.load()
        for name in shelf.names():
            view_of(shelf.book(name)).repair()
        for account in filter(accounts.is_reader, users.accounts().values()):
            for name in shelf.names():
                if account.rights.get(name, account.rights.get("*")):
                    shelf.book(name).people()
    except Exception as fault:
        say(f"the books aren't read yet: {fault}")


def tidied(shelf: Shelf) -> List[str]:
    """Removes the photos that no card has named for some time; returns their names."""
    named: Set[str] = set()
    for name in shelf.names():
        book = shelf.book(name)
        with book.lock:  # so that the copy is whole
            book.refresh()
            named |= photos.named(text for _, _, text in shelf.state.texts(book.number))
    return shelf.photos.tidy(named, DAYS)


def tidy_daily(shelf: Shelf) -> None:
    while True:
        try:
            for name in tidied(shelf):
                say(f"removed a photo that no card has named for {DAYS} days: {name}")
        except Exception as fault:
            say(f"photos stay for another day: {fault}")
        time.sleep(DAY)


def compare_daily(shelf: Shelf) -> None:
    """Compares the copies with the server's cards, which are all read for that."""
    pause = SOON
    while True:
        time.sleep(pause)
        pause = DAY
        try:
            shelf.compare()
        except Exception as fault:
            say(f"the copies are compared another day: {fault}")


# Users.

def users_of(folder: str) -> str:
    return os.path.join(folder, "users")


def user_parser() -> argparse.ArgumentParser:
    made = argparse.ArgumentParser(prog="carddav user")
    orders = made.add_subparsers(dest="order", required=True)
    for order, words in [("add", "add a user, or change rights and password"),
                         ("remove", "remove a user"), ("list", "list all users")]:
        one = orders.add_parser(order, help=words)
        one.add_argument("--state", default=STATE, metavar="DIR")
        if order != "list":
            one.add_argument("name")
        if order == "add":
            one.add_argument("--book", action="append", metavar="BOOK:r|rw", dest="books",
                             help="a right; * is all other books")
            one.add_argument("--no-password", action="store_true",
                             help="for a user whom a front server checks (--trust-front)")
            one.add_argument("--groups", choices=["cards", "categories"], help="how groups are "
                             "shown: as cards of their own, or as categories of people (cards)")
            one.add_argument("--token", action="store_true", help="print a new token, by which "
                             "phone books, birthdays and searches are read")
            one.add_argument("--from", action="append", metavar="RANGE", dest="ranges",
                             help="addresses from which they are read, as 10.0.0.0/8")
    return made


def change_users(given: argparse.Namespace) -> int:
    path = users_of(given.state)
    users = accounts.read(path)
    if given.order == "list":
        for name, account in sorted(users.items()):
            rights = " ".join(f"{book}:{right}" for book, right in sorted(account.rights.items()))
            how = " no password" if account.hash == accounts.NO_PASSWORD else \
                " " + readers.told(account) if accounts.is_reader(account) else ""
            form = " " + accounts.CATEGORIES if account.has_categories else ""
            print(f"{name} {rights}{form}{how}")
        return 0
    old = accounts.find_account(users, given.name)
    if given.order == "remove":
        if not old:
            raise accounts.BadUsers(f"there is no user {given.name}")
        del users[given.name]
    else:
        users[given.name] = with_groups(new_account(given, old), given.groups, old)
    os.makedirs(given.state, exist_ok=True)
    accounts.write(path, users)
    return 0


def new_account(given: argparse.Namespace, old: Optional[accounts.Account]) -> accounts.Account:
    """The account; what isn't given stays as it was."""
    rights: Dict[str, str] = dict(old.rights) if old else {}
    if given.books:
        rights = accounts.rights_of(given.books)
    if not rights:
        raise accounts.BadUsers("a user needs a right: --book BOOK:rw")
    if given.token or given.ranges or old and accounts.is_reader(old) and not given.no_password:
        return new_reader(given, rights, old)
    if given.no_password:
        return accounts.Account(accounts.NO_PASSWORD, rights)
    password = new_password(given.name, bool(old))
    if not password and old:
        return accounts.Account(old.hash, rights)
    if not password:
        raise accounts.BadUsers("an empty password isn't taken")
    return accounts.Account(accounts.hashed(password, secrets.token_hex(8)), rights)


def with_groups(new: accounts.Account, groups: Optional[str],
                old: Optional[accounts.Account]) -> accounts.Account:
    """The account with the form of groups that is given, or else that of before."""
    if groups == "categories" and accounts.is_reader(new):
        raise accounts.BadUsers("--groups is for users with a password")
    has = groups == "categories" if groups else bool(old and old.has_categories)
    return new._replace(has_categories=has and not accounts.is_reader(new))


def new_reader(given: argparse.Namespace, rights: Dict[str, str],
               old: Optional[accounts.Account]) -> accounts.Account:
    """A user who comes by a token, which is printed, or from addresses."""
    if given.token and given.ranges or given.no_password:
        raise accounts.BadUsers("choose one of --token, --from and --no-password")
    if "rw" in rights.values():
        raise accounts.BadUsers("a token or an address only reads: --book BOOK:r")
    if old and not (given.token or given.ranges):
        return accounts.Account(old.hash, rights)
    if given.ranges:
        return accounts.Account(readers.by_address(given.ranges), rights)
    token = readers.new_token()
    print(token)
    return accounts.Account(readers.by_token(token), rights)


def new_password(name: str, has_old: bool) -> str:
    """The password from the terminal, twice, or a line of standard input."""
    if not sys.stdin.isatty():
        return sys.stdin.readline().rstrip("\r\n")
    hint = " (empty: as it is)" if has_old else ""
    password = getpass.getpass(f"Password of {name}{hint}: ")
    if password and getpass.getpass("Again: ") != password:
        raise accounts.BadUsers("the two passwords differ")
    return password
