"""The command line: `ldap`."""

import argparse
import os
import signal
import ssl
import sys
import threading
from typing import List

from tosculai import Error

from gateway import accounts
from gateway.books import Shelf
from gateway.front import say
from gateway.numbers import COUNTRY
from gateway.office import Offices, new_office
from gateway.photos import Photos
from gateway.state import State

from directory.entries import Directory
from directory.server import Server

USAGE = """Printers, scanners, phones and mail programs read the books of Tosculai by LDAP.

Users, tokens and addresses are those of the CardDAV gateway (`carddav user add`), by its --state.
"""
STATE = "/var/lib/tosculai-carddav"


def parser() -> argparse.ArgumentParser:
    made = argparse.ArgumentParser(prog="ldap", description=USAGE,
                                   formatter_class=argparse.RawDescriptionHelpFormatter)
    made.add_argument("--server", default="http://127.0.0.1:8080", metavar="URL|unix:PATH",
                      help="the contact server (%(default)s)")
    made.add_argument("--state", default=STATE, metavar="DIR",
                      help="the folder of the gateway, with its file of users (%(default)s)")
    made.add_argument("--base", default="o=office", metavar="NAME",
                      help="the name of the directory (%(default)s)")
    made.add_argument("--address", default="127.0.0.1", help="listen here (%(default)s)")
    made.add_argument("--port", type=int, required=True, metavar="P", help="0 chooses one")
    made.add_argument("--cert", metavar="FILE", help="a certificate: TLS from the first octet on")
    made.add_argument("--certificate", metavar="FILE",
                      help="a certificate: TLS when a program asks for it (StartTLS)")
    made.add_argument("--key", metavar="FILE", help="its key, if it isn't in the same file")
    made.add_argument("--require-tls", action="store_true",
                      help="take no password without TLS, from this machine neither")
    made.add_argument("--plain-passwords", action="store_true",
                      help="take passwords without TLS from other machines, too")
    made.add_argument("--country", default="", metavar="CODE",
                      help="the office's country, as 353, for national numbers")
    return made


def main(arguments: List[str]) -> int:
    made = parser()
    given = made.parse_args(arguments)
    if given.country and not COUNTRY.fullmatch(given.country):
        made.error(f"--country {given.country}: a code has one to three digits, as 353")
    fault = wrong_tls(given)
    if fault:
        made.error(fault)
    try:
        return serve(given)
    except (accounts.BadUsers, OSError, ValueError, Error) as fault:
        print(f"ldap: {fault}", file=sys.stderr)
        return 3


def wrong_tls(given: argparse.Namespace) -> str:
    """What is wrong with the options for TLS, if anything."""
    has_certificate = given.cert or given.certificate
    if given.key and not has_certificate:
        return "--key needs --cert or --certificate"
    if given.cert and given.certificate:
        return "choose --cert (TLS from the first octet on) or --certificate (StartTLS)"
    if given.require_tls and not has_certificate:
        return "--require-tls needs --cert or --certificate"
    if given.require_tls and given.plain_passwords:
        return "choose --require-tls or --plain-passwords"
    return ""


def serve(given: argparse.Namespace) -> int:
    """Serves until it is stopped. Its copy of the books is in memory: no file outlives it."""
    new_office(given.server)
    shelf = Shelf(Offices(given.server), State(":memory:"),
                  Photos(os.path.join(given.state, "photos")), say, given.country)
    users = accounts.Users(os.path.join(given.state, "users"), False)
    if not users.accounts():
        say(accounts.how_to_begin(users.path))
    tls = None
    if given.cert or given.certificate:
        tls = ssl.SSLContext(ssl.PROTOCOL_TLS_SERVER)
        tls.load_cert_chain(given.cert or given.certificate, given.key)
    server = Server(given.address, given.port, Directory(shelf, given.base), users, tls,
                    given.plain_passwords, bool(given.certificate), given.require_tls)
    print(f"listening {given.address}:{server.server_address[1]}", flush=True)
    threading.Thread(target=load, args=(shelf,), daemon=True).start()
    signal.signal(signal.SIGTERM, lambda *_: sys.exit(0))
    try:
        server.serve_forever()
    except KeyboardInterrupt:
        pass
    return 0


def load(shelf: Shelf) -> None:
    """Reads all books aside, so that no printer waits for that."""
    try:
        for name in shelf.names():
            shelf.book(name).refresh()
            shelf.book(name).people()
    except Exception as fault:
        say(f"the books aren't read yet: {fault}")
