"""Cyrus IMAP as Debian has it, as a peer: its httpd with contacts alone, below its master."""

import imaplib
import os
import shutil
import socket
import subprocess
import time
from pathlib import Path

from dav import Peer, free_port
from server import most_memory
from wire import PATIENCE, Failure

MASTER, FOLDERS = "/usr/sbin/cyrmaster", ("conf", "spool", "conf/proc", "conf/lock", "conf/socket")
USER, ADMIN, PASSWORD, REALM = "me", "cyrus", "me", "office"
OPTIONS = """\
configdirectory: {folder}/conf
defaultpartition: default
partition-default: {folder}/spool
proc_path: {folder}/conf/proc
mboxname_lockpath: {folder}/conf/lock
servername: office
admins: cyrus
allowplaintext: yes
sasl_mech_list: PLAIN
sasl_pwcheck_method: auxprop
sasl_auxprop_plugin: sasldb
sasl_sasldb_path: {folder}/conf/sasldb2
httpmodules: carddav
unixhierarchysep: yes
virtdomains: off
"""
SERVICES = """\
START {{
    recover cmd="ctl_cyrusdb -C {folder}/imapd.conf -r"
}}
SERVICES {{
    imap cmd="imapd -C {folder}/imapd.conf" listen="127.0.0.1:{imap}" prefork=0
    http cmd="httpd -C {folder}/imapd.conf" listen="127.0.0.1:{http}" prefork=1
}}
EVENTS {{
}}
"""


class Cyrus(Peer):
    """It needs root, becomes its own user, and keeps all below the folder."""

    name = "Cyrus"
    book, other = "/dav/addressbooks/user/me/staff/", "/dav/addressbooks/user/me/clients/"
    fields = b"Authorization: Basic bWU6bWU=\r\n"

    @staticmethod
    def version():
        """The version that is installed, if it can be run here."""
        if os.geteuid() or not shutil.which(MASTER):
            return ""
        said = subprocess.run(["dpkg-query", "-W", "-f", "${Version}", "cyrus-caldav"],
                              stdout=subprocess.PIPE, stderr=subprocess.DEVNULL, check=False)
        return said.stdout.decode()

    def command(self, port):
        self.imap = free_port()
        places = {"folder": self.folder, "http": port, "imap": self.imap}
        for name, text in ("imapd.conf", OPTIONS), ("cyrus.conf", SERVICES):
            Path(self.folder, name).write_text(text.format(**places), encoding="utf-8")
        for name in FOLDERS:
            Path(self.folder, name).mkdir(exist_ok=True)
        if not self.has_books:
            for user in USER, ADMIN:
                subprocess.run(["saslpasswd2", "-p", "-c", "-u", REALM, "-f",
                                f"{self.folder}/conf/sasldb2", user], input=PASSWORD.encode(),
                               check=True)
        os.chmod(self.folder, 0o755)
        subprocess.run(["chown", "-R", "cyrus:mail", self.folder], check=True)
        return [MASTER, "-C", f"{self.folder}/imapd.conf", "-M", f"{self.folder}/cyrus.conf",
                "-p", f"{self.folder}/conf/master.pid"]

    def _await(self, port):
        """Waits for the port, and makes the user's mailbox, without which there are no books."""
        super()._await(port)
        if not self.has_books:
            self.make_mailbox(time.monotonic() + PATIENCE)

    def make_mailbox(self, end):
        try:
            with imaplib.IMAP4("127.0.0.1", self.imap, timeout=PATIENCE) as talk:
                talk.login(ADMIN, PASSWORD)
                kind, said = talk.create(f"user/{USER}")
        except (OSError, socket.timeout, imaplib.IMAP4.error) as error:
            if time.monotonic() > end or "Fatal" in str(error):
                raise Failure(f"Cyrus takes no administrator: {error}") from None
            time.sleep(0.1)
            self.make_mailbox(end)
            return
        if kind != "OK":
            raise Failure(f"Cyrus makes no mailbox: {said}")

    def most_memory(self):
        """That of the master and of all processes that it has started."""
        return sum(most_memory(pid) for pid in [self.process.pid, *children(self.process.pid)])

    def move(self, number):
        target = f"Destination: http://office{self.other}{self._path(number).rpartition('/')[2]}\r\n"
        self._ask("MOVE", self._path(number), fields=target.encode())


def children(pid):
    """The processes that this one has started and that are still there."""
    return [int(it) for it in Path(f"/proc/{pid}/task/{pid}/children").read_text().split()]
