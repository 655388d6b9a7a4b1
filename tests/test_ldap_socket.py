"""The LDAP directory of a contact server that is at a socket of the file system."""

import unittest

from http_requests import card
from python_client import Forwarder
from test_ldap import LdapTest


class Sockets(LdapTest):
    @classmethod
    def url(cls):
        path = str(cls.folder / "server.sock")
        cls.forwarder = Forwarder(path, cls.stack.server.address)
        cls.addClassCleanup(cls.forwarder.listener.close)
        return "unix:" + path

    def test_a_search(self):
        self.assertEqual("a", self.found("(sn=mue*)"))
        self.staff.put(card("a", "Anna Weiß"))
        self.assertEqual(("a", ""), (self.found("(sn=weiss)"), self.found("(sn=müller)")))


if __name__ == "__main__":
    unittest.main()
