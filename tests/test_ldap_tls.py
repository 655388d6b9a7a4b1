"""The LDAP directory with TLS: from the first octet on, and when a program asks for it."""

import os
import shutil
import socket
import subprocess
import unittest

from carddav_client import PASSWORD
from ldap_client import number, text, trusting, write
from program import PATIENCE
from test_ldap import STAFF, LdapTest


@unittest.skipUnless(shutil.which("openssl"), "no openssl")
class Tls(LdapTest):
    options = ()

    @classmethod
    def make_certificate(cls):
        cls.cert = cls.folder / "cert.pem"
        names = "subjectAltName=DNS:localhost,IP:127.0.0.1"  # ldapsearch asks for either
        subprocess.run(["openssl", "req", "-x509", "-newkey", "rsa:2048", "-nodes", "-subj",
                        "/CN=localhost", "-addext", names, "-keyout", cls.folder / "key.pem",
                        "-out", cls.cert], check=True, stderr=subprocess.DEVNULL)

    @classmethod
    def start(cls, *more):
        cls.make_certificate()
        super().start("--cert", cls.cert, "--key", cls.folder / "key.pem", *cls.options)

    def client(self, name="", password="", **more):
        return super().client(name, password, tls=trusting(self.cert))

    def test_it_is_private(self):
        self.assertEqual("a", self.found("(sn=mul*)"))
        with socket.create_connection(("127.0.0.1", self.port), PATIENCE) as one:
            one.sendall(b"\x30\x0c\x02\x01\x01\x60\x07\x02\x01\x03\x04\x00\x80\x00")
            try:
                self.assertNotIn(b"\x61\x07", one.recv(1000))
            except ConnectionResetError:
                pass


@unittest.skipUnless(shutil.which("openssl"), "no openssl")
class StartTls(Tls):
    """TLS begins when it is asked for; without it no password is taken."""

    options = ("--require-tls",)

    @classmethod
    def start(cls, *more):
        cls.make_certificate()
        LdapTest.start.__func__(cls, "--certificate", cls.cert, "--key", cls.folder / "key.pem",
                                *cls.options)

    def client(self, name="", password="", has_tls=True):
        one = LdapTest.client(self)
        if has_tls:
            self.assertEqual(0, one.start_tls(trusting(self.cert)).code)
        if name:
            self.assertEqual(0, one.bind(name, password).code)
        return one

    def test_it_is_private(self):
        self.assertEqual("a", self.found("(sn=mul*)"))
        self.assertEqual("TLS", self.ldap.socket.version()[:3])

    def test_a_password_in_the_clear(self):
        one = self.client(has_tls=False)
        for password in PASSWORD, "wrong":
            result = one.bind("bob", password)
            self.assertEqual((13, "begin with StartTLS: no password without TLS"),
                             (result.code, result.words))
        self.assertEqual(0, one.bind("", "").code)
        self.assertEqual(50, one.search(STAFF).code)
        self.assertEqual(0, one.start_tls(trusting(self.cert)).code)
        self.assertEqual((0, 0), (one.bind("bob", PASSWORD).code, one.search(STAFF).code))

    def test_once(self):
        self.assertEqual(1, self.ldap.start_tls(None).code)
        self.assertEqual("abcg", self.found("(uid=*)"))

    def test_it_is_told(self):
        root = self.client(has_tls=False).search("", scope=0, wanted=["supportedExtension"])
        self.assertIn("1.3.6.1.4.1.1466.20037", root.entries[""]["supportedExtension"])

    def test_what_comes_before_tls_is_dropped(self):
        """Somebody between adds a request in the clear: it isn't answered within TLS."""
        one = self.client(has_tls=False)
        with self.assertRaises((OSError, EOFError)):
            one.start_tls(trusting(self.cert), write(0x30, number(9), write(0x60, number(3),
                          text(""), text("", 0x80))))
            one.search(STAFF)

    def test_a_value_and_no_handshake(self):
        one = self.client(has_tls=False)
        name = text("1.3.6.1.4.1.1466.20037", 0x80)
        self.assertEqual(2, one.ask(write(0x77, name, text("x", 0x81))).code)
        self.assertEqual(0, one.ask(write(0x77, name)).code)
        one.socket.sendall(b"\x30\x0c\x02\x01\x01\x60\x07\x02\x01\x03\x04\x00\x80\x00")
        try:
            while one.socket.recv(1000):
                pass
        except ConnectionResetError:
            pass

    @unittest.skipUnless(shutil.which("ldapsearch"), "no ldapsearch")
    def test_ldapsearch(self):
        ran = subprocess.run(["ldapsearch", "-x", "-ZZ", "-LLL", "-H",
                              f"ldap://127.0.0.1:{self.port}", "-D", "bob", "-w", PASSWORD, "-b",
                              "o=office", "(sn=mue*)", "mail"], stdout=subprocess.PIPE,
                             check=True, env={**os.environ, "LDAPTLS_CACERT": str(self.cert)})
        self.assertIn(f"dn: uid=a,{STAFF}\n", ran.stdout.decode())


@unittest.skipUnless(shutil.which("openssl"), "no openssl")
class StartTlsAsked(StartTls):
    """The same without --require-tls: from this machine a password is taken without TLS, too."""

    options = ()

    def test_a_password_in_the_clear(self):
        one = self.client("bob", PASSWORD, has_tls=False)
        self.assertEqual(0, one.search(STAFF).code)
        page = one.search(STAFF, size=1)
        self.assertEqual(0, one.start_tls(trusting(self.cert)).code)
        self.assertEqual(50, one.search(STAFF).code)  # who it was was said in the clear
        self.assertEqual(0, one.bind("bob", PASSWORD).code)
        self.assertEqual(53, one.search(STAFF, size=1, cookie=page.cookie).code)


@unittest.skipUnless(shutil.which("openssl"), "no openssl")
class RequiredTls(Tls):
    """From the first octet on, and required: nothing more is asked for."""

    options = ("--require-tls",)

    def test_start_tls(self):
        self.assertEqual(1, self.ldap.start_tls(None).code)


if __name__ == "__main__":
    unittest.main()
