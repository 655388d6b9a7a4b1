"""What the tests of the gateway's feeds need: readers by tokens and from addresses."""

from carddav_client import HASH, USERS, Client, GatewayTest

from gateway import accounts, readers

TOKEN, OTHER, NOBODY = (it * 32 for it in "abc")  # of staff, of clients, and of nobody
HALL, ELSEWHERE = "10.1.2.3", "192.0.2.1"


class FeedTest(GatewayTest):
    """Beside the users there are two tokens, and addresses of desk phones that read staff."""

    more = ("--log",)

    @classmethod
    def setUpClass(cls):
        super().setUpClass()
        whole = {name: accounts.Account(HASH, rights) for name, rights in USERS.items()}
        whole["calendar"] = accounts.Account(readers.by_token(TOKEN), {"staff": "r"})
        whole["other"] = accounts.Account(readers.by_token(OTHER), {"clients": "r"})
        whole["phones"] = accounts.Account(readers.by_address(["10.0.0.0/8", "fd00::/8"]),
                                           {"staff": "r"})
        accounts.write(str(cls.stack.state / "users"), whole)

    def setUp(self):
        super().setUp()
        self.plain = Client(self.stack.place)
        self.plain.fields = {}  # no password
        self.addCleanup(self.plain.close)

    def get(self, path, token=TOKEN, **fields):
        """The reply to who has the token; to who has none if it is empty."""
        sign = "&" if "?" in path else "?"
        return self.plain.ask("GET", path + (f"{sign}token={token}" if token else ""), **fields)

    def text(self, path, status=200, **more):
        reply = self.get(path, **more)
        self.assertEqual(status, reply.status, reply)
        return reply.text

    def check_rights(self, path):
        """A feed of staff is served to its readers alone."""
        for status, reply in [
            (200, self.get(path)),
            (200, self.get(path, "", X_Real_IP=HALL)),
            (200, self.get(path, "", X_Real_IP="::ffff:10.9.9.9")),
            (200, self.get(path, "", X_Real_IP="fd00::1", X_Forwarded_For=ELSEWHERE)),
            (200, self.dav.ask("GET", path)),
            (401, self.get(path, "")),
            (401, self.get(path, NOBODY)),
            (401, self.get(path, NOBODY, X_Real_IP=HALL)),
            (401, self.get(path, "", X_Real_IP=ELSEWHERE)),
            (401, self.get(path, "", X_Real_IP=f"{HALL}, {ELSEWHERE}")),
            (401, self.get(path, "", X_Forwarded_For=HALL)),
            (401, self.get(path, TOKEN[:-1])),
            (403, self.get(path, OTHER)),
            (405, self.plain.ask("POST", f"{path}{'&' if '?' in path else '?'}token={TOKEN}")),
        ]:
            self.assertEqual(status, reply.status, reply)
            if status != 200:
                self.assertTrue(reply.body or reply.fields["X-Reason"])
                self.assertNotIn("Ann", reply.text)
        # A token opens nothing else.
        for method, place in [("GET", "/dav/books/staff/"), ("PROPFIND", "/dav/"),
                              ("GET", "/dav/photos/0/x")]:
            self.assertEqual(401, self.plain.ask(method, f"{place}?token={TOKEN}").status)
            self.assertEqual(401, self.plain.ask(method, place, X_Real_IP=HALL).status)
        logged = self.stack.logged()
        for words in f"calendar GET {path[:6]}", "refused 401 GET", "nobody has this token":
            self.assertIn(words, logged)
        for secret in TOKEN, OTHER, NOBODY:
            self.assertNotIn(secret, logged)
