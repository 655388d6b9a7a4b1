"""Replies written out by hand, and a walk over rows of requests and such replies.

A row is a title, a request, and its reply: a status with its phrase, and a body. All rows of a walk
come over one connection. The program and the model must both give the replies written by hand.
"""

from dialogue import ServedTest
from model.http import Session


def reply(status, body, close=False, allow=None):
    """The octets of a reply. JSON is an object, and any other body CSV."""
    body = body.encode() if isinstance(body, str) else body
    lines = [
        f"HTTP/1.1 {status}",
        "Content-Type: " + ("application/json" if body.startswith(b"{") else "text/csv"),
        *([f"Allow: {allow}"] if allow else []),
        f"Content-Length: {len(body)}",
        "Connection: " + ("close" if close else "keep-alive"),
    ]
    return "".join(line + "\r\n" for line in [*lines, ""]).encode() + body


def fault(text, number, **more):
    """The body of a refusal or a fault, its keys in order."""
    parts = {"fault": f'"{text}"', "number": number, **more}
    return "{" + ",".join(f'"{key}":{parts[key]}' for key in sorted(parts)) + "}"


def card_text(uid, name, *lines):
    """The text of a card with further lines, as JSON has it."""
    lines = ["BEGIN:VCARD", "VERSION:4.0", f"UID:{uid}", f"FN:{name}", *lines, "END:VCARD"]
    return "".join(line + r"\r\n" for line in lines)


def stored_member(uid, name, version):
    """A member of a page that is there."""
    text = card_text(uid, name)
    return f'{{"card":"{text}","status":200,"uid":"{uid}","version":{version}}}'


def removed_member(uid):
    """A member of a page that was removed."""
    return f'{{"status":404,"uid":"{uid}"}}'


def page(token, *members, more=False):
    """A page; `token` is the three numbers of its token."""
    token = f"http://contacts.invalid/sync/{token}"
    truncated = "true" if more else "false"
    return f'{{"members":[{",".join(members)}],"token":"{token}","truncated":{truncated}}}'


class WalkTest(ServedTest):
    """A test whose server has a new file, over which rows are walked."""

    maxDiff = None

    def walk(self, rows):
        """Sends the requests one after another, and compares each reply."""
        session = Session(self.office)
        with self.server.connect() as connection:
            for title, request, status, body in rows:
                wanted = reply(status, body)
                computed = session.feed(request)
                connection.send(request)
                replied = connection.reply()
                with self.subTest(title):
                    self.same(wanted, computed, f"by the model: {request[:500]!r}")
                    self.same(wanted, replied, f"after {request[:500]!r}")

    def end(self, title, octets, wanted):
        """Sends octets on a connection of their own, which the server closes after the replies."""
        session = Session(self.office)
        computed = session.feed(octets)
        with self.server.connect() as connection:
            connection.send(octets)
            replied = connection.rest()
        with self.subTest(title):
            self.same(wanted, computed, f"by the model: {octets[:500]!r}")
            self.assertTrue(session.closed)
            self.same(wanted, replied, f"after {octets[:500]!r}")

    def same(self, wanted, replied, message):
        """Compares octets. Long ones aren't shown in full."""
        if wanted != replied:
            self.assertEqual(wanted[:5_000], replied[:5_000], message)
            self.fail(f"{len(replied)} octets in place of {len(wanted)}, {message}")
