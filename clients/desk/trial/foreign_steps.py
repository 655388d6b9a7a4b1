"""Steps about a page of another site, in a browser that knows the office: it writes nothing."""

import http.client
import http.server
import json
import ssl
import threading

from common import until
from office import card
from site_steps import Alone
from steps import fault

ROWS = "uid,fn,family,given,email,tel,org,note\n{uid},Evil,,,,,,a=b\n"
HIDDEN = "Hidden Hanna"  # a card's name, which no page of another site may read
NAME = "rebound.example"
# A form as a page of another site sends it: its only input has the rows up to the equals sign for
# its name. In a frame of a sandbox it has no origin.
SUBMIT = """(([address, body, isInSandbox]) => {
    const [name, value] = body.split('=');
    const fill = (page) => {
        const form = page.createElement('form');
        form.method = 'post';
        form.enctype = 'text/plain';
        form.action = address;
        const input = page.createElement('input');
        [input.type, input.name, input.value] = ['hidden', name, value?.trim()];
        if (body) form.append(input);
        page.body.append(form);
        form.submit();
    };
    if (!isInSandbox) {
        fill(document);
        return;
    }
    const frame = document.createElement('iframe');
    frame.sandbox = 'allow-scripts allow-forms';
    frame.srcdoc = `<body><script>const [address, name, value, body] = ${
        JSON.stringify([address, name, value?.trim(), body])};(${fill})(document)</scr` + 'ipt>';
    document.body.append(frame);
})"""
# What became of a request by a script: whether the script saw an answer.
FETCH = """(([address, method, mode, body, credentials = 'include']) =>
    fetch(address, { method, mode, body: body || undefined, credentials })
        .then(async (reply) => [reply.type, reply.status, await reply.text()],
            () => ['none', 0, '']))"""
BEACON = "(([address, body]) => navigator.sendBeacon(address, body))"


def called(page, script, *values):
    return page.run(f"{script}({json.dumps(values)})")


class Page(http.server.BaseHTTPRequestHandler):
    """A page without anything: the steps give it what it does."""

    def do_GET(self):
        text = b"<!doctype html><title>Another site</title><body>"
        self.send_response(200)
        self.send_header("Content-Type", "text/html")
        self.send_header("Content-Length", str(len(text)))
        self.end_headers()
        self.wfile.write(text)

    def log_message(self, *_):
        pass


class Older(Page):
    """Passes requests on as a browser would send them that adds neither of the two fields."""

    def do_POST(self):
        body = self.rfile.read(int(self.headers.get("Content-Length", 0)))
        connection = http.client.HTTPConnection("127.0.0.1", self.server.to, timeout=30)
        connection.request("POST", self.path, body)
        status = connection.getresponse().status
        connection.close()
        self.send_response(status)
        self.send_header("Content-Length", "0")
        self.end_headers()


class Server:
    """An HTTP server in a thread, at a port of its own or a given one."""

    def __init__(self, handler=Page, port=0, to=None, folder=None):
        self.server = http.server.ThreadingHTTPServer(("127.0.0.1", port), handler)
        self.server.to = to
        if folder:
            context = ssl.SSLContext(ssl.PROTOCOL_TLS_SERVER)
            context.load_cert_chain(folder / "office.pem", folder / "office.key")
            self.server.socket = context.wrap_socket(self.server.socket, server_side=True)
        self.port = self.server.server_address[1]
        threading.Thread(target=self.server.serve_forever, daemon=True).start()

    def end(self):
        self.server.shutdown()
        self.server.server_close()


def changes(number):
    """Paths of requests that change the books, and their bodies."""
    return [
        (f"books/staff/import?key=k{number}", ROWS.format(uid=f"evil{number}")),
        ("books/staff/cards/hidden/move?to=clients", ""),
        ("books/staff/forget?upto=3", ""),
    ]


def attack(page, other, office, number, heard):
    """
    All that a page at `other` can send to `office`. `heard` says how many changes came there so
    far. Returns how many came from here.
    """
    before = heard()
    for sent, (path, body) in enumerate(changes(number)):
        page.go(other)
        called(page, SUBMIT, office + path, body, False)
        page.wait(f"location.href.startsWith({json.dumps(office)})", 20)
        page.go(other)
        reply = called(page, FETCH, office + path, "POST", "no-cors", body)
        assert reply[0] in ("opaque", "none") and not reply[2], reply
        called(page, SUBMIT, office + path, body, True)
        called(page, BEACON, office + path, body)
        until(lambda: heard() >= before + 4 * sent + 4)
    for method, path, body in (
        ("PUT", "books/staff/cards/evil", card("evil", "FN:Evil")),
        ("PUT", "books/evil", ""), ("DELETE", "books/staff/cards/hidden", ""),
        ("GET", "books/staff/sync", ""),
    ):
        reply = called(page, FETCH, office + path, method, "cors", body)
        assert reply == ["none", 0, ""], (method, path, reply)
    reply = called(page, FETCH, office + "books/staff/sync", "GET", "no-cors", "")
    assert reply == ["opaque", 0, ""] or reply[0] == "none", reply
    return heard() - before


def prepare(ask):
    """Two books, a card, and a removal that can be forgotten."""
    for book in ("staff", "clients"):
        ask("PUT", f"/books/{book}")
    for uid in ("hidden", "removed"):
        ask("PUT", f"/books/staff/cards/{uid}", card(uid, f"FN:{HIDDEN}"))
    ask("DELETE", "/books/staff/cards/removed")
    return state(ask)


def state(ask):
    """All that the books have, in octets."""
    return [ask("GET", f"/books{path}") for path in (
        "", "/staff/sync", "/staff/tally", "/clients/sync", "/clients/tally")]


@fault
def other_site(trial):
    """A page of another site writes nothing: to the program alone, and with nginx before it."""
    alone = Alone(trial.office, "guarded")
    other, older = Server(), Server(Older, to=alone.port)
    sites = [f"http://{name}:{other.port}/" for name in ("localhost", "127.0.0.1")]
    def refused():
        return alone.log().count("refused foreign-site 32 status 403")

    try:
        before = prepare(alone.ask)
        page = trial.browser.page(trial.browser.context())
        sent = sum(
            attack(page, site, f"http://{name}:{alone.port}/", number, refused)
            for number, (site, name) in enumerate(
                (site, name) for site in sites for name in ("127.0.0.1", "localhost")))
        assert state(alone.ask) == before
        # The same requests without the two fields are accepted: so it is the guard that refuses.
        attack(page, sites[0], f"http://127.0.0.1:{older.port}/", 9,
               lambda: alone.log().count("request POST "))
        after = state(alone.ask)
        assert b"Evil" in after[1] and HIDDEN.encode() in after[3] and after[2] != before[2], after
    finally:
        for it in (alone, other, older):
            it.end()
    print(f"  {sent} requests to the program were refused")


@fault
def other_site_before_nginx(trial):
    """The same for a user who is logged in at nginx."""
    office = trial.office

    def ask(method, path, body=None):
        return office.request(method, path, body)[2]

    other = Server()
    try:
        before = prepare(ask)
        desk = trial.desks["admin"]
        page = trial.browser.page(desk.context)
        for number, name in enumerate(("localhost", "127.0.0.1")):
            attack(page, f"http://{name}:{other.port}/", office.front, number,
                   lambda: sum(" POST " in it for it in office.heard()))
        refused = [it for it in office.heard() if it.startswith("403 admin POST")]
        # A form that leads away from the page has the user's password.
        for path, _ in changes(0) + changes(1)[:1]:
            assert [it for it in refused if it.endswith(path)], (path, refused)
        wrote = [it for it in office.heard() if it[:3] in ("200", "201") and "evil" in it]
        assert not wrote, wrote
        assert state(ask) == before
    finally:
        other.end()
    print(f"  {len(refused)} requests with the user's password were refused")


def rebound(page, address, statuses, credentials):
    """What a page can do at a name that has become the office's: it reads nothing of the books."""
    for method, path, body in (
        ("GET", "books", ""), ("GET", "books/staff/sync", ""),
        ("GET", "books/staff/export?form=cards", ""), ("GET", "books/staff/cards/hidden", ""),
        ("PUT", "books/staff/cards/evil", card("evil", "FN:Evil")), ("PUT", "books/evil", ""),
        ("DELETE", "books/staff/cards/hidden", ""),
        *(("POST", path, body) for path, body in changes(5)),
    ):
        _, status, text = called(
            page, FETCH, address + path, method, "same-origin", body, credentials)
        assert status in statuses, (method, path, status, text)
        assert HIDDEN not in text and "staff" not in text, text


@fault
def rebound_name(trial):
    """A name of another site that is turned to the office's address reads and writes nothing."""
    office = trial.office

    def ask(method, path, body=None):
        return office.request(method, path, body)[2]

    alone = Alone(office, "rebound")
    browser = trial.browser.another(name=NAME)
    try:
        before = [prepare(alone.ask), prepare(ask)]
        page = browser.page(browser.context())
        # The page comes from the other site's server; after that the name is that of the office.
        alone.end()
        other = Server(port=alone.port)
        page.go(f"http://{NAME}:{alone.port}/")
        other.end()
        alone.begin()
        rebound(page, f"http://{NAME}:{alone.port}/", (421,), "include")
        assert "refused foreign-host 31 status 421" in alone.log()
        office.shut()
        other = Server(port=office.front_port, folder=office.folder)
        address = f"https://{NAME}:{office.front_port}/"
        page.go(address)
        other.end()
        office.open()
        rebound(page, address, (401,), "omit")  # a browser would ask for the password
        # Even with a password, as if a user had typed it there.
        page.enter(address, "admin", "books")
        rebound(page, address, (403, 421), "include")
        assert [state(alone.ask), state(ask)] == before
    finally:
        browser.close()
        alone.end()
        office.reopen()
