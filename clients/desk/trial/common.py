"""What all trials of the desk share: where things are on the page, the desks, and waiting."""

import json
import time

from office import logical, uid_path
from pages import Page

ROWS = "[...document.querySelectorAll('#list [role=option] .name')].map((it) => it.textContent)"
STATE = "(document.querySelector('#state span')?.textContent ?? '')"
TITLE = "document.querySelector('#card-name')?.textContent"
# The first line of a file with columns.
HEADER = "uid,fn,family,given,email,tel,org,note\n"


class Trial:
    """An office, a browser, and the desks that are open in it."""

    def __init__(self, office, browser, pictures):
        self.office = office
        self.browser = browser
        self.pictures = pictures
        self.desks = {}

    def desk(self, user, name=None, **size):
        """A desk of a user, with a profile of its own."""
        page = self.browser.desk(self.office.front, user, **size)
        page.wait("document.querySelector('#books button')")
        self.desks[name or user] = page
        return page

    def quiet(self):
        """No script failed, nothing was alerted, and no other server was asked."""
        for user, page in self.desks.items():
            loud = [it for it in page.said if "Failed to load resource" not in it]
            assert not loud, f"{user}: {loud}"
            assert not page.dialogs, page.dialogs
            near = (self.office.front, "data:", "blob:", "about:blank")
            far = [it for it in page.asked if not it.startswith(near) and "@127.0.0.1" not in it]
            assert not far, far

    def failed(self, name):
        for user, page in self.desks.items():
            try:
                page.picture(self.pictures / f"failed-{name}-{user}.png")
                page.said.clear()
                page.size(1280, 800)
            except Exception:
                pass  # the browser is gone
        # The next steps find the network and a desk as they would have without this one.
        self.office.reopen()
        self.desks.pop("away", None)


def until(condition, seconds=60):
    """Waits until a function answers something. Returns that."""
    end = time.monotonic() + seconds * Page.slow
    while True:
        value = condition()
        if value:
            return value
        assert time.monotonic() < end, "it never came to be"
        time.sleep(0.1)


def keep_files(page):
    """Waits until the desk can start without the network."""
    page.wait("""navigator.serviceWorker.controller && caches.keys().then((names) => Promise.all(
        names.map((it) => caches.match('./', { cacheName: it }))))
        .then((pages) => pages.some(Boolean))""")


def toast(page, text):
    page.wait(f"document.querySelector('#toast').textContent.includes({json.dumps(text)})")


def status(office, book, uid):
    """The status of a request for a card: 200 if it is there."""
    return office.request("GET", f"/books/{book}/cards/{uid_path(uid)}")[0]


def card_with(office, book, uid, *lines):
    """Waits until the server's card has the lines. Returns all of its lines."""

    def found():
        if status(office, book, uid) != 200:
            return None
        text = logical(office.card(book, uid)["card"])
        return text if all(it in text for it in lines) else None

    return until(found)
