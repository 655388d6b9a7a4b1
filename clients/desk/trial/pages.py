"""What the pages of both browsers have in common: waiting, loading, and pressing what is seen."""

import base64
import json
import time
from pathlib import Path

SECONDS = 90  # that a page has for each thing

# The middle of a button or link by its text. Whether it was pressed is kept, as what is there may
# be drawn anew, or elsewhere, between this and the press.
FIND = """(() => {{
    const kinds = 'button, a, summary, label, [role=option]';
    const isIt = (it) => it?.textContent.trim().startsWith({text});
    const it = [...({within}).querySelectorAll(kinds)].find((it) => it.offsetParent && isIt(it));
    if (!it) return null;
    window.isMissed = true;
    addEventListener('click', (event) => {{
        window.isMissed = window.isMissed && !isIt(event.target.closest(kinds));
    }}, {{ capture: true, once: true }});
    it.scrollIntoView({{ block: 'nearest' }});
    const box = it.getBoundingClientRect();
    return [box.x + box.width / 2, box.y + box.height / 2];
}})()"""

# What goes away by itself, as a message, stays longer where all takes longer.
LONGER = """((times) => {
    const real = window.setTimeout;
    window.setTimeout = (run, pause, ...all) =>
        real(run, pause >= 5000 && pause < 16000 ? pause * times : pause, ...all);
})"""


class Page:
    """
    A page of a browser. Each browser's own has `run`, `navigate`, `click`, `shot`, and typing.
    """

    slow = 1  # how many times as long all may take
    was_left = False  # by Tab

    def __init__(self, browser, context):
        self.browser = browser
        self.context = context
        self.said = []  # errors of scripts and of the console
        self.dialogs = []
        self.asked = []  # addresses of requests
        self.wrote = []  # methods and addresses of those that may change something

    def requested(self, method, address):
        self.asked.append(address)
        if method != "GET":
            self.wrote.append((method, address))

    def go(self, address):
        """Loads the address, and waits until its scripts have run."""
        self.run("window.isOld = true")
        self.navigate(address)
        self.wait("!window.isOld && document.readyState === 'complete'")
        if self.slow > 1:
            self.run(f"{LONGER}({self.slow})")

    def enter(self, address, user, path=""):
        """
        Loads the address as a user. The password goes in by the address of the books: the page's
        own files may come from what the browser keeps, and the server wouldn't hear of it.
        """
        scheme, rest = address.split("://")
        self.go(f"{scheme}://{user}:{user}-pw@{rest}{path or 'books'}")
        if not path:
            self.go(address)

    def wait(self, expression, seconds=SECONDS):
        """Waits until an expression is true. Returns its value."""
        end = time.monotonic() + seconds * self.slow
        while True:
            try:
                value = self.run(expression)
            except RuntimeError:
                value = None
            # An element comes as {}.
            if value or value == {}:
                return value
            if time.monotonic() > end:
                raise AssertionError(f"never true: {expression}\n{self.said}")
            time.sleep(0.05)

    def rest(self, milliseconds):
        """Lets the page go on by itself for a while."""
        self.run(f"new Promise((done) => setTimeout(done, {milliseconds}))")

    def picture(self, path):
        Path(path).write_bytes(base64.b64decode(self.shot()))

    def press(self, text, within="document"):
        """Clicks the button or link with this text, with the mouse."""
        find = FIND.format(within=within, text=json.dumps(text))
        for _ in range(5):
            self.click(*self.wait(find))
            if not self.run("window.isMissed"):
                return
        raise AssertionError(f"it can't be pressed: {text}")
