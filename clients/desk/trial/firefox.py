"""Drives a headless Firefox by WebDriver BiDi, with Python's standard library alone.

It and its pages have the functions of `browser` that the office's day and the faults' steps use.
"""

import json

import pages
from browser import ALT, CTRL, SHIFT
from driver import Driver, Socket

KEYS = {
    "Enter": "\ue007", "Escape": "\ue00c", "Tab": "\ue004", "F2": "\ue032",
    "ArrowUp": "\ue013", "ArrowRight": "\ue014", "ArrowDown": "\ue015",
}
MODIFIERS = {SHIFT: "\ue008", CTRL: "\ue009", ALT: "\ue00a"}
EVENTS = ["log.entryAdded", "network.beforeRequestSent", "browsingContext.userPromptOpened"]
# Nothing is asked of others than the office, and no page of Firefox's own is in the way.
SETTINGS = {
    # Dark: Firefox has no command for another scheme, and Chromium shows both.
    "layout.css.prefers-color-scheme.content-override": 0,
    "intl.accept_languages": "en-GB",
    "app.normandy.enabled": False, "app.update.disabledForTesting": True,
    "browser.safebrowsing.downloads.enabled": False,
    "browser.aboutwelcome.enabled": False, "browser.download.alwaysOpenPanel": False,
    "browser.shell.checkDefaultBrowser": False, "browser.startup.page": 0,
    "datareporting.policy.dataSubmissionEnabled": False, "extensions.update.enabled": False,
    # No request of a page opens a dialog for a password, which nobody could answer here.
    "network.auth.subresource-http-auth-allow": 0,
    "devtools.jsonview.enabled": False,
    "network.captive-portal-service.enabled": False, "network.connectivity-service.enabled": False,
    "network.http.phishy-userpass-length": 255, "services.settings.server": "data:,",
    "toolkit.telemetry.reportingpolicy.firstRun": False,
    # After it was killed, it starts as before.
    "browser.sessionstore.resume_from_crash": False, "toolkit.startup.max_resumed_crashes": -1,
}


class Firefox(Driver):
    def __init__(self, program, name=None):
        super().__init__(program, "firefox")
        settings = {**SETTINGS, **({"network.dns.localDomains": name} if name else {})}
        lines = (f"user_pref({json.dumps(it)}, {json.dumps(to)});" for it, to in settings.items())
        (self.folder / "user.js").write_text("\n".join(lines))
        self.again()

    def again(self):
        """Starts the browser, with what it kept before it was closed or killed."""
        (self.folder / "lock").unlink(missing_ok=True)
        command = [self.program, "--headless", "--no-remote", "--remote-debugging-port", "0",
                   "--profile", self.folder]
        try:
            said = self.start(command, "WebDriverBiDiServer.json",
                              lambda it: it.strip().endswith("}"), {"LC_ALL": "C.UTF-8"})
            self.socket = Socket(json.loads(said)["ws_port"], "/session")
            self.call("session.new", capabilities={"alwaysMatch": {"acceptInsecureCerts": True}})
            self.call("session.subscribe", events=EVENTS)
        except Exception:
            self.close()
            raise

    def call(self, method, **parameters):
        reply = self.ask({"method": method, "params": parameters})
        if reply["type"] == "error":
            raise RuntimeError(f"{method}: {reply['error']} {reply['message']}")
        return reply["result"]

    def heard(self, event):
        given = event.get("params", {})
        page = self.pages.get(given.get("context") or given.get("source", {}).get("context"))
        if not page:
            return
        if event["method"] == "log.entryAdded" and given["level"] == "error":
            page.said.append(given["text"] or "")
        elif event["method"] == "network.beforeRequestSent":
            page.requested(given["request"]["method"], given["request"]["url"])
        elif event["method"] == "browsingContext.userPromptOpened":
            page.dialogs.append(given["message"])

    def context(self):
        """A new profile: its own storage, as of another user."""
        made = self.call("browser.createUserContext", acceptInsecureCerts=True)
        return made["userContext"]

    def page(self, profile=None, width=1280, height=800):
        where = {"userContext": profile} if profile else {}
        tab = self.call("browsingContext.create", type="tab", **where)["context"]
        page = Page(self, tab, profile or "default")
        self.pages[tab] = page
        page.size(width, height)
        return page

    def another(self, name=None):
        """Another browser, with nothing kept. It takes `name` for one of this machine."""
        return Firefox(self.program, name)

    def close(self):
        self.end("browser.close")


class Page(pages.Page):
    schemes = ("dark",)  # as it was started: it has no command for another one

    def __init__(self, browser, tab, context):
        super().__init__(browser, context)
        self.tab = tab

    def call(self, method, **parameters):
        return self.browser.call(method, context=self.tab, **parameters)

    def size(self, width, height, mobile=False):
        self.call("browsingContext.setViewport", viewport={"width": width, "height": height})

    def front(self):
        self.call("browsingContext.activate")

    def scheme(self, name):
        pass

    def navigate(self, address):
        self.call("browsingContext.navigate", url=address, wait="none")

    def evaluate(self, expression):
        done = self.browser.call(
            "script.evaluate", expression=expression, target={"context": self.tab},
            awaitPromise=True, userActivation=True,
        )
        if done["type"] == "exception":
            raise RuntimeError(done["exceptionDetails"]["text"])
        return done["result"]

    def run(self, expression):
        """The value of an expression, awaited if it is a promise."""
        found = self.evaluate(f"(async () => JSON.stringify(await ({expression})))()")
        return json.loads(found["value"]) if "value" in found else None

    def keys(self, actions):
        self.call(
            "input.performActions", actions=[{"type": "key", "id": "keys", "actions": actions}],
        )

    def key(self, name, modifiers=0, code=None):
        held = [sign for bit, sign in MODIFIERS.items() if modifiers & bit]
        value = KEYS.get(name, name)
        self.keys(
            [{"type": "keyDown", "value": it} for it in [*held, value]]
            + [{"type": "keyUp", "value": it} for it in [value, *reversed(held)]]
        )

    def write(self, text):
        """Types a text key by key."""
        self.keys([{"type": kind, "value": it} for it in text for kind in ("keyDown", "keyUp")])

    def type(self, text):
        self.write(text)

    def click(self, x, y, modifiers=0):
        held = [sign for bit, sign in MODIFIERS.items() if modifiers & bit]
        self.keys([{"type": "keyDown", "value": it} for it in held])
        self.call("input.performActions", actions=[{
            "type": "pointer", "id": "mouse", "actions": [
                {"type": "pointerMove", "x": round(x), "y": round(y)},
                {"type": "pointerDown", "button": 0}, {"type": "pointerUp", "button": 0},
            ],
        }])
        self.keys([{"type": "keyUp", "value": it} for it in held])

    def choose_file(self, selector, path):
        found = self.evaluate(f"document.querySelector({json.dumps(selector)})")
        self.call("input.setFiles", element={"sharedId": found["sharedId"]}, files=[str(path)])

    def keep_downloads(self, folder):
        self.browser.call(
            "browser.setDownloadBehavior", userContexts=[self.context],
            downloadBehavior={"type": "allowed", "destinationFolder": str(folder)},
        )

    def shot(self):
        return self.call("browsingContext.captureScreenshot")["data"]
