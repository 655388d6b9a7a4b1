"""Drives a headless Chromium by its DevTools protocol, with Python's standard library alone."""

import pages
from driver import Driver, Socket

KEYS = {
    "Enter": (13, "\r"),
    "Escape": (27, None),
    "ArrowDown": (40, None),
    "ArrowUp": (38, None),
    "ArrowRight": (39, None),
    "Home": (36, None),
    "End": (35, None),
    "F2": (113, None),
    "Tab": (9, None),
    " ": (32, " "),
}
ALT, CTRL, SHIFT = 1, 2, 8


class Browser(Driver):
    def __init__(self, program, arguments=(), with_bars=False):
        super().__init__(program, "chromium")
        self.arguments = [*arguments, *([] if with_bars else ["--hide-scrollbars"])]
        self.again()

    def again(self):
        """Starts the browser, with what it kept before it was closed or killed."""
        command = [
            self.program, "--headless=new", "--no-sandbox", "--disable-gpu", "--no-first-run",
            "--disable-background-networking", "--disable-component-update",
            "--disable-dev-shm-usage", "--remote-debugging-port=0", "--lang=en-GB",
            "--accept-lang=en-GB",
            f"--user-data-dir={self.folder}", *self.arguments, "about:blank",
        ]
        said = self.start(command, "DevToolsActivePort", lambda it: it.count("\n"))
        port, path = said.split("\n")[:2]
        self.socket = Socket(int(port), path)

    def call(self, method, session=None, **parameters):
        message = {"method": method, "params": parameters}
        reply = self.ask({**message, "sessionId": session} if session else message)
        if "error" in reply:
            raise RuntimeError(f"{method}: {reply['error']}")
        return reply["result"]

    def heard(self, event):
        page = self.pages.get(event.get("sessionId"))
        if page:
            page.heard(event)

    def context(self):
        """A new profile: its own storage, as of another user."""
        return self.call("Target.createBrowserContext")["browserContextId"]

    def page(self, context, width=1280, height=800):
        where = {"browserContextId": context} if context else {}
        target = self.call(
            "Target.createTarget", url="about:blank", newWindow=True, **where,
        )["targetId"]
        session = self.call("Target.attachToTarget", targetId=target, flatten=True)["sessionId"]
        page = Page(self, session, context)
        self.pages[session] = page
        for domain in ("Page", "Runtime", "Log", "Network"):
            page.call(f"{domain}.enable")
        page.size(width, height)
        return page

    def another(self, with_bars=False, name=None):
        """Another browser, with nothing kept. It takes `name` for one of this machine."""
        kept = [it for it in self.arguments if it != "--hide-scrollbars"]
        rules = [f"--host-resolver-rules=MAP {name} 127.0.0.1"] if name else []
        return Browser(self.program, [*kept, *rules], with_bars)

    def close(self):
        self.end("Browser.close")


class Page(pages.Page):
    schemes = ("dark", "light")

    def __init__(self, browser, session, context):
        super().__init__(browser, context)
        self.session = session

    def call(self, method, **parameters):
        return self.browser.call(method, self.session, **parameters)

    def heard(self, event):
        method, given = event["method"], event["params"]
        if method == "Runtime.exceptionThrown":
            details = given["exceptionDetails"]
            text = details.get("exception", {}).get("description") or details["text"]
            self.said.append(text)
        elif method == "Log.entryAdded" and given["entry"]["level"] == "error":
            entry = given["entry"]
            self.said.append(f"{entry['text']} {entry.get('url', '')}")
        elif method == "Page.javascriptDialogOpening":
            self.dialogs.append(given["message"])
        elif method == "Network.requestWillBeSent":
            self.requested(given["request"]["method"], given["request"]["url"])

    def size(self, width, height, mobile=False):
        self.call(
            "Emulation.setDeviceMetricsOverride",
            width=width, height=height, deviceScaleFactor=1, mobile=mobile,
        )

    def front(self):
        self.call("Page.bringToFront")

    def scheme(self, name):
        features = [{"name": "prefers-color-scheme", "value": name}]
        self.call("Emulation.setEmulatedMedia", features=features)

    def navigate(self, address):
        self.call("Page.navigate", url=address)

    def run(self, expression):
        """The value of an expression, awaited if it is a promise."""
        result = self.call(
            "Runtime.evaluate", expression=expression, awaitPromise=True, returnByValue=True,
            userGesture=True,
        )
        if "exceptionDetails" in result:
            raise RuntimeError(result["exceptionDetails"].get("exception", result))
        return result["result"].get("value")

    def type(self, text):
        self.call("Input.insertText", text=text)

    def key(self, name, modifiers=0, code=None):
        number, text = KEYS[name] if name in KEYS else (ord(name.upper()), None)
        given = {"key": name, "code": code or name, "windowsVirtualKeyCode": number,
                 "modifiers": modifiers}
        if text:
            given["text"] = text
        if modifiers == CTRL and name == "a":
            given["commands"] = ["selectAll"]
        self.call("Input.dispatchKeyEvent", type="keyDown", **given)
        self.call("Input.dispatchKeyEvent", type="keyUp", **given)

    def write(self, text):
        """Types a text key by key."""
        for sign in text:
            number = ord(sign.upper()) if sign.isalnum() else 0
            given = {"key": sign, "windowsVirtualKeyCode": number}
            self.call("Input.dispatchKeyEvent", type="keyDown", text=sign, **given)
            self.call("Input.dispatchKeyEvent", type="keyUp", **given)

    def click(self, x, y, modifiers=0):
        for kind in ("mousePressed", "mouseReleased"):
            self.call(
                "Input.dispatchMouseEvent", type=kind, x=x, y=y, button="left", clickCount=1,
                modifiers=modifiers,
            )

    def choose_file(self, selector, path):
        self.call("DOM.enable")
        root = self.call("DOM.getDocument")["root"]["nodeId"]
        node = self.call("DOM.querySelector", nodeId=root, selector=selector)["nodeId"]
        self.call("DOM.setFileInputFiles", nodeId=node, files=[str(path)])

    def keep_downloads(self, folder):
        self.browser.call(
            "Browser.setDownloadBehavior", behavior="allow", browserContextId=self.context,
            downloadPath=str(folder),
        )

    def shot(self):
        return self.call("Page.captureScreenshot", format="png")["data"]
