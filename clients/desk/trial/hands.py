"""Somebody who uses the desk by the keyboard alone: Tab, arrows, Enter, Space, and letters."""

import json

from browser import CTRL, SHIFT

# Where the focus is, with what a user sees of it, and what a screen reader calls it.
FOCUS = """(() => {
    const node = document.activeElement;
    if (!node || node === document.body) return null;
    const box = node.getBoundingClientRect();
    const style = getComputedStyle(node);
    const labels = [...(node.labels ?? [])].map((it) => it.textContent).join(' ');
    const by = document.getElementById(node.getAttribute('aria-labelledby') ?? '');
    const name = node.getAttribute('aria-label') ?? by?.textContent
        ?? (labels || node.textContent);
    const isFree = (part) => {
        const top = document.elementFromPoint(box.x + box.width / 2, box.y + box.height * part);
        return Boolean(top && (node.contains(top) || top.contains(node)));
    };
    return {
        name: name.trim(), kind: node.getAttribute('role') ?? node.localName, id: node.id,
        field: node.matches('input, select, textarea'),
        seen: box.width > 0 && box.height > 0 && box.bottom > 0 && box.top < innerHeight
            && box.right > 0 && box.left < innerWidth,
        free: [0.1, 0.5, 0.9].some(isFree),
        ring: style.outlineStyle !== 'none' && parseFloat(style.outlineWidth) >= 2,
    };
})()"""
MOST = 120


class Hands:
    """The hands at a page. Each stop of Tab has to be in sight, and marked."""

    def __init__(self, page):
        self.page = page
        self.stops = 0

    def tab(self, back=False):
        """Goes to the next stop. Returns it, or None if it isn't in the page."""
        self.page.key("Tab", SHIFT if back else 0)
        self.stops += 1
        stop = self.page.run(FOCUS)
        self.page.was_left = self.page.was_left or not stop
        if stop and stop["kind"] != "pre":
            is_free = stop["free"] or stop["kind"] == "listbox"  # a list may be empty
            assert stop["seen"] and is_free, f"the focus is out of sight: {stop}"
            # A headless Firefox marks nothing for a while when Tab comes back from its own bars.
            self.page.was_left = self.page.was_left and not stop["ring"]
            assert stop["ring"] or self.page.was_left, f"the focus isn't marked: {stop}"
        return stop

    def to(self, name, back=False, kind=None):
        """Tabs until the focus is at what has this name."""
        met = []
        for _ in range(MOST):
            stop = self.page.run(FOCUS) if not met else self.tab(back)
            met.append(stop and stop["name"][:40])
            if stop and stop["name"].startswith(name) and kind in (None, stop["kind"]):
                return stop
        raise AssertionError(f"no Tab comes to {name}: {met}")

    def press(self, name, back=False):
        """Tabs to a button and presses it."""
        self.to(name, back, "button")
        self.page.key("Enter")

    def choose(self, name, item):
        """Opens a menu by its button, and takes one of its items."""
        self.press(name)
        for _ in range(20):
            stop = self.page.run(FOCUS)
            assert stop["kind"] == "menuitem", stop
            if stop["name"].startswith(item):
                self.page.key("Enter")
                return
            self.page.key("ArrowDown")
        raise AssertionError(f"the menu has no {item}")

    def fill(self, name, text, back=False):
        """Tabs to a field and types in place of what it has."""
        stop = self.to(name, back)
        assert stop["field"], stop
        self.page.key("a", CTRL)
        self.page.write(text)

    def order(self, count):
        """The next stops of Tab, as `kind name`."""
        found = []
        for _ in range(count):
            stop = self.tab()
            found.append(f"{stop['kind']} {stop['name'][:30]}" if stop else "")
        return found

    def at(self, wanted):
        """Waits until the focus is at the element with this id."""
        self.page.wait(f"document.activeElement.id === {json.dumps(wanted)}")
