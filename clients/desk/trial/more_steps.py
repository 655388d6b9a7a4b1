"""More steps of the trial: hostile cards, no network, looks, a full book."""

import json

from access import AUDIT, CALM, TOUCH
from browser import SHIFT
from cards import EVIL, MARK, hostile_cards
from common import keep_files
from office import card
from steps import ROWS, STATE, TITLE, fault, fill, search, step, stored, toast, up_to_date


@step
def hostile(trial):
    """No string of a card becomes markup, a script, a request or an address of one."""
    admin, cards = trial.desks["admin"], hostile_cards()
    trial.office.fill("staff", cards.values())
    admin.press("staff", "document.querySelector('#books')")
    up_to_date(admin)
    search(admin, "hostile")
    admin.wait("document.querySelectorAll('#list [role=option]').length > 5")
    admin.picture(trial.pictures / "hostile-list.png")
    for uid in cards:
        admin.run(f"location.hash = '#/card/staff/' + encodeURIComponent({json.dumps(uid)})")
        admin.wait(f"location.hash.includes('card') && ({TITLE} ?? '').startsWith('Hostile')")
        admin.rest(60)
        found = admin.run("""(() => {
            const pane = document.querySelector('#pane');
            const names = [...pane.querySelectorAll('*')].map((it) => it.localName);
            const known = new Set([
                'article', 'header', 'div', 'h2', 'h3', 'h4', 'p', 'bdi', 'button', 'section', 'a',
                'img', 'span', 'ul', 'li', 'details', 'summary', 'pre', 'footer', 'svg',
                'path',
            ]);
            return {
                odd: names.filter((it) => !known.has(it)),
                links: [...pane.querySelectorAll('a')].map((it) => it.href),
                pictures: [...document.querySelectorAll('img')].map((it) => it.src.slice(0, 24)),
                wide: document.documentElement.scrollWidth > innerWidth,
                handlers: [...document.querySelectorAll('*')].filter((it) =>
                    it.getAttributeNames().some((name) => name.startsWith('on'))).length,
            };
        })()""")
        assert not found["odd"] and not found["handlers"] and not found["wide"], (uid, found)
        assert all(it.startswith(("https:", "mailto:", "tel:")) for it in found["links"]), found
        assert all(it.startswith("data:image/png;base64,") for it in found["pictures"]), found
        admin.run(f"location.hash = '#/edit/staff/' + encodeURIComponent({json.dumps(uid)})")
        admin.wait("document.querySelector('.form')")
        admin.press("Cancel", "document.querySelector('.form')")
        admin.wait("!document.querySelector('.form')")
    admin.run("location.hash = '#/card/staff/h-markup'")
    admin.wait(f"{TITLE} === {json.dumps('Hostile ' + MARK)}")
    admin.picture(trial.pictures / "hostile.png")
    assert not [it for it in admin.asked if EVIL in it]
    # Each can be edited under its own address, but the two that no browser can ask for.
    for uid in ("a/b?c=d&e#f%2F%2e%2e", "__proto__", "'\"><b>", "\u202eüñí 😀"):
        admin.run(f"location.hash = '#/edit/staff/' + encodeURIComponent({json.dumps(uid)})")
        fill(admin, "Position", "edited")
        admin.press("Save")
        admin.wait("!document.querySelector('.form')")
        stored(trial.office, uid, "TITLE:edited", "staff")
    admin.run("location.hash = '#/edit/staff/..'")
    fill(admin, "Position", "edited")
    admin.press("Save")
    admin.wait("document.querySelector('#pane .unsent')?.innerText.includes('No browser can ask')")
    admin.press("Drop this change", "document.querySelector('#pane')")
    admin.wait("document.querySelector('#waiting').hidden")


@step
def forgotten(trial):
    """A book that forgot what a desk had missed: its token is refused, and it starts again."""
    ann, office = trial.desks["ann"], trial.office
    up_to_date(ann)
    office.put("clients", "gone", card("gone", "FN:Gone Soon"))
    up_to_date(ann)
    search(ann, "gone soon")
    ann.wait(f"{TITLE} === 'Gone Soon'")
    office.ask("DELETE", "/clients/cards/gone")
    office.ask("DELETE", "/clients/cards/c24")
    office.put("clients", "late", card("late", "FN:Late Comer"))
    number = office.ask("GET", "/clients/tally")["number"]
    office.ask("POST", f"/clients/forget?upto={number}")
    up_to_date(ann)
    for text, wanted in (("gone soon", 0), ("yusuf", 0), ("late comer", 1), ("miriam", 1)):
        search(ann, text)
        ann.wait(f"{ROWS}.length === {wanted}")


@step
def offline(trial):
    """The network goes: the desk opens, finds, says so, keeps an edit, and comes back."""
    ann, office = trial.desks["ann"], trial.office
    keep_files(ann)
    office.shut()
    ann.go(office.front)
    ann.wait("document.querySelector('#books button')")
    search(ann, "mir")
    ann.wait(f"{TITLE} === 'Miriam O’Hara'")
    ann.wait(f"{STATE}.startsWith('Offline')")
    ann.picture(trial.pictures / "offline.png")
    ann.key("F2")
    fill(ann, "Position", "Treasurer")
    ann.wait("document.querySelector('.form')")
    ann.rest(700)
    ann.go("about:blank")
    office.open()
    ann.go(office.front)
    ann.wait(f"{STATE}.startsWith('Up to date')")
    search(ann, "mir")
    ann.wait(f"{TITLE} === 'Miriam O’Hara'")
    ann.key("F2")
    ann.wait("document.querySelector('.draft')")
    ann.press("Save")
    toast(ann, "Saved: Miriam")
    stored(office, "c12", "TITLE:Treasurer")


@fault
def new_files(trial):
    """Newer files of the page: all of them or none, offered when they are there, kept for later."""
    office = trial.office
    page = trial.desk("admin", "files")
    keep_files(page)
    texts, page_file = office.site / "js/texts.js", office.site / "index.html"
    words, main = texts.read_text(), page_file.read_text()
    brand = "document.querySelector('#title').textContent"

    def loaded(name):
        page.go(office.front)
        page.wait(f"{brand} === {json.dumps(name)}")

    try:
        # One of the files can't be fetched: so the page stays as it was, as a whole.
        texts.write_text(words.replace('title: "Contacts"', 'title: "Newer"'))
        page_file.rename(office.site / "away")
        loaded("Contacts")
        page.rest(4000)
        (office.site / "away").rename(page_file)
        office.shut()
        loaded("Contacts")
        office.open()
        loaded("Contacts")
        toast(page, "new version of this page")
        page.press("Load it", "document.querySelector('#toast')")
        page.wait(f"{brand} === 'Newer'")
        office.shut()
        loaded("Newer")
        office.open()
    finally:
        texts.write_text(words)
        page_file.write_text(main)
    # A page that stays open asks by itself, once an hour.
    page.wait(f"{STATE}.startsWith('Up to date')")
    page.run("navigator.serviceWorker.controller.postMessage('look')")
    page.press("Load it", "document.querySelector('#toast')")
    page.wait(f"{brand} === 'Contacts'")


PLACE = "document.querySelector('#pane').scrollTop"


@step
def looks(trial):
    """Pictures: dark and light, all widths. Nothing is wider than the page, or hard to touch."""
    admin = trial.desks["admin"]
    admin.press("clients", "document.querySelector('#books')")
    for scheme in ("light", "dark"):
        admin.scheme(scheme)
        for name, width, height in SIZES:
            admin.size(width, height, mobile=width < 500)
            admin.run("location.hash = '#/'")
            search(admin, "")
            admin.rest(400)
            look(trial, admin, f"{name}-{scheme}-list", width)
            admin.run("document.querySelector('#list').focus()")
            for _ in range(2):
                admin.key("ArrowDown", SHIFT)
            admin.press("With these", "document.querySelector('#list-menu')")
            look(trial, admin, f"{name}-{scheme}-several", width)
            admin.key("Escape")
            admin.key("Escape")
            admin.run("location.hash = '#/card/clients/c12'")
            admin.wait(f"{TITLE} === 'Miriam O’Hara'")
            admin.rest(300)
            # However far the card before it was scrolled, it begins at its top.
            assert not admin.run(PLACE), (name, scheme)
            look(trial, admin, f"{name}-{scheme}-card", width)
            admin.run("document.querySelector('#pane .actions .round').click()")
            look(trial, admin, f"{name}-{scheme}-menu", width)
            admin.key("Escape")
            admin.run("location.hash = '#/edit/clients/c12'")
            admin.wait("document.querySelector('.form')")
            look(trial, admin, f"{name}-{scheme}-form", width)
            admin.press("Cancel", "document.querySelector('.form')")
            admin.wait(f"{TITLE} === 'Miriam O’Hara'")
            admin.run(f"{PLACE} = 1000")
    admin.scheme("light")
    admin.size(1280, 800)


def look(trial, page, name, width):
    """Keeps a picture of the page, and looks at it."""
    page.run(CALM)
    page.picture(trial.pictures / f"{name}.png")
    wrong = page.run(AUDIT) + (page.run(TOUCH) if width < 500 else [])
    # What is wider makes a phone show the whole page smaller.
    if page.run("document.documentElement.scrollWidth") > width:
        wrong.append("wider than the page")
    if page.run("document.documentElement.scrollHeight > innerHeight"):
        wrong.append("the page itself scrolls, and its top goes out of sight")
    assert not wrong, (name, wrong)


# The least, a phone, a tablet in both directions, a laptop, a large screen.
SIZES = [("least", 320, 640), ("narrow", 390, 780), ("middle", 768, 1024), ("across", 1024, 768),
         ("usual", 1280, 800), ("wide", 1600, 1000)]


@step
def names(trial):
    """All that can be used has a name for a screen reader: in the list, a card, a form."""
    admin = trial.desks["admin"]
    admin.call("Accessibility.enable")
    wanted = {"button", "textbox", "combobox", "searchbox", "listbox", "option", "link", "radio",
              "dialog", "navigation", "main", "article", "spinbutton"}
    places = ["#/", "#/card/clients/c12", "#/edit/clients/c12", "#/edit/clients/g1"]
    for place in [*places, "#/new/clients/group"]:
        admin.run(f"location.hash = {json.dumps(place)}")
        admin.rest(400)
        nodes = admin.call("Accessibility.getFullAXTree")["nodes"]
        unnamed = [
            it["role"]["value"] for it in nodes
            if not it.get("ignored") and it.get("role", {}).get("value") in wanted - {"main"}
            and not it.get("name", {}).get("value", "").strip()
        ]
        assert not unnamed, (place, unnamed)
    admin.press("Cancel", "document.querySelector('.form')")
