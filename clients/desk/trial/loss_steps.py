"""Steps about what is typed: nothing of it may be lost, least of all in silence."""

import json
import time

from access import audit
from between import fill_disk, hold, refuse
from common import keep_files
from office import card, logical
from steps import STATE, TITLE, fault, fill, more, search, stored, until

FORM = "document.querySelector('.form')"
CARD = "(document.querySelector('#pane .card')?.innerText ?? '')"
FIELDS = "[...document.querySelectorAll('.form input')].map((it) => it.value)"
WAITING = "(document.querySelector('#waiting')?.checkVisibility()" \
    " ? document.querySelector('#waiting').textContent : '')"


def names(office, book="clients"):
    """The names of all cards that the server has."""
    members = office.ask("GET", f"/{book}/sync")["members"]
    return sorted(it[3:] for member in members for it in logical(member["card"])
                  if it.startswith("FN:"))


def tab(trial, page, name):
    """A second tab of the same browser and user."""
    other = trial.browser.page(page.context)
    other.go(trial.office.front)
    other.wait("document.querySelector('#books button')")
    trial.desks[name] = other
    return other


def new_form(page, given, family):
    page.front()
    page.key("n", modifiers=1, code="KeyN")
    page.wait(f"{FORM} && !{FIELDS}.some((it) => it && it.includes(' '))")
    fill(page, "Given name", given)
    fill(page, "Family name", family)


def open_form(page, text, name):
    """Finds a card and opens its form."""
    page.front()
    search(page, text)
    page.wait(f"{TITLE} === {json.dumps(name)}")
    page.key("F2")
    page.wait(FORM)


def fresh(trial, user, name):
    """A desk with an empty profile, at a book that has all cards."""
    page = trial.desk(user, name)
    page.wait(f"{STATE}.startsWith('Up to date')")
    page.press("clients", "document.querySelector('#books')")
    return page


def at_desk(trial):
    """The desk of these steps: each of them can be taken alone."""
    return trial.desks.get("away") or fresh(trial, "admin", "away")


@fault
def save_while_away(trial):
    """The server is away while a card is saved: the next form and what it has stay."""
    office = trial.office
    page = at_desk(trial)
    office.shut()
    new_form(page, "Ada", "Early")
    page.press("Save")
    page.key("n", modifiers=1, code="KeyN")
    page.wait(f"{FORM} && document.activeElement.closest('.form')")
    page.rest(300)
    fill(page, "Given name", "Bea")
    fill(page, "Family name", "Later")
    time.sleep(4)
    office.open()
    until(lambda: "Ada Early" in names(office))
    # The first one is saved; the second form is as it was.
    time.sleep(1)
    shown = page.run(FIELDS)
    assert "Bea" in shown and "Later" in shown, shown
    page.press("Save")
    page.wait(f"{TITLE} === 'Bea Later'")
    until(lambda: "Bea Later" in names(office))
    assert names(office).count("Ada Early") == 1


NEW_CARD = "document.dispatchEvent(new KeyboardEvent('keydown'," \
    " { altKey: true, code: 'KeyN', bubbles: true }))"
HEADING = "document.querySelector('.form h2')?.textContent"


@fault
def form_at_once(trial):
    """Who begins a new card right after Save, Cancel or Delete gets its form, and keeps it."""
    page, office = at_desk(trial), trial.office

    def stays():
        page.wait(f"{HEADING} === 'New person' && !{FIELDS}.some((it) => it.includes('Instant'))")
        page.rest(2000)
        assert page.run(HEADING) == "New person", "the form was taken away"

    new_form(page, "Ida", "Instant")
    hold(page, 1500)  # the browser's disk is slow
    page.press("Save")
    page.run(NEW_CARD)
    stays()
    until(lambda: "Ida Instant" in names(office))
    fill(page, "Given name", "Instant")
    page.run(f"([...{FORM}.querySelectorAll('button')]"
             f".find((it) => it.textContent === 'Cancel').click(), {NEW_CARD})")
    stays()
    page.press("Cancel", FORM)
    search(page, "ida instant")
    page.wait(f"{TITLE} === 'Ida Instant'")
    more(page, "Delete")
    hold(page, 1500)
    page.press("Delete", "document.querySelector('dialog')")
    page.wait("!document.querySelector('dialog')")
    page.run(NEW_CARD)
    stays()
    until(lambda: "Ida Instant" not in names(office))
    # Nor does an Undo lead away from a form.
    page.press("Undo", "document.querySelector('#toast')")
    until(lambda: "Ida Instant" in names(office))
    stays()
    page.press("Cancel", FORM)


@fault
def typed_after_save(trial):
    """What is typed into a form after Save is an edit too: it isn't gone when that is done."""
    page, office = at_desk(trial), trial.office
    open_form(page, "cai mor", "Cai Morgan")
    fill(page, "Position", "Foreman of roofs")
    page.run("""(() => {
        const note = document.querySelector('.form textarea');
        document.querySelector('.form').requestSubmit();
        note.value = 'Typed after Save';
        note.dispatchEvent(new Event('input', { bubbles: true }));
    })()""")
    stored(office, "c02", "TITLE:Foreman of roofs")
    time.sleep(1)
    kept = page.run(f"(document.querySelector('.form textarea')?.value ?? '') + {CARD}")
    assert "Typed after Save" in kept, kept
    if page.run(f"Boolean({FORM})"):
        page.press("Save")
    stored(office, "c02", "NOTE:Typed after Save")


@fault
def two_tabs(trial):
    """Two tabs with a form for a new card each: they are two cards."""
    office, first = trial.office, at_desk(trial)
    second = tab(trial, first, "tab")
    second.press("clients", "document.querySelector('#books')")
    new_form(first, "Carl", "Tabone")
    time.sleep(1)  # until what was typed is kept
    new_form(second, "Dora", "Tabtwo")
    time.sleep(1)
    first.front()
    first.press("Save")
    first.wait(f"{TITLE} === 'Carl Tabone'")
    second.front()
    second.press("Save")
    second.wait(f"{TITLE} === 'Dora Tabtwo'")
    until(lambda: {"Carl Tabone", "Dora Tabtwo"} <= set(names(office)))
    # Two tabs with the same card: what is typed in one isn't replaced by the other.
    open_form(first, "dalia", "Dalia Haddad")
    open_form(second, "dalia", "Dalia Haddad")
    first.front()
    fill(first, "Position", "Head physiotherapist")
    second.front()
    fill(second, "Organisation", "Cedar Clinic")
    time.sleep(1)
    first.go("about:blank")
    second.press("Save")
    second.wait(f"{TITLE} === 'Dalia Haddad'")
    stored(office, "c03", "ORG:Cedar Clinic")
    first.go(office.front)
    first.wait("document.querySelector('#waiting')?.checkVisibility()")
    first.press("1 not saved yet")
    first.press("Go on", "document.querySelector('dialog')")
    first.wait(f"{FORM} && {FIELDS}.includes('Head physiotherapist')")
    first.press("Save")
    stored(office, "c03", "TITLE:Head physiotherapist")
    assert "ORG:Cedar Clinic" in logical(office.card("clients", "c03")["card"])


@fault
def sets(trial):
    """Two who each add a number, an address, a member or a category: both are kept, unasked."""
    page, office = at_desk(trial), trial.office
    open_form(page, "edmund", "Edmund Fairweather")
    page.press("Add", "document.querySelectorAll('.form fieldset')[1]")
    page.type("01632 960991")
    theirs = office.card("clients", "c04")["card"].replace(
        "END:VCARD", "TEL;TYPE=home:01632 960992\r\nEMAIL:ed@home.example.test\r\nEND:VCARD")
    office.put("clients", "c04", theirs)
    page.press("Save")
    stored(office, "c04", "TEL;TYPE=work:01632 960991")
    text = logical(office.card("clients", "c04")["card"])
    for line in ("TEL;TYPE=home:01632 960992", "EMAIL:ed@home.example.test",
                 "TEL;TYPE=work:01632 960163"):
        assert line in text, (line, text)
    assert not page.run("Boolean(document.querySelector('dialog'))")
    # A group: both add a member.
    open_form(page, "accounts and law", "Accounts and law")
    fill(page, "Add a member: search this book", "Gwen")
    page.press("Gwen Ashdown", "document.querySelector('.form .found')")
    theirs = office.card("clients", "g1")["card"].replace(
        "MEMBER:c00\r\n", "MEMBER:c00\r\nMEMBER:c20\r\n").replace("MEMBER:c15\r\n", "")
    office.put("clients", "g1", theirs)
    page.press("Save")
    stored(office, "g1", "MEMBER:c06")
    text = logical(office.card("clients", "g1")["card"])
    assert "MEMBER:c20" in text and "MEMBER:c15" not in text, text
    # The same number in two ways: both are shown as they are read.
    open_form(page, "nadia", "Nadia Kowalska")
    page.run("document.querySelectorAll('.form fieldset')[1].querySelector('input').select()")
    page.run("document.querySelectorAll('.form fieldset')[1].querySelector('input').focus()")
    page.type("0121 496 0777")
    theirs = office.card("clients", "c13")["card"].replace("0121 496 0243", "0121 496 0888")
    office.put("clients", "c13", theirs.replace("TITLE:Designer", "TITLE:Architect"))
    page.press("Save")
    page.wait("document.querySelector('dialog table.conflict')")
    rows = page.run("[...document.querySelectorAll('dialog .conflict tbody tr')]"
                    ".map((it) => it.innerText)")
    assert len(rows) == 1, rows
    for number in ("0121 496 0777", "0121 496 0888", "0121 496 0243"):
        assert number in rows[0], rows
    page.picture(trial.pictures / "clash.png")
    page.run("document.querySelector('.clash td:nth-child(2) label').click()")
    page.press("Save what is chosen")
    stored(office, "c13", "TEL;TYPE=work:0121 496 0777")
    assert "TITLE:Architect" in logical(office.card("clients", "c13")["card"])
    members_by_name(page, office)


def members_by_name(page, office):
    """Where something of a group is asked, its members are said by their names."""
    def group(name, *members):
        return card("gset", f"FN:{name}", "KIND:group", *(f"MEMBER:{it}" for it in members))

    office.put("clients", "gset", group("Aae Set", "c00"))
    page.press("Update now")
    open_form(page, "aae set", "Aae Set")
    fill(page, "Name as it is shown", "Aae Mine")
    fill(page, "Add a member: search this book", "Gwen")
    page.press("Gwen Ashdown", f"{FORM}.querySelector('.found')")
    office.put("clients", "gset", group("Aae Theirs", "c00", "c20"))
    page.press("Save")
    page.wait("document.querySelector('dialog table.conflict')")
    said = page.run("document.querySelector('dialog .taken').innerText")
    assert "Gwen Ashdown" in said and "Ulrike Brandt" in said and "c20" not in said, said
    page.press("Take theirs")
    stored(office, "gset", "MEMBER:c06")
    office.ask("DELETE", "/clients/cards/gset")
    page.press("Update now")


@fault
def cancel_undone(trial):
    """Cancel drops what was typed, says so, and can be undone."""
    page, office = at_desk(trial), trial.office
    open_form(page, "farida", "Farida Rahimi")
    fill(page, "Position", "Owner and founder")
    page.press("Cancel", FORM)
    page.wait(f"!{FORM}")
    page.press("Undo", "document.querySelector('#toast')")
    page.wait(f"{FORM} && {FIELDS}.includes('Owner and founder')")
    page.press("Save")
    stored(office, "c05", "TITLE:Owner and founder")
    new_form(page, "Nina", "Nearly")
    page.press("Cancel", FORM)
    page.wait(f"!{FORM}")
    page.press("Undo", "document.querySelector('#toast')")
    page.wait(f"{FORM} && {FIELDS}.includes('Nearly')")
    page.press("Save")
    until(lambda: "Nina Nearly" in names(office))


@fault
def saved_offline(trial):
    """Without the network Save is at once; the list says what waits, also after a reload."""
    page, office = at_desk(trial), trial.office
    keep_files(page)
    office.shut()
    open_form(page, "gwen", "Gwen Ashdown")
    fill(page, "Position", "Head of sales")
    begun = time.monotonic()
    page.press("Save")
    page.wait(f"{TITLE} === 'Gwen Ashdown' && {CARD}.includes('Head of sales')", 5)
    assert time.monotonic() - begun < 3 * page.slow
    assert "not sent yet" in page.run(CARD).lower(), page.run(CARD)
    page.wait(f"{WAITING}.includes('1 change not sent yet')")
    page.picture(trial.pictures / "not-sent.png")
    new_form(page, "Olga", "Offline")
    page.press("Save")
    page.wait(f"{WAITING}.includes('2 changes not sent yet')")
    page.go("about:blank")
    page.go(office.front)
    page.wait(f"{WAITING}.includes('2 changes not sent yet')")
    search(page, "olga off")
    page.wait(f"{TITLE} === 'Olga Offline' && {CARD}.toLowerCase().includes('not sent yet')")
    # Meanwhile somebody else changes one of them: both changes are in the card in the end.
    office.put_aside("clients", "c06", lambda text: text.replace(
        "END:VCARD", "NOTE:Orchard is closed on Mondays\r\nEND:VCARD"))
    office.open()
    page.front()
    stored(office, "c06", "TITLE:Head of sales")
    until(lambda: "Olga Offline" in names(office))
    assert "NOTE:Orchard is closed on Mondays" in logical(office.card("clients", "c06")["card"])
    page.wait(f"{WAITING} === ''")
    page.wait(f"!{CARD}.toLowerCase().includes('not sent yet')")


@fault
def conflict_offline(trial):
    """An edit of the time without the network clashes: the question comes when it is back."""
    page, office = at_desk(trial), trial.office
    office.shut()
    open_form(page, "jonas", "Jonas Weber")
    fill(page, "Position", "My position")
    page.press("Save")
    page.wait(f"{CARD}.includes('My position')", 5)
    page.go("about:blank")
    office.put_aside("clients", "c09", lambda text: "\r\n".join(
        "TITLE:Their position" if it.startswith("TITLE") else it for it in logical(text)))
    office.open()
    page.go(office.front)
    page.front()  # it is asked where the user is, whichever tab sent it
    page.wait("document.querySelector('dialog table.conflict')")
    shown = page.run("document.querySelector('dialog').innerText")
    assert "My position" in shown and "Their position" in shown, shown
    page.press("Decide later")
    page.wait(f"{WAITING}.includes('1 needs you')")
    page.press("1 needs you")
    page.press("Decide", "document.querySelector('dialog')")
    page.wait("document.querySelector('dialog table.conflict')")
    page.run("document.querySelector('.clash td:nth-child(2) label').click()")
    page.press("Save what is chosen")
    stored(office, "c09", "TITLE:My position")
    page.wait(f"{WAITING} === ''")


@fault
def killed_browser(trial):
    """The browser is killed while changes wait and a form is open: all of it is there again."""
    office = trial.office
    browser = trial.browser.another()
    try:
        page = browser.desk(office.front, "admin", isolated=False)
        page.wait(f"{STATE}.startsWith('Up to date')")
        page.press("clients", "document.querySelector('#books')")
        keep_files(page)
        office.shut()
        for given in ("Kim", "Kurt", "Karla"):
            new_form(page, given, "Killed")
            page.press("Save")
            page.wait(f"{TITLE} === '{given} Killed'", 10)
        new_form(page, "Half", "Typed")
        time.sleep(1)
        browser.kill()
        office.open()
        browser.again()
        page = browser.desk(office.front, "admin", isolated=False)
        until(lambda: {"Kim Killed", "Kurt Killed", "Karla Killed"} <= set(names(office)))
        page.wait(f"{WAITING}.includes('1 not saved yet')")
        page.press("1 not saved yet")
        page.press("Go on", "document.querySelector('dialog')")
        page.wait(f"{FORM} && {FIELDS}.includes('Half') && {FIELDS}.includes('Typed')")
    finally:
        browser.close()


@fault
def refusals_kept(trial):
    """What the server refuses (403, 507) stays, says why, and can be sent again."""
    page, office = at_desk(trial), trial.office
    for status, fault, words in (
        (507, '{"fault":"book-full","number":12}', "The book is full"),
        (403, "", "You may not do this"),
    ):
        refuse(page, "PUT", "", status, fault)
        open_form(page, "ines", "Ines Carvalho")
        fill(page, "Position", f"Refused with {status}")
        page.press("Save")
        page.wait(f"{WAITING}.includes('1 needs you')")
        page.wait(f"{CARD}.includes({json.dumps(words)})")
        assert f"Refused with {status}" in page.run(CARD)
        page.picture(trial.pictures / f"refused-{status}.png")
        audit(page, f"a change that is refused with {status}")
        page.run("window.fetchAgain()")
        page.press("Try again", "document.querySelector('#pane')")
        stored(office, "c08", f"TITLE:Refused with {status}")
        page.wait(f"{WAITING} === ''")


@fault
def no_room(trial):
    """The browser can't keep what is saved: the form stays, and says so."""
    page, office = at_desk(trial), trial.office
    open_form(page, "tamsin", "Tamsin Pell")
    fill(page, "Organisation", "No Room Print")
    fill_disk(page, 0)
    page.press("Save")
    page.wait("document.querySelector('#toast').textContent.includes('couldn’t keep it')")
    assert "No Room Print" in page.run(FIELDS)
    page.run("window.putAgain()")
    page.press("Save")
    stored(office, "c19", "ORG:No Room Print")
    page.said[:] = [it for it in page.said if "QuotaExceededError" not in it]
