"""Steps about what misleads: a wrong person beside the list, rights, links, dates, old copies."""

import json
import random
import time

from access import audit
from between import hold
from browser import SHIFT
from loss_steps import CARD, FORM, WAITING, at_desk, names, new_form, open_form
from office import card, logical
from steps import ROWS, STATE, TITLE, fault, fill, search, stored, until

PANE = "document.querySelector('#pane').innerText"
BAR = "document.querySelector('#list-menu').innerText"
EMPTY = "document.querySelector('#empty')"
SEARCH = "document.querySelector('#search').value"


@fault
def nobody_shown(trial):
    """No match, or an empty book: nobody's card is beside the list. Nobody calls a wrong person."""
    page, office = at_desk(trial), trial.office
    search(page, "miriam")
    page.wait(f"{TITLE} === 'Miriam O’Hara'")
    search(page, "qqqq")
    page.wait(f"{ROWS}.length === 0")
    page.wait(f"!document.querySelector('#pane a') && {TITLE} === undefined", 5)
    search(page, "miriam")
    page.wait(f"{TITLE} === 'Miriam O’Hara'")
    # A card that comes late doesn't take the place of one that was chosen after it.
    hold(page, 1500)
    for name in ("nadia", "gwen"):
        search(page, name)
        time.sleep(0.3)
    time.sleep(2)
    page.wait(f"{TITLE} === 'Gwen Ashdown'", 5)
    # That a card isn't here is said, and what is searched for doesn't take its place.
    page.run("location.hash = '#/card/clients/not-there'")
    page.wait(f"{PANE}.includes('This card isn')")
    office.put("clients", "empty", card("empty", "FN:Aaf Nobody"))
    page.press("Update now")
    page.wait("document.querySelector('#books').textContent.includes('clients')")
    page.rest(1500)
    assert page.run(TITLE) is None and not page.run("Boolean(document.querySelector('#pane a'))")
    status, _, _ = office.request("PUT", "/books/empty")
    assert status in (201, 409), status
    page.press("Update now")
    page.wait("document.querySelector('#books').textContent.includes('empty')")
    search(page, "")
    page.press("empty", "document.querySelector('#books')")
    page.wait(f"{ROWS}.length === 0")
    page.wait(f"!document.querySelector('#pane a') && {TITLE} === undefined", 5)
    page.press("clients", "document.querySelector('#books')")


@fault
def nobody_beside(trial):
    """What was searched for changes: the list has the card that is shown, or nobody is shown."""
    page, office = at_desk(trial), trial.office
    page.front()
    office.put("clients", "beside", card("beside", "FN:Besima Before", "TEL:020 7946 0777"))
    page.press("Update now")
    page.press("clients", "document.querySelector('#books')")
    # By the user: the list becomes one that has the card.
    open_form(page, "besima before", "Besima Before")
    fill(page, "Name as it is shown", "Besima Behind")
    page.press("Save")
    page.wait(f"{TITLE} === 'Besima Behind'")
    page.wait(f"{ROWS}.includes('Besima Behind') && {SEARCH} === ''", 5)
    stored(office, "beside", "FN:Besima Behind")
    # By others.
    search(page, "besima behind")
    page.wait(f"{TITLE} === 'Besima Behind'")
    text = office.card("clients", "beside")["card"]
    office.put("clients", "beside", text.replace("Besima Behind", "Besima Between"))
    page.run("dispatchEvent(new Event('focus'))")
    page.wait(f"{ROWS}.length === 0")
    page.wait(f"!document.querySelector('#pane a') && {TITLE} === undefined", 5)
    # By another search, while a form is being saved.
    open_form(page, "between", "Besima Between")
    fill(page, "Position", "Saved late")
    hold(page, 1500)
    page.press("Save")
    search(page, "qqqq")
    stored(office, "beside", "TITLE:Saved late")
    page.wait(f"!{FORM} && !document.querySelector('#pane a') && {TITLE} === undefined")
    assert page.run(SEARCH) == "qqqq" and page.run(f"{ROWS}.length") == 0
    search(page, "besima")
    page.wait(f"{TITLE} === 'Besima Between'")
    search(page, "")


@fault
def rights(trial):
    """
    Who may not list the books is asked for theirs. That a book may only be read is learnt from the
    first change that is refused, which stays; nothing is written to find it out.
    """
    page = trial.desk("hall")
    # On a phone, where the list is alone, the question is there.
    page.size(390, 780)
    page.wait(f"{EMPTY}.innerText.includes('Type the name of yours')", 20)
    page.press("Add a book", EMPTY)
    page.wait("document.querySelector('dialog h2')?.textContent === 'Add a book'")
    page.key("Escape")
    page.size(1280, 800)
    page.wait(f"{PANE}.includes('Which book is yours?')", 20)
    page.picture(trial.pictures / "which-book.png")
    audit(page, "the question for a book")
    fill(page, "Name of the book", "staff")
    page.key("Enter")
    page.wait(f"{ROWS}.includes('Ann Keeper')", 20)
    search(page, "ann kee")
    page.wait(f"{TITLE} === 'Ann Keeper'")
    page.press("Update now")
    page.wait(f"{STATE}.startsWith('Up to date')")
    assert not page.wrote, page.wrote
    page.key("F2")
    fill(page, "Position", "Typed for nothing")
    page.press("Save")
    page.wait(f"{PANE}.includes('You may read this book')", 20)
    page.wait(f"{PANE}.includes('Typed for nothing') && {PANE}.includes('You may not do this')")
    page.wait(f"{WAITING}.includes('1 needs you')")
    assert [it[0] for it in page.wrote] == ["PUT"], page.wrote
    buttons = page.run("[...document.querySelectorAll('button')]"
                       ".filter((it) => it.checkVisibility()).map((it) => it.textContent)")
    assert not {"Edit", "New card", "Delete", "Move…"} & set(buttons), buttons
    page.picture(trial.pictures / "read-only.png")
    audit(page, "a book that may only be read")
    page.key("F2")
    page.rest(300)
    assert not page.run(f"Boolean({FORM})")
    page.go(trial.office.front)
    page.wait(f"{ROWS}.includes('Ann Keeper')")
    assert not page.run("document.querySelector('#new').checkVisibility()")
    search(page, "ann kee")
    page.press("Drop this change", "document.querySelector('#pane')")
    page.wait(f"!{PANE}.includes('Typed for nothing') && {WAITING} === ''")
    # Who gets the right later has a way back.
    page.run("document.querySelector('#books .menu').click()")
    page.press("Offer changes again", "document.querySelector('dialog')")
    page.wait("document.querySelector('#new').checkVisibility()")


@fault
def selected_in_sight(trial):
    """What is done with several cards is done with those that the list shows, and no others."""
    page, office = at_desk(trial), trial.office
    for number in range(3):
        office.put("clients", f"sight{number}", card(f"sight{number}", f"FN:Aaa Sight{number}"))
    page.front()
    page.press("Update now")
    page.press("clients", "document.querySelector('#books')")
    search(page, "sight")
    page.wait(f"{ROWS}.length === 3")
    for _ in range(2):
        page.key("ArrowDown", SHIFT)
    page.wait(f"{BAR}.includes('3 selected')")
    search(page, "sight1")
    page.wait(f"{ROWS}.length === 1 && {BAR}.includes('1 selected')")
    page.press("With these", "document.querySelector('#list-menu')")
    page.press("Delete", "document.querySelector('#list-menu')")
    page.wait("document.querySelector('dialog h2')?.textContent === 'Delete 1 card?'")
    page.press("Delete", "document.querySelector('dialog')")
    until(lambda: "Aaa Sight1" not in names(office))
    assert {"Aaa Sight0", "Aaa Sight2"} <= set(names(office))
    search(page, "")


@fault
def empty_lists(trial):
    """An empty list says why, and what can be done: never that a copy is empty that isn't there."""
    page, office = at_desk(trial), trial.office
    page.front()
    search(page, "qqqq")
    page.press("Empty the search", EMPTY)
    page.wait(f"{ROWS}.length > 3 && document.activeElement.id === 'search'")
    office.request("PUT", "/books/bare")
    page.press("Update now")
    page.wait("document.querySelector('#books').textContent.includes('bare')")
    page.press("bare", "document.querySelector('#books')")
    page.wait(f"{EMPTY}.innerText.includes('There is no card here yet')")
    audit(page, "an empty book")
    page.picture(trial.pictures / "empty-book.png")
    page.press("Import a file", EMPTY)
    page.wait("document.querySelector('dialog h2')?.textContent === 'Import into bare'")
    page.key("Escape")
    page.press("New card", EMPTY)
    page.wait(f"{FORM} && location.hash.startsWith('#/new/bare/')")
    page.press("Cancel", FORM)
    page.press("Favourites", "document.querySelector('#books')")
    page.press("clients", "document.querySelector('#books')")
    # Before the first copy is there, the list doesn't say that the book is empty.
    other = trial.browser.page(trial.browser.context())
    other.enter(office.front, "admin", "manifest.json")
    other.navigate(office.front)
    other.wait("document.querySelector('#list [role=option]') || window.desk"
               " || document.querySelector('#books button')")
    said = other.run(f"{EMPTY}.hidden || !{EMPTY}.innerText.includes('no card here')")
    assert said, other.run(f"{EMPTY}.innerText")


LINKS = {
    # What a number is shown as, and what its link is: None for none.
    "TEL:020 7946 0001": ("020 7946 0001", "tel:02079460001"),
    "TEL:\u202e0001 6497 020": ("0001 6497 020", "tel:00016497020"),
    "TEL:\u200e+44 20 7946 0002\u200f": ("+44 20 7946 0002", "tel:+442079460002"),
    "TEL;VALUE=uri:tel:*21*0900123456#": (None, None),
    "TEL:*21*0900123456#": ("*21*0900123456#", None),
    "TEL:##002#": ("##002#", None),
    "TEL;VALUE=uri:tel:+44-20-7946-0003;ext=12": (
        "+44-20-7946-0003 ext. 12", "tel:+442079460003;ext=12"),
    "EMAIL:\u202eann@example.test": ("ann@example.test", "mailto:ann@example.test"),
}


@fault
def readable_links(trial):
    """A link shows what it does: no mark turns a number, no order to the telephone is a link."""
    page, office = at_desk(trial), trial.office
    for number, (line, (shown, link)) in enumerate(LINKS.items()):
        uid = f"link{number}"
        office.put("clients", uid, card(uid, f"FN:Link Number {number}", line))
    page.press("Update now")
    for number, (line, (shown, link)) in enumerate(LINKS.items()):
        page.run(f"location.hash = '#/card/clients/link{number}'")
        page.wait(f"{TITLE} === 'Link Number {number}'")
        found = page.run(
            "[...document.querySelectorAll('#pane .line a')].map((it) => "
            "[it.textContent, it.getAttribute('href')])")
        wanted = [[shown, link]] if link else []
        assert found == wanted, (line, found, wanted)
        every = page.run("[...document.querySelectorAll('#pane a')].map((it) => it.href)")
        assert not [it for it in every if "*" in it or "%23" in it or "#" in it], every
        if shown:
            assert shown in page.run(CARD), (line, page.run(CARD))


# What somebody types, and the line of the card (RFC 6350, section 4.3.1). The desk runs as en-GB.
DATES = [
    ("12.4.1980", "BDAY:19800412"), ("12/04/1980", "BDAY:19800412"),
    ("4.12.", "BDAY:--1204"), ("1980-04-12", "BDAY:19800412"), ("1980/4/12", "BDAY:19800412"),
    ("12 April 1980", "BDAY:19800412"), ("April 12, 1980", "BDAY:19800412"),
    ("12th of April 1980", "BDAY:19800412"), ("12 Apr", "BDAY:--0412"),
    ("Sept 3 1999", "BDAY:19990903"), ("31.12.99", "BDAY:19991231"), ("12. April 1980",
    "BDAY:19800412"), ("--0412", "BDAY:--0412"), ("29.2.", "BDAY:--0229"), ("1980", "BDAY:1980"),
    ("13/4/1980", "BDAY:19800413"), ("4/13/1980", "BDAY:19800413"), ("19800412", "BDAY:19800412"),
]
NO_DATES = ["31.2.1980", "32.1.1980", "spring", "29.2.1981", "12.13.1980", "0.1.1980"]


def add_field(page, name):
    page.press("Add field", FORM)
    page.press(name, "document.querySelector('.form .menu-list')")


@fault
def birthdays(trial):
    """A birthday is read in any usual form, and is never kept as a text in silence."""
    page, office = at_desk(trial), trial.office
    texts = json.dumps([it for it, _ in DATES] + NO_DATES)
    read = page.run(f"""(async () => {{
        const dates = await import('/js/dates.js');
        return {texts}.map((it) => {{
            const found = dates.readDate(it, 'en-GB');
            return found && dates.dateOf(found);
        }});
    }})()""")
    assert read[:len(DATES)] == [it.split(":")[1] for _, it in DATES], read
    assert read[len(DATES):] == [None] * len(NO_DATES), read
    open_form(page, "hugo", "Hugo Petit")
    if not page.run("[...document.querySelectorAll('.form label')]"
                    ".some((it) => it.textContent === 'Birthday')"):
        add_field(page, "Birthday")
    fill(page, "Birthday", "12. April 1980")
    page.wait(f"{FORM}.innerText.includes('That is 12 April 1980.')")
    page.picture(trial.pictures / "birthday.png")
    page.press("Save")
    page.wait(f"{CARD}.includes('12 April 1980')")
    stored(office, "c07", "BDAY:19800412")
    page.key("F2")
    page.wait(FORM)
    fill(page, "Birthday", "in spring")
    page.press("Save")
    page.wait(f"{FORM}.innerText.includes('can’t be read as a date')")
    page.press("Keep it as it is typed", FORM)
    page.press("Save")
    stored(office, "c07", "BDAY;VALUE=text:in spring")


@fault
def hints(trial):
    """A mail address or a number that can't be one gets a word, and can be saved all the same."""
    page, office = at_desk(trial), trial.office
    new_form(page, "Hinda", "Hint")
    for kind, wrong, right, words in (
        ("tels", "see note", "020 7946 0011", "doesn’t look like a phone number"),
        ("mails", "hinda@nowhere", "hinda@example.test", "doesn’t look like a mail address"),
    ):
        box = f"document.querySelector('.form .of-{kind} input')"
        page.run(f"{box}.focus()")
        page.type(wrong)
        page.run(f"{box}.blur()")
        page.wait(f"{FORM}.innerText.includes({json.dumps(words)})")
        page.run(f"(() => {{ {box}.focus(); {box}.select(); }})()")
        page.type(right)
        page.wait(f"!{FORM}.innerText.includes({json.dumps(words)})")
    page.press("Save")
    until(lambda: "Hinda Hint" in names(office))


@fault
def others_edits(trial):
    """What others change comes by itself within seconds, while the page is seen."""
    page, office = at_desk(trial), trial.office
    page.front()
    page.run("location.hash = '#/card/clients/c19'")
    page.wait(f"{TITLE} === 'Tamsin Pell'")
    text = office.card("clients", "c19")["card"]
    office.put("clients", "c19", text.replace("Studio manager", "Head of the studio"))
    page.wait(f"{CARD}.includes('Head of the studio')", 25)
    # At once when the window comes to the front.
    office.put("clients", "c19", text.replace("Studio manager", "Studio chief"))
    page.run("window.dispatchEvent(new Event('focus'))")
    page.wait(f"{CARD}.includes('Studio chief')", 5)
    # At once after a change of one's own.
    open_form(page, "hugo", "Hugo Petit")
    fill(page, "Position", "Senior partner")
    page.asked.clear()
    page.press("Save")
    stored(office, "c07", "TITLE:Senior partner")

    def is_asked():
        page.rest(100)
        put = next(at for at, it in enumerate(page.asked) if "/cards/c07" in it)
        return any("/clients/sync" in it for it in page.asked[put:])

    until(is_asked, 5)


EDIT = """(async ([book, edits]) => {
    const [store, queue, vcard] = await Promise.all(
        ['store', 'queue', 'vcard'].map((it) => import('/js/' + it + '.js')));
    const db = (await store.openStore()).db;
    const waiting = new queue.Queue(db);
    for (const [uid, add, remove] of edits) {
        const seen = await waiting.seen(book, uid);
        const read = vcard.readCard(seen.text);
        const lines = read.lines.filter((it) => !remove.includes(vcard.lineText(it)));
        for (const text of add) lines.push(vcard.readLine(text));
        const text = vcard.writeCard({ lines });
        await waiting.save({ book, uid, base: seen.text, version: seen.version, text });
    }
    db.close();
    new BroadcastChannel('desk').postMessage({ queue: true });
})"""
LINES = """(async ([book]) => {
    const [store, queue, vcard] = await Promise.all(
        ['store', 'queue', 'vcard'].map((it) => import('/js/' + it + '.js')));
    const db = (await store.openStore()).db;
    const waiting = new queue.Queue(db);
    const found = {};
    for (let at = 0; at < 6; at += 1) {
        const seen = await waiting.seen(book, 'set' + at);
        found['set' + at] = vcard.readCard(seen.text).lines.map(vcard.lineText).sort();
    }
    const left = (await waiting.all()).length;
    db.close();
    return { found, left };
})"""


def called(page, script, *values):
    return page.run(f"{script}({json.dumps(values)})")


@fault
def three_desks(trial):
    """Random edits of sets at three desks, with the network coming and going: all are kept."""
    office, chance = trial.office, random.Random(23)
    office.order_book("sets")
    wanted = {}
    for number in range(6):
        uid = f"set{number}"
        wanted[uid] = {f"UID:{uid}", f"FN:Set {number}", "KIND:group", f"MEMBER:m{number}",
                       f"TEL:020 7946 10{number:02}"}
        office.put("sets", uid, card(uid, *sorted(wanted[uid] - {f"UID:{uid}"})))
    desks = [trial.desk("admin", f"set{number}") for number in range(3)]
    for page in desks:
        page.wait(f"{STATE}.startsWith('Up to date')")
        page.wait("document.querySelector('#books').textContent.includes('sets')")
        called(page, LINES, "sets")
    shapes = ("TEL;TYPE=work:020 7946 {:04}", "MEMBER:n{}", "EMAIL:{}@example.test",
              "URL:https://{}.example/")
    count, adder = 0, {}
    for part in range(8):
        if part % 3 == 1:
            office.shut()
        # Whether a change whose reply was lost came before a removal of its value can't be told,
        # so nobody removes what another desk hasn't sent for sure.
        unsure = [number for number, it in enumerate(desks) if called(it, LINES, "sets")["left"]]
        for number, page in enumerate(desks):
            here = called(page, LINES, "sets")["found"]
            edits = []
            for _ in range(chance.randint(1, 5)):
                uid = f"set{chance.randint(0, 5)}"
                count += 1
                add = [chance.choice(shapes).format(1000 + count)]
                adder[add[0]] = number
                mine = [it for it in here[uid] if it.split(":")[0] not in ("UID", "FN", "KIND")
                        and it in wanted[uid] and (adder.get(it) not in unsure
                                                   or adder.get(it) == number)]
                remove = [chance.choice(mine)] if mine and chance.random() < 0.4 else []
                wanted[uid] = (wanted[uid] | set(add)) - set(remove)
                here[uid] = [it for it in here[uid] if it not in remove]
                edits.append([uid, add, remove])
            called(page, EDIT, "sets", edits)
            page.run("window.dispatchEvent(new Event('online'))")
        if part % 3 == 1:
            office.open()
            for page in desks:
                page.run("window.dispatchEvent(new Event('online'))")
        time.sleep(chance.random() * 0.5)

    def settled():
        for page in desks:
            page.run("window.dispatchEvent(new Event('online'))")
        time.sleep(0.5)
        states = [called(page, LINES, "sets") for page in desks]
        return all(it["left"] == 0 and it["found"] == states[0]["found"] for it in states)

    until(settled, 90)
    lines = called(desks[0], LINES, "sets")["found"]
    for uid, values in wanted.items():
        assert not values - set(lines[uid]), (uid, "lost", values - set(lines[uid]))
        assert not set(lines[uid]) - values, (uid, "not removed", set(lines[uid]) - values)
        assert len(lines[uid]) == len(values), lines[uid]
        kept = {it for it in logical(office.card("sets", uid)["card"])
                if it and not it.startswith(("BEGIN", "VERSION", "END"))}
        assert kept == values, (uid, kept ^ values)
    print(f"  {count} values were added at three desks; all that weren't removed are there")
