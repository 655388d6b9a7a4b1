"""The steps of the trial, in order. Each finds something out by what a user would see."""

import json
import time

from access import audit
from between import UNAWARE, lose_reply, refuse
from cards import office_cards
from common import HEADER, ROWS, STATE, TITLE, card_with, toast, until
from office import card, logical

STEPS = {}
FAULTS = {}  # those that both browsers take: what loses or misleads
ROLES = "document.querySelector('.roles').textContent"
MENU = "[...document.querySelectorAll('#books .menu')]" \
    ".find((it) => it.getAttribute('aria-label').startsWith('Book staff'))"
IMPORT = "document.querySelector('dialog .import').innerText"


def step(function):
    STEPS[function.__name__.replace("_", "-")] = function
    return function


def fault(function):
    """A step about a fault that loses or misleads: it is taken in Firefox too."""
    FAULTS[function.__name__.replace("_", "-")] = function
    return step(function)


def search(page, text):
    page.run("(() => { const it = document.querySelector('#search'); it.focus(); it.select(); })()")
    if text:
        page.type(text)
    else:
        page.run("(() => { const it = document.querySelector('#search'); it.value = '';"
                 "it.dispatchEvent(new Event('input', { bubbles: true })); })()")


def fill(page, label, text):
    """Types into the field with this label, in place of what it has."""
    page.wait(f"""(() => {{
        const label = [...document.querySelectorAll('form label, dialog label')]
            .find((it) => it.textContent.trim() === {json.dumps(label)});
        const field = label && document.getElementById(label.htmlFor);
        if (!field) return false;
        field.focus();
        field.select();
        return true;
    }})()""")
    page.type(text)


def more(page, text):
    """Takes something of the menu of the card that is shown."""
    page.wait("document.querySelector('#pane .actions .round')")
    page.run("document.querySelector('#pane .actions .round').click()")
    page.press(text, "document.querySelector('#pane .menu-list')")


def up_to_date(page):
    page.press("Update now")
    page.wait(f"{STATE}.startsWith('Up to date')")
    time.sleep(0.4)


def stored(office, uid, line, book="clients"):
    """Waits until the server's card has the line. Returns the card's lines."""
    return card_with(office, book, uid, line)


@fault
def start(trial):
    """admin sees all books; ann, who may not list them, adds hers by name."""
    trial.office.fill("clients", office_cards())
    trial.office.put("staff", "s1", card("s1", "FN:Ann Keeper", "TEL;TYPE=work:020 7946 0001"))
    admin = trial.desk("admin")
    admin.wait(f"{STATE}.startsWith('Up to date')")
    admin.wait("document.querySelector('#books ul').children.length === 3")
    admin.wait(f"{ROWS}.length > 10")
    ann = trial.desk("ann")
    for book in ("staff", "clients"):
        ann.press("Add a book")
        fill(ann, "Name of the book", book)
        ann.key("Enter")
        ann.wait(f"document.querySelector('#books').textContent.includes('{book}')")
    ann.press("All books")
    ann.wait(f"{STATE}.startsWith('Up to date')")
    admin.picture(trial.pictures / "start.png")


@step
def look_up(trial):
    """Three letters or a few digits, and the number is there, without leaving the search."""
    admin = trial.desks["admin"]
    for typed, name, number in (
        ("oha", "Liam O’Hara", "028 9018 0228"),
        ("mir o", "Miriam O’Hara", "020 7946 0236"),
        ("ang", "Kerstin Ångström", "+46 8 465 004 42"),
        ("7946 0317", "Viktor Sokolov", "020 7946 0317"),
        ("+442079460192", "Hugo Petit", "020 7946 0192"),
        ("papada", "Xanthe Papadaki", "01632 960338"),
    ):
        search(admin, typed)
        admin.wait(f"{TITLE} === {json.dumps(name)}")
        assert number in admin.run("document.querySelector('.phones').textContent"), number
        assert admin.run("document.activeElement.id") == "search"
    search(admin, "oha")
    admin.wait(f"{TITLE} === 'Liam O’Hara'")
    admin.key("ArrowDown")
    admin.wait(f"{TITLE} === 'Miriam O’Hara'")
    admin.picture(trial.pictures / "card.png")
    admin.key("Enter")
    admin.wait("document.activeElement.id === 'card-name'")
    admin.key("Escape")
    admin.wait("document.activeElement.id === 'search'")
    # The address of a call link, and what the photo is.
    link = admin.run("document.querySelector('.phones a').getAttribute('href')")
    assert link == "tel:02079460236", link
    assert admin.run("document.querySelector('img.photo').src").startswith("data:image/png")


@fault
def edit(trial):
    """An edit keeps what the form doesn't know, and reaches the other desk."""
    admin, ann = trial.desks["admin"], trial.desks["ann"]
    before = logical(trial.office.card("clients", "c12")["card"])
    search(admin, "miriam")
    admin.wait(f"{TITLE} === 'Miriam O’Hara'")
    admin.key("F2")
    fill(admin, "Position", "Finance director")
    admin.picture(trial.pictures / "form.png")
    admin.press("Save")
    admin.wait(f"{TITLE} === 'Miriam O’Hara' && {ROLES}.includes('Finance')")
    after = stored(trial.office, "c12", "TITLE:Finance director")
    changed = [it for it in zip(before, after) if it[0] != it[1]]
    assert changed == [("TITLE:Head of accounts", "TITLE:Finance director")], changed
    up_to_date(ann)
    search(ann, "miriam")
    ann.wait("document.querySelector('.roles')?.textContent.includes('Finance director')")


@step
def new_card(trial):
    """A new card by keyboard alone, with two numbers."""
    admin = trial.desks["admin"]
    admin.press("clients", "document.querySelector('#books')")
    admin.key("n", modifiers=1, code="KeyN")
    admin.wait("document.activeElement.closest('.form')")
    fill(admin, "Given name", "Petra")
    fill(admin, "Family name", "van Dijk")
    assert admin.run("document.querySelector('#field-fn').value") == "Petra van Dijk"
    admin.run("document.querySelectorAll('fieldset')[1].querySelector('input').focus()")
    admin.type("+31 20 555 0101")
    admin.press("Add", "document.querySelectorAll('fieldset')[1]")
    admin.type("+31 6 5550 0102")
    fill(admin, "Organisation", "Dijk, Zoon; Co")
    admin.key("Enter")
    admin.wait(f"{TITLE} === 'Petra van Dijk'")
    uid = admin.run("decodeURIComponent(location.hash.split('/')[3])")
    until(lambda: trial.office.request("GET", f"/books/clients/cards/{uid}")[0] == 200)
    text = logical(trial.office.card("clients", uid)["card"])
    assert "ORG:Dijk\\, Zoon\\; Co" in text and "TEL;TYPE=work:+31 20 555 0101" in text, text
    assert "TEL;TYPE=work:+31 6 5550 0102" in text, text
    assert "N:van Dijk;Petra;;;" in text, text


@fault
def conflict(trial):
    """Two desks and curl edit one card: both are shown, and somebody chooses."""
    admin, ann, office = trial.desks["admin"], trial.desks["ann"], trial.office
    search(ann, "samir")
    ann.wait(f"{TITLE} === 'Samir Aziz'")
    ann.key("F2")
    fill(ann, "Position", "Head dispatcher")
    ann.run("document.querySelectorAll('.form textarea')[0].focus()")
    ann.type("Rings before nine")
    theirs = office.card("clients", "c18")["card"]
    theirs = theirs.replace("TITLE:Dispatcher", "TITLE:Night dispatcher")
    theirs = theirs.replace("07700 900290", "07700 900999")
    office.put("clients", "c18", theirs)
    ann.press("Save")
    ann.wait("document.querySelector('dialog table.conflict')")
    shown = ann.run("document.querySelector('dialog').innerText")
    assert ann.run("document.querySelectorAll('dialog .clash').length") == 1, shown
    for text in ("Head dispatcher", "Night dispatcher", "07700 900999", "Rings before nine"):
        assert text in shown, (text, shown)
    ann.press("Save what is chosen")
    assert ann.run("document.querySelector('dialog .error').textContent"), "nothing was chosen yet"
    ann.picture(trial.pictures / "conflict.png")
    # The card changes once more while the question is open.
    office.put("clients", "c18", theirs.replace("Aziz Couriers", "Aziz & Sons"))
    ann.run("document.querySelector('.clash td:last-child label').click()")
    ann.press("Save what is chosen")
    ann.wait(f"{TITLE} === 'Samir Aziz'")
    stored(office, "c18", "NOTE:Rings before nine")
    text = office.card("clients", "c18")["card"]
    for part in ("TITLE:Night dispatcher", "07700 900999", "NOTE:Rings before nine", "Aziz & Sons"):
        assert part in text, text
    up_to_date(admin)
    search(admin, "samir")
    admin.wait("document.querySelector('.card')?.innerText.includes('Rings before nine')")


@fault
def removed_meanwhile(trial):
    """Somebody deletes the card that is edited: the edit isn't lost."""
    ann, office = trial.desks["ann"], trial.office
    search(ann, "quentin")
    ann.wait(f"{TITLE} === 'Quentin Marsh'")
    ann.key("F2")
    fill(ann, "Position", "Master glazier")
    office.ask("DELETE", "/clients/cards/c16")
    ann.press("Save")
    ann.wait("document.querySelector('dialog[open]')")
    audit(ann, "a card that somebody deleted")
    ann.press("Store it again")
    ann.wait(f"{TITLE} === 'Quentin Marsh'")
    until(lambda: office.request("GET", "/books/clients/cards/c16")[0] == 200)
    assert "Master glazier" in office.card("clients", "c16")["card"]


@fault
def lost_reply(trial):
    """The reply to a PUT is lost: the desk asks again and finds its edit made, once."""
    admin, office = trial.desks["admin"], trial.office
    search(admin, "jonas")
    admin.wait(f"{TITLE} === 'Jonas Weber'")
    admin.key("F2")
    fill(admin, "Position", "Chief of scales")
    was = office.ask("GET", "/clients/tally")["number"]
    lose_reply(admin, "PUT")
    admin.press("Save")
    toast(admin, "Saved: Jonas Weber")
    stored(office, "c09", "TITLE:Chief of scales")
    admin.wait("document.querySelector('#waiting').hidden")
    assert office.ask("GET", "/clients/tally")["number"] == was + 1


@fault
def delete_move_undo(trial):
    """Delete with undo, a deletion of a card that changed, and a move."""
    admin, office = trial.desks["admin"], trial.office
    text = office.card("clients", "c23")["card"]
    admin.front()  # nothing is asked at a desk that isn't seen
    search(admin, "xanthe")
    admin.wait(f"{TITLE} === 'Xanthe Papadaki'")
    more(admin, "Delete")
    admin.press("Delete", "document.querySelector('dialog')")
    until(lambda: office.request("GET", "/books/clients/cards/c23")[0] == 404)
    admin.press("Undo")
    admin.wait(f"{TITLE} === 'Xanthe Papadaki'")
    until(lambda: office.request("GET", "/books/clients/cards/c23")[0] == 200)
    assert office.card("clients", "c23")["card"] == text
    admin.wait("document.querySelector('#waiting').hidden")
    admin.run(UNAWARE)
    admin.run("navigator.locks.request('desk clients', () => null)")  # what was asked before ends
    office.put("clients", "c23", text.replace("Potter", "Tile maker"))
    more(admin, "Delete")
    admin.press("Delete", "document.querySelector('dialog')")
    admin.wait("document.querySelector('dialog h2')?.textContent.includes('changed')")
    audit(admin, "a card that is to be deleted and was changed")
    admin.run("window.fetchAgain()")
    admin.press("Keep it")
    search(admin, "xanthe")
    admin.wait("document.querySelector('.roles').textContent.includes('Tile maker')")
    more(admin, "Move")
    admin.press("staff", "document.querySelector('dialog')")
    toast(admin, "Moved to staff")
    stored(office, "c23", "TITLE:Tile maker", "staff")
    assert office.request("GET", "/books/clients/cards/c23")[0] == 404


@step
def groups(trial):
    """Members of a group, groups of a person, and the people that the server finds."""
    admin = trial.desks["admin"]
    search(admin, "invite")
    admin.wait(f"{TITLE} === 'Everybody to invite'")
    admin.press("Who is in it")
    admin.wait("document.querySelector('.people').innerText.includes('5 people')")
    people = admin.run("document.querySelector('.people').innerText")
    assert "Rosa Delgado" in people and "nobody" in people, people
    admin.picture(trial.pictures / "group.png")
    admin.press("Accounts and law", "document.querySelector('.card')")
    admin.wait(f"{TITLE} === 'Accounts and law'")
    admin.press("Hugo Petit", "document.querySelector('.card')")
    admin.wait(f"{TITLE} === 'Hugo Petit'")
    assert "In groups" in admin.run("document.querySelector('.card').innerText")


@step
def files(trial):
    """Imports of CSV and .vcf, with the first fault in words; the tally; exports."""
    admin, folder = trial.desks["admin"], trial.office.folder
    bad = [
        ("semicolons.csv", HEADER.replace(",", ";") + "a;b\n", "separated by semicolons"),
        ("header.csv", "name,phone\nA,1\n", "has to be exactly"),
        ("latin.csv", "uid,vcard\n\udce9,\n".encode("utf-8", "surrogateescape"), "UTF-8"),
        ("empty.csv", HEADER + "x1,Good One,,,,,,\nx2,,,,,,,\n", "Row 2: The name (fn) is empty."),
        ("twice.csv", HEADER + "x1,One,,,,,,\nx1,Two,,,,,,\n", "Row 2 (Two): An earlier one"),
        ("old.vcf", card("v1", "FN:New") + card("v2", "FN:Old Olga").replace("4.0", "3.0"),
         "Card 2 (Old Olga): It isn’t vCard 4.0."),
        ("cut.vcf", card("v1", "FN:Cut")[:-14], "(END:VCARD) is missing"),
    ]
    refuse(admin, "POST", "/convert", 405, "")  # as with a server that doesn't convert
    admin.run(f"({MENU}).click()")
    admin.wait("document.querySelector('.tally caption')?.textContent.startsWith('Since')")
    admin.picture(trial.pictures / "book.png")
    admin.press("Import a file")
    admin.wait("document.querySelector('dialog .choose')")
    for name, text, words in bad:
        path = folder / name
        path.write_bytes(text if isinstance(text, bytes) else text.encode())
        admin.choose_file("dialog input[type=file]", path)
        admin.wait(f"{IMPORT} !== ''")
        if admin.run("!document.querySelector('dialog .bar .main').disabled"):
            admin.press("Import", "document.querySelector('dialog .bar')")
        admin.wait(f"{IMPORT}.includes({json.dumps(words)})")
        admin.picture(trial.pictures / "import.png")
    good = folder / "good.vcf"
    good.write_text(
        "BEGIN:VCARD\nVERSION:4.0\nFN:Vera Without Uid\nTEL:01632 960777\nEND:VCARD\n"
        "\nBEGIN:VCARD\nVERSION:4.0\nUID:v9\nFN:Walt Nine\nEND:VCARD\n"
    )
    admin.choose_file("dialog input[type=file]", good)
    admin.wait("!document.querySelector('dialog .bar .main').disabled")
    admin.press("Import", "document.querySelector('dialog .bar')")
    admin.wait(f"{IMPORT} === '2 new cards, 0 changed, 0 as they were'")
    admin.press("Close", "document.querySelector('dialog')")
    admin.run("window.fetchAgain()")
    admin.press("All books")
    search(admin, "01632 960777")
    admin.wait(f"{TITLE} === 'Vera Without Uid'")
    downloads = folder / "downloads"
    downloads.mkdir()
    admin.keep_downloads(downloads)
    for text, name, has in (
        ("Export whole", "staff.csv", "uid,vcard\n"),
        ("Export for a spread", "staff-columns.csv", HEADER),
        ("Export for other", "staff.vcf", "BEGIN:VCARD\r\n"),
    ):
        admin.run(f"({MENU}).click()")
        admin.press(text, "document.querySelector('dialog')")
        end = time.monotonic() + 40 * admin.slow
        while not (downloads / name).exists() and time.monotonic() < end:
            admin.rest(100)
        content = (downloads / name).read_bytes().decode()
        assert content.startswith(has) and "Vera Without Uid" in content, content[:200]
