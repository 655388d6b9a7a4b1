"""An office's day at the desk, from the books of examples/office.sh on, by the keyboard alone."""

import json
import time

from access import audit
from browser import ALT
import common
from common import HEADER, ROWS, STATE, TITLE, card_with, toast, until
from hands import Hands
from office import card

DAY = {}
BOOKS = "[...document.querySelectorAll('#books .choose')].map((it) => it.innerText)"
CARD = "document.querySelector('.card').innerText"
DIALOG = "document.querySelector('dialog').innerText"
CAPTION = "document.querySelector('dialog .card-total')?.textContent"
SAID = "document.querySelector('dialog .import').innerText"


def step(function):
    DAY[function.__name__.replace("_", "-")] = function
    return function


class Day(common.Trial):
    @property
    def mine(self):
        """The desk of the office's manager, and the hands at it."""
        return self.desks["admin"], Hands(self.desks["admin"])

    def picture(self, page, name):
        page.rest(300)
        page.picture(self.pictures / f"{name}.png")


def equals(page, expression, value):
    text = json.dumps(value, ensure_ascii=False, separators=(",", ":"))
    page.wait(f"JSON.stringify({expression}) === {json.dumps(text)}")


def find(page, text):
    """Searches; the first card that is found is shown."""
    page.key("Escape")
    Hands(page).at("search")
    if page.run("document.querySelector('#search').value"):
        page.key("Escape")
    page.write(text)


def shows(page, name):
    page.wait(f"{TITLE} === {json.dumps(name)}")


def status(day, book, uid):
    return common.status(day.office, book, uid)


def stored(day, book, uid, *lines):
    """Waits until the server's card has the lines. Returns all of its lines."""
    return card_with(day.office, book, uid, *lines)


def update(page):
    """Asks the server now, from wherever the focus is."""
    is_before = page.run("document.activeElement.id === 'search'")
    Hands(page).press("Update now", back=not is_before)
    page.wait(f"{STATE}.startsWith('Up to date')")
    time.sleep(0.4)


def menu(page, book):
    """Opens the dialog of a book, from the search on."""
    if page.run("document.activeElement.id !== 'search'"):
        page.key("Escape")
    hands = Hands(page)
    if page.run("document.querySelector('#places').checkVisibility()"):
        hands.press("Books and groups", back=True)
    hands.press(f"Book {book}: ")
    page.wait(f"{CAPTION}?.includes('card')")


@step
def morning(day):
    """The desk opens with all books and cards that the tour left."""
    page = day.desk("admin")
    page.wait(f"{STATE}.startsWith('Up to date')")
    equals(page, BOOKS, ["All books\n5", "clients\n3", "staff\n2", "Favourites",
                         "Recently opened", "Trash"])
    equals(page, ROWS, ["Anna", "Bob", "Cy", "Pat Lee", "Quin"])
    hands = Hands(page)
    hands.at("search")
    assert hands.order(14) == [
        "button New card", "button Update now", "button All books5", "button clients3",
        "button Book clients: numbers, import,", "button staff2",
        "button Book staff: numbers, import, e", "button Add a book", "button Favourites",
        "button Recently opened", "button Trash", "button New group", "button Sort and select",
        "listbox Cards",
    ]
    page.key("Escape")
    hands.at("search")
    assert hands.tab(back=True)["name"] == "Go to the search"
    day.picture(page, "morning")
    audit(page, "the list")


@step
def search(day):
    """Three letters or some digits, and the card is there."""
    page, hands = day.mine
    for typed, name in (("pat", "Pat Lee"), ("lee", "Pat Lee"), ("example", "Pat Lee"),
                        ("quin", "Quin"), ("BOB", "Bob")):
        find(page, typed)
        shows(page, name)
        hands.at("search")
    find(page, "nobody here")
    page.wait("!document.querySelector('#empty').hidden")
    find(page, "pat")
    shows(page, "Pat Lee")
    page.key("Enter")
    hands.at("card-name")
    stops = hands.order(4)
    assert stops == ["button Edit", "button More actions", "a Mail: pat@example.test",
                     "button Share"], stops
    assert page.run("document.querySelector('.card a').href") == "mailto:pat@example.test"
    day.picture(page, "card")
    audit(page, "a card")


@step
def add(day):
    """A new card, with two numbers and an organisation."""
    page, hands = day.mine
    find(page, "")
    hands.press("staff")
    equals(page, ROWS, ["Bob", "Cy"])
    page.key("n", ALT, "KeyN")
    page.wait("document.activeElement.closest('.form')")
    hands.fill("Given name", "Zoë")
    hands.fill("Family name", "O'Brien")
    hands.fill("Phone", "020 7946 0101")
    hands.press("Add")
    page.write("+44 7700 900102")
    hands.fill("Mail", "zoe@example.test")
    hands.fill("Organisation", "Brien & Co; Ltd")
    day.picture(page, "form")
    audit(page, "a new card")
    page.key("Enter")
    shows(page, "Zoë O'Brien")
    toast(page, "Saved: Zoë O'Brien")
    uid = page.run("decodeURIComponent(location.hash.split('/')[3])")
    stored(day, "staff", uid, "N:O'Brien;Zoë;;;", "TEL;TYPE=work:020 7946 0101",
           "TEL;TYPE=work:+44 7700 900102", "EMAIL;TYPE=work:zoe@example.test",
           "ORG:Brien & Co\\; Ltd")


@step
def edit(day):
    """An edit keeps the lines of other programs."""
    page, hands = day.mine
    day.office.put("clients", "q", card("q", "FN:Quin", "X-ACCOUNT:4711", "TZ:Europe/London"))
    update(page)
    find(page, "")
    hands.press("All books")
    find(page, "quin")
    shows(page, "Quin")
    page.key("F2")
    hands.fill("Organisation", "Quin Cars")
    hands.fill("Note", "Rings on Fridays.")
    audit(page, "the form")
    hands.press("Save")
    page.wait(f"({CARD}).includes('Quin Cars')")
    stored(day, "clients", "q", "X-ACCOUNT:4711", "TZ:Europe/London", "ORG:Quin Cars",
           "NOTE:Rings on Fridays.")


@step
def conflict(day):
    """curl changes the card that is being edited: both edits are shown, and somebody chooses."""
    page, hands = day.mine
    find(page, "anna")
    shows(page, "Anna")
    page.key("F2")
    hands.fill("Name as it is shown", "Anna Marie")
    hands.fill("Position", "Head of sales")
    theirs = day.office.folder / "theirs.vcf"
    theirs.write_text(card("a", "FN:Anna Maria", "TEL:020 7946 0177"))
    version = json.loads(day.office.curl("ann", "/clients/cards/a"))["version"]
    said = day.office.curl("ann", f"/clients/cards/a?version={version}", "-T", theirs)
    assert json.loads(said)["put"] == "edited", said
    page.key("Enter")
    page.wait("document.querySelector('dialog table.conflict')")
    for text in ("Anna Marie", "Anna Maria", "Head of sales", "020 7946 0177"):
        assert text in page.run(DIALOG), text
    audit(page, "a conflict")
    hands.press("Save what is chosen")
    assert page.run("document.querySelector('dialog .error').textContent"), "nothing was chosen"
    day.picture(page, "conflict")
    page.key(" ")
    hands.press("Save what is chosen")
    text = stored(day, "clients", "a", "TITLE:Head of sales", "TEL:020 7946 0177")
    assert ("FN:Anna Marie" in text) != ("FN:Anna Maria" in text), text


@step
def move(day):
    """A card goes to another book, and has its own address there."""
    page, hands = day.mine
    find(page, "cy")
    shows(page, "Cy")
    page.key("Enter")
    hands.at("card-name")
    hands.choose("More actions", "Move…")
    page.wait("document.querySelector('dialog')")
    audit(page, "a question")
    hands.press("clients")
    toast(page, "Moved to clients: Cy")
    stored(day, "clients", "c", "FN:Cy")
    assert status(day, "staff", "c") == 404
    page.wait("location.hash === '#/card/clients/c'")


@step
def delete(day):
    """A card is deleted, comes back by Undo, and is deleted again."""
    page, hands = day.mine
    find(page, "bob")
    shows(page, "Bob")
    for is_undone in (True, False):
        page.key("Enter")
        hands.at("card-name")
        hands.choose("More actions", "Delete")
        page.wait("document.querySelector('dialog')")
        hands.press("Delete")
        toast(page, "Deleted: Bob")
        until(lambda: status(day, "staff", "b") == 404)
        if is_undone:
            day.picture(page, "deleted")
            before = hands.stops
            hands.press("Undo")
            assert hands.stops - before <= 3, "Undo is far away"
            shows(page, "Bob")
            stored(day, "staff", "b", "FN:Bob")
    page.wait(f"!({ROWS}).includes('Bob')")
    page.wait("!document.querySelector('#card-name')")


# The name of a file, its text, what the desk says of it, and what comes of it.
FILES = [
    ("part.csv", "First Name,E-mail Address\nUrsula Part,up@x.test\nBad,b@x.test,c,d\n",
     "1 not carried", "1 new card, 0 changed, 0 as they were"),
    ("good.csv", f"{HEADER}n1,Ned Stone,Stone,Ned,ned@example.test,020 7946 0188,Stone & Sons,"
     "\nn3,Nora,,,,,,\n", "2 cards to import", "2 new cards, 0 changed, 0 as they were"),
    ("old.vcf", card("v1", "FN:Vic", "TEL;TYPE=cell:07700 900555").replace("4.0", "3.0")
     + card("v2", "FN:Everyone", "KIND:group", "MEMBER:v1", "MEMBER:n1"),
     "2 cards to import", "2 new cards, 0 changed, 0 as they were"),
]
# The same where the server doesn't convert files.
AS_THEY_ARE = [
    ("bad.csv", f"{HEADER}n1,Ned,,,,,,\nn2,,,,,,,\nn3,Nora,,,,,,\n",
     "Row 2: The name (fn) is empty. Nothing was imported."),
    ("bad.vcf", card("v1", "FN:New") + card("v2", "FN:Old Olga").replace("4.0", "3.0"),
     "Card 2 (Old Olga): It isn’t vCard 4.0. Export it as vCard 4.0. Nothing was imported."),
    ("good.csv", f"{HEADER}n1,Ned Stone,Stone,Ned,ned@example.test,020 7946 0188,Stone & Sons,"
     "\nn3,Nora,,,,,,\n", "2 new cards, 0 changed, 0 as they were"),
    ("good.vcf", card("v1", "FN:Vic", "TEL;TYPE=cell:07700 900555")
     + card("v2", "FN:Everyone", "KIND:group", "MEMBER:v1", "MEMBER:n1"),
     "2 new cards, 0 changed, 0 as they were"),
]


@step
def import_files(day):
    """Files are shown before they are imported; what can't be carried is said."""
    page, hands = day.mine
    if day.office.request("POST", "/convert", "BEGIN:VCARD\r\n", "ann")[0] in (404, 405):
        import_as_is(day)
        return
    page.key("Escape")
    for name, text, shown, words in FILES:
        path = day.office.folder / name
        path.write_text(text)
        menu(page, "clients")
        hands.press("Import a file")
        page.wait("document.querySelector('dialog input[type=file]')")
        hands.to("File")
        page.choose_file("dialog input[type=file]", path)
        page.wait(f"({SAID}).includes({json.dumps(shown)})")
        day.picture(page, f"preview-{name.replace('.', '-')}")
        audit(page, f"the preview of {name}")
        hands.press("Import", back=False)
        page.wait(f"({SAID}).includes({json.dumps(words)})")
        assert page.run("document.activeElement.localName") == "h3", "the focus is lost"
        audit(page, f"the import of {name}")
        hands.press("Close")
    find(page, "0188")
    shows(page, "Ned Stone")


def import_as_is(day):
    """Files with a wrong row say which and why, and change nothing; right ones are imported."""
    page, hands = day.mine
    before = json.loads(day.office.curl("ann", "/clients/tally"))
    page.key("Escape")
    for name, text, words in AS_THEY_ARE:
        path = day.office.folder / name
        path.write_text(text)
        if not page.run("Boolean(document.querySelector('dialog'))"):
            menu(page, "clients")
            hands.press("Import a file")
            page.wait("document.querySelector('dialog input[type=file]')")
        hands.to("File")
        page.choose_file("dialog input[type=file]", path)
        page.wait("!document.querySelector('dialog .bar .main').disabled")
        hands.press("Import", back=False)
        page.wait(f"({SAID}) === {json.dumps(words)}")
        assert page.run("document.activeElement.type") == "file", "the focus is lost"
        day.picture(page, f"import-{name.replace('.', '-')}")
        audit(page, f"the import of {name}")
        if name.startswith("bad"):
            after = json.loads(day.office.curl("ann", "/clients/tally"))
            assert after["cards"] == before["cards"], after
    hands.press("Close")
    find(page, "0188")
    shows(page, "Ned Stone")


@step
def group(day):
    """The server says who is in a group."""
    page, hands = day.mine
    find(page, "everyone")
    shows(page, "Everyone")
    page.key("Enter")
    hands.at("card-name")
    hands.press("Who is in it")
    page.wait("document.querySelector('.people').innerText.includes('2 people')")
    day.picture(page, "group")
    audit(page, "a group")


@step
def export(day):
    """The exports are the server's, and the copy's cards."""
    page, hands = day.mine
    downloads = day.office.folder / "downloads"
    downloads.mkdir()
    page.keep_downloads(downloads)
    page.key("Escape")
    for button, name in (("Export whole", "clients.csv"),
                         ("Export for a spread", "clients-columns.csv"),
                         ("Export for other", "clients.vcf")):
        menu(page, "clients")
        hands.press(button)
        toast(page, f"Saved: {name}")
        for _ in range(400):
            if (downloads / name).exists() and (downloads / name).stat().st_size:
                break
            page.rest(100)
    for form, name in (("cards", "clients.csv"), ("columns", "clients-columns.csv")):
        wanted = day.office.curl("ann", f"/clients/export?form={form}")
        assert (downloads / name).read_bytes().decode() == wanted, name
    cards = [it["card"] for it in json.loads(day.office.curl("ann", "/clients/sync"))["members"]]
    text = (downloads / "clients.vcf").read_bytes().decode()
    assert len(text) == sum(map(len, cards)) and all(it in text for it in cards)


@step
def tally(day):
    """The numbers of a book are the server's."""
    page, hands = day.mine
    menu(page, "clients")
    wanted = json.loads(day.office.curl("ann", "/clients/tally"))
    page.wait(f"{CAPTION} === '{wanted['cards']} cards'")
    hands.to("Details", kind="summary")
    page.key("Enter")
    page.wait("document.querySelector('.tally').innerText.includes('Since the book was made')")
    shown = page.run("document.querySelector('.tally').innerText")
    for name, words in (("created", "one by one"), ("imported", "New cards from files"),
                        ("number", "together"), ("moved_in", "came from other books"),
                        ("edited", "Changes of a card")):
        line = next(it for it in shown.splitlines() if it.split("\t")[0].endswith(words))
        assert line.split("\t")[1] == str(wanted[name]), (name, shown, wanted)
    day.picture(page, "tally")
    audit(page, "a book")
    hands.press("Close")
