"""Each dialog and menu by the keyboard alone, looked at as screen readers and weak eyes need it."""

from access import audit
from between import with_tables
from browser import SHIFT
from hands import Hands
from loss_steps import at_desk
from office import card
from steps import MENU, ROWS, TITLE, fill, search, step, up_to_date

IS_OPEN = "Boolean(document.querySelector('dialog[open]'))"
IS_IN = "Boolean(document.activeElement.closest('dialog, #toast')) " \
    "|| document.activeElement === document.body"


def look(page, hands, name, title, below=""):
    """The dialog that is open now; Escape closes it, and leads to the one below it, or the page."""
    page.wait(f"document.querySelector('dialog[open] h2')?.textContent.includes({title!r})")
    audit(page, name)
    for _ in range(8):
        hands.tab()
        assert page.run(IS_IN), (name, page.run("document.activeElement.outerHTML"))
    page.key("Escape")
    page.wait(f"(document.querySelector('dialog[open] h2')?.textContent ?? '').includes({below!r})"
              f" && ({IS_OPEN}) === {str(bool(below)).lower()}")


# Drops a file on the page.
DROP = """(() => {
    const data = new DataTransfer();
    data.items.add(new File([''], 'dora.vcf', { type: 'text/vcard' }));
    document.body.dispatchEvent(new DragEvent('drop', {
        dataTransfer: data, bubbles: true, cancelable: true,
    }));
})()"""


def card_menu(hands, page, item):
    page.key("Enter")
    hands.at("card-name")
    # Nothing is pressed at the heading, so it isn't marked.
    assert page.run("getComputedStyle(document.activeElement).outlineStyle") == "none"
    hands.choose("More actions", item)


@step
def dialogs(trial):
    """The trash, duplicates, groups of a card, questions, several cards: names, contrast, order."""
    page, office = at_desk(trial), trial.office
    for number in range(2):
        office.put("clients", f"twin{number}", card(
            f"twin{number}", "FN:Tilda Twin", f"TEL:020 7946 070{number}", f"TITLE:T{number}"))
    page.front()
    page.press("Update now")
    page.press("clients", "document.querySelector('#books')")
    hands = Hands(page)
    search(page, "viktor")
    page.wait(f"{TITLE} === 'Viktor Sokolov'")
    for item, title in (("Groups…", "Groups of Viktor"), ("Move…", "Move Viktor"),
                        ("Changed in this browser…", "Changed in this browser"),
                        ("Delete", "Delete Viktor")):
        card_menu(hands, page, item)
        look(page, hands, item, title)
        page.key("Escape")
        hands.at("search")
    hands.press("Trash")
    look(page, hands, "the trash", "Trash")
    page.key("Escape")
    search(page, "tilda twin")
    page.wait("document.querySelectorAll('#list .row').length === 2")
    hands.choose("Sort and select", "Find duplicates")
    page.wait(IS_OPEN)
    audit(page, "duplicates")
    hands.press("Put together…")
    look(page, hands, "two cards put together", "Put two cards", "may be one person")
    look(page, hands, "duplicates again", "may be one person")
    page.key("Escape")
    hands.at("search")
    page.key("ArrowDown", SHIFT)
    page.wait("document.querySelector('#list-menu').innerText.includes('2 selected')")
    audit(page, "several cards")
    for item, title in (("Add to a group…", "Add 2 cards"), ("Move…", "Move 2 cards"),
                        ("Delete", "Delete 2 cards")):
        hands.choose("With these…", item)
        look(page, hands, f"several: {item}", title)
    page.key("Escape")
    hands.press("Add a book")
    look(page, hands, "a book by its name", "Add a book")
    page.key("Escape")
    hands.press("Add a book")
    hands.fill("Name of the book", "not-there")
    page.key("Enter")
    look(page, hands, "a new book", "There is no book not-there")
    page.key("Escape")
    search(page, "ann keeper")
    page.press("staff", "document.querySelector('#books')")
    search(page, "ann keeper")
    page.wait(f"{TITLE} === 'Ann Keeper'")
    card_menu(hands, page, "Groups…")
    look(page, hands, "a new group", "New group")
    page.key("Escape")
    search(page, "")
    page.press("All books", "document.querySelector('#books')")
    page.run(DROP)
    look(page, hands, "a file that is dropped", "Which book shall")
    page.press("clients", "document.querySelector('#books')")


@step
def menus(trial):
    """Menus that are open: of a card, of the list, of the form."""
    page = at_desk(trial)
    page.front()
    hands = Hands(page)
    search(page, "miriam")
    page.wait(f"{TITLE} === 'Miriam O’Hara'")
    hands.press("Sort and select")
    audit(page, "the menu of the list")
    page.key("Escape")
    page.key("Escape")
    page.key("Enter")
    hands.at("card-name")
    hands.press("More actions")
    audit(page, "the menu of a card")
    page.key("Escape")
    page.key("F2")
    page.wait("document.querySelector('.form')")
    audit(page, "the form")
    hands.press("Add field")
    audit(page, "the menu of the form")
    page.key("Escape")
    hands.press("Cancel")
    page.wait("!document.querySelector('.form')")


@step
def side_bar_scrolled(trial):
    """Where the side bar is longer than the page, Tab goes down it, and it stays where it is."""
    page, office = at_desk(trial), trial.office
    page.front()
    page.press("clients", "document.querySelector('#books')")
    search(page, "")
    page.size(1280, 360)
    hands = Hands(page)
    hands.to("Suppliers")
    scrolled = "document.querySelector('#books').scrollTop"
    place = page.run(scrolled)
    assert place > 0, "all of the side bar is in sight"
    audit(page, "a side bar that is scrolled")
    # It is drawn anew when a card comes.
    office.put("clients", "barred", card("barred", "FN:Aad Barred"))
    page.run("dispatchEvent(new Event('focus'))")
    page.wait("document.querySelector('#list').textContent.includes('Aad Barred')")
    assert page.run(scrolled) == place
    assert page.run("document.activeElement.textContent").startswith("Suppliers")
    page.size(1280, 800)


# The copy was away from 1 to 2 November 2025, 9:00 each.
LONG_AGO = """
    const books = db.transaction('books', 'readwrite').objectStore('books');
    books.get('staff').onsuccess = ({ target }) => books.put({ ...target.result,
        after: new Date(2025, 10, 1, 9).getTime(), changed: new Date(2025, 10, 2, 9).getTime() });
    await new Promise((resolve) => { books.transaction.oncomplete = resolve; });
    db.close();
"""
SIZES = [("wide", 1280, 800), ("narrow", 390, 780)]


@step
def book_in_short(trial):
    """A book says how many cards it has and when it changed; other numbers are behind Details."""
    office = trial.office
    page = trial.desk("ann", "short")
    said = "document.querySelector('dialog').innerText"
    look = f"({MENU}).click()"

    def opened(words):
        page.run(look)
        page.wait(f"{said}.includes({words!r})")
        assert "New cards" not in page.run(said), page.run(said)

    fill(page, "Name of the book", "staff")
    page.key("Enter")
    page.wait(f"Boolean({MENU})")
    up_to_date(page)
    opened("No change since ")
    page.key("Escape")
    office.put("staff", "short", card("short", "FN:Short Said"))
    up_to_date(page)
    page.wait(f"{ROWS}.includes('Short Said')")
    opened("Last changed: ")
    number = office.ask("GET", "/staff/tally")["cards"]
    page.wait(f"document.querySelector('.card-total').textContent === '{number} cards'")
    for name, width, height in SIZES:
        page.size(width, height)
        for scheme in page.schemes:
            page.scheme(scheme)
            page.rest(300)
            page.picture(trial.pictures / f"book-{name}-{scheme}.png")
        audit(page, f"a book in short, {name}")
    Hands(page).to("Details", kind="summary")
    page.key("Enter")
    page.wait(f"{said}.includes('New cards from files')")
    page.picture(trial.pictures / "book-details.png")
    audit(page, "a book with its details")
    assert not page.run("document.documentElement.scrollWidth > innerWidth")
    page.size(1280, 800)
    page.key("Escape")
    with_tables(page, LONG_AGO)
    opened("Last changed between 1 Nov 2025, 09:00 and 2 Nov 2025, 09:00")
    page.key("Escape")
    # Without the network the number is that of the copy.
    office.shut()
    opened(f"{number} cards")
    office.open()
    page.key("Escape")
