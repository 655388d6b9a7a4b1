"""Steps about menus: what comes by itself, and late, doesn't close one that somebody has opened."""

from between import hold
from loss_steps import at_desk, open_form
from office import logical
from steps import ROWS, TITLE, fault, search

OPEN = "document.querySelector('.menu-list:not([hidden])')"
LIST_OPENER = "document.querySelector('#list-menu button')"
CARD_OPENER = "document.querySelector('#pane .actions .round')"


def stays(page, opener, text):
    """Opens a menu by its button. It has to be there some time later, with the focus in it."""
    page.run(f"{opener}.click()")
    page.wait(f"{OPEN}?.textContent.includes('{text}')", 5)
    page.rest(2500)
    assert page.run(f"{OPEN}?.contains(document.activeElement)"), "the menu was lost"
    page.key("Escape")
    page.wait(f"!{OPEN}", 5)
    assert page.run(f"document.activeElement === {opener}")


@fault
def menus_stay(trial):
    """A card or a form that comes late, and what others change, leave an open menu as it is."""
    page, office = at_desk(trial), trial.office
    page.front()
    page.press("clients", "document.querySelector('#books')")
    search(page, "")
    page.wait(f"{ROWS}.length > 10")
    # A card is opened, and comes when the menu of the list is open.
    hold(page, 1500)
    page.run("location.hash = '#/card/clients/c20'")
    stays(page, LIST_OPENER, "Find duplicates")
    page.wait(f"{TITLE} === 'Ulrike Brandt'", 5)
    # The same for a form.
    hold(page, 1500)
    page.key("F2")
    stays(page, LIST_OPENER, "Find duplicates")
    page.wait("document.querySelector('.form')", 5)
    page.press("Cancel", "document.querySelector('.form')")
    page.wait(f"{TITLE} === 'Ulrike Brandt'")
    # A search finds the card that is shown already.
    hold(page, 1500)
    search(page, "ulrike")
    stays(page, CARD_OPENER, "Delete")
    # Others change cards, also this one, which is shown as it is now once the menu is closed.
    for uid in ("c20", "c21"):
        office.put("clients", uid, "\r\n".join(
            "TITLE:While a menu is open" if it.startswith("TITLE") else it
            for it in logical(office.card("clients", uid)["card"])))
    page.run("dispatchEvent(new Event('focus'))")  # as when the window comes to the front
    stays(page, CARD_OPENER, "Delete")
    page.wait("document.querySelector('.roles').textContent.includes('While a menu is open')", 5)
    page.run("dispatchEvent(new Event('focus'))")
    stays(page, LIST_OPENER, "Find duplicates")
    # What is typed into the search isn't cut off by a card that comes late.
    hold(page, 1500)
    page.run("location.hash = '#/card/clients/c21'")
    search(page, "")
    page.rest(2500)
    page.wait(f"{TITLE} === 'Viktor Sokolov'", 5)
    assert page.run("document.activeElement.id") == "search"
    open_form(page, "ulrike", "Ulrike Brandt")
    page.press("Cancel", "document.querySelector('.form')")
    search(page, "")
