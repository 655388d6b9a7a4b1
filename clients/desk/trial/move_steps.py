"""Steps about moves to another book: they wait in the queue, and lose nothing when refused."""

import json

from between import lose_reply, refuse
from common import card_with, keep_files, status
from loss_steps import CARD, FORM, WAITING, at_desk, open_form
from office import card
from steps import ROWS, TITLE, fault, fill, more, search, stored, toast, until

DIALOG = "document.querySelector('dialog')"
BOOKS = "document.querySelector('#books')"
UNDO = "document.querySelector('#toast')"
NOBODY = f"!document.querySelector('#pane a') && {TITLE} === undefined" \
    " && !document.querySelector('#pane').innerText.includes('This card isn')"
# The network is back. A question may come at once, and "Update now" is below it then.
BACK = "window.dispatchEvent(new Event('online'))"


def mover(trial, uid, name, *lines):
    """A card of its own in `clients`, shown at the desk."""
    page = at_desk(trial)
    trial.office.put("clients", uid, card(uid, f"FN:{name}", *lines))
    page.front()
    page.press("Update now")
    page.press("clients", BOOKS)
    search(page, name)
    page.wait(f"{TITLE} === {json.dumps(name)}")
    return page


def move(page, to):
    """Moves the card that is shown, and goes to it in its other book."""
    name = page.wait(TITLE)
    more(page, "Move")
    page.press(to, DIALOG)
    toast(page, f"Moved to {to}")
    page.press(to, BOOKS)
    search(page, name)
    # The message may be that of an earlier move.
    page.wait(f"{CARD}.includes('In the book {to}')")


def settled(page):
    page.wait(f"{WAITING} === ''")


@fault
def move_while_away(trial):
    """Without the network a move is at once, over a reload, with what was changed around it."""
    page, office = mover(trial, "mv1", "Mona Away", "TITLE:Clerk"), trial.office
    keep_files(page)
    office.shut()
    page.key("F2")
    fill(page, "Position", "Head clerk")
    page.press("Save")
    page.wait(f"{CARD}.includes('Head clerk')")
    move(page, "staff")
    page.wait(f"{CARD}.includes('In the book staff') && {CARD}.includes('It goes from clients')")
    page.wait(f"{WAITING}.includes('1 change not sent yet')")
    page.picture(trial.pictures / "move-waits.png")
    page.go("about:blank")
    page.go(office.front)
    page.wait(f"{WAITING}.includes('1 change not sent yet')")
    page.press("staff", BOOKS)
    open_form(page, "mona away", "Mona Away")
    fill(page, "Organisation", "Away & Co")
    page.press("Save")
    page.wait(f"{CARD}.includes('Away & Co')")
    office.open()
    page.front()
    page.press("Update now")
    stored(office, "mv1", "TITLE:Head clerk", "staff")
    stored(office, "mv1", "ORG:Away & Co", "staff")
    assert status(office, "clients", "mv1") == 404
    settled(page)
    # The move is undone: the card goes back, over the server.
    move(page, "clients")
    card_with(office, "clients", "mv1")
    page.press("Undo", UNDO)
    card_with(office, "staff", "mv1")
    settled(page)


@fault
def move_back(trial):
    """A card that is moved and moved back before it was sent changes nothing on the server."""
    page, office = mover(trial, "mv2", "Max Back"), trial.office
    office.shut()
    move(page, "staff")
    page.press("Undo", UNDO)
    settled(page)
    page.press("clients", BOOKS)
    page.wait(f"{ROWS}.includes('Max Back')")
    move(page, "staff")
    page.wait(f"{CARD}.includes('In the book staff')")
    more(page, "Delete")
    page.press("Delete", DIALOG)
    page.wait(f"{WAITING}.includes('1 change not sent yet')")
    office.open()
    before = office.ask("GET", "/staff/tally")["number"]
    page.press("Update now")
    until(lambda: status(office, "clients", "mv2") == 404)
    settled(page)
    assert office.ask("GET", "/staff/tally")["number"] == before
    page.press("clients", BOOKS)


@fault
def moved_away(trial):
    """A card that is moved out of the list isn't beside it, empty or not. Nobody calls it."""
    page, office = mover(trial, "mv9", "Mavis Leaves", "TEL:020 7946 0999"), trial.office
    for text, is_alone in (("mavis leaves", True), ("ma", False)):
        search(page, text)
        page.run("location.hash = '#/card/clients/mv9'")
        page.wait(f"{TITLE} === 'Mavis Leaves' && {ROWS}.includes('Mavis Leaves')")
        more(page, "Move")
        page.press("staff", DIALOG)
        toast(page, "Moved to staff")
        page.wait(f"({ROWS}.length === 0) === {json.dumps(is_alone)}")
        # Where others are found, the first of them may be shown.
        listed = NOBODY if is_alone else f"{ROWS}.includes({TITLE} ?? {ROWS}[0])"
        page.wait(f"!{ROWS}.includes('Mavis Leaves') && {listed}", 5)
        card_with(office, "staff", "mv9")
        settled(page)
        page.press("Undo", UNDO)
        page.wait(f"{TITLE} === 'Mavis Leaves' && {ROWS}.includes('Mavis Leaves')")
        card_with(office, "clients", "mv9")
        settled(page)
    more(page, "Delete")
    page.press("Delete", DIALOG)
    until(lambda: status(office, "clients", "mv9") == 404)
    page.wait(f"!{ROWS}.includes('Mavis Leaves')")
    page.rest(300)
    assert page.run(f"!document.querySelector('#pane').innerText.includes('This card isn')")
    page.press("Undo", UNDO)
    page.wait(f"{TITLE} === 'Mavis Leaves' && {ROWS}.includes('Mavis Leaves')")
    card_with(office, "clients", "mv9")
    settled(page)
    # Where the list is of all books, it stays.
    page.press("All books", BOOKS)
    more(page, "Move")
    page.press("staff", DIALOG)
    page.wait(f"{TITLE} === 'Mavis Leaves' && {CARD}.includes('In the book staff')")
    card_with(office, "staff", "mv9")
    page.press("clients", BOOKS)


@fault
def move_conflicts(trial):
    """Others change the card meanwhile: both edits are in it; a clash and a removal are asked."""
    page, office = mover(trial, "mv3", "Mia Both", "TITLE:Cook"), trial.office
    office.shut()
    move(page, "staff")
    office.put_aside("clients", "mv3", lambda it: it.replace("END", "NOTE:Newer\r\nEND"))
    office.open()
    page.press("Update now")
    assert "NOTE:Newer" in card_with(office, "staff", "mv3")
    settled(page)
    # The same value is changed in two ways.
    page = mover(trial, "mv4", "Milo Clash", "TITLE:Cook")
    office.shut()
    page.key("F2")
    fill(page, "Position", "My cook")
    page.press("Save")
    page.wait(f"{CARD}.includes('My cook')")
    move(page, "staff")
    office.put_aside("clients", "mv4", lambda it: it.replace("TITLE:Cook", "TITLE:Their cook"))
    office.open()
    page.run(BACK)
    page.wait("document.querySelector('dialog table.conflict')")
    page.press("Take theirs", DIALOG)
    assert "TITLE:Their cook" in card_with(office, "staff", "mv4")
    assert status(office, "clients", "mv4") == 404
    settled(page)
    # Somebody else moved it before: that is seen, and what was typed here is in it.
    page = mover(trial, "mv5", "Mara Moved", "TITLE:Cook")
    office.shut()
    move(page, "staff")
    page.key("F2")
    page.wait(FORM)
    fill(page, "Organisation", "Kitchen")
    page.press("Save")
    page.wait(f"{CARD}.includes('Kitchen')")
    office.ask_aside("POST", "/clients/cards/mv5/move?to=staff")
    office.open()
    page.press("Update now")
    stored(office, "mv5", "ORG:Kitchen", "staff")
    settled(page)
    # Somebody deleted it.
    page = mover(trial, "mv6", "Moe Gone", "TITLE:Cook")
    office.shut()
    move(page, "staff")
    office.ask_aside("DELETE", "/clients/cards/mv6")
    office.open()
    page.run(BACK)
    page.wait(f"{DIALOG}?.innerText.includes('Somebody deleted or moved Moe Gone')")
    page.press("Store it again", DIALOG)
    assert "TITLE:Cook" in card_with(office, "staff", "mv6")
    settled(page)
    page.press("clients", BOOKS)


@fault
def move_refused(trial):
    """A refused move says why, and can be sent again or left: the card and its edits stay."""
    office = trial.office
    for number, (code, fault, words) in enumerate((
        (507, '{"fault":"book-full","number":12}', "The book is full"),
        (404, '{"fault":"no-such-book","number":1}', "There is no such book"),
        (403, "", "You may not do this"),
    )):
        uid, name = f"mvr{number}", f"Rita Refused{number}"
        page = mover(trial, uid, name, "TITLE:Cook")
        refuse(page, "POST", "/move", code, fault)
        page.key("F2")
        fill(page, "Organisation", f"Kept {number}")
        page.press("Save")
        page.wait(f"{CARD}.includes('Kept {number}')")
        move(page, "staff")
        page.wait(f"{WAITING}.includes('1 needs you')")
        page.wait(f"{CARD}.includes({json.dumps(words)})")
        page.picture(trial.pictures / f"move-refused-{code}.png")
        # What was changed in it is stored all the same, in the old book.
        stored(office, uid, f"ORG:Kept {number}")
        if number == 1:
            page.press("Leave it in clients", "document.querySelector('#pane')")
            settled(page)
            page.wait(f"{CARD}.includes('In the book clients') && {CARD}.includes('Kept 1')")
            page.run("window.fetchAgain()")
            continue
        page.run("window.fetchAgain()")
        page.press("Try again", "document.querySelector('#pane')")
        assert f"ORG:Kept {number}" in card_with(office, "staff", uid)
        settled(page)
    # The other book has a card of this UID already: nothing of either is lost.
    page = mover(trial, "mv7", "Tia Taken")
    office.shut()
    move(page, "staff")
    other = card("mv7", "FN:Another Tia")
    office.ask_aside("PUT", "/staff/cards/mv7", other)
    office.open()
    page.press("Update now")
    page.wait(f"{CARD}.includes('has this card already')")
    page.press("Leave it in clients", "document.querySelector('#pane')")
    settled(page)
    page.wait(f"{TITLE} === 'Tia Taken' && {CARD}.includes('In the book clients')")
    assert office.card("staff", "mv7")["card"] == other
    page.press("staff", BOOKS)
    search(page, "another tia")
    page.wait(f"{TITLE} === 'Another Tia'")
    page.press("clients", BOOKS)
    search(page, "tia taken")
    page.wait(f"{TITLE} === 'Tia Taken'")
    more(page, "Move")
    page.press("staff", DIALOG)
    toast(page, "The book staff has this card already")
    # A new card that its book refuses can go to another.
    refuse(page, "PUT", "/clients/cards/", 507, REFUSAL)
    page.key("n", modifiers=1, code="KeyN")
    page.wait(f"{FORM} && document.activeElement.closest('.form')")
    fill(page, "Given name", "Nia Newcomer")
    page.press("Save")
    page.wait(f"{WAITING}.includes('1 needs you')")
    uid = page.run("decodeURIComponent(location.hash.split('/')[3])")
    move(page, "staff")
    card_with(office, "staff", uid)
    settled(page)
    page.run("window.fetchAgain()")
    page.press("clients", BOOKS)


REFUSAL = '{"fault":"book-full","number":12}'


@fault
def move_lost_reply(trial):
    """The reply to a move is lost: the desk finds the card in the other book, and asks nothing."""
    page, office = mover(trial, "mv8", "Lola Lost", "TITLE:Cook"), trial.office
    lose_reply(page, "POST")
    move(page, "staff")
    page.key("F2")
    page.wait(FORM)
    fill(page, "Position", "Chef")
    page.press("Save")
    stored(office, "mv8", "TITLE:Chef", "staff")
    settled(page)
    assert not page.run(f"Boolean({DIALOG})")
    assert status(office, "clients", "mv8") == 404
    page.press("clients", BOOKS)
