"""More of the office's day: no network, a second desk, a phone's width, dark."""

import json

from access import audit
from browser import ALT
from common import keep_files
from day import BOOKS, CARD, ROWS, STATE, TITLE
from day import equals, find, menu, shows, step, stored, toast, update
from hands import Hands


@step
def offline(day):
    """The network goes: the desk opens, finds, keeps an edit. It comes back: the edit is saved."""
    page, hands = day.mine
    keep_files(page)
    day.office.shut()
    page.go(day.office.front)
    page.wait(f"{STATE}.startsWith('Offline')")
    assert page.run(ROWS), "the list is empty"
    find(page, "pat")
    shows(page, "Pat Lee")
    page.key("F2")
    hands.fill("Position", "Treasurer")
    page.key("Enter")
    shows(page, "Pat Lee")
    page.wait(f"({CARD}).includes('Treasurer') && ({CARD}).includes('Not sent yet')")
    page.wait("document.querySelector('#waiting').textContent === '1 change not sent yet'")
    day.picture(page, "offline")
    audit(page, "a card that isn't sent")
    page.key("F2")
    hands.fill("Nickname" if page.run("Boolean(document.querySelector('details[open]'))")
               else "Organisation", "Half typed")
    page.rest(800)
    page.go("about:blank")
    page.go(day.office.front)
    page.wait(f"{STATE}.startsWith('Offline')")
    page.wait("document.querySelector('#waiting').textContent.includes('1 not saved yet')")
    hands.press("1 change not sent yet")
    page.wait("document.querySelector('dialog .entries')")
    day.picture(page, "waiting")
    audit(page, "what waits")
    page.key("Escape")
    page.wait("!document.querySelector('dialog')")
    day.office.open()
    update(page)
    stored(day, "clients", "p", "TITLE:Treasurer")
    find(page, "pat")
    shows(page, "Pat Lee")
    page.key("F2")
    page.wait("document.querySelector('.draft')")
    assert page.run("document.querySelector('.form').innerText.includes('what you had typed')")
    day.picture(page, "online")
    audit(page, "a draft")
    hands.press("Save")
    toast(page, "Saved: Pat Lee")
    stored(day, "clients", "p", "TITLE:Treasurer", "ORG:Half typed")


@step
def second_desk(day):
    """ann, who may not list the books, adds hers by name. Two desks edit one card."""
    page, hands = day.mine
    ann = day.desk("ann")
    theirs = Hands(ann)
    ann.wait("document.querySelector('#books .add')")
    for book in ("staff", "clients"):
        theirs.press("Add a book")
        theirs.fill("Name of the book", book)
        ann.key("Enter")
        ann.wait(f"({BOOKS}).some((it) => it.startsWith('{book}'))")
    ann.wait(f"{STATE}.startsWith('Up to date')")
    find(ann, "ned")
    shows(ann, "Ned Stone")
    ann.key("F2")
    theirs.fill("Phone", "020 7946 0199")
    page.front()
    find(page, "ned")
    shows(page, "Ned Stone")
    page.key("F2")
    hands.fill("Position", "Mason")
    page.key("Enter")
    toast(page, "Saved: Ned Stone")
    ann.front()
    ann.key("Enter")
    stored(day, "clients", "n1", "TITLE:Mason")
    ann.wait(f"({CARD}).includes('020 7946 0199') && ({CARD}).includes('Mason')")
    assert not ann.run("Boolean(document.querySelector('dialog'))"), "nothing is to be asked"
    day.picture(ann, "second-desk")
    page.front()
    find(page, "ned")
    page.wait(f"({CARD}).includes('020 7946 0199') && ({CARD}).includes('Mason')")


@step
def phone(day):
    """A phone's width: the list, a card, the form, a question, a book; dark, and light."""
    page, hands = day.mine
    page.key("Escape")
    for width, height in ((390, 844), (320, 568)):
        page.size(width, height, mobile=True)
        find(page, "ned")
        page.wait(f"({ROWS}).length === 1")
        day.picture(page, f"phone-{width}-list")
        audit(page, f"the list, {width} wide")
        page.key("ArrowDown")
        page.key("Enter")
        shows(page, "Ned Stone")
        hands.at("card-name")
        day.picture(page, f"phone-{width}-card")
        audit(page, f"a card, {width} wide")
        hands.choose("More actions", "Move…")
        page.wait("document.querySelector('dialog')")
        audit(page, f"a question, {width} wide")
        page.key("Escape")
        page.wait("!document.querySelector('dialog')")
        page.key("F2")
        page.wait("document.querySelector('.form')")
        day.picture(page, f"phone-{width}-form")
        audit(page, f"the form, {width} wide")
        hands.press("Cancel")
        page.wait("!document.querySelector('.form')")
        page.key("Escape")
        hands.at("search")
        menu(page, "clients")
        day.picture(page, f"phone-{width}-book")
        audit(page, f"a book, {width} wide")
        page.key("Escape")
        page.wait("!document.querySelector('dialog')")
    page.size(1280, 800)


@step
def dark(day):
    """Dark: the list with a card, the form, a book."""
    page, hands = day.mine
    page.scheme("dark")
    find(page, "ned")
    shows(page, "Ned Stone")
    day.picture(page, "dark-card")
    page.key("F2")
    page.wait("document.querySelector('.form')")
    day.picture(page, "dark-form")
    hands.press("Cancel")
    page.wait("!document.querySelector('.form')")
    menu(page, "staff")
    day.picture(page, "dark-book")
    hands.press("Close")
    page.scheme("light")
    page.scheme("")


@step
def new_group(day):
    """A group with two members, and a new book: what a manager does now and then."""
    page, hands = day.mine
    hands.press("Add a book")
    hands.fill("Name of the book", "clubs")
    page.key("Enter")
    page.wait("document.querySelector('dialog')?.innerText.includes('Make a new book')")
    hands.press("Make it")
    page.wait(f"({BOOKS}).some((it) => it.startsWith('clubs'))")
    hands.press("clients")
    page.key("n", ALT, "KeyN")
    page.wait("document.activeElement.closest('.form')")
    hands.fill("Family name", "Drivers")
    hands.to("Kind of card", back=True)
    page.write("o")
    page.wait("document.querySelector('.form h2').textContent === 'New organisation'")
    hands.at("new-kind")
    page.write("g")
    page.wait("document.querySelector('.form h2').textContent === 'New group'")
    hands.at("new-kind")
    assert page.run("document.querySelector('#field-fn').value") == "Drivers"
    assert not page.run("document.querySelector('.draft')")
    for name in ("Quin", "Ned Stone"):
        hands.fill("Add a member", name)
        page.wait("document.querySelector('.found button')")
        hands.press(name)
        page.wait(f"document.querySelector('ul.members').innerText.includes({json.dumps(name)})")
    day.picture(page, "new-group")
    audit(page, "a new group")
    hands.press("Save")
    shows(page, "Drivers")
    uid = page.run("decodeURIComponent(location.hash.split('/')[3])")
    stored(day, "clients", uid, "MEMBER:q", "MEMBER:n1", "KIND:group")
    assert page.run(TITLE) == "Drivers"
    equals(page, "document.querySelectorAll('ul.members li').length", 2)
