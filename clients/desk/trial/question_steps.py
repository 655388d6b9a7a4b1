"""Steps about what somebody has to decide: which question ends, and what becomes of an answer."""

from between import with_tables
from common import toast
from loss_steps import FORM, at_desk, open_form, tab
from office import card
from steps import fault, fill, stored

TITLES = "[...document.querySelectorAll('dialog[open] h2')].map((it) => it.textContent)"
ASKED = "document.querySelector('dialog[open] table.conflict')"
# Notes each short message, however soon it goes.
HEAR = """(() => {
    const node = document.querySelector('#toast');
    window.heard = [];
    new MutationObserver(() => window.heard.push(node.textContent))
        .observe(node, { childList: true });
})()"""
# Another dialog, which is there before the question.
ANOTHER = "void import('/js/views/dialogs.js').then((it) => it.ask('Another', [], [['Yes', 1]]))"
# The change that waits becomes another one, and no tab is told.
CHANGE = """
    const queue = db.transaction('queue', 'readwrite').objectStore('queue');
    const [book, uid, was, is] = given;
    queue.get([book, uid]).onsuccess = ({ target }) => queue.put({
        ...target.result, text: target.result.text.replace(was, is),
    });
    await new Promise((resolve) => { queue.transaction.oncomplete = resolve; });
    db.close();
"""


def question(page, office, uid, name):
    """Two change the position of a new card: the desk asks which one to keep."""
    office.put("clients", uid, card(uid, f"FN:{name}", "TITLE:Clerk"))
    page.front()
    page.press("Update now")
    page.press("All books", "document.querySelector('#books')")
    open_form(page, name.lower(), name)
    fill(page, "Position", "My clerk")
    office.put("clients", uid, card(uid, f"FN:{name}", "TITLE:Their clerk"))
    page.press("Save", FORM)
    page.wait(ASKED)


def choose(page, column):
    page.run(f"document.querySelector('.clash td:nth-child({column}) label').click()")
    page.press("Save what is chosen", "document.querySelector('dialog[open]')")


@fault
def question_elsewhere(trial):
    """A question that another tab answers ends, and says so; another dialog stays."""
    page, office = at_desk(trial), trial.office
    question(page, office, "quest1", "Quinta Question")
    page.press("Decide later")
    page.run(HEAR)
    page.run(ANOTHER)
    page.wait(f"{TITLES}.length === 1")
    page.run("[...document.querySelectorAll('#pane button')]"
             ".find((it) => it.textContent === 'Decide…').click()")
    page.wait(f"{TITLES}.length === 2")
    other = tab(trial, page, "tab")
    other.front()
    other.wait("document.querySelector('#waiting')?.checkVisibility()")
    other.rest(500)
    # It asks by itself only if its window came to the front after the cards were there.
    if not other.run(f"Boolean({ASKED})"):
        other.press("1 needs you")
        other.press("Decide", "document.querySelector('dialog')")
    other.wait(ASKED)
    choose(other, 2)
    stored(office, "quest1", "TITLE:My clerk")
    page.front()
    page.wait(f"{TITLES}.join() === 'Another'")
    page.wait("window.heard.some((it) => it.includes('about Quinta Question is closed'))")
    page.key("Escape")
    page.wait(f"{TITLES}.length === 0")


@fault
def answer_unused(trial):
    """An answer about a change that became another one isn't used, and that is said and asked."""
    page, office = at_desk(trial), trial.office
    question(page, office, "quest2", "Quentin Query")
    with_tables(page, CHANGE, "clients", "quest2", "My clerk", "My newer clerk")
    choose(page, 3)
    toast(page, "Your answer about Quentin Query wasn’t used")
    page.wait(f"{ASKED}?.innerText.includes('My newer clerk')")
    choose(page, 2)
    stored(office, "quest2", "TITLE:My newer clerk")
