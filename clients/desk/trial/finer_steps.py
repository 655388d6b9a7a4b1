"""Steps about labels of one's own, categories, groups in groups, and letters by the keyboard."""

import json

from hands import Hands
from loss_steps import CARD, FORM, at_desk, open_form
from office import card
from steps import ROWS, TITLE, fault, fill, search, step, stored, until

BOOKS = "document.querySelector('#books')"
DIALOG = "document.querySelector('dialog')"
PHONES = "document.querySelector('.phones').innerText"
# Chooses an option of the first select of a kind of rows, as a user does.
CHOOSE = """(([kind, text]) => {
    const select = document.querySelector('.form .of-' + kind + ' select');
    select.value = [...select.options].find((it) => it.textContent === text).value;
    select.dispatchEvent(new Event('change', { bubbles: true }));
    select.dispatchEvent(new Event('input', { bubbles: true }));
})"""


def choose(page, kind, text):
    page.run(f"{CHOOSE}({json.dumps([kind, text])})")


@fault
def own_labels(trial):
    """A number and an address get labels of one’s own, as phones write them, and lose them."""
    page, office = at_desk(trial), trial.office
    open_form(page, "oskar", "Oskar Nowak")
    choose(page, "tels", "Own label…")
    page.wait("document.activeElement.getAttribute('aria-label') === 'Own label of Phone'")
    page.type("Workshop; yard")
    page.press("Add field", FORM)
    page.press("Address", "document.querySelector('.form .menu-list')")
    fill(page, "Town", "Exampletown")
    choose(page, "adrs", "Own label…")
    page.type("Store")
    page.picture(trial.pictures / "own-label.png")
    page.press("Save")
    lines = stored(office, "c14", "item1.TEL:01632 960255")
    assert "item1.X-ABLABEL:Workshop\\; yard" in lines, lines
    assert "item2.X-ABLABEL:Store" in lines and "item2.ADR:;;;Exampletown;;;" in lines, lines
    page.wait(f"{PHONES}.includes('Workshop; yard')")
    assert "Store" in page.run(CARD)
    page.key("F2")
    page.wait(FORM)
    assert page.run("document.querySelector('.form .of-tels select').selectedOptions[0].textContent"
                    ) == "Workshop; yard"
    choose(page, "tels", "work")
    page.press("Save")
    lines = stored(office, "c14", "TEL;TYPE=work:01632 960255")
    assert not [it for it in lines if "Workshop" in it] and "item2.X-ABLABEL:Store" in lines, lines


HEAD, END = ["BEGIN:VCARD", "VERSION:4.0", "UID:a", "FN:A"], ["END:VCARD", ""]
OLD = ["item1.TEL:1", "item1.X-ABLABEL:A"]
# Lines before, mine, theirs; what is asked; the lines of both, with mine where it is asked.
MERGED = [
    (["TEL:1"], ["TEL:1", "item1.TEL:2", "item1.X-ABLABEL:Door"],
     ["TEL:1", "item1.TEL:3", "item1.X-ABLABEL:Door"], [],
     ["TEL:1", "item1.TEL:3", "item1.X-ABLABEL:Door", "item2.TEL:2", "item2.X-ABLABEL:Door"]),
    (["TEL:1"], OLD, OLD, [], OLD),
    (["TEL:1"], OLD, ["item1.TEL:1", "item1.X-ABLABEL:B"], ["TEL"],
     ["item2.TEL:1", "item2.X-ABLABEL:A"]),
    (OLD, [], ["item1.TEL:1", "item1.X-ABLABEL:B"], [], []),
    (OLD, ["item1.TEL:1", "item1.X-ABLABEL:C"], ["item1.TEL:1", "item1.X-ABLABEL:B"],
     ["X-ABLABEL"], ["item1.TEL:1", "item1.X-ABLABEL:C"]),
    (OLD, ["item1.TEL:2", "item1.X-ABLABEL:A"], ["item1.TEL:1", "item1.X-ABLABEL:B"], [],
     ["item1.TEL:2", "item1.X-ABLABEL:B"]),
]


@step
def labels_of_two(trial):
    """Labels that two people set are put together with their numbers, and no label is left over."""
    page = at_desk(trial)
    texts = [["\r\n".join([*HEAD, *lines, *END]) for lines in case[:3]] for case in MERGED]
    found = page.run(f"""(async () => {{
        const {{ merge3 }} = await import('/js/merge.js');
        return {json.dumps(texts)}.map((it) => {{
            const both = merge3(...it);
            const mine = both.clashes.map(() => 'mine');
            return [both.clashes.map((clash) => clash.name), both.text(mine).split('\\r\\n')];
        }});
    }})()""")
    for (*_, asked, lines), (names, text) in zip(MERGED, found):
        assert names == asked, (names, asked, text)
        assert sorted(text) == sorted([*HEAD, *lines, *END]), (text, lines)


@step
def categories(trial):
    """A category is a list of its cards, in the side bar and by a press on the card."""
    page, office = at_desk(trial), trial.office
    for number, name in enumerate(("Suppliers", "suppliers,Harbour", "Harbour")):
        office.put("clients", f"cat{number}", card(f"cat{number}", f"FN:Cat Number{number}",
                                                   f"CATEGORIES:{name}"))
    page.front()
    page.press("Update now")
    page.press("clients", BOOKS)
    search(page, "")
    page.press("Harbour", BOOKS)
    page.wait(f"JSON.stringify({ROWS}) === '[\"Cat Number1\",\"Cat Number2\"]'")
    search(page, "number1")
    page.wait(f"{ROWS}.length === 1 && {TITLE} === 'Cat Number1'")
    search(page, "")
    page.press("suppliers", "document.querySelector('#pane')")
    page.wait(f"{ROWS}.includes('Cat Number0') && {ROWS}.includes('Cat Number1')"
              f" && {ROWS}.includes('Miriam O’Hara') && !{ROWS}.includes('Cat Number2')")
    page.wait("document.querySelector('#list-title').textContent.toLowerCase() === 'suppliers'")
    page.picture(trial.pictures / "category.png")
    page.press("clients", BOOKS)


@step
def groups_in_groups(trial):
    """The list of a group has the people of groups in it too."""
    page = at_desk(trial)
    search(page, "")
    page.press("Everybody to invite", BOOKS)
    page.wait(f"{ROWS}.includes('Rosa Delgado') && {ROWS}.includes('Hugo Petit')"
              f" && {ROWS}.includes('Accounts and law') && !{ROWS}.includes('Tamsin Pell')")
    search(page, "hugo")
    page.wait(f"{ROWS}.length === 1 && {TITLE} === 'Hugo Petit'")
    search(page, "")
    page.press("clients", BOOKS)


@fault
def drawer(trial):
    """On a phone a press beside the books and groups closes them, and opens no card."""
    page = at_desk(trial)
    page.front()
    page.press("clients", BOOKS)
    search(page, "")
    page.size(390, 780)
    page.run("document.querySelector('#places').click()")
    page.wait("document.body.dataset.nav === 'open'")
    page.picture(trial.pictures / "drawer.png")
    page.click(375, 500)
    page.wait("document.body.dataset.nav !== 'open'", 5)
    page.rest(300)
    assert page.run("document.body.dataset.pane") == "list", "a card was opened"
    # A page that becomes wide has them in a column again, and all of it can be used.
    page.run("document.querySelector('#places').click()")
    page.wait("document.body.dataset.nav === 'open'")
    page.size(1280, 800)
    page.wait("document.body.dataset.nav !== 'open'", 5)
    search(page, "tamsin")
    page.wait(f"{TITLE} === 'Tamsin Pell'")
    search(page, "")


@step
def scroll_bar(trial):
    """Where the list has a bar to scroll, the letters are beside it, not over it."""
    browser = trial.browser.another(with_bars=True)
    try:
        page = browser.desk(trial.office.front, "admin", height=500)
        page.press("clients", BOOKS)
        page.wait(f"{ROWS}.length > 8 && !document.querySelector('#letters').hidden")
        page.rest(300)
        bar, right, edge = page.run("""(() => {
            const list = document.querySelector('#list');
            return [list.offsetWidth - list.clientWidth, list.getBoundingClientRect().right,
                document.querySelector('#letters').getBoundingClientRect().right];
        })()""")
        page.picture(trial.pictures / "scroll-bar.png")
        assert bar > 0, "this browser shows no bars"
        assert edge <= right - bar, (edge, right, bar)
    finally:
        browser.close()


@step
def letters(trial):
    """The letters at the side by the keyboard: arrows, letters, Enter; and letters in the list."""
    page = at_desk(trial)
    page.front()
    page.press("clients", BOOKS)
    search(page, "")
    hands = Hands(page)
    hands.to("Letters", kind="slider")
    now = "document.querySelector('#letters').getAttribute('aria-valuetext')"
    page.key("End")
    page.wait(f"{now} === 'Z' && {ROWS}.includes('Zoë Angelopoulou')")
    page.key("Home")
    page.wait(f"{now} === 'A' && {ROWS}.includes('Accounts and law')")
    page.key("ArrowDown")
    page.wait(f"{now} === 'B'")
    page.key("v")
    page.wait(f"{now} === 'V' && {ROWS}.includes('Viktor Sokolov')")
    page.key("Enter")
    page.wait(f"{TITLE} === 'Viktor Sokolov'")
    page.run("document.querySelector('#list').focus()")
    page.key("t")
    page.wait(f"{TITLE} === 'Tamsin Pell'")
    page.key("Home")
    until(lambda: page.run(TITLE) == page.run(f"{ROWS}[0]"))


@step
def many_groups(trial):
    """A book of many groups shows the first of them, and all others by one press."""
    page, office = at_desk(trial), trial.office
    shown = f"[...{BOOKS}.querySelectorAll('.book-name')].map((it) => it.textContent)" \
        ".filter((it) => it.startsWith('Crowd '))"
    office.order_book("crowd")
    office.fill("crowd", (card(f"crowd{n}", f"FN:Crowd {n}", "KIND:group") for n in range(62)))
    page.front()
    page.press("Update now")
    page.press("crowd", BOOKS)
    page.wait(f"{shown}.length === 60")
    page.press("Show 2 more", BOOKS)
    page.wait(f"{shown}.length === 62 && {shown}.includes('Crowd 61')")
    for n in range(62):
        office.ask("DELETE", f"/crowd/cards/crowd{n}")
    page.press("clients", BOOKS)
    page.press("Update now")
    page.wait(f"{shown}.length === 0")
