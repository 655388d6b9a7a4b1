"""Steps about what an office looks for: groups, several at once, duplicates, the trash, files."""

import base64
import json
import re

from between import fill_disk, refuse
from loss_steps import CARD, at_desk, names
from office import card, logical
from steps import ROWS, TITLE, fault, more, search, step, stored, toast, until

LIST_MENU = "document.querySelector('#list-menu')"
DIALOG = "document.querySelector('dialog')"


def list_menu(page, text):
    page.run(f"{LIST_MENU}.querySelector('button').click()")
    page.press(text, f"{LIST_MENU}")


def click(page, name, modifiers=0):
    """Clicks the row of a name, with Shift (8) or Ctrl (2)."""
    place = page.wait(f"""(() => {{
        const row = [...document.querySelectorAll('#list [role=option]')]
            .find((it) => it.querySelector('.name').textContent === {json.dumps(name)});
        if (!row) return null;
        window.reached = 'nothing';
        addEventListener('click', ({{ target }}) => {{
            const it = target.closest('[role=option]')?.querySelector('.name') ?? target;
            window.reached = it.textContent.slice(0, 80) || it.outerHTML.slice(0, 80);
        }}, {{ capture: true, once: true }});
        const box = row.getBoundingClientRect();
        return [box.x + 120, box.y + box.height / 2];
    }})()""")
    page.click(*place, modifiers)
    reached = page.run("window.reached")
    assert reached == name, f"a press of {name} reached {reached}"


def show(page, uid, name, book="clients"):
    page.run(f"location.hash = '#/card/{book}/{uid}'")
    page.wait(f"{TITLE} === {json.dumps(name)}")


@step
def faces(trial):
    """Each row has a photo or initials, and letters lead to a name."""
    page = at_desk(trial)
    page.front()
    search(page, "")
    page.press("clients", "document.querySelector('#books')")
    page.wait("document.querySelectorAll('#list .row').length > 10")
    assert page.run("[...document.querySelectorAll('#list .row')]"
                    ".every((it) => it.querySelector('.face').childNodes.length)")
    search(page, "miriam")
    page.wait("document.querySelector('#list .face img')?.naturalWidth > 0")
    search(page, "")
    page.run("""(() => {
        const root = document.querySelector('#letters');
        const letter = [...root.children].find((it) => it.textContent === 'T');
        const box = letter.getBoundingClientRect();
        root.setPointerCapture = () => {};
        root.dispatchEvent(new PointerEvent('pointerdown', {
            clientY: box.y + box.height / 2, pointerId: 1, buttons: 1,
        }));
    })()""")
    page.wait(f"{ROWS}.includes('Tamsin Pell')")
    list_menu(page, "Sort by family name")
    # Cards that steps before this one made may come first.
    page.wait(f"{ROWS}.slice(0, 16).includes('Zoë Angelopoulou')")
    list_menu(page, "Sort by given name")
    page.wait(f"!{ROWS}.slice(0, 16).includes('Zoë Angelopoulou')")


@step
def search_further(trial):
    """Addresses, notes and categories are searched, and Mueller finds Müller."""
    page, office = at_desk(trial), trial.office
    office.put("clients", "mu", card("mu", "FN:Jürgen Müller", "CATEGORIES:Lanterns",
                                     "ADR:;;4 Ropewalk;Saltcombe;;;", "NOTE:Keeps two ferrets"))
    page.press("Update now")
    for text in ("mueller", "muller", "Müller", "juergen mueller", "lanterns", "saltcombe",
                 "ferrets", "ropewalk"):
        search(page, text)
        page.wait(f"{TITLE} === 'Jürgen Müller' && {ROWS}.length === 1")
        search(page, "")


@fault
def groups_of_a_person(trial):
    """Boxes to tick put a person into groups; a group is a list of its members; one undo."""
    page, office = at_desk(trial), trial.office
    page.front()
    page.press("clients", "document.querySelector('#books')")
    search(page, "")
    show(page, "c21", "Viktor Sokolov")
    more(page, "Groups…")
    page.press("Accounts and law", DIALOG)
    page.press("OK", DIALOG)
    stored(office, "g1", "MEMBER:c21")
    page.wait(f"{CARD}.includes('Accounts and law')")
    page.press("Accounts and law", "document.querySelector('#books')")
    page.wait(f"{ROWS}.includes('Viktor Sokolov') && !{ROWS}.includes('Tamsin Pell')")
    page.press("Undo", "document.querySelector('#toast')")
    until(lambda: "MEMBER:c21" not in logical(office.card("clients", "g1")["card"]))
    page.wait(f"!{ROWS}.includes('Viktor Sokolov')")
    page.press("clients", "document.querySelector('#books')")


@fault
def new_groups(trial):
    """A group is made from the side bar, of several cards, or of one: each has an undo."""
    page, office = at_desk(trial), trial.office
    for number in range(2):
        office.put("clients", f"ng{number}", card(f"ng{number}", f"FN:Aac Newgroup{number}"))
    page.front()
    page.press("Update now")
    page.press("clients", "document.querySelector('#books')")
    search(page, "newgroup")
    page.wait(f"{ROWS}.length === 2")
    click(page, "Aac Newgroup0")
    click(page, "Aac Newgroup1", modifiers=8)
    page.press("With these", LIST_MENU)
    page.press("Add to a group", LIST_MENU)
    page.wait(f"{DIALOG}?.querySelector('select')")
    page.run(f"""(() => {{
        const select = {DIALOG}.querySelector('select');
        select.value = [...select.options].find((it) => it.textContent === 'New group…').value;
    }})()""")
    page.press("OK", DIALOG)
    page.wait(f"{DIALOG}?.innerText.includes('New group')")
    page.press("OK", DIALOG)
    page.wait(f"{DIALOG}.innerText.includes('A group needs a name')")
    page.run(f"{DIALOG}.querySelector('input').focus()")
    page.type("Aac Team")
    page.press("OK", DIALOG)
    toast(page, "Added to Aac Team")
    until(lambda: "Aac Team" in names(office))
    search(page, "")
    page.press("Aac Team", "document.querySelector('#books')")
    page.wait(f"{ROWS}.length === 2 && {ROWS}.includes('Aac Newgroup1')")
    page.press("Undo", "document.querySelector('#toast')")
    until(lambda: "Aac Team" not in names(office))
    page.press("clients", "document.querySelector('#books')")
    # Of one person, in a book that has no group yet.
    office.put("staff", "ng2", card("ng2", "FN:Aac Newgroup2"))
    page.press("Update now")
    search(page, "newgroup2")
    page.press("staff", "document.querySelector('#books')")
    page.wait(f"{ROWS}.length === 1")
    show(page, "ng2", "Aac Newgroup2", "staff")
    more(page, "Groups…")
    page.wait(f"{DIALOG}?.innerText.includes('New group')")
    page.type("Staff team")
    page.press("OK", DIALOG)
    until(lambda: "Staff team" in names(office, "staff"))
    page.wait(f"{CARD}.includes('Staff team')")
    page.press("Undo", "document.querySelector('#toast')")
    until(lambda: "Staff team" not in names(office, "staff"))
    search(page, "")
    page.press("clients", "document.querySelector('#books')")
    page.press("New group", "document.querySelector('#books')")
    page.wait("document.querySelector('.form h2')?.textContent === 'New group'")
    page.press("Cancel", "document.querySelector('.form')")


@fault
def several(trial):
    """Shift and Ctrl select; delete, with one undo; put into a group; write to files."""
    page, office = at_desk(trial), trial.office
    search(page, "")
    for number in range(4):
        office.put("clients", f"sev{number}", card(
            f"sev{number}", f"FN:Aab Several{number}", f"TEL:020 7946 05{number:02}",
            "BDAY:--0412"))
    page.press("Update now")
    page.wait(f"{ROWS}.includes('Aab Several3')")
    click(page, "Aab Several0")
    click(page, "Aab Several2", modifiers=8)
    page.wait("document.querySelector('#list-menu').innerText.includes('3 selected')")
    click(page, "Aab Several3", modifiers=2)
    click(page, "Aab Several1", modifiers=2)
    page.wait("document.querySelector('#list-menu').innerText.includes('3 selected')")
    page.picture(trial.pictures / "several.png")
    folder = office.folder / "several"
    folder.mkdir(exist_ok=True)
    page.keep_downloads(folder)
    for item, name, words in (
        ("Save for a spreadsheet", "contacts.csv", ["uid,fn,family,given,email,tel,org,note\n",
                                                    "sev3,Aab Several3,,,,020 7946 0503,,\n"]),
        ("Save as a file for older", "contacts.vcf", [
            "VERSION:3.0\r\n", "FN:Aab Several2\r\n", "N:Several2;Aab;;;\r\n",
            "BDAY;X-APPLE-OMIT-YEAR=1604:1604-04-12\r\n"]),
    ):
        (folder / name).unlink(missing_ok=True)
        page.press("With these", LIST_MENU)
        page.press(item, LIST_MENU)
        until(lambda: (folder / name).exists() and (folder / name).stat().st_size)
        text = (folder / name).read_bytes().decode()
        assert all(it in text for it in words), text
        assert "Several1" not in text, text
    page.press("With these", LIST_MENU)
    page.press("Delete", LIST_MENU)
    page.press("Delete", DIALOG)
    until(lambda: not {"Aab Several0", "Aab Several2", "Aab Several3"} & set(names(office)))
    assert "Aab Several1" in names(office)
    page.press("Undo", "document.querySelector('#toast')")
    until(lambda: {"Aab Several0", "Aab Several2", "Aab Several3"} <= set(names(office)))
    page.wait("document.querySelector('#waiting').hidden")
    click(page, "Aab Several0")
    click(page, "Aab Several3", modifiers=8)
    page.press("With these", LIST_MENU)
    page.press("Add to a group", LIST_MENU)
    page.press("OK", DIALOG)
    toast(page, "Added to Accounts and law")
    stored(office, "g1", "MEMBER:sev3")
    click(page, "Aab Several0")
    click(page, "Aab Several1", modifiers=8)
    page.press("With these", LIST_MENU)
    page.press("Move", LIST_MENU)
    page.press("staff", DIALOG)
    until(lambda: {"Aab Several0", "Aab Several1"} <= set(names(office, "staff")))
    toast(page, "Moved: 2 cards")
    page.press("Undo", "document.querySelector('#toast')")
    until(lambda: {"Aab Several0", "Aab Several1"} <= set(names(office)))


@fault
def duplicates(trial):
    """Two cards of one person are put together value by value, and taken apart by Undo."""
    page, office = at_desk(trial), trial.office
    office.put("clients", "dup1", card("dup1", "FN:Uma Twice", "TEL;TYPE=work:020 7946 0601",
                                       "EMAIL:uma@example.test", "TITLE:Baker"))
    office.put("clients", "dup2", card("dup2", "FN:Uma Twice", "TEL;TYPE=home:020 7946 0602",
                                       "EMAIL:uma@example.test", "TITLE:Head baker",
                                       "X-OTHER:kept"))
    page.press("Update now")
    search(page, "uma twice")
    page.wait(f"{ROWS}.length === 2")
    list_menu(page, "Find duplicates")
    page.wait(f"{DIALOG}.innerText.includes('Uma Twice')")
    page.picture(trial.pictures / "duplicates.png")
    page.press("Put together", DIALOG)
    page.wait("document.querySelector('dialog table.conflict')")
    rows = page.run("document.querySelectorAll('dialog .clash').length")
    assert rows == 1, rows
    page.run("[...document.querySelectorAll('dialog .clash label')]"
             ".find((it) => it.textContent.includes('Head baker')).click()")
    # If the browser can't keep all of it, it keeps none of it.
    fill_disk(page, 1)
    page.press("Save what is chosen", DIALOG)
    toast(page, "couldn’t keep it")
    page.run("window.putAgain()")
    page.said[:] = [it for it in page.said if "QuotaExceededError" not in it]
    page.wait(f"{ROWS}.length === 2")
    page.wait("document.querySelector('#waiting').hidden")
    list_menu(page, "Find duplicates")
    page.press("Put together", DIALOG)
    page.wait("document.querySelector('dialog .clash')")
    page.run("[...document.querySelectorAll('dialog .clash label')]"
             ".find((it) => it.textContent.includes('Head baker')).click()")
    page.press("Save what is chosen", DIALOG)
    until(lambda: names(office).count("Uma Twice") == 1)

    def lines(uid):
        status, _, text = office.request("GET", f"/books/clients/cards/{uid}")
        return logical(json.loads(text)["card"]) if status == 200 else []

    left = next(it for it in ("dup1", "dup2") if lines(it))
    until(lambda: "TITLE:Head baker" in lines(left))
    for line in ("TEL;TYPE=work:020 7946 0601", "TEL;TYPE=home:020 7946 0602", "X-OTHER:kept"):
        assert line in lines(left), lines(left)
    assert lines(left).count("EMAIL:uma@example.test") == 1, lines(left)
    page.press("Undo", "document.querySelector('#toast')")
    until(lambda: names(office).count("Uma Twice") == 2)
    until(lambda: "TITLE:Baker" in lines("dup1") and "TITLE:Head baker" in lines("dup2"))
    search(page, "")


@fault
def trash(trial):
    """What was deleted or overwritten here can be put back, after the message is gone too."""
    page, office = at_desk(trial), trial.office
    text = office.card("clients", "c22")["card"]
    show(page, "c22", "Wanjiru Kamau")
    more(page, "Delete")
    page.press("Delete", DIALOG)
    until(lambda: "Wanjiru Kamau" not in names(office))
    page.go(office.front)
    page.press("Trash", "document.querySelector('#books')")
    page.wait(f"{DIALOG}.innerText.includes('Wanjiru Kamau')")
    page.picture(trial.pictures / "trash.png")
    page.run(f"[...{DIALOG}.querySelectorAll('li')].find((it) => it.innerText"
             ".includes('Wanjiru Kamau')).querySelector('button').click()")
    until(lambda: "Wanjiru Kamau" in names(office))
    assert office.card("clients", "c22")["card"] == text
    # An earlier version of a card that was edited here.
    page.wait(f"{TITLE} === 'Wanjiru Kamau'")
    page.wait("document.querySelector('#waiting').hidden")
    page.key("F2")
    page.wait("document.querySelector('.form')")
    page.run("document.querySelector('.form textarea').focus()")
    page.type("A note that was a mistake")
    page.press("Save")
    stored(office, "c22", "NOTE:A note that was a mistake")
    page.wait("document.querySelector('#waiting').hidden")
    more(page, "Changed in this browser")
    page.press("Put back", DIALOG)
    until(lambda: office.card("clients", "c22")["card"] == text)


@step
def favourites(trial):
    """A favourite is in its list, and so is what was opened lately."""
    page = at_desk(trial)
    show(page, "c10", "Kerstin Ångström")
    more(page, "Add to favourites")
    page.wait("document.querySelector('.card .favourite')")
    page.press("Favourites", "document.querySelector('#books')")
    page.wait(f"{ROWS}.length === 1 && {ROWS}[0] === 'Kerstin Ångström'")
    show(page, "c11", "Liam O’Hara")
    page.press("Recently opened", "document.querySelector('#books')")
    page.wait(f"{ROWS}[0] === 'Liam O’Hara' && {ROWS}[1] === 'Kerstin Ångström'")
    page.press("clients", "document.querySelector('#books')")


@step
def paper(trial):
    """372 people are printed on fewer than 10 pages, and a card on one."""
    page, office = at_desk(trial), trial.office
    office.order_book("many")
    office.fill("many", (card(f"many{n}", f"FN:Person Number{n}", f"ORG:Company {n % 40}",
                              f"TEL;TYPE=work:020 7946 {n:04}", f"EMAIL:p{n}@example.test")
                         for n in range(372)))
    page.press("Update now")
    page.wait("document.querySelector('#books').textContent.includes('many')")
    page.press("many", "document.querySelector('#books')")
    page.wait("document.querySelector('#count').textContent.startsWith('372')")
    page.run("window.print = () => {}")
    list_menu(page, "Print")
    assert page.run("document.querySelectorAll('.print-sheet li').length") == 372
    pages = count_pages(page)
    assert pages < 10, pages
    page.run("window.dispatchEvent(new Event('afterprint'))")
    assert not page.run("Boolean(document.querySelector('.print-sheet'))")
    show(page, "c12", "Miriam O’Hara")
    more(page, "Print")
    alone = count_pages(page)
    assert alone == 1, alone
    print(f"  372 people are on {pages} pages")
    page.press("clients", "document.querySelector('#books')")


def count_pages(page):
    """The pages of what would be printed."""
    data = page.call("Page.printToPDF", paperWidth=8.27, paperHeight=11.69)["data"]
    return len(re.findall(rb"/Type\s*/Page\b(?!s)", base64.b64decode(data)))


# Drops files on the page, `[name, text]` each.
DROP = """((files) => {
    const data = new DataTransfer();
    for (const [name, text] of files) data.items.add(new File([text], name));
    document.body.dispatchEvent(new DragEvent('drop', {
        dataTransfer: data, bubbles: true, cancelable: true,
    }));
})"""


@step
def dropped_files(trial):
    """A file that is dropped on the page is offered for an import, also where none is converted."""
    page, office = at_desk(trial), trial.office
    refuse(page, "POST", "/convert", 405, "")
    page.press("clients", "document.querySelector('#books')")
    dora, dirk, dana = (card(f"drop{n}", f"FN:D{it} Dropped")
                        for n, it in enumerate(("ora", "irk", "ana")))
    for files, count, name in (
        ([["dora.vcf", dora]], "1 card to import", "Dora Dropped"),
        ([["dirk.vcf", dirk], ["dana.vcf", f"\ufeff{dana}"]], "2 cards to import", "Dana Dropped"),
    ):
        page.run(f"{DROP}({json.dumps(files)})")
        page.wait(f"{DIALOG}?.innerText.includes('{count}')")
        page.press("Import", "document.querySelector('dialog .bar')")
        until(lambda: name in names(office))
        page.press("Close", DIALOG)
    page.run(f"{DROP}({json.dumps([['dora.vcf', dora], ['people.csv', '']])})")
    page.wait(f"{DIALOG}?.innerText.includes('only if all of them are vCards')")
    assert page.run(f"{DIALOG}.querySelector('.bar .main').disabled")
    page.press("Close", DIALOG)
    page.run("window.fetchAgain()")
