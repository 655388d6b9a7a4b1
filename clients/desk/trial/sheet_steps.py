"""Steps about the sheet of a card: what one does with it, and what only some cards have."""

from between import with_tables
from common import HEADER
from feature_steps import DIALOG, show
from loss_steps import CARD, FORM, at_desk, open_form
from office import card, logical
from steps import more, search, step, stored, toast, until
from wrong_steps import add_field

LINES = [
    "FN:Sheila Sheet", "N:Sheet;Sheila;;;", "TEL;TYPE=work:020 7946 0900",
    "TEL;TYPE=cell:+44 7700 900900", "EMAIL;TYPE=work:sheila@example.test",
    "IMPP;TYPE=work:xmpp:sheila@example.test", "ADR;TYPE=work:;;4 Ropewalk;Saltcombe;;EX2 3MP;",
    "ANNIVERSARY:20100612", "RELATED;TYPE=spouse;VALUE=text:Simon Sheet",
]
# What the links of the sheet lead to (RFC 3966, RFC 6068, RFC 5724).
LINKS = {
    "Call": "tel:02079460900", "Mail": "mailto:sheila@example.test", "Message": "sms:+447700900900",
}
FIELDS = "[...document.querySelectorAll('.form legend, .form label')]" \
    ".map((it) => it.textContent.trim())"


@step
def sheet(trial):
    """Call, Mail, Message, Share; a map and a copy of the address; a file of the card alone."""
    page, office = at_desk(trial), trial.office
    office.put("clients", "sheet", card("sheet", *LINES))
    page.front()
    page.press("Update now")
    show(page, "sheet", "Sheila Sheet")
    quick = page.run("Object.fromEntries([...document.querySelectorAll('.quick a')]"
                     ".map((it) => [it.textContent, it.getAttribute('href')]))")
    assert quick == LINKS, quick
    assert page.run("document.querySelector('.quick button').textContent") == "Share"
    shown = page.run(CARD)
    for text in ("4 Ropewalk", "12 June 2010", "Anniversary", "Chat", "sheila@example.test",
                 "Simon Sheet", "spouse"):
        assert text in shown, (text, shown)
    place = page.run("document.querySelector('.map').href")
    assert place.startswith("https://www.openstreetmap.org/search?query=4%20Ropewalk"), place
    # What is copied goes to the clipboard, where a headless browser lets nobody look.
    page.run("(() => { navigator.clipboard.writeText = async (it) => { window.kept = it; }; })()")
    page.run("document.querySelector('.map + .copy').click()")
    page.wait("window.kept?.startsWith('4 Ropewalk')")
    folder = office.folder / "sheet"
    folder.mkdir(exist_ok=True)
    page.keep_downloads(folder)
    for item, version in (("Save as a file", "4.0"), ("Save as a file for older", "3.0")):
        file = folder / "Sheila-Sheet.vcf"
        file.unlink(missing_ok=True)
        more(page, item)
        until(lambda: file.exists() and file.stat().st_size)
        lines = logical(file.read_bytes().decode())
        assert f"VERSION:{version}" in lines and "FN:Sheila Sheet" in lines, lines
        assert sum(it.startswith("BEGIN") for it in lines) == 1, lines
    more(page, "Save for a spreadsheet")
    file = folder / "Sheila-Sheet.csv"
    until(lambda: file.exists() and file.stat().st_size)
    row = "sheet,Sheila Sheet,Sheet,Sheila,sheila@example.test,020 7946 0900,,\n"
    assert file.read_text() == HEADER + row, file.read_text()


@step
def fields(trial):
    """The form shows what the card has; the rest is behind Add field, and is stored."""
    page, office = at_desk(trial), trial.office
    open_form(page, "ulrike", "Ulrike Brandt")
    for text in ("Anniversary", "Chat", "Related", "Address", "Birthday", "Categories"):
        assert text not in page.run(FIELDS), page.run(FIELDS)
    add_field(page, "Anniversary")
    page.type("12 June 2010")
    add_field(page, "Chat")
    page.type("xmpp:ulrike@example.test")
    add_field(page, "Related")
    page.type("Uwe Brandt")
    page.press("Save")
    lines = stored(office, "c20", "ANNIVERSARY:20100612")
    assert [it for it in lines if it.startswith("IMPP") and "xmpp:ulrike@example.test" in it], lines
    assert [it for it in lines if it.startswith("RELATED") and "Uwe Brandt" in it], lines
    page.key("F2")
    page.wait(f"{FORM} && {FIELDS}.includes('Anniversary') && {FIELDS}.includes('Related')")
    page.press("Cancel", FORM)


MAILS = """import('/js/values.js').then(({ mailsLink }) => [
    mailsLink(['a@example.test', 'b c@example.test']),
    mailsLink(Array.from({ length: 400 }, (_, at) => `person${at}@example.test`)),
])"""


@step
def mail_all(trial):
    """One mail to all people of a group; if they are too many, their addresses are copied."""
    page, office = at_desk(trial), trial.office
    # One whose address can't be any is said, and isn't in the way of the others.
    office.put("clients", "odd1", card("odd1", "FN:Ada Odd", "EMAIL:see note"))
    office.put("clients", "odd2", card("odd2", "FN:Bo Odd", "EMAIL:bo@example.test"))
    office.put("clients", "odd", card("odd", "FN:Odd ones", "KIND:group", "MEMBER:odd1",
                                      "MEMBER:odd2"))
    page.front()
    page.press("Update now")
    show(page, "odd", "Odd ones")
    page.press("Mail all", "document.querySelector('.quick')")
    toast(page, "A mail to 1 person is opened. 1 has no mail address.")
    page.asked.remove("mailto:?bcc=bo@example.test")
    for uid in ("odd1", "odd2", "odd"):
        office.ask("DELETE", f"/clients/cards/{uid}")
    few, many = page.run(MAILS)
    assert few == "mailto:?bcc=a@example.test,b%20c@example.test" and many is None, (few, many)
    people = [card(f"mass{n}", f"FN:Mass Number{n}", f"EMAIL:mass-number-{n}@example.test")
              for n in range(120)]
    members = [f"MEMBER:mass{n}" for n in range(120)]
    office.fill("clients", [*people, card("mass", "FN:Mass of people", "KIND:group", *members)])
    page.front()
    page.press("Update now")
    show(page, "mass", "Mass of people")
    page.run("(() => { navigator.clipboard.writeText = async (it) => { window.kept = it; }; })()")
    page.press("Mail all", "document.querySelector('.quick')")
    toast(page, "Too many for one mail that is opened from here: the 120 addresses are copied")
    assert len(page.run("window.kept").split(", ")) == 120
    for at in ["", *range(120)]:
        office.ask("DELETE", f"/clients/cards/mass{at}")
    page.press("Update now")
    page.wait("document.querySelector('#pane').innerText.includes('This card isn')")


AGE = """
    const trash = db.transaction('trash', 'readwrite').objectStore('trash');
    for (const [uid, text, days] of given) {
        trash.add({ book: 'clients', uid, text, why: 'removed', at: Date.now() - days * 864e5 });
    }
    await new Promise((resolve) => { trash.transaction.oncomplete = resolve; });
    db.close();
"""


@step
def thirty_days(trial):
    """The trash keeps what was deleted for 30 days, and then no more."""
    page = at_desk(trial)
    with_tables(page, AGE, *([f"since{it}", card(f"since{it}", f"FN:Kept since{it}"), it]
                             for it in (29, 31)))
    page.go(trial.office.front)
    page.wait("document.querySelector('#books button')")
    page.rest(1500)
    page.press("Trash", "document.querySelector('#books')")
    page.wait(f"{DIALOG}?.innerText.includes('Kept since29')")
    assert "Kept since31" not in page.run(f"{DIALOG}.innerText")
    page.key("Escape")
    page.press("clients", "document.querySelector('#books')")
    search(page, "")
