"""Steps about files that come in: the preview, what is asked, duplicates, an import in parts."""

import functools
import json
import time

from access import TOUCH, audit
from between import refuse
from feature_steps import DIALOG, DROP
from hands import Hands
from office import ROOT, card, logical, rows
from site_steps import Alone
from steps import MENU, fault, search, step, up_to_date, until

SAID = f"({DIALOG}?.querySelector('.import')?.innerText ?? '')"
GO = f"{DIALOG}.querySelector('.bar .main')"
ROWS = f"{DIALOG}.querySelectorAll('.incoming > li')"
HEAD = f"({DIALOG}?.querySelector('h3')?.textContent ?? '')"
SHEET = "Kunde;Mobil 2;Geheim;Mail (priv.)\nPat Lee;+49 30 1234567;secret;pat@x.test\n" \
    "Kim Roe;+49 30 7654321;hidden;kim@x.test\n"
ABSENT = (404, 405)


class Arrivals(Alone):
    """`contacts run` with the desk's files and one book, `staff`, that has these cards."""

    def __init__(self, office, name, cards):
        super().__init__(office, name)
        self.folder = office.folder
        self.ask("PUT", "/books/staff")
        if cards:
            self.ask("POST", "/books/staff/import?key=first", rows(cards).encode())

    def tally(self):
        return json.loads(self.ask("GET", "/books/staff/tally"))

    def cards(self):
        """The cards of the book by their UIDs, each as its lines."""
        page = json.loads(self.ask("GET", "/books/staff/sync"))["members"]
        return {it["uid"]: logical(it["card"]) for it in page if it["status"] == 200}


def arriving(*cards):
    """A step with a page and a program of its own, if that has POST /convert."""

    def made(function):
        @functools.wraps(function)
        def taken(trial):
            it = Arrivals(trial.office, function.__name__, cards)
            try:
                if it.request("POST", "/convert", b"BEGIN:VCARD\r\n")[0].status in ABSENT:
                    print("  this program has no /convert: nothing was tried")
                    return
                page = trial.browser.page(trial.browser.context())
                page.go(it.front)
                page.wait("document.querySelector('#books').textContent.includes('staff')")
                up_to_date(page)
                function(trial, page, it)
                loud = [said for said in page.said if "Failed to load resource" not in said]
                assert not loud, loud
            except Exception:
                page.picture(trial.pictures / f"failed-{function.__name__}-alone.png")
                raise
            finally:
                it.end()

        return taken

    return made


def drop(page, *files):
    """Drops files, `(name, text)` each, and waits until what is in them is shown."""
    page.run(f"{DROP}({json.dumps(files)})")
    shown(page)


def shown(page):
    page.wait(f"{DIALOG}?.querySelector('.choose.small')"
              f" && {DIALOG}.querySelector('progress').hidden", 40)


def go(page):
    """Imports, and waits for what comes of it."""
    page.wait(f"!{GO}.disabled")
    page.run(f"{GO}.click()")
    page.wait(f"{HEAD} === 'The import is done' || {HEAD} === 'Not all was imported'")


def close(page):
    page.press("Close", DIALOG)
    page.wait(f"!{DIALOG}")


@step
def file_front(trial):
    """nginx passes on what converts a file: of each user, and of no page of another site."""
    heads = {it: trial.office.request("POST", "/convert", card("a", "FN:A"), it)[1]
             for it in ("ann", "hall")}
    kinds = {it: head.get("Content-Type") for it, head in heads.items()}
    assert set(kinds.values()) == {"application/json"}, kinds
    status, head, _ = trial.office.request("POST", "/convert", card("a", "FN:A"), "nobody")
    assert status == 401, (status, head)


@step
@arriving()
def file_away(trial, page, office):
    """The server is away while a file is read: that is said, and it can be read again."""
    refuse(page, "POST", "/convert", 503, "")
    page.run(f"{DROP}({json.dumps([['a.vcf', card('a', 'FN:Ann Away')]])})")
    page.wait(f"{SAID}.includes('error') || {SAID}.includes('server')")
    page.wait(f"[...{DIALOG}.querySelectorAll('.bar button')]"
              ".some((it) => it.textContent === 'Try again' && it.checkVisibility())")
    audit(page, "a file that can't be read now")
    page.run("window.fetchAgain()")
    page.press("Try again", DIALOG)
    page.wait(f"{SAID}.includes('1 card to import')")
    page.press("Cancel", DIALOG)


@fault
@arriving()
def file_preview(trial, page, office):
    """A file of Google's: what is in it is shown before anything is stored; one is left out."""
    hint = page.run("document.querySelector('#empty').innerText")
    assert "Drop a file of contacts here" in hint and "Import a file" in hint, hint
    page.picture(trial.pictures / "import-empty-book.png")
    google = (ROOT / "examples/google.csv").read_text()
    drop(page, ("google.csv", google))
    page.wait(f"{SAID}.includes('3 cards to import')")
    text = page.run(f"{DIALOG}.innerText")
    for words in ("Dr. Miriam Ruth O'Hara", "Vale Supplies", "google.csv, line 2"):
        assert words in text, (words, text)
    assert not office.cards(), "something was stored"
    audit(page, "a preview")
    page.run(f"{ROWS}[1].querySelector('input').click()")
    page.wait(f"{SAID}.includes('2 cards to import') && {SAID}.includes('1 left out')")
    go(page)
    page.wait(f"{SAID}.includes('2 new cards, 0 changed, 0 as they were')")
    audit(page, "an import that is done")
    page.picture(trial.pictures / "import-done.png")
    close(page)
    cards = office.cards().values()
    assert len(cards) == 2, cards
    assert any("EMAIL;TYPE=work:miriam@example.test" in it for it in cards), cards
    # It can be read again, and saved.
    page.run(f"({MENU}).click()")
    page.press("What was last imported", DIALOG)
    page.wait(f"{SAID}.includes('2 new cards') && {SAID}.includes('google.csv')")
    folder = office.folder / "summaries"
    folder.mkdir(exist_ok=True)
    page.keep_downloads(folder)
    page.press("Save this as a file", DIALOG)
    file = until(lambda: next((it for it in folder.glob("*.txt") if it.stat().st_size), None))
    assert "Birthday" in file.read_text() and "1 left out" in file.read_text(), file.read_text()
    close(page)
    # The same file again: nothing is imported that is there.
    drop(page, ("google.csv", google))
    page.wait(f"{SAID}.includes('1 card to import') && {SAID}.includes('2 left out')")
    assert "In the book as it is" in page.run(f"{DIALOG}.innerText")
    page.press("Cancel", DIALOG)


@step
@arriving()
def file_columns(trial, page, office):
    """Columns that nobody knows: a guess is shown, and what is changed is seen at once."""
    drop(page, ("kunden.csv", SHEET))
    page.wait(f"{SAID}.includes('2 cards to import')")
    assert "This is a guess" in page.run(f"{DIALOG}.innerText")
    choices = page.run(f"[...{DIALOG}.querySelectorAll('.columns select')].map((it) => it.value)")
    assert choices == ["fn", "tel;type=cell", "", "email"], choices
    audit(page, "columns")
    page.picture(trial.pictures / "import-columns.png")
    for at, word in ((2, "-"), (1, "tel;type=work")):
        page.run(f"""(() => {{
            const box = {DIALOG}.querySelectorAll('.columns select')[{at}];
            box.focus();
            box.value = {json.dumps(word)};
            box.dispatchEvent(new Event('change', {{ bubbles: true }}));
        }})()""")
        page.wait(f"{GO}.disabled || true")
        page.wait(f"!{GO}.disabled")
        assert page.run("document.activeElement.localName") == "select", "the focus is lost"
    go(page)
    close(page)
    pat, = (it for it in office.cards().values() if "FN:Pat Lee" in it)
    assert "TEL;TYPE=work:+49 30 1234567" in pat, pat
    assert "secret" not in json.dumps(pat), pat


@step
@arriving()
def file_dates(trial, page, office):
    """Dates that may be two: nothing is imported until somebody says which."""
    drop(page, ("dates.csv", "First Name,E-mail Address,Birthday\nAnn,a@x.test,05/04/1980\n"))
    page.wait(f"{DIALOG}.innerText.includes('What comes first in this file')")
    assert page.run(f"{GO}.disabled"), "it can be imported"
    text = page.run(f"{DIALOG}.querySelector('.dates').innerText")
    assert "5 April 1980" in text and "4 May 1980" in text, text
    audit(page, "dates")
    page.picture(trial.pictures / "import-dates.png")
    page.press("The day", DIALOG)
    go(page)
    close(page)
    ann, = office.cards().values()
    assert "BDAY:19800405" in ann, ann


HERE = [
    card("one", "FN:Olga One", "NOTE:of the book"),
    card("two", "FN:Theo Two", "EMAIL:THEO@x.test"),
    card("three", "FN:Thea Three", "TEL:+44 20 7946 0192"),
    card("four", "FN:Fay Four"),
]
COMING = "".join([
    card("one", "FN:Olga One", "NOTE:of the file"),
    card("zwei", "FN:T. Two", "EMAIL:theo@x.test"),
    card("drei", "FN:T. Three", "TEL:020 79460192"),
    card("vier", "FN:Four  fay"),
    card("five", "FN:Finn Five"),
    card("sechs", "FN:finn five", "NOTE:twice"),
])


@fault
@arriving(*HERE)
def file_duplicates(trial, page, office):
    """What is in the book, or twice in the files, is marked and left out; who chooses otherwise
    replaces a card, which goes into the trash, or adds another one."""
    drop(page, ("cards.vcf", COMING))
    page.wait(f"{SAID}.includes('1 card to import') && {SAID}.includes('5 left out')")
    text = page.run(f"{DIALOG}.innerText")
    for words in ("The same identifier (UID) as Olga One in the book",
                  "The same mail address as Theo Two in the book",
                  "The same number as Thea Three in the book",
                  "The same name as Fay Four in the book", "The same name as Finn Five above"):
        assert words in text, (words, text)
    audit(page, "duplicates")
    page.picture(trial.pictures / "import-duplicates.png")
    choose = f"""((label, what) => {{
        const box = [...{DIALOG}.querySelectorAll('select')]
            .find((it) => it.getAttribute('aria-label') === label);
        box.value = what;
        box.dispatchEvent(new Event('change', {{ bubbles: true }}));
    }})"""
    page.run(f"{choose}('For all with the same identifier (UID)', 'replace')")
    page.run(f"{choose}('What becomes of T. Two', 'replace')")
    page.run(f"{choose}('What becomes of T. Three', 'other')")
    page.wait(f"{SAID}.includes('4 cards to import')")
    assert page.run(f"{DIALOG}.querySelector('.marks select').value") == "replace"
    go(page)
    page.wait(f"{SAID}.includes('2 new cards, 2 changed, 0 as they were')")
    close(page)
    cards = office.cards()
    assert sorted(cards) == ["drei", "five", "four", "one", "three", "two"], cards
    assert "NOTE:of the file" in cards["one"] and "FN:T. Two" in cards["two"], cards
    # What was replaced can be put back.
    up_to_date(page)
    page.press("Trash", "document.querySelector('#books')")
    page.wait(f"{DIALOG}?.innerText.includes('Olga One')")
    assert "Theo Two" in page.run(f"{DIALOG}.innerText")
    page.key("Escape")


@fault
@arriving()
def file_stopped(trial, page, office):
    """The network goes while a file is imported: what is done is said, the rest goes on later."""
    people = "".join(card(f"p{n}", f"FN:Person Number{n}") for n in range(1200))
    drop(page, ("many.vcf", people))
    page.wait(f"{SAID}.includes('1,200 cards to import')")
    # The reply to the second part is lost, and then no reply comes.
    page.run("""(() => {
        const real = window.fetch;
        let parts = 0;
        window.fetch = async (...all) => {
            if (String(all[0]).includes('/import?')) parts += 1;
            if (parts < 2) return real(...all);
            if (parts === 2) await real(...all);
            throw new TypeError('lost');
        };
    })()""")
    go(page)
    text = page.run(SAID)
    assert "250 new cards" in text and "950 aren’t imported yet" in text, text
    assert "No reply came" in text and "250 of them were sent" in text, text
    page.picture(trial.pictures / "import-stopped.png")
    audit(page, "an import that is stopped")
    page.go(office.front)
    page.wait("document.querySelector('#toast').textContent.includes('isn’t finished')")
    page.press("Show it", "document.querySelector('#toast')")
    page.wait(f"{SAID}.includes('950 aren’t imported yet')")
    page.press("Go on", DIALOG)
    page.wait(f"{HEAD} === 'The import is done'")
    assert "1,200 new cards, 0 changed" in page.run(SAID), page.run(SAID)
    close(page)
    assert office.tally()["cards"] == 1200, office.tally()


@step
@arriving()
def file_stop(trial, page, office):
    """Somebody stops an import between its parts, and leaves the rest out."""
    drop(page, ("many.vcf", "".join(card(f"s{n}", f"FN:Stop {n}") for n in range(2000))))
    page.wait(f"{SAID}.includes('2,000 cards to import')")
    # Each part takes a while.
    page.run("""(() => {
        const real = window.fetch;
        window.fetch = async (...all) => {
            if (String(all[0]).includes('/import?')) await new Promise((it) => setTimeout(it, 900));
            return real(...all);
        };
    })()""")
    page.run(f"{GO}.click()")
    page.wait(f"{DIALOG}?.innerText.includes('250 of 2,000 cards are done')")
    page.picture(trial.pictures / "import-going.png")
    page.press("Stop", DIALOG)
    page.wait(f"{HEAD} === 'Not all was imported'")
    page.press("Leave the rest out", DIALOG)
    page.wait(f"{SAID}.includes('as you left the rest out')")
    assert page.run("document.activeElement.localName") == "h3", "the focus is lost"
    close(page)
    assert 0 < office.tally()["cards"] < 2000, office.tally()


@step
@arriving()
def file_older(trial, page, office):
    """A server that doesn't convert: the desk takes what it took before, and says so."""
    refuse(page, "POST", "/convert", 405, "")
    page.run(f"{DROP}({json.dumps([['old.vcf', card('old', 'FN:Older Server')]])})")
    page.wait(f"{SAID}.includes('1 card to import')")
    assert "This server doesn’t convert files" in page.run(f"{DIALOG}.innerText")
    page.press("Import", f"{DIALOG}.querySelector('.bar')")
    until(lambda: "old" in office.cards())
    page.press("Close", DIALOG)


@step
@arriving()
def file_bad(trial, page, office):
    """Files that are none, and rows that can't be carried, are said with what is to be done."""
    drop(page, ("book.xlsx", "PK\x03\x04 xl/workbook.xml and more"))
    page.wait(f"{DIALOG}.innerText.includes('save it as CSV')")
    assert page.run(f"{GO}.disabled")
    drop(page, ("rows.csv", "First Name,E-mail Address\nAnn,a@x.test\nBo,b@x.test,c,d\n"))
    page.wait(f"{SAID}.includes('1 not carried')")
    text = page.run(f"{DIALOG}.querySelector('.lost').innerText")
    assert "rows.csv, line 3: not carried" in text, text
    audit(page, "a row that isn't carried")
    page.picture(trial.pictures / "import-lost.png")
    page.press("Cancel", DIALOG)


SIZES = [("phone", 320, 640), ("tablet", 768, 1024), ("screen", 1280, 800)]


@step
@arriving(*HERE)
def file_shapes(trial, page, office):
    """The preview on a phone, a tablet and a screen, light and dark."""
    sheet = SHEET + "".join(f"Name {n} Long{'er' * (n % 9)};0{n};x;{n}@x.test\n" for n in range(60))
    page.size(1280, 800)
    drop(page, ("kunden.csv", sheet), ("cards.vcf", COMING))
    for name, width, height in SIZES:
        page.size(width, height, mobile=width < 400)
        for scheme in page.schemes:
            page.scheme(scheme)
            page.rest(300)
            for part in ("choose", "columns", "marks", "incoming"):
                page.run(f"{DIALOG}.querySelector('.{part}').scrollIntoView()")
                page.rest(150)
                page.picture(trial.pictures / f"import-{part}-{name}-{scheme}.png")
        assert not page.run(f"{DIALOG}.scrollWidth > {DIALOG}.clientWidth"), f"too wide: {name}"
        if width < 400:
            small = page.run(TOUCH)
            assert not small, small
    page.size(1280, 800)
    page.press("Cancel", DIALOG)


@step
@arriving(*HERE)
def file_by_keys(trial, page, office):
    """From the list's menu to the end of an import, by the keyboard alone."""
    search(page, "")
    hands = Hands(page)
    path = office.folder / "keys.vcf"
    path.write_text(COMING)
    hands.choose("Sort and select", "Import a file")
    page.wait(f"Boolean({DIALOG})")
    hands.to("Files")
    audit(page, "a file to choose")
    page.picture(trial.pictures / "import-choose.png")
    page.choose_file("dialog input[type=file]", path)
    page.wait(f"{SAID}.includes('1 card to import')")
    hands.to("For all with the same mail address")
    hands.to("Finn Five")
    hands.press("Import 1 card")
    page.wait(f"{HEAD} === 'The import is done'")
    page.wait("document.activeElement.localName === 'h3'")
    hands.press("Close")
    assert "five" in office.cards()
    page.wait("document.activeElement.getAttribute('aria-label') === 'Sort and select'")


@step
@arriving()
def file_of_many(trial, page, office):
    """10,000 cards: how long until they are shown, and until they are imported."""
    head = "First Name,Last Name,E-mail Address,Mobile Phone,Company\n"
    rows = "".join(f"Given{n},Family{n},p{n}@x.test,+44 7700 {n:06},Company {n % 90}\n"
                   for n in range(10_000))
    begun = time.monotonic()
    drop(page, ("many.csv", head + rows))
    page.wait(f"{SAID}.includes('10,000 cards to import')", 300)
    print(f"  10,000 rows are shown after {time.monotonic() - begun:.1f} s")
    assert page.run(f"{ROWS}.length") == 50
    tick = page.run(f"""(async () => {{
        const begun = performance.now();
        {ROWS}[3].querySelector('input').click();
        await new Promise((done) => requestAnimationFrame(() => requestAnimationFrame(done)));
        return performance.now() - begun;
    }})()""")
    print(f"  a tick takes {tick:.0f} ms")
    assert tick < 400 * page.slow, tick
    begun = time.monotonic()
    go(page)
    print(f"  9,999 cards are imported after {time.monotonic() - begun:.1f} s")
    assert "9,999 new cards" in page.run(SAID), page.run(SAID)
    close(page)
    assert office.tally()["cards"] == 9_999
    # The book has room for one more, and not for two.
    page.wait("!document.querySelector('#progress:not([hidden])')", 300)
    up_to_date(page)
    drop(page, ("two.vcf", card("n1", "FN:New One") + card("n2", "FN:New Two")))
    page.wait(f"{SAID}.includes('at most 1 can be added')")
    assert page.run(f"{GO}.disabled")
    page.press("Cancel", DIALOG)
