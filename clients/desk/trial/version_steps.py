"""Steps about earlier versions of a card, where the memory of clients/python's follow is served."""

import json
import sys

from access import audit
from cards import EVIL, MARK, hostile_cards
from common import status
from feature_steps import DIALOG, show
from loss_steps import CARD, at_desk
from office import PYTHON, card
from steps import TITLE, fault, more, search, step, stored, until

OPENER = "document.querySelector('#pane .actions .round')"
ENTRIES = "[...document.querySelectorAll('#pane .menu-list button')].map((it) => it.textContent)"
SHOWN = "[...document.querySelectorAll('dialog .versions > li')].map((it) => it.innerText)"
SIZES = [("wide", 1280, 800), ("narrow", 390, 780)]


def menu(page):
    """What the card's menu offers."""
    page.run(f"{OPENER}.click()")
    found = page.run(ENTRIES)
    page.key("Escape")
    return found


def offered(page):
    """Waits until the card's menu offers its earlier versions."""
    until(lambda: "Earlier versions…" in menu(page), 20)


def again(trial, page, uid, name):
    """Loads the desk, which forgets that nothing was served, and shows a card."""
    page.go(trial.office.front)
    page.wait("document.querySelector('#books button')")
    show(page, uid, name)


def versions(page, count):
    more(page, "Earlier versions")
    page.wait(f"{SHOWN}.length === {count} && !{SHOWN}.some((it) => it.includes('One moment'))")
    return page.run(SHOWN)


@fault
def earlier_versions(trial):
    """A card's versions: when, who, what changed; one is put back, and a clash with it is asked."""
    page, office = at_desk(trial), trial.office
    page.front()
    first = card("ver 1", "FN:Vera Versions", "TITLE:Clerk", "TEL;TYPE=work:020 7946 0801",
                 "CATEGORIES:Suppliers")
    second = card("ver 1", "FN:Vera Versions", "TITLE:Head clerk", "EMAIL:vera@example.test",
                  "CATEGORIES:Suppliers,Friends", "NOTE:Two\\nlines")
    office.put("clients", "ver 1", first)
    page.press("Update now")
    again(trial, page, "ver%201", "Vera Versions")
    page.rest(1500)
    assert "Earlier versions…" not in menu(page), "nothing is served yet"
    office.remember()
    office.put("clients", "ver 1", second)
    office.remember()
    office.ask("DELETE", "/clients/cards/ver%201")
    office.remember()
    office.put("clients", "ver 1", second)
    office.remember()
    index, = (it for it in office.memory.glob("clients/versions/ver-1~*/index.json"))
    listed = json.loads(index.read_text())
    assert len(listed["versions"]) == 4, listed
    listed["versions"][1]["who"] = "ann"
    index.write_text(json.dumps(listed))
    again(trial, page, "ver%201", "Vera Versions")
    offered(page)
    shown = versions(page, 4)
    for at, words in enumerate((
        ["As it is now", "It was stored again"],
        ["It was deleted, or moved"],
        ["by ann", "Position", "Head clerk", "It was Clerk", "Phone", "020 7946 0801", "(removed)",
         "Mail", "vera@example.test", "(added)", "Suppliers, Friends", "Note"],
        ["Put this back", "The oldest version"],
    )):
        flat = " ".join(shown[at].replace("Suppliers,Friends", "Suppliers, Friends").split())
        assert all(it in flat for it in words), (words, flat)
    assert "Put this back" not in shown[0] + shown[1], shown
    for name, width, height in SIZES:
        page.size(width, height)
        for scheme in page.schemes:
            page.scheme(scheme)
            page.rest(300)
            page.picture(trial.pictures / f"versions-{name}-{scheme}.png")
        audit(page, f"versions, {name}")
        assert not page.run("document.documentElement.scrollWidth > innerWidth"), name
    page.size(1280, 800)
    oldest = "document.querySelector('dialog .versions > li:last-child')"
    page.wrote.clear()
    page.press("Put this back", oldest)
    stored(office, "ver 1", "TITLE:Clerk")
    assert office.card("clients", "ver 1")["card"] == first
    page.wait("document.querySelector('#waiting').hidden")
    method, address = page.wrote[-1]
    assert method == "PUT" and "?version=" in address, page.wrote
    page.press("Undo", "document.querySelector('#toast')")
    stored(office, "ver 1", "TITLE:Head clerk")
    page.wait("document.querySelector('#waiting').hidden")
    # Somebody else changes the same value while the versions are looked at.
    versions(page, 4)
    office.put("clients", "ver 1", second.replace("Head clerk", "Partner"))
    page.press("Put this back", oldest)
    page.wait("document.querySelector('dialog table.conflict')")
    asked = page.run("document.querySelector('dialog .clash').innerText")
    assert "Clerk" in asked and "Partner" in asked and "Head clerk" in asked, asked
    page.run("document.querySelector('.clash td:nth-child(2) label').click()")
    page.press("Save what is chosen")
    stored(office, "ver 1", "TITLE:Clerk")
    page.wait("document.querySelector('#waiting').hidden")
    # Without the network the entry says that nothing can be reached.
    office.shut()
    more(page, "Earlier versions")
    page.wait("document.querySelector('#toast').textContent.includes('can’t be reached')")
    office.open()
    search(page, "")


PANE = "document.querySelector('#pane')"
TOAST = "document.querySelector('#toast')"


@fault
def deleted_versions(trial):
    """A card that others deleted: its address and the trash lead to what it was, and back."""
    page, office = at_desk(trial), trial.office
    page.front()
    text = card("gone 1", "FN:Gerda Gone", "TITLE:Porter")
    path = "/clients/cards/gone%201"
    office.put("clients", "gone 1", text)
    office.remember()
    page.press("Update now")
    again(trial, page, "gone%201", "Gerda Gone")
    offered(page)
    office.ask("DELETE", path)
    office.remember()
    page.press("Update now")
    page.wait(f"{PANE}.innerText.includes('This card isn')")
    page.press("Earlier versions", PANE)
    page.wait(f"{SHOWN}.length === 2 && !{SHOWN}.some((it) => it.includes('One moment'))")
    assert "Earlier versions of Gerda Gone" in page.run(f"{DIALOG}.innerText")
    assert "It was deleted" in page.run(SHOWN)[0] and "Put this back" in page.run(SHOWN)[1]
    audit(page, "the versions of a card that is gone")
    page.press("Put this back", DIALOG)
    until(lambda: status(office, "clients", "gone 1") == 200)
    page.wait(f"{TITLE} === 'Gerda Gone' && document.querySelector('#waiting').hidden")
    assert office.card("clients", "gone 1")["card"] == text
    page.press("Undo", TOAST)
    until(lambda: status(office, "clients", "gone 1") == 404)
    # What others deleted while another card was shown is in the trash by its name.
    office.put("clients", "gone 1", text)
    page.press("Update now")
    page.wait("document.querySelector('#waiting').hidden")
    show(page, "c12", "Miriam O’Hara")
    search(page, "gerda gone")
    page.wait(f"{TITLE} === 'Gerda Gone'")
    search(page, "")
    office.ask("DELETE", path)
    page.press("Update now")
    search(page, "gerda gone")
    page.wait("!document.querySelector('#empty').hidden")
    search(page, "")
    page.go(office.front)
    page.press("Trash", "document.querySelector('#books')")
    row = f"[...{DIALOG}.querySelectorAll('li')]" \
        ".find((it) => it.innerText.includes('elsewhere'))"
    page.wait(f"({row})?.innerText.includes('Gerda Gone')")
    assert "Put back" not in page.run(f"({row}).innerText")
    page.picture(trial.pictures / "trash-of-others.png")
    audit(page, "the trash with what others deleted")
    page.press("Earlier versions", row)
    page.wait(f"{DIALOG}?.innerText.includes('Earlier versions of Gerda Gone')")
    page.key("Escape")
    # One that others moved is in another book now, and that is said.
    office.put("clients", "gone 2", card("gone 2", "FN:Mona Moved"))
    page.press("Update now")
    show(page, "gone%202", "Mona Moved")
    version = office.card("clients", "gone 2")["version"]
    office.ask("POST", f"/clients/cards/gone%202/move?to=staff&version={version}")
    page.press("Update now")
    page.press("Open Mona Moved in staff", PANE)
    page.wait(f"{TITLE} === 'Mona Moved' && location.hash.startsWith('#/card/staff/')")
    office.ask("DELETE", "/staff/cards/gone%202")
    search(page, "")


# Lists that are none.
WRONG = ["", "null", "[]", "{", '"x"', "7", '{"uid":"v","versions":{}}', '{"uid":"v"}',
         '{"uid":"w","versions":[{"file":"0000000000001-2026-11-27T031200Z.vcf"}]}',
         '{"uid":"v","versions":[null,1,"x",[],{"file":7},{"file":"../../x.vcf"}]}',
         '{"uid":"v","versions":[{"file":"0000000000001-2026-11-27T031200Z.vcf/../x"}]}',
         "<!doctype html><title>Contacts</title>", "[" * 50000]


@fault
def hostile_versions(trial):
    """A list and files that are markup, endless, or no list at all do no harm."""
    page, office = at_desk(trial), trial.office
    page.front()
    found = page.run(f"""import('/js/memory.js').then(({{ readList }}) =>
        {json.dumps(WRONG)}.map((it) => readList(it, 'v')))""")
    assert found == [None] * len(WRONG), found
    office.put("clients", "verh", card("verh", "FN:Hostile Versions"))
    office.remember()
    folder = office.memory / "clients/versions/verh"
    mine = json.loads((folder / "index.json").read_text())["versions"]
    evil = {
        1: card("verh", f"FN:Hostile {MARK}", f"TITLE:{MARK}", f"X-{'E' * 3000}:{MARK}",
                f"NOTE:{'n' * 20000}", f"URL:{EVIL}", f"PHOTO:{EVIL}/x.png"),
        2: card("other", "FN:Hostile of another card"),
        3: "x" * 400000,
        4: card("verh", *(f"TEL:020 7946 {n:04}" for n in range(1500)), "FN:Hostile many"),
    }
    for number, text in evil.items():
        (folder / f"{number:013}-2026-11-27T031200Z.vcf").write_text(text)
    whos = {1: MARK, 2: "long " * 2000, 3: {"x": 1}, 4: "\u202eturned"}
    lines = [{"version": number, "seen": MARK if number == 1 else "9" * 999, "removed": "no",
              "who": whos[number], "file": f"{number:013}-2026-11-27T031200Z.vcf"}
             for number in evil]
    lines += [{"file": "../../../office.db"}, {"file": "0000000000009-2026-11-27T031200Z.vcf"}, 7]
    (folder / "index.json").write_text(json.dumps({"uid": "verh", "versions": lines + mine}))
    again(trial, page, "verh", "Hostile Versions")
    offered(page)
    page.size(390, 780)
    shown = versions(page, 6)
    assert MARK in shown[5] and "can’t be read" in shown[4] and "can’t be read" in shown[3], shown
    assert "and 1,471 more changes" in shown[2] or "isn’t known" in shown[2], shown[2]
    odd = page.run(f"""(() => {{
        const known = new Set(['dialog', 'h2', 'p', 'ul', 'li', 'div', 'strong', 'small', 'bdi',
            'button', 'dl', 'dt', 'dd', 's']);
        return [...{DIALOG}.querySelectorAll('*')].map((it) => it.localName)
            .filter((it) => !known.has(it));
    }})()""")
    assert not odd, odd
    assert not page.run("document.documentElement.scrollWidth > innerWidth")
    assert not page.run(f"{DIALOG}.scrollWidth > {DIALOG}.clientWidth")
    page.picture(trial.pictures / "versions-hostile.png")
    page.key("Escape")
    page.size(1280, 800)
    assert not [it for it in page.asked if EVIL in it]
    # A list that is wrong since it was looked at, and one that is wrong from the start.
    (folder / "index.json").write_text("{")
    more(page, "Earlier versions")
    page.wait("document.querySelector('#toast').textContent.includes('can’t be reached')")
    again(trial, page, "verh", "Hostile Versions")
    page.rest(1500)
    assert "Earlier versions…" not in menu(page)
    assert page.run(CARD) and page.run(TITLE) == "Hostile Versions"
    search(page, "")


@step
def folders(trial):
    """The desk finds the folder of each UID as follow names it."""
    sys.path.insert(0, str(PYTHON))
    from tosculai_tools.folder import file_name
    uids = [*hostile_cards(), "a", "A", "con", "nul.x", "con1", "a.", ".a", "a" * 80, "a" * 81,
            "é", "urn:uuid:00000000-0000-4000-8000-000000000001", "-", "_", "a b  c", "İstanbul K",
            "--x--", "~", "x" * 39 + "--y"]
    found = at_desk(trial).run(f"""import('/js/memory.js').then(({{ folderOf }}) =>
        Promise.all({json.dumps(uids)}.map(folderOf)))""")
    wanted = [file_name(it)[:-len(".vcf")] for it in uids]
    assert found == wanted, [it for it in zip(uids, found, wanted) if it[1] != it[2]]
