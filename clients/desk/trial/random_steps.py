"""Steps of the trial with random cards and changes: the modules, and the desk as a device."""

import json
import random
import time

from between import with_tables
from office import card, logical
from steps import STATE, step, up_to_date

COPY = """
    const cards = await new Promise((resolve) => {
        const request = db.transaction('cards').objectStore('cards').getAll();
        request.onsuccess = () => resolve(request.result);
    });
    db.close();
    return cards.filter((it) => it.book === 'random').map((it) => [it.uid, it.version, it.text]);
"""
SIGNS = [
    "a", "Ü", "日", "😀", " ", "\\,", "\\;", "\\\\", "\\n", ";", ",", ":", "<b>", "'",
    "\t", "=",
]


def some(chance, least=0, most=12):
    return "".join(chance.choice(SIGNS) for _ in range(chance.randint(least, most)))


def random_card(chance, uid):
    """A card with lines that the form knows and that it doesn't."""
    lines = [f"FN:{some(chance, 1)}x"]
    for name in ("N", "ORG", "TITLE", "NOTE", "CATEGORIES", "NICKNAME", "TEL", "EMAIL", "URL",
                 "ADR", "BDAY", "X-OTHER", "GENDER", "item1.TEL", "item1.X-ABLABEL", "GEO"):
        for _ in range(chance.choice([0, 0, 1, 1, 2])):
            params = chance.choice(["", ";TYPE=work", ';TYPE="voice,home"', ";PREF=1;TYPE=cell",
                                    ';LANGUAGE=en;X-P="a:b;c,d"', ";X-EMPTY="])
            lines.append(f"{name}{params}:{some(chance)}")
    chance.shuffle(lines)
    return card(uid, *lines)


@step
def modules(trial):
    """A card is read and written as it was; an edit of one field changes that line alone."""
    admin, chance = trial.desks["admin"], random.Random(7)
    cards = [random_card(chance, f"r{number}") for number in range(400)]
    results = admin.run(f"""(async () => {{
        const [vcard, edit, person] = await Promise.all(
            ['vcard', 'edit', 'person'].map((it) => import('/js/' + it + '.js')));
        return {json.dumps(cards)}.map((text) => {{
            const read = vcard.readCard(text);
            const before = edit.fieldsOf(read);
            const kept = vcard.writeCard(edit.editCard(read, before, edit.fieldsOf(read)));
            const after = edit.fieldsOf(read);
            after.title = 'One, two; \\\\ three';
            after.tels.push({{ line: null, use: 'work,cell', text: '+44 1' }});
            person.rowOf('b', 'u', 1, text);
            const edited = vcard.writeCard(edit.editCard(read, before, after));
            return [vcard.writeCard(read), kept, edited];
        }});
    }})()""")
    for text, (written, kept, edited) in zip(cards, results):
        assert written == text and kept == text, (text, written, kept)
        old, new = logical(text), logical(edited)
        titles = [it for it in old if it.startswith("TITLE")]
        tel = 'TEL;TYPE="work,cell":+44 1'
        assert tel in new, (tel, edited)
        new.remove(tel)
        gone = [it for it in old if it not in new]
        come = [it for it in new if it not in old]
        assert len(new) == len(old) + (0 if titles else 1), (text, edited)
        assert len(come) == 1 and come[0].endswith(":One\\, two\\; \\\\ three"), come
        assert len(gone) <= 1 and set(gone) <= set(titles), gone


@step
def converge(trial):
    """500 random changes by others, with forgetting and reloads between: the copy is the book."""
    office, chance = trial.office, random.Random(11)
    office.order_book("random")
    page = trial.desks["admin"]
    page.press("Update now")
    page.wait("document.querySelector('#books').textContent.includes('random')")
    for part in range(10):
        for _ in range(50):
            uid = f"u{chance.randint(0, 60)}"
            what = chance.random()
            status = 0
            if what < 0.65:
                office.put("random", uid, card(uid, f"FN:{uid} {chance.random()}"))
            elif what < 0.9:
                status, _, _ = office.request("DELETE", f"/books/random/cards/{uid}")
            elif what < 0.95:
                number = office.ask("GET", "/random/tally")["number"]
                status, _, _ = office.request(
                    "POST", f"/books/random/forget?upto={max(0, number - chance.randint(0, 3))}",
                )
            else:
                page.press("Update now")
            assert status in (0, 200, 404, 409), status
        if part % 3 == 2:
            page.go(office.front)
            page.wait(f"{STATE}.startsWith('Up to date')")
        up_to_date(page)
        # The last page may still be on its way when the text is that of an earlier one.
        for _ in range(40):
            copy = sorted(with_tables(page, COPY))
            book = sorted(
                [it["uid"], it["version"], it["card"]]
                for it in office.ask("GET", "/random/sync")["members"]
            )
            if copy == book:
                break
            time.sleep(0.1)
        assert copy == book, (len(copy), len(book))
