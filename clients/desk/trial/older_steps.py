"""Steps about the copy of an older desk, which a browser may still have: nothing of it is lost."""

import json

from between import with_tables
from loss_steps import FIELDS, FORM, names
from steps import STATE, TITLE, fault, search, until

OLD_TABLES = """(async () => {
    const old = await new Promise((resolve) => {
        const request = indexedDB.open('desk', 1);
        request.onupgradeneeded = () => {
            const db = request.result;
            db.createObjectStore('books', { keyPath: 'name' });
            for (const name of ['cards', 'rows', 'drafts']) {
                db.createObjectStore(name, { keyPath: ['book', 'uid'] });
            }
            db.createObjectStore('settings');
        };
        request.onsuccess = () => resolve(request.result);
    });
    const tx = old.transaction(['books', 'drafts', 'settings'], 'readwrite');
    tx.objectStore('books').put({ name: 'clients', token: 't', round: 1, whole: true, synced: 1 });
    const text = (uid, fn) => ['BEGIN:VCARD', 'VERSION:4.0', 'UID:' + uid, 'FN:' + fn, 'END:VCARD',
        ''].join('\\r\\n');
    tx.objectStore('drafts').put({
        book: 'clients', uid: '', version: 0, base: text('old-new', ''),
        text: text('old-new', 'Typed Long Ago'),
    });
    tx.objectStore('drafts').put({
        book: 'clients', uid: 'c17', version: 18, base: text('c17', 'Rosa Delgado'),
        text: text('c17', 'Rosa Delgado-Long'),
    });
    tx.objectStore('settings').put('clients', 'book');
    await new Promise((resolve) => { tx.oncomplete = resolve; });
    old.close();
})()"""


@fault
def older_desk(trial):
    """A browser with the copy of an older desk: names of books and drafts are taken over."""
    office = trial.office
    page = trial.browser.page(trial.browser.context())
    trial.desks["older"] = page
    page.enter(office.front, "ann", "style/base.css")
    page.run(OLD_TABLES)
    page.go(office.front)
    page.wait(f"{STATE}.startsWith('Up to date')")
    page.wait("document.querySelector('#books').textContent.includes('clients')")
    page.press("2 not saved yet")
    page.wait("document.querySelector('dialog').innerText.includes('Rosa Delgado-Long')")
    row = ("[...document.querySelectorAll('dialog li')]"
           ".find((it) => it.innerText.includes('Typed Long Ago'))")
    page.press("Go on", row)
    page.wait(f"{FORM} && {FIELDS}.includes('Typed Long Ago')")
    page.press("Save")
    until(lambda: "Typed Long Ago" in names(office))


SECOND_TABLES = """(async () => {
    const old = await new Promise((resolve) => {
        const request = indexedDB.open('desk', 2);
        request.onupgradeneeded = () => {
            const db = request.result;
            db.createObjectStore('books', { keyPath: 'name' });
            db.createObjectStore('cards', { keyPath: ['book', 'uid'] });
            db.createObjectStore('rows', { autoIncrement: true }).createIndex('book', 'book');
            db.createObjectStore('queue', { keyPath: ['book', 'uid'] });
            db.createObjectStore('drafts', { keyPath: ['book', 'uid', 'slot'] });
            db.createObjectStore('trash', { autoIncrement: true, keyPath: 'id' })
                .createIndex('at', 'at');
            db.createObjectStore('settings');
        };
        request.onsuccess = () => resolve(request.result);
    });
    const text = (uid, ...lines) => ['BEGIN:VCARD', 'VERSION:4.0', 'UID:' + uid, ...lines,
        'END:VCARD', ''].join('\\r\\n');
    const tx = old.transaction(['books', 'cards', 'rows', 'queue'], 'readwrite');
    tx.objectStore('books').put({ name: 'staff', token: 't', round: 1, whole: true, synced: 1 });
    tx.objectStore('cards').put({ book: 'staff', uid: 'kept', version: 1, round: 1,
        text: text('kept', 'FN:Kept Before', 'CATEGORIES:Before') });
    tx.objectStore('rows').add({ book: 'staff', text: JSON.stringify({ gone: [], rows: [
        { book: 'staff', uid: 'kept', version: 1, kind: 'individual', name: 'Kept Before' }] }) });
    tx.objectStore('queue').put({ book: 'staff', uid: 'waited', order: 1, kind: 'save', base: '',
        version: 0, text: text('waited', 'FN:Waited Since'), state: 'waits', theirs: null,
        fault: null, at: 1 });
    await new Promise((resolve) => { tx.oncomplete = resolve; });
    old.close();
})()"""


@fault
def second_desk(trial):
    """A browser with the copy of the desk before this one: all of it stays, and what waits goes."""
    office = trial.office
    page = trial.browser.page(trial.browser.context())
    trial.desks["second"] = page
    page.enter(office.front, "ann", "style/base.css")
    page.run(SECOND_TABLES)
    # The rows have categories, before the server says anything.
    page.go(f"{office.front}?")
    page.wait("document.querySelector('#books').textContent.includes('Before')")
    until(lambda: "Waited Since" in names(office, "staff"))


# The rows as the desk before this one kept them: what is searched was in three texts.
OLD_ROWS = """
    const tx = db.transaction('rows', 'readwrite');
    tx.objectStore('rows').openCursor().onsuccess = ({ target: { result: cursor } }) => {
        if (!cursor) return;
        const { book, text } = cursor.value;
        const log = JSON.parse(text);
        log.rows = log.rows.map(({ search, ...row }) => {
            const [names, words, more] = search.split('\\n');
            return { ...row, names, words, more };
        });
        cursor.update({ book, text: JSON.stringify(log) });
        cursor.continue();
    };
    await new Promise((resolve) => { tx.oncomplete = resolve; });
    db.close();
"""


@fault
def rows_before(trial):
    """Cards are found by the rows that an older desk kept."""
    page = trial.desk("admin", "rows")
    page.wait(f"{STATE}.startsWith('Up to date')")
    with_tables(page, OLD_ROWS)
    page.go(trial.office.front)
    for typed, name in (("ashdown", "Gwen Ashdown"), ("harbour v", "Miriam O’Hara")):
        search(page, typed)
        page.wait(f"{TITLE} === {json.dumps(name)}")
