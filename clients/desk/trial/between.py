"""What comes between a page and the server, or its tables: refusals, lost replies, slow disks."""

import json

# Replies in place of the server's to a request of this method and path.
REPLY = """(([method, part, status, body]) => {
    const real = window.fetch;
    window.fetchAgain = () => { window.fetch = real; };
    window.fetch = async (...all) => {
        if (all[1]?.method !== method || !String(all[0]).includes(part)) return real(...all);
        const type = body ? 'application/json' : 'text/html';
        return new Response(body, { status, headers: { 'content-type': type } });
    };
})"""
LOSE = """((method) => {
    const real = window.fetch;
    window.fetch = async (...all) => {
        const reply = await real(...all);
        if (all[1]?.method !== method) return reply;
        window.fetch = real;
        throw new TypeError('lost');
    };
})"""
# What others change isn't seen, however often the desk asks.
UNAWARE = """(() => {
    const real = window.fetch;
    window.fetch = async (...all) => {
        if (String(all[0]).includes('/sync')) throw new TypeError('held back');
        return real(...all);
    };
    window.fetchAgain = () => { window.fetch = real; };
})()"""
# A function with the desk's tables as `db`.
TABLES = """(async (...given) => {
    const db = await new Promise((resolve) => {
        const request = indexedDB.open('desk');
        request.onsuccess = () => resolve(request.result);
    });
    %s
})"""
FULL = """((most) => {
    const real = IDBObjectStore.prototype.put;
    let count = 0;
    IDBObjectStore.prototype.put = function (...all) {
        count += this.name === 'queue' ? 1 : 0;
        if (count > most) throw new DOMException('full', 'QuotaExceededError');
        return real.apply(this, all);
    };
    window.putAgain = () => { IDBObjectStore.prototype.put = real; };
})"""

# Nobody else can read the queue for some time.
HOLD = """
    const queue = db.transaction('queue', 'readwrite').objectStore('queue');
    const end = performance.now() + given[0];
    const again = () => {
        if (performance.now() < end) queue.count().onsuccess = again;
        else db.close();
    };
    again();
"""


def refuse(page, method, part, status, body):
    """Until `fetchAgain()`, requests of this method, to an address with this part, are refused."""
    page.run(f"{REPLY}({json.dumps([method, part, status, body])})")


def lose_reply(page, method):
    """The next request of this method is made, and its reply is lost."""
    page.run(f"{LOSE}({json.dumps(method)})")


def fill_disk(page, after):
    """Until `putAgain()`, the queue can't keep more than so many things."""
    page.run(f"{FULL}({after})")


def with_tables(page, work, *given):
    """Runs a script with the desk's tables, `db`, and what it is given, `given`."""
    return page.run(f"{TABLES % work}(...{json.dumps(given)})")


def hold(page, milliseconds):
    """Lets nobody else read the queue for some time, as on a slow disk."""
    with_tables(page, HOLD, milliseconds)
