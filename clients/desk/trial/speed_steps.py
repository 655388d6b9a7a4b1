"""How long a large office waits: first rows, the whole copy, a search, opening again, memory."""

import json
import statistics
import time

from cards import many_cards
from steps import STATE, step

# Notes when the first rows are there, before any script of the page runs.
WATCH = """
new MutationObserver((_, watcher) => {
    if (document.querySelectorAll('#list [role=option]').length < 5) return;
    window.firstRows = performance.now();
    watcher.disconnect();
}).observe(document, { childList: true, subtree: true });
"""
COUNT = "document.querySelector('#books .book-count')?.textContent"
# Types into the search, and waits until the list has been painted.
SEARCH = """(async (texts) => {
    const box = document.querySelector('#search');
    const frame = () => new Promise((done) => requestAnimationFrame(done));
    const channel = () => new Promise((done) => {
        const it = new MessageChannel();
        it.port1.onmessage = done;
        it.port2.postMessage(0);
    });
    const all = [];
    for (const text of texts) {
        for (let end = 1; end <= text.length; end += 1) {
            await frame();
            const begun = performance.now();
            box.value = text.slice(0, end);
            box.dispatchEvent(new Event('input', { bubbles: true }));
            await frame();
            await channel();
            all.push(performance.now() - begun);
        }
        await new Promise((done) => setTimeout(done, 100));
    }
    return all;
})"""
TEXTS = ["jun abel", "company 12", "7946 0012", "björn", "arviso", "99@", "zz", "hana lu frost"]


def processor(page):
    """The time that the page's own thread has had of a processor, in milliseconds."""
    metrics = page.call("Performance.getMetrics")["metrics"]
    return 1000 * next(it["value"] for it in metrics if it["name"] == "TaskDuration")


def measured(trial, user, name, cards):
    """A desk with an empty profile, and how long it took until it had all cards."""
    office = trial.office
    page = trial.browser.page(trial.browser.context())
    page.call("Page.addScriptToEvaluateOnNewDocument", source=WATCH)
    page.enter(office.front, user, "manifest.json")
    begun = time.monotonic()
    page.go(office.front)
    page.wait("window.firstRows", 300)
    # The side bar counts what there is; it is all if the tallies say so and no book is on its way.
    wanted = f"{cards:,}"
    page.wait(f"{STATE}.startsWith('Up to date') && {COUNT} === '{wanted}'", 600)
    whole = time.monotonic() - begun
    trial.desks[name] = page
    return page, page.run("window.firstRows") / 1000, whole


def figures(trial, user, name, cards):
    """Prints how quick it is. Returns what a search takes of a processor, however busy that is."""
    page, first, whole = measured(trial, user, name, cards)
    time.sleep(3)  # until it has written what it will need at the next start
    page.call("Performance.enable", timeDomain="threadTicks")
    used = processor(page)
    took = page.run(f"{SEARCH}({json.dumps(TEXTS)})")
    used = (processor(page) - used) / len(took)
    again = []
    for _ in range(3):
        page.go(trial.office.front)
        page.wait("window.firstRows")
        again.append(page.run("window.firstRows") / 1000)
        page.wait(f"{STATE}.startsWith('Up to date')")
    page.call("HeapProfiler.collectGarbage")
    heap = page.call("Runtime.getHeapUsage")["usedSize"] / 1e6
    middle = statistics.median(took)
    print(f"  {cards:,} cards: first rows {first:.1f} s, whole copy {whole:.1f} s, "
          f"search with paint {middle:.0f} ms in the median and {max(took):.0f} at most "
          f"({used:.0f} ms of a processor each), "
          f"opening again {min(again):.2f} s, heap {heap:.0f} MB")
    return used


def count(office):
    """How many cards the server has, in all books."""
    books = [it["name"] for it in office.ask("GET", "")["books"]]
    return sum(office.ask("GET", f"/{it}/tally")["cards"] for it in books)


@step
def ten_thousand(trial):
    """A full book of 10,000 cards."""
    office = trial.office
    office.order_book("large0")
    office.fill("large0", many_cards())
    assert figures(trial, "admin", "large", count(office)) < 50


@step
def fifty_thousand(trial):
    """Five full books."""
    office = trial.office
    for number in range(1, 5):
        office.order_book(f"large{number}")
        office.fill(f"large{number}", many_cards())
    assert figures(trial, "admin", "largest", count(office)) < 150
