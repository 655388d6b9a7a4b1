// Follows books by their sync tokens, as docs/API.md says under "Syncing a device". One request at
// a time: a page goes on from the token of the page before it.
import { Fault } from "./api.js";

const SECOND = 1000;
// A page that somebody looks at shows what others change within seconds; it costs next to nothing.
const IN_USE = 15 * SECOND;
const OTHERWISE = 3600 * SECOND;
const LONGEST_WAIT = 60 * SECOND;
// How much is written at once: the first page by itself, so that the list is there soon.
const MOST_PAGES = 10;
const MOST_SIGNS = 2_000_000;

/** Runs `work` while nothing else has the lock, in this tab or another. */
export function withLock(name, work) {
  return navigator.locks ? navigator.locks.request(name, work) : queued(name, work);
}

/**
 * Runs `work` while nothing else asks or changes this book: so no page that is older than a change
 * can be applied after it.
 */
export function withBook(name, work) {
  return withLock(`desk ${name}`, work);
}

/** The same with several books, which are always taken in one order. */
export function withBooks(names, work) {
  const [name, ...others] = [...new Set(names)].sort();
  return withBook(name, () => (others.length ? withBooks(others, work) : work()));
}

const queues = new Map();

function queued(name, work) {
  const turn = (queues.get(name) ?? Promise.resolve()).then(work);
  queues.set(name, turn.catch(() => {}));
  return turn;
}

function isLarge(pages) {
  let signs = 0;
  for (const { members } of pages) for (const it of members) signs += it.card?.length ?? 0;
  return pages.length >= MOST_PAGES || signs > MOST_SIGNS;
}

/** The next page, asked for while the pages before it are written. */
function asked(api, name, token) {
  const page = api.sync(name, token);
  page.catch(() => {});
  return page;
}

/**
 * Asks until the copy is the book. `tell` gets each change. A token that is refused is dropped, and
 * a whole copy begins.
 */
async function bringAll(api, store, name, tell, now) {
  let book = await store.book(name);
  if (!book) return;
  let isFirst = true;
  let pages = [];
  let next = asked(api, name, book.token);
  for (;;) {
    let page;
    try {
      page = await next;
    } catch (fault) {
      if (pages.length) tell(await store.applyPages(book, pages, now()));
      if (!(fault instanceof Fault) || !fault.is("valid-sync-token") || !book.token) throw fault;
      await store.startAgain(name);
      tell({ rows: [], gone: [], again: true });
      return bringAll(api, store, name, tell, now);
    }
    pages.push(page);
    if (page.truncated) next = asked(api, name, page.token);
    if (page.truncated && !isFirst && !isLarge(pages)) continue;
    isFirst = false;
    const change = await store.applyPages(book, pages, now());
    tell(change);
    if (change.dropped) return bringAll(api, store, name, tell, now);
    if (!page.truncated) return undefined;
    ({ book } = change);
    pages = [];
  }
}

export function syncBook(api, store, name, tell = () => {}, now = Date.now) {
  return withBook(name, () => bringAll(api, store, name, tell, now));
}

/** Keeps all books of the copy up to date, and reports how it goes. */
export class Follower {
  /**
   * `tell` has the functions `change(book, change)`, `progress(book, done, total)` and
   * `state(book, state, fault)`. The states are "busy", "ok", "waiting" (no reply; it tries again),
   * and "refused".
   */
  constructor(api, store, tell) {
    this.api = api;
    this.store = store;
    this.tell = tell;
    this.wanted = new Set();
    this.failures = 0;
    this.running = false;
    this.timer = 0;
  }

  /** Asks soon: for the book, or for all. */
  async want(name) {
    const names = name ? [name] : (await this.store.books()).map((it) => it.name);
    for (const it of names) this.wanted.add(it);
    await this.run();
  }

  /** Asks for a book now, and answers when the copy has what the server has. */
  async now(name) {
    try {
      await this.bring(name);
    } catch (fault) {
      if (!(fault instanceof Fault)) throw fault;
    }
  }

  async run() {
    if (this.running) return;
    this.running = true;
    clearTimeout(this.timer);
    let wait = 0;
    while (this.wanted.size) {
      const [name] = this.wanted;
      this.wanted.delete(name);
      wait = await this.follow(name);
      if (wait) {
        this.wanted.add(name);
        break;
      }
    }
    this.running = false;
    this.plan(wait);
  }

  /** Follows one book. Returns 0, or how long to wait if the server can't be reached. */
  async follow(name) {
    this.tell.state(name, "busy", null);
    try {
      await this.bring(name);
    } catch (fault) {
      // Anything else is a fault of the copy: the disk is full, or the browser took it away.
      if (!(fault instanceof Fault) || !fault.isPassing) {
        this.tell.state(name, "refused", fault);
        return 0;
      }
      const wait = Math.min(1000 * 2 ** this.failures, LONGEST_WAIT);
      this.failures += 1;
      this.tell.state(name, "waiting", fault);
      return wait;
    }
    this.failures = 0;
    this.tell.state(name, "ok", null);
    return 0;
  }

  async bring(name) {
    const book = await this.store.book(name);
    if (!book) return;
    // Only a first copy takes long enough to count: the tally says how many cards it has.
    let total = book.whole ? 0 : (await this.api.tally(name)).cards;
    let count = 0;
    await syncBook(this.api, this.store, name, (change) => {
      if (change.again) {
        count = 0;
        total = 0;
      }
      count += change.rows.length;
      if (total && !book.whole) this.tell.progress(name, count, total);
      this.tell.change(name, change);
    });
  }

  /** Plans the next time, a little sooner or later so that desks don't ask all at once. */
  plan(wait) {
    clearTimeout(this.timer);
    const often = document.visibilityState === "visible" ? IN_USE : OTHERWISE;
    const next = wait || often * (0.9 + 0.2 * Math.random());
    this.timer = setTimeout(() => (wait ? this.run() : this.want()), next);
  }
}
