// The desk's copy: books with their tokens, cards, and rows for the list and the search. Pages and
// their token are written in one transaction, so the copy is always that of its token, wherever
// the desk was stopped.
import { rowNow, rowOf } from "./person.js";
import { done, emptyBook, ended, ofBook, openTables, RELAXED } from "./tables.js";

const LONG_LOG = 60;

export async function openStore(name = "desk") {
  return new Store(await openTables(name));
}

/** Adds to the log of rows, in the transaction. */
export function logRows(tx, book, rows, gone) {
  if (!rows.length && !gone.length) return;
  tx.objectStore("rows").add({ book, text: JSON.stringify({ rows, gone }) });
}

/** Keeps the card as the server has it, in the transaction. Returns its row. */
export function putCard(tx, book, uid, version, text) {
  const row = rowOf(book.name, uid, version, text);
  tx.objectStore("cards").put({ book: book.name, uid, version, text, round: book.round });
  return row;
}

export class Store {
  constructor(db) {
    this.db = db;
  }

  reading(name) {
    return this.db.transaction(name).objectStore(name);
  }

  books() {
    return done(this.reading("books").getAll());
  }

  book(name) {
    return done(this.reading("books").get(name));
  }

  /** The card with its version and text as the server had it, or undefined. */
  card(book, uid) {
    return done(this.reading("cards").get([book, uid]));
  }

  /** The cards of a book by their UIDs, as the server had them. */
  cards(book) {
    return done(this.reading("cards").getAll(ofBook(book)));
  }

  /**
   * The rows of all cards. They are read from the log of what changed, which is much quicker than
   * a record for each row. A log that has become long is written anew.
   */
  async rows() {
    const logs = await done(this.reading("rows").getAll());
    const books = new Map();
    for (const { book, text } of logs) {
      if (!books.has(book)) books.set(book, { rows: new Map(), parts: 0 });
      const kept = books.get(book);
      const { rows, gone } = JSON.parse(text);
      for (const row of rows) kept.rows.set(row.uid, row);
      for (const uid of gone) kept.rows.delete(uid);
      kept.parts += 1;
    }
    const all = [];
    for (const [book, { rows, parts }] of books) {
      for (const row of rows.values()) all.push(rowNow(row));
      if (parts > LONG_LOG) this.shorten(book);
    }
    return all;
  }

  /** Writes the log of a book's rows anew, if nothing was added meanwhile. */
  async shorten(book) {
    const tx = this.db.transaction("rows", "readwrite", RELAXED);
    const end = ended(tx);
    const store = tx.objectStore("rows");
    const index = store.index("book");
    const [keys, logs] = await Promise.all([
      done(index.getAllKeys(book)), done(index.getAll(book)),
    ]);
    const kept = new Map();
    for (const { text } of logs) {
      const { rows, gone } = JSON.parse(text);
      for (const row of rows) kept.set(row.uid, row);
      for (const uid of gone) kept.delete(uid);
    }
    for (const key of keys) store.delete(key);
    const rows = [...kept.values()];
    for (let at = 0; at < rows.length; at += 500) {
      logRows(tx, book, rows.slice(at, at + 500), []);
    }
    return end;
  }

  /** Adds a book without cards and without a token, unless it is there. */
  async addBook(name) {
    const tx = this.db.transaction("books", "readwrite");
    const books = tx.objectStore("books");
    if (!(await done(books.get(name)))) books.put(emptyBook(name));
    return ended(tx);
  }

  /** Keeps whether a book may be changed: "write", "read", or "" if that isn't known. */
  async setRights(name, rights) {
    const tx = this.db.transaction("books", "readwrite");
    const end = ended(tx);
    const books = tx.objectStore("books");
    const book = await done(books.get(name));
    const isNew = Boolean(book) && book.rights !== rights;
    if (isNew) books.put({ ...book, rights });
    await end;
    return isNew;
  }

  /** Removes the book and its cards from the copy. Its drafts and what isn't sent stay. */
  async removeBook(name) {
    const tx = this.db.transaction(["books", "cards", "rows"], "readwrite");
    const end = ended(tx);
    tx.objectStore("books").delete(name);
    tx.objectStore("cards").delete(ofBook(name));
    const rows = tx.objectStore("rows");
    for (const key of await done(rows.index("book").getAllKeys(name))) rows.delete(key);
    return end;
  }

  /**
   * Drops the token, so that the next page begins a whole copy. The old cards stay in sight until
   * that copy is whole; those that it didn't bring are removed then.
   */
  async startAgain(name) {
    const tx = this.db.transaction("books", "readwrite");
    const books = tx.objectStore("books");
    const book = await done(books.get(name));
    if (book) books.put({ ...book, token: "", round: book.round + 1, whole: false });
    return ended(tx);
  }

  /**
   * Applies pages, of which the first was asked for with `asked`, the book as it was then, and
   * keeps the last one's token. If the book has another token by now, as another tab applied a page
   * meanwhile, they are dropped. Returns what changed: rows, the UIDs that are gone, and whether
   * they were dropped.
   */
  async applyPages(asked, pages, now) {
    const tx = this.db.transaction(["books", "cards", "rows"], "readwrite", RELAXED);
    const [books, cards] = ["books", "cards"].map((it) => tx.objectStore(it));
    const end = ended(tx);
    const book = await done(books.get(asked.name));
    if (!book || book.token !== asked.token || book.round !== asked.round) {
      await end;
      return { rows: [], gone: [], dropped: true, book };
    }
    const changed = new Map();
    for (const member of pages.flatMap((it) => it.members)) {
      if (member.status === 200) {
        changed.set(member.uid, putCard(tx, book, member.uid, member.version, member.card));
      } else {
        cards.delete([book.name, member.uid]);
        changed.set(member.uid, null);
      }
    }
    const last = pages[pages.length - 1];
    // A first copy can't have cards of an older one.
    if (!last.truncated && !book.whole && book.round > 1) {
      for (const card of await done(cards.getAll(ofBook(book.name)))) {
        if (card.round === book.round) continue;
        cards.delete([book.name, card.uid]);
        changed.set(card.uid, null);
      }
    }
    const whole = book.whole || !last.truncated;
    const synced = last.truncated ? book.synced : now;
    const next = { ...book, token: last.token, whole, synced };
    if (whole) next.since ??= now;
    // When others changed it is known no better than by when it was asked.
    if (book.whole && changed.size) Object.assign(next, { after: book.synced, changed: now });
    books.put(next);
    const rows = [...changed.values()].filter(Boolean);
    const gone = [...changed].filter((it) => !it[1]).map((it) => it[0]);
    logRows(tx, book.name, rows, gone);
    await end;
    return { rows, gone, dropped: false, book: next };
  }

  /** Drops a card that isn't in the book any more, as after a move. */
  async dropCard(name, uid) {
    const tx = this.db.transaction(["cards", "rows"], "readwrite");
    tx.objectStore("cards").delete([name, uid]);
    logRows(tx, name, [], [uid]);
    await ended(tx);
    return { rows: [], gone: [uid] };
  }

  /** Keeps a card that the server has just shown. */
  async keepCard(name, uid, version, text) {
    const tx = this.db.transaction(["books", "cards", "rows"], "readwrite");
    const end = ended(tx);
    const book = await done(tx.objectStore("books").get(name));
    const rows = book ? [putCard(tx, book, uid, version, text)] : [];
    logRows(tx, name, rows, []);
    await end;
    return { rows, gone: [] };
  }

  setting(key) {
    return done(this.reading("settings").get(key));
  }

  keepSetting(key, value) {
    const tx = this.db.transaction("settings", "readwrite");
    tx.objectStore("settings").put(value, key);
    return ended(tx);
  }
}
