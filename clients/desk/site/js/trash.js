// What was removed, overwritten or dropped at this desk: it stays for 30 days and can be put back.
// Of what others deleted it has the names, where the office keeps what those cards were.
import { done, ended } from "./tables.js";

const DAYS = 30;
const DAY = 86_400_000;
const MOST_NOTES = 300; // of one change

/** Why an entry without a text is there: others deleted the card. */
export const BY_OTHERS = "gone";

/** Keeps a text, in a transaction with the table `trash`. `why`: removed, changed, or dropped. */
export function keepInTrash(table, book, uid, text, why) {
  table.add({ book, uid, text, why, at: Date.now() });
}

export class Trash {
  constructor(db) {
    this.db = db;
  }

  /** What is kept, the newest first. */
  async all() {
    const tx = this.db.transaction("trash");
    return (await done(tx.objectStore("trash").getAll())).reverse();
  }

  async keep(book, uid, text, why) {
    const tx = this.db.transaction("trash", "readwrite");
    keepInTrash(tx.objectStore("trash"), book, uid, text, why);
    return ended(tx);
  }

  /** Notes that others deleted the cards of these rows. */
  async note(rows) {
    const tx = this.db.transaction("trash", "readwrite");
    const end = ended(tx);
    for (const { book, uid, name } of rows.slice(0, MOST_NOTES)) {
      tx.objectStore("trash").add({ book, uid, name, text: "", why: BY_OTHERS, at: Date.now() });
    }
    return end;
  }

  /** Forgets what others deleted in a book. */
  async forget(book) {
    const tx = this.db.transaction("trash", "readwrite");
    const end = ended(tx);
    const table = tx.objectStore("trash");
    for (const it of await done(table.getAll())) {
      if (it.book === book && it.why === BY_OTHERS) table.delete(it.id);
    }
    return end;
  }

  /** Removes what is older than 30 days. */
  async clear(now = Date.now()) {
    const tx = this.db.transaction("trash", "readwrite");
    const end = ended(tx);
    const table = tx.objectStore("trash");
    const old = IDBKeyRange.upperBound(now - DAYS * DAY);
    for (const key of await done(table.index("at").getAllKeys(old))) table.delete(key);
    return end;
  }
}
