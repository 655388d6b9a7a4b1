// The rows of all cards in memory, in the order of the list: as the server has them, and over them
// the changes that it doesn't have yet.
import { memberUid, rowOf } from "./person.js";
import { Searcher, sortRows } from "./search.js";

export function keyOf(row) {
  return `${row.book}/${row.uid}`;
}

export class Shelf {
  constructor(language) {
    this.language = language;
    this.server = new Map();
    this.local = new Map(); // the rows of what isn't sent, null where a card is removed
    this.rows = new Map(); // what is seen
    this.by = "name";
    this.searcher = new Searcher();
    this.sorted = [];
    this.isSorted = true;
  }

  load(rows) {
    this.server = new Map(rows.map((row) => [keyOf(row), row]));
    this.rows = new Map(this.server);
    for (const [key, row] of this.local) this.see(key, row);
    this.isSorted = false;
  }

  see(key, row) {
    if (row) this.rows.set(key, row);
    else this.rows.delete(key);
    this.isSorted = false;
  }

  /** Applies a change of the copy. */
  apply(book, change) {
    for (const row of change.rows) this.put(keyOf(row), row);
    for (const uid of change.gone) this.put(`${book}/${uid}`, null);
  }

  put(key, row) {
    if (row) this.server.set(key, row);
    else this.server.delete(key);
    if (!this.local.has(key)) this.see(key, row);
  }

  /** Puts the entries of the queue over the copy, in place of those before. Returns their keys. */
  cover(entries) {
    const before = [...this.local.keys()];
    // A card that is moved isn't in its old book any more, unless that gets one of its UID.
    const left = entries.filter((it) => it.from).map((it) => [`${it.from}/${it.uid}`, null]);
    this.local = new Map([...left, ...entries.map((it) => [keyOf(it), localRow(it)])]);
    for (const key of before) {
      if (!this.local.has(key)) this.see(key, this.server.get(key) ?? null);
    }
    for (const [key, row] of this.local) this.see(key, row);
    return new Set([...before, ...this.local.keys()]);
  }

  dropBook(book) {
    for (const [key, row] of this.server) if (row.book === book) this.server.delete(key);
    for (const [key, row] of this.rows) if (row.book === book) this.see(key, null);
  }

  get(book, uid) {
    return this.rows.get(`${book}/${uid}`);
  }

  sortBy(by) {
    if (this.by === by) return;
    this.by = by;
    this.isSorted = false;
  }

  all() {
    if (!this.isSorted) {
      // Rows that stay keep their places, so that sorting them again is quick.
      const seen = new Set();
      const kept = [];
      for (const row of this.sorted) {
        const now = this.rows.get(keyOf(row));
        if (now && !seen.has(now)) {
          seen.add(now);
          kept.push(now);
        }
      }
      for (const row of this.rows.values()) if (!seen.has(row)) kept.push(row);
      this.sorted = sortRows(kept, this.language, this.by);
      this.isSorted = true;
    }
    return this.sorted;
  }

  /** The rows of a book ("" for all books) that match. */
  find(text, book) {
    return this.searcher.find(this.ofBook(book), text);
  }

  ofBook(book) {
    const rows = this.all();
    if (!book) return rows;
    if (this.part?.rows !== rows || this.part.book !== book) {
      this.part = { rows, book, of: rows.filter((row) => row.book === book) };
    }
    return this.part.of;
  }

  count(book) {
    if (!book) return this.rows.size;
    let count = 0;
    for (const row of this.rows.values()) if (row.book === book) count += 1;
    return count;
  }

  /** For the members of a card: `[value, row or null]` each. */
  members(book, values) {
    const known = { has: (uid) => this.rows.has(`${book}/${uid}`) };
    return values.map((value) => {
      const uid = memberUid(value, known);
      return [value, uid === null ? null : this.get(book, uid)];
    });
  }

  /** The groups of a book ("" for all books). */
  groups(book) {
    return this.all().filter((row) => row.kind === "group" && (!book || row.book === book));
  }

  /** The categories of a book's cards ("" for all books) by name: `[name, how many]` each. */
  categories(book) {
    const rows = this.ofBook(book);
    if (this.named?.rows !== rows) {
      const counts = new Map();
      for (const row of rows) {
        for (const name of row.cats ?? []) {
          const key = name.toLowerCase();
          const found = counts.get(key) ?? [name, 0];
          found[1] += 1;
          counts.set(key, found);
        }
      }
      const { compare } = new Intl.Collator(this.language, { sensitivity: "base" });
      this.named = { rows, of: [...counts.values()].sort((a, b) => compare(a[0], b[0])) };
    }
    return this.named.of;
  }

  /** The groups of the book that name the card. */
  groupsOf(book, uid) {
    const known = { has: (it) => this.rows.has(`${book}/${it}`) };
    return this.groups(book).filter(
      (row) => row.members?.some((value) => memberUid(value, known) === uid),
    );
  }
}

/** The row of what isn't sent; `mark` is the state of its entry. */
function localRow(entry) {
  if (entry.kind === "remove") return null;
  return { ...rowOf(entry.book, entry.uid, entry.version, entry.text), mark: entry.state };
}
