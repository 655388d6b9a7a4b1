// Changes that were made here and that the server doesn't have yet. There is one entry for a card
// at most; a later change of the same card goes into it. An entry goes only when the server has
// taken its very text, or when somebody decides so; what is dropped then goes into the trash.
import { ASKS, Entries, REFUSED, WAITS } from "./entries.js";
import { merge3 } from "./merge.js";
import { logRows, putCard } from "./store.js";
import { done, ended, STRICT } from "./tables.js";
import { keepInTrash } from "./trash.js";
import { sameCard } from "./vcard.js";

const TABLES = ["books", "cards", "rows", "queue", "drafts", "trash"];

/** What an entry becomes if the server has another card by now, `{version, text}`, or none. */
export function settled(entry, theirs) {
  if (!theirs) return { state: ASKS, theirs: null, fault: null };
  const both = merge3(entry.base, entry.text, theirs.text);
  if (both.clashes.length) return { state: ASKS, theirs, fault: null };
  const { version } = theirs;
  return {
    base: theirs.text, version, text: both.text(), state: WAITS, theirs: null, fault: null,
  };
}

export class Queue {
  constructor(db) {
    this.db = db;
  }

  /** All entries, in the order in which the changes were made. */
  async all() {
    const all = await done(this.db.transaction("queue").objectStore("queue").getAll());
    return all.sort((a, b) => a.order - b.order);
  }

  /** Does `work` with `Entries` in one transaction: all of it, or nothing. */
  async change(work) {
    const tx = this.db.transaction(TABLES, "readwrite", STRICT);
    const end = ended(tx);
    try {
      const result = await work(new Entries(tx), tx);
      await end;
      return result;
    } catch (fault) {
      end.catch(() => {});
      try {
        tx.abort();
      } catch {
        // It has ended already.
      }
      throw fault;
    }
  }

  /** The card as this desk shows it, or null (`Entries.seen`). */
  seen(book, uid) {
    return new Entries(this.db.transaction(["cards", "queue"])).seen(book, uid);
  }

  save(edit) {
    return this.change((entries) => entries.save(edit));
  }

  /** Removes cards here, `[book, uid]` each. They are kept in the trash. */
  remove(places) {
    return this.change(async (entries) => {
      for (const [book, uid] of places) await entries.remove(book, uid);
    });
  }

  /** Puts texts back, `[book, uid, text]` each. */
  restore(kept) {
    return this.change(async (entries) => {
      for (const [book, uid, text] of kept) await entries.restore(book, uid, text);
    });
  }

  /** Moves cards here, `[book, uid, to]` each. Answers those that could be moved. */
  move(places) {
    return this.change(async (entries) => {
      const moved = [];
      for (const it of places) if (await entries.move(...it)) moved.push(it);
      return moved;
    });
  }

  /**
   * The server has stored the text of `sent`, an entry as it was then, in the book where it has the
   * card. Returns what changed in the copy of that book.
   */
  stored(sent, version) {
    const { uid, text } = sent;
    const book = sent.from ?? sent.book;
    return this.change(async (entries, tx) => {
      const record = await done(entries.at("books").get(book));
      const now = await entries.about(book, uid);
      if (sent.base && sent.base !== text) {
        keepInTrash(entries.at("trash"), book, uid, sent.base, "changed");
      }
      if (now?.kind === "save" && now.text === text && !now.from) entries.delete(now);
      // What was changed since is a change of what the server has now.
      else if (now) entries.put({ ...now, base: text, version });
      const rows = record ? [putCard(tx, record, uid, version, text)] : [];
      logRows(tx, book, rows, []);
      return { rows, gone: [] };
    });
  }

  /** The server has removed the card of `sent`. */
  removed(sent) {
    const { book, uid } = sent;
    return this.change(async (entries, tx) => {
      const now = await entries.about(book, uid);
      if (now?.kind === "remove") entries.delete(now);
      else if (now) entries.put({ ...now, base: "", version: 0, from: null });
      return dropCard(tx, book, uid);
    });
  }

  /**
   * The server has moved the card of `sent`. What the user did meanwhile goes on from there, also
   * if the card was moved back. Returns what changed in the copy of each book.
   */
  moved(sent, version) {
    const { book, uid, from, text } = sent;
    return this.change(async (entries, tx) => {
      const record = await done(entries.at("books").get(book));
      const now = await entries.about(from, uid);
      const is = { base: text, version };
      if (!now) {
        entries.put({ ...sent, ...is, book: from, from: book, order: await entries.order() });
      } else if (now.kind === "remove") {
        entries.delete(now);
        entries.put({ ...now, ...is, book });
      } else if (now.book === book) {
        if (now.text === text) entries.delete(now);
        else entries.put({ ...now, ...is, from: null });
      } else {
        entries.put({ ...now, ...is, from: book });
      }
      const gone = dropCard(tx, from, uid);
      const rows = record ? [putCard(tx, record, uid, version, text)] : [];
      logRows(tx, book, rows, []);
      return [[from, gone], [book, { rows, gone: [] }]];
    });
  }

  /**
   * The card of `sent` isn't in its old book any more: `theirs` is what the new book has of it, or
   * null. Returns what changed in the copy of the old book.
   */
  left(sent, theirs) {
    return this.change(async (entries, tx) => {
      await revise(entries, sent, { ...settled(sent, theirs), from: null });
      return dropCard(tx, sent.from, sent.uid);
    });
  }

  /** Changes the entry if it is still as it was when it was sent. Answers whether it was. */
  revise(sent, change) {
    return this.change((entries) => revise(entries, sent, change));
  }

  /** The entry is an edit of another text now: that of the server, with its version. */
  rebase(sent, theirs, text) {
    const { version } = theirs;
    return this.revise(sent, {
      base: theirs.text, version, text, state: WAITS, theirs: null, fault: null,
    });
  }

  /** Somebody else changed the card: both are put together, or somebody has to decide. */
  settle(sent, theirs) {
    return this.revise(sent, settled(sent, theirs));
  }

  /** Somebody has to decide about a card that was changed and is to be removed. */
  ask(sent, theirs) {
    return this.revise(sent, { state: ASKS, theirs, fault: null });
  }

  /** The server refuses the change. A new card that it refuses is in no book, so it isn't moved. */
  refuse(sent, fault) {
    if (sent.from && !sent.version) return this.revise(sent, { from: null });
    const { from, status, cause, has, fault: word } = fault;
    return this.revise(sent, { state: REFUSED, fault: { from, status, fault: word, cause, has } });
  }

  /** Tries refused entries again: all of them, or that of one card. */
  again(book, uid) {
    return this.change(async (entries) => {
      for (const entry of await done(entries.at("queue").getAll())) {
        const isIt = uid === undefined || (entry.book === book && entry.uid === uid);
        if (isIt && entry.state === REFUSED) entries.put({ ...entry, state: WAITS, fault: null });
      }
    });
  }

  /**
   * Gives a change up, after a question, if it is still as it was then. Its text goes into the
   * trash. Answers whether it was.
   */
  drop(asked) {
    return this.change(async (entries) => {
      const now = await unchanged(entries, asked);
      if (!now) return false;
      if (now.kind === "save") {
        keepInTrash(entries.at("trash"), now.book, now.uid, now.text, "dropped");
      }
      entries.delete(now);
      return true;
    });
  }
}

/** The entry, if it has the change that it had in `sent`; null otherwise. */
async function unchanged(entries, sent) {
  const now = await entries.entry(sent.book, sent.uid);
  const isSame = now && now.kind === sent.kind && now.text === sent.text
    && (now.from ?? null) === (sent.from ?? null);
  return isSame ? now : null;
}

async function revise(entries, sent, change) {
  const now = await unchanged(entries, sent);
  if (now) entries.put({ ...now, ...change });
  return Boolean(now);
}

function dropCard(tx, book, uid) {
  tx.objectStore("cards").delete([book, uid]);
  logRows(tx, book, [], [uid]);
  return { rows: [], gone: [uid] };
}

/** Whether the card has to be stored before it is moved. */
export function isEdited(entry) {
  return !entry.version || !sameCard(entry.base, entry.text);
}
