// What was typed into forms that weren't saved yet. A draft belongs to the card's own UID, which a
// new card gets when its form opens. A second form of the same card, as in another tab, has a slot
// of its own, so that neither overwrites what was typed into the other.
import { done, ended, STRICT } from "./tables.js";

export class Drafts {
  constructor(db) {
    this.db = db;
  }

  reading() {
    return this.db.transaction("drafts").objectStore("drafts");
  }

  all() {
    return done(this.reading().getAll());
  }

  get(book, uid, slot) {
    return done(this.reading().get([book, uid, slot]));
  }

  /** `draft` has `book`, `uid`, `slot`, `base`, `version`, `text` and `isNew`. */
  keep(draft) {
    const tx = this.db.transaction("drafts", "readwrite", STRICT);
    tx.objectStore("drafts").put({ ...draft, at: Date.now() });
    return ended(tx);
  }

  /** Removes the draft if it has this very text; without one, whatever it has. */
  async drop({ book, uid, slot }, text) {
    const tx = this.db.transaction("drafts", "readwrite", STRICT);
    const end = ended(tx);
    const drafts = tx.objectStore("drafts");
    const kept = await done(drafts.get([book, uid, slot]));
    if (kept && (text === undefined || kept.text === text)) drafts.delete([book, uid, slot]);
    return end;
  }
}

/**
 * Takes the first slot for a card's form that no other form has, in this tab or another. Answers
 * `{slot, free}`. `free()` gives it back, and so does the end of the tab.
 */
export async function takeSlot(book, uid, slot = 0) {
  const name = `desk form ${slot} ${book}/${uid}`;
  const take = navigator.locks ? takeLock : takeHere;
  const free = await take(name);
  return free ? { slot, free } : takeSlot(book, uid, slot + 1);
}

/** Takes the lock until `free()` is called, which answers when it is free; null if it is taken. */
function takeLock(name) {
  return new Promise((resolve) => {
    const held = navigator.locks.request(name, { ifAvailable: true }, (lock) => {
      if (!lock) {
        resolve(null);
        return undefined;
      }
      return new Promise((free) => {
        resolve(() => {
          free();
          return held;
        });
      });
    });
  });
}

// Without locks (the page came without TLS) tabs don't know of each other's forms.
const taken = new Set();

function takeHere(name) {
  if (taken.has(name)) return null;
  taken.add(name);
  return async () => { taken.delete(name); };
}
