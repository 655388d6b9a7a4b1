// What a user changes, in one transaction of the tables: so that changes that belong together are
// made all or not at all, wherever the browser is stopped.
//
// An entry of the queue says what this desk has of a card that the server hasn't. It stands at the
// book in which the card is seen. `from` is the book in which the server still has it, if it is to
// be moved, and null otherwise; `base` and `version` are of the server's card, wherever that is.
import { editCard, fieldsOf, memberValue } from "./edit.js";
import { merge3 } from "./merge.js";
import { done, ofCard } from "./tables.js";
import { keepInTrash } from "./trash.js";
import { readCard, sameCard, writeCard } from "./vcard.js";

/** The states of an entry. */
export const WAITS = "waits";
export const ASKS = "asks"; // somebody else changed the card too, and somebody has to decide
export const REFUSED = "refused";

const FRESH = { state: WAITS, theirs: null, fault: null };

export class Entries {
  constructor(tx) {
    this.tx = tx;
    this.next = 0;
  }

  at(name) {
    return this.tx.objectStore(name);
  }

  entry(book, uid) {
    return done(this.at("queue").get([book, uid]));
  }

  /** The entry of a card that leaves this book. */
  leaving(book, uid) {
    return done(this.at("queue").index("from").get([book, uid]));
  }

  /** The entry about the card that the server has in this book. */
  async about(book, uid) {
    const entry = await this.entry(book, uid);
    return entry && !entry.from ? entry : this.leaving(book, uid);
  }

  card(book, uid) {
    return done(this.at("cards").get([book, uid]));
  }

  put(entry) {
    this.at("queue").put({ from: null, ...entry });
  }

  delete({ book, uid }) {
    this.at("queue").delete([book, uid]);
  }

  async order() {
    if (!this.next) {
      const all = await done(this.at("queue").getAll());
      this.next = 1 + Math.max(0, ...all.map((it) => it.order));
    }
    this.next += 1;
    return this.next - 1;
  }

  /**
   * The card as this desk shows it: `{text, base, version, entry}`, or null. `base` is the text
   * that the server has, as far as is known here, and `version` its version; 0 for a new card.
   */
  async seen(book, uid) {
    const entry = await this.entry(book, uid);
    if (entry) return entry.kind === "remove" ? null : { ...entry, entry };
    const card = await this.card(book, uid);
    if (!card || (await this.leaving(book, uid))) return null;
    return { text: card.text, base: card.text, version: card.version, entry: null };
  }

  /**
   * Saves what a form has: `{book, uid, base, version, text}`, with the text that the form began
   * with. Answers `{book}`, where the card is now; or `{clash}`, the text that the card has here by
   * now, if that and the form's are two answers to one question. Nothing is changed then.
   */
  async save(edit) {
    const { book, uid } = edit;
    const entry = (await this.entry(book, uid)) ?? (await this.leaving(book, uid));
    const card = await this.card(book, uid);
    let { text } = edit;
    let [base, version] = [edit.base, edit.version];
    if (entry?.kind === "save") {
      // Another change of this card waits: this one is based on it, or they are put together.
      if (!sameCard(entry.text, edit.base) && !sameCard(entry.text, text)) {
        const both = merge3(edit.base, text, entry.text);
        if (both.clashes.length) return { clash: entry.text };
        text = both.text();
      }
    } else if (card && card.version !== version) {
      // The copy has somebody's newer edit. Where they clash, the server's refusal asks.
      const both = merge3(base, text, card.text);
      if (!both.clashes.length) [text, base, version] = [both.text(), card.text, card.version];
    }
    if (entry) ({ base, version } = entry);
    const place = entry?.book ?? book;
    this.put({
      book: place, uid, order: entry?.order ?? (await this.order()), kind: "save", base, version,
      text, ...FRESH, at: Date.now(), from: entry?.from ?? null,
    });
    return { book: place };
  }

  /** Removes a card here. It is kept in the trash. */
  async remove(book, uid) {
    const entry = await this.entry(book, uid);
    const card = await this.card(book, uid);
    const text = entry?.kind === "save" ? entry.text : card?.text;
    if (text === undefined || entry?.kind === "remove") return;
    if (!entry && (await this.leaving(book, uid))) return;
    keepInTrash(this.at("trash"), book, uid, text, "removed");
    if (entry?.from) this.delete(entry);
    this.put({
      book: entry?.from ?? book, uid, order: entry?.order ?? (await this.order()), kind: "remove",
      base: text, version: entry?.version ?? card.version, text: "", ...FRESH, at: Date.now(),
    });
  }

  /** Puts a text back: of a card that was removed, or an older one of a card that is there. */
  async restore(book, uid, text) {
    const here = await this.entry(book, uid);
    const entry = here ?? (await this.leaving(book, uid));
    const card = await this.card(book, uid);
    const is = entry ?? (card ? { base: card.text, version: card.version } : null);
    if (entry && !here) this.delete(entry); // it comes back into this book
    this.put({
      book, uid, order: entry?.order ?? (await this.order()), kind: "save", base: is?.base ?? "",
      version: is?.version ?? 0, text, ...FRESH, at: Date.now(), from: here?.from ?? null,
    });
  }

  /** Moves a card here. Answers whether it could: not if the other book has one of its UID. */
  async move(book, uid, to) {
    const seen = await this.seen(book, uid);
    if (!seen || book === to) return false;
    const { entry, base, version, text } = seen;
    const isBack = entry?.from === to;
    if (!isBack && (await this.has(to, uid))) return false;
    if (entry) this.delete(entry);
    await this.moveDrafts(book, uid, to);
    // Back, and as the server has it: nothing has to be sent.
    if (isBack && version && sameCard(text, base)) return true;
    // A new card that was refused is nowhere; one that waits may have been stored all the same.
    const isNowhere = entry?.state === REFUSED && !version;
    this.put({
      book: to, uid, order: entry?.order ?? (await this.order()), kind: "save", base, version, text,
      ...FRESH, at: Date.now(), from: isBack || isNowhere ? null : entry?.from ?? book,
    });
    return true;
  }

  /** Whether a card of this UID is in the book, here or on the server. */
  async has(book, uid) {
    if (await this.entry(book, uid)) return true;
    return Boolean(await this.card(book, uid)) && !(await this.leaving(book, uid));
  }

  /** What was typed into forms of the card goes with it. */
  async moveDrafts(book, uid, to) {
    const drafts = this.at("drafts");
    const taken = new Set((await done(drafts.getAll(ofCard(to, uid)))).map((it) => it.slot));
    for (const draft of await done(drafts.getAll(ofCard(book, uid)))) {
      let { slot } = draft;
      while (taken.has(slot)) slot += 1;
      taken.add(slot);
      drafts.delete([book, uid, draft.slot]);
      drafts.put({ ...draft, book: to, slot });
    }
  }

  /** Puts a card into a group of its book, or takes it out. */
  async setMember(book, group, uid, isIn) {
    const seen = await this.seen(book, group);
    if (!seen) return;
    const card = readCard(seen.text);
    const fields = fieldsOf(card);
    const others = fields.members.filter((it) => it !== uid && it !== memberValue(uid));
    const members = isIn ? [...others, memberValue(uid)] : others;
    const text = writeCard(editCard(card, fields, { ...fields, members }));
    await this.save({ book, uid: group, base: seen.text, version: seen.version, text });
  }
}
