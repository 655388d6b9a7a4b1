// What cards were: the trash of this browser, the versions that the office keeps, and ways to a
// card that isn't in its book any more.
import { nameOf } from "./person.js";
import { chooseBoth, namer } from "./questions.js";
import { t } from "./say.js";
import { BY_OTHERS } from "./trash.js";
import { readCard } from "./vcard.js";
import { trashView } from "./views/trash.js";
import { versionsView } from "./views/versions.js";

function nameIn(text) {
  return nameOf(readCard(text)) || t("nameless");
}

export class History {
  constructor(desk) {
    this.desk = desk;
  }

  /** Others deleted cards: where the office keeps what those were, their names lead to it. */
  async deletedByOthers(book, uids) {
    const { desk } = this;
    if (!desk.memory.books.has(book)) return;
    const rows = uids.map((uid) => desk.shelf.server.get(`${book}/${uid}`)).filter(Boolean);
    if (rows.length) await desk.trash.note(rows);
  }

  /** What is kept of what was deleted, overwritten or dropped; some of it put back. */
  async trash(title = t("trash"), isWanted = () => true) {
    const { desk } = this;
    const kept = (await desk.trash.all()).filter(isWanted)
      .filter((it) => it.why !== BY_OTHERS || !this.placesOf(it.uid).length);
    const answer = await trashView(title, kept, (it) => this.mayHaveVersions(it));
    if (!answer) return;
    const [it, what] = answer;
    if (what === "versions") {
      await this.versions(it.book, it.uid, it.name ?? nameIn(it.text));
      return;
    }
    const now = await desk.queue.seen(it.book, it.uid);
    await desk.queue.restore([[it.book, it.uid, it.text]]);
    if (now) await desk.trash.keep(it.book, it.uid, now.text, "changed");
    await desk.changed();
    desk.pane.lead(it.book, it.uid);
    desk.frame.toast(t("isBack", { name: nameIn(it.text) }));
  }

  /** What is kept here of one card. */
  trashOf(book, uid, name) {
    return this.trash(t("earlierTitle", { name }), (it) => it.book === book && it.uid === uid);
  }

  /** Whether the office may have versions of a card in the trash. One that is there has a menu. */
  mayHaveVersions({ book, uid, why }) {
    const isGone = [BY_OTHERS, "removed"].includes(why) && !this.desk.shelf.get(book, uid);
    return isGone && this.desk.memory.books.has(book);
  }

  /** The rows of cards with this UID, in any book. */
  placesOf(uid) {
    const { books, shelf } = this.desk;
    return books.map((it) => shelf.get(it.name, uid)).filter(Boolean);
  }

  /**
   * Ways to a card that isn't in its book, `[text, run]` each: to another book, or to what it was.
   */
  async ways(book, uid) {
    const { desk } = this;
    const places = this.placesOf(uid);
    if (places.length) {
      return places.map((row) => [t("openThere", { name: row.name, book: row.book }),
        () => desk.pane.open(row.book, uid)]);
    }
    // Before the first copy is there nobody knows what is missing.
    if (!desk.books.some((it) => it.name === book && it.synced)) return [];
    const kept = (await desk.trash.all())
      .filter((it) => it.book === book && it.uid === uid && it.text);
    const name = kept.length ? nameIn(kept[0].text) : "";
    const hasVersions = Boolean(await desk.memory.list(book, uid));
    return [
      kept.length && [t("earlier"), () => this.trashOf(book, uid, name)],
      hasVersions && [t("versions"), () => this.versions(book, uid, name)],
    ].filter(Boolean);
  }

  /** The versions of a card that the office keeps, also if it is gone; one of them put back. */
  async versions(book, uid, name) {
    const { desk } = this;
    const [versions, now] = await Promise.all([
      desk.actions.reply(desk.memory.list(book, uid)), desk.queue.seen(book, uid),
    ]);
    if (!versions) {
      desk.frame.toast(t("versionsAway"));
      return;
    }
    const text = await versionsView(name || await this.lastName(book, uid, versions), versions, {
      text: (it) => desk.memory.text(book, uid, it), now: now?.text ?? null,
      nameOf: namer(desk, book), mayChange: desk.mayChange(book),
    });
    if (!text) return;
    if (now) await this.putBack(book, uid, now, text);
    else await this.bringBack(book, uid, text);
  }

  /** The name that a card had in the newest version that can be read. */
  async lastName(book, uid, versions) {
    const last = versions.find((it) => !it.isRemoval);
    const text = last && await this.desk.memory.text(book, uid, last);
    return text ? nameIn(text) : t("nameless");
  }

  /** Saves a text in place of `now`, what the user saw: a change like that of a form. */
  async putBack(book, uid, now, text) {
    const { desk } = this;
    let [base, put] = [now.text, text];
    for (;;) {
      const { version } = now;
      const done = await desk.queue.save({ book, uid, base, version, text: put });
      if (done.clash === undefined) break;
      const chosen = await chooseBoth(desk, book, base, put, done.clash);
      if (chosen === null) return;
      [base, put] = [done.clash, chosen];
    }
    // What the server has is kept when it takes the change; this is what it doesn't have.
    if (now.entry) await desk.trash.keep(book, uid, now.text, "changed");
    await desk.changed();
    desk.pane.lead(book, uid);
    desk.frame.toast(t("isBack", { name: nameIn(put) }), {
      text: t("undo"), run: () => desk.actions.restore(book, uid, now.text),
    });
  }

  /** Stores a card again that is gone. */
  async bringBack(book, uid, text) {
    const { desk } = this;
    await desk.queue.restore([[book, uid, text]]);
    await desk.changed();
    desk.pane.lead(book, uid);
    desk.frame.toast(t("isBack", { name: nameIn(text) }), {
      text: t("undo"),
      run: async () => {
        await desk.queue.remove([[book, uid]]);
        desk.pane.dismiss();
        await desk.changed();
      },
    });
  }
}
