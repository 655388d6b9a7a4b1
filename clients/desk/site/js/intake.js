// Files that come in: from the preview to what came of the import. What is imported is kept in the
// browser until it is done (importing.js).
import { newKey } from "./api.js";
import { saveFile } from "./files.js";
import { clashOf, cutRows, ENDED, goOn, newImport, numbersOf, STOPPED } from "./importing.js";
import { SKIP } from "./incoming.js";
import { faultText, rowFaultText, t } from "./say.js";
import { done, ended, ofBook, STRICT } from "./tables.js";
import { keepInTrash } from "./trash.js";
import { MORE, runDialog, summaryText } from "./views/importrun.js";
import { previewDialog } from "./views/preview.js";

const JOURNAL = "import";
const REPORT = "import-report";
const LOCK = "desk import";
const BATCH = 500;

const partKey = (at) => `import-part-${at}`;
const allParts = () => IDBKeyRange.bound(partKey(""), partKey("\uffff"));
const pause = (ms) => new Promise((resolve) => { setTimeout(resolve, ms); });

/** Runs `work` unless another tab has an import; answers false then. */
function alone(work) {
  if (!navigator.locks) return work();
  return navigator.locks.request(LOCK, { ifAvailable: true }, (lock) => (lock ? work() : false));
}

export class Intake {
  constructor(desk) {
    this.desk = desk;
    this.dropped = null; // what takes files that are dropped while a preview is open
    this.isStopped = false;
  }

  /** What was last imported in this browser, or null. */
  async last() {
    return (await this.desk.store.setting(JOURNAL)) ?? null;
  }

  /**
   * Files for a book, from the preview on. Answers `{older}`, the files, if the server doesn't
   * convert, and null when all is done or left.
   */
  async open(book, files = null) {
    const last = await this.last();
    if (last && last.state !== ENDED) {
      const said = await this.show(last);
      if (last.state !== ENDED || (said !== MORE && !files)) return null;
    }
    const answer = await previewDialog(book, this.forPreview(), files, (take) => {
      this.dropped = take;
    });
    if (!answer?.rows) return answer;
    const journal = await this.begin(book, answer);
    if (!journal) {
      this.desk.frame.toast(t("importElsewhere"));
      return null;
    }
    return (await this.show(journal, true)) === MORE ? this.open(book) : null;
  }

  /** What a preview needs of the server and the copy. */
  forPreview() {
    const { desk } = this;
    return {
      convert: (query, body) => desk.api.convert(query, body),
      cards: (book) => this.cards(book),
      known: (uid) => this.uids.has(uid),
      pause,
    };
  }

  /** The cards of a book, as the server has them and this desk changed them. */
  async cards(book) {
    const { desk } = this;
    await desk.follower.bring(book);
    const all = new Map();
    for (let key = [book]; ;) {
      const range = IDBKeyRange.bound(key, ofBook(book).upper, true);
      const table = desk.store.db.transaction("cards").objectStore("cards");
      const some = await done(table.getAll(range, BATCH));
      for (const { uid, text, version } of some) all.set(uid, { uid, text, version });
      if (some.length < BATCH) break;
      key = [book, some[some.length - 1].uid];
    }
    for (const it of desk.entries) {
      const { uid, text, version } = it;
      if (it.from === book || (it.book === book && it.kind === "remove")) all.delete(uid);
      else if (it.book === book) all.set(uid, { uid, text, version });
    }
    this.uids = new Set(all.keys());
    return [...all.values()];
  }

  /** Keeps an import in the browser before any of it is sent; null if another is unfinished. */
  async begin(book, { rows, items, sources }) {
    const parts = cutRows(rows);
    const report = sources.flatMap((it) => (it.made?.report ?? []).map((line) =>
      t("lostLine", { file: it.name, line: line.line, text: line.text })));
    const lost = sources.reduce((all, it) => all + (it.made?.notCarried ?? 0), 0);
    const journal = newImport(newKey(), book, parts, {
      files: sources.map((it) => it.name), lost, left: 0,
      skipped: items.filter((it) => it.what === SKIP).length,
    });
    const tx = this.desk.store.db.transaction("settings", "readwrite", STRICT);
    const end = ended(tx);
    const table = tx.objectStore("settings");
    const other = await done(table.get(JOURNAL));
    const isFree = !other || other.state === ENDED;
    if (isFree) {
      table.delete(allParts());
      parts.forEach((it, at) => table.put(it, partKey(at)));
      table.put(report, REPORT);
      table.put(journal, JOURNAL);
    }
    await end;
    return isFree ? journal : null;
  }

  /** Shows an import, which goes on if `isGoing`. Answers `MORE` or null. */
  async show(journal, isGoing = false) {
    let going = null;
    const answer = await runDialog(journal, {
      go: (tell) => {
        going = this.go(journal, tell);
        return going;
      },
      stop: () => { this.isStopped = true; },
      leave: () => this.leave(journal),
      save: () => this.save(journal),
    }, isGoing);
    await going;
    if (journal.state !== ENDED) this.say(journal);
    return answer;
  }

  say(journal) {
    this.desk.frame.toast(t("importUnfinished", { book: journal.book }), {
      text: t("importShow"), run: () => this.show(journal),
    });
  }

  async go(journal, tell) {
    this.isStopped = false;
    const isFree = await alone(async () => {
      // Another tab may have gone on with it.
      const kept = await this.last();
      if (kept?.key === journal.key) Object.assign(journal, kept);
      if (journal.state !== ENDED) await this.send(journal, tell);
      return true;
    });
    if (!isFree) Object.assign(journal, { state: STOPPED, why: t("importElsewhere") });
    this.desk.follow(journal.book);
  }

  /** Sends what is left. If the browser can't keep how far it is, as on a full disk, it stops. */
  async send(journal, tell) {
    try {
      await goOn(journal, this.forRun(journal, tell));
      if (journal.state === ENDED) await this.dropParts();
    } catch (fault) {
      if (!(fault instanceof DOMException)) throw fault;
      const why = t("importKeepFailed", { why: fault.message });
      Object.assign(journal, { state: STOPPED, why });
    }
  }

  /** What an import needs of the server and the copy. */
  forRun(journal, tell) {
    const { desk } = this;
    const { book } = journal;
    return {
      pause, tell,
      send: (key, body) => desk.api.importRows(book, key, body),
      rows: (at) => desk.store.setting(partKey(at)),
      keepRows: (at, rows) => desk.store.keepSetting(partKey(at), rows),
      keep: (it) => desk.store.keepSetting(JOURNAL, it),
      look: (rows) => this.look(book, rows),
      before: (it, at, rows) => this.before(it, rows),
      isOver: () => this.isStopped,
      words: (fault, row) => {
        if (fault.isForbidden) desk.setRights(book, "read");
        return row ? rowFaultText(fault) : faultText(fault);
      },
    };
  }

  /** The rows that others made impossible since the preview, `[row, why]` each. */
  async look(book, rows) {
    const { desk } = this;
    await desk.follower.bring(book);
    const waiting = new Set(desk.entries.filter((it) => it.book === book || it.from === book)
      .map((it) => it.uid));
    const out = [];
    for (const row of rows) {
      const clash = clashOf(row, await desk.store.card(book, row.uid), waiting.has(row.uid));
      if (clash) out.push([row, t(clash)]);
    }
    return out;
  }

  /** A part is about to be sent: what it replaces goes into the trash. */
  async before(journal, rows) {
    const { db } = this.desk.store;
    const tx = db.transaction(["settings", "cards", "trash"], "readwrite", STRICT);
    const end = ended(tx);
    for (const { uid, version } of rows) {
      if (!version) continue;
      const card = await done(tx.objectStore("cards").get([journal.book, uid]));
      if (card) keepInTrash(tx.objectStore("trash"), journal.book, uid, card.text, "changed");
    }
    tx.objectStore("settings").put(journal, JOURNAL);
    await end;
  }

  /** The rest isn't imported: that is said as long as the import is remembered. */
  async leave(journal) {
    const { left } = numbersOf(journal);
    Object.assign(journal, { state: ENDED, ended: Date.now(), left, why: "" });
    await this.desk.store.keepSetting(JOURNAL, journal);
    await this.dropParts();
  }

  /** The cards of an import that is over aren't needed any more. */
  dropParts() {
    const tx = this.desk.store.db.transaction("settings", "readwrite");
    tx.objectStore("settings").delete(allParts());
    return ended(tx);
  }

  async save(journal) {
    const report = (await this.desk.store.setting(REPORT)) ?? [];
    const day = new Date(journal.begun).toISOString().slice(0, 10);
    saveFile(`import-${journal.book}-${day}.txt`, "text/plain", summaryText(journal, report));
  }

  /** At the start: an import that isn't finished is said. */
  async remind() {
    const last = await this.last();
    if (!last || last.state === ENDED) return;
    // One of another tab isn't over.
    if (!(await alone(() => true))) return;
    this.say(last);
  }
}
