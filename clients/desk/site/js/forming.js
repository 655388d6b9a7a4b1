// The life of a form: what is typed is kept within half a second, Save takes it at once and here,
// and Cancel can be undone. A form is of one card, and its draft has that card's UID.
import { button, el } from "./dom.js";
import { takeSlot } from "./drafts.js";
import { asKind, editCard, fieldsOf, newCard } from "./edit.js";
import { nameOf } from "./person.js";
import { chooseBoth } from "./questions.js";
import { t } from "./say.js";
import { readCard, writeCard } from "./vcard.js";
import { choicesView, formView } from "./views/form.js";

const PAUSE = 300;

export class Forming {
  /** The form of a card, or of a new one; null if there is no such card. */
  static async begin(desk, { book, uid, slot, kind, isNew = false }) {
    const place = await takeSlot(book, uid, Number(slot) || 0);
    const [draft, seen] = await Promise.all([
      desk.drafts.get(book, uid, place.slot), desk.queue.seen(book, uid),
    ]);
    if (!draft && !seen && !isNew) {
      place.free();
      return null;
    }
    const text = seen?.text ?? writeCard(newCard(kind, uid));
    const edit = {
      book, uid, slot: place.slot, kind: draft?.kind ?? kind,
      isNew: !seen && (draft ? draft.isNew : true),
      base: draft?.base ?? text, version: draft?.version ?? seen?.version ?? 0,
    };
    return new Forming(desk, edit, draft?.text ?? text, Boolean(draft), place.free);
  }

  constructor(desk, edit, start, isDraft, free) {
    this.desk = desk;
    this.edit = edit;
    this.free = free;
    this.isDraft = isDraft;
    this.isTyped = isDraft;
    this.card = readCard(start);
    this.before = fieldsOf(this.card);
    this.fields = fieldsOf(this.card);
    this.keeping = 0;
    // Most new cards get a number and an address of mail; empty rows make no lines.
    for (const rows of edit.isNew ? [this.fields.tels, this.fields.mails] : []) {
      if (!rows.length) rows.push({ line: null, use: "work", text: "" });
    }
    this.begun = JSON.stringify(this.fields);
  }

  get isUntouched() {
    return this.edit.isNew && !this.isTyped;
  }

  isOf({ book, uid, slot }) {
    return this.edit.book === book && this.edit.uid === uid && this.edit.slot === slot;
  }

  /**
   * Answers a question for later: whether the pane still has this form. It hasn't if another thing
   * is on its way, as a new card that was begun while this one was being saved.
   */
  staying() {
    const address = location.hash;
    return () => this.desk.pane.form === this && location.hash === address;
  }

  /** The card with what the form has now. */
  text() {
    return writeCard(editCard(this.card, this.before, this.fields));
  }

  draft() {
    const { book, uid, slot, kind, isNew, base, version } = this.edit;
    return { book, uid, slot, kind, isNew, base, version, text: this.text() };
  }

  typed() {
    this.isTyped = true;
    clearTimeout(this.keeping);
    this.keeping = setTimeout(() => this.flush(), PAUSE);
  }

  /** Keeps what is typed, if it isn't kept yet. */
  async flush() {
    if (!this.keeping) return;
    clearTimeout(this.keeping);
    this.keeping = 0;
    try {
      await this.desk.drafts.keep(this.draft());
    } catch (fault) {
      this.desk.frame.toast(t("saveFailed", { why: fault.message }));
    }
  }

  /** Another thing is shown in place of the form. */
  async left() {
    const isKept = this.isTyped && !this.isDone;
    await this.flush();
    await this.free();
    await this.desk.drawWaiting();
    this.desk.tabs.postMessage({ drafts: true });
    if (!isKept) return;
    const name = this.fields.fn.trim() || t("nameless");
    this.desk.frame.toast(t("leftForm", { name }), {
      text: t("goBack"), run: () => this.desk.pane.goDraft(this.edit),
    });
  }

  end() {
    clearTimeout(this.keeping);
    this.keeping = 0;
    this.isDone = true;
  }

  /** Saves what the form has now. If the browser can't keep it, the form stays and says so. */
  async save() {
    const sent = JSON.stringify(this.fields);
    if (this.saving === sent) return; // Save was pressed twice
    this.saving = sent;
    try {
      await this.saveNow(sent);
    } catch (fault) {
      this.desk.frame.toast(t("saveFailed", { why: fault.message }));
      fault.isTold = true;
      throw fault;
    } finally {
      this.saving = null;
    }
  }

  /** What is typed after this is another edit, and stays. */
  async saveNow(sent) {
    const { desk, edit } = this;
    if (!edit.isNew && !this.isDraft && sent === this.begun) {
      this.end();
      desk.frame.toast(t("nothingChanged"));
      desk.pane.open(edit.book, edit.uid, true);
      return;
    }
    // Browsers may drop what pages keep if the disk is full, unless they are asked not to.
    navigator.storage?.persist?.();
    const isHere = this.staying();
    const looked = desk.frame.search.value;
    const draft = this.draft();
    const kept = draft.text;
    let { text } = draft;
    await desk.drafts.keep(draft);
    let { base } = edit;
    let done;
    for (;;) {
      done = await desk.queue.save({ ...edit, base, text });
      if (done.clash === undefined) break;
      const chosen = await chooseBoth(desk, edit.book, base, text, done.clash);
      if (chosen === null) return;
      [base, text] = [done.clash, chosen];
    }
    const isOn = JSON.stringify(this.fields) !== sent;
    this.edit = { ...edit, base: kept, isNew: false };
    if (!isOn) this.end();
    // The draft goes only if it has the very text that was saved.
    await desk.drafts.drop(edit, kept);
    if (isOn) this.typed();
    await desk.changed();
    desk.frame.toast(t("saved", { name: nameOf(readCard(text)) || t("nameless") }));
    if (!isHere() || isOn) return;
    // Another tab may have moved the card meanwhile.
    if (desk.frame.search.value === looked) desk.pane.open(done.book, edit.uid, true);
    else desk.pane.turnToSearch();
  }

  /** Drops what was typed. It can be undone, and is in the trash too. */
  async cancel() {
    const { desk, edit } = this;
    const draft = this.draft();
    const { isTyped } = this;
    const isHere = this.staying();
    this.end();
    await desk.drafts.drop(edit);
    if (isTyped) {
      await desk.trash.keep(edit.book, edit.uid, draft.text, "cancelled");
      desk.frame.toast(t("cancelled"), { text: t("undo"), run: () => this.restore(draft) });
    }
    if (!isHere()) return;
    if (edit.isNew) desk.pane.leave();
    else desk.pane.open(edit.book, edit.uid, true);
  }

  async restore(draft) {
    await this.desk.drafts.keep(draft);
    this.desk.pane.goDraft(draft);
  }

  /** Opens the form of a new card anew, for another book or of another kind. */
  async change(book, kind, focus) {
    const { desk, edit } = this;
    const now = this.draft();
    const text = writeCard(asKind(readCard(now.text), kind));
    const base = writeCard(newCard(kind, edit.uid));
    this.end();
    await desk.drafts.drop(edit);
    if (this.isTyped) await desk.drafts.keep({ ...now, book, kind, text, base, slot: 0 });
    await this.free();
    desk.pane.form = null;
    Forming.focusNext = focus;
    desk.pane.go(`#/new/${book}/${kind}/${encodeURIComponent(edit.uid)}`, true);
  }

  /** Forgets the draft and begins with the card as it is. */
  async startOver() {
    const { desk, edit } = this;
    this.end();
    await desk.trash.keep(edit.book, edit.uid, this.text(), "cancelled");
    await desk.drafts.drop(edit);
    await this.free();
    desk.pane.form = null;
    await desk.pane.edit(edit);
  }

  view() {
    const { desk, edit, fields } = this;
    const [focus] = [Forming.focusNext];
    Forming.focusNext = null;
    this.first = focus;
    const title = edit.isNew
      ? t("newTitle")[fields.kind] ?? t("newCard")
      : t("editTitle", { name: this.before.fn });
    const books = desk.books.filter((it) => it.rights !== "read");
    return formView({
      title, fields, isNew: edit.isNew, act: this.acts(),
      notes: [
        edit.isNew
          ? choicesView(books, edit.book, fields.kind, (...all) => this.change(...all))
          : null,
        this.isDraft && !focus
          ? el("p", { class: "draft" }, t("draftBack"), " ",
            button(t("draftDrop"), () => this.startOver(), { class: "quiet" }))
          : null,
      ],
    });
  }

  acts() {
    const { desk, edit } = this;
    return {
      say: (text) => desk.frame.toast(text),
      rows: () => desk.shelf.find("", edit.book).filter((row) => row.uid !== edit.uid),
      members: (values) => desk.shelf.members(edit.book, values),
      typed: () => this.typed(),
      cancel: () => this.cancel(),
      save: () => this.save(),
    };
  }

  focus() {
    const { isNew } = this.edit;
    const first = isNew && this.fields.kind === "individual" ? ".two input" : "#field-fn";
    this.desk.frame.pane.querySelector(this.first ?? first)?.focus();
  }
}
