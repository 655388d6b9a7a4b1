// Several cards at once: delete, move, write to files, put into a group. Each has one undo.
import { editCard, fieldsOf, memberValue, newCard } from "./edit.js";
import { columnsOf, saveFile } from "./files.js";
import { olderCard } from "./older.js";
import { count, t } from "./say.js";
import { newUid, readCard, writeCard } from "./vcard.js";
import { ask, askChoice, askText } from "./views/dialogs.js";

const NEW = "\n"; // no UID has an end of a line

export class Bulk {
  constructor(desk) {
    this.desk = desk;
  }

  undo(run) {
    return { text: t("undo"), run };
  }

  /** The texts of rows, as this desk shows them. */
  async texts(rows) {
    const cards = await Promise.all(rows.map((it) => this.desk.queue.seen(it.book, it.uid)));
    return cards.filter(Boolean).map((it) => it.text);
  }

  async remove(rows) {
    const { desk } = this;
    const sure = await ask(count("removeSome", rows.length), [t("removeSomeText")], [
      [t("remove"), true, "danger"], [t("cancel"), null],
    ]);
    if (!sure) return;
    const kept = [];
    for (const it of rows) {
      const seen = await desk.queue.seen(it.book, it.uid);
      if (seen) kept.push({ ...it, text: seen.text });
    }
    await desk.queue.remove(kept.map((it) => [it.book, it.uid]));
    desk.clearMarks();
    desk.pane.clear();
    await desk.changed();
    desk.frame.toast(count("removedSome", kept.length), this.undo(async () => {
      await desk.queue.restore(kept.map((it) => [it.book, it.uid, it.text]));
      await desk.changed();
    }));
  }

  /** Moves cards. What the other book has already stays, and is said. */
  async move(rows) {
    const { desk } = this;
    const books = desk.books.filter((it) => it.rights !== "read").map((it) => it.name);
    const to = await ask(count("moveSome", rows.length), [t("moveSomeText")], [
      ...books.map((it) => [it, it]), [t("cancel"), null],
    ]);
    if (!to) return;
    desk.clearMarks();
    const wanted = rows.filter((it) => it.book !== to);
    const moved = await this.moveAll(wanted.map((it) => [it.book, it.uid, to]));
    const rest = wanted.length - moved.length;
    const said = count("movedSome", moved.length) + (rest ? ` ${count("movedNot", rest)}` : "");
    desk.frame.toast(said, moved.length ? this.undo(async () => {
      const back = await this.moveAll(moved.map(([book, uid]) => [to, uid, book]));
      desk.frame.toast(count("movedSome", back.length));
    }) : null);
  }

  /** Moves cards here, `[book, uid, to]` each. Answers those that were moved. */
  async moveAll(places) {
    const { desk } = this;
    const moved = await desk.queue.move(places);
    await desk.lists.moved(moved);
    await desk.changed();
    return moved;
  }

  async save(rows, form) {
    const texts = await this.texts(rows);
    const files = {
      vcf: ["contacts.vcf", "text/vcard", () => texts.join("")],
      vcf3: ["contacts.vcf", "text/vcard", () => texts.map(olderCard).join("")],
      csv: ["contacts.csv", "text/csv", () => columnsOf(texts)],
    };
    const [name, type, content] = files[form];
    saveFile(name, type, content());
    this.desk.frame.toast(t("exported", { file: name }));
  }

  /** Puts the cards into a group of their book. */
  async group(rows) {
    const { desk } = this;
    const [{ book }] = rows;
    const groups = desk.shelf.groups(book);
    if (rows.some((it) => it.book !== book)) {
      desk.frame.toast(t("groupOneBook"));
      return;
    }
    const uid = !groups.length ? NEW : await askChoice(
      count("groupSome", rows.length), t("groupLabel"),
      [...groups.map((it) => [it.name || t("nameless"), it.uid]), [t("newGroupOther"), NEW]],
    );
    if (uid === NEW) await this.newGroup(book, rows.map((it) => it.uid));
    else if (uid) await this.join(book, uid, rows);
  }

  /** Asks for a name, and makes a group of that name with these members. */
  async newGroup(book, uids) {
    const { desk } = this;
    const name = await askText(
      t("newGroup"), t("name"), "", (it) => (it ? "" : t("groupNeedsName")),
    );
    if (!name) return;
    const card = newCard("group", newUid());
    const fields = fieldsOf(card);
    const members = uids.map(memberValue);
    const [{ value: uid }] = card.lines;
    const text = writeCard(editCard(card, fields, { ...fields, fn: name, members }));
    await desk.queue.save({ book, uid, base: writeCard(card), version: 0, text });
    desk.clearMarks();
    await desk.changed();
    desk.frame.toast(t("grouped", { name }), this.undo(async () => {
      await desk.queue.remove([[book, uid]]);
      await desk.changed();
    }));
  }

  async join(book, uid, rows) {
    const { desk } = this;
    const seen = await desk.queue.seen(book, uid);
    const card = readCard(seen.text);
    const fields = fieldsOf(card);
    const others = rows.filter((it) => it.uid !== uid).map((it) => memberValue(it.uid));
    const members = [...new Set([...fields.members, ...others])];
    const text = writeCard(editCard(card, fields, { ...fields, members }));
    const edit = { book, uid, base: seen.text, version: seen.version, text };
    await desk.queue.save(edit);
    desk.clearMarks();
    await desk.changed();
    desk.frame.toast(t("grouped", { name: fields.fn }), this.undo(async () => {
      await desk.queue.save({ ...edit, base: text, text: seen.text });
      await desk.changed();
    }));
  }

  /** What can be done with the rows, for a menu. */
  choices(rows) {
    const mayChange = rows.every((it) => this.desk.mayChange(it.book));
    return [
      mayChange && [t("addToGroup"), () => this.group(rows)],
      mayChange && this.desk.books.length > 1 && [t("move"), () => this.move(rows)],
      [t("saveVcf"), () => this.save(rows, "vcf")],
      [t("saveVcf3"), () => this.save(rows, "vcf3")],
      [t("saveCsv"), () => this.save(rows, "csv")],
      mayChange && [t("remove"), () => this.remove(rows), "danger"],
    ];
  }
}
