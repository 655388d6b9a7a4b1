// What a user does to a card or a book, but for the form: delete, move, share, groups, files.
import { Fault } from "./api.js";
import { BookFiles } from "./bookfiles.js";
import { columnsOf, saveFile } from "./files.js";
import { mailsOf } from "./groups.js";
import { olderCard } from "./older.js";
import { nameOf } from "./person.js";
import { decide, giveUp } from "./questions.js";
import { count, faultText, t } from "./say.js";
import { mailLink, mailsLink } from "./values.js";
import { readCard } from "./vcard.js";
import { peopleView } from "./views/card.js";
import { bookNameFault, showBook } from "./views/books.js";
import { ask, askText } from "./views/dialogs.js";
import { printSheet } from "./views/print.js";
import { askTicks, NEW } from "./views/ticks.js";
import { fill } from "./dom.js";

/** What went wrong, in words. A fault that isn't of a request is thrown on. */
function words(fault) {
  if (fault instanceof Fault) return faultText(fault);
  throw fault;
}

function nameIn(text) {
  return nameOf(readCard(text)) || t("nameless");
}

export class Actions {
  /** `desk` has the copy, the API, and what is on the screen. */
  constructor(desk) {
    this.desk = desk;
    this.files = new BookFiles(desk, this);
  }

  get api() {
    return this.desk.api;
  }

  /** Waits for a reply, and says so if it takes a while. */
  async reply(asked) {
    const timer = setTimeout(() => this.desk.frame.toast(t("waiting")), 800);
    try {
      return await asked;
    } finally {
      clearTimeout(timer);
    }
  }

  /** What can be done with a card that is shown. */
  ofCard(book, uid, seen, text, entry) {
    const { desk } = this;
    const stem = seen.name.replace(/[^\p{L}\p{N}]+/gu, "-").slice(0, 60) || "card";
    const file = `${stem}.vcf`;
    return {
      edit: () => desk.pane.goEdit(book, uid),
      move: () => this.move(book, uid),
      remove: () => this.remove(book, uid),
      download: () => saveFile(file, "text/vcard", text),
      download3: () => saveFile(file, "text/vcard", olderCard(text)),
      columns: () => saveFile(`${stem}.csv`, "text/csv", columnsOf([text])),
      isFavourite: () => desk.lists.isFavourite(book, uid),
      favourite: async () => {
        await desk.lists.turnFavourite(book, uid);
        desk.pane.again();
        desk.draw();
      },
      groups: () => this.groupsOf(book, uid, seen.name),
      earlier: () => desk.history.trashOf(book, uid, seen.name),
      hasVersions: () => desk.memory.has(book, uid),
      versions: () => desk.history.versions(book, uid, seen.name),
      mailAll: seen.kind === "group" ? () => this.mailAll(book, seen.members) : null,
      share: () => this.share(seen, file, text),
      print: () => this.print("card"),
      copy: (value) => this.copy(value),
      category: (name) => desk.turnTo({ kind: "category", book: desk.chosen && book, name }),
      open: (row) => desk.pane.open(row.book, row.uid),
      people: (node) => this.people(book, uid, node),
      decide: () => decide(desk, entry),
      again: async () => {
        await desk.queue.again(book, uid);
        await desk.changed();
      },
      drop: () => giveUp(desk, entry),
    };
  }

  /** Which groups of its book a card is in: boxes to tick. */
  async groupsOf(book, uid, name) {
    const { desk } = this;
    const groups = desk.shelf.groups(book).filter((it) => it.uid !== uid);
    const before = new Set(desk.shelf.groupsOf(book, uid).map((it) => it.uid));
    const wanted = groups.length && await askTicks(t("groupsOfTitle", { name }),
      groups.map((it) => [it.name || t("nameless"), it.uid, before.has(it.uid)]),
      t("newGroupOther"));
    if (wanted === null) return;
    if (!groups.length || wanted === NEW) {
      await desk.bulk.newGroup(book, [uid]);
      desk.pane.again();
      return;
    }
    const changed = groups.filter((it) => wanted.has(it.uid) !== before.has(it.uid));
    if (!changed.length) return;
    const set = (isIn) => desk.setMembers(book,
      changed.map((it) => [it.uid, uid, isIn.has(it.uid)]));
    await set(wanted);
    await desk.changed();
    desk.pane.again();
    desk.frame.toast(t("groupsSaved", { name }), {
      text: t("undo"),
      run: async () => {
        await set(before);
        await desk.changed();
        desk.pane.again();
      },
    });
  }

  /** A mail to all people of a group, with groups in groups, by the device's mail program. */
  mailAll(book, members) {
    const { toast } = this.desk.frame;
    const all = mailsOf(this.desk.shelf, book, members);
    const mails = all.mails.filter(mailLink);
    const without = all.without + all.mails.length - mails.length;
    const href = mailsLink(mails);
    const said = without ? ` ${count("withoutMail", without)}` : "";
    if (!mails.length) {
      toast.call(this.desk.frame, t("mailNobody"));
    } else if (!href) {
      this.copy(mails.join(", "), t("mailTooMany", { n: mails.length }) + said);
    } else {
      location.href = href;
      toast.call(this.desk.frame, count("mailOpened", mails.length) + said);
    }
  }

  /** Copies a value, and says so: in these words, if there are some. */
  async copy(value, said = t("copied", { text: value })) {
    try {
      await navigator.clipboard.writeText(value);
      this.desk.frame.toast(said);
    } catch {
      this.desk.frame.toast(t("copyBad"));
    }
  }

  /** Prints the card that is shown. */
  print(what) {
    document.body.dataset.print = what;
    window.print();
  }

  /** Prints the whole list, of which the page has only the rows in sight. */
  printList() {
    const sheet = printSheet(this.desk.found(), this.desk.withBooks);
    document.body.append(sheet);
    this.print("list");
    // Some browsers go on while the dialog is open.
    addEventListener("afterprint", () => sheet.remove(), { once: true });
  }

  /** Gives the card to another program, as the device does that; or as a file. */
  async share(seen, name, text) {
    const file = new File([text], name, { type: "text/vcard" });
    const data = { files: [file], title: seen.name };
    if (!navigator.canShare?.(data)) {
      saveFile(name, "text/vcard", text);
      this.desk.frame.toast(t("exported", { file: name }));
      return;
    }
    try {
      await navigator.share(data);
    } catch {
      // Somebody closed the device's own dialog.
    }
  }

  /** Deletes a card after a question. */
  async remove(book, uid) {
    const { desk } = this;
    const kept = await desk.queue.seen(book, uid);
    if (!kept) return;
    const name = nameIn(kept.text);
    const sure = await ask(t("removeTitle", { name }), [t("removeText", { book })], [
      [t("remove"), true, "danger"], [t("cancel"), null],
    ]);
    if (!sure) return;
    await desk.queue.remove([[book, uid]]);
    desk.pane.dismiss();
    await desk.changed();
    desk.frame.toast(t("removed", { name }), {
      text: t("undo"), run: () => this.restore(book, uid, kept.text),
    });
  }

  /** Puts a deleted card back. */
  async restore(book, uid, text) {
    await this.desk.queue.restore([[book, uid, text]]);
    await this.desk.changed();
    this.desk.pane.lead(book, uid);
  }

  /** Moves a card to a book that the user chooses. */
  async move(book, uid) {
    const { desk } = this;
    const kept = await desk.queue.seen(book, uid);
    const others = desk.books.map((it) => it.name)
      .filter((it) => it !== book && desk.mayChange(it));
    if (!kept) return;
    const name = nameIn(kept.text);
    if (!others.length) {
      desk.frame.toast(t("moveNowhere"));
      return;
    }
    const to = await ask(t("moveTitle", { name }), [t("moveText", { book })], [
      ...others.map((it) => [it, it]), [t("cancel"), null],
    ]);
    if (to) await this.moveNow(book, uid, to, name);
  }

  /** Moves a card here; the server follows when it answers. */
  async moveNow(book, uid, to, name, isUndone = false) {
    const { desk } = this;
    const moved = await desk.queue.move([[book, uid, to]]);
    if (!moved.length) {
      desk.frame.toast(t("moveTaken", { book: to }));
      return;
    }
    await desk.lists.moved(moved);
    const isListed = desk.pane.follow(book, uid, to);
    await desk.changed();
    if (isListed) desk.pane.lead(to, uid, true);
    desk.frame.toast(t("moved", { name, book: to }), isUndone ? null : {
      text: t("undo"), run: () => this.moveNow(to, uid, book, name, true),
    });
  }

  /** Asks the server who is in a group. */
  async people(book, uid, node) {
    let found;
    try {
      found = await this.reply(this.api.people(book, uid));
    } catch (fault) {
      this.desk.frame.toast(words(fault));
      return;
    }
    const people = found.people.map((it) => [it, this.desk.shelf.get(book, it) ?? null]);
    const act = { open: (row) => this.desk.pane.open(row.book, row.uid) };
    fill(node, peopleView(people, found.missing, act));
  }

  /** Shows a book with its numbers, and what can be done with it. */
  async book(name) {
    const { desk, files } = this;
    const book = await desk.store.book(name);
    const last = await desk.intake.last();
    return showBook(book, {
      cards: desk.shelf.count(name),
      tally: () => this.api.tally(name).catch((fault) => { throw words(fault); }),
      update: () => desk.follow(name),
      tryChanges: book.rights === "read" ? () => desk.setRights(name, "") : null,
      import: book.rights === "read" ? null : () => files.import(name),
      last: last?.book === name ? () => desk.intake.show(last) : null,
      exportCards: () => files.exportRows(name, "cards"),
      exportColumns: () => files.exportRows(name, "columns"),
      exportVcf: () => files.exportCopy(name),
      startAgain: async () => {
        await desk.store.startAgain(name);
        await desk.follow(name);
      },
      drop: () => desk.dropBook(name),
    });
  }

  /** A book by its name, which is made on the server if it isn't there and the user wants it. */
  async addBook(given) {
    const name = given ?? (await askText(
      t("addBookTitle"), t("addBookLabel"), t("addBookHint"), bookNameFault,
    ));
    if (!name) return null;
    try {
      await this.reply(this.api.tally(name));
    } catch (fault) {
      if (!(fault instanceof Fault) || !fault.is("no-such-book")) {
        this.desk.frame.toast(words(fault));
        return null;
      }
      return (await this.makeBook(name)) ? name : null;
    }
    return name;
  }

  async makeBook(name) {
    const sure = await ask(t("makeBookTitle", { book: name }), [t("makeBookText")], [
      [t("makeBook"), true, "main"], [t("cancel"), null],
    ]);
    if (!sure) return false;
    try {
      await this.api.makeBook(name);
    } catch (refused) {
      if (!(refused instanceof Fault) || !refused.is("book-exists")) {
        this.desk.frame.toast(words(refused));
        return false;
      }
    }
    return true;
  }
}
