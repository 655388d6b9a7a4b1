// Files of a book: what is imported into it and exported from it.
import { Fault, newKey } from "./api.js";
import { el } from "./dom.js";
import { FileFault, readFile, saveFile } from "./files.js";
import { count, faultText, importFaultText, t } from "./say.js";
import { askFile } from "./views/books.js";
import { ask } from "./views/dialogs.js";

export class BookFiles {
  constructor(desk, actions) {
    this.desk = desk;
    this.actions = actions;
    this.isOld = false; // the server doesn't convert files
  }

  saved(file, type, text) {
    saveFile(file, type, text);
    this.desk.frame.toast(t("exported", { file }));
  }

  /** The server's own export. */
  async exportRows(name, form) {
    try {
      const suffix = form === "columns" ? "-columns" : "";
      const rows = await this.actions.reply(this.desk.api.exportRows(name, form));
      this.saved(`${name}${suffix}.csv`, "text/csv", rows);
    } catch (fault) {
      if (!(fault instanceof Fault)) throw fault;
      this.desk.frame.toast(faultText(fault));
    }
  }

  /** The cards of the copy, also without the network. */
  async exportCopy(name) {
    const cards = await this.desk.store.cards(name);
    this.saved(`${name}.vcf`, "text/vcard", cards.map((it) => it.text).join(""));
  }

  /** Files were dropped on the page: they go into the chosen book, or the user says which. */
  async dropped(files) {
    const { desk } = this;
    if (desk.intake.dropped) desk.intake.dropped([...files]);
    if (document.querySelector("dialog[open]")) return;
    const books = desk.books.filter((it) => it.rights !== "read").map((it) => it.name);
    const [one] = books.length === 1 ? books : [desk.chosen];
    const name = books.includes(one) && (books.length === 1 || !desk.filter)
      ? one
      : await ask(t("dropTitle"), [], [...books.map((it) => [it, it]), [t("cancel"), null]]);
    if (name) await this.import(name, files);
  }

  /** Files for a book: as the server converts them, or where it doesn't, as they are. */
  async import(name, files = null) {
    if (this.isOld) {
      await this.importAsIs(name, files);
      return;
    }
    const answer = await this.desk.intake.open(name, files);
    if (answer?.older === undefined) return;
    this.isOld = true;
    await this.importAsIs(name, answer.older);
  }

  importAsIs(name, files = null) {
    // The key is of the file: if no reply comes, the same import is sent again under the same key.
    let key = newKey();
    const read = (fileName, bytes) => {
      key = newKey();
      return this.read(name, fileName, bytes);
    };
    const send = async (file) => {
      try {
        const done = await this.desk.api.importRows(name, key, file.body);
        key = newKey();
        this.desk.follow(name);
        const parts = [
          count("importNew", done.new), count("importEdited", done.edited),
          count("importSame", done.same),
        ];
        return [el("p", { class: "good" }, parts.join(", ")), false];
      } catch (fault) {
        if (!(fault instanceof Fault)) throw fault;
        if (fault.isForbidden) await this.desk.setRights(name, "read");
        const text = fault.is("bad-import") ? importFaultText(fault, file) : faultText(fault);
        return [el("p", { class: "error" }, text), fault.isPassing];
      }
    };
    return askFile(name, { read, send }, files, t("importOld"));
  }

  /** A file that was chosen, and what is said of it. */
  read(name, fileName, bytes) {
    let file;
    try {
      file = readFile(fileName, bytes);
    } catch (fault) {
      if (!(fault instanceof FileFault)) throw fault;
      return { file: null, words: [el("p", { class: "error" }, t(fault.word, fault.values))] };
    }
    const known = file.uids.filter((uid) => uid && this.desk.shelf.get(name, uid)).length;
    const isLoss = known && file.form === "columns";
    const said = [
      el("p", {}, count("importReady", file.rows)),
      known ? el("p", {}, count("importKnown", known)) : null,
      isLoss ? el("p", { class: "error" }, t("importReplaces")) : null,
    ];
    return { file, words: said };
  }
}
