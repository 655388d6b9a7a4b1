// The files of an import: each with what the server makes of it, and what somebody says of it.
import { Fault } from "./api.js";
import { columnsText, headOf, wordsFor } from "./columns.js";
import { convertFile, inUtf8, orderOf } from "./convert.js";
import { itemsOf } from "./incoming.js";

/** A date of a card that was kept as text, as it may be two. */
const DATE = /^(?:BDAY|ANNIVERSARY);[^:]*VALUE=text:(\d{1,2})[/-](\d{1,2})[/-](\d{4}|\d{2})\s*$/im;

/** Whether a fault says that the file is none that is converted; else it may be another time. */
function isOfFile(fault) {
  const words = ["not-converted", "body-too-large", "bad-query"];
  return fault instanceof Fault && words.some((it) => fault.is(it));
}

export class Source {
  constructor(file) {
    this.file = file;
    this.name = file.name;
    this.charset = "";
    this.dates = "";
    this.words = []; // what somebody said of the columns, "" where nothing
    this.names = []; // of the columns
    this.samples = [];
    this.known = []; // what the server says of the columns
    this.isGuessed = false; // the columns aren't known, and what is said of them is a guess
    this.turn = 0;
    this.clear();
  }

  clear() {
    this.fault = null;
    this.made = null;
    this.items = [];
    this.order = "none";
  }

  /** What is said of the file to the server. */
  get said() {
    return { columns: columnsText(this.words, this.names), dates: this.dates };
  }

  /** Whether somebody has to say what comes first in dates. */
  get asksDates() {
    return this.order === "ask";
  }

  /** Three numbers of a date that may be two. */
  get dateSample() {
    for (const { text } of this.items) {
      const found = DATE.exec(text);
      if (found && Math.max(found[1], found[2]) <= 12) return found.slice(1, 4);
    }
    return ["05", "04", "1980"];
  }

  /**
   * Reads the file, again if something is said otherwise. Answers whether this is the last of such
   * calls, and wasn't over before. Faults but those of the file are thrown.
   */
  async read(run) {
    this.turn += 1;
    const { turn } = this;
    const isOver = () => turn !== this.turn || run.isOver();
    const here = { ...run, isOver };
    let made = null;
    let fault = null;
    try {
      this.octets = await inUtf8(this.file, this.charset);
      made = await this.converted(here);
    } catch (refused) {
      if (!isOfFile(refused)) throw refused;
      fault = refused;
    }
    if (isOver()) return false;
    const items = made ? await itemsOf(this.name, made, run.pause) : [];
    if (isOver()) return false;
    this.clear();
    Object.assign(this, { made, fault, items });
    if (made) this.order = this.dates ? this.dates : orderOf(made.orders);
    await this.lookAtColumns();
    if (isOver()) return false;
    if (!fault?.columns || this.isGuessed) return true;
    // What the server guesses is tried at once, and shown.
    this.isGuessed = true;
    this.words = [...this.known];
    return this.read(run);
  }

  /** The file converted, twice if only a later piece of it shows the order of its dates. */
  async converted(run) {
    const { said } = this;
    const made = await convertFile(this.octets, said, run);
    const order = made && !said.dates ? orderOf(made.orders) : "none";
    const isLate = made?.orders.has("unknown") && (order === "day" || order === "month");
    return isLate ? convertFile(this.octets, { ...said, dates: order }, run) : made;
  }

  async lookAtColumns() {
    const text = this.fault ? this.fault.columns : this.made.columns;
    if (this.made ? this.made.kind !== "contacts" : this.names.length) return;
    const { names, samples } = await headOf(this.octets, this.made?.header ?? 0);
    // What the server names by number has its name in the file.
    if (!text && !this.words.length) return;
    Object.assign(this, { names, samples, known: wordsFor(names, text) });
    if (this.words.length !== names.length) this.words = names.map((_, at) => this.words[at] ?? "");
  }
}

/** Whether the server said something of columns at all. */
export function hasColumns(source) {
  return source.names.length > 0;
}
