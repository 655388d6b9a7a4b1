// The list of cards. Only the rows in sight are elements, so that 10,000 cards scroll like ten.
import { bdi, el } from "../dom.js";
import { keyOf } from "../shelf.js";
import { count, t, usesText } from "../say.js";
import { plainText } from "../values.js";

const AROUND = 6;

/** What a number is for, if it isn't for what most are. */
function labelText(label) {
  return label?.uses?.join() === "work" ? "" : usesText(label);
}

export class CardList {
  /**
   * `pick(row, isFinal)` is called when a row is chosen; it is final by a click or Enter.
   * `faces` has the photos, `marked(rows)` is called when several are marked, and `drew()` when
   * other rows are elements.
   */
  constructor(root, { faces, pick, marked, drew }) {
    this.root = root;
    this.pick = pick;
    this.faces = faces;
    this.tellMarked = marked;
    this.drew = drew;
    this.rows = [];
    this.at = -1;
    this.anchor = -1;
    this.marks = new Set();
    this.withBooks = false;
    this.heads = new Map(); // the letters of the rows with which they begin
    this.space = el("div", { class: "space", role: "presentation" });
    this.root.replaceChildren(this.space);
    this.drawn = "";
    // Where it is and how high: to ask the browser for them at each key would cost a layout.
    this.y = 0;
    this.view = 0;
    this.root.addEventListener("scroll", () => {
      this.y = this.root.scrollTop;
      this.draw();
    }, { passive: true });
    this.root.addEventListener("click", (event) => this.clicked(event));
    new ResizeObserver(() => this.measure()).observe(this.root);
  }

  /**
   * Shows other rows. The first is selected, or the card of the key `keep` if it is among them.
   * `heads` has letters, with the places of the rows where they begin.
   */
  show(rows, { withBooks, keep = null, isFirst = false, heads = [] }) {
    const kept = keep === null ? -1 : rows.findIndex((row) => keyOf(row) === keep);
    const at = isFirst ? 0 : kept;
    const isSame = rows === this.rows && at === this.at && withBooks === this.withBooks;
    this.rows = rows;
    this.withBooks = withBooks;
    this.at = at;
    if (isSame && this.drawn) return;
    this.drawn = "";
    this.heads = new Map(heads.map(([letter, place]) => [place, letter]));
    this.root.classList.toggle("lettered", heads.length > 0);
    if (this.height) this.stretch();
    else this.measure();
    // What is done with several cards is done with those that are in the list.
    if (this.marks.size) this.tellMarked(this.marked);
  }

  measure() {
    // The letters are beside the bar that scrolls, not over it.
    const bar = this.root.offsetWidth - this.root.clientWidth;
    this.root.parentElement.style.setProperty("--bar", `${bar}px`);
    const height = Number.parseFloat(getComputedStyle(this.root).getPropertyValue("--row")) *
      Number.parseFloat(getComputedStyle(document.documentElement).fontSize);
    if (height !== this.height) this.drawn = "";
    this.height = height;
    this.view = this.root.clientHeight;
    this.y = this.root.scrollTop;
    this.stretch();
  }

  stretch() {
    const height = this.rows.length * this.height;
    this.space.style.height = `${height}px`;
    this.y = Math.min(this.y, Math.max(0, height - this.view));
    this.draw();
  }

  get selected() {
    return this.rows[this.at] ?? null;
  }

  draw() {
    const top = Math.floor(this.y / this.height);
    const first = Math.max(0, top - AROUND);
    const last = Math.min(
      this.rows.length, top + Math.ceil(this.view / this.height) + AROUND,
    );
    const drawn = `${first} ${last} ${this.at}`;
    if (drawn === this.drawn) return;
    // Rows that are drawn already stay, as while the list grows: a press of one would be lost.
    const isKept = this.drawn.endsWith(` ${this.at}`);
    this.drawn = drawn;
    const kept = new Map();
    for (const it of [...this.space.children]) {
      const at = Number(it.id.slice(4));
      if (isKept && at >= first && at < last) kept.set(at, it);
      else it.remove();
    }
    let before = null;
    for (let at = last - 1; at >= first; at -= 1) {
      const option = kept.get(at) ?? this.option(at);
      if (!kept.has(at)) this.space.insertBefore(option, before);
      before = option;
    }
    this.drew();
  }

  again() {
    this.drawn = "";
    this.draw();
  }

  option(at) {
    const row = this.rows[at];
    const under = [row.title, row.org].filter(Boolean).join(" · ") || (row.mail ?? "");
    const isGroup = row.kind === "group";
    const side = isGroup ? count("membersCount", row.members?.length ?? 0) : (row.phone ?? "");
    const isMarked = this.marks.has(keyOf(row));
    const option = el(
      "div",
      {
        class: `row${isGroup ? " group" : ""}${isMarked ? " marked" : ""}`,
        id: `row-${at}`,
        role: "option",
        "aria-selected": at === this.at || isMarked ? "true" : "false",
        "aria-posinset": at + 1,
        "aria-setsize": this.rows.length,
      },
      this.heads.has(at)
        ? el("span", { class: "head-letter", "aria-hidden": "true" }, this.heads.get(at)) : null,
      this.faces.of(row),
      el("div", { class: "who" }, bdi(row.name || t("nameless"), "name"), bdi(under, "under")),
      el(
        "div",
        { class: "side" },
        bdi(plainText(side), isGroup ? "members" : "number"),
        row.mark ? el("span", { class: `mark ${row.mark}` }, t(`mark_${row.mark}`))
          : el("span", { class: "under" }, this.withBooks ? row.book : labelText(row.label)),
      ),
    );
    option.style.top = `${at * this.height}px`;
    return option;
  }

  clicked(event) {
    const option = event.target.closest("[role=option]");
    if (!option) return;
    const at = Number(option.id.slice(4));
    if (event.shiftKey) this.markTo(at);
    else if (event.ctrlKey || event.metaKey || this.isMarking) this.turn(at);
    else this.select(at, true);
  }

  // Several at once

  /** Marks all from the last one on, or from the card that is shown. */
  markTo(at) {
    const from = this.anchor >= 0 ? this.anchor : Math.max(0, this.at);
    const [first, last] = from < at ? [from, at] : [at, from];
    this.marks = new Set(this.rows.slice(first, last + 1).map(keyOf));
    this.told();
  }

  /** Marks a row, or takes its mark away. */
  turn(at) {
    const key = keyOf(this.rows[at]);
    if (!this.marks.size && this.at >= 0 && this.at !== at && !this.isMarking) {
      this.marks.add(keyOf(this.rows[this.at]));
    }
    if (!this.marks.delete(key)) this.marks.add(key);
    this.anchor = at;
    this.told();
  }

  markAll() {
    this.marks = new Set(this.rows.map(keyOf));
    this.told();
  }

  /** Turns marking on, so that each press of a row marks it; or off, without marks. */
  marking(isOn) {
    this.isMarking = isOn;
    this.anchor = -1;
    if (!isOn) this.marks = new Set();
    this.root.setAttribute("aria-multiselectable", String(isOn));
    this.told();
  }

  /** The marked rows that are in the list. */
  get marked() {
    return this.rows.filter((row) => this.marks.has(keyOf(row)));
  }

  told() {
    this.again();
    this.tellMarked(this.marked);
  }

  /** Selects a row and brings it into sight. */
  select(at, isFinal = false) {
    if (at < 0 || at >= this.rows.length) return;
    this.at = at;
    this.anchor = at;
    const top = at * this.height;
    const y = Math.max(Math.min(this.y, top), top + this.height - this.view);
    if (y !== this.y) this.moveTo(y);
    this.draw();
    this.pick(this.rows[at], isFinal);
  }

  /** The first row in sight. */
  get first() {
    return Math.ceil(this.y / this.height);
  }

  moveTo(y) {
    this.root.scrollTop = y;
    this.y = y;
  }

  /** Brings a row to the top. */
  scrollTo(at) {
    this.root.scrollTop = at * this.height;
  }

  top() {
    this.moveTo(0);
  }

  /** Moves the selection for a key, and says whether the key was one for the list. */
  key(event) {
    if (event.isComposing || event.altKey) return false;
    if (event.ctrlKey || event.metaKey || event.shiftKey) return this.markKey(event);
    const page = Math.max(1, Math.floor(this.view / this.height) - 1);
    const steps = { ArrowDown: 1, ArrowUp: -1, PageDown: page, PageUp: -page };
    // In the search these two go through what is typed.
    if (event.currentTarget === this.root) Object.assign(steps, { Home: -1e9, End: 1e9 });
    if (event.key === "Enter") {
      if (this.at < 0 && this.rows.length) this.select(0, true);
      else this.select(this.at, true);
      return true;
    }
    if (!(event.key in steps) || !this.rows.length) return false;
    const isEnd = Math.abs(steps[event.key]) > 1e8;
    const wanted = this.at < 0 && !isEnd ? 0 : this.at + steps[event.key];
    this.select(Math.min(this.rows.length - 1, Math.max(0, wanted)));
    return true;
  }

  /** Shift and an arrow mark on; Ctrl+A in the list marks all. */
  markKey(event) {
    const step = { ArrowDown: 1, ArrowUp: -1 }[event.key];
    if (event.shiftKey && step && this.rows.length) {
      const anchor = this.anchor >= 0 ? this.anchor : Math.max(0, this.at);
      const next = Math.min(this.rows.length - 1, Math.max(0, Math.max(0, this.at) + step));
      this.select(next);
      this.anchor = anchor;
      this.markTo(next);
      return true;
    }
    const isAll = event.key.toLowerCase() === "a" && event.currentTarget === this.root;
    if (!isAll || event.shiftKey) return false;
    this.markAll();
    return true;
  }

  /** The id of the selected option, for aria-activedescendant. */
  get activeId() {
    return this.at < 0 ? "" : `row-${this.at}`;
  }
}
