// Letters beside the list, to come to a name with one press, a move of a finger, or by keyboard: to
// a screen reader they are a slider.
import { el } from "../dom.js";
import { familyFirst, fold } from "../search.js";

const STEPS = {
  ArrowDown: 1, ArrowRight: 1, ArrowUp: -1, ArrowLeft: -1, PageDown: 5, PageUp: -5, Home: -100,
  End: 100,
};

const LEAST = 13; // pixels that a letter needs
const DOT = "·";

function letterOf(text) {
  const first = fold(text.slice(0, 4)).charAt(0).toUpperCase();
  return /\p{L}/u.test(first) ? first : "#";
}

export class Letters {
  /**
   * `run` has `top()`, the place of the first row in sight, `jump(at)`, which brings a row to the
   * top, and `open(at)`.
   */
  constructor(root, run) {
    this.root = root;
    this.run = run;
    this.places = [];
    this.spans = []; // which of the places each element stands for
    this.drawn = "";
    this.now = 0;
    root.addEventListener("pointerdown", (event) => {
      root.setPointerCapture(event.pointerId);
      this.press(event);
    });
    root.addEventListener("pointermove", (event) => {
      if (event.buttons) this.press(event);
    });
    root.addEventListener("focus", () => this.mark(this.letterAt(this.run.top())));
    root.addEventListener("keydown", (event) => this.key(event));
    new ResizeObserver(() => this.draw()).observe(root);
  }

  /** Shows the letters of sorted rows; none if they aren't sorted by name, or are few. */
  show(rows, by) {
    if (rows === this.rows && by === this.by) return;
    Object.assign(this, { rows, by });
    // Each letter once, where it begins.
    const seen = new Map();
    let last = "";
    for (let at = 0; at < rows.length; at += 1) {
      const letter = letterOf(by === "family" ? familyFirst(rows[at]) : rows[at].name);
      if (letter !== last && !seen.has(letter)) seen.set(letter, at);
      last = letter;
    }
    this.places = seen.size > 2 && rows.length > 12 ? [...seen] : [];
    const drawn = this.places.map((it) => it[0]).join("");
    if (drawn === this.drawn) return;
    this.drawn = drawn;
    this.root.hidden = drawn === "";
    this.root.setAttribute("aria-valuemin", "1");
    this.root.setAttribute("aria-valuemax", String(this.places.length));
    this.now = 0;
    this.spans = [];
    this.draw();
  }

  /** Draws as many letters as have room. If there are more, dots stand for those between. */
  draw() {
    const all = this.places.length;
    const count = Math.min(all, Math.max(3, Math.floor(this.root.clientHeight / LEAST)));
    if (!all || count === this.spans.length) return;
    const last = count - 1;
    this.spans = Array.from({ length: count }, (_, at) => Math.round((at * (all - 1)) / last));
    this.root.replaceChildren(...this.spans.map((_, at) => el("span", {}, this.textOf(at))));
    this.mark(this.now);
  }

  /** What an element says of the letters that it stands for. */
  textOf(at) {
    const isLetter = this.spans.length === this.places.length || at % 2 === 0;
    return isLetter || at === this.spans.length - 1 ? this.places[this.spans[at]][0] : DOT;
  }

  /** The element that stands for a letter. */
  spanOf(now) {
    return this.spans.findLastIndex((it) => it <= now);
  }

  /** Which of the letters a row is under. */
  letterAt(row) {
    return Math.max(0, this.places.findLastIndex((it) => it[1] <= row));
  }

  mark(now) {
    const [before, after] = [this.now, now].map((it) => this.spanOf(it));
    this.now = now;
    for (const [at, isNow] of [[before, false], [after, true]]) {
      if (at < 0) continue;
      const span = this.root.children[at];
      span.classList.toggle("now", isNow);
      span.textContent = isNow ? this.places[now][0] : this.textOf(at);
    }
    this.root.setAttribute("aria-valuenow", String(now + 1));
    this.root.setAttribute("aria-valuetext", this.places[now]?.[0] ?? "");
  }

  turnTo(now) {
    if (!this.places[now]) return;
    this.mark(now);
    this.run.jump(this.places[now][1]);
  }

  press(event) {
    const box = this.root.firstElementChild.getBoundingClientRect();
    const end = this.root.lastElementChild.getBoundingClientRect().bottom;
    const part = (event.clientY - box.top) / (end - box.top);
    this.turnTo(Math.min(this.places.length - 1, Math.floor(part * this.places.length)));
  }

  key(event) {
    if (event.ctrlKey || event.metaKey || event.altKey) return;
    const at = this.placeOf(event);
    if (event.key in STEPS) {
      const to = this.now + STEPS[event.key];
      this.turnTo(Math.min(this.places.length - 1, Math.max(0, to)));
    } else if (event.key === "Enter" || event.key === " ") {
      this.run.open(this.places[this.now][1]);
    } else if (at !== null) {
      this.turnTo(this.letterAt(at));
    } else {
      return;
    }
    event.preventDefault();
  }

  /** The place of the first row of the letter of a key, or null. */
  placeOf(event) {
    if (event.key.length !== 1 || event.ctrlKey || event.metaKey || event.altKey) return null;
    return this.places.find((it) => it[0] === letterOf(event.key))?.[1] ?? null;
  }
}
