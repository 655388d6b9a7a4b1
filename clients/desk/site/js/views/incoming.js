// The cards that are to be imported: each with a box to tick, and what is said of it. A page has a
// few of them, so that 10,000 are as quick as ten.
import { bdi, button, el, fill, newId } from "../dom.js";
import { ADD, marked, OTHER, REPLACE, SKIP } from "../incoming.js";
import { number, t } from "../say.js";

const PAGE = 50;
const EACH = "each";
const SHOWN = {
  all: () => true,
  like: (it) => it.like,
  notes: (it) => it.notes.length > 0,
  off: (it) => it.what === SKIP,
};

const nameOf = (item) => item.name || t("nameless");

function choice(value, options, label, change) {
  const box = el("select", { "aria-label": label, on: { change: () => change(box.value) } },
    options.map((it) => el("option", { value: it, selected: it === value }, t(`do_${it}`))));
  return box;
}

function whyText(item) {
  const { like } = item;
  if (like.isSame) return t("mark_same");
  const why = t(`mark_${like.why}`);
  const words = t(like.in === "book" ? "markOfBook" : "markOfFile", {
    why: why[0].toUpperCase() + why.slice(1), name: like.name || t("nameless"),
  });
  return words;
}

/** What can be done with those of one kind of mark, all at once. */
export class MarksView {
  constructor(changed) {
    this.changed = changed;
    this.node = el("div", {});
    this.choices = [];
  }

  update(items) {
    const groups = marked(items);
    this.choices = [];
    fill(this.node, groups.length > 0 && el("section", { class: "marks" },
      el("h3", {}, t("marksTitle")),
      el("p", { class: "hint" }, t("marksText"), " ", t("replaceHint")),
      el("ul", {}, groups.map((it) => this.group(...it)))));
    this.refresh();
  }

  group(why, items) {
    const text = t(`mark_${why}`);
    const set = (what) => {
      if (what === EACH) return;
      for (const it of items) it.what = what;
      this.changed();
    };
    const box = why === "same" ? null
      : choice(EACH, [EACH, SKIP, OTHER, REPLACE], t("markAll", { why: text }), set);
    if (box) this.choices.push([box, items]);
    return el("li", {}, el("span", {}, text[0].toUpperCase() + text.slice(1),
      el("strong", { class: "many" }, ` ${number(items.length)}`)),
    box ?? el("span", { class: "hint" }, t("do_skip")));
  }

  /** Shows what is chosen by now. */
  refresh() {
    for (const [box, items] of this.choices) {
      const [{ what }] = items;
      const isOne = items.every((it) => it.what === what);
      box.value = isOne ? what : EACH;
      box.firstChild.hidden = isOne;
    }
  }
}

export class IncomingView {
  constructor(changed) {
    Object.assign(this, { changed, items: [], shown: "all", first: 0 });
    this.list = el("ul", { class: "incoming" });
    this.range = el("p", { class: "hint", role: "status" });
    this.before = button(t("cardsBefore"), () => this.turn(-PAGE), { class: "quiet" });
    this.after = button(t("cardsAfter"), () => this.turn(PAGE), { class: "quiet" });
    const id = newId("shown");
    const box = el("select", { id, on: { change: () => this.show(box.value) } },
      Object.keys(SHOWN).map((it) => el("option", { value: it }, t(`show_${it}`))));
    this.node = el("section", { class: "incoming-cards" }, el("h3", {}, t("cardsTitle")),
      el("div", { class: "field" }, el("label", { for: id }, t("cardsShown")), box),
      this.list,
      el("div", { class: "pages" }, this.before, this.range, this.after));
  }

  show(shown) {
    Object.assign(this, { shown, first: 0 });
    this.draw();
  }

  turn(by) {
    if ((by < 0 ? this.before : this.after).getAttribute("aria-disabled") === "true") return;
    this.first += by;
    this.draw();
    this.list.scrollIntoView({ block: "nearest" });
  }

  update(items) {
    this.items = items;
    this.draw();
  }

  draw() {
    const rows = this.items.filter(SHOWN[this.shown]);
    this.first = Math.max(0, Math.min(this.first, Math.floor((rows.length - 1) / PAGE) * PAGE));
    const last = Math.min(rows.length, this.first + PAGE);
    fill(this.list, rows.slice(this.first, last).map((it) => this.row(it)));
    const isLong = rows.length > PAGE;
    for (const it of [this.before, this.after]) it.hidden = !isLong;
    this.range.hidden = !isLong && this.shown === "all";
    // A button that is disabled would lose the focus.
    this.before.setAttribute("aria-disabled", String(this.first === 0));
    this.after.setAttribute("aria-disabled", String(last === rows.length));
    const from = number(rows.length ? this.first + 1 : 0);
    this.range.textContent = t("cardsRange", { from, to: number(last), all: number(rows.length) });
  }

  row(item) {
    const id = newId("card");
    const box = el("input", { type: "checkbox", id, checked: item.what !== SKIP, on: {
      change: () => this.set(item, box.checked ? (item.like ? OTHER : ADD) : SKIP, box, select),
    } });
    const select = item.like && !item.like.isSame
      ? choice(item.what, [SKIP, OTHER, REPLACE], t("doFor", { name: nameOf(item) }),
        (what) => this.set(item, what, box, select))
      : null;
    return el("li", { class: item.like ? "like" : null },
      el("label", { for: id, class: "tick" }, box,
        el("span", { class: "who" }, el("strong", {}, bdi(nameOf(item))),
          item.under && el("span", { class: "hint" }, bdi(item.under)))),
      item.like && el("div", { class: "mark-line" }, el("span", {}, bdi(whyText(item))), select),
      item.notes.length > 0 && el("ul", { class: "notes" }, item.notes.slice(0, 20).map((it) =>
        el("li", { class: "hint" }, bdi(it.text)))),
      el("small", { class: "place" },
        t("cardPlace", { file: item.file, line: number(item.line) })));
  }

  set(item, what, box, select) {
    item.what = what;
    box.checked = what !== SKIP;
    if (select) select.value = what;
    this.changed();
  }
}
