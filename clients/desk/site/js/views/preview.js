// Before anything is stored: what is in the files, what is in the book already, what isn't carried.
import { button, el, fill, newId } from "../dom.js";
import { Fault } from "../api.js";
import { listOf } from "../files.js";
import { countLines, isLost, isOfContent, markItems, planOf, sizeOf } from "../incoming.js";
import { count, faultText, number, t } from "../say.js";
import { Source } from "../sources.js";
import { dialog } from "./dialogs.js";
import { IncomingView, MarksView } from "./incoming.js";
import { linesView } from "./lines.js";
import { SourceView } from "./sources.js";

const MOST = 10_000; // cards of a book

/** What isn't carried. */
function lostView(lines) {
  if (!lines.length) return null;
  return el("section", { class: "lost" },
    el("h3", {}, `${t("lostTitle")} (${number(lines.length)})`), linesView(lines));
}

/** What is written in another way: by kind, and card by card what isn't as it was. */
function changesView(kinds, lines) {
  if (!kinds.length) return null;
  const counted = kinds.map(([kind, n]) => [kind, t("timesText", { n: number(n) })]);
  return el("details", {}, el("summary", {}, t("changesTitle")),
    el("p", { class: "hint" }, t("changesText")), linesView(counted),
    lines.length > 0 && [el("h4", {}, t("changesCards")), linesView(lines)]);
}

function reportView(sources) {
  const all = sources.flatMap(({ name, made }) => (made?.report ?? []).map((it) => ({
    text: it.text, isLost: isLost(it),
    said: t("lostLine", { file: name, line: number(it.line), text: it.text }),
  })));
  const kept = all.filter((it) => !it.isLost);
  return [
    lostView(all.filter((it) => it.isLost).map((it) => it.said)),
    changesView(countLines(kept), kept.filter((it) => isOfContent(it.text)).map((it) => it.said)),
  ];
}

class Preview {
  constructor(book, run, close) {
    Object.assign(this, { book, run, close, sources: [], views: [], items: [] });
    Object.assign(this, { pending: 0, failed: null, over: false });
    this.total = el("p", { class: "card-total" });
    this.said = el("p", { class: "said", role: "status" });
    this.bar = el("progress", { max: 1, value: 0, "aria-label": t("importing"), hidden: true });
    this.files = el("div", { class: "sources" });
    this.report = el("div", { class: "report" });
    this.marks = new MarksView(() => {
      this.cards.draw();
      this.counted();
    });
    this.cards = new IncomingView(() => {
      this.marks.refresh();
      this.counted();
    });
    this.cards.node.hidden = true;
    this.chooser = this.choose();
    this.go = button(t("importNow"), () => this.done(), { class: "main", disabled: true });
    this.again = button(t("tryAgain"), () => this.read(this.failed.sources), { hidden: true });
    this.node = [
      this.chooser, el("div", { class: "import" }, this.total, this.said, this.bar),
      this.files, this.marks.node, this.report, this.cards.node,
      el("div", { class: "bar" }, this.go, this.again,
        button(t("cancel"), () => close(null), {})),
    ];
  }

  /** How files are chosen: by the device's own dialog, or dropped. */
  choose() {
    const id = newId("file");
    const input = el("input", { type: "file", multiple: true, id, on: {
      change: () => input.files.length && this.take([...input.files]),
    } });
    this.input = input;
    return el("div", { class: "choose" }, el("p", {}, t("importText")),
      el("p", { class: "hint" }, t("importKinds")),
      el("label", { for: id, class: "file" }, el("span", {}, t("importFile")), input));
  }

  /** Files were chosen or dropped: they come in place of those before. */
  async take(files) {
    for (const it of this.sources) it.turn += 1;
    this.input.files = listOf(files);
    this.sources = files.map((it) => new Source(it));
    const act = { again: (source) => this.read([source]) };
    this.views = this.sources.map((it) => new SourceView(it, act));
    fill(this.files);
    this.items = [];
    this.marks.update([]);
    fill(this.report);
    this.cards.node.hidden = true;
    await this.read(this.sources);
  }

  /** Reads files, again if something is said otherwise. The last of several shows what is there. */
  async read(sources) {
    this.pending += 1;
    this.failed = null;
    this.again.hidden = true;
    this.go.disabled = true;
    this.bar.hidden = false;
    try {
      for (const it of sources) if (!(await this.readOne(it))) break;
    } catch (fault) {
      if (!(fault instanceof Fault)) throw fault;
      if (fault.isMissing) this.close({ older: this.sources.map((it) => it.file) });
      this.failed = { fault, sources };
    } finally {
      this.pending -= 1;
    }
    if (this.pending || this.over) return;
    this.bar.hidden = true;
    if (this.failed) this.couldNot(this.failed.fault);
    else await this.show();
  }

  couldNot(fault) {
    this.again.hidden = false;
    const words = fault.from === "none" ? t("importAway") : faultText(fault);
    fill(this.said, el("span", { class: "error" }, words));
  }

  async show() {
    await this.mark();
    if (!this.pending && !this.over) this.update();
  }

  readOne(source) {
    fill(this.said, t("importReading", { file: source.name }));
    return source.read({
      ...this.run, isOver: () => this.over,
      tell: (done, total) => { this.bar.value = done / Math.max(1, total); },
    });
  }

  /** Looks for cards that are in the book already. What somebody chose stays where it fits. */
  async mark() {
    const key = (it) => `${it.file}\n${it.number}\n${it.like?.why}\n${it.like?.name}`;
    const chosen = new Map(this.items.map((it) => [key(it), it.what]));
    const items = this.sources.flatMap((it) => it.items);
    this.kept = await this.run.cards(this.book);
    await markItems(items, this.kept, this.run.pause);
    for (const it of items) it.what = chosen.get(key(it)) ?? it.what;
    this.items = items;
  }

  update() {
    this.views.forEach((it) => it.update());
    if (!this.files.firstChild) fill(this.files, this.views.map((it) => it.node));
    this.chooser.classList.add("small");
    fill(this.report, reportView(this.sources));
    this.cards.node.hidden = !this.items.length;
    this.marks.update(this.items);
    this.cards.update(this.items);
    this.counted();
  }

  get free() {
    return Math.max(0, MOST - this.kept.length);
  }

  /** Says how many cards are imported as things stand, and whether that can be. */
  counted() {
    const [rows, added] = sizeOf(this.items, this.run.known);
    const skipped = this.items.length - rows;
    const lost = this.sources.reduce((all, it) => all + (it.made?.notCarried ?? 0), 0);
    fill(this.total, count("importReady", rows));
    const words = [
      skipped ? count("importSkipped", skipped) : "", lost ? count("importLost", lost) : "",
    ].filter(Boolean).join(" · ");
    const isFull = added > this.free;
    const asks = this.sources.some((it) => it.asksDates);
    fill(this.said, words, asks && el("span", { class: "asks" }, t("datesNeeded")),
      isFull && el("span", { class: "error" }, t("tooMany", {
        book: this.book, has: number(this.kept.length), free: number(this.free),
      })));
    this.go.textContent = count("importButton", rows);
    this.go.disabled = !rows || isFull || asks;
  }

  done() {
    const { items, sources } = this;
    this.close({ rows: planOf(items, this.run.known), items, sources });
  }
}

/**
 * Asks what of files is imported. Answers `{rows, items, sources}`, `{older}` with the files if the
 * server doesn't convert, or null. `run` has what is needed of the server and the copy;
 * `opened(take)` gets what to call if files are dropped.
 */
export function previewDialog(book, run, files, opened) {
  let preview = null;
  const answer = dialog(t("importTitle", { book }), (close) => {
    preview = new Preview(book, run, close);
    return preview.node;
  }, "wide intake");
  opened((dropped) => preview.take(dropped));
  if (files?.length) preview.take([...files]);
  return answer.finally(() => {
    preview.over = true;
    opened(null);
  });
}
