// What is around the cards: the search, the books, how the copy is, and short messages.
import { bdi, button, el, fill } from "./dom.js";
import { icon } from "./icons.js";
import { count, faultText, number, t, timeText } from "./say.js";
import { openMenu } from "./views/menu.js";

// Where the books and groups have a column of their own.
const WIDE = "(min-width: 72rem)";
// Where the list and the card take turns.
const NARROW = "(max-width: 47.99rem)";

const by = (id) => document.getElementById(id);

export class Frame {
  constructor() {
    this.search = by("search");
    this.pane = by("pane");
    this.listRoot = by("list");
    this.states = new Map();
    this.progress = null;
    this.saying = 0;
    this.showing = 0;
    this.emptyDrawn = "";
  }

  /** Puts the texts of the page in place. */
  label(run) {
    document.title = t("title");
    by("title").textContent = t("title");
    by("skip").textContent = t("skip");
    by("bar").setAttribute("aria-label", t("progress"));
    by("search-label").textContent = t("searchLabel");
    this.search.placeholder = t("searchHint");
    fill(by("search-icon"), icon("search"));
    by("books").setAttribute("aria-label", t("books"));
    by("cards").setAttribute("aria-label", t("listLabel"));
    this.listRoot.setAttribute("aria-label", t("listLabel"));
    by("letters").setAttribute("aria-label", t("letters"));
    const add = by("new");
    fill(add, icon("add"), el("span", {}, t("newCard")));
    const places = by("places");
    fill(places, icon("books"));
    places.setAttribute("aria-label", t("showBooks"));
    places.addEventListener("click", () => this.showNav(document.body.dataset.nav !== "open"));
    // A press beside the books and groups closes them, and does nothing else.
    addEventListener("click", (event) => {
      const isBeside = !event.target.closest("#books, #places, #toast, dialog");
      if (document.body.dataset.nav !== "open" || !isBeside) return;
      event.preventDefault();
      event.stopPropagation();
      this.showNav(false);
    }, true);
    matchMedia(WIDE).addEventListener("change", (event) => {
      if (event.matches) this.showNav(false);
    });
    matchMedia(NARROW).addEventListener("change", run.turned);
    add.title = t("newCardKey");
    add.addEventListener("click", run.newCard);
    by("waiting").addEventListener("click", run.waiting);
    fill(by("state"), el("span"), button(t("update"), run.update, { class: "quiet" }));
    by("skip").addEventListener("click", (event) => {
      event.preventDefault();
      this.search.focus();
    });
  }

  /** The pane that a narrow page shows: "list" or "card". */
  showPane(name) {
    document.body.dataset.pane = name;
  }

  /** Opens or closes the books and groups on a narrow page, where they cover the list. */
  showNav(isOpen) {
    document.body.dataset.nav = isOpen ? "open" : "";
    for (const it of ["cards", "pane"]) by(it).inert = isOpen;
    by("places").setAttribute("aria-expanded", String(isOpen));
    if (isOpen) by("books").querySelector("button")?.focus();
  }

  get isNarrow() {
    return matchMedia(NARROW).matches;
  }

  /** Brings the focus to the search, but not on a phone, and not out of an open menu. */
  goToSearch() {
    if (!this.isNarrow && !openMenu()) this.search.focus();
  }

  /** The button for a new card is there if there is a book for one. */
  showNew(isThere) {
    by("new").hidden = !isThere;
  }

  /** Says in the list how many changes wait, and how many forms aren't finished. */
  showWaiting(entries, drafts) {
    const sure = entries.filter((it) => it.state === "waits").length;
    const parts = [
      sure ? count("waitsCount", sure) : "",
      entries.length > sure ? count("needsCount", entries.length - sure) : "",
      drafts.length ? count("draftsCount", drafts.length) : "",
    ].filter(Boolean);
    const node = by("waiting");
    node.hidden = !parts.length;
    node.classList.toggle("needs", entries.length > sure);
    if (node.textContent !== parts.join(" · ")) node.textContent = parts.join(" · ");
  }

  /** What the list is of, and how many cards are in it. */
  showCount(title, rows, isSearch) {
    if (by("list-title").textContent !== title) fill(by("list-title"), bdi(title));
    by("count").textContent = isSearch ? count("resultsCount", rows) : count("cardsCount", rows);
    if (isSearch) this.sayLater(count("resultsCount", rows));
  }

  /**
   * In place of an empty list: a drawing, `words`, and `ways` to go on, `[text, run, kind]` each.
   * If `words` is null, the list has cards. `hint` is said below the words.
   */
  showEmpty(sign, words, ways, hint = "") {
    const empty = by("empty");
    empty.hidden = words === null;
    const texts = ways.map((it) => it[0]);
    const drawn = JSON.stringify([words, hint, by("list-title").textContent, texts]);
    if (words === null || drawn === this.emptyDrawn) return;
    this.emptyDrawn = drawn;
    const buttons = ways.map(([text, run, kind]) => button(text, run, { class: kind ?? null }));
    fill(empty, icon(sign), el("p", {}, words), hint && el("p", { class: "hint" }, hint),
      buttons.length > 0 && el("div", { class: "bar" }, buttons));
  }

  /** How a book is followed. `books` are the records of the copy. */
  setState(name, state, fault) {
    // While it tries again, what was wrong is still the case.
    const before = this.states.get(name)?.state;
    if (state === "busy" && (before === "waiting" || before === "refused")) return;
    this.states.set(name, { state, fault });
    if (state !== "busy" && this.progress?.book === name) this.setProgress(null);
  }

  setProgress(progress) {
    this.progress = progress;
    by("progress").hidden = !progress;
    if (progress) by("bar").value = Math.min(1, progress.done / Math.max(1, progress.total));
  }

  showState(books, entries) {
    const [text, kind] = this.stateOf(books, entries);
    by("state").className = `state ${kind}`;
    const words = by("state").firstElementChild;
    // It is read out when it changes, so it is left alone when it doesn't.
    if (words.textContent !== text) words.textContent = text;
  }

  stateOf(books, entries) {
    const states = [...this.states.entries()];
    const oldest = Math.min(...books.map((it) => it.synced));
    const time = timeText(Number.isFinite(oldest) ? oldest : 0);
    const [broken] = states.filter(([, it]) => it.fault && !it.fault.from);
    if (broken) return [t("stateBroken", { why: broken[1].fault.message }), "bad"];
    const [refused] = states.filter(([, it]) => it.state === "refused");
    if (refused) {
      const why = faultText(refused[1].fault);
      return [refused[0] ? t("stateRefused", { book: refused[0], why }) : why, "bad"];
    }
    if (states.some(([, it]) => it.state === "waiting")) {
      if (books.every((it) => !it.synced)) return [t("stateNoCopy"), "off"];
      const passing = states.find(([, it]) => it.state === "waiting")[1].fault;
      const isOff = !navigator.onLine || passing.from === "none";
      return [t(isOff ? "stateOffline" : "stateDown", { time }), "off"];
    }
    if (this.progress) {
      const { book, done, total } = this.progress;
      // The text is read out when it changes, so it changes ten times; the bar is beside it.
      const tenth = Math.ceil(total / 10);
      const about = Math.min(total, Math.floor(done / tenth) * tenth);
      return [t("stateFirst", { book, done: number(about), total: number(total) }), "busy"];
    }
    if (!books.length) return [t("noBooks"), ""];
    if (books.some((it) => !it.synced)) return [t("stateBusy"), "busy"];
    return [t("stateOk", { time }), "ok"];
  }

  /** Says something to a screen reader. */
  say(text) {
    by("said").textContent = text;
  }

  sayLater(text) {
    clearTimeout(this.saying);
    this.saying = setTimeout(() => this.say(text), 700);
  }

  /** Ends a message that needs no answer, so that it covers no field of a form. */
  quiet() {
    if (!by("toast").querySelector(".note.asks")) fill(by("toast"));
  }

  /** Shows a short message, with a button if there is something to do about it. */
  toast(text, action = null) {
    const node = by("toast");
    clearTimeout(this.showing);
    const hide = () => fill(node);
    // It stays while somebody is at it.
    const end = () => {
      if (node.matches(":hover, :focus-within")) this.showing = setTimeout(end, 2000);
      else hide();
    };
    fill(node, el("div", { class: action ? "note asks" : "note" }, el("span", {}, text),
      action && button(action.text, () => {
        hide();
        action.run();
      }),
      button(icon("close"), hide, { class: "quiet round", "aria-label": t("close") })));
    this.showing = setTimeout(end, action ? 15000 : 6000);
  }

  welcome() {
    fill(this.pane, el("div", { class: "welcome" },
      icon("people"), el("p", {}, t("welcome")),
      el("dl", { class: "keys" }, t("keys").map(([key, what]) =>
        el("div", {}, el("dt", {}, el("kbd", {}, key)), el("dd", {}, what))))));
  }
}
