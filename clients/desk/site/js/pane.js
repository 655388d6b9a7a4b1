// What is beside the list: a card, a form, or neither. Each has an address, so that the browser's
// Back works.
import { button, el, fill } from "./dom.js";
import { Forming } from "./forming.js";
import { icon } from "./icons.js";
import { describe, rowOf } from "./person.js";
import { bookOf, listWith } from "./listing.js";
import { keyOf } from "./shelf.js";
import { t } from "./say.js";
import { newUid, readCard } from "./vcard.js";
import { cardView } from "./views/card.js";
import { bookQuestion } from "./views/books.js";
import { openMenu } from "./views/menu.js";

const part = encodeURIComponent;

/**
 * Answers a question for later: whether the user is still where they are now. What comes into the
 * pane takes the focus only then, and never out of an open menu, which would close.
 */
function staying() {
  const was = document.activeElement;
  return () => [was, document.body].includes(document.activeElement) && !openMenu();
}

export class Pane {
  constructor(desk) {
    this.desk = desk;
    this.node = desk.frame.pane;
    this.shown = null; // {kind: "card" or "form", book, uid}
    this.form = null;
    this.missing = ""; // the key of a card that was asked for and isn't here
    this.asked = {}; // what is on its way into the pane; a later one takes its place
    this.coming = null; // the same for a card, until it is there
    this.comingKey = null;
  }

  /** The key of the card that is shown or on its way, for the list. */
  get cardKey() {
    return this.comingKey ?? (this.shown ? keyOf(this.shown) : null);
  }

  /** Whether a draft is that of the form in the pane. */
  isAt(draft) {
    return Boolean(this.form) && this.form.isOf(draft);
  }

  go(address, isInstead = false) {
    if (location.hash === address) this.route();
    else if (isInstead) {
      history.replaceState(null, "", address);
      this.route();
    } else location.hash = address;
  }

  open(book, uid, isInstead = false) {
    this.go(`#/card/${book}/${part(uid)}`, isInstead);
  }

  /** Whether a form is shown, or on its way. */
  get hasForm() {
    return Boolean(this.form) || /^#\/(new|edit)\//.test(location.hash);
  }

  /** Shows a card of which something was done by now. Nobody is led away from a form. */
  lead(book, uid, isInstead = false) {
    if (!this.hasForm) this.open(book, uid, isInstead);
  }

  /**
   * A card goes to another book. If the list may have it there, it stays in the pane; if not, it
   * goes from there. Answers whether the list may.
   */
  follow(book, uid, to) {
    const isIt = this.shown?.kind === "card" && keyOf(this.shown) === `${book}/${uid}`;
    const mayList = ["", to].includes(bookOf(this.desk));
    if (mayList && isIt) this.shown = { ...this.shown, book: to };
    else if (!mayList) this.dismiss();
    return mayList;
  }

  goEdit(book, uid) {
    this.go(`#/edit/${book}/${part(uid)}`);
  }

  goDraft({ book, uid, slot, isNew, kind }) {
    if (isNew) this.go(`#/new/${book}/${kind ?? "individual"}/${part(uid)}/${slot}`);
    else this.go(`#/edit/${book}/${part(uid)}/${slot}`);
  }

  /** A form for a new card. Its UID is made now, so that no other form has the same. */
  newCard(kind = "individual") {
    if (this.form?.isUntouched && this.form.edit.kind === kind) {
      this.form.focus();
      return;
    }
    const { desk } = this;
    const wanted = desk.chosen || this.shown?.book;
    const book = desk.mayChange(wanted)
      ? wanted
      : desk.books.find((it) => it.rights !== "read")?.name;
    if (book) this.go(`#/new/${book}/${kind}/${part(newUid())}`);
    else desk.frame.toast(t(desk.books.length ? "readOnlyAll" : "noBooks"));
  }

  /** What was on its way into the pane doesn't come any more. */
  ask() {
    clearTimeout(this.desk.showing);
    this.asked = {};
    this.coming = null;
    this.comingKey = null;
    return this.asked;
  }

  /** Another card was chosen in the list: one that is on its way doesn't come. */
  willShow(key) {
    if (this.coming) this.ask();
    this.comingKey = key;
  }

  /** Another thing comes into the pane. What was typed into a form stays kept. */
  set(shown) {
    this.ask();
    const { form } = this;
    this.form = null;
    this.shown = shown;
    this.missing = "";
    form?.left();
  }

  /** Back to the list. */
  leave() {
    this.set(null);
    history.replaceState(null, "", "#/");
    this.blank();
    this.desk.frame.showPane("list");
    this.desk.draw();
    document.title = t("title");
    this.desk.frame.goToSearch();
  }

  /** The card that is shown goes from the list: back to that, once it is without the card. */
  dismiss() {
    if (this.hasForm) return;
    this.clear();
    this.desk.frame.showPane("list");
    this.desk.frame.goToSearch();
  }

  /** Takes the card out of the pane, and leaves the user where they are. */
  clear() {
    if (this.shown?.kind === "form") return;
    this.set(null);
    if (location.hash.length > 2) history.replaceState(null, "", "#/");
    this.blank();
    document.title = t("title");
  }

  /** The form is done, and somebody has begun to look for another card: that one is shown. */
  turnToSearch() {
    this.set(null);
    this.clear();
    this.desk.typed();
  }

  /** Nothing is shown: what the user may do is said in its place, if it isn't yet. */
  blank() {
    const { desk } = this;
    const isSearch = desk.frame.search.value.trim() !== "";
    let kind = isSearch || desk.shelf.count(desk.chosen) === 0 ? "empty" : "welcome";
    if (!desk.books.length && !desk.mayList) kind = "question";
    if (this.node.firstElementChild?.dataset.kind === kind) return;
    if (kind === "question") fill(this.node, bookQuestion((name) => desk.addBook(name)));
    else if (kind === "welcome") desk.frame.welcome();
    else fill(this.node, el("div"));
    this.node.firstElementChild.dataset.kind = kind;
  }

  async route() {
    const [, place = "", book = "", ...rest] = location.hash.split("/").map(decoded);
    if (place === "card") await this.show(book, rest[0] ?? "", true);
    else if (place === "edit") await this.edit({ book, uid: rest[0] ?? "", slot: rest[1] });
    else if (place === "new") await this.routeNew(book, rest);
    else {
      this.desk.frame.showPane("list");
      if (this.shown?.kind === "form") {
        this.set(null);
        this.blank();
      }
    }
  }

  async routeNew(book, [kind = "individual", uid, slot]) {
    if (!uid) this.go(`#/new/${book}/${kind}/${part(newUid())}`, true);
    else await this.edit({ book, uid, slot, kind, isNew: true });
  }

  /** Shows the card in the pane anew, unless something else is shown by then. */
  async again() {
    const { shown } = this;
    if (shown?.kind !== "card") return;
    const seen = await this.desk.queue.seen(shown.book, shown.uid);
    // Another card may have been chosen by now, or a form begun, which isn't there yet.
    if (this.shown !== shown || this.comingKey !== null || this.hasForm) return;
    // Not while something of it is pressed, or while its menu is open.
    if (this.desk.isHeld || openMenu(this.node)) {
      setTimeout(() => this.again(), 150);
      return;
    }
    const place = this.node.scrollTop;
    const focused = this.node.contains(document.activeElement) ? document.activeElement : null;
    if (seen) this.fillCard(shown.book, shown.uid, seen);
    else this.gone(shown.book, shown.uid);
    this.node.scrollTop = place;
    if (focused) this.focusLike(focused);
  }

  /** Brings the focus back to what was drawn in place of an element. */
  focusLike(old) {
    const nameOf = (it) => it.getAttribute("aria-label") ?? it.textContent;
    const like = [...this.node.querySelectorAll(old.localName)]
      .find((it) => nameOf(it) === nameOf(old) && it.tabIndex === old.tabIndex);
    (like ?? this.node.querySelector("#card-name"))?.focus();
  }

  /** The card isn't here. If it comes, it is shown. */
  gone(book, uid) {
    this.set(null);
    this.missing = `${book}/${uid}`;
    fill(this.node, this.back(), el("div", { class: "welcome" }, icon("people"),
      el("p", {}, t("goneCard")), el("div", { class: "bar" })));
    this.findWays();
  }

  /** Says where the card may be that isn't here. */
  async findWays() {
    const { missing } = this;
    const at = missing.indexOf("/");
    const ways = await this.desk.history.ways(missing.slice(0, at), missing.slice(at + 1));
    if (this.missing !== missing) return;
    fill(this.node.querySelector(".welcome .bar"), ways.map((it) => button(...it)));
  }

  /** Shows a card in the pane; `isFinal` if the user goes there. */
  async show(book, uid, isFinal = false) {
    const asked = this.ask();
    const isStaying = staying();
    this.coming = asked;
    this.comingKey = `${book}/${uid}`;
    const seen = await this.desk.queue.seen(book, uid);
    if (asked !== this.asked) return; // another card was asked for meanwhile
    const isThere = this.shown?.kind === "card" && keyOf(this.shown) === this.comingKey;
    const isStill = seen && isThere && openMenu(this.node);
    if (isStill) {
      this.ask();
      this.again(); // once its menu is closed
    } else if (seen) {
      this.set({ kind: "card", book, uid });
      this.fillCard(book, uid, seen);
    } else if (isFinal) {
      this.gone(book, uid);
    } else {
      // The list had it a moment ago: it was deleted or moved meanwhile.
      this.set(null);
      this.blank();
      this.desk.drawSoon();
    }
    if (isFinal) this.desk.frame.showPane("card");
    // A narrow page has hidden the pane until now, and what is hidden can't be scrolled.
    if (!isStill) this.node.scrollTop = 0;
    if (!isFinal) {
      if (!this.desk.list.rows.length) this.desk.draw();
      return;
    }
    if (seen) {
      this.desk.lists.opened(book, uid);
      listWith(this.desk, book, uid);
    }
    this.desk.draw();
    if (isStaying()) this.node.querySelector("#card-name")?.focus({ preventScroll: true });
  }

  fillCard(book, uid, { text, entry }) {
    const { shelf } = this.desk;
    this.desk.memory.shown(book, uid);
    const person = describe(readCard(text));
    const row = shelf.get(book, uid) ?? rowOf(book, uid, 0, text);
    fill(this.node, this.back(), cardView({
      seen: person, row, text, entry,
      act: this.desk.actions.ofCard(book, uid, person, text, entry),
      members: shelf.members(book, person.members),
      groups: shelf.groupsOf(book, uid),
      mayChange: this.desk.mayChange(book),
    }));
    document.title = `${person.name} · ${t("title")}`;
  }

  back() {
    return button([icon("back"), el("span", {}, t("back"))], () => this.leave(), {
      class: "quiet back",
    });
  }

  /** Opens a form: for a card, or for a new one of a kind. */
  async edit(place) {
    const { desk } = this;
    if (!desk.books.some((it) => it.name === place.book)) {
      this.leave();
      return;
    }
    if (this.form?.isOf({ ...place, slot: Number(place.slot ?? this.form.edit.slot) })) {
      this.form.focus();
      return;
    }
    const asked = this.ask();
    const isStaying = staying();
    const form = await Forming.begin(desk, place);
    if (asked !== this.asked) {
      form?.free();
      return;
    }
    if (!form) {
      this.open(place.book, place.uid, true);
      return;
    }
    this.set({ kind: "form", book: place.book, uid: place.uid });
    this.form = form;
    fill(this.node, form.view());
    desk.frame.quiet();
    desk.frame.showPane("card");
    desk.draw();
    desk.drawWaiting();
    this.node.scrollTop = 0;
    if (isStaying()) form.focus();
  }
}

function decoded(text) {
  try {
    return decodeURIComponent(text);
  } catch {
    return "";
  }
}
