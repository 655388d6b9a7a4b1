// The side bar: books, lists of one's own, groups.
import { bdi, button, el, fill } from "../dom.js";
import { icon } from "../icons.js";
import { count, number, t } from "../say.js";

// More than these are shown when they are asked for.
const FIRST = { groups: 60, categories: 40 };

export class SideBar {
  constructor(desk) {
    this.desk = desk;
    this.root = document.getElementById("books");
    this.drawn = "";
    this.all = { groups: false, categories: false }; // which lists are shown as a whole
  }

  show() {
    const { desk } = this;
    const { books, chosen, filter, shelf } = desk;
    const mayAdd = books.some((it) => it.rights !== "read");
    const [groups, moreGroups] = this.part("groups", shelf.groups(chosen));
    const [categories, moreCategories] = this.part("categories", shelf.categories(chosen));
    const states = books.map((it) => [
      it.name, it.rights, desk.frame.states.get(it.name)?.state, shelf.count(it.name),
    ]);
    const drawn = JSON.stringify([
      chosen, filter, states, groups.map((it) => [it.book, it.uid, it.name]), categories,
      moreGroups?.textContent, moreCategories?.textContent,
    ]);
    if (drawn === this.drawn) return;
    this.drawn = drawn;
    // Who has come to one of the buttons by keyboard stays there.
    const place = [...this.root.querySelectorAll("button")].indexOf(document.activeElement);
    fill(
      this.root,
      el("h2", {}, t("books")),
      el("ul", {},
        books.length > 1 ? this.book("", t("allBooks")) : null,
        books.map((it) => this.book(it.name, it.name))),
      button([icon("add"), el("span", {}, t("addBook"))], () => this.addBook(), {
        class: "quiet add",
      }),
      books.length ? [el("h2", {}, t("lists")), el("ul", {},
        this.list({ kind: "favourites" }, t("favourites"), "star"),
        this.list({ kind: "recent" }, t("recent"), "recent"),
        el("li", { class: "book" }, button([icon("trash"), el("span", { class: "book-name" },
          t("trash"))], () => this.trash(), { class: "choose" })))] : null,
      groups.length || mayAdd ? el("h2", {}, t("groupsTitle")) : null,
      groups.length ? el("ul", {}, groups.map((it) => this.list(
        { kind: "group", book: it.book, uid: it.uid }, it.name || t("nameless"), "people",
      ))) : null,
      moreGroups,
      mayAdd ? button([icon("add"), el("span", {}, t("newGroup"))], () => this.newGroup(), {
        class: "quiet add",
      }) : null,
      categories.length ? [el("h2", {}, t("categories")), el("ul", {},
        categories.map(([name, many]) => this.list(
          { kind: "category", book: chosen, name }, name, "tag", many,
        ))), moreCategories] : null,
    );
    if (place >= 0) this.root.querySelectorAll("button")[place]?.focus();
  }

  /** The first of a long list, and a button for the others; or all of it, and null. */
  part(kind, all) {
    const rest = this.all[kind] ? 0 : all.length - FIRST[kind];
    if (rest <= 0) return [all, null];
    const more = button(count("showMore", rest), () => {
      this.all[kind] = true;
      this.show();
    }, { class: "quiet add" });
    return [all.slice(0, FIRST[kind]), more];
  }

  book(name, text) {
    const { desk } = this;
    const isChosen = !desk.filter && name === desk.chosen;
    const state = desk.frame.states.get(name)?.state ?? "";
    return el(
      "li",
      { class: `book ${state}` },
      button([icon(name ? "book" : "books"), el("span", { class: "book-name" }, text),
        el("span", { class: "book-count" }, number(desk.shelf.count(name)))],
      () => desk.choose(name), { class: "choose", "aria-pressed": String(isChosen) }),
      name && this.menu(name),
    );
  }

  menu(name) {
    const text = t("bookMenu", { book: name });
    return button(icon("more"), () => {
      this.desk.frame.showNav(false);
      this.desk.actions.book(name);
    }, {
      class: "quiet menu", "aria-label": text, title: text,
    });
  }

  addBook() {
    this.desk.frame.showNav(false);
    this.desk.addBook();
  }

  newGroup() {
    this.desk.frame.showNav(false);
    this.desk.pane.newCard("group");
  }

  trash() {
    this.desk.frame.showNav(false);
    this.desk.history.trash();
  }

  list(filter, text, sign, many = 0) {
    const isChosen = JSON.stringify(filter) === JSON.stringify(this.desk.filter);
    return el("li", { class: "book" }, button(
      [icon(sign), el("span", { class: "book-name" }, bdi(text)),
        many ? el("span", { class: "book-count" }, number(many)) : null],
      () => this.desk.turnTo(filter),
      { class: "choose", "aria-pressed": String(isChosen) },
    ));
  }
}
