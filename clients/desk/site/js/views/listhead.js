// The head of the list: how it is sorted, and what can be done with several cards at once.
import { button, el, fill } from "../dom.js";
import { icon } from "../icons.js";
import { count, t } from "../say.js";
import { keyOf } from "../shelf.js";
import { menuButton, openMenu } from "./menu.js";

export class ListHead {
  constructor(desk) {
    this.desk = desk;
    this.root = document.getElementById("list-menu");
    this.drawn = "";
    this.showMenu();
  }

  showMenu() {
    const { desk } = this;
    const sort = (by) => [
      [t(`sort_${by}`), desk.shelf.by === by && el("span", { class: "now" }, "✓")],
      () => desk.sortBy(by),
    ];
    this.fill(menuButton(icon("more"), () => [
      sort("name"), sort("family"),
      [t("select"), () => desk.list.marking(true)],
      [t("duplicates"), () => desk.duplicates.show()],
      ...this.importing(),
      [t("print"), () => desk.actions.printList()],
    ], { class: "quiet round", "aria-label": t("listMenu"), title: t("listMenu") }));
  }

  /** Files go into the book that the list is of. */
  importing() {
    const { chosen, books, filter, actions } = this.desk;
    const book = chosen || (books.length === 1 ? books[0].name : "");
    if (filter || !this.desk.mayChange(book)) return [];
    return [[t("importFiles"), () => actions.files.import(book)]];
  }

  /** Shows something else. Who has come to a button by keyboard stays there. */
  fill(content) {
    const was = this.root.contains(document.activeElement) ? document.activeElement : null;
    fill(this.root, content);
    if (!was) return;
    const buttons = [...this.root.querySelectorAll(".menu-box > button, .marked-bar > button")];
    (buttons.find((it) => it.textContent === was.textContent) ?? buttons[0])?.focus();
  }

  /** Shows how many cards are marked, and what can be done with them. */
  showMarked(rows) {
    const { desk } = this;
    const isMarking = rows.length > 0 || desk.list.isMarking;
    if (!isMarking) {
      if (this.drawn) this.showMenu();
      this.drawn = "";
      return;
    }
    const drawn = `${rows.map(keyOf).join(" ")} `;
    if (drawn === this.drawn || openMenu(this.root)) return;
    this.drawn = drawn;
    this.fill(el("div", { class: "marked-bar", role: "group", "aria-label": t("select") },
      el("span", { role: "status" }, count("markedCount", rows.length)),
      rows.length ? menuButton(t("forSelected"), () => desk.bulk.choices(rows), {}) : null,
      button(t("selectAll"), () => desk.list.markAll(), { class: "quiet" }),
      button(t("selectDone"), () => desk.clearMarks(), { class: "quiet" })));
  }
}
