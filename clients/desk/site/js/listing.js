// What the list is of, and what is said, offered and shown where it is empty.
import { t } from "./say.js";
import { keyOf } from "./shelf.js";
import { openMenu } from "./views/menu.js";

const WORDS = {
  favourites: "noFavourites", recent: "noRecent", group: "noMembers", category: "noCategory",
};

const SIGNS = {
  book: "book", favourites: "star", recent: "recent", group: "people", category: "tag",
};

/** The title of the list. */
export function titleOf({ filter, chosen, books, shelf }) {
  if (!filter) return chosen || t(books.length > 1 ? "allBooks" : "listLabel");
  if (filter.kind === "group") return shelf.get(filter.book, filter.uid)?.name ?? "";
  return filter.kind === "category" ? filter.name : t(filter.kind);
}

/** The book whose cards the list has; "" if they may be of any. */
export function bookOf({ filter, chosen }) {
  return filter ? filter.book ?? "" : chosen;
}

/**
 * Somebody goes to a card while the list is empty, as after an edit of what was searched for: it
 * becomes a list that has the card.
 */
export function listWith(desk, book, uid) {
  if (desk.found().length) return;
  desk.frame.search.value = "";
  if (!desk.found().some((row) => keyOf(row) === `${book}/${uid}`)) {
    desk.filter = null;
    if (desk.chosen) desk.chosen = book;
    desk.store.keepSetting("book", desk.chosen);
  }
  desk.draw();
  desk.list.scrollTo(desk.list.at);
}

/**
 * The list is empty: nobody's card is beside it, as it would be taken for the one that was looked
 * for. Where the list isn't beside the card, that stays.
 */
export function emptied(desk) {
  const { pane, frame } = desk;
  const isOther = pane.comingKey !== null || pane.hasForm; // on its way
  if (pane.shown?.kind !== "card" || isOther || frame.isNarrow) return;
  if (openMenu(pane.node)) {
    desk.drawSoon(); // once that is closed
    return;
  }
  const isThere = pane.node.contains(document.activeElement);
  pane.clear();
  if (isThere) frame.goToSearch();
}

/** Whether the copy has all that the list could show. */
function isWhole({ chosen, books }) {
  return books.every((it) => it.synced || (chosen && it.name !== chosen));
}

const isSearch = (desk) => desk.frame.search.value.trim() !== "";

/** Who may not list the books says which one is theirs: on a narrow page the list asks for it. */
const isAsking = ({ mayList, frame }) => !mayList && frame.isNarrow;

/** The drawing above what is said where the list has no card. */
export function emptySign(desk) {
  return isSearch(desk) ? "search" : SIGNS[desk.filter?.kind ?? "book"];
}

/** What is said there. */
export function emptyWords(desk) {
  if (isSearch(desk)) return t("noCards");
  if (!desk.books.length) return t(isAsking(desk) ? "whichBookText" : "noBooks");
  if (!isWhole(desk)) return t("notHereYet");
  return t(desk.filter ? WORDS[desk.filter.kind] : "emptyBook");
}

/** More words there: what an empty book takes. */
export function emptyHint(desk) {
  const isEmpty = !isSearch(desk) && !desk.filter && desk.books.length && isWhole(desk);
  return isEmpty && emptyWays(desk).length ? t("emptyBookHint") : "";
}

/** What can be done there: `[text, run, kind]` each. */
export function emptyWays(desk) {
  const { books, chosen, filter } = desk;
  if (isSearch(desk)) return [[t("clearSearch"), () => desk.searchAnew()]];
  if (!books.length) {
    const mayAdd = desk.mayList || isAsking(desk);
    return mayAdd ? [[t("addBook"), () => desk.addBook()]] : [];
  }
  const book = chosen || (books.length === 1 ? books[0].name : "");
  if (filter || !isWhole(desk) || !desk.mayChange(book)) return [];
  return [
    [t("importFiles"), () => desk.actions.files.import(book), "main"],
    [t("newCard"), () => desk.pane.newCard()],
  ];
}
