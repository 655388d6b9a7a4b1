// What keys do anywhere on the page.

/** Escape, F2 and Alt+N, wherever the focus is. */
export function pageKey(desk, event) {
  if (document.querySelector("dialog[open]") || event.defaultPrevented) return;
  const { pane, frame } = desk;
  if (event.key === "Escape" && document.body.dataset.nav === "open") {
    event.preventDefault();
    frame.showNav(false);
    frame.search.focus();
  } else if (event.key === "Escape" && desk.list.marks.size) {
    event.preventDefault();
    desk.clearMarks();
  } else if (event.key === "Escape" && !event.isComposing && pane.shown?.kind !== "form") {
    event.preventDefault();
    const { search } = frame;
    const isThere = document.activeElement === search;
    if (frame.isNarrow && document.body.dataset.pane === "card") pane.leave();
    if (isThere) search.value = "";
    if (isThere) desk.typed();
    search.focus();
    search.select();
  } else if (event.key === "F2" && pane.shown?.kind === "card") {
    event.preventDefault();
    if (desk.mayChange(pane.shown.book)) pane.goEdit(pane.shown.book, pane.shown.uid);
  } else if (event.altKey && event.code === "KeyN") {
    event.preventDefault();
    pane.newCard();
  }
}
