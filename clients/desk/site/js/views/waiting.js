// What isn't sent yet, and which forms aren't finished.
import { bdi, button, el } from "../dom.js";
import { ASKS, REFUSED } from "../entries.js";
import { faultText, t, timeText } from "../say.js";
import { Fault } from "../api.js";
import { dialog } from "./dialogs.js";

/** Why an entry of the queue isn't sent, in words. */
export function whyText(entry) {
  if (entry.state === ASKS) return t(entry.theirs ? "waitsAsks" : "waitsGone");
  if (entry.state !== REFUSED) {
    if (entry.from) return t("waitsMove", { from: entry.from, book: entry.book });
    return t(entry.kind === "remove" ? "waitsRemoval" : "waitsSave");
  }
  const { from, status, ...rest } = entry.fault;
  const why = faultText(new Fault(from, status, rest));
  return entry.from ? t("moveRefused", { book: entry.book, why }) : why;
}

/** The buttons for an entry: what somebody can do about it. */
export function entryButtons(entry, run) {
  if (entry.state === ASKS) {
    return [button(t("decide"), () => run.decide(entry), { class: "main" })];
  }
  if (entry.state !== REFUSED) return [];
  return [
    button(t("tryAgain"), () => run.again(entry), { class: "main" }),
    button(entry.from ? t("moveStays", { book: entry.from }) : t("giveUp"), () => run.drop(entry)),
  ];
}

/** A dialog with the entries of the queue and the drafts. `nameOf` gives the name of each. */
export function waitingView(entries, drafts, nameOf, run) {
  return dialog(t("waitingTitle"), (close) => {
    const ending = (action) => (it) => {
      close(null);
      action(it);
    };
    const ends = Object.fromEntries(Object.entries(run).map(([key, it]) => [key, ending(it)]));
    const entry = (it) => el("li", {},
      el("div", { class: "who" },
        el("strong", {}, bdi(nameOf(it))), " ", el("small", {}, it.book, " · ", timeText(it.at)),
        el("div", { class: it.state === "waits" ? "hint" : "error" }, whyText(it))),
      el("div", { class: "bar" }, entryButtons(it, ends),
        it.kind === "remove" ? null : button(t("open"), () => ends.open(it))));
    const draft = (it) => el("li", {},
      el("div", { class: "who" },
        el("strong", {}, bdi(nameOf(it))), " ", el("small", {}, it.book, " · ", timeText(it.at)),
        el("div", { class: "hint" }, t(it.isNew ? "draftNew" : "draftEdit"))),
      el("div", { class: "bar" },
        button(t("goOn"), () => ends.goOn(it), { class: "main" }),
        button(t("dropDraft"), () => ends.dropDraft(it))));
    return [
      entries.length ? el("h3", {}, t("notSent")) : null,
      entries.length ? el("p", { class: "hint" }, t("notSentHint")) : null,
      el("ul", { class: "entries" }, entries.map(entry)),
      drafts.length ? el("h3", {}, t("unfinished")) : null,
      el("ul", { class: "entries" }, drafts.map(draft)),
      entries.length + drafts.length ? null : el("p", {}, t("nothingWaits")),
      el("div", { class: "bar" }, button(t("close"), () => close(null))),
    ];
  }, "wide");
}
