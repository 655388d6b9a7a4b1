// Two edits of one card: what was changed in two ways is asked for, value by value, and all else is
// said.
import { bdi, button, el, fill, newId } from "../dom.js";
import { lineShown } from "../shown.js";
import { propertyText, t } from "../say.js";
import { dialog } from "./dialogs.js";

/** The words for two edits of one card by two people. */
function ofTwo(name) {
  return {
    title: t("conflictTitle", { name }), text: t("conflictText"), mine: t("yours"),
    theirs: t("theirs"), leave: t("later"), all: t("keepTheirs"),
    taken: t("takenTitle"), by: ["changedBy_mine", "changedBy_theirs"],
  };
}

/**
 * Asks about the clashes of two edits (`merge3`). Answers a list with "mine" or "theirs" for each,
 * or null to decide later. `nameOf` gives the name of a member; `words` are others for two cards;
 * `signal` ends the question.
 */
export function askBoth(name, both, nameOf, { words = ofTwo(name), signal = null } = {}) {
  const choices = both.clashes.map(() => null);
  const error = el("p", { class: "error", role: "alert" });
  return dialog(words.title, (close, box) => {
    const save = () => {
      if (choices.includes(null)) {
        fill(error, t("chooseAll"));
        box.querySelector(".clash:not(:has(:checked)) input").focus();
        return;
      }
      close(choices);
    };
    return [
      both.clashes.length ? el("p", {}, words.text) : null,
      both.clashes.length ? table(words, both.clashes.map((it, at) =>
        row(it, at, choices, nameOf))) : null,
      taken(both.changes, nameOf, words),
      error,
      el("div", { class: "bar" },
        button(t("saveChosen"), save, { class: "main" }),
        words.all && button(words.all, () => close(choices.map(() => "theirs"))),
        button(words.leave, () => close(null))),
    ];
  }, "wide", signal);
}

// The roles are said, as a narrow page shows the table as blocks.
function table(words, rows) {
  const column = (text) => el("th", { scope: "col", role: "columnheader" }, text);
  return el("div", { class: "scroll" }, el("table", { class: "conflict", role: "table" },
    el("thead", { role: "rowgroup" }, el("tr", { role: "row" }, el("td", { role: "cell" }),
      column(words.mine), column(words.theirs))),
    el("tbody", { role: "rowgroup" }, rows)));
}

function row(clash, at, choices, nameOf) {
  const group = newId("choice");
  const cell = (which) => {
    const id = newId("pick");
    const radio = el("input", {
      type: "radio", name: group, id, value: which,
      on: { change: () => { choices[at] = which; } },
    });
    const shown = el("div", {}, side(clash[which], nameOf));
    return el("td", { role: "cell" }, el("label", { for: id, class: "pick" }, radio, shown));
  };
  const was = clash.was
    ? el("small", {}, t("was"), " ", lineShown(clash.was, nameOf))
    : null;
  return el("tr", { class: "clash", role: "row" },
    el("th", { scope: "row", role: "rowheader" }, propertyText(clash.name), was),
    cell("mine"), cell("theirs"));
}

function side(item, nameOf) {
  if (!item) return el("span", { class: "none" }, t("nothing"));
  return el("div", { class: "said" }, lineShown(item, nameOf));
}

/** What only one side changed: it is in the card in any case. */
function taken(changes, nameOf, { taken: title, by: [mine, theirs] }) {
  const named = changes.filter((it) => it.now || it.was);
  if (!named.length) return null;
  return el("div", { class: "taken" }, el("h3", {}, title), el("ul", {},
    named.map((it) => {
      const gone = it.now ? null : [" ", el("small", {}, t("takenGone"))];
      return el("li", {}, el("strong", {}, propertyText(it.name)), " ",
        lineShown(it.now ?? it.was, nameOf), gone, " ",
        el("small", {}, bdi(t(it.by === "mine" ? mine : theirs))));
    })));
}
