// A list on paper: a line for each card, in columns that are as narrow as can be read.
import { bdi, el } from "../dom.js";
import { count, t } from "../say.js";
import { plainText } from "../values.js";

export function printSheet(rows, withBooks) {
  return el("div", { class: "print-sheet" },
    el("h1", {}, t("title"), " ", el("small", {}, count("cardsCount", rows.length))),
    el("ul", {}, rows.map((row) => el("li", {},
      el("strong", {}, bdi(row.name || t("nameless"))),
      row.org ? el("span", {}, bdi(row.org)) : null,
      row.phone ? el("span", { class: "number" }, bdi(plainText(row.phone))) : null,
      row.mail ? el("span", {}, bdi(plainText(row.mail))) : null,
      withBooks ? el("span", {}, row.book) : null))));
}
