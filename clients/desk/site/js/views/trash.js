// What was deleted, overwritten or dropped at this desk, and what it had.
import { bdi, button, el } from "../dom.js";
import { letters } from "../faces.js";
import { describe } from "../person.js";
import { t, timeText } from "../say.js";
import { readCard } from "../vcard.js";
import { dialog } from "./dialogs.js";

const MOST = 300;

/**
 * Shows what is kept. Answers `[entry, "back"]` for a text that is to be put back,
 * `[entry, "versions"]` for what the office keeps of the card, or null.
 */
export function trashView(title, kept, hasVersions) {
  const one = (it, close) => {
    const seen = describe(readCard(it.text));
    const name = seen.name || it.name || t("nameless");
    const said = [...seen.titles, ...seen.orgs, ...seen.phones.map((phone) => phone.text),
      ...seen.mails.map((mail) => mail.text)].slice(0, 4).join(" · ");
    return el("li", {}, letters(name, seen.kind),
      el("div", { class: "who" },
        el("strong", {}, bdi(name)), " ",
        el("small", {}, t(`trash_${it.why}`), " · ", it.book, " · ", timeText(it.at)),
        el("div", { class: "hint" }, bdi(said))),
      el("div", { class: "bar" },
        it.text && button(t("putBack"), () => close([it, "back"])),
        hasVersions(it) && button(t("versions"), () => close([it, "versions"]))));
  };
  return dialog(title, (close) => [
    el("p", { class: "hint" }, kept.length ? t("trashText") : t("trashNone")),
    el("ul", { class: "entries" }, kept.slice(0, MOST).map((it) => one(it, close))),
    el("div", { class: "bar" }, button(t("close"), () => close(null))),
  ], kept.length ? "wide" : "");
}
