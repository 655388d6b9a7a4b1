// Cards that may be one person, side by side.
import { bdi, button, el } from "../dom.js";
import { letters } from "../faces.js";
import { t } from "../say.js";
import { plainText } from "../values.js";
import { dialog } from "./dialogs.js";

function side(row) {
  return el("div", { class: "pair-side" }, letters(row.name, row.kind),
    el("div", { class: "who" },
      el("strong", {}, bdi(row.name)),
      [[row.title, row.org].filter(Boolean).join(" · "), row.phone, row.mail].filter(Boolean)
        .map((it) => el("div", { class: "hint" }, bdi(plainText(it))))));
}

/** Shows pairs `[row, row, why]`. Answers `[pair, "join" or "different"]`, or null. */
export function pairsView(pairs) {
  return dialog(t("pairsTitle"), (close) => [
    pairs.length ? null : el("p", {}, t("pairsNone")),
    el("ul", { class: "pairs" }, pairs.map((pair) => {
      const [one, other, why] = pair;
      return el("li", {}, side(one), side(other),
        el("div", { class: "pair-end" },
          el("small", {}, t(`pairsSame_${why}`), " · ", one.book),
          el("div", { class: "bar" },
            button(t("join"), () => close([pair, "join"]), { class: "main" }),
            button(t("notSame"), () => close([pair, "different"])))));
    })),
    el("div", { class: "bar" }, button(t("close"), () => close(null))),
  ], pairs.length ? "wide" : "");
}
