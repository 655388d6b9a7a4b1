// Boxes to tick, as the groups that a card is in.
import { bdi, button, el, newId } from "../dom.js";
import { t } from "../say.js";
import { dialog } from "./dialogs.js";

/** The answer if somebody wants another choice than those. */
export const NEW = "new";

/**
 * Asks which of `[text, value, isTicked]` are wanted; `other` is the text of a button for one that
 * isn't there. Answers a set of values, `NEW`, or null.
 */
export function askTicks(title, choices, other) {
  return dialog(title, (close) => {
    const ticked = new Set(choices.filter((it) => it[2]).map((it) => it[1]));
    const one = ([text, value, isTicked]) => {
      const id = newId("tick");
      const box = el("input", {
        type: "checkbox", id, checked: isTicked,
        on: { change: () => (box.checked ? ticked.add(value) : ticked.delete(value)) },
      });
      return el("li", {}, el("label", { for: id, class: "tick" }, box, bdi(text)));
    };
    return [
      el("ul", { class: "ticks" }, choices.map(one)),
      el("div", { class: "bar" }, button(t("ok"), () => close(ticked), { class: "main" }),
        button(other, () => close(NEW)), button(t("cancel"), () => close(null))),
    ];
  });
}
