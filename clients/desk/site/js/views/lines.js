// Lines of a report: the first ones, and more when somebody asks for them.
import { bdi, button, el } from "../dom.js";
import { number, t } from "../say.js";

const SHOWN = 200;

/** Lines, each a text or `[text, more]`, with what stands beside it. */
export function linesView(lines) {
  const list = el("ul", { class: "lines", tabindex: lines.length > 6 ? "0" : null });
  const more = button("", () => add(), { class: "quiet" });
  let shown = 0;
  const line = (it) => {
    const [text, beside] = [it].flat();
    return el("li", {}, bdi(text), beside && el("span", { class: "many" }, ` ${beside}`));
  };
  const add = () => {
    list.append(...lines.slice(shown, shown + SHOWN).map(line));
    shown = Math.min(lines.length, shown + SHOWN);
    more.hidden = shown === lines.length;
    more.textContent = t("showMoreLines", { n: number(Math.min(SHOWN, lines.length - shown)) });
  };
  add();
  return [list, more];
}
