// One line of a card as people read it, for questions about it.
import { bdi, el } from "./dom.js";
import { addressOf, useOf } from "./person.js";
import { dateText, number, t, usesText } from "./say.js";
import {
  componentText, dateParts, partsOf, plainText, telText, unescapeText,
} from "./values.js";

function valueText(line, nameOf) {
  const { name, value } = line;
  if (/^(PHOTO|LOGO|KEY|SOUND)$/.test(name) && value.length > 200) {
    return t("picture", { size: number(Math.round(value.length * 0.75 / 1024)) });
  }
  if (name === "TEL") return telText(line);
  if (name === "ADR") return addressOf(line).join(", ");
  if (name === "MEMBER") return nameOf(value);
  if (name === "N") {
    const [family, given, more, before, after] = partsOf(value, ";").map(componentText);
    return [before, given, more, family, after].filter(Boolean).join(" ");
  }
  if (name === "BDAY" || name === "ANNIVERSARY") {
    const date = dateParts(value);
    return date ? dateText(date) : unescapeText(value);
  }
  if (name === "CATEGORIES" || name === "NICKNAME") return componentText(value);
  if (name === "ORG") return partsOf(value, ";").map(unescapeText).filter(Boolean).join(", ");
  return unescapeText(value);
}

/** The value of a line, and what it is for. */
export function lineShown({ line, label }, nameOf = (value) => value) {
  const uses = label || (line.name ? usesText({ uses: useOf(line) }) : "");
  return [
    bdi(plainText(valueText(line, nameOf)).slice(0, 600)),
    uses && el("small", {}, " ", bdi(plainText(uses))),
  ];
}
