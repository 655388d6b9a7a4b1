// The face of a card: its photo, or its initials on a colour that its name has for good.
import { el } from "./dom.js";
import { icon } from "./icons.js";
import { initials } from "./person.js";
import { linesNamed, readCard } from "./vcard.js";
import { photoOf } from "./values.js";

const HUES = 12;
const MOST = 300;

/** A number for a name, the same at each desk. */
function hueOf(name) {
  let sum = 7;
  for (const sign of name) sum = (sum * 31 + sign.codePointAt(0)) % 9973;
  return sum % HUES;
}

/** Initials, or the sign of a group or an organisation, on the name's colour. */
export function letters(name, kind, extra = "") {
  const sign = kind === "group" ? icon("people") : null;
  const shown = sign ?? (initials(name) || icon(kind === "org" ? "office" : "people"));
  return el("span", { class: `face hue-${hueOf(name)} ${extra}`, "aria-hidden": "true" }, shown);
}

/** The photos of rows in sight. They are read from the copy when they are needed. */
export class Faces {
  constructor(seen) {
    this.seen = seen; // (book, uid) => the card, as this desk shows it
    this.kept = new Map();
  }

  /** The face of a row. A photo takes the place of the initials when it is there. */
  of(row) {
    const node = letters(row.name, row.kind);
    if (row.face) this.photo(row).then((address) => address && show(node, address));
    return node;
  }

  photo(row) {
    const key = `${row.book}/${row.uid}/${row.version}`;
    const kept = this.kept.get(key);
    if (kept) return kept;
    const photo = this.seen(row.book, row.uid).then((card) => {
      const [line] = card ? linesNamed(readCard(card.text), "PHOTO") : [];
      return photoOf(line ?? null);
    });
    if (this.kept.size >= MOST) this.kept.delete(this.kept.keys().next().value);
    this.kept.set(key, photo);
    return photo;
  }
}

function show(node, address) {
  const picture = el("img", { src: address, alt: "" });
  picture.addEventListener("load", () => {
    node.replaceChildren(picture);
    node.classList.add("with-photo");
  });
}
