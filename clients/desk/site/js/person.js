// A card as people read it, and the short row of a card that the list and the search use.
import {
  firstNamed, kindOf, lineText, linesNamed, param, readCard, typesOf, uidOf,
} from "./vcard.js";
import {
  componentText, dateParts, digitsOf, mailLink, partsOf, photoOf, plainText, safeLink, telLink,
  telText, unescapeText,
} from "./values.js";
import { ownLabel } from "./labels.js";
import { fold, searchText, spellOut } from "./search.js";

// Lines that `describe` shows, or that mean nothing to people.
const SHOWN = new Set([
  "FN", "N", "NICKNAME", "ORG", "TITLE", "ROLE", "TEL", "EMAIL", "IMPP", "URL", "ADR", "NOTE",
  "BDAY", "ANNIVERSARY", "CATEGORIES", "RELATED", "MEMBER", "PHOTO", "LANG", "TZ", "UID", "KIND",
  "REV", "PRODID", "X-ABLABEL", "X-ABADR",
]);
const KINDS_OF_USE = new Set([
  "work", "home", "cell", "fax", "pager", "video", "textphone",
  // Of related people (RFC 6350, section 6.6.6).
  "spouse", "child", "parent", "sibling", "friend", "colleague", "agent", "emergency",
]);
const LONG = 300;

/** The types that people care about, in a fixed order: "work", "home", "cell" and so on. */
export function useOf(line) {
  const types = typesOf(line);
  return [...KINDS_OF_USE].filter((it) => types.includes(it));
}

/** What a line is called: a label of one's own, or its uses. */
function labelOf(card, line) {
  const text = ownLabel(card.lines, line);
  return text ? { text } : { uses: useOf(line) };
}

export function nameOf(card) {
  const line = firstNamed(card, "FN");
  return line ? unescapeText(line.value).replace(/\s+/g, " ").trim() : "";
}

function textsOf(card, name) {
  return linesNamed(card, name).map((line) => unescapeText(line.value).trim()).filter(Boolean);
}

function orgOf(card) {
  return linesNamed(card, "ORG")
    .map((line) => partsOf(line.value, ";").map(unescapeText).filter(Boolean).join(", "))
    .filter(Boolean);
}

export function addressOf(line) {
  const label = param(line, "LABEL");
  if (label) return label.replace(/\\n/gi, "\n").split("\n").map((it) => it.trim()).filter(Boolean);
  const [box, flat, street, city, region, code, country] = partsOf(line.value, ";")
    .map(componentText);
  const place = [code, city].filter(Boolean).join(" ");
  return [box, flat, street, place, region, country].filter(Boolean);
}

/** A value with its link. What a link shows is what it does: no mark may turn it around. */
function linkRow(card, line, text, href) {
  return { label: labelOf(card, line), text: href ? plainText(text) : text, href };
}

/** All that the view of a card shows. Texts are plain; each `href` is of a harmless scheme. */
export function describe(card) {
  const rows = (name, show) => linesNamed(card, name).map(show).filter((it) => it.text);
  const plain = (line) => unescapeText(line.value).trim();
  const web = (line) => linkRow(card, line, plain(line), safeLink(plain(line)));
  const photoLine = firstNamed(card, "PHOTO");
  return {
    uid: uidOf(card),
    kind: kindOf(card),
    name: nameOf(card),
    nicknames: linesNamed(card, "NICKNAME").map((it) => componentText(it.value)).filter(Boolean),
    titles: [...textsOf(card, "TITLE"), ...textsOf(card, "ROLE")],
    orgs: orgOf(card),
    photo: photoOf(photoLine),
    photoLink: photoLine ? safeLink(photoLine.value) : null,
    phones: rows("TEL", (it) => linkRow(card, it, telText(it), telLink(it))),
    mails: rows("EMAIL", (it) => linkRow(card, it, plain(it), mailLink(plain(it)))),
    chats: rows("IMPP", web),
    webs: rows("URL", web),
    addresses: linesNamed(card, "ADR")
      .map((it) => ({ label: labelOf(card, it), lines: addressOf(it) }))
      .filter((it) => it.lines.length),
    notes: textsOf(card, "NOTE"),
    dates: ["BDAY", "ANNIVERSARY"].flatMap((name) =>
      linesNamed(card, name).map((it) => ({ name, date: dateParts(it.value), text: plain(it) })),
    ),
    categories: categoriesOf(card),
    related: rows("RELATED", web),
    languages: textsOf(card, "LANG"),
    zones: textsOf(card, "TZ"),
    members: card.lines.filter((it) => it.name === "MEMBER").map((it) => it.value),
    revised: textsOf(card, "REV")[0] ?? "",
    others: card.lines
      .filter((it) => !SHOWN.has(it.name) || (it.name === "PHOTO" && !photoOf(it)))
      .map((it) => (it.name ? lineText(it) : it.value)),
  };
}

const clip = (text, most = LONG) => (text.length > most ? `${text.slice(0, most)}…` : text);

/** Folded texts for the search: each word once, with a space before it. */
function searched(texts, most) {
  const text = texts.filter(Boolean).join(" ");
  const folded = fold(text);
  const spelt = /[^\x00-\x7f]/.test(text) ? fold(spellOut(text)) : folded;
  const words = new Set(`${folded} ${spelt === folded ? "" : spelt}`.split(" ").filter(Boolean));
  return words.size ? ` ${[...words].join(" ")}`.slice(0, most) : "";
}

/** A row that an older desk kept, as rows are now. */
export function rowNow(row) {
  if (row.search !== undefined) return row;
  const { names = "", words = "", more = "", ...rest } = row;
  return { ...rest, search: searchText(names, words, more) };
}

/** The row of a card: what the list shows, and folded texts for the search. */
export function rowOf(book, uid, version, text) {
  const card = readCard(text);
  const names = new Set(card.lines.map((it) => it.name));
  const lines = (name) => (names.has(name) ? linesNamed(card, name) : []);
  const plain = (line) => unescapeText(line.value).trim();
  const n = firstNamed(card, "N");
  const parts = n ? partsOf(n.value, ";").map(componentText) : [];
  const name = nameOf(card);
  const nicks = lines("NICKNAME").map((it) => componentText(it.value));
  const orgs = orgOf(card);
  const titles = [...textsOf(card, "TITLE"), ...textsOf(card, "ROLE")];
  const mails = lines("EMAIL").map(plain).filter(Boolean);
  const categories = names.has("CATEGORIES") ? categoriesOf(card).slice(0, 50) : [];
  const phones = lines("TEL").slice(0, 20);
  const row = { book, uid, version, kind: kindOf(card), name: clip(name) };
  const some = {
    family: clip(parts[0] ?? ""),
    given: clip(parts[1] ?? ""),
    org: clip(orgs[0] ?? ""),
    title: clip(titles[0] ?? ""),
    mail: clip(mails[0] ?? ""),
    phone: phones.length ? clip(telText(phones[0])) : "",
    label: phones.length ? labelOf(card, phones[0]) : null,
    face: photoOf(lines("PHOTO")[0] ?? null) ? 1 : 0,
    search: searchText(
      searched([name, ...nicks, ...parts.slice(0, 3)], 2000),
      searched([...orgs, ...titles, ...mails, ...categories], 2000),
      searched([...lines("ADR").flatMap(addressOf), ...textsOf(card, "NOTE")], 600),
    ),
    cats: categories.length ? categories.map((it) => clip(it, 60)) : null,
    digits: phones.map((it) => digitsOf(telText(it)).slice(0, 40)).join(" "),
  };
  // Rows are many: what a card hasn't takes no room.
  for (const [key, value] of Object.entries(some)) if (value) row[key] = value;
  const members = lines("MEMBER").slice(0, 10000).map((it) => it.value);
  if (members.length) row.members = members;
  return row;
}

function categoriesOf(card) {
  return linesNamed(card, "CATEGORIES")
    .flatMap((it) => partsOf(it.value, ",").map(unescapeText))
    .map((it) => it.trim())
    .filter(Boolean);
}

/** The UID in `known` that a member's value names, with or without urn:uuid: before it, or null. */
export function memberUid(value, known) {
  if (known.has(value)) return value;
  const rest = /^urn:uuid:/i.test(value) ? value.slice(9) : null;
  return rest !== null && known.has(rest) ? rest : null;
}

/** One or two letters for a card without a photo. */
export function initials(name) {
  const words = name.split(/[\s.,'’-]+/u).filter((it) => /^[\p{L}\p{N}]/u.test(it));
  const letters = words.length > 1 ? [words[0], words[words.length - 1]] : words;
  return letters.map((it) => String.fromCodePoint(it.codePointAt(0)).toUpperCase()).join("");
}
