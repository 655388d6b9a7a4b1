// The cards of files that are to be imported: what is in the book already, what somebody chose for
// each, and what is sent for that.
import { Alike, marksOf } from "./alike.js";
import { memberValue } from "./edit.js";
import { memberUid, nameOf } from "./person.js";
import {
  lineText, linesNamed, newUid, readCard, sameCard, withValue, writeCard,
} from "./vcard.js";
import { componentText, partsOf, plainText, telText, unescapeText } from "./values.js";

/** What becomes of a card. */
export const ADD = "add";
export const SKIP = "skip";
export const OTHER = "other"; // it is marked, and another card than that which it is like
export const REPLACE = "replace";

/** A line of the report that says what isn't as it was, and not only how it is written. */
export function isOfContent(text) {
  return !/ (rewritten|added|renamed|joined to its ADR|given a LABEL)$/.test(text);
}

/** A line of the report without what is of one card alone: lines of one kind are counted. */
export function kindOfLine(text) {
  const front = /(kept under|kept as text:|not carried:|read as Windows-1252:) .*$/s;
  return text.replace(front, "$1").replace(/:$/, "");
}

/** The words under a name: who it is, and how to reach them. */
function under(card) {
  const first = (name) => linesNamed(card, name)[0] ?? null;
  const org = first("ORG")
    ? partsOf(first("ORG").value, ";").map(componentText).filter(Boolean)
    : [];
  const mail = first("EMAIL") ? unescapeText(first("EMAIL").value) : "";
  const tel = first("TEL") ? telText(first("TEL")) : "";
  return [org.join(", "), mail, tel].filter(Boolean).map(plainText).join(" · ").slice(0, 300);
}

/** The cards of a file as they may be imported, with the lines of the report about each. */
export async function itemsOf(file, made, pause) {
  const notes = new Map();
  for (const it of made.report) {
    if (!isOfContent(it.text)) continue;
    if (!notes.has(it.card)) notes.set(it.card, []);
    notes.get(it.card).push(it);
  }
  const items = [];
  await eased(made.rows, ({ card: number, line, uid, vcard }) => {
    const card = readCard(vcard);
    items.push({
      file, number, line, uid, text: vcard, name: nameOf(card).slice(0, 300), under: under(card),
      notes: notes.get(number) ?? [], like: null, what: ADD,
    });
  }, pause);
  return items;
}

/** Lets the page go on now and then. */
async function eased(all, work, pause) {
  for (let at = 0; at < all.length; at += 1) {
    if (at % 250 === 249) await pause(0);
    work(all[at], at);
  }
}

/**
 * Marks the cards that are like one of the book or an earlier one of the files. `book` has the
 * book's cards, `{uid, text, version}` each.
 */
export async function markItems(items, book, pause) {
  const there = new Alike();
  const here = new Alike();
  await eased(book, (it, at) => there.add(at, { ...marksOf(it.text), uid: it.uid }), pause);
  await eased(items, (item, at) => {
    const marks = { ...marksOf(item.text), uid: item.uid };
    item.like = likeOf(item, there.find(marks), here.find(marks), book, items);
    item.what = item.like ? SKIP : ADD;
    here.add(at, marks);
  }, pause);
}

/** What an item is like: a card of the book before one of the files. */
function likeOf(item, there, here, book, items) {
  if (there) {
    const [why, at] = there;
    const { uid, text, version } = book[at];
    const isSame = why === "uid" && sameCard(text, item.text);
    return { in: "book", why, uid, version, isSame, name: nameOf(readCard(text)).slice(0, 300) };
  }
  if (!here) return null;
  const [why, at] = here;
  return { in: "file", why, at, isSame: false, name: items[at].name };
}

/** The card under another UID. */
export function withUid(text, uid) {
  const card = readCard(text);
  return writeCard({
    lines: card.lines.map((it) => (it.name === "UID" ? withValue(it, uid) : it)),
  });
}

/** A group whose members have the UIDs under which they are in the book. */
function withMembers(text, moved) {
  if (!moved.size || !/^KIND:group/im.test(text)) return text;
  const card = readCard(text);
  const lines = card.lines.map((it) => {
    const old = it.name === "MEMBER" ? memberUid(it.value, moved) : null;
    return old === null ? it : withValue(it, memberValue(moved.get(old)));
  });
  const isOther = lines.some((it, at) => lineText(it) !== lineText(card.lines[at]));
  return isOther ? writeCard({ lines }) : text;
}

/** Where the UID of each item goes that isn't stored under it. */
function movesOf(items, places) {
  const moved = new Map();
  for (const item of items) {
    const to = places.get(item)?.uid ?? (item.like?.in === "book" ? item.like.uid : item.uid);
    if (to !== item.uid && !moved.has(item.uid)) moved.set(item.uid, to);
  }
  return moved;
}

/** Where an item is stored: `{uid, version}`, of the card there that it replaces. */
function placeOf(item, items, places) {
  const { like, what, uid } = item;
  if (what !== REPLACE) return { uid, version: 0 };
  if (like.in === "book") return { uid: like.uid, version: like.version };
  return places.get(items[like.at]) ?? { uid, version: 0 };
}

/** Where each item is stored that is imported. `known` says whether the book has a UID. */
function placesOf(items, known) {
  const places = new Map();
  const taken = new Map();
  for (const item of items) {
    if (item.what === SKIP) continue;
    let place = placeOf(item, items, places);
    const before = taken.get(place.uid);
    // Of two that replace one card, or each other, the later one is taken.
    if (before && item.what === REPLACE) places.delete(before);
    else if (before || (!place.version && known(place.uid))) place = { uid: newUid(), version: 0 };
    places.set(item, place);
    taken.set(place.uid, item);
  }
  return places;
}

/**
 * What is sent: rows `{uid, text, name, file, line, version}` in the order of the files. `version`
 * is that of the card in the book that is replaced, and 0 for a new card.
 */
export function planOf(items, known) {
  const places = placesOf(items, known);
  const moved = movesOf(items, places);
  return items.filter((it) => places.has(it)).map((item) => {
    const { uid, version } = places.get(item);
    const text = uid === item.uid ? item.text : withUid(item.text, uid);
    const { name, file, line } = item;
    return { uid, version, text: withMembers(text, moved), name, file, line };
  });
}

/** How many cards are imported, and how many of them are new in the book: `[all, added]`. */
export function sizeOf(items, known) {
  const places = [...placesOf(items, known).values()];
  return [places.length, places.filter((it) => !it.version).length];
}

/** How many cards of each kind of mark there are: `[why, items]` for those that some have. */
export function marked(items) {
  const groups = new Map();
  for (const item of items) {
    if (!item.like) continue;
    const why = item.like.isSame ? "same" : item.like.why;
    if (!groups.has(why)) groups.set(why, []);
    groups.get(why).push(item);
  }
  return ["uid", "mail", "number", "name", "same"].filter((it) => groups.has(it))
    .map((it) => [it, groups.get(it)]);
}

/** The lines of reports by kind, the most frequent first: `[kind, how many]` each. */
export function countLines(lines) {
  const counts = new Map();
  for (const it of lines) {
    const kind = kindOfLine(it.text);
    counts.set(kind, (counts.get(kind) ?? 0) + 1);
  }
  return [...counts].sort((a, b) => b[1] - a[1]);
}

/** Whether a line says that something isn't carried. */
export function isLost({ text }) {
  return text.startsWith("not carried");
}
