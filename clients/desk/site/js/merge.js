// Two edits of one card, put together. What only one side changed is taken from it. Lists, as of
// numbers, addresses and members, are put together like sets. Somebody has to choose only where
// the same value was changed in two ways.
import { isOfGroup, ownLabel } from "./labels.js";
import { telText, unescapeText, partsOf } from "./values.js";
import { lineText, readCard, withParams, withValue, writeCard } from "./vcard.js";

// Programs write these at each edit; nobody has to choose between them.
const OF_PROGRAMS = new Set(["REV", "PRODID"]);
// A card has one of these, as people see it: two that were added are two answers to one question.
const SINGLE = new Set([
  "FN", "N", "BDAY", "ANNIVERSARY", "KIND", "UID", "GENDER", "PHOTO", "NOTE", "ORG", "TITLE",
  "ROLE", "NICKNAME", "CATEGORIES",
]);
const WITH_COMMAS = new Set(["NICKNAME", "CATEGORIES"]);
const WITH_PARTS = new Set(["N", "ORG"]);

/** What makes two lines of a name the same value, however it is written. */
function keyOf(line) {
  if (line.name === "TEL") return telText(line).toLowerCase().replace(/[\s().\-/]/g, "");
  if (line.name === "EMAIL") return unescapeText(line.value).trim().toLowerCase();
  if (line.name === "MEMBER" || line.name === "RELATED") {
    return line.value.trim().toLowerCase().replace(/^urn:uuid:/, "");
  }
  // A label is of its group: two of the same words are two labels.
  if (isOfGroup(line)) return `${line.group.toLowerCase()}.${unescapeText(line.value)}`;
  return line.name ? unescapeText(line.value) : line.value;
}

const textOf = (item) => (item ? item.text : "");
const same = (one, other) => textOf(one) === textOf(other);

/** The items of each name: its lines in order, with their places in the card. */
function itemsOf(card) {
  const names = new Map();
  card.lines.forEach((line, at) => {
    if (!names.has(line.name)) names.set(line.name, []);
    const text = line.name ? lineText(line) : line.value;
    const label = ownLabel(card.lines, line);
    names.get(line.name).push({ line, at, text, key: keyOf(line), label });
  });
  return names;
}

/** Each item with the number of items of the same key before it, so that no two are alike. */
function numbered(items) {
  const seen = new Map();
  return items.map((item) => {
    const number = seen.get(item.key) ?? 0;
    seen.set(item.key, number + 1);
    return `${item.key}\n${number}`;
  });
}

/**
 * What one side made of the items of the base: `kept[i]` is what the item i has become, or null if
 * it is gone; `added` are the others. An item that went where another came was changed into it.
 */
function compare(base, side) {
  const places = new Map(numbered(side).map((key, at) => [key, at]));
  const kept = numbered(base).map((key) => (places.has(key) ? side[places.get(key)] : null));
  const taken = new Map(kept.map((item, at) => [item, at]));
  const gaps = new Map();
  let gap = "start";
  for (const item of side) {
    if (taken.has(item)) gap = taken.get(item);
    else gaps.set(gap, [...(gaps.get(gap) ?? []), item]);
  }
  gap = "start";
  base.forEach((_, at) => {
    if (kept[at]) gap = at;
    else kept[at] = gaps.get(gap)?.shift() ?? null;
  });
  return { kept, added: [...gaps.values()].flat() };
}

/** One of two states of a value, or a question if both sides changed it. */
function settle(name, was, mine, theirs) {
  if (same(mine, theirs)) return { item: theirs, at: theirs?.at };
  if (same(mine, was)) return { item: theirs, at: theirs?.at, by: "theirs", was };
  if (same(theirs, was)) return { item: mine, at: theirs?.at, by: "mine", was };
  // A label goes with its line, about which there may be a question.
  const isLabel = isOfGroup({ name }) && !(mine && theirs);
  if (isLabel || OF_PROGRAMS.has(name)) return { item: mine ?? theirs, at: theirs?.at };
  return { clash: { name, was, mine, theirs }, at: theirs?.at };
}

/** The additions of both sides: the same one once, and for a single value a question. */
function settleAdded(name, mine, theirs, present) {
  const found = [];
  const rest = [...mine];
  for (const item of theirs) {
    let twin = rest.findIndex((it) => it.key === item.key);
    if (twin < 0 && SINGLE.has(name) && rest.length) twin = 0;
    const own = twin < 0 ? null : rest.splice(twin, 1)[0];
    if (own) found.push(settle(name, null, own, item));
    else found.push({ item, at: item.at, by: "theirs", was: null });
  }
  for (const item of rest) {
    if (!present.has(item.key)) found.push({ item, by: "mine", was: null });
  }
  return found;
}

function mergeItems(name, base, mine, theirs) {
  const [own, other] = [compare(base, mine), compare(base, theirs)];
  const found = base.map((was, at) => settle(name, was, own.kept[at], other.kept[at]));
  const present = new Set(found.filter((it) => it.item).map((it) => it.item.key));
  const news = other.added.filter((it) => !present.has(it.key));
  return [...found, ...settleAdded(name, own.added, news, present)];
}

const headOf = (item) => item.line.head;

/** Lists within one line: what each side added and removed. Null if they aren't such lines. */
function mergeCommas(name, sides) {
  const all = sides.flat();
  if (sides.some((it) => it.length > 1) || new Set(all.map(headOf)).size !== 1) return null;
  const [base, mine, theirs] = sides.map((it) =>
    it.length ? partsOf(it[0].line.value, ",").filter((part) => part.trim() !== "") : [],
  );
  const values = theirs.filter((it) => mine.includes(it) || !base.includes(it));
  for (const it of mine) if (!base.includes(it) && !values.includes(it)) values.push(it);
  return [oneLine(name, sides, values.length ? values.join(",") : null)];
}

/** Names and organisations, part by part. Null if a part was changed in two ways. */
function mergeParts(name, sides) {
  if (sides.some((it) => it.length !== 1) || new Set(sides.flat().map(headOf)).size !== 1) {
    return null;
  }
  const [base, mine, theirs] = sides.map((it) => partsOf(it[0].line.value, ";"));
  const values = [];
  for (let at = 0; at < Math.max(mine.length, theirs.length); at += 1) {
    const [was, own, other] = [base, mine, theirs].map((it) => it[at] ?? "");
    if (own !== other && own !== was && other !== was) return null;
    values.push(own === was ? other : own);
  }
  return [oneLine(name, sides, values.join(";"))];
}

function oneLine(name, [base, mine, theirs], value) {
  const [like] = [...theirs, ...mine];
  const line = value === null || !like ? null : withValue(like.line, value);
  const item = line && { line, text: lineText(line), key: keyOf(line) };
  const by = same(item, theirs[0]) ? "" : "mine";
  return { item, at: theirs[0]?.at, by: same(item, base[0]) ? "" : by || "theirs", was: base[0] };
}

function mergeName(name, sides) {
  const [base, mine, theirs] = sides;
  const isTogether = WITH_COMMAS.has(name) || WITH_PARTS.has(name);
  if (!isTogether) return mergeItems(name, base, mine, theirs);
  const whole = WITH_COMMAS.has(name) ? mergeCommas(name, sides) : mergeParts(name, sides);
  return whole ?? mergeItems(name, base, mine, theirs);
}

/** What is in a group of lines, to be compared. */
function linesOf(card, group) {
  const lines = card.lines.filter((it) => it.group.toLowerCase() === group);
  return lines.map(lineText).sort().join("\n");
}

/** Without the labels of lines that are gone. */
function withoutLoose(lines, cards) {
  const named = (all) => new Set(all.filter((it) => !isOfGroup(it)).map((it) =>
    it.group.toLowerCase()));
  const [now, before] = [named(lines), named(cards.flatMap((it) => it.lines))];
  const isLoose = (line) => {
    const group = line.group.toLowerCase();
    return isOfGroup(line) && group && before.has(group) && !now.has(group);
  };
  return lines.filter((line) => !isLoose(line));
}

/** Mine with other names for its new groups of lines, where theirs has new ones of that name. */
function withOwnGroups(base, mine, theirs) {
  const groupsOf = (card) => new Set(card.lines.map((it) => it.group.toLowerCase()));
  const [old, own, other] = [base, mine, theirs].map(groupsOf);
  const names = new Map();
  let number = 1;
  for (const group of own) {
    if (!group || old.has(group) || !other.has(group)) continue;
    if (linesOf(mine, group) === linesOf(theirs, group)) continue; // both added the same
    while ([old, own, other].some((it) => it.has(`item${number}`))) number += 1;
    names.set(group, `item${number}`);
    own.add(`item${number}`);
  }
  const lines = mine.lines.map((line) => {
    const group = names.get(line.group.toLowerCase());
    return group ? withParams({ ...line, group }, line.params.map((it) => it.text)) : line;
  });
  return { lines };
}

/**
 * Puts two edits of `base` together. `clashes` are the values that were changed in two ways, each
 * `{name, was, mine, theirs}` of items or null; `changes` what was taken from one side; and
 * `text(choices)` is the card, with "mine" or "theirs" for each clash ("theirs" without one).
 */
export function merge3(baseText, mineText, theirText) {
  const [base, theirs] = [readCard(baseText), readCard(theirText)];
  const mine = withOwnGroups(base, readCard(mineText), theirs);
  const cards = [base, mine, theirs].map(itemsOf);
  const names = new Set([...cards[2].keys(), ...cards[1].keys(), ...cards[0].keys()]);
  const slots = [];
  for (const name of names) {
    const sides = cards.map((it) => it.get(name) ?? []);
    const last = sides[2].length ? sides[2][sides[2].length - 1].at : Infinity;
    for (const slot of mergeName(name, sides)) {
      slots.push({ ...slot, name, place: slot.at ?? last + 0.5 });
    }
  }
  const clashes = slots.filter((it) => it.clash).map((it) => it.clash);
  const changes = slots
    .filter((it) => it.by && !OF_PROGRAMS.has(it.name))
    .map(({ name, by, was, item }) => ({ name, by, was, now: item }));
  const order = slots.map((slot, at) => [slot.place, at, slot])
    .sort((a, b) => (a[0] === b[0] ? 0 : a[0] - b[0]) || a[1] - b[1])
    .map((it) => it[2]);
  const text = (choices = []) => {
    const chosen = (slot) =>
      slot.clash ? slot.clash[choices[clashes.indexOf(slot.clash)] ?? "theirs"] : slot.item;
    const lines = order.map(chosen).filter(Boolean).map((it) => it.line);
    return writeCard({ lines: withoutLoose(lines, [base, mine, theirs]) });
  };
  return { clashes, changes, text };
}
