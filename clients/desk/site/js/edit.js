// The fields of the form, and the card after an edit. Lines whose fields are as they were are kept
// as they are, and so is every line that the form doesn't know.
import {
  firstNamed, kindOf, linesNamed, makeLine, param, typesOf, uidOf, withParams, withValue,
} from "./vcard.js";
import {
  clean, componentOfList, componentText, dateParts, escapeText, partsOf, photoOf, telText, telUri,
  unescapeText,
} from "./values.js";
import { dateOf, readDate } from "./dates.js";
import { dateText, locale } from "./say.js";
import { isOfGroup, ownLabel, withLabel } from "./labels.js";
import { useOf } from "./person.js";

const USES = [
  "work", "home", "cell", "fax", "pager",
  "spouse", "child", "parent", "sibling", "friend", "colleague", "agent", "emergency",
];

/** A card for a new form. */
export function newCard(kind, uid) {
  const lines = [makeLine("UID", "", uid)];
  if (kind !== "individual") lines.push(makeLine("KIND", "", kind));
  return { lines };
}

// Lines that only the forms of persons have, and only those of groups.
const OF_PERSONS = ["N", "NICKNAME", "TITLE", "BDAY", "ANNIVERSARY"];
const OF_GROUPS = ["MEMBER"];

/** The new card as one of another kind, without the lines that its form doesn't show. */
export function asKind(card, kind) {
  const others = ["KIND", ...(kind === "individual" ? [] : OF_PERSONS),
    ...(kind === "group" ? [] : OF_GROUPS)];
  const kept = card.lines.filter((line) => !others.includes(line.name));
  const own = newCard(kind, uidOf(card)).lines.filter((line) => line.name === "KIND");
  return { lines: [...kept, ...own] };
}

/** The preferred line of a name as a text, "" without one. */
function single(card, name, show = (line) => unescapeText(line.value)) {
  const line = firstNamed(card, name);
  return line ? show(line) : "";
}

function several(card, name, show) {
  return linesNamed(card, name).map((line) => ({
    line, use: useOf(line).join(","), label: ownLabel(card.lines, line), text: show(line),
  }));
}

function components(card, name, count, show) {
  const line = firstNamed(card, name);
  const parts = line ? partsOf(line.value, ";").map(show) : [];
  return Array.from({ length: count }, (_, at) => parts[at] ?? "");
}

/** Everything that the form edits. */
export function fieldsOf(card) {
  const plain = (line) => unescapeText(line.value);
  return {
    kind: kindOf(card),
    fn: single(card, "FN"),
    n: components(card, "N", 5, componentText),
    nickname: single(card, "NICKNAME", (line) => componentText(line.value)),
    org: components(card, "ORG", 2, unescapeText),
    title: single(card, "TITLE"),
    tels: several(card, "TEL", telText),
    mails: several(card, "EMAIL", plain),
    urls: several(card, "URL", plain),
    chats: several(card, "IMPP", plain),
    related: several(card, "RELATED", plain),
    adrs: linesNamed(card, "ADR").map((line) => {
      const parts = partsOf(line.value, ";").map(componentText);
      const at = (place) => parts[place] ?? "";
      return {
        line, use: useOf(line).join(","), label: ownLabel(card.lines, line),
        text: [at(2), at(5), at(3), at(4), at(6)],
      };
    }),
    bday: single(card, "BDAY", dateShown),
    anniversary: single(card, "ANNIVERSARY", dateShown),
    note: single(card, "NOTE"),
    categories: single(card, "CATEGORIES", (line) => componentText(line.value)),
    members: card.lines.filter((line) => line.name === "MEMBER").map((line) => line.value),
    photo: photoOf(firstNamed(card, "PHOTO")),
  };
}

/** A date as the form shows it: as people write it where they are, or the text as it is. */
function dateShown(line) {
  const date = param(line, "VALUE") === "text" ? null : dateParts(line.value);
  return date && !line.value.includes("T") ? dateText(date) : unescapeText(line.value);
}

const same = (one, other) => JSON.stringify(one) === JSON.stringify(other);

/** The card after the edit from the fields `before` to `after`. */
export function editCard(card, before, after) {
  const edit = new Edit(card);
  const changed = (key) => !same(before[key], after[key]);
  if (changed("fn") || !firstNamed(card, "FN")) edit.set("FN", escapeText(after.fn.trim()), true);
  if (changed("n")) edit.set("N", parts(card, "N", before.n, after.n, componentOfList));
  if (changed("nickname")) edit.set("NICKNAME", componentOfList(after.nickname));
  if (changed("org")) {
    edit.set("ORG", parts(card, "ORG", before.org, after.org, escapeText).replace(/;+$/, ""));
  }
  if (changed("title")) edit.set("TITLE", escapeText(after.title.trim()));
  if (changed("note")) edit.set("NOTE", escapeText(after.note.replace(/\s+$/, "")));
  if (changed("categories")) edit.set("CATEGORIES", componentOfList(after.categories));
  if (changed("bday")) edit.setDate("BDAY", after.bday.trim());
  if (changed("anniversary")) edit.setDate("ANNIVERSARY", after.anniversary.trim());
  if (changed("photo")) edit.setPhoto(after.photo);
  if (changed("members")) edit.setMembers(after.members);
  const text = (row) => clean(row.text).trim();
  edit.setRows("TEL", before.tels, after.tels, text, telLine);
  edit.setRows("EMAIL", before.mails, after.mails, text, textLine("EMAIL"));
  edit.setRows("URL", before.urls, after.urls, text, uriLine("URL"));
  edit.setRows("IMPP", before.chats, after.chats, text, textLine("IMPP"));
  edit.setRows("RELATED", before.related, after.related, text, relatedLine);
  edit.setRows("ADR", before.adrs, after.adrs, (row) => row.text.join("").trim(), addressLine);
  return edit.card();
}

/** The value of N or ORG: a part that the form left alone stays as it was written. */
function parts(card, name, before, after, write) {
  const line = firstNamed(card, name);
  const old = line ? partsOf(line.value, ";") : [];
  const count = Math.max(old.length, after.length);
  const all = Array.from({ length: count }, (_, at) =>
    at >= after.length || before[at] === after[at] ? (old[at] ?? "") : write(after[at].trim()),
  );
  return all.every((it) => it === "") ? "" : all.join(";");
}

/** The parameters of a line for other uses, as "work,cell"; those that aren't uses stay. */
function paramsFor(line, use) {
  const kept = line ? typesOf(line).filter((it) => !USES.includes(it)) : [];
  const types = [...use.split(",").filter(Boolean), ...kept];
  const others = line ? line.params.filter((it) => it.name !== "TYPE").map((it) => it.text) : [];
  // Several types in one parameter are a quoted list (RFC 6350, section 6.4.1).
  const type = types.length > 1 ? [`;TYPE="${types.join(",")}"`] : types.map((it) => `;TYPE=${it}`);
  return [...others, ...type];
}

/** `line` with the uses and the value; a new line of that name if there is none. */
function rewritten(name, row, value, valueType) {
  const { line } = row;
  const isSameUse = line && useOf(line).join(",") === row.use;
  if (isSameUse && valueType === undefined) return withValue(line, value);
  const base = line ?? makeLine(name, "", "");
  let texts = isSameUse ? base.params.map((it) => it.text) : paramsFor(line, row.use);
  if (valueType !== undefined) {
    texts = texts.filter((it) => !/^;VALUE=/i.test(it));
    if (valueType) texts.unshift(`;VALUE=${valueType}`);
  }
  return withParams(base, texts, value);
}

function telLine(row, isSameText) {
  if (isSameText) return rewritten("TEL", row, row.line.value);
  const uri = telUri(row.text);
  if (row.line && /^tel:/i.test(row.line.value)) {
    return uri
      ? rewritten("TEL", row, uri)
      : rewritten("TEL", row, escapeText(row.text.trim()), "");
  }
  return rewritten("TEL", row, escapeText(row.text.trim()));
}

function textLine(name) {
  return (row, isSame) =>
    rewritten(name, row, isSame ? row.line.value : escapeText(row.text.trim()));
}

function uriLine(name) {
  return (row, isSame) => rewritten(name, row, isSame ? row.line.value : webAddress(row.text));
}

/** A related person: a text of somebody's, unless it is an address. */
function relatedLine(row, isSame) {
  if (isSame) return rewritten("RELATED", row, row.line.value);
  const text = clean(row.text).trim();
  const isAddress = /^[a-z][a-z0-9+.-]*:\S+$/i.test(text);
  return isAddress
    ? rewritten("RELATED", row, text, "")
    : rewritten("RELATED", row, escapeText(text), "text");
}

/** An address as somebody types it: "example.org" is a page too. */
function webAddress(text) {
  const typed = clean(text).trim().replace(/\s/g, "%20");
  return /^[a-z0-9-]+(\.[a-z0-9-]+)+(\/|$)/i.test(typed) ? `https://${typed}` : typed;
}

function addressLine(row, isSame) {
  if (isSame) return rewritten("ADR", row, row.line.value);
  const old = row.line ? partsOf(row.line.value, ";") : [];
  const was = old.map(componentText);
  const write = (text, at) =>
    was[at] === text ? old[at] : escapeText(text.trim());
  const [street, code, city, region, country] = row.text;
  const value = [
    old[0] ?? "", old[1] ?? "", write(street, 2), write(city, 3), write(region, 4),
    write(code, 5), write(country, 6),
  ].join(";");
  const line = rewritten("ADR", row, value);
  // A label is the old address as it was printed, so it goes.
  return withParams(line, line.params.filter((it) => it.name !== "LABEL").map((it) => it.text));
}

class Edit {
  constructor(card) {
    this.lines = [...card.lines];
    this.source = card;
  }

  card() {
    const revised = this.lines.findIndex((line) => line.name === "REV");
    if (revised >= 0) {
      const now = new Date().toISOString().replace(/[-:]|\.\d+/g, "");
      this.lines[revised] = withValue(this.lines[revised], now);
    }
    return { lines: this.lines };
  }

  /** Replaces the line, or adds it after the last of its name, or drops it (null). */
  replace(old, line, name) {
    const at = old ? this.lines.indexOf(old) : -1;
    if (at >= 0 && line) this.lines[at] = line;
    else if (at >= 0) this.drop(at);
    else if (line) this.add(line, name);
  }

  add(line, name) {
    const last = this.lines.findLastIndex((it) => it.name === name);
    this.lines.splice(last >= 0 ? last + 1 : this.lines.length, 0, line);
  }

  /** Drops a line, and the labels of its group if nothing else is in that group. */
  drop(at) {
    const [{ group }] = this.lines.splice(at, 1);
    if (!group) return;
    const mates = this.lines.filter((it) => it.group === group);
    if (mates.every(isOfGroup)) {
      this.lines = this.lines.filter((it) => it.group !== group);
    }
  }

  /** Sets the value of the preferred line of a name; an empty one drops it. */
  set(name, value, isNeeded = false) {
    const old = firstNamed(this.source, name);
    if (value === "" && !isNeeded) this.replace(old, null, name);
    else this.replace(old, old ? withValue(old, value) : makeLine(name, "", value), name);
  }

  /** Sets a date. A text that isn't one is kept as a text: the form has asked. */
  setDate(name, text) {
    const old = firstNamed(this.source, name);
    const date = readDate(text, locale);
    const params = old ? old.params.filter((it) => !/^;(VALUE|CALSCALE)=/i.test(it.text)) : [];
    const kept = params.map((it) => it.text);
    const line = old ?? makeLine(name, "", "");
    if (text === "") this.replace(old, null, name);
    else if (date) this.replace(old, withParams(line, kept, dateOf(date)), name);
    else this.replace(old, withParams(line, [";VALUE=text", ...kept], escapeText(text)), name);
  }

  /** Puts a photo in place of the preferred one; the old one's parameters go with it. */
  setPhoto(address) {
    const line = address ? makeLine("PHOTO", "", address) : null;
    this.replace(firstNamed(this.source, "PHOTO"), line, "PHOTO");
  }

  setMembers(values) {
    const old = this.lines.filter((line) => line.name === "MEMBER");
    for (const line of old) {
      if (!values.includes(line.value)) this.drop(this.lines.indexOf(line));
    }
    const kept = new Set(old.map((line) => line.value));
    for (const value of values) {
      if (!kept.has(value)) this.add(makeLine("MEMBER", "", value), "MEMBER");
    }
  }

  /** Sets the lines of a name from the rows of the form. A row without text drops its line. */
  setRows(name, before, after, text, write) {
    for (const row of before) {
      if (!after.some((it) => it.line === row.line)) this.replace(row.line, null, name);
    }
    for (const row of after) {
      const old = before.find((it) => it.line === row.line && row.line);
      const isSameText = Boolean(old) && same(old.text, row.text);
      const label = (row.label ?? "").trim();
      const isSameLabel = label === (old?.label ?? "");
      if (isSameText && isSameLabel && old.use === row.use) continue;
      const line = text(row) === "" ? null : write(row, isSameText);
      this.replace(row.line, line, name);
      if (line && !isSameLabel) this.lines = withLabel(this.lines, line, label);
    }
  }
}

/** What a MEMBER line has for a card: its UID, as a URN if it is a plain UUID. */
export function memberValue(uid) {
  return /^[0-9a-f]{8}(-[0-9a-f]{4}){3}-[0-9a-f]{12}$/i.test(uid) ? `urn:uuid:${uid}` : uid;
}

