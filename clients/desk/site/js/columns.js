// What becomes of the columns of a spreadsheet: `Name=fn,#3=tel;type=cell`, as `contacts convert`
// has it after --columns, and the head of a file of rows.

/** The words for what a column may become, in the order of the choice, with the TYPEs of each. */
export const TARGETS = [
  ["name", ["fn", "n.given", "n.family", "n.additional", "n.prefix", "n.suffix", "nickname"]],
  ["reach", [
    "tel", "tel;type=work", "tel;type=cell", "tel;type=home", "tel;type=fax",
    "tel;type=work;type=fax", "email", "email;type=work", "email;type=home", "url", "impp",
  ]],
  ["job", ["org", "org.unit", "title", "role"]],
  ...["", "work", "home"].map((type) => [`address${type}`, [
    "adr.street", "adr.code", "adr.city", "adr.region", "adr.country", "adr.box", "adr.extended",
    "adr",
  ].map((it) => (type ? `${it};type=${type}` : it))]),
  ["other", ["bday", "anniversary", "note", "categories", "gender", "lang", "uid"]],
];
/** The word for a column that is left out. */
export const LEFT_OUT = "-";

const KNOWN = new Set([LEFT_OUT, ...TARGETS.flatMap((it) => it[1])]);

/** Whether the choice has the word. */
export function isKnown(word) {
  return KNOWN.has(word);
}

/** What is said of columns: `[name, place, word]` each; the name is "" or the place -1. */
export function readColumns(text) {
  return text.split(",").filter((it) => it.includes("=")).map((entry) => {
    const at = entry.indexOf("=");
    const name = entry.slice(0, at).trim();
    const number = /^#(\d+)$/.exec(name);
    const word = entry.slice(at + 1).trim().toLowerCase();
    return number ? ["", Number(number[1]) - 1, word] : [name, -1, word];
  });
}

/** What is said of each of the columns with these names, "" where nothing is. */
export function wordsFor(names, text) {
  const entries = readColumns(text);
  // The server says all of them in their order.
  if (entries.length === names.length) return entries.map((it) => it[2]);
  const words = names.map(() => "");
  const places = new Map(names.map((name, at) => [name.trim().toLowerCase(), at]));
  for (const [name, place, word] of entries) {
    const at = name ? places.get(name.toLowerCase()) ?? -1 : place;
    if (at >= 0 && at < words.length) words[at] = word;
  }
  return words;
}

/** A name that the server takes as it stands. */
const PLAIN = /^[a-z][a-z0-9 ._-]*$/i;

/**
 * The words of all columns as the server takes them: by their numbers, whatever their names, but
 * the first that has a plain name of its own by that. If all were by number, the first row would be
 * a person, unless it is a header that the server knows.
 */
export function columnsText(words, names = []) {
  const lower = names.map((it) => it.toLowerCase());
  const isOwn = (at) => lower.indexOf(lower[at]) === lower.lastIndexOf(lower[at]);
  const named = words.findIndex((word, at) => word && PLAIN.test(names[at] ?? "") && isOwn(at));
  const column = (at) => (at === named ? names[at] : `#${at + 1}`);
  const entries = words.map((word, at) => (word ? `${column(at)}=${word}` : "")).filter(Boolean);
  if (entries.length && named < 0) entries.push("header");
  return entries.join(",");
}

/** The rows of a text, as far as it goes; `most` of them. Quotes as in RFC 4180. */
export function rowsOf(text, delimiter, most) {
  const rows = [];
  let row = [];
  let at = 0;
  while (at < text.length && rows.length < most) {
    const [cell, end] = text[at] === '"' ? quotedCell(text, at) : plainCell(text, at, delimiter);
    row.push(cell);
    at = end + 1;
    if (text[end] === delimiter) continue;
    if (text[end] === "\r" && text[end + 1] === "\n") at += 1;
    if (row.length > 1 || row[0] !== "") rows.push(row);
    row = [];
  }
  if (row.length && rows.length < most) rows.push(row);
  return rows;
}

/** A cell that isn't quoted, and the place of what ends it. */
function plainCell(text, at, delimiter) {
  let end = at;
  while (end < text.length && !`${delimiter}\r\n`.includes(text[end])) end += 1;
  return [text.slice(at, end), end];
}

/** A quoted cell, and the place after its quote. */
function quotedCell(text, at) {
  let end = at + 1;
  while (end < text.length && (text[end] !== '"' || text[end + 1] === '"')) {
    end += text[end] === '"' ? 2 : 1;
  }
  return [text.slice(at + 1, end).replace(/""/g, '"'), end + 1];
}

/** The delimiter that gives the first rows the most cells. */
export function delimiterOf(text) {
  const cells = (it) => Math.max(0, ...rowsOf(text, it, 5).map((row) => row.length));
  return [",", ";", "\t", "|"].map((it) => [cells(it), it]).sort((a, b) => b[0] - a[0])[0][1];
}

/** The text of octets that may be cut anywhere: as the server, Windows-1252 if it isn't UTF-8. */
function textOf(octets) {
  try {
    return new TextDecoder("utf-8", { fatal: true }).decode(octets, { stream: true });
  } catch {
    return new TextDecoder("windows-1252").decode(octets);
  }
}

/**
 * The names of the columns, and what the first rows have in each: `{names, samples}`. `header` is
 * how many octets the header has with what stands before it; 0 if the server didn't say.
 */
export async function headOf(file, header) {
  const text = async (from, to) => textOf(await file.slice(from, to).arrayBuffer());
  const before = await text(0, header || 65_536);
  const delimiter = delimiterOf(before);
  const rows = rowsOf(before, delimiter, header ? 1000 : 5)
    .filter((it) => !it[0].startsWith("sep="));
  const widest = Math.max(0, ...rows.map((it) => it.length));
  const place = header ? rows.length - 1 : rows.findIndex((it) => it.length === widest);
  const names = rows[place] ?? [];
  const after = header ? rowsOf(await text(header, header + 65_536), delimiter, 50)
    : rows.slice(place + 1);
  const sample = (at) => after.map((row) => (row[at] ?? "").trim()).find(Boolean) ?? "";
  const samples = names.map((_, at) => sample(at));
  return { names: names.map((it) => it.trim()), samples };
}
