// Files of cards: CSV rows and .vcf texts, read for an import and written for an export.
import { componentText, partsOf, telText, unescapeText } from "./values.js";
import { firstNamed, readCard, splitCards, uidOf, withSomeUid } from "./vcard.js";

const MOST = 8_388_608;
const CARDS = "uid,vcard";
const COLUMNS = "uid,fn,family,given,email,tel,org,note";

/** A fault of a file that the desk sees by itself; `word` is a key of the texts. */
export class FileFault extends Error {
  constructor(word, values = {}) {
    super(word);
    this.word = word;
    this.values = values;
  }
}

/**
 * What to send for a file: `{form, body, rows, uids, names}`. `names` has a name for each row, for
 * words about the first bad one. Throws a `FileFault` if it is no such file.
 */
export function readFile(name, bytes) {
  let text;
  try {
    text = new TextDecoder("utf-8", { fatal: true }).decode(bytes);
  } catch {
    throw new FileFault("fileNotUtf8");
  }
  const read = /^\s*BEGIN:VCARD/i.test(text) || /\.vcf$/i.test(name) ? ofCards(text) : ofRows(text);
  if (new TextEncoder().encode(read.body).length > MOST) throw new FileFault("fileTooLarge");
  return read;
}

function ofCards(text) {
  const cards = splitCards(text).map(withSomeUid);
  if (!cards.length) throw new FileFault("fileWithoutCards");
  const rows = cards.map((card) => `,${quoted(card)}\n`);
  const line = (card, property) => {
    const shape = `^(?:[A-Z0-9-]+\\.)?${property}(?:;[^:\\r\\n]*)?:(.*)$`;
    return new RegExp(shape, "im").exec(card)?.[1].trim();
  };
  return {
    form: "vcf",
    body: `${CARDS}\n${rows.join("")}`,
    rows: cards.length,
    uids: cards.map((card) => line(card, "UID") ?? ""),
    names: cards.map((card) => line(card, "FN") ?? ""),
  };
}

function ofRows(text) {
  const [header, ...rows] = records(text);
  const head = (header ?? []).join(",");
  if (head !== CARDS && head !== COLUMNS) {
    throw new FileFault(/;/.test(head) ? "fileSemicolons" : "fileHeader", { header: COLUMNS });
  }
  if (!rows.length) throw new FileFault("fileWithoutCards");
  return {
    form: head === CARDS ? "cards" : "columns",
    body: text,
    rows: rows.length,
    uids: rows.map((row) => row[0]),
    names: rows.map((row) => (head === CARDS ? row[0] : row[1]) ?? ""),
  };
}

/** Cards as a table for spreadsheets: the columns that an import takes. */
export function columnsOf(texts) {
  const cell = (value) => (/[",\r\n]/.test(value) ? quoted(value) : value);
  const rows = texts.map((text) => {
    const card = readCard(text);
    const first = (name) => firstNamed(card, name);
    const plain = (name) => (first(name) ? unescapeText(first(name).value) : "");
    const [family = "", given = ""] = first("N")
      ? partsOf(first("N").value, ";").map(componentText)
      : [];
    const org = first("ORG") ? partsOf(first("ORG").value, ";").map(unescapeText).join(", ") : "";
    const tel = first("TEL") ? telText(first("TEL")) : "";
    return [
      uidOf(card), plain("FN"), family, given, plain("EMAIL"), tel, org, plain("NOTE"),
    ].map(cell).join(",");
  });
  return `${COLUMNS}\n${rows.join("\n")}\n`;
}

function quoted(text) {
  return `"${text.replace(/"/g, '""')}"`;
}

/** The records of a CSV text (RFC 4180); empty lines are left out. */
export function records(text) {
  const all = [];
  let fields = [];
  const field = /(?:"((?:[^"]|"")*)"|([^,"\r\n]*))(,|\r?\n|\r|$)/y;
  const end = text.length;
  let at = text.startsWith("\uFEFF") ? 1 : 0;
  while (at < end) {
    field.lastIndex = at;
    const found = field.exec(text);
    // A quote where none may be: the server says in which row.
    if (!found) break;
    at = field.lastIndex;
    fields.push(found[1] === undefined ? found[2] : found[1].replace(/""/g, '"'));
    if (found[3] !== ",") {
      if (fields.length > 1 || fields[0] !== "") all.push(fields);
      fields = [];
    } else if (at === end) {
      fields.push("");
    }
  }
  if (fields.length) all.push(fields);
  return all;
}

/** Files as a field for files has them. */
export function listOf(files) {
  const data = new DataTransfer();
  for (const it of files) data.items.add(it);
  return data.files;
}

/** Gives the user a file to keep. */
export function saveFile(name, type, text) {
  const url = URL.createObjectURL(new Blob([text], { type }));
  const link = document.createElement("a");
  link.href = url;
  link.download = name;
  link.click();
  setTimeout(() => URL.revokeObjectURL(url), 60_000);
}
