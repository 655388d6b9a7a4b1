// Reads and writes vCard 4.0 texts (RFC 6350). A card is its property lines in order, between
// VERSION and END. A line that isn't changed is written as it was read, character for character;
// only folds and line ends are not kept, which the server makes anew.

const HEAD = /(?:([A-Za-z0-9-]+)\.)?([A-Za-z0-9-]+)/y;
const PARAM = /;([A-Za-z0-9-]+)=((?:"[^"]*"|[^";:,]*)(?:,(?:"[^"]*"|[^";:,]*))*)/y;
const PARAM_VALUE = /"([^"]*)"|([^",]+)/g;

/** The logical lines of a text: folds undone, empty lines left out. */
export function unfold(text) {
  return text
    .replace(/^\uFEFF/, "")
    .replace(/\r?\n[ \t]/g, "")
    .split(/\r?\n/)
    .filter((line) => line !== "");
}

/** One property line, or null if the text isn't one. `head` is all before the colon. */
export function readLine(text) {
  HEAD.lastIndex = 0;
  const start = HEAD.exec(text);
  if (!start) return null;
  let at = HEAD.lastIndex;
  const params = [];
  for (;;) {
    PARAM.lastIndex = at;
    const found = PARAM.exec(text);
    if (!found) break;
    at = PARAM.lastIndex;
    const values = [...found[2].matchAll(PARAM_VALUE)].map((it) => uncaret(it[1] ?? it[2]));
    params.push({ name: found[1].toUpperCase(), values, text: found[0] });
  }
  if (text[at] !== ":") return null;
  return {
    group: start[1] ?? "",
    name: start[2].toUpperCase(),
    params,
    head: text.slice(0, at),
    value: text.slice(at + 1),
  };
}

/** A line of a name, parameters as written (";TYPE=work") and a value. */
export function makeLine(name, params, value) {
  return readLine(`${name}${params}:${value}`);
}

/** The same line with another value. Its group and its parameters stay. */
export function withValue(line, value) {
  return { ...line, value };
}

/** The same line with other parameters: a list of texts, each beginning with a semicolon. */
export function withParams(line, texts, value = line.value) {
  const group = line.group ? `${line.group}.` : "";
  return readLine(`${group}${line.name}${texts.join("")}:${value}`);
}

export function lineText(line) {
  return `${line.head}:${line.value}`;
}

/** The card that a text spells: its lines, and those that can't be read, which are kept too. */
export function readCard(text) {
  const lines = [];
  for (const logical of unfold(text)) {
    const line = readLine(logical) ?? { group: "", name: "", params: [], head: "", value: logical };
    if (line.group === "" && ["BEGIN", "VERSION", "END"].includes(line.name)) continue;
    lines.push(line);
  }
  return { lines };
}

/** The card's text, with lines that end in CRLF and aren't folded. */
export function writeCard(card) {
  const lines = card.lines.map((line) => (line.name ? lineText(line) : line.value));
  return ["BEGIN:VCARD", "VERSION:4.0", ...lines, "END:VCARD", ""].join("\r\n");
}

/** Whether two texts spell the same card, however they are folded. */
export function sameCard(one, other) {
  return writeCard(readCard(one)) === writeCard(readCard(other));
}

/** The card's lines with a name, the preferred first. */
export function linesNamed(card, name) {
  const found = card.lines.filter((line) => line.name === name);
  return found
    .map((line, place) => [preference(line), place, line])
    .sort((a, b) => a[0] - b[0] || a[1] - b[1])
    .map((it) => it[2]);
}

export function firstNamed(card, name) {
  return linesNamed(card, name)[0] ?? null;
}

/** The value of a parameter, its values joined by commas; "" if the line has none. */
export function param(line, name) {
  return line.params
    .filter((it) => it.name === name)
    .flatMap((it) => it.values)
    .join(",");
}

/** The types of a line in lower case. A quoted value may have several, between commas. */
export function typesOf(line) {
  return param(line, "TYPE").toLowerCase().split(",").map((it) => it.trim()).filter(Boolean);
}

function preference(line) {
  const number = Number.parseInt(param(line, "PREF"), 10);
  if (number >= 1) return number;
  return typesOf(line).includes("pref") ? 1 : 101;
}

/** RFC 6868: ^n, ^' and ^^ in the value of a parameter. */
function uncaret(text) {
  return text.replace(/\^([n'^])/g, (_, it) => ({ n: "\n", "'": '"', "^": "^" })[it]);
}

/** The UID as the card has it, or "". */
export function uidOf(card) {
  return card.lines.find((line) => line.name === "UID")?.value ?? "";
}

/** "individual", "group", "org", "location", or another kind in lower case. */
export function kindOf(card) {
  return card.lines.find((line) => line.name === "KIND")?.value.toLowerCase() || "individual";
}

/** A UID for a new card: a random UUID (RFC 9562), as a URN. */
export function newUid() {
  const bytes = crypto.getRandomValues(new Uint8Array(16));
  bytes[6] = (bytes[6] & 0x0f) | 0x40;
  bytes[8] = (bytes[8] & 0x3f) | 0x80;
  const hex = [...bytes].map((it) => it.toString(16).padStart(2, "0")).join("");
  const parts = [0, 8, 12, 16, 20, 32];
  return `urn:uuid:${parts.slice(1).map((end, at) => hex.slice(parts[at], end)).join("-")}`;
}

/** The texts of the cards of a file that has any number of them, with the text between dropped. */
export function splitCards(text) {
  const cards = [];
  let lines = null;
  // Each of several files may begin with a mark of its order of octets.
  for (const line of text.replace(/^\uFEFF/gm, "").split(/\r?\n/)) {
    if (/^BEGIN:VCARD\s*$/i.test(line) && lines === null) lines = [];
    if (lines === null) continue;
    lines.push(line);
    if (/^END:VCARD\s*$/i.test(line)) {
      cards.push(`${lines.join("\r\n")}\r\n`);
      lines = null;
    }
  }
  // A card without its end is kept, so that the server says what is wrong with it.
  if (lines !== null) cards.push(lines.join("\r\n"));
  return cards;
}

/** The card's text with a new UID if it has none. */
export function withSomeUid(text) {
  if (unfold(text).some((line) => readLine(line)?.name === "UID")) return text;
  return text.replace(/\r\nEND:VCARD\s*$/i, (end) => `\r\nUID:${newUid()}${end}`);
}
