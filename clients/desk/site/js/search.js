// Search over the rows of cards, in memory. Three letters find a name, a word of the organisation
// or of a mail address; digits find a number.

const LETTERS = {
  ß: "ss", ø: "o", đ: "d", ð: "d", ł: "l", æ: "ae", œ: "oe", þ: "th", ı: "i",
};

// Of numbers with so many digits the last ones are enough.
const LONG = 8;

const SPELT = { ä: "ae", ö: "oe", ü: "ue", ø: "oe", å: "aa" };

/** The text with umlauts as two letters, as many type them: Müller is Mueller then. */
export function spellOut(text) {
  return text.normalize("NFC").replace(/[äöüøå]/gi, (it) => SPELT[it.toLowerCase()]);
}

/** The text in small letters without accents and apostrophes, and with one space between words. */
export function fold(text) {
  if (/^[\x00-\x7f]*$/.test(text)) {
    return text.toLowerCase().replace(/'/g, "").replace(/[^a-z0-9@.+]+/g, " ").trim();
  }
  return text
    .normalize("NFKD")
    .replace(/[\p{M}'’ʼ]+/gu, "")
    .toLowerCase()
    .replace(/[ßøđðłæœþı]/g, (it) => LETTERS[it])
    .replace(/[^\p{L}\p{N}@.+]+/gu, " ")
    .trim();
}

/** What was typed, ready to compare: words, and digits if it may be a number. */
export function readQuery(text) {
  const words = fold(text).split(" ").filter(Boolean);
  const isNumber = /^[\s+\d().\-/]+$/.test(text) && /\d/.test(text);
  const digits = isNumber ? text.replace(/\D/g, "") : "";
  const begins = words.map((it) => ` ${it}`);
  const trunk = digits.replace(/^0+/, "");
  return { words, begins, digits, trunk, end: trunk.length < LONG ? "" : trunk.slice(-LONG) };
}

/**
 * What a row has for the search: folded texts of its names, of other words, and of what is looked
 * through last. It is one text, as most rows don't match, and one look is enough to see that.
 */
export function searchText(names, words, more) {
  return `${names}\n${words}\n${more}`;
}

/** 0 for the best match, higher for a lesser one, -1 for none. */
export function rank(row, query) {
  if (query.digits && row.digits && hasNumber(row.digits, query)) return 0;
  if (!query.words.length) return -1;
  let worst = 0;
  for (let at = 0; at < query.words.length; at += 1) {
    const place = row.search.indexOf(query.words[at]);
    const found = place < 0 ? -1 : rankAt(row.search, place, query.begins[at]);
    if (found < 0) return -1;
    if (found > worst) worst = found;
  }
  return worst;
}

/** The rank of one word, which is first at `place`; `begin` is the word as one begins. */
function rankAt(text, place, begin) {
  const start = text.indexOf(begin, place - 1);
  if (start === 0) return 0;
  const names = text.indexOf("\n");
  if (start > 0 && start < names) return 1;
  const words = text.indexOf("\n", names + 1);
  if (start > 0 && start < words) return 2;
  if (place < names) return 3;
  if (place < words) return 4;
  return start < 0 ? -1 : 5;
}

// A number may be stored as +353 20 911 0177 and typed as 020 911 0177, or the other way round: so
// leading zeros don't count, and of long numbers the last eight digits are enough.
function hasNumber(digits, query) {
  const { trunk, end } = query;
  if (digits.includes(query.digits)) return true;
  if (trunk !== "" && trunk !== query.digits && digits.includes(trunk)) return true;
  for (let at = end ? digits.indexOf(end) : -1; at >= 0; at = digits.indexOf(end, at + 1)) {
    if (at + LONG === digits.length || digits[at + LONG] === " ") return true;
  }
  return false;
}

/** A search that goes on from the one before it. */
export class Searcher {
  constructor() {
    this.rows = null; // all rows of the last search
    this.typed = "";
    this.query = null;
    this.matches = []; // those that matched, in their own order
  }

  /** Whether what matches the query has matched the one before it, as that was shorter. */
  goesOn(rows, typed, { digits, trunk }) {
    if (rows !== this.rows || !this.typed || !typed.startsWith(this.typed)) return false;
    // Of a number the trunk must have been looked for; longer ones are found by their ends.
    return digits === "" || (this.query.trunk !== "" && trunk.length <= LONG);
  }

  /** The rows that match, the best first, and in their own order where they match alike. */
  find(rows, text) {
    const query = readQuery(text);
    if (!query.words.length && !query.digits) return text.trim() === "" ? rows : [];
    const typed = query.words.join(" ");
    const isLess = this.goesOn(rows, typed, query);
    const ranked = [[], [], [], [], [], []];
    const matches = [];
    for (const row of isLess ? this.matches : rows) {
      const found = rank(row, query);
      if (found < 0) continue;
      ranked[found].push(row);
      matches.push(row);
    }
    Object.assign(this, { rows, typed, query, matches });
    return [].concat(...ranked);
  }
}

/** One search by itself. */
export function search(rows, text) {
  return new Searcher().find(rows, text);
}

/**
 * Sorts rows by name as the language does, then by book and UID; `by` is "name", or "family" for
 * the family name first.
 */
export function sortRows(rows, language, by = "name") {
  const { compare } = new Intl.Collator(language, { sensitivity: "base", numeric: true });
  const order = (a, b) => (a < b ? -1 : Number(a > b));
  const name = by === "family" ? familyFirst : (row) => row.name;
  const keyed = rows.map((row) => [name(row), row]);
  keyed.sort(
    (a, b) => compare(a[0], b[0]) || order(a[1].book, b[1].book) || order(a[1].uid, b[1].uid),
  );
  return keyed.map((it) => it[1]);
}

/** The name by which a row is sorted if family names come first. */
export function familyFirst(row) {
  if (row.family) return `${row.family} ${row.given ?? ""}`;
  if (row.kind !== "individual") return row.name;
  const words = row.name.split(" ");
  return words.length > 1 ? `${words[words.length - 1]} ${row.name}` : row.name;
}
