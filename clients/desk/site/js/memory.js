// The office's memory: the versions of cards that `follow` of clients/python keeps, where the front
// server hands them out (docs/CLIENTS.md, "What was there before"). What is in them is anybody's:
// each part is tested before it is used, and shown as text.
import { merge3 } from "./merge.js";
import { clean, plainText } from "./values.js";
import { readCard, uidOf } from "./vcard.js";

const SECONDS = 20;
const PAUSE = 300; // before it is asked about a card that is only passed in the list
const LATER = 60_000;
const LARGEST_LIST = 4_000_000;
const LARGEST_CARD = 300_000;
const MOST_VERSIONS = 1000;
const LONGEST_NAME = 80;

// How `follow` names the folder of a card.
const PLAIN = /^[a-z0-9_][a-z0-9_@+=.-]{0,79}$/;
const DEVICES = /^(?:con|prn|aux|nul|com[0-9]|lpt[0-9])(?:\..*)?$/;
const FILE = /^\d{13}-\d{4}-\d\d-\d\dT\d{6}Z(?:-\d{1,9})?\.vcf(\.removed)?$/;

/** The name of the folder with the versions of a card. */
export async function folderOf(uid) {
  if (PLAIN.test(uid) && !DEVICES.test(uid) && !uid.endsWith(".")) return uid;
  const octets = await crypto.subtle.digest("SHA-256", new TextEncoder().encode(uid));
  const digest = [...new Uint8Array(octets)].map((it) => it.toString(16).padStart(2, "0")).join("");
  const words = uid.toLowerCase().replace(/[^a-z0-9]+/g, "-").replace(/^-|-$/g, "").slice(0, 40);
  return `${words}~${digest.slice(0, 32)}`;
}

/** The versions of a card in a list that was read, the newest first; null if it is no such list. */
export function readList(text, uid) {
  let data;
  try {
    data = JSON.parse(text);
  } catch {
    return null;
  }
  if (data?.uid !== uid || !Array.isArray(data.versions)) return null;
  const found = data.versions.slice(-MOST_VERSIONS).map(versionOf).filter(Boolean).reverse();
  return found.length ? found : null;
}

function versionOf(line) {
  const name = typeof line?.file === "string" ? FILE.exec(line.file) : null;
  if (!name) return null;
  const time = typeof line.seen === "string" ? Date.parse(line.seen) : NaN;
  const who = typeof line.who === "string" ? plainText(clean(line.who)).trim() : "";
  return {
    file: line.file, isRemoval: Boolean(name[1]), at: Number.isFinite(time) ? time : 0,
    who: who.length > LONGEST_NAME ? `${who.slice(0, LONGEST_NAME)}…` : who,
  };
}

/** What a version changed, value by value: `{name, was, now}`, of which one may be null. */
export function changesOf(before, after) {
  return merge3(before, after, before).changes.filter((it) => it.was || it.now);
}

export class Memory {
  /**
   * `base` is the address of the versions, as "/versions". `learnt(books)` is called when one more
   * book is known of which versions are handed out.
   */
  constructor(base, learnt = () => {}, fetcher = (...all) => fetch(...all)) {
    this.base = base;
    this.learnt = learnt;
    this.fetcher = fetcher;
    this.books = new Set(); // books of which versions were handed out at some time
    this.found = new Set(); // the keys of cards that have versions
    this.served = new Set(); // books of which versions are handed out now
    this.pauses = new Map(); // until when it isn't asked for a book
    this.timer = 0;
  }

  async address(book, uid, file) {
    return `${this.base}/${[book, await folderOf(uid), file].map(encodeURIComponent).join("/")}`;
  }

  /** The text of a file, or null if it isn't handed out or too large. */
  async get(book, uid, file, largest) {
    const reply = await this.fetcher(await this.address(book, uid, file), {
      cache: "no-cache", credentials: "same-origin", redirect: "error",
      signal: AbortSignal.timeout(SECONDS * 1000),
    });
    if (!reply.ok || Number(reply.headers.get("content-length")) > largest) return null;
    const text = await reply.text();
    return text.length > largest ? null : text;
  }

  /** The versions of a card, the newest first; null if there are none, or no reply comes. */
  async list(book, uid) {
    try {
      const text = await this.get(book, uid, "index.json", LARGEST_LIST);
      return text === null ? null : readList(text, uid);
    } catch {
      return null;
    }
  }

  /** The text of a version, or null if it can't be read or is of another card. */
  async text(book, uid, { file }) {
    try {
      const text = await this.get(book, uid, file, LARGEST_CARD);
      return text !== null && uidOf(readCard(text)) === uid ? text : null;
    } catch {
      return null;
    }
  }

  /** Whether a card is known to have versions. */
  has(book, uid) {
    return this.found.has(`${book}/${uid}`);
  }

  /** A card is shown: finds out soon whether it has versions. */
  shown(book, uid) {
    clearTimeout(this.timer);
    const isQuiet = !this.served.has(book) && (this.pauses.get(book) ?? 0) > Date.now();
    if (isQuiet || this.has(book, uid)) return;
    this.timer = setTimeout(() => this.look(book, uid), PAUSE);
  }

  async look(book, uid) {
    if (!(await this.list(book, uid))) {
      this.pauses.set(book, Date.now() + LATER);
      return;
    }
    this.served.add(book);
    this.found.add(`${book}/${uid}`);
    if (this.books.has(book)) return;
    this.books.add(book);
    this.learnt([...this.books]);
  }
}
