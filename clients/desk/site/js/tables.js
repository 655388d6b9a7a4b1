// The tables of the desk's copy in IndexedDB, and how those of an older desk are taken over.
import { rowOf } from "./person.js";
import { newUid, readCard, uidOf } from "./vcard.js";

const VERSION = 3;
export const RELAXED = { durability: "relaxed" };
// For what somebody typed: it is on the disk before the desk says that it is kept.
export const STRICT = { durability: "strict" };

export function done(request) {
  return new Promise((resolve, reject) => {
    request.onsuccess = () => resolve(request.result);
    request.onerror = () => reject(request.error);
  });
}

export function ended(transaction) {
  return new Promise((resolve, reject) => {
    transaction.oncomplete = () => resolve();
    transaction.onabort = () => reject(transaction.error ?? new Error("aborted"));
  });
}

/** All keys that begin with the book: an array is above every text. */
export function ofBook(book) {
  return IDBKeyRange.bound([book], [book, []]);
}

/** The keys of a card's drafts, of each slot. */
export function ofCard(book, uid) {
  return IDBKeyRange.bound([book, uid], [book, uid, []]);
}

export async function openTables(name) {
  const request = indexedDB.open(name, VERSION);
  request.onupgradeneeded = (event) => {
    if (event.oldVersion === 1) takeOver(request.result, request.transaction);
    else if (event.oldVersion === 2) addMoves(request.transaction);
    else makeTables(request.result);
  };
  const db = await done(request);
  db.onversionchange = () => db.close();
  return db;
}

function makeTables(db) {
  db.createObjectStore("books", { keyPath: "name" });
  db.createObjectStore("cards", { keyPath: ["book", "uid"] });
  // What changed in the rows of the list, in the order in which it did.
  db.createObjectStore("rows", { autoIncrement: true }).createIndex("book", "book");
  // Changes that the server doesn't have yet.
  addFrom(db.createObjectStore("queue", { keyPath: ["book", "uid"] }));
  // What was typed into forms. A second form of the same card has a slot of its own.
  db.createObjectStore("drafts", { keyPath: ["book", "uid", "slot"] });
  db.createObjectStore("trash", { autoIncrement: true, keyPath: "id" }).createIndex("at", "at");
  db.createObjectStore("settings");
}

// Cards that are moved are found by the book that they leave.
function addFrom(queue) {
  queue.createIndex("from", ["from", "uid"]);
}

/** From the second version: cards can be moved in the queue, and rows have categories. */
async function addMoves(tx) {
  addFrom(tx.objectStore("queue"));
  const rows = tx.objectStore("rows");
  rows.clear();
  for (const book of await done(tx.objectStore("books").getAllKeys())) {
    const cards = await done(tx.objectStore("cards").getAll(ofBook(book)));
    for (let at = 0; at < cards.length; at += 500) {
      const part = cards.slice(at, at + 500)
        .map(({ uid, version, text }) => rowOf(book, uid, version, text));
      rows.add({ book, text: JSON.stringify({ rows: part, gone: [] }) });
    }
  }
}

/**
 * From the first version: the names of the books, the drafts and the settings stay. The cards come
 * again from the server.
 */
async function takeOver(db, tx) {
  const [books, drafts] = await Promise.all(
    ["books", "drafts"].map((it) => done(tx.objectStore(it).getAll())),
  );
  const book = await done(tx.objectStore("settings").get("book"));
  for (const name of [...db.objectStoreNames]) db.deleteObjectStore(name);
  makeTables(db);
  for (const { name } of books) tx.objectStore("books").put(emptyBook(name));
  for (const draft of drafts) {
    // The draft of a new card had no UID of its own.
    const uid = draft.uid || uidOf(readCard(draft.text)) || newUid();
    tx.objectStore("drafts").put({
      ...draft, uid, slot: 0, isNew: draft.uid === "", at: Date.now(),
    });
  }
  if (book !== undefined) tx.objectStore("settings").put(book, "book");
}

export function emptyBook(name) {
  return { name, token: "", round: 1, whole: false, synced: 0, rights: "" };
}
