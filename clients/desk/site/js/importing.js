// An import in parts: what is sent, what came of it, and what is still to be sent. All of it is
// kept in the browser before the first part goes, so that it goes on after a reload. A part that
// may have arrived is sent again under its own key, which changes nothing if it did (docs/API.md,
// Import and export).
import { Fault } from "./api.js";
import { sameCard } from "./vcard.js";

const ROWS = 250; // of a part: small enough to stop soon
const OCTETS = 2_000_000;
const PAUSES = [1000, 2000, 4000];

/** How an import stands. */
export const GOING = "going";
export const STOPPED = "stopped"; // it can go on
export const ENDED = "ended";

/** The states of a part. */
const WAITS = "waits";
const SENT = "sent"; // it may have arrived
const DONE = "done";

/** A text of at most so many UTF-16 units has at most thrice as many octets. */
function sizeOf(row) {
  return row.text.length * 3 + row.uid.length * 3;
}

/** Cuts rows into parts of which each can be one import. */
export function cutRows(rows) {
  const parts = [];
  let size = OCTETS;
  for (const row of rows) {
    const part = parts[parts.length - 1];
    if (!part || part.length === ROWS || size + sizeOf(row) > OCTETS) {
      parts.push([row]);
      size = 0;
    } else {
      part.push(row);
    }
    size += sizeOf(row);
  }
  return parts;
}

/** Rows as an import takes them. */
export function csvOf(rows) {
  const cell = (text) => `"${text.replace(/"/g, '""')}"`;
  return `uid,vcard\n${rows.map((it) => `${cell(it.uid)},${cell(it.text)}\n`).join("")}`;
}

/** A new import, `about` with what is said of it later. */
export function newImport(key, book, parts, about) {
  return {
    key, book, ...about, state: GOING, why: "", begun: Date.now(), ended: 0, refused: [],
    parts: parts.map((rows, at) => ({
      key: `${key}.${at}`, rows: rows.length, state: WAITS, new: 0, edited: 0, same: 0, out: 0,
    })),
  };
}

/** The numbers of an import: cards that are done, of each kind, and in all. */
export function numbersOf(journal) {
  const sum = (key) => journal.parts.reduce((all, it) => all + it[key], 0);
  const done = journal.parts.filter((it) => it.state === DONE);
  const sent = journal.parts.filter((it) => it.state === SENT);
  return {
    maybe: sent.reduce((all, it) => all + it.rows, 0), // sent, and no reply came
    new: sum("new"), edited: sum("edited"), same: sum("same"),
    total: sum("rows") + sum("out"), refused: journal.refused.length,
    done: done.reduce((all, it) => all + it.rows + it.out, 0),
    left: journal.parts.filter((it) => it.state !== DONE).reduce((all, it) => all + it.rows, 0),
  };
}

/**
 * Sends what is left. `run` has what it needs of the desk: `send(key, body)`, `rows(at)`,
 * `keepRows(at, rows)`, `keep(journal)`, `look(rows)`, `before(journal, at, rows)`,
 * `tell(journal)`, `pause(ms)`, `isOver()`, and `words(fault, row)` for what a fault means.
 */
export async function goOn(journal, run) {
  Object.assign(journal, { state: GOING, why: "" });
  for (let at = 0; at < journal.parts.length; at += 1) {
    if (journal.parts[at].state === DONE) continue;
    if (run.isOver()) {
      journal.state = STOPPED;
      break;
    }
    const fault = await sendPart(journal, at, run);
    if (fault) {
      Object.assign(journal, { state: STOPPED, why: run.words(fault, null) });
      break;
    }
    run.tell(journal);
  }
  if (journal.state === GOING) Object.assign(journal, { state: ENDED, ended: Date.now() });
  await run.keep(journal);
  run.tell(journal);
  return journal;
}

/** Sends a part, again where no reply comes. Answers the fault that stops the import, or null. */
async function sendPart(journal, at, run) {
  for (let tries = 0; ; tries += 1) {
    try {
      await tryPart(journal, at, run);
      return null;
    } catch (fault) {
      if (!(fault instanceof Fault)) throw fault;
      const isPassing = fault.isPassing || fault.is("busy");
      if (!isPassing || tries >= PAUSES.length || run.isOver()) return fault;
      await run.pause(PAUSES[tries]);
    }
  }
}

/** Sends a part until the server takes it, without the rows that it refuses. */
async function tryPart(journal, at, run) {
  const part = journal.parts[at];
  let rows = await run.rows(at);
  if (part.state === WAITS) rows = await leaveOut(journal, at, await run.look(rows), rows, run);
  while (rows.length) {
    if (part.state === WAITS) {
      part.state = SENT;
      await run.before(journal, at, rows);
    }
    const fault = await answer(part, rows, run);
    if (!fault) break;
    // All or nothing: the row at fault is taken out, and the others are another import.
    const bad = rows[fault.row - 1];
    rows = await leaveOut(journal, at, [[bad, run.words(fault, bad)]], rows, run);
    part.key = `${journal.key}.${at}.${part.out}`;
  }
  part.state = DONE;
  await run.keep(journal);
}

/** Sends the rows. Answers the fault if one of them is refused. */
async function answer(part, rows, run) {
  try {
    const reply = await run.send(part.key, csvOf(rows));
    for (const kind of ["new", "edited", "same"]) part[kind] = reply[kind];
    return null;
  } catch (fault) {
    if (!(fault instanceof Fault)) throw fault;
    // What the server refused isn't there; with a fault of its disk it may be.
    if (fault.from === "server" && !fault.is("store-fault")) part.state = WAITS;
    if (fault.is("bad-import") && rows[fault.row - 1]) return fault;
    throw fault;
  }
}

/** Takes rows out of a part, `[row, why]` each, and keeps that. */
async function leaveOut(journal, at, bad, rows, run) {
  if (!bad.length) return rows;
  const out = new Set(bad.map((it) => it[0]));
  const kept = rows.filter((it) => !out.has(it));
  const part = journal.parts[at];
  part.rows = kept.length;
  part.out += out.size;
  for (const [row, why] of bad) {
    journal.refused.push({ name: row.name, file: row.file, line: row.line, why });
  }
  await run.keepRows(at, kept);
  await run.keep(journal);
  return kept;
}

/**
 * Why a row isn't sent, "" if it is: `now` is the card of its UID in the book as it is now, or
 * undefined, and `isWaiting` says that a change of it isn't sent yet.
 */
export function clashOf(row, now, isWaiting) {
  if (isWaiting) return "importWaits";
  if (now && sameCard(now.text, row.text)) return "";
  if ((now?.version ?? 0) === row.version) return "";
  return now ? "importChanged" : "importGone";
}
