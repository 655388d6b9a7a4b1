// What a server that has `POST /convert` makes of a file of contacts: its cards, piece by piece.
// Nothing is stored by that.
import { Fault } from "./api.js";

const PIECE = 262_144;
const LONGEST = 8_388_608;
const TRIES = 5;

/** The character set that a file's first octets show, "" for UTF-8 or what the server finds. */
export function setOf(octets) {
  const [a, b, c, d] = octets;
  if (a === 0xff && b === 0xfe) return "utf-16le";
  if (a === 0xfe && b === 0xff) return "utf-16be";
  // Without a mark: what is ASCII has each second octet empty.
  if (a && b === 0 && c && d === 0) return "utf-16le";
  return a === 0 && b && c === 0 && d ? "utf-16be" : "";
}

/** The file in UTF-8, as the server wants it. `charset` is what the user says that it is in. */
export async function inUtf8(file, charset = "") {
  const found = setOf(new Uint8Array(await file.slice(0, 4).arrayBuffer()));
  const set = found || charset;
  if (!set) return file;
  return new Blob([new TextDecoder(set).decode(await file.arrayBuffer())]);
}

/** The query for a piece. `said` is what the user says of the file: `{columns, dates}`. */
export function queryOf(said, next, isMore) {
  const query = {};
  if (isMore) query.more = 1;
  if (next.line > 1) query.line = next.line;
  if (next.card > 1) query.card = next.card;
  if (said.columns) query.columns = said.columns;
  if (said.dates) query.dates = said.dates;
  return query;
}

/** Asks again where the server is busy or doesn't answer: a conversion changes nothing. */
async function patiently(ask, pause) {
  for (let tries = 1; ; tries += 1) {
    try {
      return await ask();
    } catch (fault) {
      const isPassing = fault instanceof Fault && (fault.isPassing || fault.is("busy"));
      if (!isPassing || tries === TRIES) throw fault;
      await pause(2 ** tries * 250);
    }
  }
}

function nothing() {
  return {
    kind: "", columns: "", header: 0, rows: [], report: [], changed: 0, notCarried: 0, twice: 0,
    orders: new Set(),
  };
}

/** Adds a reply to what was made. A card that an earlier piece had in the same words is passed. */
function gather(made, reply, seen) {
  for (const row of reply.rows) {
    const key = `${row.uid}\n${row.vcard}`;
    if (seen.has(key)) made.twice += 1;
    else made.rows.push(row);
    seen.add(key);
  }
  for (const it of reply.report) made.report.push(it);
  made.changed += reply.changed;
  made.notCarried += reply.not_carried;
  made.orders.add(reply.dates);
}

/** What a reply says of the file as a whole: only the first has all of it. */
function begin(made, reply) {
  made.kind = reply.kind;
  made.columns = reply.columns;
  made.header = reply.header;
}

/**
 * Converts a file in UTF-8 to its end. `run` has `convert(query, body)`, `tell(done, total)`,
 * `pause(ms)` and `isOver()`. Answers null if it was over before the end; throws a `Fault` if the
 * server refuses the file.
 */
export async function convertFile(file, said, run) {
  const made = nothing();
  const seen = new Set();
  const whole = file.size;
  let [place, size, head, next] = [0, PIECE, new Blob([]), { line: 1, card: 1 }];
  do {
    const end = Math.min(whole, place + size);
    const isMore = end < whole;
    const body = new Blob([head, file.slice(place, end)]);
    const reply = await patiently(() => run.convert(queryOf(said, next, isMore), body), run.pause);
    if (run.isOver()) return null;
    const taken = reply.taken - head.size;
    if (taken <= 0 && (!isMore || size >= LONGEST)) break;
    if (taken <= 0) {
      size *= 2;
      continue;
    }
    if (place === 0) {
      begin(made, reply);
      head = file.slice(0, reply.header);
    }
    gather(made, reply, seen);
    next = { line: reply.line, card: reply.card };
    place += taken;
    size = PIECE;
    run.tell(place, whole);
  } while (place < whole);
  return { ...made, isWhole: place >= whole };
}

/**
 * The order of day and month in the whole file: "day", "month", "none" where no date needs one, or
 * "ask". `orders` has what each piece said.
 */
export function orderOf(orders) {
  const [day, month] = [orders.has("day"), orders.has("month")];
  if (day !== month) return day ? "day" : "month";
  return day || orders.has("unknown") ? "ask" : "none";
}
