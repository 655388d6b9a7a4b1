// The HTTP API of docs/API.md: one function for each route that the desk uses.
const SECONDS = 60;

/**
 * Why a request has no good reply. `from` is "server" (the books refused it, `fault` says why),
 * "front" (an answer of the front server), or "none" (no reply came, so a change may have been
 * made).
 */
export class Fault extends Error {
  constructor(from, status, body = {}) {
    super(`${from} ${status} ${body.fault ?? ""}`);
    this.from = from;
    this.status = status;
    this.fault = body.fault ?? "";
    this.cause = body.cause ?? 0;
    this.row = body.row ?? 0;
    this.has = body.has ?? 0;
    // Of a file that isn't converted: why, and what to say of its columns to begin with.
    this.text = body.text ?? "";
    this.columns = body.columns ?? "";
  }

  /** Whether the same request may succeed later. */
  get isPassing() {
    return this.from === "none" || [502, 503, 504].includes(this.status);
  }

  /** Whether the front server doesn't let this user do it. */
  get isForbidden() {
    return this.from === "front" && this.status === 403;
  }

  is(fault) {
    return this.from === "server" && this.fault === fault;
  }

  /** Whether there is nothing at this address, as on an older server or behind its front. */
  get isMissing() {
    return this.status === 404 || this.status === 405;
  }
}

export class Api {
  /** `base` is the address of the books, as "/books", and `convert` that of the conversion. */
  constructor(base, convert = "", fetcher = (...all) => fetch(...all)) {
    this.base = base;
    this.convertAt = convert;
    this.fetcher = fetcher;
  }

  ask(method, path, body) {
    return this.askAt(this.base + path, method, body);
  }

  async askAt(address, method, body) {
    let reply;
    let text;
    try {
      reply = await this.fetcher(address, {
        method,
        body,
        cache: "no-store",
        credentials: "same-origin",
        redirect: "error",
        signal: AbortSignal.timeout(SECONDS * 1000),
      });
      text = await reply.text();
    } catch {
      throw new Fault("none", 0);
    }
    // The server's replies are JSON, an export is CSV; all else is the front server's own.
    const type = reply.headers.get("content-type") ?? "";
    if (reply.ok && type.startsWith("text/csv")) return text;
    if (!type.startsWith("application/json")) throw new Fault("front", reply.status);
    let data;
    try {
      data = JSON.parse(text);
    } catch {
      throw new Fault("none", reply.status);
    }
    if (!reply.ok) throw new Fault("server", reply.status, data);
    return data;
  }

  books() {
    return this.ask("GET", "");
  }

  makeBook(book) {
    return this.ask("PUT", `/${part(book)}`);
  }

  tally(book) {
    return this.ask("GET", `/${part(book)}/tally`);
  }

  sync(book, token) {
    const query = token ? `?${new URLSearchParams({ token })}` : "";
    return this.ask("GET", `/${part(book)}/sync${query}`);
  }

  card(book, uid) {
    return this.ask("GET", cardPath(book, uid));
  }

  put(book, uid, version, text) {
    return this.ask("PUT", `${cardPath(book, uid)}?version=${version}`, text);
  }

  remove(book, uid, version) {
    return this.ask("DELETE", `${cardPath(book, uid)}?version=${version}`);
  }

  move(book, uid, version, to) {
    const query = new URLSearchParams({ to, version });
    return this.ask("POST", `${cardPath(book, uid)}/move?${query}`);
  }

  people(book, uid) {
    return this.ask("GET", `${cardPath(book, uid)}/people`);
  }

  importRows(book, key, body) {
    return this.ask("POST", `/${part(book)}/import?${new URLSearchParams({ key })}`, body);
  }

  exportRows(book, form) {
    return this.ask("GET", `/${part(book)}/export?${new URLSearchParams({ form })}`);
  }

  /** What a piece of a file becomes; it changes nothing on the server. */
  convert(query, body) {
    return this.askAt(`${this.convertAt}?${new URLSearchParams(query)}`, "POST", body);
  }
}

function cardPath(book, uid) {
  return `/${part(book)}/cards/${part(uid)}`;
}

// A browser takes "." and ".." for steps in a path, encoded or not, and would ask for another
// address. No request is sent for a card of such a UID.
function part(text) {
  if (text === "." || text === "..") throw new Fault("front", 0, { fault: "no-address" });
  return encodeURIComponent(text);
}

/** A new key for an import, from the clock and chance. */
export function newKey() {
  const now = new Date().toISOString().replace(/[^0-9]/g, "").slice(0, 14);
  const chance = crypto.getRandomValues(new Uint32Array(1))[0].toString(16).padStart(8, "0");
  return `desk-${now}-${chance}`;
}
