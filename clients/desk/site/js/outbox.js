// Sends the queue: in order, one change at a time, by one tab at a time, and again and again until
// the server has it. Two edits of one card are put together; where that needs somebody's decision,
// or where the server refuses, the entry says so and stays.
import { Fault } from "./api.js";
import { WAITS } from "./entries.js";
import * as push from "./push.js";
import { withBooks, withLock } from "./sync.js";

const LONGEST_WAIT = 60_000;

/** Whether the same request would be refused again, so that somebody has to see it. */
function isRefusal(fault) {
  return !fault.isPassing && fault.status !== 401;
}

export class Outbox {
  /**
   * `tell` has `changed(book, change)` when the copy changed, `queue()` when entries did,
   * `fault(entry, fault)`, and `sent(entry)`.
   */
  constructor(api, queue, tell) {
    this.api = api;
    this.queue = queue;
    this.tell = tell;
    this.running = null;
    this.wanted = false;
    this.failures = 0;
    this.timer = 0;
  }

  /** Sends what waits. Answers when nothing more can be sent now. */
  run() {
    this.wanted = true;
    this.running ??= this.work();
    return this.running;
  }

  async work() {
    clearTimeout(this.timer);
    try {
      while (this.wanted) {
        this.wanted = false;
        const isSent = await withLock("desk outbox", () => this.sendAll());
        if (isSent) continue;
        this.timer = setTimeout(() => this.run(), this.pause());
        return;
      }
    } finally {
      this.running = null;
    }
  }

  pause() {
    const pause = Math.min(1000 * 2 ** this.failures, LONGEST_WAIT);
    this.failures += 1;
    return pause;
  }

  /** Answers whether the server could be reached. */
  async sendAll() {
    const tried = new Set();
    for (;;) {
      const next = (await this.queue.all()).find(
        (it) => it.state === WAITS && !tried.has(JSON.stringify(it)),
      );
      if (!next) return true;
      tried.add(JSON.stringify(next));
      try {
        const books = [next.book, next.from].filter(Boolean);
        await withBooks(books, () => this.send(next));
        this.failures = 0;
      } catch (fault) {
        if (!(fault instanceof Fault)) throw fault;
        this.tell.fault(next, fault);
        if (!isRefusal(fault)) return false;
        await this.queue.refuse(next, fault);
      }
      this.tell.queue();
    }
  }

  async send(entry) {
    const { queue } = this;
    const isRemoval = entry.kind === "remove";
    const send = isRemoval ? push.remove : entry.from ? push.move : push.save;
    const done = await send(this.api, entry);
    if (done.moved) {
      for (const it of await queue.moved(entry, done.moved)) this.tell.changed(...it);
    } else if (done.there !== undefined) {
      this.tell.changed(entry.from, await queue.left(entry, done.there));
    } else if (done.theirs === undefined) {
      const change = await (isRemoval ? queue.removed(entry) : queue.stored(entry, done.version));
      this.tell.changed(entry.from ?? entry.book, change);
    } else if (isRemoval) {
      await queue.ask(entry, done.theirs);
    } else {
      await queue.settle(entry, done.theirs);
    }
    if (done.theirs === undefined) this.tell.sent(entry);
  }
}
