// The desk: the copy and what isn't sent, the list, and what the user chooses in it.
import { Actions } from "./actions.js";
import { Bulk } from "./bulk.js";
import { Api, Fault } from "./api.js";
import { Drafts } from "./drafts.js";
import { Duplicates } from "./duplicates.js";
import { Faces } from "./faces.js";
import { Frame } from "./frame.js";
import { History } from "./history.js";
import { Intake } from "./intake.js";
import { pageKey } from "./keys.js";
import {
  bookOf, emptied, emptyHint, emptySign, emptyWays, emptyWords, titleOf,
} from "./listing.js";
import { Lists } from "./lists.js";
import { Memory } from "./memory.js";
import { Outbox } from "./outbox.js";
import { Pane } from "./pane.js";
import { Queue } from "./queue.js";
import { askNext, closeAnswered, showWaiting } from "./questions.js";
import { keyOf, Shelf } from "./shelf.js";
import { Follower } from "./sync.js";
import { t } from "./say.js";
import { takeDrops } from "./drops.js";
import { language } from "./texts.js";
import { Trash } from "./trash.js";
import { Letters } from "./views/letters.js";
import { CardList } from "./views/list.js";
import { ListHead } from "./views/listhead.js";
import { SideBar } from "./views/sidebar.js";

export class Desk {
  constructor(store) {
    this.store = store;
    this.queue = new Queue(store.db);
    this.drafts = new Drafts(store.db);
    this.trash = new Trash(store.db);
    // From the origin, as the page's own address may have a name and a password in it.
    const at = (name) => location.origin + document.querySelector(`meta[name=${name}]`).content;
    this.api = new Api(at("books"), at("convert"));
    this.memory = new Memory(at("versions"), (books) => store.keepSetting("served", books));
    this.shelf = new Shelf(language);
    this.frame = new Frame();
    this.intake = new Intake(this);
    this.actions = new Actions(this);
    this.history = new History(this);
    this.pane = new Pane(this);
    this.bulk = new Bulk(this);
    this.lists = new Lists(store);
    this.list = new CardList(this.frame.listRoot, {
      faces: new Faces((book, uid) => this.queue.seen(book, uid)),
      pick: (row, isFinal) => this.picked(row, isFinal),
      marked: (rows) => this.head.showMarked(rows),
      drew: () => this.mark(),
    });
    this.letters = new Letters(document.getElementById("letters"), {
      top: () => this.list.first,
      jump: (at) => this.list.scrollTo(at),
      open: (at) => this.list.select(at, true),
    });
    this.duplicates = new Duplicates(this);
    this.notSame = new Set(); // pairs that somebody said are different people
    this.side = new SideBar(this);
    this.head = new ListHead(this);
    this.books = [];
    this.filter = null; // a list in place of a book: favourites, recent, or a group
    this.entries = [];
    this.chosen = "";
    this.mayList = true;
    this.later = new Set(); // questions that somebody put off
    this.asked = null; // the entry about which somebody is asked now, and what ends that
    this.drawing = 0;
    this.showing = 0;
    this.tabs = new BroadcastChannel("desk");
    this.follower = new Follower(this.api, store, {
      change: (book, change) => {
        this.history.deletedByOthers(book, change.gone);
        this.arrived(book, change);
      },
      progress: (book, done, total) => this.frame.setProgress({ book, done, total }),
      state: (book, state, fault) => this.state(book, state, fault),
    });
    this.outbox = new Outbox(this.api, this.queue, {
      changed: (book, change) => this.arrived(book, change),
      queue: () => this.queued(),
      fault: (entry, fault) => this.unsent(entry, fault),
      sent: (entry) => this.sent(entry),
    });
  }

  async start() {
    this.frame.label({
      newCard: () => this.pane.newCard(),
      update: () => this.findBooks().then(() => this.follow()),
      waiting: () => showWaiting(this),
      turned: () => this.draw(),
    });
    this.listen();
    const [rows, entries, books, chosen, by] = await Promise.all([
      this.store.rows(), this.queue.all(), this.store.books(), this.store.setting("book"),
      this.store.setting("sort"), this.lists.load(),
    ]);
    this.notSame = new Set((await this.store.setting("notSame")) ?? []);
    this.memory.books = new Set((await this.store.setting("served")) ?? []);
    this.shelf.sortBy(by ?? "name");
    this.entries = entries;
    this.shelf.load(rows);
    this.shelf.cover(entries);
    this.books = books;
    this.chosen = books.some((it) => it.name === chosen) ? chosen : "";
    this.draw();
    await this.pane.route();
    if (!this.frame.isNarrow && !this.pane.shown) this.frame.search.focus();
    this.outbox.run();
    this.drawWaiting();
    await this.findBooks();
    await this.follow();
    this.trash.clear();
    this.intake.remind();
  }

  /** Asks which books there are. Who may not ask adds books by name. */
  async findBooks() {
    try {
      for (const book of (await this.api.books()).books) await this.store.addBook(book.name);
      this.mayList = true;
    } catch (fault) {
      if (!(fault instanceof Fault)) throw fault;
      this.mayList = fault.status !== 403;
      const isWaiting = fault.isPassing && !this.books.length;
      if (isWaiting || fault.status === 401) {
        this.frame.setState("", isWaiting ? "waiting" : "refused", fault);
      }
    }
    this.books = await this.store.books();
    this.draw();
  }

  follow(name) {
    return this.follower.want(name);
  }

  state(book, state, fault) {
    this.frame.states.delete("");
    this.frame.setState(book, state, fault);
    if (state === "ok") {
      if (this.entries.some((it) => it.state === "waits")) this.outbox.run();
    }
    this.drawStateSoon();
  }

  /** Whether a book may be changed is learnt from what the server says of a change. */
  async setRights(name, rights) {
    if (!(await this.store.setRights(name, rights))) return;
    this.books = await this.store.books();
    this.draw();
    if (this.pane.shown?.kind === "card") this.pane.again();
  }

  mayChange(name) {
    return this.books.some((it) => it.name === name && it.rights !== "read");
  }

  /** A page or a change of this tab was applied to the copy. */
  arrived(book, change) {
    if (!change.rows.length && !change.gone.length) return;
    this.shelf.apply(book, change);
    this.tabs.postMessage({ book, rows: change.rows, gone: change.gone });
    this.refresh(new Set([...change.rows.map((it) => it.uid), ...change.gone]
      .map((uid) => `${book}/${uid}`)));
    this.drawSoon();
  }

  /** The queue has changed, here or in another tab. */
  async queued(isOurs = true) {
    const was = new Map(this.entries.map((it) => [keyOf(it), JSON.stringify(it)]));
    this.entries = await this.queue.all();
    const keys = this.shelf.cover(this.entries);
    for (const it of this.entries) {
      if (was.get(keyOf(it)) === JSON.stringify(it)) keys.delete(keyOf(it));
    }
    if (isOurs) this.tabs.postMessage({ queue: true });
    this.refresh(keys);
    this.draw();
    this.drawWaiting();
    closeAnswered(this);
    // What another tab has sent is asked where the user is.
    if (isOurs || document.hasFocus()) askNext(this);
  }

  /** A change couldn't be kept in this browser, as on a full disk: all is as it was. */
  couldNotKeep(fault) {
    this.frame.toast(t("keepFailed", { why: fault.message }));
  }

  /** A change was made here: it is shown, and it goes to the server when that answers. */
  async changed() {
    await this.queued();
    this.outbox.run();
  }

  /** The server has made a change: so the book may be changed. */
  sent(entry) {
    for (const book of [entry.book, entry.from].filter(Boolean)) {
      if (!entry.from) this.setRights(book, "write");
      this.follow(book);
    }
  }

  /** A change couldn't be sent. */
  unsent(entry, fault) {
    if (fault.isPassing) this.frame.setState(entry.book, "waiting", fault);
    else if (fault.status === 401) this.frame.setState(entry.book, "refused", fault);
    // A move may have been refused for either book.
    else if (fault.isForbidden && !entry.from) this.setRights(entry.book, "read");
    this.drawStateSoon();
  }

  /** Draws the card in the pane again if it changed. A form is left alone. */
  refresh(keys) {
    const { shown, missing } = this.pane;
    if (shown?.kind === "card" && keys.has(keyOf(shown))) this.pane.again();
    else if (missing && keys.has(missing)) this.pane.route();
    // It may be in another book by now.
    else if ([...keys].some((it) => missing && it.endsWith(missing.slice(missing.indexOf("/"))))) {
      this.pane.findWays();
    }
  }

  drawSoon() {
    this.drawing ||= setTimeout(async () => {
      this.drawing = 0;
      this.books = await this.store.books();
      this.draw();
    }, this.frame.progress ? 400 : 150);
  }

  drawStateSoon() {
    this.stating ||= setTimeout(async () => {
      this.stating = 0;
      this.books = await this.store.books();
      // What an empty list says depends on whether the copy is there.
      if (this.list.rows.length) this.drawState();
      else this.draw();
    }, 100);
  }

  /** The rows of the chosen book or list that match what is typed. */
  found() {
    const { filter } = this;
    const text = this.frame.search.value.trim();
    const rows = this.shelf.find(text, bookOf(this));
    return filter ? this.lists.pick(filter, rows, this.shelf) : rows;
  }

  showRows(rows, keep, isFirst = false) {
    const text = this.frame.search.value.trim();
    const isSorted = text === "" && this.filter?.kind !== "recent";
    this.letters.show(isSorted ? rows : [], this.shelf.by);
    const { withBooks } = this;
    this.list.show(rows, { withBooks, keep, isFirst, heads: this.letters.places });
    this.frame.showCount(titleOf(this), rows.length, text !== "");
    if (rows.length) this.frame.showEmpty("", null, []);
    else this.frame.showEmpty(emptySign(this), emptyWords(this), emptyWays(this), emptyHint(this));
  }

  draw() {
    if (this.isHeld) {
      this.drawSoon();
      return;
    }
    const { frame, pane } = this;
    const text = frame.search.value.trim();
    const rows = this.found();
    if (!rows.length) emptied(this);
    this.showRows(rows, pane.cardKey);
    if (!pane.shown && !pane.missing) pane.blank();
    this.drawState();
    // What was searched for may come later than the search.
    const isEmpty = !pane.shown && !pane.cardKey && !pane.missing;
    if (text !== "" && rows.length && isEmpty && !frame.isNarrow) this.list.select(0);
    this.mark();
  }

  drawState() {
    if (this.isHeld) {
      this.drawStateSoon();
      return;
    }
    this.side.show();
    this.frame.showNew(this.books.some((it) => it.rights !== "read"));
    this.frame.showState(this.books, this.entries);
  }

  /** What waits: changes that aren't sent, and forms that weren't saved. */
  async drawWaiting() {
    const drafts = (await this.drafts.all()).filter((it) => !this.pane.isAt(it));
    this.frame.showWaiting(this.entries, drafts);
  }

  get withBooks() {
    return !this.chosen && this.books.length > 1 && this.filter?.kind !== "group";
  }

  mark() {
    // Of a card that is far from what is in sight, the list has no row.
    const id = document.getElementById(this.list.activeId)?.id;
    for (const node of [this.frame.search, this.frame.listRoot]) {
      if (id) node.setAttribute("aria-activedescendant", id);
      else node.removeAttribute("aria-activedescendant");
    }
  }

  // Choosing

  async choose(name) {
    this.chosen = name;
    this.turnTo(null);
    await this.store.keepSetting("book", name);
    this.follow(name || undefined);
  }

  /** Shows a list in place of a book: favourites, what was opened lately, or a group. */
  turnTo(filter) {
    this.filter = filter;
    this.frame.showNav(false);
    this.frame.showPane("list");
    this.clearMarks();
    this.list.top();
    this.settle();
    this.draw();
    this.frame.goToSearch();
  }

  /** Two cards are of different people, whatever they have in common. */
  keepDifferent(key) {
    this.notSame.add(key);
    return this.store.keepSetting("notSame", [...this.notSame]);
  }

  /** Puts cards into groups of their book or takes them out: `[group, uid, isIn]` each. */
  setMembers(book, changes) {
    return this.queue.change(async (entries) => {
      for (const it of changes) await entries.setMember(book, ...it);
    });
  }

  sortBy(by) {
    this.shelf.sortBy(by);
    this.store.keepSetting("sort", by);
    this.list.top();
    this.draw();
  }

  clearMarks() {
    this.list.marking(false);
  }

  /** Takes a card out of the pane that isn't in the list: nobody may call a wrong person. */
  settle() {
    const { shown } = this.pane;
    if (shown?.kind !== "card") return;
    if (!this.found().some((row) => keyOf(row) === keyOf(shown))) this.pane.clear();
  }

  async addBook(name) {
    const added = await this.actions.addBook(name);
    if (!added) return;
    await this.store.addBook(added);
    this.books = await this.store.books();
    this.pane.clear();
    await this.choose(added);
  }

  async dropBook(name) {
    if (this.entries.some((it) => it.book === name || it.from === name)) {
      this.frame.toast(t("dropWaits"));
      return;
    }
    await this.store.removeBook(name);
    await this.trash.forget(name);
    this.shelf.dropBook(name);
    this.frame.states.delete(name);
    if (this.chosen === name) this.chosen = "";
    this.books = await this.store.books();
    this.pane.leave();
  }

  /** Empties the search. */
  searchAnew() {
    this.frame.search.value = "";
    this.typed();
    this.frame.search.focus();
  }

  typed() {
    const text = this.frame.search.value.trim();
    const rows = this.found();
    const isForm = this.pane.shown?.kind === "form";
    // The first card is shown at once, as this is most often the one; not in place of a form.
    const isFirst = text !== "" && rows.length > 0 && !isForm;
    this.list.top();
    this.showRows(rows, text === "" ? this.pane.cardKey : null, isFirst);
    if (isFirst) this.list.select(0);
    else if (!isForm && !rows.length) this.pane.clear();
    else if (!this.pane.cardKey && !this.pane.missing) this.pane.blank();
    this.mark();
  }

  picked(row, isFinal) {
    this.mark();
    clearTimeout(this.showing);
    const isForm = () => this.pane.shown?.kind === "form";
    if (isForm() && !isFinal) return;
    if (isFinal) {
      this.pane.open(row.book, row.uid);
      return;
    }
    if (this.frame.isNarrow) return;
    this.pane.willShow(keyOf(row));
    this.showing = setTimeout(() => {
      if (!isForm()) this.pane.show(row.book, row.uid);
    }, 40);
  }

  /** The server has newer files of this page. */
  isNew() {
    this.frame.toast(t("newDesk"), { text: t("loadAgain"), run: () => location.reload() });
  }

  // Keys, the network, other tabs

  listen() {
    const { frame } = this;
    frame.search.addEventListener("input", () => this.typed());
    const keys = (event) => {
      if (this.list.key(event)) event.preventDefault();
      // In the list itself a letter leads to the first name that begins with it.
      else if (event.currentTarget === frame.listRoot) this.toLetter(event);
    };
    frame.search.addEventListener("keydown", keys);
    frame.listRoot.addEventListener("keydown", keys);
    document.addEventListener("keydown", (event) => pageKey(this, event));
    // What is pressed stays until it is let go: a press of what is drawn anew would be lost.
    addEventListener("pointerdown", () => { this.isHeld = true; }, true);
    for (const end of ["pointerup", "pointercancel", "dragend"]) {
      addEventListener(end, () => { this.isHeld = false; }, true);
    }
    // That of the window alone: a press takes the focus from some element.
    addEventListener("blur", () => { this.isHeld = false; });
    takeDrops((files) => this.actions.files.dropped(files));
    addEventListener("hashchange", () => this.pane.route());
    addEventListener("online", () => this.wake());
    addEventListener("offline", () => this.drawState());
    addEventListener("focus", () => this.wake());
    addEventListener("pagehide", () => this.pane.form?.flush());
    document.addEventListener("visibilitychange", () => {
      if (document.visibilityState === "visible") this.wake();
      else this.pane.form?.flush();
    });
    this.tabs.addEventListener("message", ({ data }) => this.heard(data));
  }

  toLetter(event) {
    const at = this.letters.placeOf(event);
    if (at === null) return;
    event.preventDefault();
    this.list.select(at);
  }

  /** The user is back, or the network: what others changed is asked for, and what waits is sent. */
  wake() {
    this.follow();
    this.outbox.run();
    askNext(this);
  }

  heard(data) {
    if (data.queue) {
      this.queued(false);
    } else if (data.drafts) {
      this.drawWaiting();
    } else {
      this.shelf.apply(data.book, data);
      const uids = [...data.rows.map((it) => it.uid), ...data.gone];
      this.refresh(new Set(uids.map((uid) => `${data.book}/${uid}`)));
      this.drawSoon();
    }
  }
}
