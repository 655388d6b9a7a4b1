// Cards that may be of the same person: the same name, mail address or number in one book.
import { merge3 } from "./merge.js";
import { nameOf } from "./person.js";
import { fold } from "./search.js";
import { keyOf } from "./shelf.js";
import { t } from "./say.js";
import { readCard, withValue, writeCard } from "./vcard.js";
import { askBoth } from "./views/conflict.js";
import { pairsView } from "./views/pairs.js";

const MOST = 200;

/** What two cards of one person have in common: keys that few others have. */
function keysOf(row) {
  const keys = [];
  const name = fold(row.name);
  if (name.includes(" ")) keys.push(`name ${name.split(" ").sort().join(" ")}`);
  if (row.mail) keys.push(`mail ${row.mail.trim().toLowerCase()}`);
  for (const it of (row.digits ?? "").split(" ")) {
    if (it.length >= 7) keys.push(`number ${it.slice(-9)}`);
  }
  return keys;
}

/** Pairs that may be one person, `[row, other, why]`. A number of many is a switchboard's. */
export function pairsOf(rows) {
  const places = new Map();
  for (const row of rows) {
    if (row.kind !== "individual") continue;
    for (const key of keysOf(row)) {
      const at = `${row.book}\n${key}`;
      if (!places.has(at)) places.set(at, []);
      places.get(at).push(row);
    }
  }
  const pairs = new Map();
  for (const [at, same] of places) {
    const why = at.split("\n")[1].split(" ")[0];
    if (same.length < 2 || (why === "number" && same.length > 2)) continue;
    for (let other = 1; other < same.length; other += 1) {
      const key = [keyOf(same[0]), keyOf(same[other])].sort().join("\n");
      if (!pairs.has(key)) pairs.set(key, [same[0], same[other], why]);
      if (pairs.size >= MOST) return [...pairs.values()];
    }
  }
  return [...pairs.values()];
}

/** The other card's text as one of the first, without what programs write. */
function asOne(first, other) {
  const uid = first.lines.find((it) => it.name === "UID");
  const lines = other.lines
    .filter((it) => it.name !== "REV" && it.name !== "PRODID")
    .map((it) => (it.name === "UID" ? withValue(it, uid.value) : it));
  return writeCard({ lines });
}

export class Duplicates {
  constructor(desk) {
    this.desk = desk;
  }

  /** Shows the pairs of the list, until somebody closes it. */
  async show() {
    const { desk } = this;
    for (;;) {
      const rows = desk.found().filter((it) => desk.mayChange(it.book));
      const pairs = pairsOf(rows).filter((it) => !desk.notSame.has(pairKey(it)));
      const chosen = await pairsView(pairs);
      if (!chosen) return;
      const [pair, what] = chosen;
      if (what === "different") await desk.keepDifferent(pairKey(pair));
      else if (!(await this.join(pair))) return;
    }
  }

  /**
   * Puts two cards together, value by value; the other one is removed. All of it is one change,
   * and so is its undo.
   */
  async join([first, other]) {
    const { desk } = this;
    const { book } = first;
    const [one, two] = await Promise.all([first, other].map((it) => desk.queue.seen(book, it.uid)));
    if (!one || !two) return true;
    const base = writeCard({
      lines: readCard(one.text).lines.filter((it) => it.name === "UID" || it.name === "KIND"),
    });
    const both = merge3(base, one.text, asOne(readCard(one.text), readCard(two.text)));
    const nameOfMember = (value) => value;
    const words = {
      title: t("joinTitle", { name: first.name }), text: t("joinText"), mine: t("joinFirst"),
      theirs: t("joinOther"), leave: t("cancel"), taken: t("joinTaken"),
      by: ["joinByFirst", "joinByOther"],
    };
    const choices = await askBoth(first.name, both, nameOfMember, { words });
    if (!choices) return true;
    const text = both.text(choices);
    const edit = { book, uid: first.uid, base: one.text, version: one.version, text };
    const groups = desk.shelf.groupsOf(book, other.uid);
    const inBoth = new Set(desk.shelf.groupsOf(book, first.uid).map((it) => it.uid));
    await desk.queue.change(async (entries) => {
      await entries.save(edit);
      await entries.remove(book, other.uid);
      // Who was in a group stays in it.
      for (const it of groups) {
        await entries.setMember(book, it.uid, other.uid, false);
        await entries.setMember(book, it.uid, first.uid, true);
      }
    });
    await desk.changed();
    desk.pane.lead(book, first.uid);
    const undo = () => desk.queue.change(async (entries) => {
      await entries.restore(book, other.uid, two.text);
      await entries.save({ ...edit, base: text, text: one.text });
      for (const it of groups) {
        await entries.setMember(book, it.uid, other.uid, true);
        await entries.setMember(book, it.uid, first.uid, inBoth.has(it.uid));
      }
    });
    desk.frame.toast(t("joined", { name: nameOf(readCard(text)) }), {
      text: t("undo"), run: () => undo().then(() => desk.changed()),
    });
    return false;
  }
}

function pairKey([one, other]) {
  return [keyOf(one), keyOf(other)].sort().join("\n");
}
