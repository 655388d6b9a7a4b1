// What has to be decided: two edits of one card, a card that somebody removed, what waits.
import { merge3 } from "./merge.js";
import { nameOf } from "./person.js";
import { ASKS } from "./entries.js";
import { keyOf } from "./shelf.js";
import { t } from "./say.js";
import { readCard, sameCard } from "./vcard.js";
import { askBoth } from "./views/conflict.js";
import { ask } from "./views/dialogs.js";
import { waitingView } from "./views/waiting.js";

function nameIn(text) {
  return nameOf(readCard(text)) || t("nameless");
}

/** Members are shown by their names. */
export function namer(desk, book) {
  return (value) => desk.shelf.members(book, [value])[0][1]?.name ?? value;
}

/**
 * Puts two edits of a card together, and asks where they clash. Answers the text, or null if
 * somebody puts the question off.
 */
export async function chooseBoth(desk, book, base, mine, theirs, signal = null) {
  const both = merge3(base, mine, theirs);
  if (!both.clashes.length) return both.text();
  const choices = await askBoth(nameIn(theirs), both, namer(desk, book), { signal });
  return choices && both.text(choices);
}

function isSame(entry, entries) {
  const text = JSON.stringify(entry);
  return entries.some((it) => JSON.stringify(it) === text);
}

/** Ends the question that is asked if its entry is another by now, as another tab answered it. */
export function closeAnswered(desk) {
  if (desk.asked && !isSame(desk.asked.entry, desk.entries)) desk.asked.end.abort();
}

/** Asks the first question that waits, unless somebody is at something else. */
export async function askNext(desk) {
  const isBusy = desk.pane.form || document.querySelector("dialog[open]");
  if (isBusy || document.visibilityState !== "visible") return;
  const next = desk.entries.find((it) => it.state === ASKS && !desk.later.has(keyOf(it)));
  if (next) await decide(desk, next);
}

/** Asks what to do with an entry of the queue, and does it. */
export async function decide(desk, entry) {
  const asked = { entry, end: new AbortController() };
  const { signal } = asked.end;
  desk.asked = asked;
  const answer = await answerFor(desk, entry, signal);
  if (desk.asked === asked) desk.asked = null;
  if (!isSame(entry, await desk.queue.all())) {
    // It was answered or changed elsewhere. If it is still a question, it is asked anew: here, if
    // somebody has just answered here.
    if (answer !== null || signal.aborted) sayUnused(desk, entry, answer);
    await desk.queued(answer !== null);
    return;
  }
  if (answer === null) {
    desk.later.add(keyOf(entry));
    return;
  }
  desk.later.delete(keyOf(entry));
  if (!(await settleAs(desk, entry, answer))) sayUnused(desk, entry, answer);
  await desk.changed();
  desk.follow(entry.book);
}

/** No answer is dropped without a word. */
function sayUnused(desk, { kind, text, base }, answer) {
  const name = nameIn(kind === "remove" ? base : text);
  desk.frame.toast(t(answer === null ? "questionOver" : "answerUnused", { name }));
}

/** Does what was answered, if the entry is as it was when it was asked. Answers whether it was. */
async function settleAs(desk, entry, answer) {
  const { queue } = desk;
  const { book, uid, theirs } = entry;
  if (answer === "again") return queue.rebase(entry, { text: "", version: 0 }, entry.text);
  if (answer === "remove") return queue.rebase(entry, theirs, "");
  if (answer !== "drop") return queue.rebase(entry, theirs, answer.text);
  if (!(await queue.drop(entry))) return false;
  const change = theirs
    ? await desk.store.keepCard(book, uid, theirs.version, theirs.text)
    : await desk.store.dropCard(book, uid);
  desk.arrived(book, change);
  return true;
}

/** "drop", "again", "remove", a text, or null for later. */
async function answerFor(desk, entry, signal) {
  if (entry.kind === "remove") {
    const name = nameIn(entry.theirs.text);
    return ask(t("removeChangedTitle", { name }), [t("removeChangedText")], [
      [t("keepCard"), "drop", "main"], [t("removeAnyway"), "remove", "danger"],
      [t("later"), null],
    ], signal);
  }
  if (!entry.theirs) {
    return ask(t("goneTitle", { name: nameIn(entry.text) }), [t("goneText")], [
      [t("storeAgain"), "again", "main"], [t("letGo"), "drop"], [t("later"), null],
    ], signal);
  }
  const { base, text, theirs } = entry;
  const chosen = await chooseBoth(desk, entry.book, base, text, theirs.text, signal);
  if (chosen === null) return null;
  // What is moved has to be sent in any case.
  return sameCard(chosen, theirs.text) && !entry.from ? "drop" : { text: chosen };
}

/** Shows what isn't sent and what isn't finished, each with what can be done. */
export async function showWaiting(desk) {
  const drafts = (await desk.drafts.all()).filter((it) => !desk.pane.isAt(it));
  const name = (it) => nameIn(it.kind === "remove" ? it.base : it.text);
  await waitingView(desk.entries, drafts, name, {
    open: (it) => desk.pane.open(it.book, it.uid),
    decide: (it) => decide(desk, it),
    again: async (it) => {
      await desk.queue.again(it.book, it.uid);
      await desk.changed();
    },
    drop: (it) => giveUp(desk, it),
    goOn: (it) => desk.pane.goDraft(it),
    dropDraft: async (it) => {
      await desk.trash.keep(it.book, it.uid, it.text, "cancelled");
      await desk.drafts.drop(it);
      await desk.drawWaiting();
      desk.frame.toast(t("cancelled"), {
        text: t("undo"),
        run: async () => {
          await desk.drafts.keep(it);
          desk.pane.goDraft(it);
        },
      });
    },
  });
}

/** Gives a change up that can't be sent. It can be put back. A card that is moved stays. */
export async function giveUp(desk, entry) {
  const { book, uid, from } = entry;
  if (from) {
    await desk.queue.move([[book, uid, from]]);
    await desk.changed();
    desk.pane.lead(from, uid, true);
    desk.frame.toast(t("moveStayed", { name: nameIn(entry.text), book: from }));
    return;
  }
  const isDropped = await desk.queue.drop(entry);
  await desk.changed();
  if (!isDropped) {
    sayUnused(desk, entry, "drop");
    return;
  }
  if (!(await desk.queue.seen(book, uid))) desk.pane.clear();
  if (entry.kind === "remove") return;
  desk.frame.toast(t("givenUp", { name: nameIn(entry.text) }), {
    text: t("undo"),
    run: async () => {
      await desk.queue.save({ ...entry, version: entry.version });
      await desk.changed();
      desk.pane.lead(book, uid);
    },
  });
}
