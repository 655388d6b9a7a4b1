// One change on the server, made only if the card still has the version that it was based on
// (docs/API.md, "Versions" and "Lost replies"). A change whose reply was lost may be sent again:
// it is found out then whether it was made.
import { Fault } from "./api.js";
import { isEdited } from "./queue.js";
import { sameCard } from "./vcard.js";

/** The card as the server has it now, `{version, text}`, or null. */
async function present(api, book, uid) {
  try {
    const { version, card } = await api.card(book, uid);
    return { version, text: card };
  } catch (fault) {
    if (fault instanceof Fault && fault.is("no-such-card")) return null;
    throw fault;
  }
}

/**
 * Stores the card of an entry of the queue. Answers `{version}`, or `{theirs}` if somebody else
 * changed it: the card with its version, or null if it is gone.
 */
export async function save(api, { book, uid, version, text }) {
  try {
    return { version: (await api.put(book, uid, version, text)).version };
  } catch (fault) {
    if (!(fault instanceof Fault) || !fault.is("version-mismatch")) throw fault;
    const theirs = await present(api, book, uid);
    // What we wanted is there: a lost reply, or somebody made the same edit.
    if (theirs && sameCard(theirs.text, text)) return { version: theirs.version };
    return { theirs };
  }
}

/** Removes the card of an entry. Answers `{}`, or `{theirs}` if somebody changed it. */
export async function remove(api, { book, uid, version, base }) {
  try {
    await api.remove(book, uid, version);
  } catch (fault) {
    if (!(fault instanceof Fault)) throw fault;
    if (fault.is("version-mismatch") && fault.has > 0) {
      const theirs = await present(api, book, uid);
      // It is our own edit, whose reply was lost.
      if (theirs && sameCard(theirs.text, base)) {
        return remove(api, { book, uid, version: theirs.version, base });
      }
      if (theirs) return { theirs };
    } else if (!fault.is("no-such-card") && !fault.is("version-mismatch")) {
      throw fault;
    }
  }
  return {};
}

/**
 * Moves the card of an entry to another book, once what was changed in it is stored. Answers
 * `{version}` if it was stored, `{moved}` with the new version if it was moved, `{theirs}` if
 * somebody else changed it, or `{there}` if the old book hasn't got it any more: what the new book
 * has then, or null.
 */
export async function move(api, entry) {
  const { book, from, uid, version } = entry;
  const done = isEdited(entry)
    ? await save(api, { ...entry, book: from })
    : await moveNow(api, from, uid, version, book);
  // After a lost reply it may have arrived.
  return done.theirs === null ? { there: await present(api, book, uid) } : done;
}

async function moveNow(api, from, uid, version, to) {
  try {
    return { moved: (await api.move(from, uid, version, to)).version };
  } catch (fault) {
    if (!(fault instanceof Fault)) throw fault;
    if (fault.is("no-such-card")) return { theirs: null };
    if (fault.is("version-mismatch")) return { theirs: await present(api, from, uid) };
    throw fault;
  }
}
