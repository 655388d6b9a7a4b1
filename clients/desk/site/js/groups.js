// Who is in a group, with groups in groups, as far as the copy knows.

/** The rows of a group's members, and of those of groups in it. Each is there once. */
export function reachedBy(shelf, book, members) {
  const seen = new Map();
  const queue = [...members];
  for (let at = 0; at < queue.length; at += 1) {
    const [[, row]] = shelf.members(book, [queue[at]]);
    if (!row || seen.has(row.uid)) continue;
    seen.set(row.uid, row);
    if (row.kind === "group") queue.push(...(row.members ?? []));
  }
  return [...seen.values()];
}

/** The rows of all people of a group's members. */
export function peopleOf(shelf, book, members) {
  return reachedBy(shelf, book, members).filter((row) => row.kind !== "group");
}

/** The mail addresses of a group's people, and how many have none. */
export function mailsOf(shelf, book, members) {
  const people = peopleOf(shelf, book, members);
  const mails = new Set(people.map((it) => it.mail).filter(Boolean));
  return { mails: [...mails], without: people.filter((it) => !it.mail).length };
}
