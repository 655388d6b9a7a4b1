// Lets the desk open at once and without the network: it keeps the desk's own files, and nothing of
// the books. The page comes from what is kept; new files are fetched beside it, and the page says
// that they are there.
//
// The files are kept as sets, each in a cache of its own. A set is whole once it has the page
// itself, which comes last; so a browser that is stopped meanwhile goes on with the set before it.
// A page gets all of its files from one set.

const SET = "desk-files";
const PAUSE = 2000;
const LOADING = 60000; // that a page may take until it is among the open ones
const FILES = [
  "./", "icon-180.png", "icon-192.png", "icon-512.png", "icon-mask-512.png", "icon.svg",
  "js/actions.js", "js/alike.js", "js/api.js", "js/bookfiles.js", "js/bulk.js", "js/columns.js",
  "js/convert.js", "js/dates.js", "js/desk.js", "js/dom.js", "js/drafts.js", "js/drops.js",
  "js/duplicates.js", "js/edit.js", "js/entries.js", "js/faces.js", "js/files.js", "js/forming.js",
  "js/frame.js", "js/groups.js", "js/history.js", "js/icons.js", "js/importing.js",
  "js/importtexts.js", "js/incoming.js", "js/intake.js", "js/keys.js", "js/labels.js",
  "js/listing.js", "js/lists.js", "js/main.js", "js/memory.js", "js/merge.js", "js/older.js",
  "js/outbox.js", "js/pane.js", "js/person.js", "js/photo.js", "js/policy.js", "js/push.js",
  "js/questions.js", "js/queue.js", "js/say.js", "js/search.js", "js/shelf.js", "js/shown.js",
  "js/sources.js", "js/store.js", "js/sync.js", "js/tables.js", "js/texts.js", "js/trash.js",
  "js/values.js", "js/vcard.js", "js/views/books.js", "js/views/card.js", "js/views/conflict.js",
  "js/views/dialogs.js", "js/views/fields.js", "js/views/form.js", "js/views/importrun.js",
  "js/views/incoming.js", "js/views/letters.js", "js/views/lines.js", "js/views/list.js",
  "js/views/listhead.js", "js/views/menu.js", "js/views/pairs.js", "js/views/preview.js",
  "js/views/print.js", "js/views/sidebar.js", "js/views/sources.js", "js/views/ticks.js",
  "js/views/trash.js", "js/views/versions.js", "js/views/waiting.js", "manifest.json",
  "style/base.css", "style/card.css", "style/form.css", "style/frame.css", "style/intake.css",
  "style/list.css", "style/narrow.css", "style/print.css",
];
const at = (file) => new URL(file, self.registration.scope).href;
const PAGE = at("./");
const OWN = new Set(FILES.map(at));
const sets = new Map(); // by page: from which set its files come, and since when
let newest = null; // the name of the newest whole set, once it is known
let turn = Promise.resolve();

self.addEventListener("install", (event) => {
  event.waitUntil(fetchAll().then((files) => alone(() => keep(files))));
  self.skipWaiting();
});

self.addEventListener("activate", (event) => event.waitUntil(self.clients.claim()));

self.addEventListener("fetch", (event) => {
  const url = new URL(event.request.url);
  url.hash = "";
  url.search = "";
  const address = url.href === at("index.html") ? PAGE : url.href;
  if (event.request.method !== "GET" || !OWN.has(address)) return;
  event.respondWith(answer(event, address));
  if (event.request.mode === "navigate") event.waitUntil(refresh());
});

// A page that stays open for days asks now and then.
self.addEventListener("message", (event) => {
  if (event.data === "look") event.waitUntil(refresh());
});

/** Finds the newest whole set. */
async function find() {
  const names = (await caches.keys()).filter((it) => it.startsWith(SET)).sort();
  const pages = await Promise.all(names.map((it) => caches.match(PAGE, { cacheName: it })));
  newest = names.filter((_, place) => pages[place]).pop() ?? null;
}

/**
 * Works while nothing else changes the sets, in this worker or another: of two at once, each would
 * drop what the other keeps.
 */
function alone(work) {
  const run = () => find().then(work);
  if (self.navigator.locks) return self.navigator.locks.request(SET, run);
  turn = turn.then(run, run);
  return turn;
}

/** The file that is kept, or the server's if none is. */
async function answer({ request, clientId, resultingClientId }, address) {
  if (!newest) await find();
  if (resultingClientId) sets.set(resultingClientId, { name: newest, since: Date.now() });
  const name = sets.get(clientId)?.name ?? newest;
  const kept = name && await caches.match(address, { cacheName: name });
  return kept || fetch(request, { cache: "no-cache" });
}

/** All files as the server has them, `[address, reply]` each. */
function fetchAll() {
  return Promise.all([...OWN].map(async (address) => {
    const reply = await fetch(address, { cache: "no-cache" });
    if (!reply.ok || reply.type !== "basic") throw new TypeError("no file");
    return [address, reply];
  }));
}

/** Keeps files as a new set, the page last. Sets that no page needs are dropped. */
async function keep(files) {
  const name = `${SET} ${String(Date.now()).padStart(15, "0")}`;
  const cache = await caches.open(name);
  const page = files.find((it) => it[0] === PAGE);
  for (const file of [...files.filter((it) => it !== page), page]) await cache.put(...file);
  const open = new Set((await self.clients.matchAll()).map((it) => it.id));
  for (const [id, { since }] of sets) {
    if (!open.has(id) && Date.now() - since > LOADING) sets.delete(id);
  }
  const needed = new Set([name, newest, ...[...sets.values()].map((it) => it.name)]);
  for (const it of await caches.keys()) {
    if (it.startsWith(SET) && !needed.has(it)) await caches.delete(it);
  }
  newest = name;
}

/** Fetches what the server has now, and keeps it if it isn't what is kept: all of it, or none. */
async function refresh() {
  await new Promise((resolve) => { setTimeout(resolve, PAUSE); });
  await alone(renew);
}

async function renew() {
  let files;
  try {
    files = await fetchAll();
  } catch {
    return; // without the network the kept files stay
  }
  const isNew = await Promise.all(files.map((it) => isOther(...it)));
  if (!isNew.includes(true)) return;
  await keep(files);
  for (const page of await self.clients.matchAll()) page.postMessage("new files");
}

/** Whether the server's file is another one than that which is kept. */
async function isOther(address, reply) {
  const kept = newest && await caches.match(address, { cacheName: newest });
  if (!kept) return true;
  const [now, before] = await Promise.all([reply.clone(), kept].map((it) => it.arrayBuffer()));
  const [a, b] = [new Uint8Array(now), new Uint8Array(before)];
  return a.length !== b.length || a.some((it, place) => it !== b[place]);
}
