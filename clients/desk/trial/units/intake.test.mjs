// What files become on their way in, without a browser: `node --test clients/desk/trial/units`.
import assert from "node:assert/strict";
import { test } from "node:test";

globalThis.navigator ??= { languages: ["en-GB"], onLine: true };
const at = (name) => import(`../../site/js/${name}.js`);
const { Fault } = await at("api");
const { Alike, marksOf, trunkOf } = await at("alike");
const { columnsText, delimiterOf, headOf, rowsOf, wordsFor } = await at("columns");
const { convertFile, inUtf8, orderOf } = await at("convert");
const { clashOf, csvOf, cutRows, ENDED, goOn, newImport, numbersOf, STOPPED } =
  await at("importing");
const { countLines, itemsOf, markItems, OTHER, planOf, REPLACE, sizeOf, SKIP } =
  await at("incoming");
const { Source } = await at("sources");

const pause = async () => {};
const card = (uid, ...lines) =>
  ["BEGIN:VCARD", "VERSION:4.0", `UID:${uid}`, ...lines, "END:VCARD", ""].join("\r\n");

/** A server that takes whole lines of a CSV, at most `most` a request; `asked` has what came. */
function server(most, { dates = () => "none", header = "Name\n" } = {}) {
  const asked = [];
  return {
    asked,
    async convert(query, blob) {
      const text = await blob.text();
      asked.push([query, text]);
      assert.ok(text.startsWith(header), `no header: ${text}`);
      const lines = text.slice(header.length).split("\n");
      const isMore = query.more === 1;
      const whole = (isMore ? lines.slice(0, -1) : lines.filter(Boolean)).slice(0, most);
      const taken = whole.reduce((all, it) => all + it.length + 1, 0);
      const first = query.line ?? 2;
      const rows = whole.map((it, n) => ({
        card: (query.card ?? 1) + n, line: first + n, uid: it, vcard: card(it, `FN:${it}`),
      }));
      return {
        kind: "contacts", columns: "Name=fn", header: header.length, dates: dates(whole, query),
        rows, report: [], changed: 0, not_carried: 0, written: rows.length,
        card: (query.card ?? 1) + rows.length, line: first + rows.length,
        taken: whole.length || query.line ? header.length + taken : 0,
      };
    },
  };
}

function run(it) {
  return { convert: (...all) => it.convert(...all), tell() {}, pause, isOver: () => false };
}

test("a file goes in pieces, each with the header, and each line once", async () => {
  const names = Array.from({ length: 40_000 }, (_, n) => `person number ${n}`);
  const it = server(400);
  const made = await convertFile(new Blob([`Name\n${names.join("\n")}\n`]), {}, run(it));
  assert.deepEqual(made.rows.map((row) => row.uid), names);
  assert.deepEqual(made.rows.map((row) => row.line), names.map((_, n) => n + 2));
  assert.deepEqual(made.rows.map((row) => row.card), names.map((_, n) => n + 1));
  assert.ok(made.isWhole && it.asked.length === 100);
  assert.ok(it.asked.every(([, text]) => text.length <= 262_144 + 5));
});

test("where no row fits, the piece becomes longer", async () => {
  const long = "x".repeat(700_000);
  const it = server(400);
  const made = await convertFile(new Blob([`Name\n${long}\nb\n`]), {}, run(it));
  assert.deepEqual(made.rows.map((row) => row.uid.length), [700_000, 1]);
  const sizes = it.asked.slice(0, 3).map(([, text]) => text.length);
  assert.deepEqual(sizes, [262_144, 524_288, 700_008]);
});

test("the same card in two pieces is taken once, and a busy server is asked again", async () => {
  let refusals = 3;
  const it = server(2);
  const convert = (...all) => {
    refusals -= 1;
    if (refusals > 0) throw new Fault("server", 503, { fault: "busy" });
    return it.convert(...all);
  };
  const made = await convertFile(new Blob(["Name\na\nb\na\nc\n"]), {}, run({ convert }));
  assert.deepEqual(made.rows.map((row) => row.uid), ["a", "b", "c"]);
  assert.equal(made.twice, 1);
});

test("UTF-16 and other character sets become UTF-8", async () => {
  const utf16 = new Blob([new Uint8Array([0xff, 0xfe, 0xc9, 0, 0x61, 0])]);
  assert.equal(await (await inUtf8(utf16)).text(), "Éa");
  const without = new Blob([new Uint8Array([0x42, 0, 0x45, 0, 0xc9, 0])]);
  assert.equal(await (await inUtf8(without)).text(), "BEÉ");
  const old = new Blob([new Uint8Array([0xc6, 0x61])]);
  assert.equal(await (await inUtf8(old, "windows-1251")).text(), "Жa");
  assert.equal(await inUtf8(old), old);
});

test("a later piece that shows the order of dates is asked for all", async () => {
  const dates = (lines, query) => query.dates
    ?? (lines.includes("day") ? "day" : lines.includes("?") ? "unknown" : "none");
  const it = server(1, { dates });
  const source = new Source(new File(["Name\n?\nx\nday\n"], "a.csv"));
  assert.equal(await source.read(run(it)), true);
  assert.equal(source.order, "day");
  assert.deepEqual(it.asked.map(([query]) => query.dates ?? ""), ["", "", "", "day", "day", "day"]);
  assert.equal(orderOf(new Set(["day", "month"])), "ask");
  assert.equal(orderOf(new Set(["none", "unknown"])), "ask");
  assert.equal(orderOf(new Set(["none"])), "none");
});

test("columns that aren't known are guessed, and shown", async () => {
  const asked = [];
  const convert = async (query) => {
    asked.push(query.columns ?? "");
    if (!query.columns) {
      throw new Fault("server", 422, {
        fault: "not-converted", text: "a header", columns: "Kunde=fn,#3=tel",
      });
    }
    return {
      kind: "contacts", columns: "Kunde=fn,Ort=,Tel=tel", header: 13, dates: "none", rows: [],
      report: [], changed: 0, not_carried: 0, written: 0, card: 1, line: 2, taken: 24,
    };
  };
  const source = new Source(new File(["Kunde;Ort;Tel\nPat;Rom;123\n"], "k.csv"));
  await source.read(run({ convert }));
  assert.deepEqual(asked.slice(0, 2), ["", "Kunde=fn,#3=tel"]);
  assert.deepEqual(source.names, ["Kunde", "Ort", "Tel"]);
  assert.ok(source.isGuessed);
});

test("no reply says nothing of the file", async () => {
  const convert = async () => { throw new Fault("none", 0); };
  const source = new Source(new File(["Name\n"], "a.csv"));
  await assert.rejects(source.read(run({ convert })), Fault);
  assert.equal(source.fault, null);
});

test("columns by name and by number", () => {
  const words = wordsFor(["A", "b,c", "D"], "a=fn,#2=tel;type=work");
  assert.deepEqual(words, ["fn", "tel;type=work", ""]);
  assert.deepEqual(wordsFor(["A", "A"], "A=fn,A=-"), ["fn", "-"]);
  const names = ["Mail, alt", "Ort", "Kunde", "Tel", "tel"];
  const said = (...words) => columnsText(words, names);
  assert.equal(said("email", "", "fn", "tel", "-"), "#1=email,Kunde=fn,#4=tel,#5=-");
  assert.equal(said("email", "", "", "tel", "-"), "#1=email,#4=tel,#5=-,header");
  assert.equal(columnsText(["", ""], ["A", "B"]), "");
  assert.deepEqual(rowsOf('a,"b ""c"",\nd"\r\n\n,e', ",", 9), [["a", 'b "c",\nd'], ["", "e"]]);
  assert.equal(delimiterOf("a;b,c;d\n"), ";");
});

test("the head of a file of rows, with what stands before it", async () => {
  const file = new Blob(["sep=;\nKunde;Mail\n;\nPat;p@x.test\n"]);
  const wanted = { names: ["Kunde", "Mail"], samples: ["Pat", "p@x.test"] };
  assert.deepEqual(await headOf(file, 17), wanted);
  assert.deepEqual(await headOf(file, 0), wanted);
});

test("the head of a file that isn't UTF-8, and of one that is cut within a sign", async () => {
  const old = new Blob([new Uint8Array([0x53, 0x74, 0x72, 0x61, 0xdf, 0x65]), ",b\n1,2\n"]);
  assert.deepEqual((await headOf(old, 9)).names, ["Straße", "b"]);
  const long = new Blob(["ü,b\n", "1,2\n".repeat(16_384), "ü".repeat(9)]);
  assert.deepEqual((await headOf(long, 0)).names, ["ü", "b"]);
});

test("one number in several spellings", () => {
  const alike = new Alike();
  const add = (place, tel) =>
    alike.add(place, marksOf(card(`u${place}`, `FN:N${place}`, `TEL:${tel}`)));
  const find = (tel) => alike.find(marksOf(card("x", "FN:X", `TEL:${tel}`)));
  add(1, "+49 30 23125-014");
  add(2, "020 7946 0192");
  add(3, "tel:+1-555-555-0123;ext=7");
  for (const tel of ["(030) 23 12 50 14", "0049 30 23125014", "tel:+49-30-23125014"]) {
    assert.deepEqual(find(tel), ["number", 1], tel);
  }
  assert.deepEqual(find("+44 (20) 79460192"), ["number", 2]);
  assert.deepEqual(find("555 555 0123"), ["number", 3]);
  for (const tel of ["+49 31 23125014", "112", "555-0124", ""]) assert.equal(find(tel), null, tel);
  assert.equal(trunkOf("0049 30 1"), "49301");
  // A switchboard's.
  for (let n = 10; n < 100; n += 1) add(n, "+44 20 7946 0000");
  assert.equal(find("020 7946 0000"), null);
});

async function itemsFor(cards, book = []) {
  const rows = cards.map((vcard, n) => ({
    card: n + 1, line: n * 6 + 1, uid: /UID:(.*)\r/.exec(vcard)[1], vcard,
  }));
  const items = await itemsOf("f.vcf", { rows, report: [] }, pause);
  await markItems(items, book, pause);
  return items;
}

const BOOK = [
  { uid: "a", version: 3, text: card("a", "FN:Ann Lee", "EMAIL:ANN@x.test") },
  { uid: "b", version: 4, text: card("b", "FN:Bo Ng", "TEL:+44 20 7946 0192") },
];
const known = (uid) => BOOK.some((it) => it.uid === uid);

test("what is in the book or twice in the file is marked, and left out", async () => {
  const items = await itemsFor([
    card("a", "FN:Ann Lee", "EMAIL:ANN@x.test"), card("a", "FN:Other"),
    card("c", "FN:C", "EMAIL:ann@X.test "), card("d", "FN:D", "TEL:020 7946 0192"),
    card("e", "FN:Lee  ann"), card("f", "FN:F"), card("g", "FN:f"), card("h", "FN:Héloïse"),
    card("i", "FN:Heloise"), card("j", "FN:"), card("k", "FN:"),
  ], BOOK);
  assert.deepEqual(items.map((it) => it.like && [it.like.in, it.like.why, it.like.isSame]), [
    ["book", "uid", true], ["book", "uid", false], ["book", "mail", false],
    ["book", "number", false], ["book", "name", false], null, ["file", "name", false],
    null, ["file", "name", false], null, null,
  ]);
  assert.deepEqual(planOf(items, known).map((it) => it.uid), ["f", "h", "j", "k"]);
});

test("another card gets another UID only if it must, and one that replaces the book's", async () => {
  const items = await itemsFor([card("a", "FN:New"), card("c", "FN:C", "EMAIL:ann@x.test")], BOOK);
  for (const it of items) it.what = OTHER;
  let rows = planOf(items, known);
  assert.match(rows[0].uid, /^urn:uuid:/);
  assert.match(rows[0].text, /\r\nUID:urn:uuid:/);
  assert.deepEqual([rows[1].uid, rows[0].version, rows[1].version], ["c", 0, 0]);
  for (const it of items) it.what = REPLACE;
  rows = planOf(items, known);
  // Both replace one card: the later one is taken.
  assert.deepEqual(rows.map((it) => [it.uid, it.version, it.name]), [["a", 3, "C"]]);
  assert.match(rows[0].text, /\r\nUID:a\r\n/);
  assert.deepEqual(sizeOf(items, known), [1, 0]);
});

test("one that replaces an earlier one of the file stands in its place", async () => {
  const person = (uid, ...lines) => card(uid, "FN:One Person", ...lines);
  const items = await itemsFor([person("x"), person("y", "NOTE:later")]);
  items[1].what = REPLACE;
  const rows = planOf(items, () => false);
  assert.deepEqual(rows.map((it) => it.uid), ["x"]);
  assert.match(rows[0].text, /NOTE:later/);
});

test("a group names its members as they are in the book", async () => {
  const group = card("g", "FN:All", "KIND:group", "MEMBER:c", "MEMBER:urn:uuid:a", "MEMBER:z");
  const items = await itemsFor([card("c", "FN:Bo Ng"), card("a", "FN:Other"), group], BOOK);
  items[1].what = OTHER;
  const rows = planOf(items, known);
  const members = rows[1].text.match(/MEMBER:.*(?=\r)/g);
  assert.deepEqual(members, ["MEMBER:b", `MEMBER:${rows[0].uid}`, "MEMBER:z"]);
});

test("10,000 cards of one number and name are looked through in time", async () => {
  const one = (_, n) => card(`u${n}`, "FN:A", "TEL:+44 20 7946 0000");
  const cards = Array.from({ length: 10_000 }, one);
  // The time of processors, which other programs may have meanwhile.
  const from = process.cpuUsage();
  const items = await itemsFor(cards, BOOK);
  assert.equal(items.filter((it) => it.what === SKIP).length, 9_999);
  const { user, system } = process.cpuUsage(from);
  assert.ok(user + system < 20_000_000);
});

test("lines of a report by kind", () => {
  const lines = ["TEL rewritten", "kept under urn:uuid:1", "TEL rewritten", "kept under urn:2",
    "TEL rewritten", "read as Windows-1252: 1 line that isn't UTF-8",
    "read as Windows-1252: 12 lines that aren't UTF-8",
    "read as Windows-1252: 2 cells that aren't UTF-8", "kept under urn:3",
    "read as Windows-1252: 1 cell that isn't UTF-8"];
  const counted = countLines(lines.map((text) => ({ text })));
  assert.deepEqual(counted, [["read as Windows-1252", 4], ["TEL rewritten", 3],
    ["kept under", 3]]);
});

/** A desk that keeps nothing, and a book of the server. */
function office(rows, behave = () => null) {
  const parts = cutRows(rows);
  const book = new Map();
  const keys = new Map();
  const sent = [];
  const journal = newImport("k", "staff", parts, { files: ["f"], lost: 0, skipped: 0, left: 0 });
  const desk = {
    pause, tell() {}, keep: async () => {}, isOver: () => false, look: async () => [],
    before: async () => {}, rows: async (n) => parts[n],
    keepRows: async (n, some) => { parts[n] = some; }, words: (fault) => fault.fault || fault.from,
    async send(key, body) {
      sent.push(key);
      const fault = behave(key, body, sent.length);
      if (fault?.from === "server") throw fault;
      if (!keys.has(key)) {
        const uids = [...body.matchAll(/^"(.*?)","BEGIN/gm)].map((it) => it[1]);
        const fresh = uids.filter((it) => !book.has(it)).length;
        for (const it of uids) book.set(it, body);
        keys.set(key, { new: fresh, edited: uids.length - fresh, same: 0 });
      }
      if (fault) throw fault;
      return keys.get(key);
    },
  };
  return { journal, desk, book, sent };
}

const people = (n) => Array.from({ length: n }, (_, it) => ({
  uid: `p${it}`, text: card(`p${it}`, `FN:P ${it}`), name: `P ${it}`, file: "f", line: it,
  version: 0,
}));

test("an import goes in parts", async () => {
  const it = office(people(1100));
  await goOn(it.journal, it.desk);
  assert.deepEqual(it.sent, ["k.0", "k.1", "k.2", "k.3", "k.4"]);
  assert.equal(it.book.size, 1100);
  const { new: fresh, done, total, left } = numbersOf(it.journal);
  assert.deepEqual([fresh, done, total, left, it.journal.state], [1100, 1100, 1100, 0, ENDED]);
});

test("a lost reply is asked for again under the same key, and nothing is twice", async () => {
  const it = office(people(600), (key, body, n) => (n < 3 ? new Fault("none", 0) : null));
  await goOn(it.journal, it.desk);
  assert.deepEqual(it.sent, ["k.0", "k.0", "k.0", "k.1", "k.2"]);
  assert.deepEqual([numbersOf(it.journal).new, it.book.size], [600, 600]);
});

test("a connection that stays away stops the import, which goes on later", async () => {
  let isAway = true;
  const it = office(people(600), (key) => (isAway && key === "k.1" ? new Fault("none", 0) : null));
  await goOn(it.journal, it.desk);
  const { state, why } = it.journal;
  assert.deepEqual([state, why, numbersOf(it.journal).done], [STOPPED, "none", 250]);
  isAway = false;
  await goOn(JSON.parse(JSON.stringify(it.journal)), it.desk);
  assert.equal(it.book.size, 600);
});

test("a card that is refused is taken out and named; the others go on", async () => {
  const bad = ["p3", "p7"];
  const it = office(people(10), (key, body) => {
    const uids = [...body.matchAll(/^"(.*?)","BEGIN/gm)].map((found) => found[1]);
    const at = uids.findIndex((uid) => bad.includes(uid));
    const fault = { fault: "bad-import", row: at + 1, cause: 28 };
    return at < 0 ? null : new Fault("server", 400, fault);
  });
  await goOn(it.journal, it.desk);
  assert.deepEqual(it.sent, ["k.0", "k.0.1", "k.0.2"]);
  assert.deepEqual(it.journal.refused.map((row) => row.name), ["P 3", "P 7"]);
  const { new: fresh, done, total } = numbersOf(it.journal);
  assert.deepEqual([fresh, done, total, it.journal.state], [8, 10, 10, ENDED]);
});

test("a full book stops the import, with what is done", async () => {
  const it = office(people(600), (key) =>
    (key === "k.2" ? new Fault("server", 507, { fault: "book-full" }) : null));
  await goOn(it.journal, it.desk);
  const { done, left } = numbersOf(it.journal);
  const { state, why } = it.journal;
  assert.deepEqual([state, why, done, left], [STOPPED, "book-full", 500, 100]);
});

test("it stops between parts, and not within one", async () => {
  const it = office(people(600));
  it.desk.isOver = () => it.sent.length === 1;
  await goOn(it.journal, it.desk);
  assert.deepEqual([it.sent, it.book.size, it.journal.state], [["k.0"], 250, STOPPED]);
});

test("a card that others changed since isn't replaced", () => {
  const row = { uid: "a", version: 3, text: card("a", "FN:A") };
  const now = (version, text = "x") => ({ version, text });
  assert.equal(clashOf(row, now(3), false), "");
  assert.equal(clashOf(row, now(4), false), "importChanged");
  assert.equal(clashOf(row, undefined, false), "importGone");
  assert.equal(clashOf(row, now(4, row.text), false), "");
  assert.equal(clashOf({ ...row, version: 0 }, undefined, false), "");
  assert.equal(clashOf({ ...row, version: 0 }, now(1), false), "importChanged");
  assert.equal(clashOf(row, now(3), true), "importWaits");
});

test("rows as CSV, and none above what an import may have", () => {
  assert.equal(csvOf([{ uid: 'a"b', text: "X" }]), 'uid,vcard\n"a""b","X"\n');
  const large = people(40).map((it) => ({ ...it, text: "é".repeat(250_000) }));
  for (const part of cutRows(large)) assert.ok(new Blob([csvOf(part)]).size < 8_388_608);
  assert.equal(cutRows(large).flat().length, 40);
  // Every sign a quote, which is doubled.
  const quotes = people(40).map((it) => ({ ...it, text: '"'.repeat(260_000) }));
  for (const part of cutRows(quotes)) assert.ok(new Blob([csvOf(part)]).size < 8_388_608);
});
