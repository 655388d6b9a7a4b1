// Which cards may be of one person: the same UID, mail address, number in any spelling, or name.
import { fold } from "./search.js";
import { digitsOf, plainText, telText, unescapeText } from "./values.js";
import { kindOf, readCard, uidOf } from "./vcard.js";
import { nameOf } from "./person.js";

/** The reasons, the strongest first. */
export const REASONS = ["uid", "mail", "number", "name"];

const END = 7; // digits by which numbers are compared first
const SHORTEST = 4; // a number of fewer digits is many people's
const MANY = 2; // a number that more cards have is an office's
const CROWD = 50;

/** The digits of a number without what is dialled before it: its zeros. */
export function trunkOf(text) {
  return digitsOf(text).replace(/^0+/, "");
}

/** Whether two trunks are of one number: one may have the code of its country before it. */
function isOneNumber(one, other) {
  return one.length < END || other.length < END
    ? one === other
    : one.endsWith(other) || other.endsWith(one);
}

/** What a card is known by: `{uid, kind, name, mails, trunks}`. */
export function marksOf(text) {
  const card = readCard(text);
  const values = (name) => card.lines.filter((it) => it.name === name);
  const plain = (it) => plainText(unescapeText(it.value)).trim().toLowerCase();
  return {
    uid: uidOf(card),
    kind: kindOf(card),
    name: fold(nameOf(card)).split(" ").sort().join(" "),
    mails: values("EMAIL").map(plain).filter(Boolean),
    trunks: values("TEL").map((it) => trunkOf(telText(it))).filter((it) => it.length >= SHORTEST),
  };
}

/** Cards by what they are known by, each with a place of its own. */
export class Alike {
  constructor() {
    this.maps = Object.fromEntries(REASONS.map((it) => [it, new Map()]));
  }

  add(place, marks) {
    const put = (why, key, value) => {
      const all = this.maps[why].get(key);
      if (!all) this.maps[why].set(key, [value]);
      else if (all.length < CROWD) all.push(value);
    };
    put("uid", marks.uid, place);
    for (const it of new Set(marks.mails)) put("mail", it, place);
    for (const it of new Set(marks.trunks)) put("number", it.slice(-END), [it, place]);
    if (marks.name) put("name", `${marks.kind === "group"} ${marks.name}`, place);
  }

  /** A card that has something in common, by the strongest reason: `[why, place]`, or null. */
  find(marks) {
    const { uid, mail, name } = this.maps;
    const [same] = uid.get(marks.uid) ?? [];
    if (same !== undefined) return ["uid", same];
    for (const it of marks.mails) if (mail.has(it)) return ["mail", mail.get(it)[0]];
    for (const it of marks.trunks) {
      const place = this.byNumber(it);
      if (place !== null) return ["number", place];
    }
    const named = name.get(`${marks.kind === "group"} ${marks.name}`);
    return marks.name && named ? ["name", named[0]] : null;
  }

  /** The card that has the number, if it isn't a number of many. */
  byNumber(trunk) {
    const near = this.maps.number.get(trunk.slice(-END)) ?? [];
    if (near.length >= CROWD) return null;
    const found = new Set(near.filter((it) => isOneNumber(it[0], trunk)).map((it) => it[1]));
    return found.size && found.size <= MANY ? [...found][0] : null;
  }
}
