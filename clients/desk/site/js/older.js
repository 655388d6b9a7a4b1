// A card in vCard 3.0 (RFC 2426), for programs that don't read 4.0.
import { partsOf, photoOf, telText } from "./values.js";
import { lineText, param, readCard, typesOf, unfold } from "./vcard.js";

const LEFT_OUT = new Set(["GENDER", "LANG", "CLIENTPIDMAP", "XML"]);
const OF_APPLE = { KIND: "X-ADDRESSBOOKSERVER-KIND", MEMBER: "X-ADDRESSBOOKSERVER-MEMBER" };

function types(line) {
  const named = typesOf(line).filter((it) => it !== "pref");
  const isFirst = param(line, "PREF") === "1" || typesOf(line).includes("pref");
  const all = [...named, ...(isFirst ? ["pref"] : [])].map((it) => it.toUpperCase());
  return all.length ? `;TYPE=${all.join(",")}` : "";
}

function lineOf(line) {
  const group = line.group ? `${line.group}.` : "";
  const { name, value } = line;
  if (!name) return null;
  if (name === "TEL") return `${group}TEL${types(line)}:${telText(line)}`;
  if (name === "EMAIL" || name === "ADR") return `${group}${name}${types(line)}:${value}`;
  if (name === "URL" || name === "IMPP") return `${group}${name}${types(line)}:${value}`;
  if (name === "PHOTO") return photoLine(line);
  if (name === "BDAY") return birthday(value);
  if (OF_APPLE[name]) return `${OF_APPLE[name]}:${value}`;
  if (name === "ANNIVERSARY") return `X-ANNIVERSARY:${value}`;
  if (LEFT_OUT.has(name)) return null;
  return lineText(line);
}

/** A birthday. One without a year gets the year that Apple's programs leave out again. */
function birthday(value) {
  const found = /^--(\d\d)-?(\d\d)$/.exec(value);
  if (!found) return `BDAY:${value}`;
  return `BDAY;X-APPLE-OMIT-YEAR=1604:1604-${found[1]}-${found[2]}`;
}

function photoLine(line) {
  const address = photoOf(line);
  if (!address) return /^https?:/i.test(line.value) ? `PHOTO;VALUE=URI:${line.value}` : null;
  const [, kind, data] = /^data:image\/(\w+);base64,(.*)$/s.exec(address);
  return `PHOTO;ENCODING=b;TYPE=${kind.toUpperCase().replace("JPG", "JPEG")}:${data}`;
}

/** A line of at most 75 octets, and the rest of it in lines that begin with a space. */
function folded(text) {
  const parts = [];
  let part = "";
  let octets = 0;
  for (const sign of text) {
    const size = new TextEncoder().encode(sign).length;
    if (octets + size > 75) {
      parts.push(part);
      part = " ";
      octets = 1;
    }
    part += sign;
    octets += size;
  }
  return [...parts, part].join("\r\n");
}

/** The card's text in vCard 3.0. A card of that version needs N, which may be empty. */
export function olderCard(text) {
  const card = readCard(text);
  const lines = card.lines.map(lineOf).filter((it) => it !== null);
  if (!card.lines.some((it) => it.name === "N")) {
    const name = card.lines.find((it) => it.name === "FN")?.value ?? "";
    const words = partsOf(name, " ");
    lines.unshift(`N:${words.length > 1 ? words.pop() : ""};${words.join(" ")};;;`);
  }
  return ["BEGIN:VCARD", "VERSION:3.0", ...unfold(lines.join("\r\n")).map(folded), "END:VCARD", ""]
    .join("\r\n");
}
