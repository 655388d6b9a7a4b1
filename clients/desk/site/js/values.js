// What the values of properties mean: escaped texts, parts, dates, numbers, links and photos.

/** The text of an escaped value: \n is a line end, and a backslash before another sign goes. */
export function unescapeText(value) {
  return value.replace(/\\([^])/g, (_, it) => (it === "n" || it === "N" ? "\n" : it));
}

/** A value for a text. Control characters that no card may have become spaces. */
export function escapeText(text) {
  return clean(text)
    .replace(/\\/g, "\\\\")
    .replace(/\n/g, "\\n")
    .replace(/[,;]/g, (it) => `\\${it}`);
}

/** The text without marks that turn its direction or can't be seen: a number is read as it is. */
export function plainText(text) {
  return text.replace(/[\u061c\u200b-\u200f\u202a-\u202e\u2060-\u2069\ufeff]/g, "");
}

/** The text with line ends as \n, and without other control characters. */
export function clean(text) {
  // eslint-disable-next-line no-control-regex
  return text.replace(/\r\n?/g, "\n").replace(/[\u0000-\u0009\u000b-\u001f\u007f]/g, " ");
}

/** The parts of a value between separators that aren't escaped, as written. */
export function partsOf(value, separator) {
  const parts = [""];
  for (let at = 0; at < value.length; at += 1) {
    if (value[at] === "\\" && at + 1 < value.length) {
      parts[parts.length - 1] += value[at] + value[at + 1];
      at += 1;
    } else if (value[at] === separator) {
      parts.push("");
    } else {
      parts[parts.length - 1] += value[at];
    }
  }
  return parts;
}

/** A component of N or ADR as people read it: its values, with commas between. */
export function componentText(part) {
  return partsOf(part, ",").map(unescapeText).filter(Boolean).join(", ");
}

/** A component for a text in which commas separate values. */
export function componentOfList(text) {
  return text.split(",").map((it) => escapeText(it.trim())).filter(Boolean).join(",");
}

/** A phone number as people read it, from a text or a tel: URI (RFC 3966). */
export function telText(line) {
  const value = line.value;
  if (!/^tel:/i.test(value)) return unescapeText(value).trim();
  const [number, ...rest] = value.slice(4).split(";");
  const ext = rest.find((it) => /^ext=/i.test(it));
  return decode(number) + (ext ? ` ext. ${decode(ext.slice(4))}` : "");
}

/** A tel: URI for what a user typed, or null if it has other signs than a number has. */
export function telUri(text) {
  const found = /^(\+?[0-9][0-9 ().\-/]*)(?:\s*(?:ext\.?|x|;ext=)\s*([0-9]+))?$/i.exec(text.trim());
  if (!found) return null;
  const number = found[1].trim().replace(/[ /]+/g, "-");
  return `tel:${number}${found[2] ? `;ext=${found[2]}` : ""}`;
}

/** The digits of a number, without an extension; letters and signs are left out. */
export function digitsOf(text) {
  return text.replace(/(?:ext\.?|x)\s*[0-9]+\s*$/i, "").replace(/[^0-9]/g, "");
}

function decode(text) {
  try {
    return decodeURIComponent(text);
  } catch {
    return text;
  }
}

const SAFE = ["http:", "https:", "mailto:", "tel:", "sms:", "sip:", "sips:", "xmpp:"];

/** The address of a link if its scheme is known to be harmless, and null otherwise. */
export function safeLink(text) {
  // Browsers drop tabs and line ends in addresses, so "java\tscript:" would be a script.
  if (/[\u0000-\u0020\u007f]/.test(text) || text.length > 4000) return null;
  let url;
  try {
    url = new URL(text);
  } catch {
    return null;
  }
  return SAFE.includes(url.protocol) ? url.href : null;
}

/**
 * The address that calls the number, or null. Stars and hashes are orders to the telephone network,
 * as to send all calls elsewhere, so a text with them is no link.
 */
export function telLink(line) {
  const text = plainText(telText(line)).trim();
  const [, number, ext] = /^(.*?)(?:\s*(?:ext\.?|x)\s*([0-9]{1,10}))?$/is.exec(text);
  if (!/^\+?[0-9\s().\-/\u2010-\u2015\u00a0]+$/.test(number)) return null;
  const dialled = number.replace(/[^0-9+]/g, "");
  if (dialled.length < 3 || dialled.length > 40) return null;
  return safeLink(`tel:${dialled}${ext ? `;ext=${ext}` : ""}`);
}

/** The first number of a mobile phone that a message can go to: `{text, href}`, or null. */
export function messageLink(phones) {
  const it = phones.find((phone) => phone.href && phone.label.uses?.includes("cell"));
  return it ? { text: it.text, href: it.href.replace(/^tel:/, "sms:").replace(/;.*$/, "") } : null;
}

/** A map of an address. It is another server's, so it is opened only by a press. */
export function mapLink(lines) {
  const text = plainText(lines.join(", ")).slice(0, 500);
  return `https://www.openstreetmap.org/search?query=${encodeURIComponent(text)}`;
}

export function mailLink(text) {
  const address = plainText(text);
  return /^[^\s@<>"]+@[^\s@<>"]+$/.test(address)
    ? safeLink(`mailto:${encodeURIComponent(address).replace(/%40/g, "@")}`)
    : null;
}

// Mail programs take an address line of about this length.
const LONGEST_LINK = 1900;

/** The address of a mail that several get without seeing each other; null if they are too many. */
export function mailsLink(mails) {
  const to = mails.map((it) => encodeURIComponent(plainText(it)).replace(/%40/g, "@")).join(",");
  return to.length > LONGEST_LINK ? null : safeLink(`mailto:?bcc=${to}`);
}

/** Whether a text may be a mail address: something, an at sign, and a place with a dot. */
export function isMail(text) {
  return /^[^\s@<>",;]+@[^\s@<>",;.]+(\.[^\s@<>",;.]+)+$/.test(text.trim());
}

/** Whether a text may be a phone number. */
export function isPhone(text) {
  return /^\+?[0-9 ().\-/*#]{2,}(\s*(ext\.?|x)\s*[0-9]+)?$/i.test(text.trim());
}

/** The photo as a data: address of a type that can't have scripts, or null. */
export function photoOf(line) {
  if (!line) return null;
  const shape = /^data:image\/(jpeg|jpg|png|gif|webp);base64,([A-Za-z0-9+/=\s]+)$/i;
  const found = shape.exec(line.value);
  return found ? `data:image/${found[1].toLowerCase()};base64,${found[2]}` : null;
}

/** A date of RFC 6350 ("19800412", "--0412", "1980-04", "1980"), or null. */
export function dateParts(value) {
  const day = value.split("T")[0];
  const found =
    /^(\d{4})-?(\d{2})-?(\d{2})$/.exec(day) ??
    /^(\d{4})-(\d{2})$/.exec(day) ??
    /^(\d{4})$/.exec(day);
  if (found) return whole({ year: +found[1], month: +(found[2] ?? 0), day: +(found[3] ?? 0) });
  const yearless = /^--(\d{2})-?(\d{2})$/.exec(day);
  return yearless ? whole({ year: 0, month: +yearless[1], day: +yearless[2] }) : null;
}

function whole(parts) {
  return parts.month <= 12 && parts.day <= 31 ? parts : null;
}
