// Says the desk's texts: with numbers, times and dates as the user's language has them, and faults
// in words.
import { COUNTS, language, TEXTS } from "./texts.js";

// Numbers and times are written as in the user's country, if the user's language is this one.
export const locale = navigator.languages?.find((it) => it.split("-")[0] === language) ?? language;
const plurals = new Intl.PluralRules(language);
const numbers = new Intl.NumberFormat(locale);
const times = new Intl.DateTimeFormat(locale, { hour: "2-digit", minute: "2-digit" });
const days = new Intl.DateTimeFormat(locale, {
  day: "numeric", month: "short", hour: "2-digit", minute: "2-digit",
});
const years = new Intl.DateTimeFormat(locale, {
  day: "numeric", month: "short", year: "numeric", hour: "2-digit", minute: "2-digit",
});

function filled(text, values) {
  return text.replace(/\{(\w+)\}/g, (_, key) => String(values[key] ?? ""));
}

/** The text of a name, with its braces filled. Lists are given as they are. */
export function t(name, values = {}) {
  const text = TEXTS[name];
  if (text === undefined) throw new Error(`no text ${name}`);
  return typeof text === "string" ? filled(text, values) : text;
}

/** A text with a number in the plural that the number has. */
export function count(name, n) {
  const forms = COUNTS[name];
  return filled(forms[plurals.select(n)] ?? forms.other, { n: number(n) });
}

export function number(n) {
  return numbers.format(n);
}

/** A time of today, or a day with its time, and with its year if that isn't this one. */
export function timeText(ms, none = t("never")) {
  if (!ms) return none;
  const [date, now] = [new Date(ms), new Date()];
  if (date.toDateString() === now.toDateString()) return times.format(ms);
  return (date.getFullYear() === now.getFullYear() ? days : years).format(ms);
}

/** A date of a card: with or without its year, its month and its day. */
export function dateText({ year, month, day }) {
  const form = { timeZone: "UTC" };
  if (year) form.year = "numeric";
  if (month) form.month = "long";
  if (day) form.day = "numeric";
  const date = new Date(Date.UTC(2000, Math.max(0, month - 1), day || 1));
  if (year) date.setUTCFullYear(year);
  return new Intl.DateTimeFormat(locale, form).format(date);
}

/** A language by its tag, as "Irish" for "ga". What is no tag is said as it is. */
export function languageText(tag) {
  try {
    return new Intl.DisplayNames(locale, { type: "language" }).of(tag);
  } catch {
    return tag;
  }
}

/** What a number or an address is for, as "work, mobile", or its own label. */
export function usesText(label) {
  if (!label) return "";
  return label.text ?? label.uses.map((it) => TEXTS.uses[it] ?? it).join(", ");
}

export function propertyText(name) {
  return TEXTS.properties[name] ?? t("otherProperty");
}

/** A fault in words. */
export function faultText(fault) {
  if (fault.from === "none") return t(navigator.onLine ? "faultNone" : "faultOffline");
  if (fault.from === "front") {
    if (fault.fault === "no-address") return t("faultNoAddress");
    const known = TEXTS[`fault${fault.status}`];
    return known ?? t("faultFront", { status: fault.status });
  }
  if (fault.text) return fault.text; // the server's own words, as of a file
  const known = fault.fault === "bad-card"
    ? TEXTS.badCard[fault.cause]
    : TEXTS.faults[fault.fault];
  return known ?? t("faultOther", { fault: fault.fault });
}

/** What is wrong with a row of an import, in words. */
export function rowFaultText({ cause, fault }) {
  return (cause > 20 && cause < 40 ? TEXTS.badCard[cause - 20] : TEXTS.badRow[cause]) ?? fault;
}

/** The first fault of an import in words; `names` has the name of each row of the file. */
export function importFaultText(fault, { names, form }) {
  const { row } = fault;
  const name = names[row - 1]?.slice(0, 80);
  const kind = form === "vcf" ? "importCard" : "importRow";
  const place = row === 0 ? t("importHeader") : t(name ? `${kind}Named` : kind, { row, name });
  return t("importBadRow", { place, why: rowFaultText(fault) });
}
