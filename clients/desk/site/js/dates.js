// Dates as people type them: 12.4.1980, 12 April 1980, April 12, 4/12/1980 or 12/4/1980 as the
// user's country has it, with or without a year, and as vCards write them.
import { dateParts } from "./values.js";

const ENGLISH = "en";

/** The names of the months in a language, long and short, each with its number. */
function monthNames(locale) {
  const names = new Map();
  for (const language of [ENGLISH, locale]) {
    for (const month of ["long", "short"]) {
      const shown = [{ month }, { month, day: "numeric" }];
      for (const options of shown) {
        const format = new Intl.DateTimeFormat(language, { ...options, timeZone: "UTC" });
        for (let at = 0; at < 12; at += 1) {
          const parts = format.formatToParts(Date.UTC(2000, at, 1));
          const name = parts.find((it) => it.type === "month")?.value ?? "";
          if (/\p{L}/u.test(name)) names.set(folded(name), at + 1);
        }
      }
    }
  }
  names.set("sept", 9);
  return names;
}

function folded(text) {
  return text.normalize("NFKD").replace(/\p{M}+/gu, "").toLowerCase().replace(/\.$/, "");
}

/** Whether the user's country writes the month before the day. */
function isMonthFirst(locale) {
  const order = new Intl.DateTimeFormat(locale).formatToParts(0).map((it) => it.type);
  return order.indexOf("month") < order.indexOf("day");
}

/** A year of two digits is one that isn't in the future. */
function fullYear(text, now) {
  if (text === undefined) return 0;
  if (text.length !== 2) return Number(text);
  const year = 2000 + Number(text);
  return year > now.getFullYear() ? year - 100 : year;
}

function checked({ year, month, day }) {
  if (month < 1 || month > 12 || day < 1) return null;
  const days = new Date(Date.UTC(year || 2000, month, 0)).getUTCDate();
  const isYear = year === 0 || (year >= 1000 && year <= 9999);
  return day <= days && isYear ? { year, month, day } : null;
}

/** Day and month in the order of the country, unless one of them can't be the month. */
function ofNumbers(one, other, year, locale) {
  const [a, b] = [Number(one), Number(other)];
  const isFirst = a <= 12 && (b > 12 || isMonthFirst(locale));
  return checked(isFirst ? { year, month: a, day: b } : { year, month: b, day: a });
}

/** `{year, month, day}` of what was typed, with 0 for a part that it hasn't; null if it is none. */
export function readDate(text, locale, now = new Date()) {
  const typed = text.trim().replace(/\s+/g, " ");
  const plain = dateParts(typed);
  if (plain) return plain.day ? checked(plain) : plain;
  let found = /^(\d{4})[./ ](\d{1,2})[./ ](\d{1,2})\.?$/.exec(typed)
    ?? /^(\d{4})-(\d{1,2})-(\d{1,2})$/.exec(typed);
  if (found) return checked({ year: +found[1], month: +found[2], day: +found[3] });
  found = /^(\d{1,2})\. ?(\d{1,2})\.? ?(\d{4}|\d{2})?$/.exec(typed);
  if (found) return checked({ year: fullYear(found[3], now), month: +found[2], day: +found[1] });
  found = /^(\d{1,2})[/\- ](\d{1,2})(?:[/\- ](\d{4}|\d{2}))?$/.exec(typed);
  if (found) return ofNumbers(found[1], found[2], fullYear(found[3], now), locale);
  return ofNames(typed, locale, now);
}

/** A date with the name of its month. */
function ofNames(typed, locale, now) {
  const names = monthNames(locale);
  const words = typed.replace(/(\d)\.(?=\p{L})/gu, "$1 ").split(/[\s,]+/).filter(Boolean);
  let month = 0;
  const numbers = [];
  for (const word of words) {
    const number = /^(\d{1,4})(?:\.|st|nd|rd|th)?$/i.exec(word);
    const named = names.get(folded(word));
    if (number) numbers.push(number[1]);
    else if (named && !month) month = named;
    else if (!/^(of|de|den|the)$/i.test(word)) return null;
  }
  if (!month || !numbers.length || numbers.length > 2) return null;
  const isYear = (it) => it.length === 4;
  if (numbers.length === 1) {
    return isYear(numbers[0])
      ? { year: +numbers[0], month, day: 0 }
      : checked({ year: 0, month, day: +numbers[0] });
  }
  const [day, year] = isYear(numbers[0]) ? [numbers[1], numbers[0]] : numbers;
  return checked({ year: fullYear(year, now), month, day: +day });
}

/** The date as a vCard has it (RFC 6350, section 4.3.1). */
export function dateOf({ year, month, day }) {
  const two = (number) => String(number).padStart(2, "0");
  const four = year ? String(year).padStart(4, "0") : "-";
  if (!day && !month) return four;
  if (!day) return year ? `${four}-${two(month)}` : `--${two(month)}`;
  return year ? `${four}${two(month)}${two(day)}` : `--${two(month)}${two(day)}`;
}
