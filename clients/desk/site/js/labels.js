// Labels of one's own: a line and its label share a group, as phones and the conversion of other
// programs' cards write them ("item1.TEL:..", "item1.X-ABLABEL:Reception").
import { escapeText, unescapeText } from "./values.js";
import { makeLine, withParams, withValue } from "./vcard.js";

const LABEL = "X-ABLABEL";

/** Whether a line says something about the others of its group, and nothing by itself. */
export function isOfGroup(line) {
  return line.name.startsWith("X-AB");
}

const groupOf = (line) => line.group.toLowerCase();

function mates(lines, line) {
  return line.group ? lines.filter((it) => it !== line && groupOf(it) === groupOf(line)) : [];
}

function labelLine(lines, line) {
  return mates(lines, line).find((it) => it.name === LABEL) ?? null;
}

/** The label of a line, "" for none. Apple's own labels are between signs. */
export function ownLabel(lines, line) {
  const own = labelLine(lines, line);
  return own ? unescapeText(own.value).replace(/^_\$!<(.*)>!\$_$/, "$1").trim() : "";
}

function inGroup(line, group) {
  return withParams({ ...line, group }, line.params.map((it) => it.text));
}

function newGroup(lines) {
  const taken = new Set(lines.map(groupOf));
  let number = 1;
  while (taken.has(`item${number}`)) number += 1;
  return `item${number}`;
}

/** The lines with another label for one of them, "" for none. Lines that share it keep theirs. */
export function withLabel(lines, line, label) {
  const others = mates(lines, line);
  const own = others.find((it) => it.name === LABEL);
  const isShared = others.some((it) => !isOfGroup(it));
  const put = (old, ...news) => lines.flatMap((it) => (it === old ? news : [it]));
  if (!label) {
    if (!own) return lines;
    if (isShared) return put(line, inGroup(line, ""));
    if (others.length > 1) return put(own);
    return put(own).map((it) => (it === line ? inGroup(line, "") : it));
  }
  if (own && !isShared) return put(own, withValue(own, escapeText(label)));
  const group = line.group && !isShared ? line.group : newGroup(lines);
  return put(line, inGroup(line, group), inGroup(makeLine(LABEL, "", escapeText(label)), group));
}
