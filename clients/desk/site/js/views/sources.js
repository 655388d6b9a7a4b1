// What is asked about a file that is to be imported: its columns, its dates, its letters.
import { bdi, el, fill, newId } from "../dom.js";
import { isKnown, LEFT_OUT, TARGETS } from "../columns.js";
import { hasColumns } from "../sources.js";
import { count, dateText, faultText, t } from "../say.js";

/** What a word of --columns means, as "Phone, work". */
function targetText(word) {
  const [base, ...types] = word.split(";");
  const uses = types.map((it) => it.replace(/^type=/, "")).map((it) => t("uses")[it] ?? it);
  return [t("targets")[base] ?? base, ...uses].join(", ");
}

/** The choice for a column: what it is, or another property, or nothing. */
function columnChoice(source, at, act) {
  const said = source.words[at] || source.known[at] || "";
  const option = (value, text) => el("option", { value, selected: value === said }, text);
  const box = el("select", {
    "aria-label": t("columnOf", { name: source.names[at] || t("columnNumber", { n: at + 1 }) }),
    on: {
      change: () => {
        source.words[at] = box.value;
        act.again(source);
      },
    },
  },
  isKnown(said) ? null : option(said, said ? targetText(said) : t("columnUnknown")),
  option(LEFT_OUT, t("columnOut")),
  TARGETS.map(([group, words]) => el("optgroup", { label: t("targetGroups")[group] },
    words.map((it) => option(it, targetText(it))))));
  return box;
}

function columnsTable(source, act) {
  return el("table", { class: "columns" },
    el("thead", {}, el("tr", {},
      ["columnName", "columnSample", "columnWord"].map((it) => el("th", { scope: "col" }, t(it))))),
    el("tbody", {}, source.names.map((name, at) => el("tr", {},
      el("th", { scope: "row" }, bdi(name || t("columnNumber", { n: at + 1 }))),
      el("td", { class: "sample" }, bdi((source.samples[at] ?? "").slice(0, 80))),
      el("td", {}, columnChoice(source, at, act))))));
}

/** Both meanings of a date of the file, one of which has to be chosen. */
function datesChoice(source, act) {
  const [a, b, year] = source.dateSample;
  const sample = `${a}/${b}/${year}`;
  const full = Number(year.length === 2 ? (Number(year) < 30 ? `20${year}` : `19${year}`) : year);
  const date = (day, month) => dateText({ year: full, month: Number(month), day: Number(day) });
  const name = newId("dates");
  const one = (value, word, shown) => {
    const box = el("input", {
      type: "radio", name, value, checked: source.dates === value,
      on: {
        change: () => {
          source.dates = value;
          act.again(source);
        },
      },
    });
    return el("label", { class: "tick" }, box, t(word, { sample, date: shown }));
  };
  return el("fieldset", { class: "dates" }, el("legend", {}, t("datesTitle")),
    el("p", { class: "hint" }, t("datesText")),
    one("day", "datesDay", date(a, b)), one("month", "datesMonth", date(b, a)));
}

function lettersChoice(source, act) {
  const id = newId("letters");
  const box = el("select", {
    id,
    on: {
      change: () => {
        source.charset = box.value;
        act.again(source);
      },
    },
  },
  el("option", { value: "" }, t("lettersFound")),
  t("letterSets").map(([value, text]) => el("option", { value }, text)));
  return el("details", {}, el("summary", {}, t("lettersTitle")),
    el("div", { class: "field" }, el("label", { for: id }, t("lettersLabel")), box));
}

function saidOf(source) {
  const { fault, made, items } = source;
  if (fault) return el("p", { class: "error" }, t("importWrong", { why: faultText(fault) }));
  return [
    el("p", { class: "hint" },
      `${t(`kind_${made.kind || "cards"}`)}: ${count("cardsCount", items.length)}`),
    source.isGuessed && el("p", { class: "guessed" }, t("columnsGuessed")),
    made.twice ? el("p", { class: "hint" }, count("importTwice", made.twice)) : null,
    made.isWhole ? null : el("p", { class: "error" }, t("importCut")),
  ];
}

/** A file with what is asked about it. What somebody is at stays when it is read again. */
export class SourceView {
  constructor(source, act) {
    Object.assign(this, { source, act, drawn: "", wasAsked: false });
    this.said = el("div", {});
    this.dates = el("div", {});
    this.columns = el("details", { class: "of-file" });
    this.node = el("section", { class: "source" }, el("h3", {}, bdi(source.name)), this.said,
      this.dates, this.columns, lettersChoice(source, act));
  }

  update() {
    const { source, act } = this;
    fill(this.said, saidOf(source));
    const asks = source.asksDates || source.dates;
    if (asks && !this.wasAsked) fill(this.dates, datesChoice(source, act));
    if (!asks) fill(this.dates);
    this.wasAsked = Boolean(asks);
    this.columns.hidden = !hasColumns(source);
    const drawn = source.names.join("\n");
    if (drawn === this.drawn) return;
    this.drawn = drawn;
    this.columns.open = Boolean(source.fault) || source.isGuessed;
    fill(this.columns, el("summary", {}, t("columnsTitle")), el("p", { class: "hint" },
      t("columnsText")), columnsTable(source, act));
  }
}
