// Fields of the form: one text, rows that can be added and removed, dates, a photo.
import { button, el, fill, labelled, newId } from "../dom.js";
import { icon } from "../icons.js";
import { readDate } from "../dates.js";
import { dateText, locale, t, usesText } from "../say.js";
import { isMail, isPhone } from "../values.js";
import { readPhoto } from "../photo.js";

const USES = {
  tels: ["work", "cell", "work,cell", "home", "work,fax", "fax", ""],
  mails: ["work", "home", ""],
  urls: ["work", "home", ""],
  chats: ["work", "home", ""],
  related: [
    "", "spouse", "child", "parent", "sibling", "friend", "colleague", "agent", "emergency",
  ],
  adrs: ["work", "home", ""],
};
const KINDS = {
  tels: { name: "phone", attributes: { type: "tel" }, test: isPhone, bad: "phoneBad" },
  mails: { name: "mail", attributes: { inputmode: "email" }, test: isMail, bad: "mailBad" },
  urls: { name: "web", attributes: { inputmode: "url" } },
  chats: { name: "chat", attributes: { inputmode: "url" } },
  related: { name: "related", attributes: {} },
};

/** An input for one text of an object. */
export function input(object, key, attributes = {}) {
  return el("input", {
    type: "text",
    value: object[key],
    autocomplete: "off",
    maxlength: "20000",
    on: { input: (event) => { object[key] = event.target.value; } },
    ...attributes,
  });
}

/** Rows that can be added and removed: numbers, addresses of mail, of pages. */
export function rowsField(key, fields, act) {
  const { name, attributes, test, bad } = KINDS[key];
  const title = t(name);
  const list = el("div", { class: "rows" });
  const one = (row) => {
    const box = input(row, "text", { "aria-label": title, ...attributes });
    return el("div", { class: "entry" },
      useSelect(key, row, title), box, remover(fields, key, row, title, draw, act),
      test ? hintOf(box, test, t(bad)) : null);
  };
  const draw = () => fill(list, fields[key].map(one));
  draw();
  return el("fieldset", { class: `of-${key}` }, el("legend", {}, title), list,
    adder(fields, key, list, draw, () => "", act));
}

/** A word about a value that can't be one, once the field is left. It forbids nothing. */
function hintOf(box, test, text) {
  const id = newId("hint");
  const hint = el("small", { id, class: "warning", role: "status" });
  box.setAttribute("aria-describedby", id);
  const look = () => fill(hint, box.value.trim() === "" || test(box.value) ? "" : text);
  box.addEventListener("change", look);
  box.addEventListener("input", () => {
    if (hint.textContent) look();
  });
  if (box.value) look();
  return hint;
}

export function addressFields(fields, act) {
  const list = el("div", { class: "rows" });
  const names = ["street", "postcode", "city", "region", "country"];
  const draw = () => fill(list, fields.adrs.map((row) => one(row)));
  const one = (row) => el("div", { class: "entry wide" },
    useSelect("adrs", row, t("address")),
    el("div", { class: "two" }, names.map((name, at) => labelled(t(name), input(row.text, at)))),
    remover(fields, "adrs", row, t("address"), draw, act));
  draw();
  return el("fieldset", { class: "of-adrs" }, el("legend", {}, t("address")), list,
    adder(fields, "adrs", list, draw, () => ["", "", "", "", ""], act));
}

// Before the label of an option's value; no use begins with it.
const OWN = "=";

/** What a value is for: one of some words, or a label of one's own. */
function useSelect(key, row, title) {
  const uses = USES[key].includes(row.use) ? USES[key] : [row.use, ...USES[key]];
  const label = row.label ?? "";
  const option = (value, text, selected) => el("option", { value, selected }, text);
  const box = el("input", {
    type: "text", maxlength: "60", autocomplete: "off",
    "aria-label": t("labelOf", { title }), placeholder: t("ownLabel"),
    on: { input: () => { row.label = box.value; } },
  });
  const select = el("select", {
    "aria-label": t("useOf", { title }),
    on: {
      change: () => {
        const isOwn = select.value.startsWith(OWN);
        row.label = isOwn ? select.value.slice(OWN.length) : "";
        row.use = isOwn ? "" : select.value;
        box.remove();
        box.value = "";
        if (select.value !== OWN) return;
        cell.append(box);
        box.focus();
      },
    },
  },
  label && option(OWN + label, label, true),
  uses.map((use) => option(
    use, use ? usesText({ uses: use.split(",") }) : t("noUse"), !label && use === row.use,
  )),
  option(OWN, t("ownLabel"), false));
  const cell = el("div", { class: "use" }, select);
  return cell;
}

function remover(fields, key, row, title, draw, act) {
  return button(icon("close"), (event) => {
    const place = event.currentTarget.closest("fieldset");
    fields[key] = fields[key].filter((it) => it !== row);
    draw();
    act.typed();
    place.querySelector(".add").focus();
  }, {
    class: "quiet round remove", "aria-label": t("removeThis", { title }), title: t("removeRow"),
  });
}

function adder(fields, key, list, draw, empty) {
  return button([icon("add"), el("span", {}, t("add"))], () => {
    fields[key].push({ line: null, use: USES[key][0], text: empty() });
    draw();
    list.lastElementChild.querySelector("input").focus();
  }, { class: "quiet add" });
}

/**
 * A date in any usual form. What was read is said; what can't be read is kept as a text only if
 * the user says so.
 */
export function dateField(fields, key, title, act) {
  const said = el("small", { id: newId("hint"), role: "status" }, t("dateHint"));
  const box = input(fields, key, { placeholder: dateText({ year: 1980, month: 4, day: 12 }) });
  const field = labelled(title, box);
  const before = fields[key];
  box.setAttribute("aria-describedby", said.id);
  const look = () => {
    const date = readDate(box.value, locale);
    const isText = fields.asTexts?.includes(key) || (box.value !== "" && box.value === before);
    said.className = "";
    if (box.value.trim() === "") fill(said, t("dateHint"));
    else if (date) fill(said, t("dateRead", { date: dateText(date) }));
    else if (isText) fill(said, t("dateKept"));
    else {
      said.className = "warning";
      fill(said, t("dateBad"), " ", button(t("dateKeep"), () => {
        fields.asTexts = [...(fields.asTexts ?? []), key];
        act.typed();
        look();
        box.focus();
      }, { class: "quiet" }));
    }
  };
  box.addEventListener("input", () => {
    fields.asTexts = (fields.asTexts ?? []).filter((it) => it !== key);
    look();
  });
  box.isBad = () => {
    const isText = fields.asTexts?.includes(key) || box.value === before;
    return box.value.trim() !== "" && !isText && !readDate(box.value, locale);
  };
  box.classList.add("date");
  if (box.value) look();
  field.append(said);
  return field;
}

export function photoField(fields, act) {
  const shown = el("div", { class: "photo-field" });
  const file = el("input", { type: "file", accept: "image/*" });
  const draw = () => {
    fill(
      shown,
      fields.photo ? el("img", { class: "photo", src: fields.photo, alt: t("photo") }) : null,
      el("label", { class: "pick-file" }, t(fields.photo ? "otherPhoto" : "choosePhoto"), file),
      fields.photo
        ? button(icon("close"), () => {
          fields.photo = null;
          act.typed();
          draw();
          file.focus();
        }, {
          class: "quiet round remove", title: t("removeRow"),
          "aria-label": t("removeThis", { title: t("photo") }),
        })
        : null,
    );
  };
  file.addEventListener("change", async () => {
    const [chosen] = file.files;
    if (!chosen) return;
    try {
      fields.photo = await readPhoto(chosen);
      act.typed();
      draw();
    } catch {
      act.say(t("photoBad"));
    }
  });
  draw();
  return shown;
}
