// The form of a card: what the card has, and one button for what it hasn't.
import { bdi, button, el, fill, labelled, newId } from "../dom.js";
import { memberValue } from "../edit.js";
import { icon } from "../icons.js";
import { search } from "../search.js";
import { t } from "../say.js";
import { clean } from "../values.js";
import { addressFields, dateField, input, photoField, rowsField } from "./fields.js";
import { menuButton } from "./menu.js";

/**
 * The form over `fields` of `fieldsOf`, which it changes as the user types. `act` has `save()`,
 * `cancel()`, `typed()` and `rows()`, the rows of the book that may be members.
 */
export function formView({ title, fields, isNew, notes, act }) {
  const error = el("p", { class: "error", role: "alert" });
  const isGroup = fields.kind === "group";
  return el(
    "form",
    {
      class: "form", autocomplete: "off", "aria-labelledby": "form-title",
      on: { submit: (event) => submit(event, fields, error, act), input: () => act.typed() },
    },
    el("h2", { id: "form-title", tabindex: "-1" }, title),
    notes,
    nameFields(fields, isNew, act),
    rowsField("tels", fields, act),
    rowsField("mails", fields, act),
    isGroup ? membersField(fields, act) : null,
    workFields(fields),
    el("fieldset", {}, el("legend", {}, t("note")), textArea(fields)),
    moreFields(fields, act),
    error,
    el(
      "div",
      { class: "bar" },
      el("button", { type: "submit", class: "main" }, t("save")),
      button(t("cancel"), act.cancel),
    ),
  );
}

/** The book and the kind of a new card. `change` gets both, and where the focus comes back to. */
export function choicesView(books, book, kind, change) {
  const kinds = Object.entries(t("kinds"));
  const toBook = (event) => change(event.target.value, kind, "#new-book");
  const toKind = (event) => change(book, event.target.value, "#new-kind");
  return el("div", { class: "choices" },
    el("label", {}, t("inBook"), " ", el("select", { id: "new-book", on: { change: toBook } },
      books.map(({ name }) => el("option", { value: name, selected: name === book }, name)))),
    el("label", {}, t("kind"), " ", el("select", { id: "new-kind", on: { change: toKind } },
      kinds.map(([value, text]) => el("option", { value, selected: value === kind }, text)))));
}

function submit(event, fields, error, act) {
  event.preventDefault();
  const form = event.target;
  const date = [...form.querySelectorAll("input.date")].find((it) => it.isBad());
  if (!fields.fn.trim()) {
    fill(error, t("needsName"));
    form.querySelector("#field-fn").focus();
  } else if (date) {
    fill(error, t("dateBad"));
    date.focus();
  } else {
    fill(error);
    act.save();
  }
}

function nameFields(fields, isNew, act) {
  const name = input(fields, "fn", { required: true, "aria-required": "true" });
  // In a card that is there already it follows nothing.
  const hint = isNew && fields.kind === "individual" ? t("fullNameHint") : "";
  const whole = labelled(t("fullName"), name, hint);
  name.id = "field-fn";
  whole.querySelector("label").htmlFor = "field-fn";
  const legend = el("legend", { class: "unseen" }, t("name"));
  if (fields.kind !== "individual") {
    return el("fieldset", {}, legend, whole, photoField(fields, act));
  }
  // The whole name follows the two parts until somebody types it.
  let follows = isNew && fields.fn === [fields.n[1], fields.n[0]].filter(Boolean).join(" ");
  name.addEventListener("input", () => { follows = name.value === ""; });
  const both = (place) => {
    const part = input(fields.n, place);
    part.addEventListener("input", () => {
      if (!follows) return;
      fields.fn = [fields.n[1], fields.n[0]].map((it) => it.trim()).filter(Boolean).join(" ");
      name.value = fields.fn;
    });
    return part;
  };
  return el("fieldset", {}, legend,
    el("div", { class: "two" },
      labelled(t("given"), both(1)), labelled(t("family"), both(0))),
    whole, photoField(fields, act));
}

function workFields(fields) {
  const isPerson = fields.kind === "individual";
  return el("fieldset", {}, el("legend", {}, t("work")), el("div", { class: "two" },
    labelled(t("organisation"), input(fields.org, 0)),
    isPerson ? labelled(t("jobTitle"), input(fields, "title")) : null));
}

function textArea(fields) {
  const area = el("textarea", {
    rows: 3, "aria-label": t("note"),
    on: { input: () => { fields.note = clean(area.value); } },
  });
  area.value = fields.note;
  return area;
}

/** One field under its own legend. */
function section(title, ...parts) {
  return el("fieldset", {}, el("legend", { class: "unseen" }, title), parts);
}

/** What a card may have beside: `[name, whether it has it, how to make the field]`. */
function optional(fields, act) {
  const { n } = fields;
  const one = (name, object, key) =>
    [name, Boolean(object[key]), () => section(t(name), labelled(t(name), input(object, key)))];
  const rows = (name, key) => [name, fields[key].length > 0, () => {
    if (!fields[key].length) {
      fields[key].push({ line: null, use: key === "related" ? "" : "work", text: "" });
    }
    return rowsField(key, fields, act);
  }];
  const date = (name, key) => [name, Boolean(fields[key]),
    () => section(t(name), dateField(fields, key, t(name), act))];
  const address = ["address", fields.adrs.length > 0, () => {
    if (!fields.adrs.length) {
      fields.adrs.push({ line: null, use: "work", text: ["", "", "", "", ""] });
    }
    return addressFields(fields, act);
  }];
  const ofPerson = fields.kind !== "individual" ? [] : [
    date("birthday", "bday"), date("anniversary", "anniversary"),
    one("nickname", fields, "nickname"), one("prefix", n, 3), one("additional", n, 2),
    one("suffix", n, 4), rows("related", "related"),
  ];
  const categories = ["categories", Boolean(fields.categories), () => section(t("categories"),
    labelled(t("categories"), input(fields, "categories"), t("commaHint")))];
  return [
    address, rows("web", "urls"), rows("chat", "chats"), one("unit", fields.org, 1), categories,
    ...ofPerson,
  ];
}

/** The fields that the card has, and a menu of those that it hasn't. */
function moreFields(fields, act) {
  const all = optional(fields, act);
  const shown = new Set(all.filter((it) => it[1]).map((it) => it[0]));
  const list = el("div", { class: "more-fields" }, all.filter((it) => it[1]).map((it) => it[2]()));
  const add = menuButton([icon("add"), el("span", {}, t("addField"))], () => all
    .filter((it) => !shown.has(it[0]))
    .map(([name, , make]) => [t(name), () => {
      shown.add(name);
      const field = make();
      list.append(field);
      field.querySelector("input").focus();
    }]), { class: "add-field" });
  return el("div", {}, list, add);
}

/** The members of a group, and a search for more. */
function membersField(fields, act) {
  const list = el("ul", { class: "members" });
  const found = el("div", {
    class: "found", role: "group", "aria-label": t("found"), "aria-live": "polite",
  });
  const id = newId("field");
  const box = el("input", { type: "search", id, autocomplete: "off", on: { input: () => look() } });
  const draw = () => {
    const members = act.members(fields.members);
    fill(list, members.map(([value, row]) =>
      el("li", {}, row ? bdi(row.name) : el("span", { class: "missing" }, bdi(value)),
        button(icon("close"), () => {
          fields.members = fields.members.filter((it) => it !== value);
          draw();
          act.typed();
          box.focus();
        }, {
          class: "quiet round", title: t("removeRow"),
          "aria-label": t("removeThis", { title: row ? row.name : value }),
        })),
    ));
  };
  const look = () => {
    const taken = new Set(fields.members);
    const rows = box.value.trim() === "" ? [] : search(act.rows(), box.value);
    const free = rows.filter((row) => !taken.has(row.uid) && !taken.has(memberValue(row.uid)));
    fill(found, free.slice(0, 6).map((row) =>
      button([bdi(row.name), " ", el("small", {}, bdi(row.org ?? ""))], () => {
        fields.members = [...fields.members, memberValue(row.uid)];
        box.value = "";
        fill(found);
        draw();
        act.typed();
        box.focus();
      }, { class: "tag" }),
    ));
  };
  draw();
  return el(
    "fieldset",
    {},
    el("legend", {}, t("members")),
    list,
    el("div", { class: "field" }, el("label", { for: id }, t("addMember")), box),
    found,
  );
}
