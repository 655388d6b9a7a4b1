// A card as people read it: one sheet, with what one does most at its top.
import { bdi, button, el } from "../dom.js";
import { letters } from "../faces.js";
import { icon } from "../icons.js";
import { count, dateText, languageText, propertyText, t, usesText } from "../say.js";
import { mapLink, messageLink } from "../values.js";
import { menuButton } from "./menu.js";
import { entryButtons, whyText } from "./waiting.js";

/**
 * The view of a card: `seen` of `describe`, its `row`, its text, the members and groups that the
 * copy has, and the entry of the queue if it isn't sent. `act` has the actions.
 */
export function cardView({ seen, row, text, entry, members, groups, mayChange, act }) {
  return el(
    "article",
    { class: "card", "aria-labelledby": "card-name" },
    head(seen, mayChange, act),
    entry && notSent(entry, act),
    quick(seen, act),
    phones(seen, act),
    section(t("mail"), seen.mails.map((it) => line(it, act))),
    section(t("chat"), seen.chats.map((it) => line(it, act))),
    section(t("web"), seen.webs.map((it) => line(it, null))),
    section(t("address"), seen.addresses.map((it) => address(it, act))),
    section(t("dates"), seen.dates.map(dateLine)),
    section(t("note"), seen.notes.map((it) => el("p", { class: "note" }, bdi(it)))),
    section(t("categories"), [
      tags(seen.categories.map((it) => tag(it, act))),
    ]),
    section(t("related"), seen.related.map((it) => line(it, null))),
    section(propertyText("LANG"), [joined(seen.languages.map(languageText))]),
    section(propertyText("TZ"), [joined(seen.zones)]),
    seen.kind === "group" ? group(members, act) : null,
    section(t("inGroups"), [tags(groups.map((it) => link(it, act)))]),
    more(seen, text),
    el("footer", {}, t("cardFooter", { book: row.book })),
  );
}

/** A change of this card that the server doesn't have yet. */
function notSent(entry, act) {
  const run = { decide: act.decide, again: act.again, drop: act.drop };
  const buttons = entryButtons(entry, run);
  return el("div", { class: `unsent ${entry.state}`, role: "status" },
    el("p", {}, el("strong", {}, t("notSentMark")), " ", whyText(entry)),
    buttons.length ? el("div", { class: "bar" }, buttons) : null);
}

function head(seen, mayChange, act) {
  const roles = [...seen.titles, ...seen.orgs].join(" · ");
  const nick = seen.nicknames.join(", ");
  return el(
    "header",
    {},
    picture(seen),
    el(
      "div",
      { class: "title" },
      el("h2", { id: "card-name", tabindex: "-1" }, bdi(seen.name || t("nameless")),
        act.isFavourite() && el("span", {
          class: "favourite", role: "img", "aria-label": t("isFavourite"), title: t("isFavourite"),
        }, icon("star"))),
      roles && el("p", { class: "roles" }, bdi(roles)),
      nick && el("p", { class: "roles" }, bdi(`“${nick}”`)),
      mayChange ? null : el("p", { class: "roles" }, t("readOnly")),
    ),
    el(
      "div",
      { class: "actions", role: "group", "aria-label": t("actions") },
      mayChange && button(t("edit"), act.edit, { class: "main", title: t("editKey") }),
      menuButton(icon("more"), () => [
        [t(act.isFavourite() ? "unfavourite" : "favourite"), act.favourite],
        mayChange && [t("groupsOf"), act.groups],
        mayChange && [t("move"), act.move],
        act.hasVersions() && [t("versions"), act.versions],
        mayChange && [t("earlier"), act.earlier],
        [t("saveVcf"), act.download],
        [t("saveVcf3"), act.download3],
        [t("saveCsv"), act.columns],
        [t("print"), act.print],
        mayChange && [t("remove"), act.remove, "danger"],
      ], { class: "round", "aria-label": t("moreActions"), title: t("moreActions") }),
    ),
  );
}

function picture(seen) {
  const alt = t("photoOf", { name: seen.name });
  if (seen.photo) return el("img", { class: "photo", src: seen.photo, alt });
  return letters(seen.name, seen.kind, "large");
}

/** What one does most with a card: each a link that the device knows what to do with. */
function quick(seen, act) {
  const [phone] = seen.phones.filter((it) => it.href);
  const [mail] = seen.mails.filter((it) => it.href);
  const message = messageLink(seen.phones);
  const one = (name, sign, it, href) => it && el("a", {
    class: "quick-one", href, "aria-label": `${t(name)}: ${it.text}`, title: it.text,
  }, icon(sign), el("span", {}, t(name)));
  return el("div", { class: "quick", role: "group", "aria-label": t("quick") },
    one("callNow", "call", phone, phone?.href),
    one("mailNow", "mail", mail, mail?.href),
    message && one("messageNow", "message", message, message.href),
    seen.kind === "group" && act.mailAll
      ? button([icon("mail"), el("span", {}, t("mailAll"))], act.mailAll, { class: "quick-one" })
      : null,
    button([icon("share"), el("span", {}, t("shareNow"))], act.share, { class: "quick-one" }));
}

function section(title, rows) {
  const some = rows.filter(Boolean);
  if (!some.length) return null;
  return el("section", {}, el("h3", {}, title), el("div", { class: "lines" }, some));
}

function phones(seen, act) {
  if (!seen.phones.length) return null;
  const node = section(t("phone"), seen.phones.map((it) => line(it, act)));
  node.classList.add("phones");
  return node;
}

/** A value with its label, a link if it has a harmless one, and a button to copy it. */
function line(it, act) {
  const value = it.href
    ? el("a", { href: it.href, ...outside(it.href) }, bdi(it.text))
    : bdi(it.text);
  const label = usesText(it.label);
  return el(
    "div",
    { class: "line" },
    el("div", { class: "value" }, value, label && el("span", { class: "label" }, bdi(label))),
    act && copier(it.text, act),
  );
}

function copier(text, act) {
  return button(icon("copy"), () => act.copy(text), {
    class: "quiet copy", "aria-label": t("copyThis", { text }), title: t("copy"),
  });
}

function outside(href) {
  return /^https?:/.test(href) ? { target: "_blank", rel: "noopener noreferrer" } : {};
}

function address(it, act) {
  const label = usesText(it.label);
  const href = mapLink(it.lines);
  return el(
    "div",
    { class: "line" },
    el(
      "div",
      { class: "value" },
      el("div", { class: "address" }, it.lines.map((text) => el("div", {}, bdi(text)))),
      label && el("span", { class: "label" }, bdi(label)),
    ),
    el("a", {
      class: "copy map", href, ...outside(href), title: t("mapTitle"),
      "aria-label": `${t("map")}: ${it.lines.join(", ")}`,
    }, icon("map")),
    copier(it.lines.join("\n"), act),
  );
}

function dateLine(it) {
  const label = t(it.name === "BDAY" ? "birthday" : "anniversary");
  return line({ text: it.date ? dateText(it.date) : it.text, label: { text: label } }, null);
}

function joined(texts) {
  return texts.length ? el("p", {}, bdi(texts.join(", "))) : null;
}

function tags(buttons) {
  return buttons.length ? el("p", { class: "tags" }, buttons) : null;
}

function tag(text, act) {
  return button(bdi(text), () => act.category(text), { class: "tag" });
}

function link(row, act) {
  return button(bdi(row.name || t("nameless")), () => act.open(row), { class: "tag" });
}

function group(members, act) {
  const list = members.map(([value, row]) =>
    el("li", {}, row ? link(row, act) : el("span", { class: "missing" }, bdi(value))),
  );
  const people = el("div", { class: "people", "aria-live": "polite" });
  return el(
    "section",
    {},
    el("h3", {}, count("membersCount", members.length)),
    el(
      "div",
      { class: "lines" },
      el("ul", { class: "members" }, list),
      button(t("askPeople"), () => act.people(people)),
      people,
    ),
  );
}

/** What the server says of the people of a group: `[uid, row or null]`, and the missing values. */
export function peopleView(people, missing, act) {
  return [
    el("h4", {}, count("peopleCount", people.length)),
    el("ul", { class: "members" }, people.map(([uid, row]) =>
      el("li", {}, row ? link(row, act) : el("span", { class: "missing" }, bdi(uid))),
    )),
    missing.length ? el("h4", {}, count("missingCount", missing.length)) : null,
    missing.length
      ? el("ul", { class: "members" }, missing.map((it) => el("li", { class: "missing" }, bdi(it))))
      : null,
  ];
}

function more(seen, text) {
  const photo = !seen.photo && seen.photoLink
    ? el("p", {}, el("a", { href: seen.photoLink, ...outside(seen.photoLink) },
      t("photoElsewhere")))
    : null;
  const clip = (it) => (it.length > 400 ? `${it.slice(0, 400)}…` : it);
  const others = seen.others.length
    ? el("ul", { class: "others" }, seen.others.map((it) => el("li", {}, bdi(clip(it)))))
    : null;
  const source = text.length > 20000 ? `${text.slice(0, 20000)}\n…` : text;
  return el(
    "details",
    {},
    el("summary", {}, seen.others.length ? count("othersCount", seen.others.length) : t("source")),
    photo,
    others,
    el("pre", { tabindex: "0", "aria-label": t("source") }, source),
  );
}
