// Makes elements. Strings become text nodes and nothing else: no text of a card is ever read as
// markup, and an address becomes a link only if its scheme is known to be harmless.
import { safeLink } from "./values.js";

const ATTRIBUTES = new Set([
  "id", "class", "role", "type", "name", "value", "for", "title", "lang", "dir", "rows", "tabindex",
  "placeholder", "autocomplete", "spellcheck", "inputmode", "accept", "maxlength", "download",
  "alt", "rel", "target", "max", "enterkeyhint", "autocapitalize", "scope", "colspan",
  "label",
]);
const STATES = new Set([
  "disabled", "checked", "required", "hidden", "open", "selected", "multiple",
]);

/** An element. `on` has listeners, `href` and `src` are tested; children are nodes or strings. */
export function el(name, attributes = {}, ...children) {
  const node = document.createElement(name);
  for (const [key, value] of Object.entries(attributes)) {
    if (value === null || value === undefined) continue;
    if (key === "on") listen(node, value);
    else if (key === "href") setLink(node, value);
    else if (key === "src") setPicture(node, value);
    else if (STATES.has(key)) node[key] = Boolean(value);
    else if (ATTRIBUTES.has(key) || key.startsWith("aria-")) node.setAttribute(key, String(value));
    else throw new Error(`attribute ${key}`);
  }
  add(node, children);
  return node;
}

function listen(node, listeners) {
  for (const [type, run] of Object.entries(listeners)) node.addEventListener(type, run);
}

function setLink(node, address) {
  const safe = address.startsWith("#") ? address : safeLink(address);
  if (safe) node.setAttribute("href", safe);
}

function setPicture(node, address) {
  const isPicture = /^data:image\/(jpeg|jpg|png|gif|webp);base64,/.test(address);
  if (isPicture) node.setAttribute("src", address);
}

export function add(node, children) {
  for (const child of children.flat(3)) {
    if (child === null || child === undefined || child === false || child === "") continue;
    node.append(child);
  }
  return node;
}

export function fill(node, ...children) {
  node.replaceChildren();
  return add(node, children);
}

/** A text of a card: its direction is its own, and can't spread to what is around it. */
export function bdi(text, kind = "") {
  return el("bdi", { class: kind || null, dir: "auto" }, text);
}

export function button(text, run, attributes = {}) {
  return el("button", { type: "button", on: { click: run }, ...attributes }, text);
}

let names = 0;

/** A new id for an element. */
export function newId(kind) {
  names += 1;
  return `${kind}-${names}`;
}

/** A label above a control. */
export function labelled(text, control, hint = "") {
  const id = newId("field");
  control.id = id;
  const help = hint ? el("small", { id: `${id}-hint` }, hint) : null;
  if (help) control.setAttribute("aria-describedby", `${id}-hint`);
  return el("div", { class: "field" }, el("label", { for: id }, text), control, help);
}
