// A button with a menu: arrows go through it, Escape and a press elsewhere close it.
import { button, el, fill, newId } from "../dom.js";

/** The menu that is open, or null. Nothing that comes by itself takes the focus from it. */
export function openMenu(within = document) {
  return within.querySelector(".menu-list:not([hidden])");
}

/**
 * A button that opens a menu. `items` gives, each time, a list of `[text, run, kind]`, of which
 * some may be null.
 */
export function menuButton(label, items, attributes = {}) {
  const id = newId("menu");
  const list = el("div", { class: "menu-list", role: "menu", id, hidden: true });
  const opener = button(label, () => (list.hidden ? open() : close()), {
    "aria-haspopup": "menu", "aria-expanded": "false", ...attributes,
  });
  const box = el("div", { class: "menu-box" }, opener, list);

  const close = () => {
    list.hidden = true;
    opener.setAttribute("aria-expanded", "false");
    document.removeEventListener("pointerdown", elsewhere, true);
  };
  const elsewhere = (event) => {
    if (!box.contains(event.target)) close();
  };
  const open = () => {
    fill(list, items().filter(Boolean).map(([text, run, kind]) => button(text, () => {
      close();
      opener.focus();
      run();
    }, { role: "menuitem", tabindex: "-1", class: kind ?? null })));
    list.hidden = false;
    opener.setAttribute("aria-expanded", "true");
    document.addEventListener("pointerdown", elsewhere, true);
    list.classList.toggle("up", list.getBoundingClientRect().bottom > innerHeight - 8);
    list.firstElementChild?.focus();
  };
  list.setAttribute("aria-label", opener.getAttribute("aria-label") ?? opener.textContent);
  box.addEventListener("keydown", (event) => key(event, list, open, () => {
    close();
    opener.focus();
  }));
  box.addEventListener("focusout", (event) => {
    if (!list.hidden && event.relatedTarget && !box.contains(event.relatedTarget)) close();
  });
  return box;
}

function key(event, list, open, close) {
  const entries = [...list.children];
  const at = entries.indexOf(document.activeElement);
  const to = {
    ArrowDown: at + 1, ArrowUp: at < 0 ? -1 : at - 1 + entries.length, Home: 0,
    End: entries.length - 1,
  }[event.key];
  if (list.hidden) {
    if (event.key !== "ArrowDown") return;
    open();
  } else if (event.key === "Escape") {
    close();
  } else if (event.key === "Tab") {
    close();
    return;
  } else if (to !== undefined) {
    entries[to % entries.length]?.focus();
  } else {
    return;
  }
  event.preventDefault();
  event.stopPropagation();
}
