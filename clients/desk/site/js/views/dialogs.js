// Dialogs with a question.
import { button, el, fill, newId } from "../dom.js";
import { t } from "../say.js";

/**
 * Shows a dialog and waits. `make(close)` gives its content; a dialog that is left gives null, and
 * so does one that `signal` ends.
 */
export function dialog(title, make, kind = "", signal = null) {
  return new Promise((resolve) => {
    const id = newId("dialog");
    const box = el("dialog", { class: kind, "aria-labelledby": id });
    let answer = null;
    const close = (value) => {
      answer = value;
      box.close();
    };
    const end = () => close(null);
    signal?.addEventListener("abort", end);
    box.addEventListener("close", () => {
      signal?.removeEventListener("abort", end);
      box.remove();
      resolve(answer);
    });
    fill(box, el("h2", { id }, title), make(close, box));
    document.body.append(box);
    box.showModal();
    // The focus may be at its end, and what is long begins at its title.
    box.scrollTop = 0;
  });
}

/** Asks with some buttons, each `[text, answer, kind]`. */
export function ask(title, texts, choices, signal = null) {
  return dialog(title, (close) => [
    texts.map((text) => el("p", {}, text)),
    el("div", { class: "bar" }, choices.map(([text, answer, kind]) =>
      button(text, () => close(answer), { class: kind ?? null }),
    )),
  ], "", signal);
}

/** Asks for one line of text. `test` says what is wrong with it, or "". */
export function askText(title, label, hint, test) {
  return dialog(title, (close) => {
    const id = newId("field");
    const box = el("input", { id, type: "text", autocomplete: "off", autocapitalize: "none" });
    const error = el("p", { class: "error", role: "alert" });
    const submit = (event) => {
      event.preventDefault();
      const wrong = test(box.value.trim());
      if (wrong) fill(error, wrong);
      else close(box.value.trim());
    };
    return el(
      "form",
      { on: { submit } },
      el("div", { class: "field" }, el("label", { for: id }, label), box,
        hint && el("small", {}, hint)),
      error,
      el("div", { class: "bar" }, el("button", { type: "submit", class: "main" }, t("ok")),
        button(t("cancel"), () => close(null))),
    );
  });
}

/** Asks for one of several things, `[text, answer]` each. Answers null if it is left. */
export function askChoice(title, label, choices) {
  return dialog(title, (close) => {
    const id = newId("field");
    const box = el("select", { id }, choices.map(([text, value]) => el("option", { value }, text)));
    const submit = (event) => {
      event.preventDefault();
      close(box.value);
    };
    return el("form", { on: { submit } },
      el("div", { class: "field" }, el("label", { for: id }, label), box),
      el("div", { class: "bar" }, el("button", { type: "submit", class: "main" }, t("ok")),
        button(t("cancel"), () => close(null))));
  });
}
