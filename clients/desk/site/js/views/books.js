// Books: the question for a name, a book with its numbers, a file to import.
import { button, el, fill, newId } from "../dom.js";
import { listOf } from "../files.js";
import { count, number, t, timeText } from "../say.js";
import { dialog } from "./dialogs.js";

const CLOSE = 120_000;
const NAME = /^[a-z0-9-]{1,40}$/;

/** What is wrong with the name of a book, or "". */
export function bookNameFault(name) {
  return NAME.test(name) ? "" : t("badBookName");
}

/** In place of a card: who may not list the books says which one is theirs. */
export function bookQuestion(add) {
  const id = newId("field");
  const box = el("input", {
    id, type: "text", autocomplete: "off", autocapitalize: "none", spellcheck: "false",
  });
  const error = el("p", { class: "error", role: "alert" });
  const submit = (event) => {
    event.preventDefault();
    const wrong = bookNameFault(box.value.trim());
    fill(error, wrong);
    if (!wrong) add(box.value.trim());
  };
  return el("form", { class: "welcome ask-book", on: { submit } },
    el("h2", {}, t("whichBook")),
    el("p", {}, t("whichBookText")),
    el("div", { class: "field" }, el("label", { for: id }, t("addBookLabel")), box),
    error,
    el("div", { class: "bar" }, el("button", { type: "submit", class: "main" }, t("openBook"))));
}

/** What is in a file, or in several one after another. */
async function octets(files) {
  const whole = files.length > 1 ? new Blob(files.flatMap((it) => [it, "\r\n"])) : files[0];
  return new Uint8Array(await whole.arrayBuffer());
}

/** Asks what to import as it is; `why` says why. */
export function askFile(book, run, files, why) {
  return dialog(t("importTitle", { book }), (close) => {
    const accept = ".csv,.vcf,text/csv,text/vcard";
    const file = el("input", { type: "file", accept, multiple: true, id: newId("file") });
    const said = el("div", { class: "import", "aria-live": "polite" });
    const go = button(t("importNow"), () => work(), { class: "main", disabled: true });
    const end = button(t("close"), () => close(null));
    let ready = null;
    file.addEventListener("change", async () => {
      go.disabled = true;
      fill(said);
      const chosen = [...file.files];
      if (!chosen.length) return;
      if (chosen.length > 1 && !chosen.every((it) => /\.vcf$/i.test(it.name))) {
        fill(said, el("p", { class: "error" }, t("fileSeveral")));
        return;
      }
      ready = run.read(chosen[0].name, await octets(chosen));
      fill(said, ready.words);
      go.disabled = !ready.file;
    });
    if (files) {
      file.files = listOf(files);
      file.dispatchEvent(new Event("change"));
    }
    const work = async () => {
      // While it is at work the button keeps the focus, which a disabled one would lose.
      if (file.disabled) return;
      go.setAttribute("aria-disabled", "true");
      file.disabled = true;
      fill(said, el("p", {}, t("importing")));
      const [words, mayRepeat] = await run.send(ready.file);
      fill(said, words);
      file.disabled = false;
      go.removeAttribute("aria-disabled");
      if (mayRepeat) return;
      file.value = "";
      file.focus();
      go.disabled = true;
    };
    return [
      el("p", {}, why),
      el("p", { class: "hint" }, t("importOldText")),
      el("label", { for: file.id, class: "file" }, el("span", {}, t("importFile")), file),
      said,
      el("div", { class: "bar" }, go, end),
    ];
  });
}

/** When a book last changed, as far as this browser knows. */
function changedText({ changed, after, since }) {
  if (!changed) return since ? t("bookSame", { time: timeText(since) }) : "";
  const [to, from] = [timeText(changed), timeText(after)];
  const isClose = changed - after < CLOSE || to === from;
  return isClose ? t("bookChanged", { time: to }) : t("bookChangedBetween", { from, to });
}

/**
 * A book: how many cards it has, when it changed, and what can be done; its other numbers for who
 * asks for them. `run` has the actions, and the number of cards that are here.
 */
export function showBook(book, run) {
  return dialog(t("bookTitle", { book: book.name }), (close) => {
    const cards = el("p", { class: "card-total" }, count("cardsCount", run.cards));
    const numbers = el("div", { "aria-live": "polite" }, tallyView(null));
    run.tally().then(
      (tally) => {
        fill(cards, count("cardsCount", tally.cards));
        fill(numbers, tallyView(tally));
      },
      (words) => fill(numbers, el("p", {}, words)),
    );
    const changed = changedText(book);
    const doing = (text, action, kind) =>
      button(text, () => {
        close(null);
        action();
      }, { class: kind ?? null });
    return [
      cards,
      changed && el("p", {}, changed),
      el("p", { class: "hint" },
        book.synced ? t("copyOf", { time: timeText(book.synced) }) : t("noCopy")),
      run.tryChanges && el("p", {}, t("readOnly"), " ",
        doing(t("tryChanges"), run.tryChanges, "quiet")),
      el("div", { class: "doings" },
        doing(t("update"), run.update),
        run.import && doing(t("importFiles"), run.import),
        run.last && doing(t("importLast"), run.last),
        doing(t("exportCards"), run.exportCards),
        doing(t("exportColumns"), run.exportColumns),
        doing(t("exportVcf"), run.exportVcf),
        doing(t("startAgain"), run.startAgain),
        doing(t("dropBook"), run.drop, "danger")),
      el("p", { class: "hint" }, t("bookHints")),
      el("details", { class: "book-details" }, el("summary", {}, t("bookDetails")), numbers),
      el("div", { class: "bar" }, button(t("close"), () => close(null))),
    ];
  });
}

/** The numbers of a book. Before they come (null) they have their room, so that nothing moves. */
function tallyView(tally) {
  const rows = [
    "created", "imported", "moved_in", "edited", "import_edited", "deleted", "moved_out",
    "number", "remembered", "horizon",
  ];
  return el("table", { class: "tally" },
    el("caption", {}, t(tally ? "bookNumbers" : "asking")),
    el("tbody", {}, rows.map((it) =>
      el("tr", {}, el("th", { scope: "row" }, t(`tally_${it}`)),
        el("td", {}, tally ? number(tally[it]) : "…")),
    )));
}
