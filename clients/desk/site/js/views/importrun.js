// An import that goes on, and what came of it.
import { bdi, button, el, fill } from "../dom.js";
import { ENDED, numbersOf } from "../importing.js";
import { count, number, t, timeText } from "../say.js";
import { dialog } from "./dialogs.js";
import { linesView } from "./lines.js";

/** The answer if somebody wants to import another file. */
export const MORE = "more";

/** What came of an import, in lines. */
export function summaryLines(journal) {
  const it = numbersOf(journal);
  const done = [
    count("importNew", it.new), count("importEdited", it.edited), count("importSame", it.same),
  ].join(", ");
  const others = [
    journal.skipped ? count("importSkipped", journal.skipped) : "",
    journal.lost ? count("importLost", journal.lost) : "",
    it.refused ? count("importDenied", it.refused) : "",
    it.left && journal.state !== ENDED ? count("importNotDone", it.left) : "",
  ].filter(Boolean).join(" · ");
  return [
    done, others, journal.left ? count("importLeft", journal.left) : "",
    it.maybe ? count("importMaybe", it.maybe) : "",
  ].filter(Boolean);
}

export function refusedLine(it) {
  const { file, line, why } = it;
  return t("importWhere", { name: it.name || t("nameless"), file, line, why });
}

/** All of it as a text, for a file. */
export function summaryText(journal, report) {
  const time = timeText(journal.ended || journal.begun);
  return [
    t("importTitle", { book: journal.book }),
    t("importFrom", { files: journal.files.join(", "), time }),
    t(journal.state === ENDED ? "importEndedTitle" : "importStoppedTitle"),
    ...summaryLines(journal),
    journal.why,
    journal.refused.length ? t("importRefused") : "",
    ...journal.refused.map(refusedLine),
    ...report,
  ].filter(Boolean).join("\n") + "\n";
}

class Running {
  constructor(journal, act, close) {
    Object.assign(this, { journal, act, close, tenth: -1 });
    this.head = el("h3", { tabindex: "-1" });
    this.bar = el("progress", { max: 1, "aria-label": t("importing") });
    this.count = el("p", { "aria-hidden": "true" });
    this.said = el("p", { class: "unseen", role: "status" });
    this.words = el("div", { class: "import" });
    this.buttons = el("div", { class: "bar" });
    this.node = [this.head, this.bar, this.count, this.said, this.words, this.buttons];
  }

  /** Shows how far it is. It is read out ten times, and not at each part. */
  tell() {
    const { done, total } = numbersOf(this.journal);
    this.bar.value = done / Math.max(1, total);
    const text = t("importProgress", { done: number(done), total: number(total) });
    this.count.textContent = text;
    const tenth = Math.floor(10 * done / Math.max(1, total));
    if (tenth !== this.tenth) this.said.textContent = text;
    this.tenth = tenth;
  }

  async go() {
    this.head.textContent = t("importing");
    for (const it of [this.bar, this.count]) it.hidden = false;
    fill(this.words);
    const stop = button(t("importStop"), () => {
      this.act.stop();
      stop.setAttribute("aria-disabled", "true");
      this.said.textContent = t("importStopping");
    });
    fill(this.buttons, stop);
    stop.focus();
    this.tell();
    await this.act.go(() => this.tell());
    this.show();
  }

  /** Shows what came of it, and what can be done. */
  show() {
    const { journal, act, close } = this;
    const isEnded = journal.state === ENDED;
    for (const it of [this.bar, this.count]) it.hidden = true;
    this.head.textContent = t(isEnded ? "importEndedTitle" : "importStoppedTitle");
    const [done, ...others] = summaryLines(journal);
    fill(this.words,
      el("p", { class: "good" }, done), others.map((it) => el("p", {}, it)),
      journal.why && el("p", { class: "error" }, journal.why),
      isEnded ? null : el("p", {}, t("importStoppedText")),
      journal.refused.length > 0 && [
        el("h4", {}, t("importRefused")), linesView(journal.refused.map(refusedLine)),
      ],
      el("p", { class: "hint" }, bdi(t("importFrom", {
        files: journal.files.join(", "), time: timeText(journal.ended || journal.begun),
      }))));
    this.said.textContent = [this.head.textContent, done].join(". ");
    fill(this.buttons,
      isEnded ? button(t("close"), () => close(null), { class: "main" })
        : [button(t("importGoOn"), () => this.go(), { class: "main" }),
          button(t("importLeave"), () => act.leave().then(() => this.show())),
          button(t("close"), () => close(null))],
      button(t("importSave"), () => act.save()),
      isEnded ? button(t("importAgain"), () => close(MORE)) : null);
    this.head.focus();
  }
}

/** Shows an import. It is begun, or goes on, if `isGoing`. Answers `MORE` or null. */
export function runDialog(journal, act, isGoing) {
  let running = null;
  const answer = dialog(t("importTitle", { book: journal.book }), (close) => {
    running = new Running(journal, act, close);
    return running.node;
  }, "wide intake");
  if (isGoing) running.go();
  else running.show();
  // Who leaves it stops it after the part that is sent.
  return answer.finally(() => act.stop());
}
