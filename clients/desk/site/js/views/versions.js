// The versions of a card that the office's memory has, each with what it changed.
import { bdi, button, el, fill } from "../dom.js";
import { changesOf } from "../memory.js";
import { lineShown } from "../shown.js";
import { count, propertyText, t, timeText } from "../say.js";
import { sameCard } from "../vcard.js";
import { dialog } from "./dialogs.js";

const AT_ONCE = 20;
const MOST_CHANGES = 30;

/**
 * Shows the versions of a card, the newest first. `text(version)` gives the text of one, or null;
 * `now` is the card as it is here, or null if it is gone. Answers the text that is to be put back,
 * or null.
 */
export function versionsView(name, versions, { text, now, nameOf, mayChange }) {
  const texts = new Map();
  const textOf = (it) => {
    if (!it || it.isRemoval) return null;
    if (!texts.has(it)) texts.set(it, text(it));
    return texts.get(it);
  };
  return dialog(t("versionsTitle", { name: name.slice(0, 100) }), (close) => {
    const list = el("ul", { class: "versions" });
    const older = button(t("versionsOlder"), () => show(), { class: "quiet" });
    const one = (at) => {
      const it = versions[at];
      const time = timeText(it.at, t("versionNoTime"));
      const place = el("div", { class: "version-end" });
      const said = el("div", { class: "changes" }, el("p", { class: "hint" }, t("versionAsking")));
      draw(it, versions[at + 1], textOf, nameOf, said).then((is) => {
        if (is === null) return;
        if (now !== null && sameCard(is, now)) fill(place, el("small", {}, t("versionNow")));
        else if (mayChange) {
          fill(place, button(t("putThisBack"), () => close(is), {
            "aria-label": t("putBackOf", { time }),
          }));
        }
      });
      return el("li", {}, el("div", { class: "version-head" },
        el("strong", {}, time), it.who && el("small", {}, " ", t("versionBy"), " ", bdi(it.who))),
      place, said);
    };
    const show = () => {
      const from = list.children.length;
      const to = Math.min(versions.length, from + AT_ONCE);
      for (let at = from; at < to; at += 1) list.append(one(at));
      older.hidden = to === versions.length;
    };
    show();
    return [
      el("p", { class: "hint" }, t("versionsText")), list, older,
      el("div", { class: "bar" }, button(t("close"), () => close(null))),
    ];
  }, "wide");
}

/** Shows what a version changed. Answers its text, or null if there is none to put back. */
async function draw(it, before, textOf, nameOf, node) {
  const [is, was] = await Promise.all([textOf(it), textOf(before)]);
  const say = (text) => fill(node, el("p", { class: "hint" }, t(text)));
  if (it.isRemoval) say("versionGone");
  else if (is === null) say("versionBad");
  else if (!before) say("versionFirst");
  else if (before.isRemoval) say("versionAgain");
  else if (was === null) say("versionUnknown");
  else {
    const changes = changesOf(was, is);
    if (changes.length) fill(node, changesView(changes, nameOf));
    else say("versionSame");
  }
  return is;
}

/** Changes in words, value by value. */
function changesView(changes, nameOf) {
  const rest = changes.length - MOST_CHANGES;
  return el("dl", {}, changes.slice(0, MOST_CHANGES).map(({ name, was, now }) =>
    el("div", {}, el("dt", {}, propertyText(name)), el("dd", {},
      now ? el("div", { class: "said" }, lineShown(now, nameOf), was ? null
        : el("small", {}, " ", t("versionAdded"))) : null,
      was ? el("div", { class: now ? "before" : "said" }, now
        ? el("small", {}, t("was"), " ", lineShown(was, nameOf))
        : [el("s", {}, lineShown(was, nameOf)), el("small", {}, " ", t("takenGone"))]) : null))),
  rest > 0 ? el("div", {}, el("dt"), el("dd", {}, el("small", {}, count("moreChanges", rest))))
    : null);
}
