// Starts the desk.
import { Desk } from "./desk.js";
import { el, fill } from "./dom.js";
import { scriptAddress } from "./policy.js";
import { openStore } from "./store.js";
import { t } from "./say.js";
import { language } from "./texts.js";

/** Keeps the desk's own files, so that it opens without the network. */
async function keepFiles() {
  if (!navigator.serviceWorker) return;
  await navigator.serviceWorker.register(scriptAddress("sw.js"));
}

const HOUR = 3_600_000;
let looked = Date.now();

/** A page that stays open asks now and then whether the server has newer files of it. */
function lookForFiles() {
  if (Date.now() - looked < HOUR) return;
  looked = Date.now();
  navigator.serviceWorker?.controller?.postMessage("look");
}

document.documentElement.lang = language;
keepFiles().catch(() => {});
try {
  const desk = new Desk(await openStore());
  // What couldn't be kept, as on a full disk, is never lost in silence.
  addEventListener("unhandledrejection", ({ reason }) => {
    if (reason instanceof DOMException && !reason.isTold) desk.couldNotKeep(reason);
  });
  navigator.serviceWorker?.addEventListener("message", ({ data }) => {
    if (data === "new files") desk.isNew();
  });
  addEventListener("focus", lookForFiles);
  await desk.start();
} catch (error) {
  fill(document.getElementById("pane"), el("p", { class: "welcome error", role: "alert" },
    t("stateBroken", { why: error.message })));
  throw error;
}
