// Files that are dragged over the page and dropped, wherever on it.
import { t } from "./say.js";

/** Calls `take` with the files that are dropped. While they are over the page, it says so. */
export function takeDrops(take) {
  const { dataset } = document.body;
  const isOfFiles = (event) => [...(event.dataTransfer?.types ?? [])].includes("Files");
  addEventListener("dragover", (event) => {
    event.preventDefault();
    if (isOfFiles(event)) dataset.drag = t("dropHere");
  });
  addEventListener("dragleave", (event) => {
    // It leaves the window, and not one element for another.
    if (!event.relatedTarget) delete dataset.drag;
  });
  addEventListener("drop", (event) => {
    event.preventDefault();
    delete dataset.drag;
    if (event.dataTransfer.files.length) take(event.dataTransfer.files);
  });
}
