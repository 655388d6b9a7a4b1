// Small drawings, made here: lines of 24 by 24. They say nothing to a screen reader; the words
// beside them do.
const SPACE = "http://www.w3.org/2000/svg";
const LINES = {
  call: "M6.6 3.5h3l1.6 4-2 1.6a11.5 11.5 0 0 0 5.7 5.7l1.6-2 4 1.6v3a2 2 0 0 1-2.2 2A16.5 16.5 0 "
    + "0 1 4.6 5.7a2 2 0 0 1 2-2.2z",
  mail: "M4 6h16a1 1 0 0 1 1 1v10a1 1 0 0 1-1 1H4a1 1 0 0 1-1-1V7a1 1 0 0 1 1-1zm-.6 1 8.6 6.5"
    + "L20.6 7",
  message: "M5 5h14a2 2 0 0 1 2 2v8a2 2 0 0 1-2 2h-7l-5 4v-4H5a2 2 0 0 1-2-2V7a2 2 0 0 1 2-2z",
  share: "M12 15V4m0 0L8 8m4-4 4 4M7 11H5.5v9h13v-9H17",
  more: "M5 12h.01M12 12h.01M19 12h.01",
  add: "M12 5v14M5 12h14",
  books: "M4 6h16M4 12h16M4 18h16",
  back: "M14.5 5.5 8 12l6.5 6.5",
  copy: "M9 9h10v11H9zM15 9V5H5v11h4",
  map: "M12 21s-6.5-6-6.5-11a6.5 6.5 0 1 1 13 0c0 5-6.5 11-6.5 11zm0-8.5a2.5 2.5 0 1 0 0-5 2.5 2.5 "
    + "0 0 0 0 5z",
  star: "m12 4 2.5 5.2 5.6.7-4.1 3.9 1 5.6-5-2.8-5 2.8 1-5.6L3.9 9.9l5.6-.7z",
  trash: "M5 7h14M9.5 7V4.5h5V7M7 7l.8 13h8.4L17 7M10.5 10.5v6M13.5 10.5v6",
  recent: "M12 7v5l3.5 2M12 20.5a8.5 8.5 0 1 0 0-17 8.5 8.5 0 0 0 0 17z",
  search: "M10.5 17a6.5 6.5 0 1 0 0-13 6.5 6.5 0 0 0 0 13zm4.7-1.8 5 5",
  close: "M6.5 6.5l11 11m0-11-11 11",
  book: "M6 3.5h12.5v17H6A1.5 1.5 0 0 1 4.5 19V5A1.5 1.5 0 0 1 6 3.5z"
    + "M8.5 3.5v17M12 8h3.5",
  tag: "M4 5.5V12l8.5 8.5 7-7L11 5H4.5zM8.2 9.2h.01",
  people: "M9 11a3.2 3.2 0 1 0 0-6.4A3.2 3.2 0 0 0 9 11zm-6 8.5c0-3.3 2.7-5.5 "
    + "6-5.5s6 2.2 6 5.5M15.5 5a3.2 3.2 0 0 1 0 6M17.5 14.5c2.1.7 3.5 2.5 3.5 5",
  office: "M5 20V5h9v15M14 10h5v10M3 20h18M8 8.5h3M8 12h3M8 15.5h3",
};

export function icon(name) {
  const node = document.createElementNS(SPACE, "svg");
  node.setAttribute("viewBox", "0 0 24 24");
  node.setAttribute("class", "icon");
  node.setAttribute("aria-hidden", "true");
  const path = document.createElementNS(SPACE, "path");
  path.setAttribute("d", LINES[name]);
  node.append(path);
  return node;
}
