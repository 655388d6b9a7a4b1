// The words for files that are imported. They are part of those in texts.js, which says how to
// translate them.

export const IMPORT_TEXTS = {
  // A file on its way in
  importTitle: "Import into {book}",
  importText:
    "Choose files of contacts, or drop them on the page. You see what is in them before anything " +
    "is stored.",
  importKinds: "Taken are vCards (.vcf) and CSV. Save a workbook of a spreadsheet as CSV first.",
  emptyBookHint: "Drop a file of contacts here, or choose one: vCards (.vcf) or CSV.",
  dropHere: "Drop the files here to import them",
  dropTitle: "Which book shall this file go into?",
  importFile: "Files",
  importReading: "Reading {file}…",
  importOld:
    "This server doesn’t convert files, or the server in front of it doesn’t pass them on. So " +
    "only vCards of version 4.0 and CSV with its own columns are taken.",
  importWrong: "This file can’t be read: {why}",
  importCut: "The rest of this file can’t be read. Only what comes before it is shown.",
  kind_cards: "vCards",
  kind_contacts: "CSV of contacts",
  kind_rows: "CSV of an export",

  // What is asked about a file
  columnsTitle: "What becomes of the columns",
  columnsText: "Change what is wrong. What is below is read again then.",
  columnsGuessed:
    "The columns of this file aren’t known. This is a guess: look whether it is right.",
  columnName: "Column",
  columnSample: "For example",
  columnWord: "Becomes",
  columnNumber: "Column {n}",
  columnOf: "What becomes of {name}",
  columnUnknown: "Kept as it is",
  columnOut: "Left out",
  targetGroups: {
    name: "Name", reach: "Phone, mail, web", job: "Work", address: "Address",
    addresswork: "Address at work", addresshome: "Address at home", other: "Other",
  },
  targets: {
    fn: "Full name", "n.given": "Given name", "n.family": "Family name",
    "n.additional": "Other names", "n.prefix": "Title before the name",
    "n.suffix": "After the name", nickname: "Nickname", tel: "Phone", email: "Mail", url: "Web",
    impp: "Chat", org: "Organisation", "org.unit": "Department", title: "Position", role: "Role",
    "adr.street": "Street and number", "adr.code": "Postcode", "adr.city": "Town",
    "adr.region": "Region", "adr.country": "Country", "adr.box": "Post-office box",
    "adr.extended": "Flat or floor", adr: "Whole address", bday: "Birthday",
    anniversary: "Anniversary", note: "Note", categories: "Categories", gender: "Gender",
    lang: "Language", uid: "Identifier (UID)",
  },
  datesTitle: "What comes first in this file’s dates?",
  datesText: "The file doesn’t show it. Until you choose, nothing is imported.",
  datesNeeded: "Choose below what comes first in dates.",
  datesDay: "The day: {sample} is {date}",
  datesMonth: "The month: {sample} is {date}",
  lettersTitle: "Are the letters of names wrong?",
  lettersLabel: "The file is in",
  lettersFound: "What is found by itself",
  letterSets: [
    ["windows-1252", "Western Europe (Windows-1252)"],
    ["windows-1250", "Central Europe (Windows-1250)"],
    ["iso-8859-2", "Central Europe (ISO 8859-2)"],
    ["windows-1251", "Cyrillic (Windows-1251)"],
    ["koi8-r", "Cyrillic (KOI8-R)"],
    ["windows-1253", "Greek (Windows-1253)"],
    ["windows-1254", "Turkish (Windows-1254)"],
    ["windows-1255", "Hebrew (Windows-1255)"],
    ["windows-1256", "Arabic (Windows-1256)"],
    ["windows-1257", "Baltic (Windows-1257)"],
    ["macintosh", "Western Europe (Mac OS)"],
    ["shift_jis", "Japanese (Shift_JIS)"],
    ["euc-jp", "Japanese (EUC-JP)"],
    ["gb18030", "Chinese (GB 18030)"],
    ["big5", "Chinese (Big5)"],
    ["euc-kr", "Korean (EUC-KR)"],
  ],

  // What is in the book already
  marksTitle: "In the book already, or twice in the files",
  marksText: "These are left out unless you choose otherwise, here for all or below for each.",
  markAll: "For all with {why}",
  mark_uid: "the same identifier (UID)",
  mark_mail: "the same mail address",
  mark_number: "the same number",
  mark_name: "the same name",
  mark_same: "In the book as it is",
  markOfBook: "{why} as {name} in the book",
  markOfFile: "{why} as {name} above",
  do_each: "Different for each",
  do_skip: "Leave it out",
  do_other: "Import as another card",
  do_replace: "Replace that card",
  replaceHint:
    "The file’s card replaces all of the other one, which goes into this browser’s trash and can " +
    "be put back for 30 days.",

  // What is said of the files
  changesTitle: "What is written in another way",
  changesText: "vCard 4.0 writes these otherwise, or has no such property.",
  changesCards: "What isn’t as it was in the file, card by card",
  lostTitle: "Not carried",
  lostLine: "{file}, line {line}: {text}",
  timesText: "({n})",
  showMoreLines: "Show {n} more",
  cardsTitle: "Cards",
  cardsShown: "Show",
  show_all: "all cards",
  show_like: "those that are in the book already, or twice",
  show_notes: "those that aren’t as they were in the file",
  show_off: "those that are left out",
  cardsRange: "{from} to {to} of {all}",
  cardsBefore: "Earlier",
  cardsAfter: "Next",
  cardPlace: "{file}, line {line}",
  doFor: "What becomes of {name}",
  tooMany: "A book may have 10,000 cards. {book} has {has}, so at most {free} can be added.",

  // The import
  importNow: "Import",
  importing: "Importing…",
  importStop: "Stop",
  importStopping: "Stopping after this part…",
  importProgress: "{done} of {total} cards are done",
  importStoppedTitle: "Not all was imported",
  importStoppedText: "What is done stays. The rest can be imported now or later.",
  importGoOn: "Go on",
  importLeave: "Leave the rest out",
  importEndedTitle: "The import is done",
  importWaits: "A change of this card here isn’t sent yet.",
  importChanged: "Somebody changed this card meanwhile, so it wasn’t replaced.",
  importGone: "Somebody deleted or moved this card meanwhile, so it wasn’t replaced.",
  importLast: "What was last imported…",
  importKeepFailed:
    "This browser couldn’t keep how far it is ({why}). What is done stays. Go on when there is " +
    "room.",
  importAway: "No reply came from the server. Nothing was stored: try again.",
  importUnfinished: "The import into {book} isn’t finished.",
  importShow: "Show it",
  importElsewhere: "Another tab of this browser is importing. Wait for its end.",
  importSave: "Save this as a file",
  importAgain: "Import more",
  importRefused: "These weren’t imported:",
  importFrom: "From {files}, {time}",
  importWhere: "{name} ({file}, line {line}): {why}",

  // Where the server doesn’t convert
  importOldText:
    "All cards are imported, or none. You can choose a CSV file, or one or more files of vCards " +
    "(.vcf).",
  importReplaces: "A row of columns replaces the whole card: what the columns don’t have is lost.",
  importBadRow: "{place}: {why} Nothing was imported.",
  importHeader: "The first line of the file",
  importRow: "Row {row}",
  importCard: "Card {row}",
  importRowNamed: "Row {row} ({name})",
  importCardNamed: "Card {row} ({name})",
  fileNotUtf8: "The file isn’t in UTF-8. Save it again as UTF-8.",
  fileTooLarge: "The file is too large: at most 8 MB can be imported at once. Cut it into several.",
  fileWithoutCards: "There is no card in this file.",
  fileSeveral: "Several files are imported together only if all of them are vCards (.vcf).",
  fileSemicolons:
    "The columns of this file are separated by semicolons. Save it again with commas: {header}",
  fileHeader: "The first line of a CSV file has to be exactly: {header}",
  exported: "Saved: {file}",
};

export const IMPORT_COUNTS = {
  importReady: { one: "{n} card to import.", other: "{n} cards to import." },
  importKnown: {
    one: "{n} of them is in the book already.",
    other: "{n} of them are in the book already.",
  },
  importNew: { one: "{n} new card", other: "{n} new cards" },
  importEdited: { one: "{n} changed", other: "{n} changed" },
  importSame: { one: "{n} as it was", other: "{n} as they were" },
  importButton: { one: "Import {n} card", other: "Import {n} cards" },
  importSkipped: { one: "{n} left out", other: "{n} left out" },
  importLost: { one: "{n} not carried", other: "{n} not carried" },
  importTwice: {
    one: "{n} is twice in the file in the same words, and is taken once.",
    other: "{n} are twice in the file in the same words, and are taken once.",
  },
  importLeft: {
    one: "{n} card wasn’t imported, as you left the rest out.",
    other: "{n} cards weren’t imported, as you left the rest out.",
  },
  importMaybe: {
    one: "{n} of them was sent, and no reply came: it may be in the book.",
    other: "{n} of them were sent, and no reply came: they may be in the book.",
  },
  importNotDone: { one: "{n} isn’t imported yet", other: "{n} aren’t imported yet" },
  importDenied: { one: "{n} refused", other: "{n} refused" },
};
