// The objects of `lspcheck explain` in words. One that is not known here is shown as it is.

import { baseName, element, eventLink, shownText, visibleText } from "./nodes.mjs";

function shownJson(value) {
  return shownText(JSON.stringify(value));
}

// The event that an object names, as a link.
export function shownEvent({ event, side, number }) {
  const whose = side === "snapshot" ? `snapshot ${number}` : `the ${side}’s message ${number}`;
  return [eventLink(event), ` (${whose})`];
}

// A position. The protocol counts both from 0; on the page they are counted from 1, as in editors.
function shownPlace(line, column) {
  return `line ${line + 1}, column ${column + 1}`;
}


function unitsLong(number) {
  return `${number} unit${number === 1 ? "" : "s"} long`;
}

function inUnitsOf(names) {
  return names.join(" or ").toUpperCase();
}

const PHASES = {
  fresh: "nothing was sent yet, or initialize was answered with an error",
  waiting: "initialize is not answered yet",
  answered: "initialize is answered, and initialized was not sent yet",
  ready: "the session is running",
  stopping: "shutdown was sent",
  exited: "exit was sent",
};

const FAULTS = {
  editor: "the editor’s",
  server: "the server’s",
  recorder: "the recorder’s",
  outside: "neither side’s: the session goes beyond what lspcheck follows",
};

function shownChange({ which, whole, line, column, end_line: endLine, end_column: endColumn }) {
  if (whole) {
    return [`change ${which} of the message replaces the whole text`];
  }
  const start = shownPlace(line, column), isEmpty = line === endLine && column === endColumn;
  const words = isEmpty ? `at ${start}` : `from ${start} to ${shownPlace(endLine, endColumn)}`;
  return [`change ${which} of the message, ${words}`];
}

function shownPart({ text, cut_before: before, cut_after: after }) {
  const said = [shownText(text)];
  if (before !== undefined) {
    said.push(` (${before} characters before it and ${after} after it are left out)`);
  }
  return said;
}

function shownCode(code) {
  return code ?? "the end of the text";
}

const LINE_KINDS = {
  lf: "LF alone has them",
  ecmascript: "ECMAScript has them: by U+2028 and U+2029, too",
  python: "splitlines of Python has them",
};

const LINE_ENDS = { "\n": "LF", "\r\n": "CR LF", "\r": "CR" };

function shownEnds({ kind, from, to }) {
  if (kind === "converted") {
    return [`nothing else differs: each is ${LINE_ENDS[from]} by the messages, and `
      + `${LINE_ENDS[to]} in the other text`];
  }
  return [kind === "last" ? "only the one at the very end of the text differs" :
    "some differ, and nothing else does"];
}

const SUSPECTS = {
  0: "none: the editor changed its text without a message, or the texts were equal again later",
  1: "one message made the texts differ, unless a change was never sent",
};

function shownOffer({ names, more }) {
  if (names.length === 0) {
    return ["no encoding: UTF-16 is meant"];
  }
  const shown = names.flatMap((name, at) => [at ? ", " : "", shownText(name)]);
  return more === undefined ? shown : [...shown, ` and ${more} more`];
}

// For each kind of object: a label, and what is shown for it.
export const FACTS = {
  __proto__: null,
  begins: ["It begins", (it) => [shownText(it.text)]],
  "header-ends": ["Its first line", (it) => [`ends with ${it.name.toUpperCase()} alone`]],
  breaks: ["JSON until", (it) => [`byte ${it.count} of the content`]],
  before: ["Before it", (it) => [it.text === "" ? "nothing" : shownText(it.text)]],
  after: ["After it", (it) => [it.text === "" ? "nothing" : shownText(it.text)]],
  whole: ["Whole", (it) => [`with the bytes that follow it, the JSON has ${it.count} bytes`]],
  counts: ["The header", (it) => [`fits that length in ${inUnitsOf(it.names)}`]],
  member: ["Member", (it) => [
    shownText(it.pointer), it.pointer === "" ? " (the params themselves)" : "",
  ]],
  uri: ["Document", (it) => [
    element("strong", "", visibleText(baseName(it.uri))), " ", shownText(it.uri),
  ]],
  held: ["Held", (it) => [`version ${it.version}, set by `, ...shownEvent(it)]],
  sent: ["This message", (it) => [`sets version ${it.version}`]],
  same: ["The same", (it) => ["changes were already made by ", ...shownEvent(it)]],
  precedes: ["Belongs before", (it) => [...shownEvent(it), `, which sets version ${it.version}`]],
  version: ["Version", (it) => [`the snapshot is of version ${it.version}`]],
  changes: ["Changes", (it) => [`${it.count} in this message`]],
  sync: ["Agreed", (it) => [`synchronisation “${it.kind}”`]],
  encoding: ["Columns", (it) => [`are counted in units of ${it.name.toUpperCase()}`]],
  change: ["Edit", shownChange],
  length: ["That line", (it) => [`is ${unitsLong(it.count)}, without its line end`]],
  inside: ["Inside", (it) => ["the column falls into the character ", shownText(it.text)]],
  fits: ["It would fit", (it) => [`if columns were counted in ${inUnitsOf(it.names)}`]],
  "lines-by": ["It would fit", (it) => [`if lines ended as ${LINE_KINDS[it.name] ?? it.name}`]],
  "at-once": ["It would fit", (it) => [
    `if the ranges of version ${it.version} were all taken in the text before it: `,
    ...shownEvent(it),
  ]],
  exchanged: ["It would fit", (it) => [
    `if version ${it.version} came after the next one: `, ...shownEvent(it),
  ]],
  without: ["It would fit", (it) => [
    `if version ${it.version} were left out: `, ...shownEvent(it),
  ]],
  "right-from": ["Right from", (it) => [
    `version ${it.version} on: the messages after it fit the text of `, ...shownEvent(it),
  ]],
  "offset-encoding": ["The server", (it) => [
    `named ${it.name.toUpperCase()} in the older member offsetEncoding`,
  ]],
  bytes: ["Size", (it) => [`the text would have ${it.count} bytes`]],
  limit: ["Limit", (it) => [`${it.count} bytes`]],
  at: ["First difference", (it) => [shownPlace(it.line, it.column)]],
  "by-messages": ["By the messages", shownPart],
  "in-editor": ["In the editor", shownPart],
  saved: ["Saved", shownPart],
  codes: ["Characters", (it) => [
    `by the messages ${shownCode(it.by_messages)}, in the other text ${shownCode(it.in_editor)}`,
  ]],
  ends: ["Line ends", shownEnds],
  "line-ends": ["Option", () => ["--ignore-line-ends: then these texts are the same"]],
  kept: ["Kept versions", (it) => [it.versions.join(", ")]],
  snapshot: ["Differs from", shownEvent],
  equal: ["Last equal", (it) => [`at version ${it.version}: `, ...shownEvent(it)]],
  suspects: ["Suspects", (it) => [
    SUSPECTS[it.count] ?? `${it.count} messages may have made the texts differ`,
  ]],
  closed: ["Closed", (it) => ["by ", ...shownEvent(it)]],
  opened: ["Opened", () => ["never"]],
  "saved-as": ["Saved", (it) => ["under this name by ", ...shownEvent(it)]],
  similar: ["Similar", (it) => [shownText(it.uri), " is open, by ", ...shownEvent(it)]],
  id: ["Id", (it) => [shownJson(it.id)]],
  asked: ["Still open", (it) => ["the request with this id: ", ...shownEvent(it)]],
  open: ["Meant perhaps", (it) => [
    "the open request ", shownJson(it.id), ": ", ...shownEvent(it),
  ]],
  answered: ["Answered", (it) => ["already by ", ...shownEvent(it)]],
  request: ["Unanswered", (it) => [
    shownText(it.method), " ", shownJson(it.id), ", ", ...shownEvent(it),
  ]],
  token: ["Token", (it) => [shownJson(it.id)]],
  expected: ["Expected", (it) => ["the token of initialize, ", shownJson(it.id)]],
  phase: ["State", (it) => [PHASES[it.name] ?? it.name]],
  since: ["Since", shownEvent],
  offered: ["Offered", shownOffer],
  picked: ["Picked", (it) => [shownText(it.name)]],
  registers: ["Registers", (it) => [shownText(it.method)]],
  record: ["Record", (it) => [`number ${it.count} of the log`]],
  byte: ["Place", (it) => [`${it.count} bytes into the log`]],
  found: ["The line there", (it) => [shownText(it.text)]],
  usually: ["Usually", (it) => [
    `the fault is ${[it.who, it.or].filter(Boolean).map((who) => FAULTS[who] ?? who).join(" or ")}`,
  ]],
};

// What says nothing that is not shown elsewhere.
export const ELSEWHERE = ["event", "end", "suspect", "so"];

// An object in words: [label, nodes].
export function inWords(it) {
  try {
    const [label, shown] = FACTS[it.is];
    return [label, shown(it)];
  } catch {
    return ["", [shownJson(it)]];
  }
}

// A note on a method or on a document, and the event where it applies.
function noteOn(words) {
  return (it) => [shownText(it.method ?? it.uri), ` ${words}: `, ...shownEvent(it)];
}

// A note on a change of a didChange whose position is past the end of its line, or of the text.
function pastEnd(it) {
  const lines = it.lines === 1 ? "1 line" : `${it.lines} lines`;
  const end = it.lines !== undefined ? `the text has ${lines}` :
    `that line is ${unitsLong(it.length)}, without its line end`;
  const place = shownPlace(it.line, it.column);
  return [...shownEvent(it), ` changes a range at ${place}, past the end: ${end}`];
}

// A note on a change whose rangeLength is not the length of its range.
function wrongLength(it) {
  return [...shownEvent(it),
    ` has a rangeLength of ${it.sent}, and its range is ${unitsLong(it.length)}`,
    it.fits === undefined ? "" : `; in units of ${inUnitsOf(it.fits)} it is ${it.sent} long`];
}

// A note on edits that were made in another text than that of the request.
function lateEdits(it) {
  const request = shownEvent({ event: it.request, side: "editor", number: it.request_number });
  const answer = shownEvent({ event: it.response, side: "server", number: it.response_number });
  return [...shownEvent(it), " makes the edits of ", ...answer,
    " in a text that had changed since ", ...request];
}

export const NOTES = {
  __proto__: null,
  "as-notification": noteOn("is a request in LSP 3.17, and was sent as a notification"),
  "as-request": noteOn("is a notification in LSP 3.17, and was sent as a request"),
  "by-editor": noteOn("is sent only by servers in LSP 3.17, and the editor sent it"),
  "by-server": noteOn("is sent only by editors in LSP 3.17, and the server sent it"),
  "exit-without-shutdown": (it) => ["The editor sent exit without shutdown: ", ...shownEvent(it)],
  "offset-encoding": (it) => ["The server names ", shownText(it.name),
    " in the older member offsetEncoding: it may count columns in it"],
  renamed: noteOn("was renamed, and is still opened or changed under this name"),
  "nothing-compared": () => ["No snapshot was compared: yes says little about the texts"],
  "past-end": pastEnd,
  "range-length": wrongLength,
  refused: (it) => [
    "A request about ", shownText(it.uri), ", which is open, was refused: ", ...shownEvent(it),
    ` is the error ${it.code} (InvalidParams)`,
  ],
  similar: (it) => [
    ...shownEvent(it), " names ", shownText(it.uri), ", which is not open; ", shownText(it.open),
    " is, and is spelled in another way",
  ],
  "late-edits": lateEdits,
  outside: (it) => [...shownEvent(it),
    ` edits a range at ${shownPlace(it.line, it.column)}, which the text does not have`],
  overlap: (it) => [...shownEvent(it), " has edits that overlap"],
  unsent: (it) => [...shownEvent(it), ` names version ${it.version}, which no message has set`],
  "no-snapshot": (it) => [shownText(it.uri), " was changed, and no snapshot of it was compared"],
};

// A note in words.
export function noteInWords(it) {
  try {
    return NOTES[it.note](it);
  } catch {
    return [shownJson(it)];
  }
}
