// Which snapshots were compared: LSP has none, and docs/LOG_FORMAT says what they are.

import { EDITOR, SNAPSHOT, session } from "./data.mjs";
import { SETS_TEXT, namingRows } from "./documents.mjs";
import { factsOf } from "./facts.mjs";

// How many earlier versions are kept for snapshots that come late, and how many snapshots may wait.
const KEPT = 16, MOST_WAITING = 1000;

const statuses = new Map();

// Lets a snapshot wait. Of too many, what becomes of the first one is not told.
function wait(waiting, snapshot) {
  waiting.push(snapshot);
  if (waiting.length > MOST_WAITING) {
    statuses.set(waiting.shift(), null);
  }
}

// An open document: the versions that messages set, and the snapshots that wait for a greater one.
class Opening {
  constructor(waiting) {
    this.versions = [];
    this.waiting = waiting;
  }

  // A message set a version: snapshots of it are compared, and those of lower ones never will be.
  set(row) {
    this.versions.push(row.version);
    for (const snapshot of this.waiting.filter((it) => it.version === row.version)) {
      statuses.set(snapshot, isUnlike(row, snapshot) ? "differs" : "equal");
    }
    this.waiting = this.waiting.filter((it) => it.version > row.version);
  }

  // A snapshot: of a version that is kept it is compared at once, of a greater one later.
  take(snapshot) {
    const held = this.versions.at(-1);
    if (snapshot.version > held) {
      wait(this.waiting, snapshot);
    } else if (this.versions.slice(-KEPT - 1).includes(snapshot.version)) {
      statuses.set(snapshot, "equal");
    }
  }
}

// Whether a message breaks the rule that it and a snapshot which waited for it have one text.
function isUnlike(row, snapshot) {
  const named = row.violation ? factsOf(row.violation, "snapshot") : [];
  return named.some((it) => it.event === snapshot.event);
}

function followRow(row, opening, waiting) {
  if (row.side === SNAPSHOT) {
    statuses.set(row, "not compared");
    if (row.violation) {
      statuses.set(row, null);
    } else if (opening) {
      opening.take(row);
    } else {
      wait(waiting, row);
    }
    return opening;
  }
  const isSet = !row.violation || factsOf(row.violation, "snapshot").length > 0;
  if (row.side !== EDITOR || !isSet || !SETS_TEXT.includes(row.method)) {
    return opening;
  }
  if (row.method === "textDocument/didClose") {
    waiting.push(...(opening?.waiting ?? []));
    return null;
  }
  const next = opening ?? new Opening(waiting.splice(0));
  next.set(row);
  return next;
}

function followDocument(number) {
  let opening = null;
  const waiting = [];
  for (const row of namingRows[number]) {
    opening = followRow(row, opening, waiting);
  }
}

// Whether a snapshot is equal to the text by the messages, differs from it, or was not compared;
// null if it breaks a rule itself, or if the page has too little of the log to tell.
export function statusOf(row) {
  if (session.left) {
    return null;
  }
  if (!statuses.has(row)) {
    followDocument(row.document);
  }
  return statuses.get(row) ?? null;
}
