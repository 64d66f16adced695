// The message that breaks a rule, and the members of it that are wrong.

import { SNAPSHOT, contentOf, messageOf, rows } from "./data.mjs";
import { factsOf } from "./facts.mjs";
import { markedJson, partsOfPointer } from "./json.mjs";
import { count, element, eventLink, fill, shownText, source, visibleText } from "./nodes.mjs";

// How much of a long value is shown, and how many lines around what is wrong.
const MOST_OF_VALUE = 400, LINES_AROUND = 9;
// In a longer message nothing is marked.
const LONGEST_MARKED = 300000;

const hasMembers = (it) => typeof it === "object" && it !== null && !Array.isArray(it);
const isInteger = (it) => Number.isInteger(it) && Math.abs(it) <= 2 ** 31;

// What JSON-RPC and LSP ask of each message: a member, and whether its value is good. The first one
// that is not is wrong.
const MEMBERS = [
  { name: "jsonrpc", isGood: (it) => it === "2.0" },
  {
    name: "method",
    isGood: (it, message) => !Object.hasOwn(message, "method") || typeof it === "string",
  },
  {
    name: "id",
    isGood: (it, message) => !Object.hasOwn(message, "id") || isInteger(it) ||
      typeof it === "string" || (it === null && !Object.hasOwn(message, "method")),
  },
  {
    name: "params",
    isGood: (it, message) => !Object.hasOwn(message, "params") || typeof it === "object",
  },
  {
    name: "error",
    isGood: (it, message) => Object.hasOwn(message, "method") ||
      !Object.hasOwn(message, "error") || Object.hasOwn(message, "result") ||
      (hasMembers(it) && isInteger(it.code) && typeof it.message === "string"),
  },
];

// For each kind of fact that names a member: where it is in the message.
const MEMBERS_OF = {
  __proto__: null,
  member: ({ pointer }, message) => [
    `${Object.hasOwn(message, "result") ? "/result" : "/params"}${pointer}`,
  ],
  id: () => ["/id"],
  phase: () => ["/method"],
  held: () => ["/params/textDocument/version"],
  picked: () => ["/result/capabilities/positionEncoding"],
  registers: ({ method }, message) => {
    const all = message.params?.registrations;
    return Array.isArray(all) ? [...all.keys()].filter((at) => all[at]?.method === method)
      .map((at) => `/params/registrations/${at}`) : [];
  },
  change: ({ which, whole }) => [
    `/params/contentChanges/${which - 1}${whole ? "" : "/range"}`,
  ],
  bytes: () => ["/params/contentChanges", "/params/textDocument/text"],
  uri: () => ["/params/textDocument/uri"],
};

// The pointers of the members of a message that a violation is about.
export function wrongMembers(violation, message) {
  if (!hasMembers(message)) {
    return [];
  }
  for (const [kind, pointers] of Object.entries(MEMBERS_OF)) {
    const [fact] = factsOf(violation, kind);
    if (fact) {
      return pointers(fact, message);
    }
  }
  const wrong = MEMBERS.find(({ name, isGood }) => !isGood(message[name], message));
  if (wrong) {
    return [`/${wrong.name}`];
  }
  const answers = ["result", "error"].filter((name) => Object.hasOwn(message, name));
  return answers.map((name) => `/${name}`);
}

// Whether a JSON value has something at a pointer.
function hasPointer(value, pointer) {
  let at = value;
  for (const name of partsOfPointer(pointer)) {
    if (typeof at !== "object" || at === null || !Object.hasOwn(at, name)) {
      return false;
    }
    at = at[name];
  }
  return true;
}

// A long piece without its middle.
function shortPiece(text) {
  if (text.length <= 2 * MOST_OF_VALUE) {
    return visibleText(text, false, true);
  }
  const left = count(text.length - 2 * MOST_OF_VALUE, "character");
  return [...visibleText(text.slice(0, MOST_OF_VALUE), false, true),
    element("span", "left-out", `… ${left} …`),
    ...visibleText(text.slice(-MOST_OF_VALUE), false, true)];
}

// Pieces of lines without those that are far from what is marked.
function piecesAround(pieces) {
  const first = pieces.findIndex(([, isMarked]) => isMarked);
  const last = pieces.findLastIndex(([, isMarked]) => isMarked);
  return pieces.map(([text, isMarked], at) => {
    const lines = text.split("\n");
    if (isMarked || first < 0 || lines.length <= LINES_AROUND) {
      return [text, isMarked];
    }
    const before = at > first ? lines.slice(0, LINES_AROUND) : [];
    const after = at < last ? lines.slice(-LINES_AROUND) : [];
    const isAll = before.length + after.length >= lines.length;
    return [isAll ? text : [...before, "…", ...after].join("\n"), isMarked];
  });
}

// The content of a message with the members at these pointers marked: whole, or what is near them.
export function markedContent(content, pointers, isWhole = false) {
  const made = element("pre", "json"), isLong = content.length > LONGEST_MARKED;
  const pieces = isLong ? [[content, false]] : markedJson(content, pointers);
  const shown = (text) => (isWhole ? visibleText(text, false, true) : shortPiece(text));
  for (const [text, isMarked] of isWhole ? pieces : piecesAround(pieces)) {
    fill(made, isMarked ? [element("mark", "wrong", shown(text))] : shown(text));
  }
  return made;
}

// The earlier request that has the id of a response which answers none that is open.
function lastRequestWithId(row) {
  const isAnswer = row.kind === "result" || row.kind === "error";
  return !isAnswer || row.id === null ? undefined : rows.slice(0, row.index).findLast((it) =>
    it.side === 1 - row.side && it.kind === "request" && it.id === row.id);
}

function requestPart(row) {
  const asked = row.method ? null : lastRequestWithId(row);
  return asked ? element("p", "", "The last request with this id is ",
    shownText(asked.method), ", ", eventLink(asked.event), ". ", source("page")) : null;
}

// The message of a violation as it was sent, with what is wrong in it marked.
export function wrongMessage(violation, row) {
  const content = contentOf(row);
  if (!content || row.side === SNAPSHOT) {
    return null;
  }
  const message = messageOf(row), pointers = wrongMembers(violation, message);
  const missing = message === undefined ? [] : pointers.filter((it) => !hasPointer(message, it));
  return element("section", "wrong-message",
    element("h3", "", "The message, ", eventLink(row.event)), requestPart(row),
    missing.length === 0 ? null : element("p", "", "It has no ", shownText(missing[0]), ". ",
      source("page")),
    markedContent(content, pointers));
}
