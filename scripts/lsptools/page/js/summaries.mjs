// What a message says, in one line. It is worked out when a row is drawn or searched.

import { SNAPSHOT, bytesOf, utf8 } from "./data.mjs";
import { TOKENS } from "./json.mjs";
import { count } from "./nodes.mjs";

const LONGEST = 160, LONGEST_QUOTED = 40, MOST_NAMED = 20;
const NOTICES = { 1: "error", 2: "warning", 3: "info", 4: "log", 5: "debug" };
const SYNCS = ["none", "full", "incremental"];
// What splits words, also where `\s` does not.
const SPACES = /[\s\x1c-\x1f\x85]+/;

// JSON with the numbers that JavaScript would write in another way as texts, as they were sent.
function withExactNumbers(content) {
  return !/\d{16}|\d[.eE]|-0/.test(content) ? content :
    content.replace(TOKENS, (token) =>
      (/^-?\d/.test(token) && String(Number(token)) !== token ? JSON.stringify(token) : token));
}

// The member of a JSON value that is at the end of a path, or null.
function memberAt(value, ...path) {
  return path.reduce((found, name) => {
    const isThere = typeof found === "object" && found !== null &&
      Array.isArray(found) === (typeof name === "number") && Object.hasOwn(found, name);
    return isThere ? found[name] : null;
  }, value);
}

function shortened(text, most = LONGEST) {
  if (text.length <= most) {
    return text;
  }
  const characters = [...text.slice(0, 2 * most + 2)];
  return characters.length <= most ? text : `${characters.slice(0, most - 1).join("")}…`;
}

function lengthInCharacters(text) {
  return text.length - (text.match(/[\ud800-\udbff][\udc00-\udfff]/g)?.length ?? 0);
}

// A JSON value in a few words: of a list its items, of an object the names of its members.
function inBrief(value, most = LONGEST) {
  if (typeof value === "string") {
    return shortened(value, most);
  }
  if (typeof value !== "object" || value === null) {
    return String(value);
  }
  const items = Array.isArray(value) ? value : Object.keys(value);
  const words = items.slice(0, MOST_NAMED).map((it) =>
    (typeof it === "string" ? it : JSON.stringify(it)));
  return shortened(words.join(", "), most);
}

function inQuotes(text) {
  return typeof text === "string" ? JSON.stringify(shortened(text, LONGEST_QUOTED)) : inBrief(text);
}

function commaBetween(...parts) {
  return parts.filter(Boolean).join(", ");
}

// A position, counted from 1, as in editors.
function positionInBrief(position) {
  const fromOne = (it) => (Number.isInteger(it) ? it + 1 : inBrief(it));
  return ["line", "character"].map((name) => fromOne(memberAt(position, name))).join(":");
}

// A range, as one position if it is empty.
function rangeInBrief(range) {
  const start = positionInBrief(memberAt(range, "start"));
  const end = positionInBrief(memberAt(range, "end"));
  return start === end ? start : `${start} to ${end}`;
}

function sizeOfText(text) {
  return typeof text === "string" ? count(lengthInCharacters(text), "character") : "";
}

function changeInBrief(change) {
  const text = memberAt(change, "text"), range = memberAt(change, "range");
  if (range === null) {
    return typeof text === "string" ? `whole text, ${sizeOfText(text)}` : "?";
  }
  return `${rangeInBrief(range)} ${text === "" ? "deleted" : inQuotes(text)}`;
}

function changesInBrief(params) {
  const changes = memberAt(params, "contentChanges");
  if (!Array.isArray(changes)) {
    return "?";
  }
  if (changes.length < 2) {
    return changes.length ? changeInBrief(changes[0]) : "no changes";
  }
  return `${count(changes.length, "change")}: ${changes.slice(0, 3).map(changeInBrief).join("; ")}`;
}

// The name and version of a client or a server.
function namesIn(info) {
  const words = [memberAt(info, "name"), memberAt(info, "version")].filter(Boolean);
  return words.map((word) => inBrief(word, 60)).join(" ");
}

function offerInBrief(params) {
  const offered = memberAt(params, "capabilities", "general", "positionEncodings");
  return commaBetween(namesIn(memberAt(params, "clientInfo")),
    Array.isArray(offered) ? `offers ${inBrief(offered)}` : "offers no encoding");
}

function agreementInBrief(result) {
  const sync = memberAt(result, "capabilities", "textDocumentSync");
  const kind = typeof sync === "object" ? memberAt(sync, "change") : sync;
  return commaBetween(namesIn(memberAt(result, "serverInfo")),
    inBrief(memberAt(result, "capabilities", "positionEncoding") ?? "utf-16"),
    kind === null || Number.isInteger(kind) ? `sync ${SYNCS[kind] ?? "none"}` : "");
}

function diagnosticsInBrief(params) {
  const found = memberAt(params, "diagnostics"), number = Array.isArray(found) ? found.length : 0;
  const said = count(number, "diagnostic");
  return number ? `${said}: ${inBrief(memberAt(found, 0, "message"))}` : said;
}

function noticeInBrief(params) {
  const kind = memberAt(params, "type");
  return `${NOTICES[Number.isInteger(kind) ? kind : 0] ?? "?"}: ` +
    inBrief(memberAt(params, "message"));
}

function progressInBrief(params) {
  const value = memberAt(params, "value"), percent = memberAt(value, "percentage");
  const words = ["kind", "title", "message"].map((name) => memberAt(value, name)).filter(Boolean);
  return `${inBrief(memberAt(params, "token"))}: ` +
    commaBetween(...words.map((word) => inBrief(word)), percent ? `${inBrief(percent)} %` : "");
}

// One member of each item of a list.
function membersInBrief(items, name) {
  return inBrief(items.map((item) => memberAt(item, name)));
}

function registrationsInBrief(params) {
  const lists = ["registrations", "unregisterations"].map((name) => memberAt(params, name));
  const found = lists.find((list) => Array.isArray(list));
  return found ? membersInBrief(found, "method") : "?";
}

function sectionsInBrief(params) {
  const items = memberAt(params, "items");
  return Array.isArray(items) ? membersInBrief(items, "section") : "";
}

const OF_METHODS = {
  __proto__: null,
  "initialize": offerInBrief,
  "textDocument/didOpen": (params) => {
    const opened = memberAt(params, "textDocument");
    return commaBetween(inBrief(memberAt(opened, "languageId")),
      sizeOfText(memberAt(opened, "text")));
  },
  "textDocument/didChange": changesInBrief,
  "textDocument/didSave": (params) => {
    const text = memberAt(params, "text");
    return typeof text === "string" ? `with its text, ${sizeOfText(text)}` : "";
  },
  "textDocument/publishDiagnostics": diagnosticsInBrief,
  "window/showMessage": noticeInBrief,
  "window/logMessage": noticeInBrief,
  "window/showMessageRequest": noticeInBrief,
  "$/progress": progressInBrief,
  "$/cancelRequest": (params) => `request ${inBrief(memberAt(params, "id"))}`,
  "client/registerCapability": registrationsInBrief,
  "client/unregisterCapability": registrationsInBrief,
  "workspace/configuration": sectionsInBrief,
  "workspace/executeCommand": (params) => inBrief(memberAt(params, "command")),
  "textDocument/rename": (params) =>
    `${positionInBrief(memberAt(params, "position"))} ${inQuotes(memberAt(params, "newName"))}`,
};

function paramsInBrief(method, params) {
  if (OF_METHODS[method]) {
    return OF_METHODS[method](params);
  }
  if (memberAt(params, "position") !== null) {
    return positionInBrief(memberAt(params, "position"));
  }
  if (memberAt(params, "range") !== null) {
    return rangeInBrief(memberAt(params, "range"));
  }
  const isObject = typeof params === "object" && params !== null && !Array.isArray(params);
  return inBrief(isObject ? Object.keys(params).filter((it) => it !== "textDocument") : []);
}

// The result of a request of this method, undefined if it is not known.
function resultInBrief(method, result) {
  if (method === "initialize") {
    return agreementInBrief(result);
  }
  const items = memberAt(result, "items"), contents = memberAt(result, "contents");
  if (Array.isArray(result)) {
    return count(result.length, "item");
  }
  if (Array.isArray(items)) {
    return count(items.length, "item") + (memberAt(result, "isIncomplete") ? ", incomplete" : "");
  }
  return inBrief(contents === null ? result : memberAt(contents, "value") ?? contents);
}

// A message in one line; `asked` is the method that a response answers.
function messageInBrief(message, asked) {
  if (typeof message !== "object" || message === null || Array.isArray(message)) {
    return "";
  }
  const method = memberAt(message, "method"), error = memberAt(message, "error");
  if (typeof method === "string") {
    return paramsInBrief(method, memberAt(message, "params"));
  }
  return Object.hasOwn(message, "error") ?
    `${inBrief(memberAt(error, "code"))} ${inBrief(memberAt(error, "message"))}` :
    resultInBrief(asked, memberAt(message, "result"));
}

// What a row's message says. The page says so if it does not have the message.
export function summaryOf(row) {
  row.summary ??= workedOutSummary(row);
  return row.summary;
}

function workedOutSummary(row) {
  if (row.side === SNAPSHOT) {
    return count(row.bytes, "byte");
  }
  if (row.block < 0) {
    return "left out of this page";
  }
  try {
    const message = JSON.parse(withExactNumbers(utf8.decode(bytesOf(row))));
    return shortened(messageInBrief(message, row.method).split(SPACES).filter(Boolean).join(" "));
  } catch {
    return "";
  }
}
