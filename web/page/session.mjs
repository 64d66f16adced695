// The events of a log as the page shows them: joined and summed up, as lsptools/page/session.py
// does it.

import { EDITOR, KINDS, SNAPSHOT } from "./listing.mjs";
import { jsonOf } from "./report.mjs";
import { cut } from "./wording.mjs";

const LONGEST_NAME = 300;
const ENCODINGS = ["utf-8", "utf-16", "utf-32"];
const SYNCS = ["none", "full", "incremental"];
// The methods whose messages are always read.
const READ = ["initialize", "$/cancelRequest"];
// The columns of the rows, in the order in which lsptools/page/session.py has them.
const COLUMNS = ["event", "side", "number", "kind", "method", "document", "bytes", "block",
  "partner", "cancel", "broken", "id", "version"];

// A number that Python does not read.
const TOO_LONG = /\d{4301}/;

/** A number that is not written as a whole one, such as 1e2. */
class Decimal {
  constructor(value) {
    this.value = value;
  }

  /** As Python writes it. */
  toString() {
    return Number.isInteger(this.value) ? `${this.value}.0` : String(this.value);
  }
}

/** A value as it was written: a whole number is not rounded. */
function exact(_, value, context) {
  if (typeof value !== "number" || context?.source === undefined) {
    return value;
  }
  if (!/^-?\d+$/.test(context.source)) {
    return new Decimal(value);
  }
  return Number.isSafeInteger(value) ? value : BigInt(context.source);
}

/** The member of a JSON value that is at the end of a path, or undefined. */
function at(value, ...path) {
  for (const name of path) {
    if (value === null || typeof value !== "object" || !Object.hasOwn(value, name)) {
      return undefined;
    }
    value = value[name];
  }
  return value;
}

/** A text as JSON, as Python writes it: half of a pair of surrogates stays as it is. */
function quoted(text) {
  const isHalf = (it) => /^[\ud800-\udfff]$/.test(it);
  return `"${[...text].map((it) => (isHalf(it) ? it : JSON.stringify(it).slice(1, -1))).join("")}"`;
}

/** JSON text as Python writes it, with a space after a comma and a colon. */
function spaced(value) {
  if (Array.isArray(value)) {
    return `[${value.map(spaced).join(", ")}]`;
  }
  if (value instanceof Decimal) {
    return String(value);
  }
  if (value !== null && typeof value === "object") {
    const members = Object.entries(value).map(([key, it]) => `${quoted(key)}: ${spaced(it)}`);
    return `{${members.join(", ")}}`;
  }
  return typeof value === "string" ? quoted(value) : jsonOf(value);
}

function shownId(id) {
  const isNumber = typeof id === "number" || typeof id === "bigint";
  return isNumber ? String(id) : cut(spaced(id), LONGEST_NAME);
}

/** An id as a key: 7 and "7" are different. */
const keyOf = (id) => (typeof id === "string" ? `"${id}` : String(id));

const isId = (id) => ["number", "bigint", "string"].includes(typeof id);

/** The requests of both sides that are open, each with its row, if the page has one. */
class Joins {
  constructor() {
    this.open = [new Map(), new Map()];
  }

  ask(event, row) {
    if (event.kind === "request" && !event.rule) {
      this.open[event.side].set(keyOf(event.id), [event, row]);
    }
  }

  answered(event) {
    if (!isId(event.id)) {
      return [];
    }
    const requests = this.open[1 - event.side], key = keyOf(event.id);
    const found = requests.get(key) ?? [];
    if (!event.rule) {
      requests.delete(key);
    }
    return found;
  }

  cancelled(event, message) {
    const id = at(message, "params", "id");
    if (event.kind !== "notification" || event.rule || !isId(id)) {
      return [];
    }
    return this.open[event.side].get(keyOf(id)) ?? [];
  }
}

/** The JSON value of a message, or undefined. */
function messageOf(event, content) {
  if (event.side === SNAPSHOT || (event.rule >= 101 && event.rule <= 106)) {
    return undefined;
  }
  try {
    const text = new TextDecoder("utf-8", { fatal: true, ignoreBOM: true }).decode(content);
    return TOO_LONG.test(text) ? undefined : JSON.parse(text, exact);
  } catch {
    return undefined;
  }
}

/** Gives the event of a violation, whose line has no words, those of its content. */
function describe(event, message) {
  if (message === null || typeof message !== "object" || Array.isArray(message)) {
    return;
  }
  const uri = at(message, "params", "textDocument", "uri") || at(message, "params", "uri");
  event.uri = event.uri || (typeof uri === "string" ? uri : null);
  if (!event.rule) {
    return;
  }
  const version = at(message, "params", "textDocument", "version");
  event.method = typeof message.method === "string" ? message.method : null;
  event.id = message.id ?? null;
  event.version = Number.isInteger(version) && Math.abs(version) < 2 ** 31 ? version : null;
  if (event.method !== null) {
    event.kind = "id" in message ? "request" : "notification";
  } else if ("id" in message) {
    event.kind = "error" in message ? "error" : "result";
  }
}

/** Texts that occur often, each with its number. */
class Names {
  constructor() {
    this.numbers = new Map();
  }

  number(text) {
    if (text === null || text === undefined) {
      return -1;
    }
    if (!this.numbers.has(text)) {
      this.numbers.set(text, this.numbers.size);
    }
    return this.numbers.get(text);
  }
}

/** The name and version of a client or server, as far as they are texts. */
function nameOf(info) {
  const found = ["name", "version"].map((name) => [name, at(info, name)]);
  return Object.fromEntries(found.filter(([, it]) => typeof it === "string")
    .map(([name, it]) => [name, cut(it, LONGEST_NAME)]));
}

/** The kind of synchronisation that a server asks for. */
function syncOf(result) {
  const sync = at(result, "capabilities", "textDocumentSync");
  const number = typeof sync === "object" ? at(sync, "change") : sync;
  return (typeof number === "number" && SYNCS[number]) || "none";
}

/**
 * The rows of the page, one for each event that it shows. `put` keeps a content, and returns the
 * number of its block.
 */
export class Session {
  constructor(put, wanted = new Set()) {
    Object.assign(this, { put, methods: new Names(), documents: new Names(), joins: new Joins() });
    Object.assign(this, { encoding: "utf-16", sync: "none", client: {}, server: {} });
    // Whether the server has accepted `initialize`.
    this.agreed = false;
    // The contents of wanted events, as far as the page has them.
    Object.assign(this, { wanted, kept: new Map() });
    // The documents that any event of the log names, also one that is not shown.
    this.named = new Set();
    this.columns = Object.fromEntries(COLUMNS.map((name) => [name, []]));
  }

  get count() {
    return this.columns.event.length;
  }

  /** The request that this event answers or cancels; its row learns of it. */
  join(event, message) {
    const isAnswer = event.kind === "result" || event.kind === "error";
    if (!isAnswer && event.method !== "$/cancelRequest") {
      return undefined;
    }
    const { joins } = this;
    const [request, row] = isAnswer ? joins.answered(event) : joins.cancelled(event, message);
    if (row !== undefined && row !== null) {
      this.columns[isAnswer ? (event.rule ? "broken" : "partner") : "cancel"][row] = event.event;
    }
    return request;
  }

  /** Who the two sides are, and what they agree on. */
  noteHandshake(event, message, asked) {
    const isKnown = Object.keys(this.client).length > 0;
    if (event.method === "initialize" && event.kind === "request" && !isKnown) {
      this.client = nameOf(at(message, "params", "clientInfo"));
    }
    if (asked === "initialize" && event.kind === "result") {
      const result = at(message, "result");
      this.server = nameOf(at(result, "serverInfo"));
      if (!event.rule) {
        this.agreed = true;
        const picked = at(result, "capabilities", "positionEncoding");
        this.encoding = ENCODINGS.includes(picked) ? picked : "utf-16";
        this.sync = syncOf(result);
      }
    }
  }

  /** Takes the next event of the log, and adds a row if it is shown, with its content if whole. */
  take(event, content, isShown, isWhole) {
    const listed = event.uri, isAnswer = event.kind === "result" || event.kind === "error";
    const isNamed = listed !== null || isAnswer;
    let message;
    if (event.rule || READ.includes(event.method) || (isShown && !isNamed)) {
      message = messageOf(event, content);
      describe(event, message);
    }
    this.named.add(event.rule ? event.uri : listed);
    const request = this.join(event, message);
    const asked = request && event.kind !== "notification" ? request.method : null;
    if (event.method === "initialize" || asked === "initialize") {
      this.noteHandshake(event, messageOf(event, content), asked);
    }
    let row = null;
    if (isShown) {
      row = this.add(event, request, asked, content.length, isWhole ? this.put(content) : -1);
      if (isWhole && this.wanted.has(event.event) && event.side !== SNAPSHOT) {
        this.kept.set(event.event, content.slice());
      }
    }
    this.joins.ask(event, row);
  }

  add(event, request, asked, size, block) {
    const row = this.count, { kind, id } = event;
    const hasId = id !== null || kind === "result" || kind === "error";
    const values = {
      event: event.event, side: event.side, number: event.number, kind: KINDS.indexOf(kind),
      method: this.methods.number(event.method || asked),
      document: this.documents.number(event.uri), bytes: size, block,
      partner: request ? request.event : 0, cancel: 0, broken: 0,
      id: hasId ? shownId(id) : null, version: event.version,
    };
    for (const [name, value] of Object.entries(values)) {
      this.columns[name].push(value);
    }
    return row;
  }
}

export { EDITOR };
