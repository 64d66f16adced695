// Judges the log of a page again: a worker that is given the module, the log and what the page
// has of it, and tells whether lspcheck says the same here.

import { run } from "../module.mjs";
import { Contents } from "./contents.mjs";
import { EDITOR, KINDS, Lines, Listing, explained } from "./listing.mjs";
import { Session } from "./session.mjs";

// How many violations a page explains, as lsptools/page/session.py says.
const MOST_EXPLAINED = 500;

// The statuses of answers; the others are those of faults.
const ANSWERS = [0, 1, 2, 5];

/** Why the page is not what lspcheck says about its log. */
class Different extends Error {}

function plain(value) {
  return JSON.stringify(value, (_, it) => (typeof it === "bigint" ? Number(it) : it));
}

function compare(what, shown, found) {
  if (plain(shown) !== plain(found)) {
    throw new Different(what);
  }
}

/** Runs a command of lspcheck on the log, gives a function the bytes that it writes, and returns
 * its status. */
function runOn({ module, log }, words, take) {
  let at = 0, said = "";
  const refuse = () => {
    throw Object.assign(new Error("no files"), { code: "ENOENT" });
  };
  const status = run(module, [...words, "--quiet"], {
    open: refuse,
    close() {},
    read(fd, bytes) {
      const piece = log.subarray(at, at + bytes.length);
      bytes.set(piece);
      at += piece.length;
      return piece.length;
    },
    write(fd, bytes) {
      if (fd === 1) {
        take(bytes.slice());
      } else {
        said += new TextDecoder().decode(bytes);
      }
      return bytes.length;
    },
    size: () => 0,
    isTerminal: () => false,
    clock: () => 0n,
  });
  if (!ANSWERS.includes(status)) {
    throw new Error(said.trim());
  }
  return status;
}

/** Gives a function the objects that a command writes. */
function eachObject(given, words, take) {
  const lines = new Lines(take);
  runOn(given, [...words, "--json"], (bytes) => lines.put(bytes));
}

function objectsOf(given, ...words) {
  const found = [];
  eachObject(given, words, (it) => found.push(it));
  return found;
}

/** The status of a command, and what it writes. */
function textOf(given, ...words) {
  const decoder = new TextDecoder("utf-8", { ignoreBOM: true });
  let text = "";
  const status = runOn(given, words, (bytes) => {
    text += decoder.decode(bytes, { stream: true });
  });
  return [status, text];
}

/** The events of the page, each with where its content is: a block, and a place in it. */
function placesOf({ rows }) {
  const found = new Map();
  let start = 0, filled = null;
  rows.event.forEach((event, at) => {
    const block = rows.block[at], bytes = rows.bytes[at];
    if (block >= 0) {
      start = block === filled ? start : 0;
      filled = block;
    }
    found.set(event, { block, start, end: start + bytes });
    start += block >= 0 ? bytes : 0;
  });
  return found;
}

function isEqual(some, other) {
  return some.length === other.length && some.every((byte, at) => byte === other[at]);
}

/** The events of the log, joined and summed up as the page shows them. */
class Events {
  constructor({ log }, page) {
    const read = (from, to) => log.subarray(from, to);
    this.contents = new Contents({ size: log.length, read });
    this.listing = new Listing(page.violations.length);
    this.session = new Session(() => 0);
    Object.assign(this, { page, places: placesOf(page), gaps: [], last: 0, editor: 0 });
  }

  take(object) {
    const event = this.listing.take(object);
    if (!event) {
      return;
    }
    const content = this.contents.of(event), place = this.places.get(event.event);
    const isWhole = place !== undefined && place.block >= 0;
    if (place) {
      this.endGap(event.event);
    }
    if (isWhole) {
      this.compareContent(event, content, place);
    }
    this.session.take(event, content, place !== undefined, isWhole);
    if (event.side === EDITOR) {
      this.editor = event.number;
    }
  }

  compareContent({ event }, content, { block, start, end }) {
    const shown = this.page.blocks[block]?.subarray(start, end);
    if (!shown || !isEqual(content, shown)) {
      throw new Different(`the content of event ${event} is another`);
    }
  }

  /** Ends the gap before an event that is shown, if there is one. */
  endGap(event) {
    if (event > this.last + 1) {
      this.gaps.push({ from: this.last + 1, to: event - 1, editor: this.editor });
    }
    this.last = event;
  }

  end() {
    this.endGap(this.listing.events + 1);
    this.session.named.delete(null);
  }

  /** What the page says about the whole session. */
  summary() {
    const { listing, session } = this;
    return {
      kinds: KINDS, events: listing.events, sides: listing.sides, unlisted: listing.unlisted,
      ending: listing.ending, format: this.contents.format, named: session.named.size,
      agreed: session.agreed, encoding: session.encoding, sync: session.sync,
      client: session.client, server: session.server, methods: [...session.methods.numbers.keys()],
      documents: [...session.documents.numbers.keys()],
    };
  }
}

function compareEvents(given, page) {
  const events = new Events(given, page), { rows } = page;
  eachObject(given, ["show", "--all", "--long"], (it) => events.take(it));
  events.end();
  // Of a block, only whether the content is in one.
  const shown = { ...rows, block: rows.block.map((it) => Math.min(it, 0)) };
  for (const [name, column] of Object.entries(events.session.columns)) {
    compare(`an event has another ${name}`, shown[name], column);
  }
  for (const [name, found] of Object.entries(events.summary())) {
    compare(`it has another value of "${name}"`, page[name], found);
  }
  compare("the log has another size", page.bytes, given.log.length);
  compareLeft(given, page, events.gaps);
  return events.listing.violations;
}

/** What the page leaves out, and the texts that it has instead. */
function compareLeft(given, page, gaps) {
  compare("other events are left out", page.left?.gaps ?? [], gaps);
  for (const { to, document, text } of page.left?.checkpoints ?? []) {
    const { editor } = gaps.find((it) => it.to === to), uri = page.documents[document];
    const words = ["text", "--all", String(editor), uri];
    const [status, found] = editor ? textOf(given, ...words) : [1];
    compare(`the text after event ${to} is another`, text, status === 0 ? found : null);
  }
}

/** What the page says about each violation, and the notes. */
function compareViolations(given, page, violations) {
  const words = ["explain", "--all", "--notes"];
  const lines = new Set(textOf(given, ...words)[1].split("\n"));
  const [about, notes] = explained(objectsOf(given, ...words), MOST_EXPLAINED);
  const found = violations.map((it) => ({ ...it, facts: about(it).slice(1) }));
  compare("a violation is another", page.violations.map((it) => ({ ...it, lines: [] })), found);
  if (!page.violations.every((it) => it.lines.every((line) => lines.has(line)))) {
    throw new Different("a violation is explained in other words");
  }
  compare("the notes are others", page.notes, notes);
}

function judge(given, page) {
  compare("the verdict is another", page.said, objectsOf(given, "explain"));
  compare("the report is another", `${page.report.join("\n")}\n`, textOf(given, "explain")[1]);
  const { texts } = page, text = (option) => textOf(given, "explain", option)[1];
  const both = () => ({ messages: text("--by-messages"), editor: text("--in-editor") });
  compare("the texts are others", texts, texts && both());
  compareViolations(given, page, compareEvents(given, page));
}

onmessage = async ({ data: { module, log, page } }) => {
  try {
    judge({ module: await WebAssembly.compile(module), log }, page);
    postMessage({ is: "same" });
  } catch (error) {
    postMessage({ is: error instanceof Different ? "different" : "fault", text: error.message });
  }
};
