// The page of lspcheck-page for a log, made here as lsptools/page/document.py makes it. `parts` are
// what package/wasm puts in: the template, the style, the script and the policy of that page, the
// forms of objects, the rules, and the words of Markdown.

import { MOST_BYTES, MOST_EVENTS, EVERYTHING, Around, canName } from "./cuts.mjs";
import { Contents } from "./contents.mjs";
import { KINDS, Lines, Listing, explained } from "./listing.mjs";
import { markdownOf } from "./markdown.mjs";
import { jsonOf, linesOfReport } from "./report.mjs";
import { Session } from "./session.mjs";

// The contents of events are in blocks of about this many bytes.
const BLOCK = 1_000_000;
// How many violations are explained, and how many are listed in any page.
const MOST_EXPLAINED = 500, LISTED_ALWAYS = 10_000;

/** This file is not a log, or lspcheck itself could not read it. */
export class NoPage extends Error {}

/** Runs a command of lspcheck on the log, and gives a function the objects that it writes. */
function eachObject(checker, words, take) {
  const lines = new Lines(take);
  checker.run([...words, "--json", "--quiet"], (bytes) => lines.put(bytes));
}

function objectsOf(checker, ...words) {
  const found = [];
  eachObject(checker, words, (it) => found.push(it));
  return found;
}

function textOf(checker, ...words) {
  const decoder = new TextDecoder("utf-8", { ignoreBOM: true });
  let text = "";
  const status = checker.run([...words, "--quiet"], (bytes) => {
    text += decoder.decode(bytes, { stream: true });
  });
  return [status, text];
}

/** Both texts of the verdict, if it is that two texts differ. */
function textsOf(checker, verdict) {
  if (![608, 702].includes(verdict.rule)) {
    return null;
  }
  const text = (option) => textOf(checker, "explain", option)[1];
  return { messages: text("--by-messages"), editor: text("--in-editor") };
}

/** The text of a document before the message of which a position is wrong, or null. */
function textBefore(checker, said) {
  const [verdict] = said, uri = said.find((it) => it.is === "uri")?.uri;
  if (![605, 606].includes(verdict.rule) || uri === undefined || !canName(uri)) {
    return null;
  }
  const [status, text] = textOf(checker, "text", "--all", String(verdict.number - 1), uri);
  return status === 0 ? text : null;
}

/** The events that Markdown shows. */
function wantedOf(said) {
  return new Set(said.filter((it) => ["no", "suspect"].includes(it.is)).map((it) => it.event));
}

/** The events of the log, first all of them to be counted; those of a short log are kept. */
class Events {
  constructor(checker) {
    this.checker = checker;
    this.listing = new Listing(2 * MOST_EVENTS + LISTED_ALWAYS);
    this.kept = [];
    this.each(this.listing, (event) => {
      if (this.listing.events <= MOST_EVENTS) {
        this.kept.push(event);
      }
    });
    this.isShort = this.listing.events <= MOST_EVENTS;
  }

  each(listing, take) {
    eachObject(this.checker, ["show", "--all", "--long"], (it) => {
      const event = listing.take(it);
      if (event) {
        take(event);
      }
    });
  }

  /** Gives a function each event once more. */
  again(take) {
    if (this.isShort) {
      this.kept.forEach(take);
    } else {
      this.each(new Listing(), take);
    }
  }
}

/** The contents of events, in blocks. */
class Blocks {
  constructor() {
    Object.assign(this, { whole: [], block: [], size: 0 });
  }

  put(content) {
    const number = this.whole.length;
    this.block.push(content.slice());
    this.size += content.length;
    if (this.size >= BLOCK) {
      this.endBlock();
    }
    return number;
  }

  endBlock() {
    this.whole.push(new Blob(this.block));
    Object.assign(this, { block: [], size: 0 });
  }

  end() {
    if (this.block.length) {
      this.endBlock();
    }
    return this.whole;
  }
}

/** Deflated bytes in base64. */
async function packed(blob) {
  const deflated = blob.stream().pipeThrough(new CompressionStream("deflate"));
  const url = new FileReaderSync().readAsDataURL(await new Response(deflated).blob());
  return url.slice(url.indexOf(",") + 1);
}

async function blockOf(name, blob) {
  return `<script type="application/octet-stream" id="${name}">${await packed(blob)}</script>\n`;
}

/** A text for the HTML itself: escaped, and with numbers for characters that are not printed. */
export function plain(text) {
  const named = { "&": "&amp;", "<": "&lt;", ">": "&gt;", '"': "&quot;", "'": "&#x27;" };
  return text.replace(/[&<>"']/g, (it) => named[it]).replace(/(?![ \n])[\p{C}\p{Z}]/gu, (it) =>
    `[U+${it.codePointAt(0).toString(16).toUpperCase().padStart(4, "0")}]`);
}

function checkpointsOf(checker, choice, session, first) {
  return choice.wanted(session, first).map(({ first: begin, document, uri, message }) => {
    const [status, text] = message ? textOf(checker, "text", "--all", String(message), uri) : [1];
    return { to: begin - 1, document, text: status === 0 ? text : null };
  });
}

function leftOut(checker, choice, session, listing) {
  return choice === EVERYTHING ? null : {
    gaps: choice.gaps(),
    checkpoints: checkpointsOf(checker, choice, session, listing.violations[0]?.event ?? 0),
    said: choice.said(session.count),
  };
}

/** Adds what `explain --all --notes` says to the violations that it explains, and its notes. */
function complete(listing, objects, forms) {
  const [found, notes] = explained(objects, MOST_EXPLAINED);
  listing.notes = notes;
  for (const violation of listing.violations) {
    const about = found(violation);
    violation.facts = about.slice(1);
    violation.lines = linesOfReport(forms, about);
  }
}

function rulesNamed(rules, listing, verdict) {
  const named = new Set([...listing.violations.map((it) => String(it.rule)), verdict.code]);
  return Object.fromEntries(Object.entries(rules).filter(([number]) => named.has(number)));
}

/** The template with its parts, of which the data comes last. */
function filled(parts, given, data) {
  const pieces = parts.template.split("@");
  const all = { POLICY: parts.policy, STYLE: parts.style, SCRIPT: parts.script, ...given };
  const part = (name) => (name === "DATA" ? data : all[name]);
  return [parts.mark, ...pieces.flatMap((it, at) => (at % 2 === 0 ? it : part(it)))];
}

/**
 * The page of a log, as a Blob, with the lines of its report. The log has a name, a size, and
 * `read(from, to)` for its bytes; `checker.run(words, write)` runs lspcheck on it.
 */
export async function pageOf(parts, log, checker) {
  const version = textOf(checker, "--version")[1].replace("\n", ` ${parts.build}`);
  const said = objectsOf(checker, "explain"), verdict = said[0];
  if (!verdict || verdict.code === "L1") {
    throw new NoPage("not a log: its first line is not that of a log");
  }
  const report = linesOfReport(parts.forms, said), texts = textsOf(checker, verdict);
  const events = new Events(checker), { listing } = events;
  complete(listing, objectsOf(checker, "explain", "--all", "--notes"), parts.forms);
  const isWhole = events.isShort && log.size <= MOST_BYTES;
  const choice = isWhole ? EVERYTHING : new Around(listing, log.size), contents = new Contents(log);
  const blocks = new Blocks();
  const session = new Session((content) => blocks.put(content), wantedOf(said));
  events.again((event) => {
    const content = contents.of(event), isShown = choice.isShown(event);
    session.take(event, content, isShown, isShown && choice.isWhole(event, content));
  });
  session.named.delete(null);
  const data = [];
  for (const [number, block] of blocks.end().entries()) {
    data.push(await blockOf(`contents-${number}`, block));
  }
  const index = {
    name: log.name, bytes: log.size, exit: [], said, ending: listing.ending, notes: listing.notes,
    kinds: KINDS, events: listing.events, sides: listing.sides, named: session.named.size,
    unlisted: listing.unlisted, agreed: session.agreed, encoding: session.encoding,
    sync: session.sync,
    client: session.client, server: session.server,
    methods: [...session.methods.numbers.keys()],
    documents: [...session.documents.numbers.keys()],
    rules: rulesNamed(parts.rules, listing, verdict), format: contents.format, version, report,
    left: leftOut(checker, choice, session, listing), small: false, smallest: null, texts,
    blocks: data.length, case: null, rows: session.columns, violations: listing.violations,
  };
  const linesOf = (objects) => linesOfReport(parts.forms, objects);
  index.markdown = markdownOf(parts, index, linesOf, session.kept, textBefore(checker, said));
  data.push(await blockOf("session", new Blob([jsonOf(index)])));
  const [NAME, REPORT, VERSION] = [log.name, report.join("\n"), version].map(plain);
  const pieces = filled(parts, { NAME, REPORT, VERSION, NEIGHBOURS: "" }, data);
  return { page: new Blob(pieces, { type: "text/html" }), report };
}
