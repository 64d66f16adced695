// The head of the page: the verdict, the first violation, the documents.

import { copyButton } from "./copying.mjs";
import { EDITOR, SNAPSHOT, damage, session, verdict } from "./data.mjs";
import { namingRows } from "./documents.mjs";
import {
  baseName, button, count, element, eventLink, folded, labelled, shownText, source, titled,
  visibleText,
} from "./nodes.mjs";
import { notesList } from "./notes.mjs";
import { aboutRule } from "./rules.mjs";
import {
  countsOfViolations, endOfServer, placeOfDamage, sentenceOfVerdict, verdictOf,
} from "./verdict.mjs";
import { versionsPart } from "./versions.mjs";
import { explanation, violationPart } from "./violation.mjs";
import { whoLine } from "./who.mjs";

const MOST_CHIPS = 36, MOST_DOCUMENTS = 4;

// Where a violation is: an event, or the end of the log.
function placeOfViolation(violation) {
  return violation.event > session.events ? "the end of the log" : eventLink(violation.event);
}

// Whose message breaks a rule, or whose stream ends too early.
function whoseItIs({ who, number, event, facts }) {
  if (who === "snapshot") {
    return `snapshot ${number}`;
  }
  if (event <= session.events) {
    return `the ${who}’s message ${number}`;
  }
  return facts.some((it) => it.is === "begins") ? `the ${who}’s last frame` : `the ${who}’s side`;
}

// The verdict, and where it is: small, above what it means.
function ruleLine() {
  const [kind, word, text] = verdictOf(), [violation] = session.violations;
  if (kind !== "no" || !violation) {
    return null;
  }
  const isAtEnd = violation.event > session.events;
  const place = isAtEnd ? "at the end of the log" : [eventLink(violation.event), " of the log"];
  const said = sentenceOfVerdict() === undefined ? word : `${word} ${text}`;
  return element("p", "rule where", element("span", "word", said),
    ` · ${whoseItIs(violation)}, `, place);
}

function headingOfVerdict() {
  const [kind, word, text] = verdictOf(), sentence = sentenceOfVerdict();
  if (sentence !== undefined) {
    return element("h1", "so", sentence, " ", source("lspcheck"));
  }
  return kind === "no" ? element("h1", "", text) :
    element("h1", "", element("span", "word", word), " ", text);
}

// Of a log that breaks a rule and is damaged, too: both are said first.
function damagePart() {
  return !damage || verdict.is === "bad log" ? null :
    element("p", "where damaged", `The log is damaged, too: ${placeOfDamage()}, ${damage.text}. `,
      "What follows that place is not shown.");
}

function factsOfLog() {
  const [editor, server, snapshots] = session.sides, [all, follow] = countsOfViolations();
  const facts = [count(session.events, "event"),
    `${count(editor, "message")} of the editor and ${server.toLocaleString("en")} of the server`,
    count(snapshots, "snapshot"), count(session.named, "document"), `format ${session.format}`,
    count(session.bytes, "byte")];
  if (all > 0) {
    facts.unshift(count(all - follow, "violation") +
      (follow ? ` and ${follow.toLocaleString("en")} that follow` : ""));
  }
  return element("p", "quiet", facts.join(" · "));
}

// What one pastes into an issue, which lspcheck-page wrote.
function markdownButton() {
  return session.markdown ? copyButton("copy as Markdown", () => session.markdown) : null;
}

// What the page says about itself.
function aboutPage() {
  return element("p", "quiet", "The verdict is that of ", shownText(session.version),
    ". What this page worked out itself is marked ", source("page"),
    ". Lines and columns are counted from 1, as in editors, columns ",
    `in ${session.encoding}; messages, and the words of lspcheck, count both from 0. `,
    markdownButton());
}

export function verdictPart() {
  const [kind] = verdictOf();
  return element("header", `verdict verdict-${kind}`,
    element("p", "name", visibleText(session.name ?? "standard input", true)),
    ruleLine(), headingOfVerdict(), damagePart(), whoLine(),
    session.exit.length === 0 ? null : element("p", "where", visibleText(endOfServer())),
    factsOfLog(), aboutPage());
}

export function notesPart() {
  return session.notes.length === 0 ? null : element("section", "card",
    element("h2", "", "Notes ", source("lspcheck")), notesList(session.notes));
}

export function badLogPart() {
  if (verdict.is !== "bad log") {
    return null;
  }
  const facts = session.said.slice(1).filter((it) => it.is !== "note" && it.is !== "notes");
  return element("section", "card",
    element("h2", "", `${verdict.code} ${verdict.text} `, source("lspcheck")),
    element("p", "", "No event before this record breaks a rule. What follows is not shown."),
    explanation(facts), aboutRule(verdict.code, facts));
}

export function firstViolation() {
  const violation = session.violations[0];
  return !violation || verdict.is !== "no" ? null :
    element("section", "card first", violationPart(violation, true));
}

export function otherViolations() {
  const others = session.violations.slice(1).filter((it) => !it.follows);
  if (others.length === 0) {
    return null;
  }
  const links = others.slice(0, 60).map((it) => element("li", "",
    placeOfViolation(it), ` ${it.rule} ${it.text}`));
  const [all, follow] = countsOfViolations();
  const more = Math.max(all - follow - 1 - links.length, 0);
  return element("section", "card", element("h2", "", "Other violations ", source("lspcheck")),
    element("ul", "columns", ...links),
    more > 0 ? element("p", "quiet", `and ${count(more, "more violation")}`) : null);
}

function wordOfChip({ violation }) {
  if (!violation) {
    return "";
  }
  return violation.follows ? `follows: rule ${violation.rule}` : `breaks rule ${violation.rule}`;
}

// A chip for each event of a document that sets its version or shows its text.
function chip(row) {
  const short = { "textDocument/didOpen": "open ", "textDocument/didClose": "close",
    "textDocument/didSave": "save" };
  const version = row.version === null ? "" : String(row.version);
  const label = row.side === SNAPSHOT ? `▣ ${version}` : `${short[row.method] ?? ""}${version}`;
  const what = row.side === SNAPSHOT ? "snapshot" : baseName(row.method);
  const name = [what, version && `version ${version}`, `event ${row.event}`, wordOfChip(row)]
    .filter(Boolean).join(", ");
  const made = titled(labelled(eventLink(row.event, label), name), name);
  made.className = "chip";
  made.classList.toggle("chip-snapshot", row.side === SNAPSHOT);
  made.classList.toggle("chip-bad", row.violation !== null && !row.violation.follows);
  made.classList.toggle("chip-follows", row.violation?.follows === true);
  return made;
}

function isOfText(row) {
  const isOfEditor = row.side === EDITOR && /\/did(Open|Change|Close|Save)$/.test(row.method);
  return row.side === SNAPSHOT || isOfEditor;
}

// The chips that are shown: all, or those around the first violation and at both ends.
function chosenChips(found) {
  if (found.length <= MOST_CHIPS) {
    return found.map(chip);
  }
  const bad = found.findIndex((row) => row.violation);
  const third = MOST_CHIPS / 3, middle = bad < 0 ? 0 : bad;
  const isShown = (at) =>
    at < third || at >= found.length - third || Math.abs(at - middle) <= third / 2;
  const chips = [];
  let left = 0;
  found.forEach((row, at) => {
    if (!isShown(at)) {
      left += 1;
      return;
    }
    if (left) {
      chips.push(element("span", "quiet", `… ${left.toLocaleString("en")} …`));
      left = 0;
    }
    chips.push(chip(row));
  });
  return chips;
}

function documentPart(number, filter) {
  const uri = session.documents[number];
  const only = button("plain", "show only this document", () => filter(number));
  return element("div", "document",
    element("h3", "", visibleText(baseName(uri), true), " ", only),
    element("p", "about uri", shownText(uri)),
    element("div", "chips", ...chosenChips(namingRows[number].filter(isOfText))),
    versionsPart(number));
}

export function documentsPart(filter) {
  const found = [...session.documents.keys()].filter((number) => namingRows[number].some(isOfText));
  if (found.length === 0) {
    return null;
  }
  const shown = (numbers) => numbers.map((number) => documentPart(number, filter));
  const rest = found.slice(MOST_DOCUMENTS);
  return element("section", "card", element("h2", "", "Documents"),
    element("p", "quiet", "The versions that messages set, and the snapshots (▣), in order."),
    ...shown(found.slice(0, MOST_DOCUMENTS)),
    rest.length === 0 ? null :
      folded(count(rest.length, "more document"), () => element("div", "", ...shown(rest))));
}
