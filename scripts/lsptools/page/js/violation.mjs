// A violation: first what shows the cause, then what lspcheck says about it.

import { columnsPart, rangeOf } from "./columns.mjs";
import { lspcheckCommand, shownCommand } from "./commands.mjs";
import { comparison } from "./comparison.mjs";
import { rowOfEvent } from "./data.mjs";
import { textsThatDiffer } from "./differing.mjs";
import { linesAfter, rowsOfText } from "./documents.mjs";
import { factsOf } from "./facts.mjs";
import { causeOf } from "./joins.mjs";
import { wrongMessage } from "./message.mjs";
import { nearRows } from "./near.mjs";
import { element, eventLink, folded, longText, source, visibleText, whenLoaded } from "./nodes.mjs";
import { notesList } from "./notes.mjs";
import { aboutRule } from "./rules.mjs";
import { summaryOf } from "./summaries.mjs";
import { urisPart } from "./uris.mjs";
import { ELSEWHERE, inWords, shownEvent } from "./words.mjs";

// What is in the explanation and is shown above it, too.
const SHOWN_IN_TEXTS = ["by-messages", "in-editor", "saved"];
const SHOWN_IN_COLUMNS = ["encoding", "inside"];
const SHOWN_IN_MESSAGE = ["begins"];

// What `explain` wrote, in words, without some kinds of objects.
export function explanation(facts, without = []) {
  const list = element("dl", "facts");
  for (const it of facts.filter((fact) => ![...ELSEWHERE, ...without].includes(fact.is))) {
    const [label, shown] = inWords(it);
    list.append(element("dt", "", label), element("dd", "", ...shown));
  }
  return list;
}

// The explanation of a violation in one sentence, if lspcheck wrote one.
export function soPart(violation) {
  const [so] = factsOf(violation, "so");
  return so ? element("p", "so", so.sentence, " ", source("lspcheck")) : null;
}

// The text before and after a didChange, as this page makes them.
function bothTextsOf(row) {
  const before = row.index > 0 ? linesAfter(row.document, row.index - 1) : null;
  const after = linesAfter(row.document, row.index, true);
  if (!before || !after) {
    return element("p", "quiet", "This page does not have what is needed to make the text.");
  }
  return comparison(before, after, ["Before ", source("page")], ["After ", source("page")], "page");
}

export function whatChanged(row) {
  return whenLoaded(rowsOfText(row), () => bothTextsOf(row));
}

// A suspect: the message, the notes on it, and folded what it changed.
function suspectPart(suspect, isOpen) {
  const row = rowOfEvent(suspect.event);
  const head = element("p", "is-suspect", `version ${suspect.version}: `, ...shownEvent(suspect));
  const notes = row?.notes.length ? notesList(row.notes) : null;
  if (!row || row.method !== "textDocument/didChange") {
    return element("div", "suspect", head, notes);
  }
  const said = whenLoaded([row], () => element("code", "summary", visibleText(summaryOf(row))));
  head.append(" ", said);
  return element("div", "suspect", head, notes,
    folded("what it changed", () => whatChanged(row), isOpen));
}

function suspectsPart(violation) {
  const found = factsOf(violation, "suspect");
  return found.length === 0 ? null : element("section", "suspects",
    element("h3", "", "Suspects ", source("lspcheck")),
    ...found.map((it) => suspectPart(it, found.length === 1)));
}

// Of a violation that follows: from which.
function whyItFollows(violation) {
  const cause = causeOf(violation);
  return element("section", "why", element("h3", "", "Why "),
    element("p", "", "It follows from an earlier violation, which lspcheck explains",
      cause ? [": ", eventLink(cause.event), `, ${cause.rule} ${cause.text} `, source("page")] : "",
      ". If that one is mended, this one may be gone."));
}

function whatWasWritten(violation) {
  return folded("The words of lspcheck", () => longText(violation.lines.join("\n"), "raw"));
}

function whyItIs(violation, without) {
  const command = lspcheckCommand("explain", "--all");
  const why = violation.facts.length > 0 ?
    [explanation(violation.facts, without), whatWasWritten(violation)] :
    [element("p", "", "This page explains only the first violations. The others are explained by ",
      shownCommand(command), ".")];
  return element("section", "why", element("h3", "", "Why ", source("lspcheck")), ...why);
}

// The message of a violation, or, where there is none that can be read, its place in the log.
function messageAround(violation, row, isFirst) {
  return [urisPart(violation), row && isFirst ? wrongMessage(violation, row) : null,
    isFirst ? nearRows(violation.event) : null];
}

// What shows the cause: both texts, the columns of a line, or the message. With it, what need not
// be said again.
function causePart(violation, row, isFirst) {
  const texts = row ? textsThatDiffer(violation, row) : null;
  if (texts) {
    return ["The texts", [texts], SHOWN_IN_TEXTS];
  }
  const columns = row ? columnsPart(violation, row) : null;
  if (columns) {
    return ["The position", [columns], SHOWN_IN_COLUMNS];
  }
  return ["The message", messageAround(violation, row, isFirst), isFirst ? SHOWN_IN_MESSAGE : []];
}

// All that is known about a violation. In the card of the first one are the message and the rows
// around it, which the lanes show of the others.
export function violationPart(violation, isFirst = false) {
  const row = rowOfEvent(violation.event), isOfRange = rangeOf(violation) !== undefined;
  const needed = row ? (isOfRange ? rowsOfText(row) : [row]) : [];
  return whenLoaded(needed, () => {
    const [heading, parts, without] = causePart(violation, row, isFirst);
    return element("div", "violation-part",
      isFirst ? element("h2", "unseen", heading) : null, parts, suspectsPart(violation),
      violation.follows ? whyItFollows(violation) : whyItIs(violation, without),
      aboutRule(violation.rule, violation.facts));
  });
}
