// What is shown when an event is opened: its violation, the texts that differ, its content.

import { isProved, lspcheckCommand, shownCommand, textCommand } from "./commands.mjs";
import { copyButton } from "./copying.mjs";
import { EDITOR, SIDES, SNAPSHOT, contentOf, messageOf, rowOfEvent } from "./data.mjs";
import { isDifference } from "./differing.mjs";
import { editorNumberAt, hasText, linesAfter, rowsOfText, versionRows } from "./documents.mjs";
import { joinsOf } from "./joins.mjs";
import { indentedJson } from "./json.mjs";
import { markedContent, wrongMembers } from "./message.mjs";
import {
  button, count, element, eventLink, fill, folded, longText, shownText, source, visibleText,
  whenLoaded,
} from "./nodes.mjs";
import { notesList } from "./notes.mjs";
import { versionLabel, versionsPart } from "./versions.mjs";
import { soPart, violationPart, whatChanged } from "./violation.mjs";

const MOST_OF_JSON = 30000;

function textPart(row) {
  const lines = linesAfter(row.document, row.index);
  const command = textCommand(editorNumberAt(row), row.uri);
  const whose = isProved ? "The proved text" : "The text of lspcheck";
  const writes = command ?
    element("p", "quiet", `${whose} is written by `, shownCommand(command)) : null;
  if (!lines) {
    const why = lines === null ? "The document is not open after this event." :
      "This page does not have all messages that made the text.";
    return element("div", "", element("p", "quiet", why), lines === null ? null : writes);
  }
  return element("div", "",
    element("p", "quiet", source("page"), " made from the editor’s messages, without those that ",
      "break a rule."), writes, longText(lines.join(""), "document-text"));
}

// The content of a message, with what breaks a rule in it marked.
function messagePart(row, content) {
  const { violation } = row;
  const isMarked = violation && content.length <= MOST_OF_JSON && !isDifference(violation);
  return isMarked ? markedContent(content, wrongMembers(violation, messageOf(row)), true) :
    longText(indentedJson(content), "json", MOST_OF_JSON);
}

function contentPart(row) {
  const content = contentOf(row);
  if (content === "" && row.kind === "unreadable") {
    return element("p", "quiet", "This frame has no content that can be read.");
  }
  if (content === null) {
    return element("p", "quiet", "The content was left out of this page. It is written by ",
      shownCommand(lspcheckCommand("event", String(row.event))));
  }
  return row.side === SNAPSHOT ? longText(content, "document-text", MOST_OF_JSON) :
    messagePart(row, content);
}

// The row that is shown next to one: the answer to it, or the request that it answers.
function joinedRow(row) {
  const isJoined = ["request", "result", "error"].includes(row.kind) && !row.violation;
  return isJoined ? rowOfEvent(row.partner) : undefined;
}

// The content of a row, next to that of the row that is joined with it.
function contentsPart(row) {
  const other = joinedRow(row);
  if (!other) {
    return contentPart(row);
  }
  const half = (it, label) => element("section", "half",
    element("h3", "", `${label}, `, eventLink(it.event)), contentPart(it));
  const [request, answer] = row.kind === "request" ? [row, other] : [other, row];
  return element("div", "halves", half(request, "Request"),
    half(answer, answer.kind === "error" ? "Error" : "Result"));
}

// Links to the versions and snapshots of a row's document before it and after it.
function versionLinks(row) {
  const found = row.document >= 0 ? versionRows(row.document) : [], at = found.indexOf(row);
  if (at < 0) {
    return [];
  }
  const link = (other, words) => (other ?
    [" · ", eventLink(other.event, `${words}: ${versionLabel(other)}`)] : []);
  return [...link(found[at - 1], "previous"), ...link(found[at + 1], "next")];
}

// What can be done with an event.
function actionsPart(row, actions) {
  const copies = row.block < 0 || row.bytes === 0 ? null :
    copyButton(row.side === SNAPSHOT ? "copy the text" : "copy the message", () => contentOf(row));
  return element("p", "actions", copies,
    actions.map(([label, act]) => button("plain", label, () => act(row))));
}

// The rows whose contents the details of a row show at once.
export function rowsOfDetails(row) {
  return [row, joinedRow(row)].filter(Boolean);
}

// What is below a row when it is open; `actions` are what else can be done with it, each with its
// name. The contents must be loaded.
export function detailsOf(row, actions = []) {
  const whose = row.side === SNAPSHOT ? "snapshot" : `${SIDES[row.side]} message`;
  const made = element("div", "details",
    element("p", "about", eventLink(row.event), ` · ${whose} ${row.number}`,
      ` · ${count(row.bytes, "byte")}`,
      row.id === null ? null : [" · id ", ...visibleText(row.id)],
      ...joinsOf(row), ...versionLinks(row)),
    row.uri ? element("p", "about uri", shownText(row.uri)) : null, actionsPart(row, actions));
  if (row.violation) {
    fill(made, [soPart(row.violation), violationPart(row.violation)]);
  }
  if (row.notes.length) {
    made.append(element("section", "why", element("h3", "", "Note ", source("lspcheck")),
      notesList(row.notes)));
  }
  if (row.method === "textDocument/didChange" && row.side === EDITOR && hasText(row)) {
    made.append(folded("What this message changed", () => whatChanged(row)));
  }
  if (hasText(row)) {
    made.append(folded("The text after this event",
      () => whenLoaded(rowsOfText(row), () => textPart(row))));
  }
  if (row.document >= 0 && versionRows(row.document).includes(row)) {
    fill(made, [versionsPart(row.document, row)]);
  }
  made.append(contentsPart(row));
  return made;
}
