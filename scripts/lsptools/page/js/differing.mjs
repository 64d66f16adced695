// Both texts of a violation that is a difference of texts.

import { comparison } from "./comparison.mjs";
import { EDITOR, SNAPSHOT, contentOf, messageOf, rowOfEvent, session } from "./data.mjs";
import { hasText, linesAfter, rowOfVersion, rowsOfText } from "./documents.mjs";
import { factsOf } from "./facts.mjs";
import { element, whenLoaded } from "./nodes.mjs";
import { linesOf } from "./texts.mjs";

// Whether a violation is that two texts differ.
export function isDifference(violation) {
  return factsOf(violation, "by-messages").length > 0;
}

// Whether the text that differs is one that the editor saved.
function isOfSave(violation) {
  return factsOf(violation, "saved").length > 0;
}

// The row of the snapshot that differs from the text of a message.
function snapshotOf(violation) {
  const [first] = factsOf(violation, "snapshot");
  return first && rowOfEvent(first.event);
}

// The text of the editor itself at a violation, and the row up to which its messages count.
function ownText(violation, row) {
  if (row.side === SNAPSHOT) {
    const set = rowOfVersion(row.document, row.version, row.index);
    return [contentOf(row), set ?? row];
  }
  if (isOfSave(violation)) {
    return [messageOf(row)?.params?.text, row];
  }
  const snapshot = snapshotOf(violation);
  return [snapshot && contentOf(snapshot), row];
}

// Both texts: [by the messages, the editor's own, who says so], or null.
function bothTexts(violation, row) {
  if (violation === session.violations[0] && session.texts) {
    return [linesOf(session.texts.messages), linesOf(session.texts.editor), "lspcheck"];
  }
  if (!hasText(row)) {
    return null;
  }
  const [own, until] = ownText(violation, row);
  const made = linesAfter(row.document, until.index, until === row && row.side === EDITOR);
  return made && typeof own === "string" ? [made, linesOf(own), "page"] : null;
}

function comparedPart(violation, row) {
  const texts = bothTexts(violation, row);
  if (!texts) {
    return element("p", "quiet", "This page does not have both texts.");
  }
  const own = isOfSave(violation) ? "Saved by the editor" : "In the editor";
  const said = texts[2] === "lspcheck" ? "Both texts are what lspcheck wrote; " :
    "The text on the left was worked out by this page, not by lspcheck; ";
  const left = texts[2] === "lspcheck" ? session.texts : null;
  return element("section", "texts",
    comparison(texts[0], texts[1], ["By the messages"], [own], texts[2], left),
    element("p", "quiet", said, "what differs is marked by this page."));
}

// Both texts side by side, or null if the violation is something else.
export function textsThatDiffer(violation, row) {
  if (!isDifference(violation)) {
    return null;
  }
  const isGiven = violation === session.violations[0] && session.texts;
  const needed = [...rowsOfText(row), snapshotOf(violation)].filter(Boolean);
  return whenLoaded(isGiven ? [] : needed, () => comparedPart(violation, row));
}
