// The versions of a document, and what differs between two of them.

import { comparison } from "./comparison.mjs";
import { SNAPSHOT } from "./data.mjs";
import { linesOfVersion, rowsOfText, versionRows } from "./documents.mjs";
import { element, folded, source, whenLoaded } from "./nodes.mjs";

const SHORT = { "textDocument/didOpen": "open", "textDocument/didClose": "close",
  "textDocument/didSave": "save", "textDocument/didChange": "change" };

export function versionLabel(row) {
  const what = row.side === SNAPSHOT ? "snapshot" : SHORT[row.method];
  return `version ${row.version}, ${what}, event ${row.event}`;
}

// A choice of two versions or snapshots of a document, and what differs between them; first the one
// that is given, or the last, and the one before it.
export function versionsPart(documentNumber, chosen = null) {
  const found = versionRows(documentNumber);
  return found.length < 2 ? null :
    folded("Compare two versions", () => versionChoice(found, chosen ?? found[found.length - 1]));
}

function versionChoice(found, chosen) {
  const choices = ["first text", "second text"].map((label) => {
    const made = element("select", "version-choice",
      ...found.map((row) => element("option", "", versionLabel(row))));
    made.setAttribute("aria-label", label);
    made.addEventListener("change", () => show());
    return made;
  });
  const result = element("div", "version-result");
  const compared = () => {
    const shown = choices.map((it) => found[it.selectedIndex]), texts = shown.map(linesOfVersion);
    const labels = shown.map((row) => [versionLabel(row), " ",
      source(row.side === SNAPSHOT ? "lspcheck" : "page")]);
    return texts.every(Boolean) ? comparison(...texts, ...labels, "page") :
      element("p", "quiet", "This page does not have both texts.");
  };
  const show = () => {
    const needed = choices.flatMap((it) => rowsOfText(found[it.selectedIndex]));
    result.replaceChildren(whenLoaded(needed, compared));
  };
  const second = Math.max(found.indexOf(chosen), 1);
  choices[0].selectedIndex = second - 1;
  choices[1].selectedIndex = second;
  show();
  return element("div", "versions",
    element("p", "choices", choices[0], " with ", choices[1]), result);
}
