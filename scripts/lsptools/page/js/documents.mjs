// The text of a document after any message, made by this page, and what happened to each document.

import { EDITOR, SNAPSHOT, contentOf, messageOf, rows, session } from "./data.mjs";
import { changed, linesOf } from "./texts.mjs";

export const SETS_TEXT = ["Open", "Change", "Close"].map((it) => `textDocument/did${it}`);
// How many changes are made before a text is kept, so that not all are made again for the next one.
const KEPT_EVERY = 400;

// For each document, the rows that open, change or close it, and all rows that name it.
export const settingRows = session.documents.map(() => []);
export const namingRows = session.documents.map(() => []);
for (const row of rows) {
  if (row.document >= 0) {
    namingRows[row.document].push(row);
    if (row.side === EDITOR && SETS_TEXT.includes(row.method)) {
      settingRows[row.document].push(row);
    }
  }
}

// Whether a message of the editor sets the text of the row's document.
export function hasText(row) {
  return row.document >= 0 && settingRows[row.document].length > 0;
}

const checkpoints = session.left ? session.left.checkpoints : [];
export const gaps = session.left ? session.left.gaps : [];
const keptTexts = new Map();

// The lines of a document after a row, given those before it: null if it is not open, undefined if
// this page does not have what is needed to tell.
function linesAfterRow(lines, row) {
  if (row.method === "textDocument/didClose") {
    return null;
  }
  try {
    return linesSetBy(messageOf(row)?.params, row.method, lines);
  } catch (fault) {
    // What breaks a rule may have any shape.
    if (row.violation) {
      return undefined;
    }
    throw fault;
  }
}

function linesSetBy(params, method, lines) {
  if (method === "textDocument/didOpen") {
    return params ? linesOf(params.textDocument.text) : undefined;
  }
  return (params?.contentChanges ?? [{}]).reduce((before, change) => {
    const canChange = change.text !== undefined && (before || !change.range);
    return canChange ? changed(before ?? [], change, session.encoding) : undefined;
  }, lines);
}

// The lines after a gap, as `lspcheck text --all` wrote them for this page.
function linesAfterGap(documentNumber, gap) {
  const found = checkpoints.find((it) => it.document === documentNumber && it.to === gap.to);
  return found && (found.text === null ? null : linesOf(found.text));
}

// The number of the editor's last message up to a row's event, 0 if there is none.
export function editorNumberAt(row) {
  const before = rows.slice(0, row.index + 1).findLast((it) => it.side === EDITOR);
  const gap = gapBetween(before?.event ?? 0, row.event);
  return gap ? gap.editor : before?.number ?? 0;
}

// The last gap between two events, or undefined.
function gapBetween(before, after) {
  return gaps.findLast((gap) => gap.from > before && gap.to < after);
}

// The lines of a document after all rows up to an index; those that break a rule are skipped, as
// `lspcheck text --all` does, but for the last if `isLastMade`.
export function linesAfter(documentNumber, index, isLastMade = false) {
  const setting = settingRows[documentNumber];
  const kept = keptTexts.get(documentNumber) ?? [];
  keptTexts.set(documentNumber, kept);
  const from = kept.findLast((it) => it.index <= index) ?? { at: 0, event: 0, lines: null };
  let lines = from.lines && [...from.lines], event = from.event, at = from.at;
  for (; at < setting.length && setting[at].index <= index; at += 1) {
    const row = setting[at];
    const gap = gapBetween(event, row.event);
    lines = gap ? linesAfterGap(documentNumber, gap) : lines;
    event = row.event;
    if (!row.violation || (isLastMade && row.index === index)) {
      lines = linesAfterRow(lines, row);
    }
    if (at % KEPT_EVERY === KEPT_EVERY - 1 && row.index < index && !kept.some((it) => it.at > at)) {
      kept.push({ at: at + 1, index: row.index, event, lines: lines && [...lines] });
    }
  }
  const gap = gapBetween(event, rows[index].event);
  return gap ? linesAfterGap(documentNumber, gap) : lines;
}

// The row of the message that set a version of a document, at or before an index.
export function rowOfVersion(documentNumber, version, index) {
  const isIt = (row) => row.version === version && row.index <= index && !row.violation;
  return settingRows[documentNumber].findLast(isIt);
}

// The rows that give a document a version: the messages that set one, and the snapshots.
export function versionRows(documentNumber) {
  return namingRows[documentNumber].filter((row) => row.version !== null &&
    (row.side === SNAPSHOT || (row.side === EDITOR && SETS_TEXT.includes(row.method))));
}

// The lines of the text that a row sets or shows, or null or undefined as for `linesAfter`.
export function linesOfVersion(row) {
  if (row.side !== SNAPSHOT) {
    return linesAfter(row.document, row.index, true);
  }
  const content = contentOf(row);
  return content === null ? undefined : linesOf(content);
}

// The rows whose contents are needed for the text that a row sets or shows, or that it is after.
export function rowsOfText(row) {
  return row.document < 0 ? [row] :
    [row, ...settingRows[row.document].filter((it) => it.index <= row.index)];
}
