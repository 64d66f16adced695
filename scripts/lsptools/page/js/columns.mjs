// The line in which a range is wrong, one character a cell, with the column of each.

import { messageOf, session } from "./data.mjs";
import { hasText, linesAfter } from "./documents.mjs";
import { factsOf } from "./facts.mjs";
import { element, source, visibleText } from "./nodes.mjs";
import { changed, lineEndOf, unitsOf } from "./texts.mjs";

const AROUND = 14;
// A line with more characters has no table.
const LONGEST_LINE = 200000;
const ENCODINGS = ["utf-8", "utf-16", "utf-32"];

// The lines before a change of a message, of which the earlier changes were made; undefined if this
// page cannot make them.
function linesBeforeChange(row, which) {
  const lines = row.index > 0 && hasText(row) ? linesAfter(row.document, row.index - 1) : undefined;
  const changes = messageOf(row)?.params?.contentChanges;
  if (!lines || !Array.isArray(changes)) {
    return undefined;
  }
  const earlier = changes.slice(0, which - 1);
  return earlier.reduce((made, change) => changed(made, change, session.encoding), lines);
}

// The characters of a line, each with its column in every encoding; last the line's end.
function columnsOf(line) {
  const columns = Object.fromEntries(ENCODINGS.map((encoding) => [encoding, 0]));
  const cells = [];
  for (const character of line.slice(0, line.length - lineEndOf(line))) {
    cells.push({ character, columns: { ...columns } });
    ENCODINGS.forEach((encoding) => { columns[encoding] += unitsOf(character, encoding); });
  }
  cells.push({ character: line.slice(line.length - lineEndOf(line)), columns: { ...columns } });
  return cells;
}

// The cell that a column of an encoding is in, the last one if it is past the end.
function cellAt(cells, column, encoding) {
  const after = cells.findIndex((cell) => cell.columns[encoding] > column);
  return after < 0 ? cells.length - 1 : after - 1;
}

// The mark of a position under its character: at its left edge, or inside it.
function positionMark(cell, column) {
  const isInside = column > cell.columns[session.encoding];
  return element("td", `is-here ${isInside ? "is-inside" : ""}`, `▲ ${column + 1}`,
    isInside ? element("span", "inside-word", " inside") : null);
}

// A line with the column of each character, counted from 1, and the positions of the message in it.
function columnsTable(cells, columns, encodings) {
  // Of two positions at one character, the one inside it is the wrong one.
  const sorted = [...columns].sort((one, other) => one - other);
  const places = new Map(sorted.map((it) => [cellAt(cells, it, session.encoding), it]));
  const first = Math.max(Math.min(...places.keys()) - AROUND, 0);
  const shown = cells.slice(first, Math.max(...places.keys()) + AROUND + 1);
  const mark = (at) => (places.has(first + at) ? "is-here" : "");
  const characters = shown.map((cell, at) =>
    element("td", mark(at), visibleText(cell.character, true)));
  const rowOf = (encoding) => element("tr", encoding === session.encoding ? "agreed" : "",
    element("th", "", encoding.toUpperCase()),
    ...shown.map((cell, at) => element("td", mark(at), String(cell.columns[encoding] + 1))));
  const positions = shown.map((cell, at) => (places.has(first + at) ?
    positionMark(cell, places.get(first + at)) : element("td", "")));
  return element("table", "columns-table",
    element("tr", "characters", element("th", "", first > 0 ? "…" : ""), ...characters),
    ...encodings.map(rowOf),
    element("tr", "positions", element("th", "", "the message"), ...positions));
}

// Whether a column is inside a character of a line.
function isInside(line, column) {
  const columns = columnsOf(line).map((cell) => cell.columns[session.encoding]);
  return column < columns.at(-1) && !columns.includes(column);
}

// The range that an explanation is about; undefined if there is none, or if ranges are not agreed.
export function rangeOf(violation) {
  const [change] = factsOf(violation, "change");
  return factsOf(violation, "sync").length || change?.whole ? undefined : change;
}

// The line of the first wrong position of a range, or null.
export function columnsPart(violation, row) {
  const range = rangeOf(violation), lines = range && linesBeforeChange(row, range.which);
  if (!lines) {
    return null;
  }
  const ends = [[range.line, range.column], [range.end_line, range.end_column]];
  const places = ends.filter(([line]) => lines[line]?.length <= LONGEST_LINE);
  if (places.length === 0) {
    return null;
  }
  const isWrong = ([line, column]) => isInside(lines[line], column);
  const [line, column] = places.find(isWrong) ?? places[0];
  const columns = places.filter((it) => it[0] === line).map((it) => it[1]);
  const cells = columnsOf(lines[line]);
  const fits = factsOf(violation, "fits")[0]?.names ?? [];
  const encodings = ENCODINGS.filter((it) => it === session.encoding || fits.includes(it));
  return element("section", "line-columns",
    element("h3", "", `Line ${line + 1} before this change `, source("page")),
    columnsTable(cells, columns, encodings),
    element("p", "quiet", `The message has line ${line} and character ${column}, in ` +
      `${session.encoding}: it counts both from 0, and this page from 1.`));
}
