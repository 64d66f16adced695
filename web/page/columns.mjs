// The line in which a change is wrong (605, 606), a row for each character, as
// lsptools/page/columns.py makes it.

import { printed } from "./wording.mjs";

const AROUND = 5, MOST_CHANGES = 50, MOST_OF_TEXT = 10_000_000;
const ENCODINGS = ["utf-8", "utf-16", "utf-32"];

function unitsOf(character, encoding) {
  const code = character.codePointAt(0);
  if (encoding === "utf-8") {
    return code < 0x80 ? 1 : code < 0x800 ? 2 : code < 0x10000 ? 3 : 4;
  }
  return encoding === "utf-16" && code > 0xffff ? 2 : 1;
}

/** Where a line begins and ends, without its line end; null if the text has fewer lines. */
function spanOf(text, number) {
  let start = 0, line = 0;
  for (const { 0: end, index } of text.matchAll(/\r\n|\r|\n/g)) {
    if (line === number) {
      return [start, index];
    }
    start = index + end.length;
    line += 1;
  }
  return line === number ? [start, text.length] : null;
}

function offsetOf(text, { line, character }, encoding) {
  const span = spanOf(text, line);
  if (!span) {
    return text.length;
  }
  let [place] = span, units = 0;
  while (place < span[1] && units < character) {
    const found = String.fromCodePoint(text.codePointAt(place));
    units += unitsOf(found, encoding);
    place += found.length;
  }
  return place;
}

function changed(text, { range, text: own }, encoding) {
  if (!range) {
    return own;
  }
  const [start, end] = [range.start, range.end].map((it) => offsetOf(text, it, encoding));
  return text.slice(0, start) + own + text.slice(end);
}

/** The text of which the change of this number is made, given that before its message; or null. */
export function textBefore(text, message, which, encoding) {
  const changes = which > 1 ? message?.params?.contentChanges ?? [] : [];
  const earlier = changes.slice(0, which - 1);
  const isLong = earlier.length > 0 && [...text].length > MOST_OF_TEXT;
  if (earlier.length < which - 1 || which > MOST_CHANGES || isLong) {
    return null;
  }
  return earlier.reduce((before, change) => changed(before, change, encoding), text);
}

/** The characters of a line, each with its columns; last its end, as an empty text. */
function cellsOf(line) {
  const columns = Object.fromEntries(ENCODINGS.map((it) => [it, 0]));
  const cells = [...line].map((character) => {
    const cell = [character, { ...columns }];
    ENCODINGS.forEach((it) => { columns[it] += unitsOf(character, it); });
    return cell;
  });
  return [...cells, ["", columns]];
}

function isInside(cells, column, encoding) {
  const columns = cells.map(([, of]) => of[encoding]);
  return column < columns.at(-1) && !columns.includes(column);
}

function shown(character) {
  if (character === "") {
    return "the end of the line";
  }
  return `"${/\p{M}/u.test(character) ? "◌" : ""}${printed(character)}"`;
}

function placeOf(text, change, encoding) {
  const ends = [[change.line, change.column], [change.end_line, change.end_column]];
  const found = ends.map(([line, column]) => [line, column, spanOf(text, line)])
    .filter(([, , span]) => span)
    .map(([line, column, span]) => [line, column, cellsOf(text.slice(...span))]);
  return found.find(([, column, cells]) => isInside(cells, column, encoding)) ?? found[0];
}

/** The number of the line from 0, and the lines of the table; or null. */
export function tableOf(text, change, encoding, fits) {
  const found = placeOf(text, change, encoding);
  if (!found) {
    return null;
  }
  const [line, column, cells] = found;
  const here = cells.findLastIndex(([, of]) => of[encoding] <= column);
  const others = ENCODINGS.filter((it) => fits.includes(it) && it !== encoding);
  const encodings = [encoding, ...others], wide = (it) => String(it).padStart(6);
  const rows = [encodings.map(wide).join("  ")];
  const end = Math.min(here + AROUND + 1, cells.length);
  for (let at = Math.max(here - AROUND, 0); at < end; at += 1) {
    const [character, columns] = cells[at], mark = at === here ? `  <- column ${column}` : "";
    const numbers = encodings.map((it) => wide(columns[it])).join("  ");
    rows.push(`${numbers}  ${shown(character)}${mark}`);
  }
  return [line, rows];
}
