// Texts of documents, made from the editor's messages by this page: LSP 3.17, "Position" and
// "Text Document Synchronization". What lspcheck proves is not used here.

// The lines of a text, each with its line end: CR LF, LF or CR. The last one has none.
export function linesOf(text) {
  const lines = [];
  let start = 0;
  for (const found of text.matchAll(/\r\n|\r|\n/g)) {
    const end = found.index + found[0].length;
    lines.push(text.slice(start, end));
    start = end;
  }
  lines.push(text.slice(start));
  return lines;
}

export function lineEndOf(line) {
  return line.endsWith("\r\n") ? 2 : /[\r\n]$/.test(line) ? 1 : 0;
}

export function unitsOf(character, encoding) {
  const code = character.codePointAt(0);
  if (encoding === "utf-32") {
    return 1;
  }
  if (encoding === "utf-16") {
    return code > 0xffff ? 2 : 1;
  }
  return code < 0x80 ? 1 : code < 0x800 ? 2 : code < 0x10000 ? 3 : 4;
}

// Where a column of a line is, as an index into the string. Past the end it is before the line end.
function indexInLine(line, column, encoding) {
  const end = line.length - lineEndOf(line);
  if (encoding === "utf-16") {
    return Math.min(column, end);
  }
  let index = 0, units = 0;
  while (index < end && units < column) {
    const character = String.fromCodePoint(line.codePointAt(index));
    units += unitsOf(character, encoding);
    index += character.length;
  }
  return index;
}

// Where a position is: its line, and the index in it. A line past the last one is the text's end.
function placeOf(lines, position, encoding) {
  const last = lines.length - 1;
  if (position.line > last) {
    return { line: last, index: lines[last].length };
  }
  const index = indexInLine(lines[position.line], position.character, encoding);
  return { line: position.line, index };
}

// A list with other items in place of some of its own.
function replaced(list, first, count, items) {
  if (items.length < 10000) {
    list.splice(first, count, ...items);
    return list;
  }
  return list.slice(0, first).concat(items, list.slice(first + count));
}

// The lines after one change. A CR before the change and an LF in it become one line end.
export function changed(lines, change, encoding) {
  if (!change.range) {
    return linesOf(change.text);
  }
  const start = placeOf(lines, change.range.start, encoding);
  const end = placeOf(lines, change.range.end, encoding);
  const first = Math.max(start.line - 1, 0);
  const before = first < start.line ? lines[first] : "";
  const made = linesOf(before + lines[start.line].slice(0, start.index) + change.text +
    lines[end.line].slice(end.index));
  // What was made ends with a line end, unless it is the end of the text.
  if (end.line < lines.length - 1) {
    made.pop();
  }
  return replaced(lines, first, end.line + 1 - first, made);
}
