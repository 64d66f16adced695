// The data of the page, which is compressed: the index, and blocks of the contents of events. A
// block is inflated when an event in it is looked at.

// The bytes of a block. Browsers decompress in pieces, so this waits.
export async function loaded(id) {
  const packed = atob(document.getElementById(id).textContent);
  const bytes = new Uint8Array(packed.length);
  for (let at = 0; at < packed.length; at += 1) {
    bytes[at] = packed.charCodeAt(at);
  }
  const unpacked = new Blob([bytes]).stream().pipeThrough(new DecompressionStream("deflate"));
  return new Uint8Array(await new Response(unpacked).arrayBuffer());
}

export const utf8 = new TextDecoder("utf-8", { fatal: true, ignoreBOM: true });

export const session = JSON.parse(utf8.decode(await loaded("session")));

// The blocks that were inflated, and all that are being inflated, by their numbers.
const blocks = [], inflating = [];

// What `explain` wrote first, and what `show --all` wrote about a damaged place, if there is one.
export const verdict = session.said[0], damage = session.ending.find((it) => it.is === "bad log");

export const EDITOR = 0, SERVER = 1, SNAPSHOT = 2;
export const SIDES = ["editor", "server", "snapshot"];

// The rows, with a member for each column of the index.
export const rows = session.rows.event.map((event, index) =>
  ({ event, index, violation: null, notes: [] }));
for (const [name, values] of Object.entries(session.rows)) {
  values.forEach((value, index) => {
    rows[index][name] = value;
  });
}
for (const row of rows) {
  row.kind = session.kinds[row.kind];
  row.method = session.methods[row.method];
  row.uri = session.documents[row.document];
}

// Finds where the content of each row begins in its block: there, they are one after the other.
function placeContents() {
  let filled = null, next = 0;
  for (const row of rows.filter((it) => it.block >= 0)) {
    row.start = row.block === filled ? next : 0;
    [filled, next] = [row.block, row.start + row.bytes];
  }
}

placeContents();

export const indexOfEvent = new Map(rows.map((row) => [row.event, row.index]));

export function rowOfEvent(event) {
  return rows[indexOfEvent.get(event)];
}

for (const violation of session.violations) {
  const row = rowOfEvent(violation.event);
  if (row) {
    row.violation = violation;
  }
}

for (const note of session.notes) {
  rowOfEvent(note.event)?.notes.push(note);
}

// Whether the content of a row can be read: its block was inflated, or the page doesn't have it.
export function isLoaded(row) {
  return row.block < 0 || blocks[row.block] !== undefined;
}

function inflate(number) {
  inflating[number] ??= loaded(`contents-${number}`).then((bytes) => { blocks[number] = bytes; });
  return inflating[number];
}

// Inflates what has the contents of these rows.
export async function load(needed) {
  const numbers = new Set(needed.filter((row) => !isLoaded(row)).map((row) => row.block));
  await Promise.all([...numbers].map(inflate));
}

// The contents of all rows of a block, which must be loaded, as one text.
export function textOfBlock(number) {
  return new TextDecoder("utf-8", { ignoreBOM: true }).decode(blocks[number]);
}

// All blocks, in order.
export async function allBlocks() {
  await Promise.all(Array.from({ length: session.blocks }, (_, number) => inflate(number)));
  return blocks;
}

// The bytes of a content, which must be loaded, or null if it was left out of the page.
export function bytesOf(row) {
  return row.block < 0 ? null : blocks[row.block].subarray(row.start, row.start + row.bytes);
}

// How many bytes at a place are a character in UTF-8, or 0.
function bytesOfCharacter(bytes, at) {
  const first = bytes[at], length = first < 0x80 ? 1 : first < 0xe0 ? 2 : first < 0xf0 ? 3 : 4;
  try {
    return length === 1 || utf8.decode(bytes.subarray(at, at + length)) ? length : 0;
  } catch {
    return 0;
  }
}

// The text of bytes. Each that is not UTF-8 is a lone surrogate in it.
function textOfBytes(bytes) {
  try {
    return utf8.decode(bytes);
  } catch {
    let text = "", from = 0;
    for (let at = 0; at < bytes.length;) {
      const length = bytesOfCharacter(bytes, at);
      if (length === 0) {
        text += utf8.decode(bytes.subarray(from, at)) + String.fromCharCode(0xdc00 + bytes[at]);
        from = at + 1;
      }
      at += Math.max(length, 1);
    }
    return text + utf8.decode(bytes.subarray(from));
  }
}

// The content of a row's event, or null if it was left out of the page.
export function contentOf(row) {
  const bytes = bytesOf(row);
  return bytes && textOfBytes(bytes);
}

// The JSON value of a row's message, or undefined.
export function messageOf(row) {
  try {
    return JSON.parse(contentOf(row)) ?? undefined;
  } catch {
    return undefined;
  }
}
