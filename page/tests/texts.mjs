// Writes the text of each document after each message of the editor, as the page makes it.

import { given, load, write } from "./scripts.mjs";

const { load: inflate, rows, session } = await load("data.mjs", given());
const { linesAfter, settingRows } = await load("documents.mjs");

const found = new Map();
await inflate(rows);

function note(row, uri, number) {
  const lines = linesAfter(number, row.index), key = `${row.event} ${uri}`;
  const text = lines ? lines.join("") : null;
  if (found.has(key) && found.get(key).text !== text) {
    throw new Error(`event ${row.event}: another text the second time`);
  }
  found.set(key, { event: row.event, number: row.number, uri, text });
}

// Also backwards, since texts that were made before are kept.
for (const row of [...rows, ...rows.slice().reverse()].filter((it) => it.side === 0)) {
  session.documents.forEach((uri, number) => {
    if (settingRows[number].length) {
      note(row, uri, number);
    }
  });
}
write([...found.values()]);
