// Writes the content of each event as a page reads it, and what it says about it in one line.

import { given, load, write } from "./scripts.mjs";

const blocks = given();
const { contentOf, load: inflate, rows } = await load("data.mjs", blocks);
const { summaryOf } = await load("summaries.mjs");
await inflate(rows);
write(rows.map((row) => ({ event: row.event, side: row.side, method: row.method ?? null,
  content: contentOf(row), summary: summaryOf(row) })));
