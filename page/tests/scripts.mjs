// Loads modules of the page that need no document, for tests that node runs.

import { readFileSync } from "node:fs";
import { deflateSync } from "node:zlib";

// The index of a page of no log.
const NOTHING = { blocks: 0, said: [{}], ending: [], rows: { event: [] }, violations: [], notes: [],
  documents: [], kinds: [], methods: [], client: {}, server: {}, sides: [0, 0, 0], exit: [],
  version: "", left: null };

const packed = (value) => deflateSync(JSON.stringify(value)).toString("base64");

// A module of the page; `blocks` are the data of a page as they are in it, by name.
export async function load(name, blocks = { session: packed(NOTHING) }) {
  globalThis.document ??= { getElementById: (id) => ({ textContent: blocks[id] }) };
  return import(`../../scripts/lsptools/page/js/${name}`);
}

export const given = () => JSON.parse(readFileSync(0, "utf8"));

export const write = (value) => process.stdout.write(JSON.stringify(value));
