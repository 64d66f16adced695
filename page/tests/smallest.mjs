// The lines of the smallest session that a page shows and copies, and which of their characters cannot
// be seen.

import { given, load, write } from "./scripts.mjs";

const { smallestLines } = await load("smallest.mjs", given());
const { ODD } = await load("visible.mjs");
const lines = smallestLines();
write({ lines, odd: [...lines.join("")].filter((it) => ODD.test(it)) });
