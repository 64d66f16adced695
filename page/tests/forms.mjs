// Writes for which objects the page has words, or shows them elsewhere.

import { load, write } from "./scripts.mjs";

const { ELSEWHERE, FACTS, NOTES } = await load("words.mjs");
write({ kinds: [...Object.keys(FACTS), ...ELSEWHERE], notes: Object.keys(NOTES) });
