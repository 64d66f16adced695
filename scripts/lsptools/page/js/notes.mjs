// Lists of notes.

import { count, element, folded } from "./nodes.mjs";
import { noteInWords } from "./words.mjs";

const MOST_NOTES = 60;

// Notes in words. Of very many, the rest is shown on demand.
export function notesList(notes) {
  const item = (it) => element("li", "", ...noteInWords(it)), rest = notes.slice(MOST_NOTES);
  return element("ul", "notes", ...notes.slice(0, MOST_NOTES).map(item),
    rest.length === 0 ? null :
      folded(count(rest.length, "more note"), () => element("div", "", ...rest.map(item))));
}

// A note in words, as a text.
export function wordsOfNote(note) {
  return element("span", "", ...noteInWords(note)).textContent;
}
