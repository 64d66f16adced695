// How texts of a log are written where no box can be drawn around odd characters, and names, as
// lsptools/page/wording.py has it.

// How many marks may follow one character, and how long a name may be.
const MOST_MARKS = 3, LONGEST_NAME = 200;

function numbered(character) {
  return `[U+${character.codePointAt(0).toString(16).toUpperCase().padStart(4, "0")}]`;
}

/** A text with numbers for characters that are not printed, but for those that are kept. */
export function printed(text, kept = "") {
  return text.replace(/(?! )[\p{C}\p{Z}]/gu, (it) => (kept.includes(it) ? it : numbered(it)));
}

/** The same, also with numbers for marks of which too many follow one another. */
export function visible(text, kept = "") {
  let marks = 0;
  return [...text].map((it) => {
    marks = /\p{M}/u.test(it) ? marks + 1 : 0;
    return marks > MOST_MARKS ? numbered(it) : printed(it, kept);
  }).join("");
}

/** The beginning of a text, with a mark if something is left out. */
export function cut(text, most) {
  const characters = text.length <= most ? [] : [...text];
  return characters.length <= most ? text : `${characters.slice(0, most - 1).join("")}…`;
}

export function counted(number, noun) {
  return `${number.toLocaleString("en")} ${noun}${number === 1 ? "" : "s"}`;
}

/** A client or server: its name with the number in its version; or null. */
export function shortName({ name, version }) {
  if (!name) {
    return null;
  }
  const number = /[0-9]+(?:\.[0-9]+)+/.exec(version ?? "")?.[0] ?? version;
  return cut(visible([name, number].filter(Boolean).join(" ")), LONGEST_NAME);
}
