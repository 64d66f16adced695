// Characters that cannot be seen, or that change how others are seen, and what is shown for them.

const NAMES = {
  "\0": "NUL", "\t": "→", "\n": "LF", "\v": "VT", "\f": "FF", "\r": "CR", "\x1b": "ESC",
  "\x7f": "DEL", "\x85": "NEL", "\xa0": "NBSP", "\xad": "SHY",
  "\u200b": "ZWSP", "\u200c": "ZWNJ", "\u200d": "ZWJ", "\u200e": "LRM", "\u200f": "RLM",
  "\u2028": "LS", "\u2029": "PS", "\u202a": "LRE", "\u202b": "RLE", "\u202c": "PDF",
  "\u202d": "LRO", "\u202e": "RLO", "\u202f": "NNBSP", "\u2060": "WJ", "\u2066": "LRI",
  "\u2067": "RLI", "\u2068": "FSI", "\u2069": "PDI", "\ufeff": "BOM",
};

export const ODD = /[\p{Cc}\p{Cf}\p{Cs}\p{Co}\p{Zl}\p{Zp}]|(?! )\p{Zs}/u;
export const COMBINING = /\p{M}/u;
// More marks than this on one character are in a box, since they would be drawn over what is above
// them. Three are in use, as in Vietnamese and Hebrew.
const MOST_MARKS = 3;

export function codePoint(character) {
  return "U+" + character.codePointAt(0).toString(16).toUpperCase().padStart(4, "0");
}

// A byte that is not UTF-8 is a lone surrogate in the data.
export function escapedByte(character) {
  const code = character.codePointAt(0);
  return code >= 0xdc80 && code <= 0xdcff ? "\\x" + (code - 0xdc00).toString(16) : null;
}

// What is shown for a character, or null if it is shown as it is. With `all`, also for marks that
// belong to the character before them.
function shownFor(character, all) {
  if (COMBINING.test(character)) {
    return all ? "◌" + character : null;
  }
  if (character === "\u200d" && !all) {
    return null;
  }
  if (!ODD.test(character)) {
    return null;
  }
  return NAMES[character] ?? escapedByte(character) ?? codePoint(character);
}

// The text with names for odd characters, where no box can be.
export function namedText(text) {
  return piecesOf(text).map(([piece, shown]) => shown ?? piece).join("");
}

// The marks of a text that are too many on one character: for each place where such begin, the end.
function crowds(text) {
  const found = new Map();
  for (const { index, 0: marks } of text.matchAll(/\p{M}+/gu)) {
    const many = [...marks].slice(MOST_MARKS);
    if (many.length) {
      found.set(index + marks.length - many.join("").length, index + marks.length);
    }
  }
  return found;
}

// The text in pieces: [text, null] as it is, or [characters, what is shown for them]. With
// `isBroken`, an LF is left as it is, since it breaks the line where it is shown.
export function piecesOf(text, all = false, isBroken = false) {
  const pieces = [], crowded = crowds(text);
  let plain = "", at = 0;
  const add = (piece, shown) => {
    pieces.push(...(plain ? [[plain, null]] : []), [piece, shown]);
    plain = "";
  };
  while (at < text.length) {
    const character = String.fromCodePoint(text.codePointAt(at)), end = crowded.get(at);
    const isKept = isBroken && character === "\n";
    const shown = isKept ? null : shownFor(character, all);
    if (end) {
      add(text.slice(at, end), `◌×${[...text.slice(at, end)].length}`);
    } else if (shown === null) {
      plain += character;
    } else {
      add(character, shown);
    }
    at = end ?? at + character.length;
  }
  return plain ? [...pieces, [plain, null]] : pieces;
}
