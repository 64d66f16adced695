// What is searched for: which contents may have it, and where it is in what is shown.

// The words that summaries of messages have of their own, and not from the message.
const OWN_WORDS = "null true false undefined whole text characters deleted no changes offers sync "
  + "encoding utf-8 utf-16 utf-32 none full incremental diagnostics error warning info log debug "
  + "request items incomplete bytes with its left out of this page to change item byte character "
  + "diagnostic";
const RUNS = /[\p{L}\p{M}\p{N}]+/gu;
const ESCAPES = { n: "\n", r: "\r", t: "\t", b: "\b", f: "\f" };

function unescaped(_, code, character) {
  return code ? String.fromCharCode(parseInt(code, 16)) : ESCAPES[character] ?? character;
}

// A JSON text without its escapes.
function withoutEscapes(text) {
  return text.includes("\\") ? text.replace(/\\(?:u([0-9a-f]{4})|(.))/gis, unescaped) : text;
}

// A word that is searched for, in lower case. Its runs of letters and digits are in what has it,
// unless the page itself writes them.
export class Word {
  constructor(text) {
    this.text = text;
    this.isPlain = /^[a-z0-9_.:$-]*$/.test(text);
    this.runs = (text.match(RUNS) ?? [])
      .filter((it) => !/^\d+$/.test(it) && !OWN_WORDS.includes(it));
  }

  // Whether a row with this content may show it; `lower` is the content in lower case, or that of
  // many rows.
  mayBeIn(lower) {
    return this.runs.every((it) => lower.includes(it)) ||
      (!this.isPlain && lower.includes("\\u") && this.mayBeIn(withoutEscapes(lower)));
  }
}

// What a message says; if a word may need that, without the escapes of JSON.
export function saidBy(content, words) {
  return words.every((it) => it.isPlain) ? content : withoutEscapes(content);
}

// The words around a place of a text, which was found in it in lower case.
export function excerptOf(said, lower, at, length, around = 30) {
  // Some characters are longer in lower case, so that places differ.
  const text = said.length === lower.length ? said : lower;
  const from = Math.max(at - around, 0);
  return `… ${text.slice(from, at + length + around).replace(/\s+/g, " ")} …`;
}

// Where words are in a text: pairs of a start and an end, in order, joined where they overlap.
function placesIn(text, words) {
  const places = [];
  for (const word of words.filter(Boolean)) {
    for (let at = text.indexOf(word); at >= 0; at = text.indexOf(word, at + word.length)) {
      places.push([at, at + word.length]);
    }
  }
  const joined = [];
  for (const place of places.sort((one, other) => one[0] - other[0])) {
    const last = joined.at(-1);
    if (last && place[0] <= last[1]) {
      last[1] = Math.max(last[1], place[1]);
    } else {
      joined.push(place);
    }
  }
  return joined;
}

function textNodesOf(node) {
  const walker = document.createTreeWalker(node, NodeFilter.SHOW_TEXT), found = [];
  while (walker.nextNode()) {
    found.push(walker.currentNode);
  }
  return found;
}

// Marks a part of a text node. Returns the node of the text after it.
function markPart(node, start, end) {
  const marked = node.splitText(start), rest = marked.splitText(end - start);
  const made = document.createElement("mark");
  made.className = "found-word";
  marked.replaceWith(made);
  made.append(marked);
  return rest;
}

// Marks words, given in lower case, in what a node shows, also across several parts of it.
export function markWords(node, words) {
  const nodes = textNodesOf(node), whole = nodes.map((it) => it.data).join("");
  const lower = whole.toLowerCase();
  const places = lower.length === whole.length ? placesIn(lower, words) : [];
  let from = 0;
  for (const text of nodes) {
    const until = from + text.data.length;
    let rest = text, at = from;
    for (const [start, end] of places.filter((it) => it[0] < until && it[1] > from)) {
      const [first, last] = [Math.max(start, from), Math.min(end, until)];
      rest = markPart(rest, first - at, last - at);
      at = last;
    }
    from = until;
  }
}
