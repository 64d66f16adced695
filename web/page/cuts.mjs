// Which events of a long log the page shows: those around its violations, as lsptools/page/cuts.py
// chooses them.

import { EDITOR } from "./listing.mjs";

export const MOST_EVENTS = 20_000, MOST_BYTES = 50_000_000;
// The first events of a session, which agree on the encoding and open documents, are always shown.
const HEAD = 40;
// How many texts lspcheck is asked for, so that the page can make those after a gap.
const MOST_CHECKPOINTS = 12;

/** The choice for a log that is not too long. */
export const EVERYTHING = { isShown: () => true, isWhole: () => true };

/** Whether a URI can be an argument of the program. */
export function canName(uri) {
  return !uri.startsWith("-") && !uri.includes("\0");
}

/** The spans of events, in order, with those that touch as one. */
function union(spans) {
  const joined = [];
  for (const [first, last] of spans.sort(([a, b], [c, d]) => a - c || b - d)) {
    const before = joined.at(-1);
    if (before && first <= before[1] + 1) {
      before[1] = Math.max(before[1], last);
    } else {
      joined.push([first, last]);
    }
  }
  return joined;
}

function spansAround(centres, radius, single, events) {
  const around = centres.map((it) => [Math.max(it - radius, 1), Math.min(it + radius, events)]);
  return union([...around, ...[...single].map((it) => [it, it]), [1, Math.min(HEAD, events)]]);
}

const sizeOf = (spans) => spans.reduce((sum, [first, last]) => sum + last - first + 1, 0);

/** The events that the explanations of violations name. */
function eventsOf(violations) {
  const facts = violations.flatMap((it) => it.facts);
  return new Set(facts.filter((it) => "event" in it && it.is !== "end").map((it) => it.event));
}

const byNumber = (a, b) => a - b;

export class Around {
  constructor(listing, size) {
    const { events } = listing;
    const ofBytes = Math.floor(MOST_BYTES * events / Math.max(size, 1));
    this.most = Math.max(Math.min(MOST_EVENTS, ofBytes), 4);
    const quarter = Math.floor(this.most / 4), explained = listing.violations.slice(0, quarter);
    const centres = explained.map((it) => Math.min(it.event, events));
    centres.push(...(centres.length ? [] : [1, events]));
    const named = [...eventsOf(explained)].sort(byNumber).slice(0, quarter);
    this.single = new Set([...named, ...centres]);
    this.spans = this.widest(centres, events);
    this.starts = this.spans.map(([first]) => first);
    Object.assign(this, { events, editor: 0, before: new Map(), unwhole: 0, bytes: 0, span: 0 });
    this.where = explained.length ? "around the violations" : "at the beginning and the end";
  }

  widest(centres, events) {
    let low = 0, high = events;
    while (low < high) {
      const middle = Math.floor((low + high + 1) / 2);
      if (sizeOf(spansAround(centres, middle, this.single, events)) <= this.most) {
        low = middle;
      } else {
        high = middle - 1;
      }
    }
    return spansAround(centres, low, this.single, events);
  }

  /** The span of an event, or the last one before it. */
  spanOf(event) {
    let [low, high] = [-1, this.starts.length - 1];
    while (low < high) {
      const middle = Math.ceil((low + high) / 2);
      [low, high] = this.starts[middle] <= event ? [middle, high] : [low, middle - 1];
    }
    return low;
  }

  isShown(event) {
    const place = this.spanOf(event.event);
    if (place >= 0 && this.starts[place] === event.event) {
      this.before.set(event.event, this.editor);
    }
    if (event.side === EDITOR) {
      this.editor = event.number;
    }
    return place >= 0 && event.event <= this.spans[place][1];
  }

  /** Whether the content of an event that is shown is in the page too. */
  isWhole(event, content) {
    const size = content.length;
    const most = this.single.has(event.event) ? MOST_BYTES : Math.floor(MOST_BYTES / 50);
    if (size > most || this.bytes + size > 2 * MOST_BYTES) {
      this.unwhole += 1;
      return false;
    }
    this.bytes += size;
    return true;
  }

  /** What is left out, each gap with the number of the editor's last message up to its end. */
  gaps() {
    const ends = [0, ...this.spans.map(([, last]) => last)];
    const starts = [...this.starts, this.events + 1];
    return ends.map((end, at) => ({ from: end + 1, to: starts[at] - 1,
      editor: this.before.get(starts[at]) ?? this.editor })).filter(({ from, to }) => from <= to);
  }

  /** The texts that are asked for: where a gap ends, of the documents that are changed after it. */
  wanted(session, firstViolation) {
    const { event, side, document } = session.columns, needed = new Map();
    for (let row = 0; row < event.length; row += 1) {
      const [first, last] = side[row] === EDITOR ? this.spans[this.spanOf(event[row])] : [1];
      if (first > 1 && document[row] >= 0) {
        const isFar = !(first <= firstViolation && firstViolation <= last);
        needed.set(`${first} ${document[row]}`, [Number(isFar), first, document[row]]);
      }
    }
    const uris = [...session.documents.numbers.keys()];
    return [...needed.values()].sort((a, b) => a[0] - b[0] || a[1] - b[1] || a[2] - b[2])
      .filter(([, , at]) => canName(uris[at]))
      .slice(0, MOST_CHECKPOINTS)
      .map(([, first, document]) =>
        ({ first, document, uri: uris[document], message: this.before.get(first) }));
  }

  said(shown) {
    const number = (it) => it.toLocaleString("en");
    const lines = [`The log has ${number(this.events)} events. This page shows ${number(shown)}: ` +
      `those ${this.where}.`];
    return this.unwhole ? [...lines, `It leaves out ${number(this.unwhole)} contents.`] : lines;
  }
}
