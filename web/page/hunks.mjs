// Where two texts differ, as `diff` marks it, as lsptools/page/hunks.py makes it.

import { cut, visible } from "./wording.mjs";

const CONTEXT = 3, MOST_DIFFERING = 48, MOST_COMPARED = 1_000_000, MOST_BEFORE = 100_000;
const LONGEST = 160, BEFORE = 60;

/** How many characters two texts, or lists, have in common at their beginning. */
function lengthOfStart(some, other) {
  const most = Math.min(some.length, other.length);
  let at = 0;
  while (at < most && some[at] === other[at]) {
    at += 1;
  }
  return at;
}

function startOfContext(text, place) {
  let start = place === 0 ? 0 : text.lastIndexOf("\n", place - 1) + 1;
  for (let line = 0; line < CONTEXT; line += 1) {
    start = start < 2 ? 0 : text.lastIndexOf("\n", start - 2) + 1;
  }
  return Math.max(start, place - MOST_BEFORE);
}

function isEqual(some, other, first, second) {
  const [one, two] = [some.slice(first, first + CONTEXT), other.slice(second, second + CONTEXT)];
  return one.length === two.length && one.every((line, at) => line === two[at]);
}

/** How many lines of each differ from these on, until both are equal again: the fewest. */
function lengthsOfDifference(some, other, at, place) {
  for (let both = 1; both <= MOST_DIFFERING; both += 1) {
    for (let one = 0; one <= both; one += 1) {
      const first = at + one, second = place + both - one;
      if (first <= some.length && second <= other.length && isEqual(some, other, first, second)) {
        return [one, both - one];
      }
    }
  }
  const half = MOST_DIFFERING / 2;
  return [Math.min(half, some.length - at), Math.min(half, other.length - place)];
}

/** Both lists of lines in turn: equal runs and null, and those that differ; and whether it is the
 * last one. */
function* runs(some, other) {
  let at = 0, place = 0;
  while (true) {
    const most = Math.min(some.length - at, other.length - place);
    let equal = 0;
    while (equal < most && some[at + equal] === other[place + equal]) {
      equal += 1;
    }
    const isLast = at + equal === some.length && place + equal === other.length;
    yield [some.slice(at, at + equal), null, isLast];
    at += equal;
    place += equal;
    if (isLast) {
      return;
    }
    const [one, two] = lengthsOfDifference(some, other, at, place);
    yield [some.slice(at, at + one), other.slice(place, place + two), false];
    at += one;
    place += two;
  }
}

function clipped(line, start) {
  const characters = [...line.replace(/\n$/, "")].slice(start, start + LONGEST + 1);
  const rest = visible(characters.join(""), "\t");
  return `${start ? "…" : ""}${cut(rest, LONGEST)}`;
}

function equalLines(lines, isFirst, isLast) {
  if (isFirst || isLast) {
    const near = isFirst ? lines.slice(-CONTEXT) : lines.slice(0, CONTEXT);
    return near.map((it) => ` ${clipped(it, 0)}`);
  }
  const middle = lines.length - 2 * CONTEXT;
  if (middle <= 1) {
    return lines.map((it) => ` ${clipped(it, 0)}`);
  }
  return [...equalLines(lines, false, true), `@@ ${middle.toLocaleString("en")} equal lines @@`,
    ...equalLines(lines, true, false)];
}

function marked(sign, line, start) {
  return `${sign}${clipped(line, start)}${/[\r\n]$/.test(line) ? "" : " [the end of the text]"}`;
}

/** The lines of both that differ: in pairs if each has as many. */
function differingLines(some, other) {
  const first = some.length && other.length ? lengthOfStart([...some[0]], [...other[0]]) : 0;
  const isLong = [...some, ...other].some((it) => it.length > LONGEST && [...it].length > LONGEST);
  const start = isLong ? Math.max(first - BEFORE, 0) : 0;
  if (some.length !== other.length) {
    return [["-", some], ["+", other]].flatMap(([sign, lines]) =>
      lines.map((it) => marked(sign, it, start)));
  }
  return some.flatMap((one, at) => (one === other[at] ? [` ${clipped(one, start)}`] :
    [marked("-", one, start), marked("+", other[at], start)]));
}

/** The lines of the difference of two texts, and whether these are all. */
export function difference(some, other, most) {
  const start = startOfContext(some, lengthOfStart(some, other));
  const end = start + MOST_COMPARED, isWhole = end >= Math.max(some.length, other.length);
  const both = [some, other].map((it) =>
    it.slice(start, end).match(/[^\r\n]*(?:\r\n|\r|\n)|[^\r\n]+$/g) ?? []);
  const found = [];
  let isFirst = true;
  for (const [lines, others, isLast] of runs(...both)) {
    if (found.length > most) {
      return [found.slice(0, most), false];
    }
    if (others) {
      found.push(...differingLines(lines, others));
    } else if (lines.length) {
      found.push(...equalLines(lines, isFirst, isLast));
    }
    isFirst = false;
  }
  return [found.slice(0, most), isWhole && found.length <= most];
}
