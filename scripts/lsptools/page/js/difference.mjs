// Where two lists differ (Myers, "An O(ND) Difference Algorithm and Its Variations", 1986).

const MOST_STEPS = 800;

// The runs in which two lists differ: [start and end in a, start and end in b]. Between two runs
// both are equal. If they differ in more than MOST_STEPS items, all between the ends is one run.
export function differences(a, b) {
  let start = 0, endA = a.length, endB = b.length;
  while (start < endA && start < endB && a[start] === b[start]) {
    start += 1;
  }
  while (endA > start && endB > start && a[endA - 1] === b[endB - 1]) {
    endA -= 1;
    endB -= 1;
  }
  if (start === endA && start === endB) {
    return [];
  }
  const runs = start === endA || start === endB ? null :
    shortestRuns(a.slice(start, endA), b.slice(start, endB));
  if (!runs) {
    return [[start, endA, start, endB]];
  }
  return runs.map((run) => run.map((place) => place + start));
}

// How far each diagonal is reached with each number of steps, or null if there are too many.
function furthestPlaces(a, b) {
  const most = Math.min(MOST_STEPS, a.length + b.length);
  const furthest = new Int32Array(2 * most + 3), middle = most + 1;
  const trace = [];
  for (let steps = 0; steps <= most; steps += 1) {
    trace.push(furthest.slice(middle - steps - 1, middle + steps + 2));
    for (let diagonal = -steps; diagonal <= steps; diagonal += 2) {
      const above = furthest[middle + diagonal + 1], left = furthest[middle + diagonal - 1];
      const isDown = diagonal === -steps || (diagonal !== steps && left < above);
      let x = isDown ? above : left + 1;
      while (x < a.length && x - diagonal < b.length && a[x] === b[x - diagonal]) {
        x += 1;
      }
      furthest[middle + diagonal] = x;
      if (x >= a.length && x - diagonal >= b.length) {
        return trace;
      }
    }
  }
  return null;
}

// The runs of a shortest edit, or null if it has too many steps.
function shortestRuns(a, b) {
  const trace = furthestPlaces(a, b);
  if (!trace) {
    return null;
  }
  const runs = [];
  let x = a.length, y = b.length;
  for (let steps = trace.length - 1; steps > 0; steps -= 1) {
    const furthest = trace[steps], middle = steps + 1, diagonal = x - y;
    const above = furthest[middle + diagonal + 1], left = furthest[middle + diagonal - 1];
    const isDown = diagonal === -steps || (diagonal !== steps && left < above);
    const fromX = isDown ? above : left;
    const fromY = fromX - (isDown ? diagonal + 1 : diagonal - 1);
    const toX = isDown ? fromX : fromX + 1, toY = isDown ? fromY + 1 : fromY;
    addRun(runs, [fromX, toX, fromY, toY]);
    x = fromX;
    y = fromY;
  }
  return runs;
}

// Puts a step before the runs that were found so far, and joins it with the first if they touch.
function addRun(runs, step) {
  const first = runs[0];
  if (first && first[0] === step[1] && first[2] === step[3]) {
    first[0] = step[0];
    first[2] = step[2];
  } else {
    runs.unshift(step);
  }
}

// Joins runs with fewer than this many equal items between them, if there are many runs: a text
// that differs almost everywhere is easier to read as one difference.
function joinedRuns(runs, between = 3, many = 2) {
  if (runs.length <= many) {
    return runs;
  }
  const joined = [];
  for (const run of runs) {
    const last = joined[joined.length - 1];
    if (last && run[0] - last[1] < between) {
      last[1] = run[1];
      last[3] = run[3];
    } else {
      joined.push([...run]);
    }
  }
  return joined;
}

// A line in pieces: [text, whether it differs], by the runs of one side.
function markedLine(characters, spans) {
  const pieces = [];
  let at = 0;
  for (const [start, end] of spans.filter(([from, to]) => from < to)) {
    pieces.push([characters.slice(at, start).join(""), false]);
    pieces.push([characters.slice(start, end).join(""), true]);
    at = end;
  }
  pieces.push([characters.slice(at).join(""), false]);
  return pieces.filter(([text]) => text);
}

// Both of two lines in pieces. Either may be missing: null.
export function markedPair(a, b) {
  if (a === null || b === null) {
    return [a === null ? null : [[a, true]], b === null ? null : [[b, true]]];
  }
  const charactersA = Array.from(a), charactersB = Array.from(b);
  const runs = joinedRuns(differences(charactersA, charactersB));
  return [
    markedLine(charactersA, runs.map((run) => [run[0], run[1]])),
    markedLine(charactersB, runs.map((run) => [run[2], run[3]])),
  ];
}

const CONTEXT = 3;

// Two texts as lists of lines, compared. An item is { pair, lineA, lineB, isEqual } with a line of
// each (null if there is none) and their numbers from 0, or { skipped, lineA, lineB }: this many
// equal lines from these on are not shown.
export function comparedTexts(linesA, linesB) {
  const items = [];
  let at = 0, shift = 0;
  const addEqual = (from, to) => {
    for (let line = from; line < to; line += 1) {
      const pair = [linesA[line], linesB[line + shift]];
      items.push({ pair, lineA: line, lineB: line + shift, isEqual: true });
    }
  };
  const addSkipped = (from, to) => {
    const until = Math.min(items.length ? from + CONTEXT : from, to);
    const again = to === linesA.length ? to : Math.max(to - CONTEXT, until);
    addEqual(from, until);
    if (again > until) {
      items.push({ skipped: again - until, lineA: until, lineB: until + shift });
    }
    addEqual(again, to);
  };
  for (const [startA, endA, startB, endB] of differences(linesA, linesB)) {
    addSkipped(at, startA);
    differingLines(linesA.slice(startA, endA), linesB.slice(startB, endB)).forEach((pair, line) => {
      items.push({ pair, lineA: startA + line, lineB: startB + line, isEqual: false });
    });
    at = endA;
    shift = endB - endA;
  }
  addSkipped(at, linesA.length);
  return items;
}

// The lines of a run side by side. An empty line that only one side has is the end of its text.
function differingLines(a, b) {
  const pairs = [];
  for (let line = 0; line < Math.max(a.length, b.length); line += 1) {
    const pair = [a[line] ?? null, b[line] ?? null];
    if (pair[0] || pair[1]) {
      pairs.push(pair);
    }
  }
  return pairs;
}
