// The rows of the two lanes: what is in each, and how it is drawn.

import {
  EDITOR, SERVER, SIDES, SNAPSHOT, damage, indexOfEvent, isLoaded, rowOfEvent, rows, session,
} from "./data.mjs";
import { gaps } from "./documents.mjs";
import { factsOf } from "./facts.mjs";
import { baseName, button, count, element, labelled, visibleText } from "./nodes.mjs";
import { wordsOfNote } from "./notes.mjs";
import { statusOf } from "./snapshots.mjs";
import { summaryOf } from "./summaries.mjs";
import { endOfServer, placeOfDamage } from "./verdict.mjs";
import { namedText } from "./visible.mjs";

const SPINE = 132, TRACKS = 6;

// The rows of the lanes: those of events, of gaps where a long log was cut, and of the end.
function laneItems() {
  const items = [];
  let next = 0;
  for (const gap of gaps) {
    while (next < rows.length && rows[next].event < gap.from) {
      items.push(rows[next]);
      next += 1;
    }
    items.push({ kind: "gap", gap });
  }
  for (; next < rows.length; next += 1) {
    items.push(rows[next]);
  }
  items.push({ kind: "end" });
  return items;
}

export const allItems = laneItems();

// The request whose line ends at an event: at its answer, or at its cancel if it has no answer.
const endingAt = new Map();

function endOf(request) {
  return [request.partner, request.cancel].find((event) => indexOfEvent.has(event));
}

// Draws each request as a line from its row to that of its answer: finds a free track for each.
function layTracks() {
  const free = [EDITOR, SERVER].map(() => Array.from({ length: TRACKS }, (_, track) => track));
  const active = [new Set(), new Set()];
  for (const item of allItems) {
    item.passing = active.map((tracks) => [...tracks]);
    const ending = endingAt.get(item.event);
    if (ending) {
      active[ending.side].delete(ending.track);
      free[ending.side].push(ending.track);
      free[ending.side].sort();
    }
    const end = item.kind === "request" ? endOf(item) : undefined;
    if (end !== undefined && free[item.side].length) {
      item.track = free[item.side].shift();
      active[item.side].add(item.track);
      endingAt.set(end, item);
    }
  }
}

layTracks();

function xOfTrack(side, track) {
  return side === EDITOR ? 40 - track * 6 : SPINE - 40 + track * 6;
}

function svg(tag, attributes) {
  const made = document.createElementNS("http://www.w3.org/2000/svg", tag);
  for (const [name, value] of Object.entries(attributes)) {
    made.setAttribute(name, value);
  }
  return made;
}

function linesOfSpine(item, height) {
  const middle = height / 2, lines = [], ending = endingAt.get(item.event);
  item.passing.forEach((tracks, side) => tracks.forEach((track) => {
    const ends = ending && ending.side === side && ending.track === track;
    lines.push([`M${xOfTrack(side, track)} 0V${ends ? middle : height}`, `track-${SIDES[side]}`]);
  }));
  if (item.track !== undefined) {
    const x = xOfTrack(item.side, item.track);
    lines.push([`M${x} ${middle}V${height}`, `track-${SIDES[item.side]}`]);
  }
  const cancelled = item.kind === "notification" && item.partner ? rowOfEvent(item.partner) : null;
  if (cancelled && cancelled.track !== undefined) {
    const x = xOfTrack(cancelled.side, cancelled.track);
    lines.push([`M${x - 4} ${middle - 4}l8 8m0 -8l-8 8`, `track-${SIDES[cancelled.side]}`]);
  }
  return lines;
}

// The middle of a row: the number, an arrow from one side to the other, and the tracks.
function spine(item, height) {
  const drawn = svg("svg", { width: SPINE, height, class: "spine-lines", "aria-hidden": "true" });
  for (const [path, classes] of linesOfSpine(item, height)) {
    drawn.append(svg("path", { d: path, class: classes }));
  }
  const middle = height / 2;
  if (item.side === EDITOR) {
    const d = `M2 ${middle}H${SPINE - 4}m-5 -4l5 4l-5 4`;
    drawn.append(svg("path", { d, class: "arrow" }));
  } else if (item.side === SERVER) {
    const d = `M${SPINE - 2} ${middle}H4m5 -4l-5 4l5 4`;
    drawn.append(svg("path", { d, class: "arrow" }));
  }
  return element("div", "spine", drawn, element("span", "number", String(item.event)));
}

function methodName(method) {
  const at = method.lastIndexOf("/") + 1;
  const name = element("span", "method", visibleText(method.slice(at)));
  return at === 0 ? [name] : [element("span", "quiet", visibleText(method.slice(0, at))), name];
}

function nameOf(row) {
  if (row.side === SNAPSHOT) {
    return [element("span", "tag tag-snapshot", "snapshot")];
  }
  if (row.kind === "result" || row.kind === "error") {
    const asked = row.method ? methodName(row.method) : [];
    return [element("span", `tag tag-${row.kind}`, row.kind), " ", ...asked];
  }
  if (row.method === undefined) {
    const said = row.kind === "unreadable" ? "cannot be read" : row.kind;
    return [element("span", "tag tag-error", said)];
  }
  return methodName(row.method);
}

const suspectEvents = new Set();
const equalEvents = new Set();
for (const violation of session.violations) {
  factsOf(violation, "suspect").forEach((it) => suspectEvents.add(it.event));
  factsOf(violation, "equal").forEach((it) => equalEvents.add(it.event));
}

const STATUS_TAGS = { equal: "equal", differs: "bad", "not compared": "result" };

// What became of a snapshot that breaks no rule itself.
function statusOfSnapshot(row) {
  return row.side === SNAPSHOT && !equalEvents.has(row.event) ? statusOf(row) : null;
}

// The tags of a row, each as its kind and its text.
function tagsOf(row) {
  const { violation } = row, status = statusOfSnapshot(row);
  const bad = violation?.follows ? ["follows", `follows: ${violation.rule}`] :
    ["bad", `${violation?.rule} ${violation?.text}`];
  return [
    violation && bad,
    suspectEvents.has(row.event) && !violation && ["suspect", "suspect"],
    row.cancel > 0 && ["result", "cancelled"],
    equalEvents.has(row.event) && ["equal", "last equal"],
    status && [STATUS_TAGS[status], status],
    row.notes.length > 0 && ["note", "note"],
  ].filter(Boolean);
}

// The name of a row, for whoever cannot see it.
export function labelOf(row) {
  const what = row.side === SNAPSHOT ? "snapshot" : `${SIDES[row.side]}, ${row.kind}`;
  const violation = row.violation ? `breaks rule ${row.violation.rule}, ${row.violation.text}` : "";
  return [`event ${row.event}`, what, row.method, row.id === null ? "" : `id ${row.id}`,
    row.uri === undefined ? "" : baseName(row.uri),
    row.version === null ? "" : `version ${row.version}`, violation,
    row.violation?.follows ? "follows" : "",
    suspectEvents.has(row.event) && !row.violation ? "suspect" : "",
    row.cancel ? "cancelled" : "", equalEvents.has(row.event) ? "last equal" : "",
    row.notes.length ? "note" : "", statusOfSnapshot(row), summaryIfLoaded(row),
  ].filter(Boolean).map(namedText).join(", ");
}

// What a row's message says, unless its content is still to be inflated.
function summaryIfLoaded(row) {
  return isLoaded(row) ? summaryOf(row) : "";
}

// What a row says: its names, and what it is about.
export function rowParts(row) {
  const version = row.version === null ? null : element("span", "version", `v${row.version}`);
  const file = row.uri ? element("span", "file", visibleText(baseName(row.uri))) : null;
  const id = row.id === null ? null : element("span", "id", "#", visibleText(row.id));
  // Spaces between the parts: what is selected and copied has them, too.
  const apart = (parts) => parts.filter(Boolean).flatMap((it) => [it, " "]);
  return [
    element("span", "what",
      ...apart([element("span", "names", ...nameOf(row)), id, file, version])),
    element("span", "says",
      ...apart(tagsOf(row).map(([kind, text]) => element("span", `tag tag-${kind}`, text))),
      element("span", "summary", visibleText(row.excerpt ?? summaryIfLoaded(row)))),
  ];
}

// All that a row and its notes show, but for what its message says.
export function shownInRow(row) {
  return [
    row.event, row.kind === "unreadable" ? "cannot be read" : row.kind, row.method, row.uri,
    row.id === null ? "" : `#${row.id}`, row.version === null ? "" : `v${row.version}`,
    ...tagsOf(row).map(([, text]) => text), ...row.notes.map(wordsOfNote),
  ].join(" ");
}

function messageCell(row) {
  const made = button("say", "", null);
  made.append(...rowParts(row));
  made.setAttribute("aria-expanded", "false");
  return labelled(made, labelOf(row));
}

function badTag(text) {
  return element("span", "tag tag-bad", text);
}

function endCell() {
  const last = session.violations.filter((it) => it.event > session.events);
  const said = last.map((it) => badTag(`${it.rule} ${it.text} (${it.who})`));
  const badLog = damage ? badTag(`${placeOfDamage()} ${damage.text}`) : null;
  return element("div", "wide", element("span", "quiet", "End of the log"), ...said,
    badLog, session.exit.length ? element("span", "", visibleText(endOfServer())) : null);
}

function gapCell(gap) {
  const [first, last] = [gap.from, gap.to].map((event) => event.toLocaleString("en"));
  const left = count(gap.to - gap.from + 1, "event");
  const made = element("div", "wide",
    element("span", "quiet", `${left} left out: ${first} to ${last}`));
  made.tabIndex = -1;
  return made;
}

export function lineOf(item, height) {
  if (item.kind === "gap" || item.kind === "end") {
    return element("div", "line", item.kind === "gap" ? gapCell(item.gap) : endCell());
  }
  const cells = [messageCell(item), spine(item, height), element("div", "empty")];
  return element("div", "line", ...(item.side === SERVER ? cells.reverse() : cells));
}

export function classesOf(item) {
  const violation = item.violation;
  const bad = violation ? (violation.follows ? "follows" : "bad") : "";
  const suspect = item.event && suspectEvents.has(item.event) && !violation ? "is-suspect" : "";
  return `row ${item.side === undefined ? "" : SIDES[item.side]} ${bad} ${suspect}`;
}

