// Puts the parts together, and follows links and keys.

import { casePart } from "./case.mjs";
import { copiedText } from "./copying.mjs";
import { EDITOR, SNAPSHOT, load, rowOfEvent, rows, session } from "./data.mjs";
import { Keys } from "./keys.mjs";
import { Lanes } from "./lanes.mjs";
import { button, element, labelled, titled } from "./nodes.mjs";
import {
  badLogPart, documentsPart, firstViolation, notesPart, otherViolations, verdictPart,
} from "./overview.mjs";
import { Pane } from "./pane.mjs";
import { allItems } from "./rows.mjs";
import { Search } from "./search.mjs";
import { smallestPart } from "./smallest.mjs";
import { verdictOf } from "./verdict.mjs";
import { namedText } from "./visible.mjs";
import { laneHeads } from "./who.mjs";

// The rows of which the first sight of the page needs more than the index.
const FIRST_ROWS = 80, NEAR_ROWS = 4;
// How long it is said what the browser does not find.
const HINT_SECONDS = 12;

const dialog = document.getElementById("keys");
const pane = new Pane(document.getElementById("pane"), (event) => goToEvent(event),
  () => lanes.focus());
const lanes = new Lanes(document.getElementById("lanes"), new Map([
  ["pin", (row) => pane.toggle(row)],
  ["show in context", showInContext],
]), () => writeAddress());
const search = new Search(lanes, () => writeAddress());

// Keeps what is searched for and the selected event in the address.
function writeAddress() {
  const event = lanes.selected?.event, { address } = search;
  const link = `#${event ? `event-${event}` : ""}`;
  history.replaceState(null, "", address ? `${link}?${address}` : link);
}

// Goes to an event, or to the place where it was left out.
function goToEvent(event, isOpen = true) {
  const row = rowOfEvent(event) ??
    allItems.find((it) => it.kind === "gap" && it.gap.from <= event && event <= it.gap.to);
  if (!row) {
    return;
  }
  if (!lanes.shown.includes(row)) {
    search.reset();
  }
  lanes.goTo(row, isOpen);
  writeAddress();
}

// Shows all rows again, and this one among them.
function showInContext(row) {
  search.reset();
  lanes.goTo(row, false);
  writeAddress();
}

async function followLink() {
  const [, event, address] = /^#(?:event-(\d+))?(?:\?(.*))?$/.exec(location.hash) ?? [];
  if (address !== undefined) {
    await search.restore(address);
  }
  if (event) {
    goToEvent(Number(event));
  }
}

// The next row of a kind from the selected one on, or before it.
function stepTo(isIt, by) {
  const from = lanes.selected ? lanes.shown.indexOf(lanes.selected) : -1;
  for (let at = from + by; at >= 0 && at < lanes.shown.length; at += by) {
    const item = lanes.shown[at];
    if (item.event !== undefined && isIt(item)) {
      lanes.goTo(item, item.violation !== null);
      return writeAddress();
    }
  }
}

const isFirstOfItsKind = (row) => row.violation !== null && !row.violation.follows;

const STEPS = {
  n: (by) => stepTo(isFirstOfItsKind, by),
  v: (by) => stepTo((row) => row.violation !== null, by),
  s: (by) => stepTo((row) => row.side === SNAPSHOT, by),
  e: (by) => stepTo((row) => row.method === "textDocument/didChange" && row.side === EDITOR, by),
};

function toggleTheme() {
  const root = document.documentElement;
  const isDark = root.dataset.theme ? root.dataset.theme === "dark" :
    matchMedia("(prefers-color-scheme: dark)").matches;
  root.dataset.theme = isDark ? "light" : "dark";
}

function leaveSearch() {
  const focused = /** @type {HTMLElement} */ (document.activeElement);
  if (focused === document.body) {
    search.reset();
  }
  focused.blur();
}

function toPartner() {
  const partner = lanes.selected?.partner;
  if (partner) {
    goToEvent(partner);
  }
}

function toggleNoise() {
  search.quiet.checked = !search.quiet.checked;
  search.apply();
}

const ofSelected = (act) => () => lanes.selected?.event !== undefined && act(lanes.selected);

const keys = new Keys(dialog, {
  a: toPartner,
  c: ofSelected(showInContext),
  d: toggleTheme,
  g: () => eventInput.focus(),
  h: toggleNoise,
  j: () => stepTo(() => true, 1),
  k: () => stepTo(() => true, -1),
  p: ofSelected((row) => pane.toggle(row)),
  "?": () => keys.toggle(),
  "/": () => search.words.focus(),
  Escape: leaveSearch,
  Enter: ofSelected((row) => lanes.toggle(row)),
}, STEPS);

// A button that shows a sign, with its name for whoever cannot see it.
function signButton(sign, name, act) {
  return titled(labelled(button("plain", sign, act), name), name);
}

const eventInput = labelled(element("input", "event-number"), "go to an event by its number (g)");

function goToForm() {
  eventInput.type = "number";
  eventInput.min = "1";
  eventInput.max = String(session.events);
  eventInput.placeholder = "event";
  const form = element("form", "go-to", eventInput);
  form.addEventListener("submit", (event) => {
    event.preventDefault();
    goToEvent(Number(eventInput.value));
  });
  return form;
}

function bar() {
  const bad = session.violations.some((it) => rowOfEvent(it.event) && !it.follows);
  const steps = bad ? [
    signButton("‹", "previous violation (N)", () => STEPS.n(-1)),
    element("span", "quiet", "violation"),
    signButton("›", "next violation (n)", () => STEPS.n(1)),
  ] : [];
  return element("div", "bar-parts", search.node, element("span", "steps", goToForm(), ...steps,
    signButton("◐", "dark or light (d)", toggleTheme),
    signButton("?", "keys (?)", () => keys.toggle())));
}

function cutPart() {
  if (!session.left) {
    return null;
  }
  return element("section", "card cut", element("h2", "", "This page does not show the whole log"),
    ...session.left.said.map((line) => element("p", "", line)));
}

// Links to events are followed here: one to that in the address changes nothing there, and others
// keep what is searched for.
function onClick(event) {
  const link = event.target.closest?.('a[href^="#event-"]');
  if (link && !event.ctrlKey && !event.metaKey && !event.shiftKey) {
    event.preventDefault();
    history.pushState(null, "", link.hash);
    goToEvent(Number(link.hash.replace("#event-", "")));
  }
}

function onCopy(event) {
  const selection = getSelection();
  if (!selection.isCollapsed && !/INPUT|TEXTAREA/.test(event.target.tagName)) {
    event.clipboardData.setData("text/plain", copiedText(selection));
    event.preventDefault();
  }
}

// Of many rows, the browser's own search finds only those that are drawn.
function hintAtSearch(event) {
  const isSearch = (event.ctrlKey || event.metaKey) && event.key === "f";
  if (!isSearch || lanes.isWhole || document.querySelector(".hint")) {
    return;
  }
  const hint = element("p", "hint", "The browser finds only the rows that are drawn: ",
    element("kbd", "", "/"), " searches all of them.");
  hint.setAttribute("role", "status");
  document.getElementById("bar").append(hint);
  setTimeout(() => hint.remove(), HINT_SECONDS * 1000);
}

// What is seen first needs the contents of the first rows, and of those that show the cause.
async function loadFirst() {
  const [violation] = session.violations, row = violation && rowOfEvent(violation.event);
  const at = row ? row.index : rows.length;
  const near = violation ? rows.slice(Math.max(at - NEAR_ROWS, 0), at + NEAR_ROWS) : [];
  await load([...rows.slice(0, FIRST_ROWS), ...near]);
}

await loadFirst();
document.title = `${verdictOf()[1]} – ${namedText(session.name ?? "standard input")}`;
document.getElementById("overview").append(...[
  verdictPart(), cutPart(), badLogPart(), firstViolation(), smallestPart(), casePart(),
  otherViolations(), notesPart(),
  documentsPart((number) => search.filter(number)),
].filter(Boolean));
document.getElementById("bar").append(bar());
document.getElementById("lane-heads").append(...laneHeads());
document.getElementById("plain").hidden = true;
addEventListener("hashchange", followLink);
addEventListener("keydown", hintAtSearch);
addEventListener("click", onClick);
addEventListener("copy", onCopy);
lanes.draw();
const followed = followLink();
document.documentElement.dataset.ready = "yes";
performance.mark("ready");
await followed;
