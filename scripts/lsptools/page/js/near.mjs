// The rows of the lanes around an event, as links to them.

import { SERVER, SIDES, indexOfEvent, rows } from "./data.mjs";
import { element, eventLink, labelled, whenLoaded } from "./nodes.mjs";
import { labelOf, rowParts } from "./rows.mjs";

const AROUND_EVENT = 2;

function nearRow(row, event) {
  const made = eventLink(row.event, "");
  made.className = `near-row ${SIDES[row.side]}`;
  made.classList.toggle("is-here", row.event === event);
  const what = element("span", "near-what", rowParts(row)), empty = element("span", "");
  const number = element("span", "number", String(row.event));
  made.append(...(row.side === SERVER ? [empty, number, what] : [what, number, empty]));
  if (row.event === event) {
    made.setAttribute("aria-current", "true");
  }
  return element("li", "", labelled(made, labelOf(row)));
}

// Five rows: an event between the two before it and the two after it. At the end of the log, those
// before it.
export function nearRows(event) {
  const at = indexOfEvent.get(event) ?? rows.length;
  const found = rows.slice(Math.max(at - AROUND_EVENT, 0), at + AROUND_EVENT + 1);
  return found.length === 0 ? null : whenLoaded(found, () => element("section", "near",
    element("h3", "", "Before and after it"),
    element("ol", "near-rows", found.map((row) => nearRow(row, event)))));
}
