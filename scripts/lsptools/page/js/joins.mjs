// Requests and their answers in words: what answers what, how much later, and why none came.

import { SIDES, damage, rowOfEvent, session } from "./data.mjs";
import { factsOf } from "./facts.mjs";
import { count, eventLink } from "./nodes.mjs";

// The sections of docs/RULES.md.
const FRAMING = "Framing", MESSAGES = "Messages", OF_TEXTS = ["Documents", "Snapshots"];

function isOf(violation, ...sections) {
  return sections.includes(session.rules[violation.rule]?.section);
}

// Whether a violation is a frame that cannot be read, or the last one, which is cut off.
function isFrame(violation, isLast) {
  return isOf(violation, FRAMING) && (violation.event > session.events) === isLast;
}

function later(from, to) {
  return `${count(to - from, "event")} later`;
}

// Whether what breaks a rule of messages may have been meant as an answer.
function mayBeAnswer(violation) {
  return isOf(violation, MESSAGES) && rowOfEvent(violation.event)?.method === undefined;
}

// Why a request that keeps every rule has no answer.
function whyUnanswered(row) {
  const who = SIDES[1 - row.side];
  if (row.broken) {
    const violation = session.violations.find((it) => it.event === row.broken);
    const rule = violation ? `rule ${violation.rule}` : "a rule";
    return ["its answer, ", eventLink(row.broken), `, breaks ${rule}`];
  }
  const found = session.violations.filter((it) => it.who === who);
  const stop = found.find((it) => isFrame(it, false));
  if (stop) {
    return [`no answer up to `, eventLink(stop.event),
      `, a frame that cannot be read: nothing that the ${who} sent after it can be`];
  }
  const unread = found.find((it) => it.event > row.event && mayBeAnswer(it));
  if (unread) {
    return ["not answered, unless ", eventLink(unread.event),
      ", which breaks a rule, was the answer"];
  }
  if (found.some((it) => isFrame(it, true))) {
    return [`no answer before the ${who}’s last frame, which is cut off`];
  }
  if (damage) {
    return ["no answer before the place where the log is damaged"];
  }
  return ["not answered in the log"];
}

// What an event has to do with others.
export function joinsOf(row) {
  const said = [];
  if (row.kind === "request" && row.partner) {
    said.push(` · answered ${later(row.event, row.partner)}, by `, eventLink(row.partner));
  } else if (row.kind === "request" && !row.violation) {
    said.push(" · ", ...whyUnanswered(row));
  } else if (row.kind === "notification" && row.partner) {
    said.push(" · cancels ", eventLink(row.partner));
  } else if (row.partner) {
    said.push(` · answers `, eventLink(row.partner), `, ${later(row.partner, row.event)}`);
  }
  if (row.cancel) {
    said.push(" · cancelled by ", eventLink(row.cancel));
  }
  return said;
}

// Whether a violation may be what left a document, a side or a request out of step for another: as
// far as a page can tell from the rules and what the two events name.
function mayCause(cause, effect) {
  const [before, after] = [rowOfEvent(cause.event), rowOfEvent(effect.event)];
  if (isOf(effect, ...OF_TEXTS)) {
    return factsOf(cause, "registers").length > 0
      || before !== undefined && after !== undefined && before.document === after.document;
  }
  if (isFrame(effect, false)) {
    return factsOf(cause, "breaks").length > 0 && cause.who === effect.who;
  }
  return !isOf(cause, ...OF_TEXTS);
}

// What a violation that follows follows from: the last earlier one that may have caused it.
export function causeOf(violation) {
  const earlier = session.violations.slice(0, session.violations.indexOf(violation))
    .filter((it) => !it.follows);
  return earlier.findLast((it) => mayCause(it, violation)) ?? earlier[earlier.length - 1];
}
