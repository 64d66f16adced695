// The verdict, and what else is known about the whole log, in words.

import { damage, rows, session, verdict } from "./data.mjs";
import { factsOf } from "./facts.mjs";

// The kind of the verdict, its word, and its text.
export function verdictOf() {
  const [editor, server] = session.sides;
  if (verdict.is === "yes" && editor + server === 0) {
    return ["empty", "Yes", "The log has no message"];
  }
  if (verdict.is === "yes") {
    return ["yes", "Yes", "The session keeps every rule"];
  }
  const isNo = verdict.is === "no";
  return [isNo ? "no" : "bad", isNo ? `No · rule ${verdict.rule}` : "Bad log", verdict.text];
}

// What the lines of the first violation mean together, if lspcheck wrote a sentence.
export function sentenceOfVerdict() {
  const [violation] = session.violations;
  return verdict.is === "no" && violation ? factsOf(violation, "so")[0]?.sentence : undefined;
}

// What both sides agreed on: the names of an encoding and of a kind of synchronisation. Without a
// handshake it is nothing. Of a log that was cut, the page may lack the answer to `initialize`.
export function agreement() {
  const said = session.said.find((it) => it.is === "encoding");
  if (verdict.is === "yes" && said) {
    return said.name === null ? null : { encoding: said.name, sync: said.sync };
  }
  const isAnswer = (it) => it.kind === "result" && it.method === "initialize" && !it.violation;
  return session.left || rows.some(isAnswer) ?
    { encoding: session.encoding, sync: session.sync } : null;
}

export function placeOfDamage() {
  return `bad log ${damage.code} record ${damage.record}`;
}

const SIGNALS = { 1: "HUP", 2: "INT", 4: "ILL", 6: "ABRT", 7: "BUS", 8: "FPE", 9: "KILL",
  11: "SEGV", 13: "PIPE", 15: "TERM" };

// How the server ended, as the recorder wrote it next to the log.
export function endOfServer() {
  const said = session.exit.map((line) => {
    const [word, value] = line.split(" ");
    const name = word === "signal" && SIGNALS[value] ? ` (SIG${SIGNALS[value]})` : "";
    return line.replace(/^time /, "") + name;
  });
  return `The server ended: ${said.join(", ")}.`;
}

// How many violations lspcheck counted, and how many of them follow from others.
export function countsOfViolations() {
  const found = session.ending.find((it) => it.is === "offences");
  return [found?.all ?? 0, found?.following ?? 0];
}
