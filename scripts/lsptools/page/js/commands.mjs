// Commands that a reader can copy into a shell. Each word is quoted, so that a name from the log is
// never more than a word.

import { session } from "./data.mjs";
import { element } from "./nodes.mjs";
import { COMBINING, ODD, escapedByte } from "./visible.mjs";

// A word for a shell like bash: as it is, in quotes, or with escapes for what cannot be seen.
function shellWord(text) {
  if (/^[\w@%+=:,./-]+$/.test(text)) {
    return text;
  }
  const characters = [...text];
  if (!characters.some((it) => ODD.test(it) || COMBINING.test(it))) {
    return `'${text.replaceAll("'", "'\\''")}'`;
  }
  return `$'${characters.map(escapedForShell).join("")}'`;
}

function escapedForShell(character) {
  if (escapedByte(character)) {
    return escapedByte(character);
  }
  if (character === "'" || character === "\\") {
    return `\\${character}`;
  }
  if (!ODD.test(character) && !COMBINING.test(character)) {
    return character;
  }
  const bytes = new TextEncoder().encode(character);
  return [...bytes].map((it) => `\\x${it.toString(16).padStart(2, "0")}`).join("");
}

// The log as a word: a name that begins like an option is written as a path.
function logWord() {
  return session.name === null ? "LOG" : shellWord(session.name.replace(/^-/, "./-"));
}

// A command of lspcheck on this log, or null if one of its words cannot be an argument.
export function lspcheckCommand(...words) {
  if (words.some((it) => it.includes("\0"))) {
    return null;
  }
  const isLikeAnOption = words[words.length - 1].startsWith("-") && words.length > 2;
  const all = isLikeAnOption ? [...words.slice(0, 2), "--", ...words.slice(2)] : words;
  return ["lspcheck", ...all.map(shellWord), logWord()].join(" ");
}

// A command as it is shown: its own characters, so that it can be copied.
export function shownCommand(command) {
  return element("code", "shown-text command", command);
}

// What writes the text after an editor's message: that of lspcheck, which may be proved.
export function textCommand(number, uri) {
  return number > 0 ? lspcheckCommand("text", "--all", String(number), uri) : null;
}

// Whether the program that judged the log was proved.
export const isProved = !session.version.includes("not proved");
