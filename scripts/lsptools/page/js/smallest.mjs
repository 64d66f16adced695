// The smallest session that shows the violation: the editor's messages, to run them again.

import { lspcheckCommand, shownCommand } from "./commands.mjs";
import { session } from "./data.mjs";
import { factsOf } from "./facts.mjs";
import { count, element, folded } from "./nodes.mjs";
import { ODD, namedText } from "./visible.mjs";

// JSON that means the same, where each character that cannot be seen is escaped. Between values,
// there may be a tab or a CR.
function escapedJson(text) {
  const escaped = (unit) => "\\u" + unit.charCodeAt(0).toString(16).padStart(4, "0");
  const isSeen = (it) => it === "\t" || it === "\r" || !ODD.test(it);
  return [...text].map((it) => (isSeen(it) ? it : it.split("").map(escaped).join(""))).join("");
}

// Its lines, if the page has it: comments, and messages with `---` between them.
export function smallestLines() {
  const lines = (session.smallest ?? "").split("\n").slice(0, -1);
  return lines.map((it) => (it.startsWith("#") ? namedText(it) : escapedJson(it)));
}

// What they lack of the session that shows the violation.
function smallestLack() {
  const [violation] = session.violations;
  return factsOf(violation, "in-editor").length ? ", without its snapshot" : "";
}

export function smallestPart() {
  const lines = smallestLines();
  return lines.length === 0 ? null : element("section", "card smallest",
    element("h2", "", "The smallest session that shows this"),
    element("p", "", `The editor's messages${smallestLack()}, as `,
      element("code", "", "clangd -lit-test"),
      " reads them. They are in what is copied as Markdown, too."),
    session.name === null ? null : element("p", "", "A page without the words of the sources: ",
      shownCommand(`${lspcheckCommand("redact")} | lspcheck-page --small -`)),
    folded(count(lines.filter((it) => it === "---").length + 1, "message"),
      () => element("pre", "raw", lines.join("\n"))));
}
