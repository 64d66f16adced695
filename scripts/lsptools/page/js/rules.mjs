// What docs/RULES.md says about a rule, as far as it concerns a violation.

import { session } from "./data.mjs";
import { element, folded, prose } from "./nodes.mjs";
import { ELSEWHERE, FACTS } from "./words.mjs";

// A sentence, or a part of one that a colon or a semicolon ends.
const SENTENCES = /(?<=[.:;]) +(?=[A-Z`])/;
// The first word of a line in a sentence. What has a word in capitals is a command: `event N`.
const FIRST_WORD = /`([a-z-]+)(?! [A-Z])[^`]*`/g;

// The kinds of lines that a sentence names.
function kindsIn(sentence) {
  return [...sentence.matchAll(FIRST_WORD)].map((it) => it[1])
    .filter((kind) => Object.hasOwn(FACTS, kind) || ELSEWHERE.includes(kind));
}

// A text without the sentences about lines that an explanation does not have, and without those
// that continue them.
export function whatApplies(text, facts) {
  const there = facts.map((it) => it.is), kept = [];
  let isKept = true;
  for (const sentence of text.split(SENTENCES)) {
    const kinds = kindsIn(sentence);
    isKept = kinds.length ? kinds.some((kind) => there.includes(kind)) : isKept;
    if (isKept) {
      kept.push(sentence);
    }
  }
  return kept.join(" ").replace(/[:;]$/, ".");
}

// The rule: when it applies, what causes it, and whose fault it usually is, unless `facts` say so.
export function aboutRule(rule, facts) {
  const said = session.rules[rule];
  if (!said) {
    return null;
  }
  const list = element("dl", "facts"), isSaid = facts.some((it) => it.is === "usually");
  const parts = [["Applies when", said.when], ["What causes it", said.causes],
    ["Whose fault", isSaid ? null : said.fault]];
  for (const [label, text] of parts) {
    if (text && text !== "see below") {
      list.append(element("dt", "", label), element("dd", "", ...prose(text)));
    }
  }
  const more = [whatApplies(said.look ?? "", facts), ...(said.more ?? [])].filter(Boolean);
  const paragraphs = () => element("div", "rule-more",
    ...more.map((text) => element("p", "", ...prose(text))));
  return element("section", "about-rule", element("h3", "", `Rule ${rule}: ${said.text}`), list,
    more.length ? folded("More about this rule", paragraphs) : null);
}
