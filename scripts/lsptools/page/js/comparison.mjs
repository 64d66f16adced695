// Two texts side by side, the characters that differ marked, equal lines shown on demand.

import { comparedTexts, markedPair } from "./difference.mjs";
import { button, count, element, fill, source, titled, visibleText } from "./nodes.mjs";

const MOST_COMPARED = 300, MOST_OF_PIECE = 400;

// A piece of a line, without its middle if it is very long.
function comparedPiece(text, isMarked = false) {
  if (text.length <= 2 * MOST_OF_PIECE) {
    return visibleText(text, isMarked);
  }
  const left = count(text.length - 2 * MOST_OF_PIECE, "character");
  return [
    ...visibleText(text.slice(0, MOST_OF_PIECE), isMarked),
    element("span", "left-out", `… ${left} …`),
    ...visibleText(text.slice(-MOST_OF_PIECE), isMarked),
  ];
}

// One side of a line in a comparison. Of one that differs, the sign says which side it is.
function comparedCell(number, pieces, sign = "") {
  const made = element("span", "line-number", pieces ? String(number) : "");
  const text = element("span", "line-text"), isEqual = sign === "";
  for (const [piece, isMarked] of pieces ?? []) {
    const shown = isEqual ? piece.replace(/\n$/, "") : piece;
    fill(text, isMarked ? [element("mark", "", comparedPiece(shown, true))] : comparedPiece(shown));
  }
  return element("div", pieces ? "cell" : "cell none", made,
    element("span", "sign", pieces ? sign : ""), text);
}

// `first` is the number of the first line, 1 unless lines before it were left out.
function equalRow(lines, first, lineA, lineB) {
  const pieces = [[lines[lineA], false]];
  return element("div", "pair equal",
    comparedCell(first + lineA, pieces), comparedCell(first + lineB, pieces));
}

// Equal lines that are not shown yet: a button, which shows the next of them in its place.
function skippedRow(lines, first, { skipped, lineA, lineB }) {
  const made = button("skipped", count(skipped, "equal line"), () => {
    const shown = Math.min(skipped, MOST_COMPARED), added = [];
    for (let at = 0; at < shown; at += 1) {
      added.push(equalRow(lines, first, lineA + at, lineB + at));
    }
    if (skipped > shown) {
      added.push(skippedRow(lines, first,
        { skipped: skipped - shown, lineA: lineA + shown, lineB: lineB + shown }));
    }
    made.replaceWith(...added);
    added[0].tabIndex = -1;
    added[0].focus({ preventScroll: true });
  });
  return titled(made, "show them");
}

function comparedRow(item, lines, first) {
  if (item.skipped) {
    return skippedRow(lines, first, item);
  }
  if (item.isEqual) {
    return equalRow(lines, first, item.lineA, item.lineB);
  }
  const [a, b] = markedPair(...item.pair);
  return element("div", "pair differs",
    comparedCell(first + item.lineA, a, "−"), comparedCell(first + item.lineB, b, "+"));
}

// Two texts, given as lines. Of texts that were cut, `left` says how many lines are before them and
// after them.
export function comparison(a, b, labelA, labelB, who, left = null) {
  const items = comparedTexts(a, b);
  if (items.every((it) => it.skipped || it.isEqual)) {
    return element("p", "quiet", "Both texts are equal. ", source(who));
  }
  const table = element("div", "compared",
    element("div", "pair heads", element("div", "", ...labelA), element("div", "", ...labelB)));
  const before = left?.before ?? 0;
  if (before) {
    table.append(element("div", "skipped", `${count(before, "equal line")} left out of this page`));
  }
  let shown = 0;
  const more = button("more", "", () => {
    const next = items.slice(shown, shown + MOST_COMPARED);
    table.append(...next.map((it) => comparedRow(it, a, before + 1)));
    shown += MOST_COMPARED;
    more.hidden = shown >= items.length;
    more.textContent = `${(items.length - shown).toLocaleString("en")} more lines`;
  });
  more.click();
  const after = left?.after ? element("div", "skipped",
    `${count(left.after, "equal line")} left out of this page`) : null;
  return element("div", "comparison", table, more, after);
}
