// What is copied: the characters themselves, not their names in boxes.

import { button } from "./nodes.mjs";

// Private characters, which a page shows as boxes only, for the line ends in what is copied.
const LINE_END_MARKS = { "\r": "\u{f0000}", "\n": "\u{f0001}" };
const MOST_BOXES = 60000;

// The text of a selection. A box of a line end is also the end of a line on the page.
export function copiedText(selection) {
  const boxes = [...document.querySelectorAll(".odd")]
    .filter((box) => selection.containsNode(box, true)).slice(0, MOST_BOXES);
  const shown = boxes.map((box) => box.firstChild.data);
  boxes.forEach((box, at) => { box.firstChild.data = String.fromCodePoint(0xf0000 + at); });
  const text = selection.toString();
  boxes.forEach((box, at) => { box.firstChild.data = shown[at]; });
  const whole = text.replace(/[\u{f0000}-\u{ffffd}]/gu, (mark) =>
    LINE_END_MARKS[boxes[mark.codePointAt(0) - 0xf0000].copied] ??
    boxes[mark.codePointAt(0) - 0xf0000].copied);
  return whole.replace(/(\u{f0000}?\u{f0001}|\u{f0000})\n?/gu, "$1")
    .replace(/\u{f0000}/gu, "\r").replace(/\u{f0001}/gu, "\n");
}

// Puts a text on the clipboard. Returns whether the browser did.
function copy(text) {
  const put = (event) => {
    event.clipboardData.setData("text/plain", text);
    event.preventDefault();
    event.stopImmediatePropagation();
  };
  document.addEventListener("copy", put, { capture: true, once: true });
  const isCopied = document.execCommand("copy");
  document.removeEventListener("copy", put, { capture: true });
  return isCopied;
}

// A button that copies what `make` makes.
export function copyButton(label, make) {
  const made = button("plain copy", label, () => {
    made.textContent = copy(make()) ? "copied" : "the browser does not allow it";
    setTimeout(() => { made.textContent = label; }, 2000);
  });
  return made;
}
