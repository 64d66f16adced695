// Nodes of the page. Whatever comes from the log gets into it as text nodes only.

import { indexOfEvent, isLoaded, load } from "./data.mjs";
import { sayFault } from "./fault.mjs";
import { codePoint, escapedByte, piecesOf } from "./visible.mjs";

// Appends nodes, texts and lists of them, which may be long; null is left out.
export function fill(node, children) {
  for (const child of children.flat()) {
    if (child !== null && child !== undefined) {
      node.append(child);
    }
  }
}

/**
 * An element with classes, separated by spaces, and children as for `fill`.
 * @returns {any}
 */
export function element(tag, classes, ...children) {
  const made = document.createElement(tag);
  if (classes) {
    made.className = classes;
  }
  fill(made, children);
  return made;
}

export function titled(node, title) {
  node.title = title;
  return node;
}

// A node with a name for whoever cannot see it.
export function labelled(node, name) {
  node.setAttribute("aria-label", name);
  return node;
}

export function button(classes, label, action) {
  const made = element("button", classes, label);
  made.type = "button";
  made.addEventListener("click", action);
  return made;
}

// A folded part; `make` makes its content when it is opened for the first time.
export function folded(label, make, isOpen = false) {
  const made = element("details", "folded", element("summary", "", label));
  const open = () => {
    if (made.open && !made.dataset.filled) {
      made.dataset.filled = "yes";
      made.append(make());
    }
  };
  made.addEventListener("toggle", open);
  made.open = isOpen;
  open();
  return made;
}

// What `make` returns, once the contents of these rows were inflated: at once, if they are.
export function whenLoaded(needed, make) {
  if (needed.every(isLoaded)) {
    return make();
  }
  const place = element("div", "quiet waiting", "…");
  load(needed).then(() => place.replaceWith(...[make()].filter(Boolean))).catch(sayFault);
  return place;
}

export function count(number, noun) {
  return `${number.toLocaleString("en")} ${noun}${number === 1 ? "" : "s"}`;
}

// A link to an event, or to the place where it was left out.
export function eventLink(event, label = `event ${event}`) {
  const isThere = indexOfEvent.has(event);
  const made = element("a", isThere ? "event-link" : "event-link missing", label);
  made.href = `#event-${event}`;
  return isThere ? made : titled(made, "this event was left out of the page");
}

// Text between backquotes is code.
export function prose(text) {
  return text.split("`").map((part, at) => (at % 2 ? element("code", "", part) : part));
}

// Text with each odd character shown as a name in a box.
export function visibleText(text, all = false, isBroken = false) {
  return piecesOf(text, all, isBroken).map(([piece, shown]) => {
    if (shown === null) {
      return document.createTextNode(piece);
    }
    const box = element("span", "odd", shown);
    // What is copied instead of the name in the box; a tab is there itself.
    box.copied = piece === "\t" ? "" : escapedByte(piece) ?? piece;
    const after = piece === "\t" ? "\t" : "";
    return titled(after ? element("span", "tab", box, after) : box, codePoint(piece));
  });
}

export function shownText(text) {
  return element("code", "shown-text", visibleText(text, true));
}

// Who says something: lspcheck, or this page.
export function source(who) {
  const said = { lspcheck: "what lspcheck wrote", page: "worked out by this page" }[who];
  return titled(element("span", `source source-${who}`, who), said);
}

export function baseName(uri) {
  return uri.slice(uri.lastIndexOf("/") + 1) || uri;
}

// A long text, of which the first part is shown at once and the rest on demand.
export function longText(text, classes, most = 60000) {
  const shown = element("pre", classes, visibleText(text.slice(0, most), false, true));
  if (text.length <= most) {
    return shown;
  }
  let at = most;
  const more = button("more", "", () => {
    fill(shown, visibleText(text.slice(at, at + 4 * most), false, true));
    at += 4 * most;
    label();
  });
  const label = () => {
    const left = text.length - at;
    more.hidden = left <= 0;
    more.textContent = `${left.toLocaleString("en")} more characters`;
  };
  label();
  return element("div", "", shown, more);
}
