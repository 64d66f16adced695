// The two lanes. Of many rows, only those that are seen are in the tree of the page. Each row has
// the same height; an open one has its details below it, whose height is measured.

import { isLoaded, load, rowOfEvent, session } from "./data.mjs";
import { detailsOf, rowsOfDetails } from "./details.mjs";
import { sayFault } from "./fault.mjs";
import { markWords } from "./found.mjs";
import { button, count, element, labelled, whenLoaded } from "./nodes.mjs";
import { allItems, classesOf, lineOf } from "./rows.mjs";

// How many rows are all in the tree, so that the browser finds and selects what is in them.
const MOST_DRAWN = 400;
const MARGIN = 600, MOST_PRINTED = 1500;
// How far the pointer moves between press and release if that was no click.
const MOST_OF_CLICK = 5;

function placesFrom(first, last) {
  return Array.from({ length: Math.max(last - first + 1, 0) }, (_, at) => first + at);
}

export class Lanes {
  // `actions` are what can be done with an open row, each with its name; `selected` is called when
  // a row was chosen.
  constructor(container, actions, selected) {
    this.container = container;
    this.actions = actions;
    this.tellSelected = selected;
    this.shown = allItems;
    // The words that were searched for, or null if nothing was.
    this.words = null;
    this.nodes = new Map();
    this.heights = new Map();
    this.selected = null;
    this.isPrinting = false;
    this.measuring = new ResizeObserver((entries) => this.measure(entries));
    this.wide = matchMedia("(min-width: 1100px)");
    this.wide.addEventListener("change", () => this.draw(true));
    addEventListener("scroll", () => this.isWhole || this.draw(), { passive: true });
    addEventListener("resize", () => this.draw());
    addEventListener("beforeprint", () => this.print());
    addEventListener("afterprint", () => this.endPrint());
  }

  // Whether all rows are in the tree.
  get isWhole() {
    return this.shown.length <= MOST_DRAWN;
  }

  get height() {
    return this.wide.matches && !this.isPrinting ? 30 : 46;
  }

  // The places of the open rows among those shown, in order, each with the height of its details.
  opened() {
    const places = [...this.heights].map(([item, height]) => [this.shown.indexOf(item), height]);
    return places.filter(([place]) => place >= 0).sort((a, b) => a[0] - b[0]);
  }

  topOf(place, opened = this.opened()) {
    const above = opened.filter(([open]) => open < place);
    return place * this.height + above.reduce((sum, [, height]) => sum + height, 0);
  }

  // The row at a distance from the top.
  placeAt(top, opened) {
    let extra = 0;
    for (const [place, height] of opened) {
      const below = (place + 1) * this.height + extra;
      if (top < below + height) {
        return top < below ? Math.floor((top - extra) / this.height) : place;
      }
      extra += height;
    }
    return Math.floor((top - extra) / this.height);
  }

  // While the page is printed, the layout changes, but not what is printed.
  draw(again = false) {
    if (this.isPrinting) {
      return;
    }
    if (again) {
      this.clear();
    }
    const opened = this.opened();
    this.container.style.height = `${this.topOf(this.shown.length, opened)}px`;
    this.place(this.seenPlaces(opened), opened);
  }

  // The places of the rows that are seen or near to that, and of the one that has the focus.
  seenPlaces(opened) {
    const end = this.shown.length - 1, top = -this.container.getBoundingClientRect().top;
    if (this.isWhole) {
      return placesFrom(0, end);
    }
    const first = Math.max(this.placeAt(top - MARGIN, opened), 0);
    const last = Math.min(this.placeAt(top + innerHeight + MARGIN, opened), end);
    const places = placesFrom(first, last), focused = this.placeOfFocus();
    if (focused >= 0 && (focused < first || focused > last)) {
      places.push(focused);
    }
    return places.sort((a, b) => a - b);
  }

  clear() {
    this.nodes.forEach((node) => node.remove());
    this.nodes.clear();
    this.measuring.disconnect();
  }

  // The place of the row that has the focus, which stays in the tree wherever one scrolls, or -1.
  placeOfFocus() {
    const row = document.activeElement?.closest?.("#lanes > .row");
    return row ? this.shown.indexOf(row.item) : -1;
  }

  // Puts the rows of these places into the tree, in order, and takes all others away.
  place(places, opened) {
    const wanted = new Set(places.map((at) => this.shown[at]));
    for (const [item, node] of this.nodes) {
      if (!wanted.has(item)) {
        node.remove();
        this.nodes.delete(item);
      }
    }
    let next = this.container.firstChild;
    for (const at of places) {
      const item = this.shown[at];
      if (this.nodes.has(item)) {
        next = this.nodes.get(item).nextSibling;
      } else {
        const made = this.nodeOf(item);
        this.nodes.set(item, made);
        this.container.insertBefore(made, next);
      }
      this.nodes.get(item).style.top = `${this.topOf(at, opened)}px`;
    }
    this.complete(places.map((at) => this.shown[at]));
  }

  // Draws the rows again whose messages were not inflated yet.
  complete(items) {
    const waiting = items.filter((it) => it.event !== undefined && !isLoaded(it));
    if (waiting.length) {
      load(waiting).then(() => waiting.forEach((it) => this.redraw(it))).catch(sayFault);
    }
  }

  redraw(item) {
    const node = this.nodes.get(item);
    if (!node?.isWaiting) {
      return;
    }
    const made = this.nodeOf(item), hasFocus = node.contains(document.activeElement);
    made.style.top = node.style.top;
    this.nodes.set(item, made);
    node.replaceWith(made);
    if (hasFocus) {
      made.querySelector(".say").focus({ preventScroll: true });
    }
  }

  nodeOf(item) {
    const node = element("div", classesOf(item), lineOf(item, this.height));
    node.item = item;
    node.isWaiting = item.event !== undefined && !isLoaded(item);
    node.classList.toggle("selected", item === this.selected);
    const say = node.querySelector(".say");
    if (say) {
      this.listenTo(node.firstChild, item, say);
      this.markFound(node, say, item);
    }
    if (this.heights.has(item)) {
      this.unfold(item, node);
    }
    return node;
  }

  // A click opens a row; to drag over it selects what it says.
  listenTo(line, item, say) {
    let from = null;
    line.addEventListener("mousedown", ({ clientX, clientY }) => { from = [clientX, clientY]; });
    line.addEventListener("click", ({ clientX, clientY, detail }) => {
      const moved = from && detail ? Math.hypot(clientX - from[0], clientY - from[1]) : 0;
      if (moved <= MOST_OF_CLICK) {
        this.click(item, say);
      }
    });
  }

  // Marks what was searched for, and offers to show the row among the others.
  markFound(node, say, item) {
    if (!this.words) {
      return;
    }
    markWords(say, this.words);
    const context = button("plain context", "show in context", (event) => {
      event.stopPropagation();
      this.actions.get("show in context")(item);
    });
    node.querySelector(".empty").append(labelled(context, `show event ${item.event} in context`));
  }

  click(item, say) {
    this.select(item);
    say.focus({ preventScroll: true });
    this.tellSelected(item);
    this.toggle(item);
  }

  // Puts the details below a row, when their contents are there.
  unfold(item, node) {
    node.querySelector(".say").setAttribute("aria-expanded", "true");
    const actions = [...this.actions].filter(([name]) => this.words || name !== "show in context");
    const details = whenLoaded(rowsOfDetails(item), () => {
      const made = detailsOf(item, actions);
      this.measuring.observe(made);
      return made;
    });
    node.append(details);
  }

  toggle(item, isOpen = !this.heights.has(item)) {
    if (item.event === undefined || isOpen === this.heights.has(item)) {
      return;
    }
    const node = this.nodes.get(item);
    if (isOpen) {
      this.heights.set(item, 0);
      if (node) {
        this.unfold(item, node);
      }
    } else {
      this.heights.delete(item);
      [...node?.children ?? []].slice(1).forEach((it) => it.remove());
      node?.querySelector(".say").setAttribute("aria-expanded", "false");
    }
    this.measureNow(item);
    this.draw();
  }

  measureNow(item) {
    const details = this.nodes.get(item)?.querySelector(".details");
    if (details) {
      this.heights.set(item, details.offsetHeight);
    }
  }

  measure(entries) {
    for (const { target } of entries) {
      if (target.isConnected && target.offsetHeight && this.heights.has(target.parentNode.item)) {
        this.heights.set(target.parentNode.item, target.offsetHeight);
      }
    }
    this.draw();
  }

  // Shows these rows and no others, from the first on, or around the selected one; `words` are
  // those that were searched for, null if all rows are shown.
  show(shown, words = null) {
    this.shown = shown;
    this.words = words;
    this.draw(true);
    const place = shown.indexOf(this.selected);
    if (place >= 0) {
      this.scrollToPlace(place);
    } else if (this.container.getBoundingClientRect().top < 0) {
      this.container.scrollIntoView();
    }
    this.draw();
  }

  select(item) {
    const before = this.nodes.get(this.selected);
    this.selected = item;
    before?.classList.remove("selected");
    this.nodes.get(item)?.classList.add("selected");
  }

  scrollToPlace(place) {
    const top = this.container.getBoundingClientRect().top + scrollY + this.topOf(place);
    scrollTo({ top: top - innerHeight / 4 });
  }

  // Scrolls to a row, opens it, and gives it the focus, so that a screen reader says what it is.
  goTo(item, isOpen = true) {
    this.select(item);
    this.toggle(item, isOpen || this.heights.has(item));
    this.scrollToPlace(this.shown.indexOf(item));
    this.draw();
    if (this.heights.has(item)) {
      this.measureNow(item);
      this.draw();
    }
    this.focus();
  }

  // Gives the focus to the selected row.
  focus() {
    this.nodes.get(this.selected)?.querySelector(".say, .wide")?.focus({ preventScroll: true });
  }

  // All rows, one below the other, or those around the selected one if there are many.
  print() {
    const centre = this.selected ?? rowOfEvent(session.violations[0]?.event);
    const start = Math.max(this.shown.indexOf(centre), 0) - MOST_PRINTED / 2;
    const first = Math.max(Math.min(start, this.shown.length - MOST_PRINTED), 0);
    const last = Math.min(first + MOST_PRINTED, this.shown.length) - 1;
    this.clear();
    this.isPrinting = true;
    this.container.classList.add("printed");
    this.place(placesFrom(first, last), this.opened());
    const before = this.printNote(0, first - 1);
    const after = this.printNote(last + 1, this.shown.length - 1);
    this.container.prepend(...[before].filter(Boolean));
    this.container.append(...[after].filter(Boolean));
  }

  // Says which rows are not printed.
  printNote(first, last) {
    const events = this.shown.slice(first, last + 1).map((it) => it.event).filter(Boolean);
    if (events.length === 0) {
      return null;
    }
    const [from, to] = [events[0], events[events.length - 1]].map((it) => it.toLocaleString("en"));
    return element("p", "print-note",
      `Not printed: ${count(events.length, "event")}, ${from} to ${to}.`);
  }

  endPrint() {
    this.isPrinting = false;
    this.container.classList.remove("printed");
    this.container.querySelectorAll(".print-note").forEach((it) => it.remove());
    this.draw(true);
  }
}
