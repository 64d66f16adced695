// A pane that keeps the details of one event, while one looks at others.

import { detailsOf, rowsOfDetails } from "./details.mjs";
import { button, element, whenLoaded } from "./nodes.mjs";

export class Pane {
  // `goTo` goes to an event; `leave` takes the focus when the pane is closed.
  constructor(node, goTo, leave) {
    this.node = node;
    this.goTo = goTo;
    this.leave = leave;
    this.row = null;
  }

  // Shows the details of a row, or nothing if it shows them already.
  toggle(row) {
    const isSame = row === null || row === this.row;
    this.row = isSame ? null : row;
    this.node.hidden = isSame;
    document.documentElement.classList.toggle("has-pane", !isSame);
    this.node.replaceChildren(...(isSame ? [] : this.parts(row)));
  }

  parts(row) {
    const head = element("div", "pane-head",
      element("h2", "", `Pinned: event ${row.event}`),
      button("plain", "go there", () => this.goTo(row.event)),
      button("plain", "unpin", () => {
        this.toggle(null);
        this.leave();
      }));
    return [head, whenLoaded(rowsOfDetails(row), () => detailsOf(row))];
  }
}
