// The keys, and the dialog that lists them.

import { button, element } from "./nodes.mjs";

const KEYS = [
  ["n N", "next and previous violation"],
  ["v V", "the same, also those that follow from another"],
  ["s S", "next and previous snapshot"],
  ["e E", "next and previous edit"],
  ["j k", "next and previous event"],
  ["a", "from a request to its answer, and back"],
  ["g", "go to an event by its number"],
  ["c", "show the selected event among all others"],
  ["p", "pin the selected event, or unpin it"],
  ["h", "hide progress and logs, or show them"],
  ["Enter", "open or close the selected event"],
  ["/", "search"],
  ["Esc", "leave the search, or clear it"],
  ["d", "dark or light"],
  ["?", "these keys"],
];
// Where it is kept that single keys do nothing.
const SWITCH = "lspcheck-page single keys";

function remembered() {
  try {
    return localStorage.getItem(SWITCH) !== "off";
  } catch {
    return true;
  }
}

function remember(isOn) {
  try {
    localStorage.setItem(SWITCH, isOn ? "on" : "off");
  } catch {
    // A page that may keep nothing has the switch only until it is closed.
  }
}

export class Keys {
  // `actions` and `steps` are what each key does; a step is told whether it goes back, with Shift.
  constructor(dialog, actions, steps) {
    this.dialog = dialog;
    this.actions = actions;
    this.steps = steps;
    this.isOn = remembered();
    dialog.append(...this.parts());
    addEventListener("keydown", (event) => this.take(event));
  }

  parts() {
    const list = element("dl", "facts"), heading = element("h2", "", "Keys");
    heading.id = "keys-heading";
    for (const [keys, meaning] of KEYS) {
      list.append(element("dt", "", ...keys.split(" ").map((key) => element("kbd", "", key))),
        element("dd", "", meaning));
    }
    const single = element("input", "");
    single.type = "checkbox";
    single.checked = this.isOn;
    single.addEventListener("change", () => {
      this.isOn = single.checked;
      remember(this.isOn);
    });
    return [heading, list, element("p", "", element("label", "", single, " single keys do this")),
      button("plain", "close", () => this.dialog.close())];
  }

  // Opens or closes the dialog, which gives the focus back to what had it.
  toggle() {
    return this.dialog.open ? this.dialog.close() : this.dialog.showModal();
  }

  // What a key does, or undefined.
  actionOf(key) {
    const of = (object, name) => (Object.hasOwn(object, name) ? object[name] : undefined);
    const lower = key.toLowerCase(), forward = of(this.steps, key);
    const back = lower === key ? undefined : of(this.steps, lower);
    const step = forward ?? back;
    return of(this.actions, key) ?? (step && (() => step(forward ? 1 : -1)));
  }

  take(event) {
    const { key, target } = event;
    const isTyping = target.matches?.("input:not([type=checkbox]), select, textarea");
    const isOff = !this.isOn && key.length === 1;
    if (event.ctrlKey || event.metaKey || event.altKey || isOff || (isTyping && key !== "Escape")) {
      return;
    }
    // In the dialog, Escape closes it, as in any other.
    if (this.dialog.open && key !== "?") {
      return;
    }
    if (key === "Enter" && target.closest?.("button, a, summary, label, input")) {
      return;
    }
    const action = this.actionOf(key);
    if (action) {
      event.preventDefault();
      action();
    }
  }
}
