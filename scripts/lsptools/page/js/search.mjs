// What is searched for, and which rows it leaves.

import {
  EDITOR, SERVER, SNAPSHOT, contentOf, isLoaded, load, rows, session, textOfBlock,
} from "./data.mjs";
import { Word, excerptOf, saidBy } from "./found.mjs";
import { baseName, button, count, element, labelled, titled } from "./nodes.mjs";
import { allItems, shownInRow } from "./rows.mjs";
import { summaryOf } from "./summaries.mjs";
import { namedText } from "./visible.mjs";

const CHOICES = new Map([
  ["editor", (row) => row.side === EDITOR],
  ["server", (row) => row.side === SERVER],
  ["snapshots", (row) => row.side === SNAPSHOT],
  ["violations", (row) => row.violation !== null],
  ["notes", (row) => row.notes.length > 0],
  ["requests without answer", (row) => row.kind === "request" && !row.partner && !row.violation],
]);
// Methods that report something, and change nothing.
const NOISE = ["$/progress", "$/logTrace", "$/setTrace", "telemetry/event", "window/logMessage",
  "window/workDoneProgress/create", "window/workDoneProgress/cancel"];
// How long a search may take before the page is drawn again.
const SLICE = 30;

function isNoise(row) {
  return NOISE.includes(row.method) && !row.violation && row.notes.length === 0;
}

function inputOf(type, name, placeholder, label) {
  const made = titled(labelled(element("input", name), label), label);
  made.type = type;
  made.placeholder = placeholder;
  made.spellcheck = false;
  made.autocomplete = "off";
  return made;
}

function choiceOf(label, all, names) {
  return labelled(element("select", "", ...[all, ...names].map((name, at) => {
    const option = element("option", "", name);
    option.value = String(at - 1);
    return option;
  })), label);
}

// What the browser offers while a method is typed.
function suggestion(value) {
  const option = element("option", "");
  option.value = value;
  return option;
}

// What is searched for in one go: the words, the choices, and what was found out about blocks.
class Question {
  constructor({ find, id, document: number, only, quiet }) {
    this.words = find.toLowerCase().split(/\s+/).filter(Boolean).map((it) => new Word(it));
    this.id = id;
    this.number = number;
    this.quiet = quiet;
    this.isChosen = CHOICES.get(only);
    this.blocks = new Map();
  }

  // Whether the choices leave a row, whatever the words are.
  leaves(row) {
    return row.event !== undefined && (!this.isChosen || this.isChosen(row)) &&
      (this.number < 0 || row.document === this.number) && !(this.quiet && isNoise(row)) &&
      (!this.id || row.id === this.id || row.id === JSON.stringify(this.id));
  }

  // The words that are not in what a row shows, but for what its message says.
  missingIn(row) {
    row.shown ??= shownInRow(row).toLowerCase();
    return this.words.filter((it) => !row.shown.includes(it.text));
  }

  // The words that the messages of a whole block may show: most blocks have none of a rare word.
  wordsIn(row) {
    if (row.block < 0) {
      return this.words;
    }
    if (!this.blocks.has(row.block)) {
      const lower = textOfBlock(row.block).toLowerCase();
      this.blocks.set(row.block, this.words.filter((it) => it.mayBeIn(lower)));
    }
    return this.blocks.get(row.block);
  }

  // Whether the message of a row, or its summary, has all of some words. If one is only in the
  // message, the row shows the place.
  isSaid(row, words) {
    const content = saidBy(contentOf(row) ?? "", this.words), lower = content.toLowerCase();
    if (!words.every((it) => it.mayBeIn(lower))) {
      return false;
    }
    const summary = summaryOf(row).toLowerCase();
    const missing = words.filter((it) => !summary.includes(it.text));
    if (!missing.every((it) => lower.includes(it.text))) {
      return false;
    }
    if (missing.length) {
      const [{ text }] = missing;
      row.excerpt = excerptOf(content, lower, lower.indexOf(text), text.length);
    }
    return true;
  }

  // Whether a row has all words. Waits only for contents that are still to be inflated.
  finds(row) {
    const missing = this.missingIn(row);
    const isFound = () => {
      const there = this.wordsIn(row);
      return missing.every((it) => there.includes(it)) && this.isSaid(row, missing);
    };
    return missing.length === 0 || (isLoaded(row) ? isFound() : load([row]).then(isFound));
  }
}

export class Search {
  constructor(lanes, changed) {
    this.lanes = lanes;
    this.changed = changed;
    this.round = 0;
    this.words = inputOf("search", "search", "method or words",
      "Search in all that rows and messages say ( / )");
    const files = session.documents.map((uri) => namedText(baseName(uri)));
    this.found = element("span", "found quiet");
    this.found.setAttribute("role", "status");
    this.document = choiceOf("which document", "every document", files);
    this.side = choiceOf("which events", "both sides", [...CHOICES.keys()]);
    this.id = inputOf("search", "id", "id", "Search by the id of a request");
    this.quiet = inputOf("checkbox", "hide", "", "hide progress and logs");
    this.clear = button("plain", "clear", () => {
      this.reset();
      this.words.focus();
    });
    this.clear.hidden = true;
    const methods = element("datalist", "", ...session.methods.map(suggestion));
    methods.id = "methods";
    this.words.setAttribute("list", "methods");
    this.node = element("form", "search", this.words, this.document, this.side, this.id,
      element("label", "switch", this.quiet, " hide progress and logs"), this.found, this.clear,
      methods);
    this.node.setAttribute("role", "search");
    this.node.addEventListener("submit", (event) => event.preventDefault());
    this.node.addEventListener("input", () => this.apply());
  }

  // What is chosen, by the names that the address uses.
  get state() {
    return { find: this.words.value.trim(), id: this.id.value.trim(), quiet: this.quiet.checked,
      document: Number(this.document.value),
      only: [...CHOICES.keys()][Number(this.side.value)] ?? "" };
  }

  // The same as a part of the address, empty if nothing is chosen.
  get address() {
    const { find, id, quiet, document: number, only } = this.state, said = new URLSearchParams();
    Object.entries({ find, id, only }).filter(([, it]) => it).forEach((it) => said.set(...it));
    if (number >= 0) {
      said.set("document", String(number));
    }
    if (quiet) {
      said.set("quiet", "yes");
    }
    return said.toString();
  }

  // Chooses what a part of an address says; what it does not know is left out.
  restore(address) {
    const said = new URLSearchParams(address), number = Number(said.get("document") ?? -1);
    this.words.value = said.get("find") ?? "";
    this.id.value = said.get("id") ?? "";
    this.quiet.checked = said.get("quiet") === "yes";
    this.document.value = String(session.documents[number] === undefined ? -1 : number);
    this.side.value = String([...CHOICES.keys()].indexOf(said.get("only") ?? ""));
    return this.apply();
  }

  get isEmpty() {
    return this.address === "";
  }

  // Searches in slices, so that one can keep typing; only the last search is drawn.
  async apply() {
    const { isEmpty } = this, question = new Question(this.state), round = this.round += 1;
    rows.forEach((row) => { row.excerpt = undefined; });
    this.clear.hidden = isEmpty;
    this.changed();
    const shown = isEmpty ? allItems : [];
    let until = performance.now() + SLICE;
    for (const item of isEmpty ? [] : allItems.filter((it) => question.leaves(it))) {
      const found = question.finds(item);
      if (found === true || (found !== false && await found)) {
        shown.push(item);
      }
      if (performance.now() > until) {
        this.found.textContent = "searching";
        await new Promise((done) => { setTimeout(done); });
        until = performance.now() + SLICE;
      }
      if (round !== this.round) {
        return;
      }
    }
    this.found.textContent = isEmpty ? "" : count(shown.length, "event");
    this.lanes.show(shown, isEmpty ? null : question.words.map((it) => it.text));
  }

  filter(documentNumber) {
    this.node.reset();
    this.document.value = String(documentNumber);
    this.apply();
    this.lanes.container.scrollIntoView();
  }

  reset() {
    this.node.reset();
    this.apply();
  }
}
