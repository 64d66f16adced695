// What `show --all --long --json` and `explain --all --notes --json` write, as
// lsptools/base/listing.py reads it.

export const EDITOR = 0, SERVER = 1, SNAPSHOT = 2;
export const KINDS = ["request", "notification", "result", "error", "snapshot", "unreadable"];
const SIDES = { editor: EDITOR, server: SERVER, snapshot: SNAPSHOT };
// The rules of an end that comes too early, which no event breaks.
const ENDS = [107, 303, 407];

/** The object of a line. A number that JavaScript would round, an id's, is a BigInt. */
export function objectOf(line) {
  const found = JSON.parse(line);
  const long = typeof found.id === "number" && /"id":(-?\d{16,})[,}]/.exec(line);
  return long ? { ...found, id: BigInt(long[1]) } : found;
}

/** Gives a function the objects of the lines of bytes that come in pieces. */
export class Lines {
  constructor(take) {
    this.take = take;
    this.decoder = new TextDecoder("utf-8", { ignoreBOM: true });
    this.rest = "";
  }

  put(bytes) {
    const lines = (this.rest + this.decoder.decode(bytes, { stream: true })).split("\n");
    this.rest = lines.pop();
    lines.forEach((line) => this.take(objectOf(line)));
  }
}

function eventOf(it) {
  const { event, number, method = null, id = null, uri = null, version = null } = it;
  return { event, side: SIDES[it.side ?? "snapshot"], number, kind: it.is, method, id, uri, version,
    rule: null };
}

function violationOf({ rule, who, number, event, follows, text }) {
  return { rule, who, number, event, follows, text, facts: [], lines: [] };
}

/** The event that breaks a rule, whose words are read from its content later. */
function broken({ rule, who, event, number }) {
  if (ENDS.includes(rule)) {
    return null;
  }
  const side = SIDES[who], kind = side === SNAPSHOT ? "snapshot" : "unreadable";
  return { event, side, number, kind, method: null, id: null, uri: null, version: null, rule };
}

/**
 * The events of `show --long`, one after the other. On the way, it counts them and keeps the
 * violations and what comes after the events.
 */
export class Listing {
  constructor(most = 0) {
    Object.assign(this, { most, sides: [0, 0, 0], violations: [], unlisted: 0 });
    Object.assign(this, { notes: [], ending: [] });
  }

  get events() {
    return this.sides[0] + this.sides[1] + this.sides[2];
  }

  /** The event of an object, if it is about one. */
  take(it) {
    const event = this.eventOf(it);
    if (event) {
      this.sides[event.side] += 1;
    }
    return event;
  }

  eventOf(it) {
    if (KINDS.slice(0, 5).includes(it.is) && "event" in it) {
      return eventOf(it);
    }
    if (it.is !== "no") {
      this.ending.push(it);
      return null;
    }
    const violation = violationOf(it);
    if (this.violations.length < this.most) {
      this.violations.push(violation);
    } else {
      this.unlisted += 1;
    }
    return broken(violation);
  }
}

const keyOf = (it) => `${it.rule} ${it.event} ${it.who}`;

/** Of `explain --all --notes`: for the first violations the objects of each, and all notes. */
export function explained(objects, most) {
  const found = new Map(), notes = [];
  let last = null;
  for (const it of objects) {
    if (it.is === "note") {
      notes.push(it);
    } else if (it.is === "no" && found.size < most) {
      last = [it];
      found.set(keyOf(it), last);
    } else if (["no", "offences", "bad log"].includes(it.is)) {
      last = null;
    } else if (last) {
      last.push(it);
    }
  }
  return [(violation) => found.get(keyOf(violation)) ?? [], notes];
}
