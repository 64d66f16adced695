// The contents of a log's events, in the order in which lspcheck lists them, as
// lsptools/base/contents.py reads them. Which frames and records there are is what lspcheck says.
// This only cuts the bytes where the lengths in the log end.

import { SNAPSHOT, SERVER, EDITOR } from "./listing.mjs";

const PIECE = /^([ES]) ([1-9][0-9]{0,6})$/;
const TEXT = /^T (0|-?[1-9][0-9]{0,9}) ([1-9][0-9]{0,3}) (0|[1-9][0-9]{0,7})$/;
const LENGTH = /^content-length:[ \t]*([0-9]{1,10})[ \t]*\r$/im;
const LONGEST_LINE = 64, MOST_HEADER = 4096;
// How many bytes of a log are read at once.
const BUFFER = 1 << 20;

const utf8 = new TextDecoder("utf-8", { ignoreBOM: true });

/** The log is not the one that was listed. */
function other() {
  return new Error("the log and what lspcheck lists of it differ: does something write it?");
}

const latin = (bytes) => String.fromCharCode(...bytes);

/** A log that is read from the start. */
class Reader {
  constructor(log) {
    Object.assign(this, { log, held: new Uint8Array(), from: 0, at: 0 });
  }

  /** The next bytes of the log, at most `count`. */
  peek(count) {
    const start = this.at - this.from;
    if (start + count > this.held.length && this.from + this.held.length < this.log.size) {
      const end = this.at + Math.max(count, BUFFER);
      this.held = this.log.read(this.at, Math.min(end, this.log.size));
      this.from = this.at;
    }
    return this.held.subarray(this.at - this.from, this.at - this.from + count);
  }

  take(count) {
    const bytes = this.peek(count);
    if (bytes.length < count) {
      throw other();
    }
    this.at += count;
    return bytes;
  }

  line() {
    const bytes = this.peek(LONGEST_LINE), end = bytes.indexOf(10);
    this.at += end < 0 ? bytes.length : end + 1;
    return latin(end < 0 ? bytes : bytes.subarray(0, end));
  }

  /** This many bytes and the line end after them. */
  data(count) {
    const bytes = this.take(count).slice();
    this.take(1);
    return bytes;
  }
}

function headerEnd(bytes) {
  const next = (from) => bytes.indexOf(13, from);
  for (let at = next(0); at >= 0 && at + 3 < bytes.length; at = next(at + 1)) {
    if (bytes[at + 1] === 10 && bytes[at + 2] === 13 && bytes[at + 3] === 10) {
      return at;
    }
  }
  return -1;
}

/** The frames of one side, in the pieces in which its bytes come. */
class Frames {
  constructor() {
    Object.assign(this, { pieces: [], size: 0 });
  }

  put(data) {
    this.pieces.push(data);
    this.size += data.length;
  }

  /** All bytes that are held, as one array. */
  held() {
    if (this.pieces.length > 1) {
      const whole = new Uint8Array(this.size);
      this.pieces.reduce((at, it) => (whole.set(it, at), at + it.length), 0);
      this.pieces = [whole];
    }
    return this.pieces[0] ?? new Uint8Array();
  }

  /** The content of the next frame, or null if it is not all there yet. */
  next() {
    if (this.size < this.wanted) {
      return null;
    }
    const held = this.held(), end = headerEnd(held.subarray(0, MOST_HEADER));
    if (end < 0 && held.length >= MOST_HEADER) {
      throw other();
    }
    const found = end < 0 ? null : LENGTH.exec(latin(held.subarray(0, end + 2)));
    if (end >= 0 && !found) {
      throw other();
    }
    this.wanted = found ? end + 4 + Number(found[1]) : this.size + 1;
    if (this.size < this.wanted) {
      return null;
    }
    this.pieces = [held.subarray(this.wanted)];
    this.size -= this.wanted;
    const content = held.subarray(end + 4, this.wanted);
    this.wanted = 0;
    return content;
  }
}

Frames.prototype.wanted = 0;

/** Reads a log, and gives the content of one listed event after another. */
export class Contents {
  constructor(log) {
    this.reader = new Reader(log);
    this.streams = [new Frames(), new Frames()];
    this.snapshots = [];
    this.format = Number(this.reader.line().split(" ").at(-1));
  }

  readRecord() {
    const line = this.reader.line(), piece = PIECE.exec(line), text = TEXT.exec(line);
    if (piece) {
      this.streams[piece[1] === "S" ? SERVER : EDITOR].put(this.reader.data(Number(piece[2])));
    } else if (text) {
      const [version, ...sizes] = text.slice(1).map(Number);
      const [uri, data] = sizes.map((size) => this.reader.data(size));
      this.snapshots.push({ version, uri: utf8.decode(uri), data });
    } else {
      throw other();
    }
  }

  snapshot(event) {
    while (this.snapshots.length === 0) {
      this.readRecord();
    }
    const { version, uri, data } = this.snapshots.shift();
    Object.assign(event, { version, uri });
    return data;
  }

  /** The content of the next event, which must be the one after that of the last call. */
  of(event) {
    if (event.side === SNAPSHOT) {
      return this.snapshot(event);
    }
    if (event.rule >= 101 && event.rule <= 106) {
      return new Uint8Array();
    }
    for (;;) {
      const content = this.streams[event.side].next();
      if (content !== null) {
        return content;
      }
      this.readRecord();
    }
  }
}
