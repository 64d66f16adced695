// Runs lspcheck on files in memory, for the tests: in Node and in a browser.

import { run } from "../module.mjs";

/** An error of a system, as Node throws it. */
function refusal(code) {
  return Object.assign(new Error(code), { code });
}

/** The bytes that were written to a file, as one array. */
function joined(pieces) {
  const whole = new Uint8Array(pieces.reduce((sum, it) => sum + it.length, 0));
  let at = 0;
  for (const it of pieces) {
    whole.set(it, at);
    at += it.length;
  }
  return whole;
}

/**
 * The system of one run: its standard input, no files, and calls that fail. `kind` is `read`, `write`,
 * or `nothing`, for a write that takes nothing: the call with the number `at` fails, and each takes at
 * most `most` bytes.
 */
class Memory {
  constructor({ input, kind, at = 0, most = Infinity }) {
    Object.assign(this, { input, kind, at, most, taken: 0, calls: 0, written: { 1: [], 2: [] } });
  }

  fails(kind) {
    return kind === this.kind && ++this.calls === this.at;
  }

  open() {
    throw refusal("ENOENT");
  }

  close() {}

  read(fd, bytes) {
    if (this.fails("read")) {
      throw refusal("EIO");
    }
    const piece = this.input.subarray(this.taken, this.taken + Math.min(bytes.length, this.most));
    bytes.set(piece);
    this.taken += piece.length;
    return piece.length;
  }

  write(fd, bytes) {
    if (fd === 1 && this.fails("nothing")) {
      return 0;
    }
    if (fd === 1 && this.fails("write")) {
      throw refusal("EIO");
    }
    const taken = bytes.slice(0, fd === 1 ? this.most : Infinity);
    this.written[fd].push(taken);
    return taken.length;
  }

  size() {
    return this.input.length;
  }

  isTerminal() {
    return false;
  }

  clock() {
    return 0n;
  }
}

/**
 * What one run gives, and how many calls of its kind it made; the status `stopped` is none of the
 * program's own. `codec` makes bytes of texts, and texts of bytes.
 */
export function answer(module, given, codec) {
  const system = new Memory({ ...given, input: codec.bytes(given.input) });
  const { written } = system;
  try {
    const status = run(module, given.words, system, given.bound);
    const [out, err] = [1, 2].map((fd) => codec.text(joined(written[fd])));
    return { status, out, err, calls: system.calls };
  } catch (error) {
    const err = codec.text(new TextEncoder().encode(String(error.stack)));
    return { status: "stopped", out: "", err, calls: system.calls };
  }
}
