// Runs lspcheck on one log, off the page's own thread: it is given a module, a file and what to do,
// and tells how far the log was read and what came of it.

import { run } from "../module.mjs";
import { NoPage, pageOf } from "./document.mjs";

// How many bytes of a file are read at once, and how many milliseconds pass before progress is told
// again.
const BUFFER = 1 << 22, PAUSE = 100;

const STDIN = 0, STDOUT = 1;

/** A file, read in pieces. */
class Log {
  constructor(file) {
    Object.assign(this, { file, name: file.name, size: file.size });
    Object.assign(this, { from: 0, held: new Uint8Array() });
  }

  /** Its bytes from one place to another. */
  read(from, to) {
    return new Uint8Array(new FileReaderSync().readAsArrayBuffer(this.file.slice(from, to)));
  }

  /** Bytes from a place on, as many as are held there or can be read at once. */
  piece(at) {
    if (at < this.from || at >= this.from + this.held.length) {
      this.held = this.read(at, Math.min(at + BUFFER, this.size));
      this.from = at;
    }
    return this.held.subarray(at - this.from);
  }
}

/** The system of one run: the log is its standard input, and there are no other files. */
class System {
  constructor(log, write, tell) {
    Object.assign(this, { log, tell, outputs: write, at: 0 });
  }

  open() {
    throw Object.assign(new Error("no files"), { code: "ENOENT" });
  }

  close() {}

  read(fd, bytes) {
    if (fd !== STDIN) {
      throw Object.assign(new Error("no files"), { code: "EBADF" });
    }
    const piece = this.at < this.log.size ? this.log.piece(this.at).subarray(0, bytes.length) : [];
    bytes.set(piece);
    this.at += piece.length;
    this.tell(this.at);
    return piece.length;
  }

  write(fd, bytes) {
    this.outputs(fd, bytes.slice());
    return bytes.length;
  }

  size() {
    return 0;
  }

  isTerminal() {
    return false;
  }

  clock() {
    return BigInt(Math.round(performance.now() * 1e6));
  }
}

/** Tells the page how far the log was read, now and then. */
function teller(words, size) {
  let last = performance.now();
  return (at) => {
    if (performance.now() - last > PAUSE) {
      last = performance.now();
      postMessage({ is: "progress", words, at, size });
    }
  };
}

function outputOf(module, log, words) {
  const pieces = { 1: [], 2: [] };
  const system = new System(log, (fd, bytes) => pieces[fd].push(bytes), teller(words, log.size));
  const status = run(module, words, system);
  return { is: "output", status, out: new Blob(pieces[1]), err: new Blob(pieces[2]) };
}

/** The checker as the maker of pages uses it: a run whose status is a fault of its own ends it. */
function checkerOf(module, log) {
  return {
    run(words, write) {
      let said = "";
      const system = new System(log, (fd, bytes) => {
        if (fd === STDOUT) {
          write(bytes);
        } else {
          said += new TextDecoder().decode(bytes);
        }
      }, teller(words, log.size));
      const status = run(module, words, system);
      if (![0, 1, 2, 5].includes(status)) {
        throw new NoPage(said.trim().replace(/^lspcheck: /gm, "").replaceAll("\n", "; "));
      }
      return status;
    },
  };
}

async function answer({ module, file, words, parts }) {
  const log = new Log(file);
  try {
    return words ? outputOf(module, log, words) :
      { is: "page", ...await pageOf(parts, log, checkerOf(module, log)) };
  } catch (error) {
    const isTold = error instanceof NoPage;
    return { is: "fault", text: isTold ? error.message : `the checker stopped: ${error.message}` };
  }
}

onmessage = async ({ data }) => postMessage(await answer(data));
