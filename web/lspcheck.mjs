#!/usr/bin/env node
/*! lspcheck for Node, compiled to WebAssembly: the words, output and statuses of the program.
 *
 *   node lspcheck.mjs check session.log
 *
 * For Node 24 or later. The environment's LSPCHECK_MEMORY bounds its memory, in bytes.
 */

import fs, { readFileSync } from "node:fs";
import process from "node:process";
import tty from "node:tty";
import v8 from "node:v8";
import { gunzipSync } from "node:zlib";
import { run } from "./module.mjs";

// package/wasm puts the program and its build in here.
const MODULE = readFileSync(new URL("lspcheck.wasm", import.meta.url));
const BUILD = "(unbuilt)";

// The statuses where the environment is wrong, and where the program itself fails, as if a signal
// had ended it.
const BAD_USAGE = 64, BROKEN = 134;

const STDOUT = 1;

// The first byte of what is compressed.
const GZIP = 0x1f;

// How long a call waits, in milliseconds, where nothing can be read or written yet.
const PAUSE = 5;

function pause() {
  Atomics.wait(new Int32Array(new SharedArrayBuffer(4)), 0, 0, PAUSE);
}

/** Calls until that is possible: a pipe or a terminal may be one that never waits. */
function waiting(call) {
  for (;;) {
    try {
      return call();
    } catch (error) {
      if (error.code !== "EAGAIN") {
        throw error;
      }
      pause();
    }
  }
}

const system = {
  open: (path) => fs.openSync(path, "r"),
  close: (fd) => fs.closeSync(fd),
  read(fd, bytes) {
    try {
      return waiting(() => fs.readSync(fd, bytes));
    } catch (error) {
      // So Windows says that a pipe has ended.
      if (error.code === "EOF") {
        return 0;
      }
      throw error;
    }
  },
  write: (fd, bytes) => waiting(() => fs.writeSync(fd, bytes)),
  size: (fd) => fs.fstatSync(fd).size,
  isTerminal: (fd) => tty.isatty(fd),
  clock: () => process.hrtime.bigint(),
};

/** Writes the line of the version, which also says how the program was made. */
function writeVersion(fd, bytes) {
  const line = new TextDecoder().decode(bytes).replace("\n", ` ${BUILD}\n`);
  system.write(fd, new TextEncoder().encode(line));
  return bytes.length;
}

/** The system of a run with these words. */
function systemFor(words) {
  const isVersion = words.length === 1 && ["--version", "-V"].includes(words[0]);
  const write = (fd, bytes) => (fd === STDOUT ? writeVersion : system.write)(fd, bytes);
  return isVersion ? { ...system, write } : system;
}

// What Node puts in place of bytes that are not UTF-8.
const REPLACED = "\uFFFD";

/** The words as they were given, of which the program says where one is not UTF-8. */
function asGiven(words) {
  if (!words.some((it) => it.includes(REPLACED)) || !fs.existsSync("/proc/self/cmdline")) {
    return words;
  }
  const all = fs.readFileSync("/proc/self/cmdline"), found = [];
  for (let at = 0, end = 0; (end = all.indexOf(0, at)) >= 0; at = end + 1) {
    found.push(all.subarray(at, end));
  }
  return found.slice(-words.length);
}

// A module that has a 64-bit memory and nothing else.
const MEMORY = Uint8Array.of(0, 0x61, 0x73, 0x6d, 1, 0, 0, 0, 5, 3, 1, 4, 1);

/** Node 20 and 22 have 64-bit memories, too, but only where this says so. Others may not know the
 * words, and would say that on standard error. */
function switchOnMemories() {
  if (!WebAssembly.validate(MEMORY)) {
    v8.setFlagsFromString("--experimental-wasm-memory64");
  }
}

function status(words) {
  const bound = process.env.LSPCHECK_MEMORY;
  if (bound !== undefined && !/^\d{1,18}$/.test(bound)) {
    process.stderr.write("lspcheck: LSPCHECK_MEMORY is not a number of bytes\n");
    return BAD_USAGE;
  }
  try {
    switchOnMemories();
    const module = new WebAssembly.Module(MODULE[0] === GZIP ? gunzipSync(MODULE) : MODULE);
    return run(module, asGiven(words), systemFor(words), bound);
  } catch (error) {
    process.stderr.write(`lspcheck: the program stopped: ${error.message}\n`);
    return BROKEN;
  }
}

process.exitCode = status(process.argv.slice(2));
