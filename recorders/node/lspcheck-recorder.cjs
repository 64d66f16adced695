// Records what a client and a language server send each other, as a log for lspcheck.
//
//   const { record, assertClean } = require("./lspcheck-recorder.cjs");
//   const child = spawn("some-language-server", ["--stdio"]);
//   const log = record(child, "logs");   // a folder; before the client's first write
//   log.snapshot(uri, version, text);    // whenever the client has sent a change
//   assertClean(log, "--complete");      // once the server has exited
//
// An ES module imports it likewise: import { record, assertClean } from "./lspcheck-recorder.cjs".
// Needs Node 18 and no packages. The types are in lspcheck-recorder.d.cts.

"use strict";

const { AssertionError } = require("assert");
const { spawnSync } = require("child_process");
const fs = require("fs");
const os = require("os");
const { basename, dirname, join } = require("path");

// The version of lspcheck that this file belongs to.
const version = "1.0.0";

// The most bytes that one record may hold.
const MOST = 1048576;

// lspcheck for Node, if there is a copy next to this file: for systems that have no program.
const FOR_NODE = join(__dirname, "lspcheck.mjs");

// The log that was last created for each path.
const created = new Map();

/** Creates a file that did not exist, for its owner alone: PATH, or PATH-2, PATH-3 and so on. */
function create(path) {
  for (let number = 1; ; number++) {
    const name = number === 1 ? path : path.replace(/(\.\w+)?$/, `-${number}$1`);
    try {
      fs.closeSync(fs.openSync(name, "wx", 0o600));
      return name;
    } catch (error) {
      if (error.code !== "EEXIST") {
        throw error;
      }
    }
  }
}

/** Appends to a file, unless it was deleted: a new one would lack the beginning of the log. */
function write(path, bytes) {
  const { O_APPEND, O_NOFOLLOW, O_WRONLY } = fs.constants;
  let file;
  try {
    file = fs.openSync(path, O_APPEND | O_NOFOLLOW | O_WRONLY);
  } catch (error) {
    if (error.code === "ENOENT") {
      return;
    }
    throw error;
  }
  try {
    fs.writeFileSync(file, bytes);
  } finally {
    fs.closeSync(file);
  }
}

/** The local time, as in 2026-11-27T08:15:00+0100. */
function localTime() {
  const date = new Date();
  const minutes = -date.getTimezoneOffset();
  const local = new Date(date.getTime() + minutes * 60000).toISOString().slice(0, 19);
  const [hours, rest] = [Math.floor(Math.abs(minutes) / 60), Math.abs(minutes) % 60];
  return local + (minutes < 0 ? "-" : "+") + String(hours * 100 + rest).padStart(4, "0");
}

// What may come before the server in a command: `env` and its options, a shell, Python that runs a
// module, the commands and settings before that of the server.
const STARTERS = [
  /\s+/,
  /(\S*\/)?env(\s+-([uC]\s+\S+|\S+))*\s/,
  /(\S*\/)?(ba|da|k|z)?sh\s+-\w*c\s/,
  /(\S*\/)?python[\d.]*\s+(-[WX]\s+\S+\s+|-\w+\s+)*-m\s/,
  /(cd|export|source|\.|set|umask)\s[^;&|\n]*[;&|\n]+/,
  /exec\s|\w+=\S*\s/,
];
const BEFORE_SERVER = new RegExp(`^(${STARTERS.map((it) => it.source).join("|")})+`);

/** The name of the server that a command starts. */
function serverName(words) {
  const command = words.join(" ").replace(/["']/g, "");
  const server = command.replace(BEFORE_SERVER, "");
  const [name] = server === command ? words : /^[^\s;&|]*/.exec(server);
  return basename(name || words[0]);
}

/**
 * Why no log is written into a folder, if so: whoever else could replace files there could have
 * this process write to any file of its user. In a sticky folder, such as /tmp, nobody else can.
 */
function whyRefused(folder) {
  if (!process.geteuid) {
    return undefined;
  }
  const found = fs.lstatSync(String(folder).replace(/(?!^)\/+$/, ""));
  if (found.isSymbolicLink()) {
    return "it is a symbolic link";
  }
  if (![process.geteuid(), 0].includes(found.uid)) {
    return "it belongs to another user";
  }
  return (found.mode & 0o1002) === 0o002 ? "others may write to it" : undefined;
}

/** The name of a child's log in a folder: its server, the local time, and its number. */
function ownName(child) {
  const time = localTime().slice(0, 19).replace(/[-:]/g, "");
  const server = serverName([child.spawnfile, ...child.spawnargs.slice(1)]);
  return `${server}-${time}-${child.pid}.log`;
}

/** A log in format 2. Each record is written out at once, so the log is whole at any time. */
class Log {
  constructor(path) {
    this.path = create(path);
    created.set(path, this.path);
    write(this.path, Buffer.from("lsp-session 2\n"));
  }

  /** Records bytes that the client wrote ("E") or read ("S"). */
  bytes(side, data, encoding) {
    const bytes = Buffer.from(data, typeof data === "string" ? encoding || "utf8" : undefined);
    for (let at = 0; at < bytes.length; at += MOST) {
      const piece = bytes.subarray(at, at + MOST);
      this.append(`${side} ${piece.length}\n`, piece);
    }
  }

  /** Records the client's whole text of a document at the version that it keeps for it. */
  snapshot(uri, version, text) {
    const [name, content] = [Buffer.from(uri), Buffer.from(text)];
    this.append(`T ${version} ${name.length} ${content.length}\n`, name, "\n", content);
  }

  append(...parts) {
    write(this.path, Buffer.concat([...parts, "\n"].map((part) => Buffer.from(part))));
  }

  /** Notes in a file next to the log how the server ended. */
  ended(status, signal) {
    const how = signal === null ? `status ${status}` : `signal ${os.constants.signals[signal]}`;
    const path = this.path.replace(/(\.log)?$/, ".exit");
    // One that was left of an earlier log of this name.
    fs.rmSync(path, { force: true });
    fs.writeFileSync(path, `${how}\ntime ${localTime()}\n`, { mode: 0o600, flag: "wx" });
  }
}

/** The path of a child's log: the given one if it is that of a file, or else one in that folder. */
function pathOf(child, path) {
  const isFile = String(path).endsWith(".log") && !isFolder(path);
  fs.mkdirSync(isFile ? dirname(path) : path, { recursive: true, mode: 0o700 });
  if (isFile) {
    return path;
  }
  const why = whyRefused(path);
  if (why) {
    throw new Error(`${path}: no log is written into this folder: ${why}`);
  }
  return join(path, ownName(child));
}

function isFolder(path) {
  return fs.existsSync(path) && fs.statSync(path).isDirectory();
}

/**
 * Records all that passes through the pipes of a child process from now on, in the order in which
 * this process writes and reads it. A path that ends in `.log` is that of the log. Any other is a
 * folder, in which the log gets a name of its own. What does not exist is created. An existing file
 * is kept: the new log then has a number in its name.
 */
function record(child, path) {
  const log = new Log(pathOf(child, path));
  child.once("exit", (status, signal) => log.ended(status, signal));
  const { stdin, stdout } = child;
  const { write, end } = stdin;
  const { emit } = stdout;
  stdin.write = function (data, encoding, ...rest) {
    log.bytes("E", data, typeof encoding === "string" ? encoding : undefined);
    return write.call(this, data, encoding, ...rest);
  };
  stdin.end = function (data, encoding, ...rest) {
    if (data !== undefined && data !== null && typeof data !== "function") {
      log.bytes("E", data, typeof encoding === "string" ? encoding : undefined);
    }
    return end.call(this, data, encoding, ...rest);
  };
  // Every way to read a stream makes it emit "data".
  stdout.emit = function (event, ...rest) {
    if (event === "data") {
      log.bytes("S", rest[0], this.readableEncoding);
    }
    return emit.call(this, event, ...rest);
  };
  return log;
}

/** The programs to try, each with its first words: that which is named, or the one on the PATH and
 * then the one for Node. */
function programs() {
  const found = [process.env.LSPCHECK || "lspcheck"];
  if (!process.env.LSPCHECK && fs.existsSync(FOR_NODE)) {
    found.push(FOR_NODE);
  }
  return found.map((path) => (path.endsWith(".mjs") ? [process.execPath, path] : [path]));
}

/** Runs the first program that there is. */
function spawned(words) {
  let ended;
  for (const [program, ...first] of programs()) {
    ended = spawnSync(program, [...first, ...words], { encoding: "utf8", maxBuffer: Infinity });
    if (!ended.error || ended.error.code !== "ENOENT") {
      break;
    }
  }
  return ended;
}

/** Whether there is a program to check logs with, so that tests without one can be skipped. */
function isInstalled() {
  return spawned(["--version"]).error === undefined;
}

/** Runs lspcheck. */
function run(...words) {
  const ended = spawned(words);
  if (ended.error && ended.error.code === "ENOENT") {
    ended.error.message =
      `ENOENT: no program ${programs()[0][0]}: put lspcheck on the PATH, name it in LSPCHECK, ` +
      "or skip the test: test(name, { skip: !isInstalled() }, ..)";
  }
  if (ended.error) {
    throw ended.error;
  }
  return ended;
}

/** Lines about the snapshots of changes that the client has not sent, and never will. */
function unsent(path) {
  const versions = new Map();
  let found = [];
  const shown = run("show", "--long", path);
  // If texts differ in line ends, what comes after that is not shown.
  for (const line of shown.status === 0 ? shown.stdout.split("\n") : []) {
    const message = /^\d+ editor \w+ "textDocument\/did(\w+)" \d+ (".*?")( -?\d+)?$/.exec(line);
    const snapshot = /^\d+ snapshot (-?\d+) \d+ (".*") (\d+)$/.exec(line);
    if (message && ["Open", "Change"].includes(message[1])) {
      const [, step, uri, sent] = message;
      versions.set(uri, new Set(step === "Open" ? [] : versions.get(uri)).add(Number(sent)));
      found = found.filter((it) => it.uri !== uri);
    } else if (message && message[1] === "Close") {
      versions.delete(message[2]);
    } else if (snapshot) {
      const [, taken, uri, number] = snapshot;
      if (versions.has(uri) && !versions.get(uri).has(Number(taken))) {
        found.push({ uri, text: `snapshot ${number}: version ${taken} of ${uri} was not sent\n` });
      }
    }
  }
  return found.map((it) => it.text).join("");
}

/**
 * Throws what `lspcheck explain` writes about a log, unless its verdict is yes. The log is what
 * `record` returned, or a path that was given to it, or that of any log. The options are those of
 * `lspcheck`. With `{ compared: true }` among them, it also throws if no snapshot was compared with
 * a text, or if a snapshot after the last change of its document was not.
 */
function assertClean(log, ...options) {
  const path = log instanceof Log ? log.path : created.get(log) || log;
  const words = options.filter((option) => typeof option === "string");
  const ended = run("explain", ...words, path);
  const fail = (text) => {
    throw new AssertionError({ message: `${text}log: ${path}` });
  };
  if (ended.status !== 0) {
    fail(`${ended.stdout}${ended.stderr}`);
  }
  if (options.some((option) => option.compared)) {
    const counts = /^snapshots (\d+) unmatched (\d+)$/m.exec(ended.stdout);
    if (counts === null || counts[1] === counts[2]) {
      fail(`no snapshot was compared\n${ended.stdout}`);
    }
    const lines = unsent(path);
    if (lines) {
      fail(`a change was not sent\n${lines}${ended.stdout}`);
    }
  }
  return ended.stdout;
}

module.exports = { record, assertClean, isInstalled, version };
