// A test suite that lets lspcheck judge the sessions of the client under test.
//
// With COUNT_CODE_POINTS=1 the client counts columns in code points although UTF-16 was agreed.

"use strict";

const { spawn } = require("child_process");
const { once } = require("events");
const fs = require("fs");
const os = require("os");
const path = require("path");
const test = require("node:test");
const { record, assertClean, isInstalled } = require("../lspcheck-recorder.cjs");

const URI = "file:///greeting.txt";

/** The client under test: it holds one document, and sends the server each edit of it. */
class Client {
  constructor(child) {
    this.child = child;
    this.requests = 0;
  }

  send(message) {
    const content = Buffer.from(JSON.stringify({ jsonrpc: "2.0", ...message }));
    this.child.stdin.write(`Content-Length: ${content.length}\r\n\r\n`);
    this.child.stdin.write(content);
  }

  /** Sends a request, and waits for its answer, which the server writes in one piece. */
  async ask(method, params) {
    this.send({ id: ++this.requests, method, params });
    await once(this.child.stdout, "data");
  }

  open(text) {
    [this.text, this.version] = [text, 1];
    const textDocument = { uri: URI, languageId: "plaintext", version: 1, text };
    this.send({ method: "textDocument/didOpen", params: { textDocument } });
  }

  /** Inserts text at the end of the first line. */
  append(text) {
    const line = this.text.split("\n")[0];
    const column = process.env.COUNT_CODE_POINTS ? [...line].length : line.length;
    this.text = this.text.replace(line, line + text);
    this.version += 1;
    const place = { line: 0, character: column };
    const contentChanges = [{ range: { start: place, end: place }, text }];
    const textDocument = { uri: URI, version: this.version };
    this.send({ method: "textDocument/didChange", params: { textDocument, contentChanges } });
  }
}

test("the session is clean", { skip: !isInstalled() }, async () => {
  const folder = fs.mkdtempSync(path.join(os.tmpdir(), "session-"));
  const child = spawn(process.execPath, [path.join(__dirname, "server.js")]);
  const log = record(child, folder);
  const client = new Client(child);
  await client.ask("initialize", { capabilities: {} });
  client.send({ method: "initialized", params: {} });
  client.open("good 😀 morning\nto all\n");
  log.snapshot(URI, client.version, client.text);
  client.append("!");
  log.snapshot(URI, client.version, client.text);
  await client.ask("shutdown");
  client.send({ method: "exit" });
  await once(child, "close");
  try {
    assertClean(log, "--complete", { compared: true });
  } finally {
    fs.rmSync(folder, { recursive: true });
  }
});
