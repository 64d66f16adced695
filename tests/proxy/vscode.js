// Runs the extension of recorders/vscode against a stand-in of VS Code's API, with a client
// that sends the same changes to a server through the proxy.
//
// usage: node vscode.js EXTENSION URI TRACE COMMAND ..
//
// It begins when TRACE says that the proxy records. With LOSE=N, the client loses its N-th change.

"use strict";

const { spawn } = require("child_process");
const { EventEmitter } = require("events");
const fs = require("fs");
const Module = require("module");

const [extension, uri, trace, ...command] = process.argv.slice(2);
const server = spawn(command[0], command.slice(1), { stdio: ["pipe", "pipe", "inherit"] });

function send(message) {
  const content = Buffer.from(JSON.stringify({ jsonrpc: "2.0", ...message }));
  server.stdin.write(`Content-Length: ${content.length}\r\n\r\n`);
  server.stdin.write(content);
}

// The part of the API that the extension uses, as https://code.visualstudio.com/api describes it:
// an event is a function that takes a listener and returns a disposable.
const events = new EventEmitter();
const event = (name) => (listener) => {
  events.on(name, listener);
  return { dispose: () => events.off(name, listener) };
};
const vscode = {
  workspace: { onDidOpenTextDocument: event("open"), onDidChangeTextDocument: event("change") },
};
const load = Module._load;
Module._load = (name, ...rest) => (name === "vscode" ? vscode : load(name, ...rest));
const context = { subscriptions: [] };
require(extension).activate(context);

const document = {
  uri: { toString: () => uri },
  version: 1,
  text: "one\n",
  getText() {
    return this.text;
  },
};

function change(count) {
  document.version += 1;
  document.text += `line ${count} 😀 é\n`;
  events.emit("change", { document, contentChanges: [] });
  if (count !== Number(process.env.LOSE)) {
    const start = { line: count, character: 0 };
    send({
      method: "textDocument/didChange",
      params: {
        textDocument: { uri, version: document.version },
        contentChanges: [{ range: { start, end: start }, text: `line ${count} 😀 é\n` }],
      },
    });
  }
}

function begin() {
  if (!fs.existsSync(trace) || !fs.readFileSync(trace, "utf8").includes('["recorder"')) {
    setTimeout(begin, 20);
    return;
  }
  send({ method: "initialized", params: {} });
  events.emit("open", document);
  const item = { uri, languageId: "c", version: 1, text: document.text };
  send({ method: "textDocument/didOpen", params: { textDocument: item } });
  for (let count = 1; count <= 5; count++) {
    setTimeout(() => change(count), 100 * count);
  }
  setTimeout(() => {
    context.subscriptions.forEach((it) => it.dispose());
    send({ id: 2, method: "shutdown" });
    server.stdout.once("data", () => send({ method: "exit" }));
  }, 900);
}

send({ id: 1, method: "initialize", params: { capabilities: {} } });
server.stdout.once("data", begin);
server.on("exit", (status) => process.exit(status));
