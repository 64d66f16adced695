// Runs lspcheck.wasm in Node for the tests: each line of standard input is a run, as JSON, and each line of
// standard output what it gave. Bytes are in base64.
//
// usage: node server.mjs lspcheck.wasm

import { readFileSync } from "node:fs";
import process from "node:process";
import readline from "node:readline";
import v8 from "node:v8";
import { answer } from "./cases.mjs";

v8.setFlagsFromString("--experimental-wasm-memory64");
const module = new WebAssembly.Module(readFileSync(process.argv[2]));

const codec = {
  bytes: (text) => new Uint8Array(Buffer.from(text, "base64")),
  text: (some) => Buffer.from(some).toString("base64"),
};

for await (const line of readline.createInterface({ input: process.stdin })) {
  process.stdout.write(`${JSON.stringify(answer(module, JSON.parse(line), codec))}\n`);
}
