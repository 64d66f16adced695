// Runs lspcheck.wasm in a browser for the tests, which call these two functions. Bytes are in base64.

import { answer } from "./cases.mjs";

let module = null;

const codec = {
  bytes: (text) => Uint8Array.from(atob(text), (it) => it.charCodeAt(0)),
  text(some) {
    let found = "";
    for (let at = 0; at < some.length; at += 0x8000) {
      found += String.fromCharCode(...some.subarray(at, at + 0x8000));
    }
    return btoa(found);
  },
};

globalThis.compileModule = async (given) => {
  module = await WebAssembly.compile(codec.bytes(given));
  return true;
};

globalThis.answerOf = (given) => answer(module, given, codec);
