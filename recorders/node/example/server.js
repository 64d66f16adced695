// A small language server that only answers requests.

"use strict";

let input = Buffer.alloc(0);

function answer(message) {
  const result =
    message.method === "initialize" ? { capabilities: { textDocumentSync: 2 } } : null;
  const content = Buffer.from(JSON.stringify({ jsonrpc: "2.0", id: message.id, result }));
  const header = Buffer.from(`Content-Length: ${content.length}\r\n\r\n`);
  process.stdout.write(Buffer.concat([header, content]));
}

process.stdin.on("data", (data) => {
  input = Buffer.concat([input, data]);
  for (;;) {
    const found = /^Content-Length: (\d+)\r\n\r\n/.exec(input.toString("latin1"));
    const end = found && found[0].length + Number(found[1]);
    if (!found || input.length < end) {
      return;
    }
    const message = JSON.parse(input.subarray(found[0].length, end));
    input = input.subarray(end);
    if (message.method === "exit") {
      process.exit(0);
    }
    if (message.id !== undefined) {
      answer(message);
    }
  }
});
