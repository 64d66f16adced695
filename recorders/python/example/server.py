"""A small language server that only answers requests."""

import json
import re
import sys


def main():
    while header := sys.stdin.buffer.readline():
        sys.stdin.buffer.readline()
        size = int(re.fullmatch(rb"Content-Length: (\d+)\r\n", header)[1])
        message = json.loads(sys.stdin.buffer.read(size))
        if message["method"] == "exit":
            return
        if "id" in message:
            sync = {"capabilities": {"textDocumentSync": 2}}
            result = sync if message["method"] == "initialize" else None
            answer = {"jsonrpc": "2.0", "id": message["id"], "result": result}
            content = json.dumps(answer).encode()
            sys.stdout.buffer.write(b"Content-Length: %d\r\n\r\n%s" % (len(content), content))
            sys.stdout.buffer.flush()


if __name__ == "__main__":
    main()
