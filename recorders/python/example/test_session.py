"""A test suite that lets lspcheck judge the sessions of the client under test.

With COUNT_CODE_POINTS=1 the client counts columns in code points although UTF-16 was agreed.
Both unittest and pytest run it.
"""

import asyncio
import json
import os
import subprocess
import sys
import tempfile
import unittest
from pathlib import Path

HERE = Path(__file__).resolve().parent
sys.path.insert(0, str(HERE.parent))

from lspcheck_recorder import assert_clean, is_installed, record

SERVER = [sys.executable, str(HERE / "server.py")]
PIPES = {"stdin": subprocess.PIPE, "stdout": subprocess.PIPE}
URI = "file:///greeting.txt"


def frame(**message):
    content = json.dumps({"jsonrpc": "2.0", **message}).encode()
    return b"Content-Length: %d\r\n\r\n%s" % (len(content), content)


class Document:
    """What the client under test holds, and the messages that send the server each edit of it."""

    def __init__(self, text):
        self.text, self.version = text, 1

    def opened(self):
        document = {"uri": URI, "languageId": "plaintext", "version": 1, "text": self.text}
        return frame(method="textDocument/didOpen", params={"textDocument": document})

    def appended(self, text):
        """Inserts text at the end of the first line."""
        line, rest = self.text.split("\n", 1)
        units = len(line.encode("utf-16-le")) // 2
        column = len(line) if "COUNT_CODE_POINTS" in os.environ else units
        self.text, self.version = f"{line}{text}\n{rest}", self.version + 1
        place = {"line": 0, "character": column}
        params = {
            "textDocument": {"uri": URI, "version": self.version},
            "contentChanges": [{"range": {"start": place, "end": place}, "text": text}],
        }
        return frame(method="textDocument/didChange", params=params)


@unittest.skipUnless(is_installed(), "no lspcheck")
class SessionTest(unittest.TestCase):
    def setUp(self):
        folder = tempfile.TemporaryDirectory()
        self.addCleanup(folder.cleanup)
        self.folder = folder.name

    def test_session_is_clean(self):
        with subprocess.Popen(SERVER, **PIPES) as child:
            log = record(child, self.folder)

            def send(message):
                child.stdin.write(message)
                child.stdin.flush()

            def answer():
                size = int(child.stdout.readline().split()[1])
                child.stdout.readline()
                child.stdout.read(size)

            send(frame(id=1, method="initialize", params={"capabilities": {}}))
            answer()
            send(frame(method="initialized", params={}))
            document = Document("good 😀 morning\nto all\n")
            send(document.opened())
            log.snapshot(URI, document.version, document.text)
            send(document.appended("!"))
            log.snapshot(URI, document.version, document.text)
            send(frame(id=2, method="shutdown"))
            answer()
            send(frame(method="exit"))
        assert_clean(log, "--complete", compared=True)

    def test_session_over_asyncio_is_clean(self):
        log = asyncio.run(self.over_asyncio())
        assert_clean(log, "--complete", compared=True)

    async def over_asyncio(self):
        """A session without edits, as pygls's client makes one: over streams of asyncio."""
        child = await asyncio.create_subprocess_exec(*SERVER, **PIPES)
        log = record(child, self.folder)

        async def answer():
            size = int((await child.stdout.readline()).split()[1])
            await child.stdout.readuntil(b"\r\n")
            await child.stdout.readexactly(size)

        child.stdin.write(frame(id=1, method="initialize", params={"capabilities": {}}))
        await answer()
        document = Document("good 😀 morning\nto all\n")
        child.stdin.writelines([frame(method="initialized", params={}), document.opened()])
        log.snapshot(URI, document.version, document.text)
        child.stdin.write(frame(id=2, method="shutdown"))
        await answer()
        child.stdin.write(frame(method="exit"))
        await child.wait()
        return log


if __name__ == "__main__":
    unittest.main()
