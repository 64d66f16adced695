"""An editor and a server that the tests of the proxy put at its two ends."""

import itertools
import json
import os
import select
import subprocess
import sys
import time
from pathlib import Path
from typing import NamedTuple

from processes import SECONDS, until

PROXY = Path(__file__).resolve().parent.parent.parent / "recorders/proxy"
TRACED = Path(__file__).resolve().parent / "traced.py"
PYTHON = "/usr/bin/python3" if os.path.exists("/usr/bin/python3") else sys.executable

# How long the proxy waits after a save, in seconds.
QUIET = 1

# How many seconds it waits for its recorder when the server has ended.
PATIENCE = 2

# How soon `didSave` comes after the file was written, and after the change, in nanoseconds, from an
# editor that sends both when it has written the file.
PROMPT, TOGETHER = 150_000_000, 20_000_000

# How many times as long the proxy of a test waits, until the machine is fast enough for the test.
TIMES = (1, 2, 4, 8, 16, 32)

# A server that answers each request, ends at `exit`, and sleeps, dies or refuses if it is asked to.
SERVER = r"""
import json, os, sys, time
while True:
    size = 0
    while line := sys.stdin.buffer.readline().strip():
        size = int(line.split()[1])
    if not size:
        break
    message = json.loads(sys.stdin.buffer.read(size))
    method = message["method"]
    if method == "exit":
        sys.exit(0)
    if method == "sleep":
        time.sleep(message["params"][0])
    if method == "die":
        os.kill(os.getpid(), message["params"][0])
    if method == "leave":
        os._exit(message["params"][0])
    if "id" in message:
        result = {"capabilities": {"textDocumentSync": 2}} if method == "initialize" else None
        reply = {"result": result}
        if method == "refuse":
            reply = {"error": {"code": -32602, "message": "no such document"}}
        answer = json.dumps({"jsonrpc": "2.0", "id": message["id"], **reply})
        sys.stdout.write(f"Content-Length: {len(answer)}\r\n\r\n{answer}")
        sys.stdout.flush()
"""


class Heard(NamedTuple):
    """A message of the editor that the recorder has followed: which, when it began to, the time of
    the message's last bytes in nanoseconds, and how many documents wait for a snapshot then."""

    method: str
    uri: str
    begun: float
    now: int
    due: int


class Editor:
    """An editor whose server the proxy runs, with a folder for its logs and its files."""

    traces = itertools.count(1)

    def __init__(self, place, *options, server=(PYTHON, "-c", SERVER), logs=None, **how):
        self.place, self.logs = place, logs or place / "logs"
        self.said, self.trace = place / "said", place / f"trace-{next(self.traces)}"
        setting = {**os.environ, **how.pop("setting", {})}
        waits = [str(how.pop("patience", SECONDS)), str(how.pop("times", 1))]
        words = [PYTHON, "-B", TRACED, self.trace, *waits, *options, self.logs, *server]
        pipes = {"stdin": subprocess.PIPE, "stdout": subprocess.PIPE}
        # The proxy and its recorder hold this pipe open for as long as they run.
        alive, held = os.pipe()
        self.alive = os.fdopen(alive, "rb")
        with open(self.said, "wb") as said:
            how = {"stderr": said, "pass_fds": [held], **pipes, **how}
            self.process = subprocess.Popen(words, env=setting, **how)
        os.close(held)
        self.count = 0

    def write(self, data):
        self.process.stdin.write(data)
        self.process.stdin.flush()

    def tell(self, method, params=None, **more):
        message = {"jsonrpc": "2.0", "method": method, **more}
        message.update({"params": params} if params is not None else {})
        content = json.dumps(message).encode()
        self.write(b"Content-Length: %d\r\n\r\n%s" % (len(content), content))

    def ask(self, method, params=None):
        """Sends a request and waits for its answer; whether that is the answer to it."""
        self.count += 1
        self.tell(method, params, id=self.count)
        head = self.process.stdout.readline()
        self.process.stdout.readline()
        answer = self.process.stdout.read(int(head.split()[1])) if head else b"{}"
        return json.loads(answer).get("id") == self.count

    def start(self):
        self.ask("initialize", {"capabilities": {}})
        self.tell("initialized", {})
        return self

    def open(self, uri, text, version=1):
        document = {"uri": uri, "languageId": "c", "version": version, "text": text}
        self.tell("textDocument/didOpen", {"textDocument": document})

    def change(self, uri, version, text, span=None):
        change = {"text": text, **({"range": span} if span else {})}
        document = {"uri": uri, "version": version}
        self.tell("textDocument/didChange", {"textDocument": document, "contentChanges": [change]})

    def save(self, uri):
        self.tell("textDocument/didSave", {"textDocument": {"uri": uri}})

    def close(self, uri):
        self.tell("textDocument/didClose", {"textDocument": {"uri": uri}})

    def quit(self):
        """Ends the session; the proxy's status, or None if it doesn't end."""
        try:
            self.ask("shutdown")
            self.tell("exit")
        except (BrokenPipeError, ValueError):
            pass
        return self.wait()

    def wait(self):
        """The proxy's status, once its recorder has ended, too; None if one of them doesn't end."""
        status = self.ended()
        return status if self.has_recorded(SECONDS) else None

    def ended(self):
        """The proxy's status, or None if it doesn't end."""
        try:
            return self.process.wait(SECONDS)
        except subprocess.TimeoutExpired:
            self.process.kill()
            return None

    def has_recorded(self, seconds=0):
        """Whether the recorder has ended, within some seconds."""
        poll = select.poll()
        poll.register(self.alive, 0)
        return bool(poll.poll(seconds * 1000))

    def traced(self, kind):
        """What the recorder has done of this kind by now."""
        whole = self.trace.read_bytes().rpartition(b"\n")[0] if self.trace.exists() else b""
        done = map(json.loads, whole.splitlines())
        return [rest for what, *rest in done if what in kind]

    def heard(self):
        """The messages that the recorder has followed by now."""
        return [Heard(*it) for it in self.traced(["heard"])]

    def recorder(self):
        """The number of the process that records."""
        until(lambda: self.traced(["recorder"]))
        return self.traced(["recorder"])[0][0]

    def notes(self, path, count):
        """Waits until the recorder has noted that a file was written this many times."""
        return until(lambda: [it for it, _ in self.traced(["noted"])].count(str(path)) >= count)

    def settles(self):
        """Waits until the recorder has followed all that was sent, and no document waits for its
        snapshot."""
        sent(self)
        return until(lambda: self.traced(["heard", "read"])[-1][-1] == 0)

    def log(self):
        """The bytes of the log, once there is one."""
        found = sorted(self.logs.glob("*.log"))
        return found[0].read_bytes() if found else b""

    def has_logged(self, text):
        """Waits until the log has this text."""
        return until(lambda: text in self.log())

    def snapshots(self):
        """The snapshots in the log by now: versions, URIs and texts."""
        return [(int(sizes[0]), *rest) for kind, sizes, *rest in records(self.log()) if kind == "T"]

    def texts(self):
        return [(version, text) for version, _, text in self.snapshots()]

    def taken(self, count):
        """The versions and texts of the snapshots, once there are this many."""
        until(lambda: len(self.texts()) >= count)
        return self.texts()

    def words(self):
        """What was said on standard error."""
        return self.said.read_text()


def records(log):
    """The whole records of a log: kind, numbers, and contents."""
    at = log.find(b"\n") + 1
    while (end := log.find(b"\n", at)) >= 0:
        kind, *numbers = log[at:end].decode().split()
        at, contents = end + 1, []
        for size in map(int, numbers[-2:] if kind == "T" else numbers):
            contents.append(log[at : at + size])
            at += size + 1
        if at > len(log):
            return
        yield (kind, numbers, *contents)


def snapshot(uri, version, text):
    """A record of a snapshot."""
    return b"T %d %d %d\n%s\n%s\n" % (version, len(uri), len(text), uri, text)


def saved(place, name="a.c", text=b"one\n", shown=None, **how):
    """A session with an open document whose file has this text."""
    file = place / name
    file.write_bytes(text)
    editor = Editor(place, **how).start()
    editor.open(file.as_uri(), text.decode() if shown is None else shown)
    return editor, file, file.as_uri()


def sent(editor):
    """Waits until the recorder has followed all that was sent, and until a second write to a file
    has another time."""
    count = len([it for it in editor.heard() if it.method == "wait"])
    editor.ask("wait")
    until(lambda: len([it for it in editor.heard() if it.method == "wait"]) > count)
    time.sleep(0.1)


def put(file, text):
    """Writes another file and renames it, so that nobody sees a part of the text."""
    other = file.with_suffix(".new")
    other.write_text(text)
    other.replace(file)


def in_time(attempt):
    """A test of what happens within a time. The attempt, which gets a folder and how many times as
    long its proxy waits, gives what was found, or None if the machine was too slow for it. Then it
    is tried again, with a proxy that waits longer."""

    def trial(place):
        for times in TIMES:
            part = place / f"times-{times}"
            part.mkdir()
            found = attempt(part, times)
            if found is not None:
                return found
        return [("the machine is fast enough to try it", False, TIMES)]

    return trial
