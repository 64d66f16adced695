#!/usr/bin/env python3
"""Runs the proxy for its tests. It is the proxy itself, with four changes: it writes to a file
what it has done by now, so that a test waits for that instead of for a time; at the end it waits as
long as it is told; and whatever it waits for in a session can take a number of times as long, for
a machine that is too slow otherwise. With RECORDER_IS_LATE, its recorder begins that many seconds
late, as it may on a busy machine.

usage: traced.py TRACE PATIENCE TIMES [ARGUMENT OF THE PROXY ..]

Each line of TRACE is a list in JSON, whose first word says what was done:

    recorder NUMBER                  the number of the process that records
    heard METHOD URI BEGUN NOW DUE   a message of the editor: when that began, the time of its bytes
                                     in nanoseconds, and how many documents wait for a snapshot
    read URI DUE                     a saved file was read, and its snapshot recorded or dropped
    noted PATH TEXT                  something was written to a file: the hash of its text, or null
"""

import json
import os
import sys
import time
from pathlib import Path

sys.dont_write_bytecode = True

sys.path.insert(0, str(Path(__file__).resolve().parent.parent.parent / "scripts"))

from lsptools.base import outputs
from lsptools.proxy import command, files, log, snapshots


def trace_all(tell):
    """Tells what each part of the recorder does, after it has done it."""
    record, hear = log.record, snapshots.Saves.hear
    read_next, add = snapshots.Saves.read_next, files.Written.add

    def traced_record(*given):
        time.sleep(float(os.environ.get("RECORDER_IS_LATE", 0)))
        tell("recorder", os.getpid())
        record(*given)

    def traced_hear(saves, message):
        begun = time.monotonic()
        hear(saves, message)
        if isinstance(message, dict):
            params = message.get("params")
            document = params.get("textDocument") if isinstance(params, dict) else None
            uri = document.get("uri") if isinstance(document, dict) else None
            tell("heard", message.get("method"), uri, begun, saves.now, len(saves.due))

    def traced_read_next(saves):
        uri = next(iter(saves.due))
        read_next(saves)
        tell("read", uri, len(saves.due))

    def traced_add(written, text):
        add(written, text)
        tell("noted", os.fsdecode(written.path), text)

    log.record = traced_record
    snapshots.Saves.hear, snapshots.Saves.read_next = traced_hear, traced_read_next
    files.Written.add = traced_add


def main(trace, patience, times, *words):
    command.PATIENCE = snapshots.PATIENCE = float(patience)
    snapshots.QUIET *= float(times)
    snapshots.PROMPT *= float(times)
    snapshots.TOGETHER *= float(times)
    # The server does not get this file, since no program that is started does.
    file = os.open(trace, os.O_WRONLY | os.O_CREAT | os.O_APPEND, 0o600)
    trace_all(lambda *done: os.write(file, json.dumps(done).encode() + b"\n"))
    sys.argv[1:] = words
    return command.main()


if __name__ == "__main__":
    sys.exit(outputs.ended("proxy", main, *sys.argv[1:]))
