"""Runs lspcheck-replay for the tests, and reads what it writes."""

import json
import re
import subprocess
import sys
from concurrent.futures import ThreadPoolExecutor
from pathlib import Path

import sessions
from processes import SECONDS, bytecode_of

HERE = Path(__file__).resolve().parent
TOP = HERE.parent.parent
COMMAND, HASTY = TOP / "replay/lspcheck-replay", HERE / "hasty.py"
SERVER = [sys.executable, "-IS", bytecode_of(HERE / "server.py")]
# The document of a session of one.
URI = "file:///tmp/truth.c"
# How many trials run at a time, and after how many seconds one is given up, which starts up to a hundred
# servers.
WIDTH, MOST = 4, 10 * SECONDS

DIFFERS = re.compile(r'answers differ after editor (\d+) event (\d+) notification "textDocument/did\w+"')
# How many questions the server of the tests is asked about a document: three, and these once the lines are
# overwritten. Diagnostics are none, since it has none.
QUESTIONS = 6


def run(program, log, *faults, options=(), command=HASTY, server=SERVER, **how):
    """Runs the command on a log with the server of the tests."""
    patience = [] if "--wait" in options else ["--wait", SECONDS]
    words = [sys.executable, command, "--program", program, *patience, *options, log, *server, *faults]
    how = {"capture_output": True, "text": True, "timeout": MOST, **how}
    return subprocess.run([str(it) for it in words], **how)


def run_waiting(program, log, *faults, is_wanted):
    """The same with `--wait`, for a server that leaves something unanswered. On a busy machine other
    answers may take long, too, so the time grows until the result is the one that is wanted. Also the
    time."""
    for seconds in (2, 8, 32, 128):
        done = run(program, log, *faults, options=["--wait", seconds])
        if is_wanted(done, seconds):
            break
    return done, seconds


def check(program, log):
    """The first line of the report of lspcheck."""
    done = subprocess.run([program, "check", log], capture_output=True, text=True)
    return done.stdout.partition("\n")[0]


def blocks(done):
    """The lines about each document: its URI, and the lines up to the next document."""
    lines = done.stdout.splitlines()
    start = next((it for it, line in enumerate(lines) if line.startswith("replayed ")), len(lines))
    found = {}
    for line in lines[start:]:
        if line.startswith("document "):
            uri, _ = json.JSONDecoder().raw_decode(line, len("document "))
            found[uri] = []
        if found:
            found[uri].append(line)
    return found


def named(done):
    """For each document, the number and the event of the message that is named."""
    found = {}
    for uri, lines in blocks(done).items():
        matches = [match for match in map(DIFFERS.fullmatch, lines) if match]
        assert len(matches) < 2, lines
        if matches:
            found[uri] = int(matches[0][1]), int(matches[0][2])
    return found


def side_by_side(trial, rows):
    """Runs a trial of each row, some at a time. Fails with all faults, each with its row."""
    def tried(row):
        try:
            return trial(*row)
        except AssertionError as error:
            return f"{row}: {error}"

    with ThreadPoolExecutor(WIDTH) as pool:
        faults = [it for it in pool.map(tried, rows) if it]
    assert not faults, "\n".join(faults)


def is_clean(done):
    """Fails unless standard error is one line of the command, or nothing."""
    assert "Traceback" not in done.stderr, done.stderr
    lines = done.stderr.splitlines()
    assert not lines or lines[0].startswith("lspcheck-replay: "), done.stderr


def opened(text="int a;\n", uri=URI, language="c", **more):
    """A session that has opened a document."""
    session = sessions.Session(5, **more)
    session.open(uri, text, language)
    return session


def place(session, number):
    """What a message of the editor is called."""
    return f"editor {number} event {session.numbers[number]}"
