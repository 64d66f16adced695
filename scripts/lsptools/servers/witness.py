"""What the server and lspcheck say about a message that was found."""

import time
from contextlib import suppress

from lsptools.servers.drive import Run
from lsptools.servers.server import Ended, TimedOut

# How many lines of standard error are shown, and for how many seconds it must be still before they
# begin, if it is within this time.
MOST_LINES, STILL, MOST_WAITED = 10, 0.2, 2

# Who is at fault if a note of lspcheck is on the message: what RULES and REPORT say about it.
SENTENCES = {
    "range-length": "The rangeLength is wrong. LSP 3.17 calls it deprecated, and most servers "
    "ignore it: the editor should leave it out, or count it in the agreed encoding.",
    "past-end": "The range ends past the end of a line or of the text. LSP 3.17 allows it, and "
    "means the end: the server should take it so, and the editor should not send it.",
}


def notes_on(program, message):
    """The notes of `lspcheck explain` on a message of the editor."""
    lines = program.output("explain").decode("utf-8", "replace").splitlines()
    place = f" event {message.event} editor {message.number}"
    return [it for it in lines if it.startswith("note ") and it.endswith(place)]


def sentences_on(notes):
    """Who is at fault, for the notes of which that is known."""
    names = [it.split()[1] for it in notes]
    return [SENTENCES[it] for it in dict.fromkeys(names) if it in SENTENCES]


def said_after(setting, number):
    """The lines that the server writes to standard error from a message on, at most ten."""
    said = b""
    with Run(setting) as run:
        with suppress(Ended, TimedOut):
            run.advance(number - 1)
            run.hear_all()
            wait_until_still(run.server)
        size = run.server.said_size
        with suppress(Ended, TimedOut):
            run.advance(number)
            run.hear_all()
            wait_until_still(run.server)
        said = run.server.said_since(size)
    lines = [it for it in said.decode("utf-8", "replace").splitlines() if it.strip()]
    return lines[:MOST_LINES]


def wait_until_still(server):
    end, size, since = time.monotonic() + MOST_WAITED, server.said_size, time.monotonic()
    while time.monotonic() < min(end, since + STILL):
        time.sleep(STILL / 10)
        server.catch_up()
        if server.said_size != size:
            size, since = server.said_size, time.monotonic()
