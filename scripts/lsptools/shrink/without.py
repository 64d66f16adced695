"""Removes messages of the editor from a log in its normal form, so that the rest can be checked.

usage: lspcheck normal LOG | recorders/without N .. > rest.log

N counts the editor's messages from 1, as reports do: after `no 603 editor 11 event 19`, for a
message that changed nothing, `without 11` removes it.

Exit status: 0 done, 1 the log has no such message, 2 the input is not a log in its normal form, or
the arguments are wrong, 3 the rest cannot be written.
"""

import re
import sys

from lsptools.base import outputs, session_log

FIRST_LINE = re.compile(rb"lsp-session [12]\n")


def copy(log, rest, left_out):
    """Copies a log without these messages; those that it doesn't have."""
    line = log.readline(session_log.LONGEST_LINE)
    if not FIRST_LINE.fullmatch(line):
        raise session_log.Damaged("this is not a log")
    rest.write(line)
    # In the normal form, no record has parts of two messages.
    frames, message = session_log.Frames(), 1
    for record in session_log.records(log):
        is_editor = record.kind == session_log.EDITOR
        if not is_editor or message not in left_out:
            rest.write(record.encoded())
        if is_editor:
            ended = len(list(frames.add(record.data)))
            if ended > 1 or ended and len(frames.held) > frames.start:
                raise session_log.Damaged("this is not the normal form: use 'lspcheck normal'")
            message += ended
    return {number for number in left_out if number >= message}


def main():
    words, name = sys.argv[1:], outputs.called("recorders/without")
    if words in (["-h"], ["--help"]):
        print(__doc__.strip().replace("recorders/without", name))
        return 0
    if not all(re.fullmatch("[1-9][0-9]*", word) for word in words):
        outputs.say(f"without: usage: lspcheck normal LOG | {name} N ..")
        return 2
    try:
        with open(0, "rb") as log:
            missing = copy(log, sys.stdout.buffer, set(map(int, words)))
    except session_log.Damaged as damage:
        outputs.say(f"without: standard input: {damage}")
        return 2
    except OSError as error:
        outputs.say(f"without: standard input: {error.strerror}")
        return 2
    for number in sorted(missing):
        outputs.say(f"without: the editor has no message {number}")
    return 1 if missing else 0

