"""What a page says for each line of an explanation, and for each note."""

import json
import re

# What the page says for a line of an explanation: of each word, the label and the text.
def event_words(words):
    event, side, number = words[1], words[2], words[3]
    return f"event {event} (" + (f"snapshot {number})" if side == "snapshot" else f"the {side}’s message {number})")


def place(words):
    """A position, counted from 1, as in editors."""
    return f"line {int(words[0]) + 1}, column {int(words[1]) + 1}"


def change_words(words):
    if words[1] == "whole":
        return f"change {words[0]} of the message replaces the whole text"
    start, end = place(words[1:3]), place(words[3:5])
    return f"change {words[0]} of the message, " + (f"at {start}" if start == end else f"from {start} to {end}")


def one_suspect(values):
    """What is said if one message is suspected."""
    return "one message made the texts differ, unless a change was never sent" if values[0] == "1" else None


def code_words(values):
    sent, other = ("the end of the text" if it == "end" else it for it in values)
    return f"by the messages {sent}, in the other text {other}"


def units_long(number):
    return f"{number} unit{'' if number == '1' else 's'} long"


def ends_words(values):
    if values[0] == "converted":
        sent, other = ({"\n": "LF", "\r\n": "CR LF", "\r": "CR"}[it] for it in values[1:])
        return f"nothing else differs: each is {sent} by the messages, and {other} in the other text"
    return "only the one at the very end of the text differs" if values[0] == "last" else "some differ, and nothing else does"


LINE_KINDS = {
    "lf": "LF alone has them",
    "ecmascript": "ECMAScript has them: by U+2028 and U+2029, too",
    "python": "splitlines of Python has them",
}

FAULTS = {
    "editor": "the editor’s",
    "server": "the server’s",
    "recorder": "the recorder’s",
    "outside": "neither side’s: the session goes beyond what lspcheck follows",
}

SENTENCES = {
    "held": ("Held", lambda it: f"version {it[0]}, set by {event_words(it[1:])}"),
    "sent": ("This message", lambda it: f"sets version {it[0]}"),
    "same": ("The same", lambda it: f"changes were already made by {event_words(it)}"),
    "precedes": ("Belongs before", lambda it: f"{event_words(it[1:])}, which sets version {it[0]}"),
    "saved-as": ("Saved", lambda it: f"under this name by {event_words(it)}"),
    "version": ("Version", lambda it: f"the snapshot is of version {it[0]}"),
    "changes": ("Changes", lambda it: f"{it[0]} in this message"),
    "encoding": ("Columns", lambda it: f"are counted in units of {it[0].upper()}"),
    "change": ("Edit", change_words),
    "length": ("That line", lambda it: f"is {units_long(it[0])}, without its line end"),
    "inside": ("Inside", lambda it: f"the column falls into the character {it[0]}"),
    "fits": ("It would fit", lambda it: f"if columns were counted in {' or '.join(it).upper()}"),
    "lines-by": ("It would fit", lambda it: f"if lines ended as {LINE_KINDS[it[0]]}"),
    "at-once": ("It would fit", lambda it: f"if the ranges of version {it[0]} were all taken in the text before it: {event_words(it[1:])}"),
    "exchanged": ("It would fit", lambda it: f"if version {it[0]} came after the next one: {event_words(it[1:])}"),
    "without": ("It would fit", lambda it: f"if version {it[0]} were left out: {event_words(it[1:])}"),
    "right-from": ("Right from", lambda it: f"version {it[0]} on: the messages after it fit the text of {event_words(it[1:])}"),
    "offset-encoding": ("The server", lambda it: f"named {it[0].upper()} in the older member offsetEncoding"),
    "header-ends": ("Its first line", lambda it: f"ends with {it[0].upper()} alone"),
    "usually": ("Usually", lambda it: f"the fault is {' or '.join(FAULTS[who] for who in it if who != 'or')}"),
    "at": ("First difference", place),
    "codes": ("Characters", code_words),
    "ends": ("Line ends", ends_words),
    "line-ends": ("Option", lambda it: "--ignore-line-ends: then these texts are the same"),
    "uri": ("Document", lambda it: f"{it[0].rpartition('/')[2]} {it[0]}"),
    "equal": ("Last equal", lambda it: f"at version {it[0]}: {event_words(it[1:])}"),
    "since": ("Since", event_words),
    "closed": ("Closed", lambda it: f"by {event_words(it)}"),
    "opened": ("Opened", lambda it: "never"),
    "answered": ("Answered", lambda it: f"already by {event_words(it)}"),
    "id": ("Id", lambda it: json.dumps(it[0]) if isinstance(it[0], str) and not it[0].isdigit() else str(it[0])),
    "sync": ("Agreed", lambda it: f"synchronisation “{it[0]}”"),
    "picked": ("Picked", lambda it: it[0]),
    "snapshot": ("Differs from", event_words),
    "suspects": ("Suspects", one_suspect),
}


def note_words(name, values):
    """What is said for a note of this name."""
    if name in MISUSES:
        return f"{values[0]} {MISUSES[name]}: {event_words(values[1:])}"
    if name == "past-end":
        lines = "1 line" if values[3] == "1" else f"{values[3]} lines"
        what = f"the text has {lines}" if values[2] == "lines" else f"that line is {units_long(values[3])}, without its line end"
        return f"{event_words(values[4:])} changes a range at {place(values)}, past the end: {what}"
    if name == "range-length":
        here = values.index("event")
        fits = [it.upper() for it in values[4:here]]
        more = f"; in units of {' or '.join(fits)} it is {values[0]} long" if fits else ""
        return f"{event_words(values[here:])} has a rangeLength of {values[0]}, and its range is {units_long(values[2])}{more}"
    if name == "refused":
        what = f"A request about {values[1]}, which is open, was refused"
        return f"{what}: {event_words(values[2:])} is the error {values[0]} (InvalidParams)"
    if name == "similar":
        return f"{event_words(values[2:])} names {values[0]}, which is not open; {values[1]} is, and is spelled in another way"
    if name == "late-edits":
        request, answer, change = (event_words(values[at : at + 4]) for at in (0, 4, 8))
        return f"{change} makes the edits of {answer} in a text that had changed since {request}"
    if name == "outside":
        return f"{event_words(values[2:])} edits a range at {place(values)}, which the text does not have"
    if name == "overlap":
        return f"{event_words(values)} has edits that overlap"
    if name == "unsent":
        return f"{event_words(values[1:])} names version {values[0]}, which no message has set"
    return {
        "exit-without-shutdown": lambda: f"The editor sent exit without shutdown: {event_words(values)}",
        "offset-encoding": lambda: f"The server names {values[0]} in the older member offsetEncoding: it may count columns in it",
        "nothing-compared": lambda: "No snapshot was compared: yes says little about the texts",
        "no-snapshot": lambda: f"{values[0]} was changed, and no snapshot of it was compared",
    }[name]()


MISUSES = {
    "as-notification": "is a request in LSP 3.17, and was sent as a notification",
    "as-request": "is a notification in LSP 3.17, and was sent as a request",
    "by-editor": "is sent only by servers in LSP 3.17, and the editor sent it",
    "by-server": "is sent only by editors in LSP 3.17, and the server sent it",
    "renamed": "was renamed, and is still opened or changed under this name",
}


def words_of(line):
    words = re.findall(r'"(?:[^"\\]|\\.)*"|\S+', line)
    return words[0], [json.loads(it) if it.startswith('"') else it for it in words[1:]]
