"""The contents of a log's events, in the order in which lspcheck lists them, and what they say.

Which frames and records there are, and which of them cannot be read, is what lspcheck says. This
only cuts the bytes where the lengths in the log end.
"""

import json
from collections import deque

from lsptools.base.listing import SNAPSHOT
from lsptools.base.program import Failed
from lsptools.base.session_log import SERVER, SNAPSHOT as TEXT, Damaged, Frames, records

# The rules of frames: one that breaks any of them has no content.
FRAMES = range(101, 107)


class Other(Failed):
    """The log is not the one that was listed."""

    def __init__(self):
        super().__init__("the log and what lspcheck lists of it differ: does something write it?")


class Contents:
    """Reads a log, and gives the content of one listed event after another."""

    def __init__(self, file):
        self.streams = [Frames(), Frames()]
        self.snapshots = deque()
        self.format = int(file.readline(64).split()[-1])
        self.records = records(file)

    def read_record(self):
        """Reads one more record."""
        record = next(self.records, None)
        if record is None:
            raise Other()
        if record.kind == TEXT:
            self.snapshots.append(record)
        else:
            self.streams[record.kind == SERVER].put(record.data)

    def snapshot(self, event):
        """The text of a snapshot; sets its URI and version, which the line of a violation omits."""
        while not self.snapshots:
            self.read_record()
        record = self.snapshots.popleft()
        event.version, event.uri = record.version, record.uri.decode()
        return record.data

    def rest(self, side):
        """The bytes that follow the last content of a side in the record in which that ends."""
        stream = self.streams[side]
        return bytes(stream.held[stream.start :])

    def of(self, event):
        """The content of the next event, which must be the one after that of the last call."""
        try:
            if event.side == SNAPSHOT:
                return self.snapshot(event)
            if event.rule in FRAMES:
                return b""
            while (content := self.streams[event.side].next()) is None:
                self.read_record()
            return content
        except Damaged as error:
            raise Other() from error


def at(value, *path):
    """The member of a JSON value that is at the end of a path, or None."""
    try:
        for name in path:
            if value.__class__ is str:
                return None
            value = value[name]
    except (LookupError, TypeError):
        return None
    return value


def key_of(id):
    """An id as a key: 7 and "7" are different."""
    return (type(id), id)


def no_constant(word):
    """Refuses NaN and the infinities, which Python takes for JSON."""
    raise ValueError(word)


def message_of(event, content):
    """The JSON value of a message, or None."""
    if event.side == SNAPSHOT or event.rule in FRAMES:
        return None
    try:
        return json.loads(content.decode(), parse_constant=no_constant)
    except (ValueError, RecursionError):
        return None


def describe(event, message):
    """Gives the event of a violation, whose line has no words, those of its content."""
    if not isinstance(message, dict):
        return
    params = message.get("params")
    uri = at(params, "textDocument", "uri") or at(params, "uri")
    event.uri = event.uri or (uri if isinstance(uri, str) else None)
    if not event.rule:
        return
    method, version = message.get("method"), at(params, "textDocument", "version")
    event.method = method if isinstance(method, str) else None
    event.id = message.get("id")
    is_version = isinstance(version, int) and abs(version) < 2**31
    event.version = version if is_version and not isinstance(version, bool) else None
    if event.method is not None:
        event.kind = "request" if "id" in message else "notification"
    elif "id" in message:
        event.kind = "error" if "error" in message else "result"
