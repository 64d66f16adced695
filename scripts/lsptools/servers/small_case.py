"""The shortest session that shows what a search has found."""

import tempfile
from contextlib import suppress

from lsptools.base.messages import message_of
from lsptools.base.program import Program
from lsptools.base.session_log import (
    EDITOR, FIRST_LINE, SERVER, SNAPSHOT, Frames, as_records, framed,
)
from lsptools.servers.comparison import differing, replaying, texts_after, uris_from
from lsptools.servers.drive import Run
from lsptools.servers.halving import first_of
from lsptools.servers.server import Ended


class SmallCase:
    """The fewest last messages before a difference that show it, from the texts before them."""

    def __init__(self, comparison, uri, number):
        self.comparison, self.setting = comparison, comparison.setting
        self.uri, self.number = uri, number

    def shows(self, count):
        """Whether a run of this many messages shows the difference."""
        start = self.number - count
        return bool(differing(self.comparison.after(self.number, [self.uri], False, start=start)))

    def count(self):
        """How many messages the shortest run has, or None if a repeated one shows nothing."""
        if self.shows(1):
            return 1
        count = first_of(2, self.number, self.shows)
        return count if self.shows(count) else None

    def log(self, count):
        """The log of a run: what the editor sends, and the answers to that."""
        return log_of(self.setting, self.number - count, self.number, [self.uri])


def log_of(setting, start, number, uris, ends=False):
    """The log of a session with the texts after one message, and the messages up to another, at
    which the server may end."""
    transcript = Transcript()
    opened = texts_after(setting, start, uris_from(setting, start, number, uris))
    with Run(setting, transcript) as run, suppress(Ended):
        replaying(number, start, opened)(run)
        if ends:
            run.server.has_ended(setting.wait)
    return transcript.log()


class Transcript:
    """What both sides send in a run, in order, and the snapshots."""

    def __init__(self):
        self.frames = {kind: Frames() for kind in (EDITOR, SERVER)}
        self.contents = []

    def add(self, kind, data):
        self.contents += [(kind, content) for content in self.frames[kind].add(data)]

    def write(self, records):
        """Takes snapshots."""
        self.contents += [(SNAPSHOT, it) for it in records]

    def log(self):
        """The log of the editor's messages, the answers to them and the snapshots, and how many
        messages it sends."""
        asked, kept, count = set(), [], 0
        for kind, content in self.contents:
            message = message_of(0, 0, content) if kind != SNAPSHOT else None
            if kind == SNAPSHOT:
                kept.append(content)
            elif kind == EDITOR and not message.is_response:
                count += 1
                asked.add(message.id)
                kept += as_records(kind, framed(content))
            elif kind == SERVER and message.is_response and message.id in asked:
                kept += as_records(kind, framed(content))
        return FIRST_LINE + b"".join(kept), count


def verdict_of(setting, log):
    """The first line of lspcheck's report on a log."""
    with tempfile.NamedTemporaryFile(dir=setting.folders.place, suffix=".log") as file:
        file.write(log)
        file.flush()
        report = Program(setting.program.path, file.name).output("check")
    return report.decode("utf-8", "replace").partition("\n")[0]
