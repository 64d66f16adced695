"""Writes pages of several logs with an index, or what one pastes about them, or both."""

import os
import tempfile
from collections import Counter
from contextlib import closing

from lsptools.base import outputs
from lsptools.base.files import Log
from lsptools.base.program import Program, find_program, version_of
from lsptools.base.script import put, quoted
from lsptools.page.document import write_page
from lsptools.page.folder import Folder, summary_of
from lsptools.page.many import Told, each
from lsptools.page.parallel import Runs
from lsptools.page.reading import Reading
from lsptools.page.summary import pieces_of

# How the names of folders for a while begin.
PREFIX = "lspcheck-page-"


class Batch:
    """The logs, and where their pages go, if anywhere."""

    def __init__(self, given, script):
        self.given, self.logs = given, given.log
        self.path = find_program(given.program, script)
        self.version = version_of(self.path)
        self.folder = Folder(given.output, self.logs) if given.output else None
        if self.folder is None:
            # Only a page has the smallest log.
            given.shrink = 0
        self.verdicts, self.status = Counter(), 0

    def work(self, number):
        """What is told about a log, of which a page is written if there is a folder."""
        with tempfile.TemporaryDirectory(prefix=PREFIX) as place:
            log = Log(self.logs[number], place)
            with Runs(Program(self.path, log.path), log) as runs:
                # Several processes have no line of their own.
                runs.progress.is_on &= len(self.logs) == 1
                index = self.index_of(runs, number)
        return {**summary_of(index), "markdown": index["markdown"]}

    def index_of(self, runs, number):
        if self.folder is None:
            reading = Reading(runs, self.given)
            reading.read(lambda content: 0)
            return reading.index()
        with self.folder.new(number) as file:
            return write_page(file, runs, self.given, self.folder.neighbours(number))

    def note(self, number, found):
        """Notes what came of a log."""
        self.verdicts[found.get("verdict", "failed")] += 1
        if "failed" not in found:
            return
        self.status = max(self.status, found["status"])
        log = "standard input" if self.logs[number] == "-" else quoted(self.logs[number])
        failed = found["failed"]
        outputs.say(f"lspcheck-page: {failed if failed.startswith(log) else f'{log}: {failed}'}")
        if self.folder:
            self.folder.write_failed(number, found)

    def run(self):
        """Does all. Returns the greatest status of a log."""
        with tempfile.TemporaryDirectory(prefix=PREFIX) as place:
            told = Told(place)
            # Closed in any case before the folder is gone into which the processes write.
            with closing(each(len(self.logs), self.work, self.given.jobs, told)) as results:
                for number, found in results:
                    self.note(number, found)
            if self.folder:
                index = self.folder.write_index(self.verdicts, told.get, self.version)
            if self.given.markdown:
                self.print_markdown(told)
            elif self.folder:
                put(os.fsencode(index) + b"\n")
        return self.status

    def print_markdown(self, told):
        """Prints what one pastes about the logs; of one log, this alone."""
        if len(self.logs) > 1:
            pieces = pieces_of(self.logs, self.verdicts, told.get)
        else:
            pieces = [told.get(0).get("markdown", "")]
        for piece in pieces:
            put(piece.encode(errors="replace"))
