"""Runs several commands of lspcheck on a log at once, and tells how far they are."""

import os
import subprocess
import sys
import tempfile
import time

from lsptools.base.listing import objects_in
from lsptools.base.program import Failed, end, printable, status_within
from lsptools.base.stops import held

MEGABYTE = 1_000_000
# For how many seconds a program is waited for before anything else is done.
STEP = 0.2


class Line:
    """A line on a terminal that is replaced at most each second, like that of lspcheck."""

    def __init__(self):
        self.length, self.last = 0, time.monotonic()
        self.is_on = sys.stderr is not None and sys.stderr.isatty()

    def is_due(self):
        return self.is_on and time.monotonic() - self.last >= 1

    def put(self, said):
        self.last = time.monotonic()
        line = f"lspcheck-page: {said}"
        print(f"\r{line:<{self.length}}", end="", file=sys.stderr, flush=True)
        self.length = max(self.length, len(line))

    def clear(self):
        if self.length:
            print(f"\r{'':<{self.length}}\r", end="", file=sys.stderr, flush=True)
            self.length = 0


class Progress(Line):
    """How far a log was read."""

    def __init__(self, size):
        super().__init__()
        self.size = size // MEGABYTE

    def advance(self, who, read):
        if self.is_due():
            read //= MEGABYTE
            percent = 100 * read // self.size if self.size else 100
            self.put(f"{who} read {read} of {self.size} MB, {percent} %")


class Run:
    """A command of lspcheck, which reads the log on standard input: its name may be any bytes."""

    def __init__(self, program, words, progress, name):
        self.program, self.words, self.progress, self.name = program, words, progress, name
        self.log = open(program.log, "rb")
        # Line ends are LF; in what a line shows there may be others.
        text = {"encoding": "utf-8", "errors": "replace", "newline": "\n"}
        self.out, self.errors = tempfile.TemporaryFile("w+", **text), tempfile.TemporaryFile()
        how = {"stdin": self.log, "stdout": self.out, "stderr": self.errors}
        try:
            self.running = subprocess.Popen([program.path, *words, "--quiet"], **how)
        except OSError as error:
            raise Failed(f"{printable(program.path)}: {error.strerror}") from error

    def wait(self):
        """Waits for the end, and shows how far the log was read. Returns the status."""
        while (status := status_within(self.running, STEP)) is None:
            # The command reads from the same open file, so its place there is this one's too.
            read = os.lseek(self.log.fileno(), 0, os.SEEK_CUR)
            self.progress.advance(self.name, read)
        return status

    def status_by(self, moment):
        """How it ended, or None if it still runs at this moment."""
        left = max(moment - time.monotonic(), 0)
        while (status := status_within(self.running, min(left, STEP))) is None and left > 0:
            left = max(moment - time.monotonic(), 0)
        return status

    def done(self):
        """Waits for an answer, or fails with the command's own words."""
        status = self.wait()
        self.errors.seek(0)
        self.program.check_status(self.words, status, self.errors.read())
        return self

    def text(self):
        self.done().out.seek(0)
        return self.out.read()

    def bytes(self):
        """What the command wrote, if it has ended."""
        self.out.seek(0)
        return self.out.buffer.read()

    def count(self):
        """How many lines the command writes about an event."""
        self.done().out.seek(0)
        return sum('"event":' in line for line in self.out)

    def objects(self):
        """The objects that the command writes with --json, one on each line."""
        self.done().out.seek(0)
        yield from objects_in(self.out, self.words[0])

    def close(self):
        end(self.running)
        for file in (self.log, self.out, self.errors):
            file.close()


class Runs:
    """The runs of lspcheck on a log. On leaving, none of them is left."""

    def __init__(self, program, log):
        self.program, self.log = program, log
        self.progress, self.runs = Progress(log.size), []

    def __enter__(self):
        return self

    def __exit__(self, *_):
        self.progress.clear()
        with held():
            for run in self.runs:
                run.close()

    def start(self, *words, program=None, name=None):
        """Starts a command of lspcheck, or another program that reads the log."""
        name = name or f"lspcheck {words[0]}"
        with held():
            self.runs.append(Run(program or self.program, words, self.progress, name))
        return self.runs[-1]
