"""Commands that run side by side. What each writes is printed whole, in the order in which they are
listed, and live as far as all before it have ended."""

import ctypes
import os
import re
import signal
import subprocess
import sys
import tempfile
import time
from contextlib import suppress
from pathlib import Path

from lsptools.base.stops import held

# Between two looks at what has ended.
PAUSE = 0.05

# After how many seconds a process is killed that was told to end.
PATIENCE = 10

# How many bytes are printed at once.
PIECE = 1 << 16

# A script's last line, if it counts what it checked.
COUNTS = re.compile(rb"(?:\A|\n)(\d+) passed, (\d+) failed\n\Z")

# In <sys/prctl.h>: if a process ends, what it started is left to this one, and not to process 1.
PR_SET_CHILD_SUBREAPER = 36


class Task:
    """A command, and what it wrote. Its status is None until it has ended, and `why_not` says why it
    is not run."""

    def __init__(self, name):
        self.name, self.title = name, name
        self.process, self.status, self.why_not = None, None, None
        self.output, self.printed, self.is_named = tempfile.TemporaryFile("a+b"), 0, False
        self.begun, self.ended = None, None

    def is_waiting(self):
        return self.process is None and not self.is_over()

    def is_running(self):
        return self.process is not None and self.status is None

    def is_over(self):
        return self.status is not None or self.why_not is not None

    def has_failed(self):
        return self.status is not None and (self.status != 0 or self.counts()[1] > 0)

    def start(self, words, niceness, **settings):
        how = {"env": {**os.environ, **settings}, "stdin": subprocess.DEVNULL, "stdout": self.output, "stderr": subprocess.STDOUT}
        self.begun = time.monotonic()
        try:
            with held():
                self.process = subprocess.Popen(words, preexec_fn=lambda: os.nice(niceness), **how)
        except OSError as error:
            self.output.write(f"{words[0]}: {error.strerror}\n".encode())
            self.output.flush()
            self.status = 127

    def seconds(self):
        """How long it took."""
        return self.ended - self.begun if self.ended else 0

    def counts(self):
        """How many checks passed and failed: as its last line says, or else it is one check."""
        if self.status is None:
            return 0, 0
        size = os.fstat(self.output.fileno()).st_size
        found = COUNTS.search(os.pread(self.output.fileno(), PIECE, max(0, size - PIECE)))
        passed, failed = map(int, found.groups()) if found else (int(self.status == 0), 0)
        return passed, max(failed, int(self.status != 0))

    def show(self):
        """Prints what it wrote by now, below a line that names it; whether that is all."""
        if self.is_waiting():
            return False
        is_all, out = self.is_over(), sys.stdout.buffer
        if not self.is_named:
            self.is_named = True
            out.write(f"== {self.title}\n".encode())
        while piece := os.pread(self.output.fileno(), PIECE, self.printed):
            out.write(piece)
            self.printed += len(piece)
        if self.why_not:
            out.write(f"not run: {self.why_not}\n".encode())
        return is_all


def adopt():
    """From now on, what the children of this process leave when they end becomes its child."""
    ctypes.CDLL(None).prctl(PR_SET_CHILD_SUBREAPER, 1, 0, 0, 0)


def reap(tasks):
    """Takes note of each task that has ended."""
    with suppress(ChildProcessError):
        while (ended := os.waitpid(-1, os.WNOHANG))[0]:
            for task in tasks:
                if task.is_running() and task.process.pid == ended[0]:
                    task.status = task.process.returncode = os.waitstatus_to_exitcode(ended[1])
                    task.ended = time.monotonic()


def show(tasks):
    """Prints what can be printed by now; the tasks of which more is to come."""
    left = list(tasks)
    while left and left[0].show():
        left.pop(0)
    sys.stdout.flush()
    return left


def run_all(tasks, start):
    """Calls `start` until each task is over, and prints what they write."""
    left = list(tasks)
    while left:
        start()
        reap(tasks)
        left = show(left)
        if left:
            time.sleep(PAUSE)


def children():
    """The numbers of the processes that are children of this one."""
    for path in Path("/proc").glob("[0-9]*/stat"):
        with suppress(OSError):
            if int(path.read_text().rpartition(")")[2].split()[1]) == os.getpid():
                yield int(path.parent.name)


def end_children(tasks):
    """Ends all that is running, children of children as well: each is told to end once, and is killed
    if it takes too long."""
    end, told = time.monotonic() + PATIENCE, set()
    reap(tasks)
    while left := set(children()):
        is_late = time.monotonic() > end
        for number in left if is_late else left - told:
            with suppress(ProcessLookupError):
                os.kill(number, signal.SIGKILL if is_late else signal.SIGTERM)
        told |= left
        time.sleep(PAUSE)
        reap(tasks)
