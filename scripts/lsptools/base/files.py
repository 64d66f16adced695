"""The log that is read, the page that is written, and the names of both in messages."""

import os
import shutil
import stat
import sys
import tempfile
from contextlib import contextmanager

from lsptools.base.program import Failed
from lsptools.base.script import put, quoted

# The first bytes of a page, and of a log.
MARK = b"<!doctype html><!-- lspcheck-page -->"
LOG_MARK = b"lsp-session "


def failed(name, error):
    return Failed(f"{quoted(name)}: {error.strerror}", 3)


class Log:
    """A log, which is read several times: a plain file itself, and otherwise a copy in a folder."""

    def __init__(self, given, folder):
        # The name by which a reader of the page knows the log; None for standard input.
        self.given, self.name = given, None if given == "-" else os.path.basename(given)
        self.shown = "standard input" if given == "-" else quoted(given)
        try:
            self.path = os.path.abspath(given) if self.is_plain() else self.copy(folder)
            with open(self.path, "rb"):
                self.state = self.state_now()
        except OSError as error:
            raise Failed(f"{self.shown}: {error.strerror}", 3) from error

    def is_plain(self):
        return self.given != "-" and stat.S_ISREG(os.stat(self.given).st_mode)

    def copy(self, folder):
        path = os.path.join(folder, "log")
        source = sys.stdin.fileno() if self.given == "-" else self.given
        with open(source, "rb", closefd=self.given != "-") as given, open(path, "wb") as file:
            shutil.copyfileobj(given, file)
        return path

    def state_now(self):
        """What changes if the log is written or replaced."""
        found = os.stat(self.path)
        return found.st_size, found.st_mtime_ns, found.st_ino, found.st_dev

    def check_unchanged(self):
        try:
            now = self.state_now()
        except OSError:
            now = None
        if now != self.state:
            raise Failed(f"{self.shown}: it changed while it was read: try again")

    @property
    def size(self):
        return self.state[0]

    def without_end(self):
        """The log as it was given, without `.log`: what the names of other files begin with."""
        return self.given[: -len(".log")] if self.given.endswith(".log") else self.given


def check_replaced(path, found, log, is_chosen):
    """Fails if a file may not be replaced: it is a log, or it was not named and is not a page."""
    if (found.st_ino, found.st_dev) == log.state[2:]:
        raise Failed(f"{quoted(path)}: this is the log itself: it is not replaced", 64)
    with open(path, "rb") as file:
        start = file.read(len(MARK))
    if start.startswith(LOG_MARK):
        raise Failed(f"{quoted(path)}: this is a log: it is not replaced", 64)
    if is_chosen and start != MARK:
        raise Failed(f"{quoted(path)} exists and is not a page of this command: use -o", 3)


@contextmanager
def new_file(path, shown):
    """A file that replaces the one at this path once it is written, and otherwise does not exist.
    Only its owner can read it."""
    folder, prefix = os.path.dirname(path), ".lspcheck-page-"
    file = tempfile.NamedTemporaryFile(dir=folder, prefix=prefix, delete=False)
    try:
        with file:
            yield file
        os.replace(file.name, path)
    except BaseException as error:
        os.unlink(file.name)
        if isinstance(error, OSError):
            raise failed(shown, error) from error
        raise


@contextmanager
def output(path, log, is_chosen):
    """The file of the page. Links are followed; a device or a pipe is opened and written to."""
    real = os.path.realpath(path)
    try:
        found = os.stat(real) if os.path.lexists(real) else None
        if found and not stat.S_ISREG(found.st_mode):
            with tempfile.TemporaryFile() as file, open(real, "wb") as device:
                yield file
                file.seek(0)
                shutil.copyfileobj(file, device)
            return
        if found:
            check_replaced(real, found, log, is_chosen)
        with new_file(real, path) as file:
            yield file
    except OSError as error:
        raise failed(path, error) from error


@contextmanager
def standard_output():
    """A file whose bytes are written to standard output once all are there."""
    with tempfile.TemporaryFile() as file:
        yield file
        file.seek(0)
        while piece := file.read(1 << 20):
            put(piece)
