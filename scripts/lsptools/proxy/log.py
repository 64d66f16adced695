"""The part of the proxy that writes the log. It runs in a process of its own, so that nothing that
happens here holds up the session.

This process reads what the proxy passes on: the records of a log, with the time in nanoseconds as a
third word. It also reads the number of the server's process (`P NUMBER`) and how the server ended
(`X STATUS`, negative for a signal).
"""

import contextlib
import itertools
import os
import re
import sys
import threading
import time

from lsptools.base import session_log
from lsptools.base.feeds import Waiting, write_all
from lsptools.proxy import snapshots
from lsptools.proxy.saying import say

# The folder of all, in which the recorders are.
TOP = os.path.realpath(os.path.join(os.path.dirname(__file__), "../../.."))

# How much of what the server writes before the editor's first byte is kept back.
EARLY = 1 << 20

# The most seconds that this process lives after the session.
PATIENCE = 60


def create(path):
    """Creates a file that did not exist, which only its owner can read."""
    return os.open(path, os.O_WRONLY | os.O_CREAT | os.O_EXCL, 0o600)


def module():
    """The module for test suites, which names servers and refuses folders."""
    sys.path.append(os.path.join(TOP, "recorders/python"))
    # Only now, since the editor waited for what was imported first.
    import lspcheck_recorder

    return lspcheck_recorder


def create_log(folder, words, number):
    """Creates a log under the first name that is free: its path, and the file."""
    name = re.sub(r"[^\w.+-]", "_", module().server_name(words))[:100]
    stem = os.path.join(folder, f"{name}-{time.strftime('%Y%m%dT%H%M%S')}-{number}")
    for count in itertools.count(1):
        path = f"{stem}.log" if count == 1 else f"{stem}-{count}.log"
        try:
            return path, create(path)
        except FileExistsError:
            continue


class Log(threading.Thread):
    """A log of both directions, which begins with the editor's first byte. It ends early, with a
    whole record, if a record can't be written."""

    def __init__(self, options):
        super().__init__(daemon=True)
        self.options, self.waiting = options, Waiting()
        self.put, self.end = self.waiting.put, self.waiting.end
        self.path = self.file = self.alarm = None
        self.number, self.size, self.early, self.is_ended = 0, 0, session_log.FIRST_LINE, False

    def run(self):
        folder = self.options.folder
        try:
            os.makedirs(folder, 0o700, exist_ok=True)
            why = module().why_refused(folder)
        except OSError as error:
            why = error.strerror
        if why:
            self.stop(f"{folder}: {why}; nothing is recorded")
        while (record := self.waiting.get()) is not None:
            self.take(record)
        if self.waiting.is_full:
            self.stop(f"{self.path}: the disk is too slow; the log ends here")
        if self.alarm:
            self.alarm.end()

    def take(self, record):
        kind, number = record[:1], record[2:]
        if kind == b"P":
            self.number = int(number)
        elif kind == b"X":
            self.write_exit(int(number))
        elif self.file is None and kind != b"E" and len(self.early) < EARLY:
            self.early += record
        elif not self.is_ended:
            self.write(record)

    def write(self, record):
        if self.file is None and not self.begin():
            return
        if os.fstat(self.file).st_nlink == 0:
            self.stop(f"{self.path}: the log was deleted; nothing more is recorded")
            return
        record = self.early + record
        self.early = b""
        try:
            write_all(self.file, record)
        except OSError as error:
            self.cut(error)
            return
        self.size += len(record)
        if self.alarm:
            self.alarm.write(record)

    def cut(self, error):
        """Ends the log with its last whole record; without any, it is removed."""
        self.stop(f"{self.path}: {error.strerror}; the log ends here")
        with contextlib.suppress(OSError):
            os.ftruncate(self.file, self.size)
            if self.size == 0:
                os.unlink(self.path)
                self.file = None

    def begin(self):
        """Creates the log; whether that was possible."""
        try:
            options = self.options
            words = [options.server, *options.arguments]
            self.path, self.file = create_log(options.folder, words, self.number)
        except OSError as error:
            self.stop(f"{self.options.folder}: {error.strerror}; nothing is recorded")
            return False
        if self.options.check:
            self.start_alarm()
        return True

    def start_alarm(self):
        # Only now, since the editor waited for what was imported first.
        from lsptools.proxy.alarm import Alarm

        try:
            self.alarm = Alarm(self.sibling("explain"))
        except OSError as error:
            say(f"lspcheck: {error.strerror}; the session is recorded but not checked")

    def sibling(self, extension):
        """The path of another file of this session."""
        return self.path[: -len("log")] + extension

    def stop(self, reason):
        say(reason)
        self.is_ended = True

    def write_exit(self, status):
        """Writes how the server ended, and when."""
        if self.file is None or os.fstat(self.file).st_nlink == 0:
            return
        ended = f"status {status}" if status >= 0 else f"signal {-status}"
        when = time.strftime("%Y-%m-%dT%H:%M:%S%z")
        path, file = self.sibling("exit"), None
        try:
            file = create(path)
            write_all(file, f"{ended}\ntime {when}\n".encode())
        except OSError as error:
            if not self.is_ended:
                say(f"{path}: {error.strerror}")
            with contextlib.suppress(OSError):
                if file is not None:
                    os.unlink(path)


def leave_session():
    """Leaves the editor's pipes to the proxy, and its group of processes, which may be killed as a
    whole."""
    os.setsid()
    nothing = os.open(os.devnull, os.O_RDWR)
    os.dup2(nothing, 0)
    os.dup2(nothing, 1)


def pieces(source):
    """Each record that the proxy sends; one that is cut off, since the proxy was killed, is left
    out."""
    with open(source, "rb") as stream:
        for head in stream:
            size = int(head.split()[1]) + 1 if head[:1] in b"ES" else 0
            data = stream.read(size)
            if len(data) == size and head.endswith(b"\n"):
                yield head, data


def record(source, options, earlier):
    """Records until the proxy ends, and then ends this process. When the proxy started, the
    plug-in's file had `earlier` bytes."""
    try:
        leave_session()
        log = Log(options)
        log.start()
        saves, plugin = snapshots.start(log.put, not options.no_snapshots, earlier)
        for head, data in pieces(source):
            kind, number, *when = head.split()
            log.put(b"%s %s\n%s" % (kind, number, data))
            if kind == b"E" and saves:
                saves.put(b"%s %s" % (*when, data[:-1]))
        for other in filter(None, (saves, plugin)):
            other.finish()
        log.end()
        log.join(PATIENCE)
    except Exception as error:
        say(f"nothing more is recorded: {error!r}")
    finally:
        os._exit(0)
