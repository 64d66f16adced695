"""Bytes that are written to a pipe by a thread of its own, so that nobody waits who writes some."""

import os
import queue
import select
import threading

# The most bytes that wait to be written or read.
WAITING = 1 << 28


def write_all(file, data):
    """Writes all of the bytes to a file descriptor."""
    while data:
        data = data[os.write(file, data) :]


def is_readable(file, seconds=0):
    """Whether there is something to read, or the end, within some seconds; not if the file is
    closed."""
    poll = select.poll()
    poll.register(file, select.POLLIN)
    return any(event & (select.POLLIN | select.POLLHUP) for _, event in poll.poll(seconds * 1000))


class Waiting:
    """A queue of bytes that lets nobody wait who puts some in. If more wait than memory should
    hold, the queue ends there, since a log must have no gaps."""

    def __init__(self):
        self.items, self.lock = queue.SimpleQueue(), threading.Lock()
        self.size, self.is_over, self.is_full = 0, False, False

    def put(self, data):
        with self.lock:
            if not self.is_over:
                self.size += len(data)
                self.is_over = self.is_full = self.size > WAITING
                self.items.put(None if self.is_over else data)

    def get(self, timeout=None):
        """The next bytes, or None at the end. Raises queue.Empty after the timeout in seconds."""
        data = self.items.get(timeout=timeout)
        if data is not None:
            with self.lock:
                self.size -= len(data)
        return data

    def end(self):
        """What was put in until now is the whole."""
        with self.lock:
            self.is_over = True
            self.items.put(None)


class Feed(threading.Thread):
    """Writes to a pipe what is put in. If that fails, `tell` is called with the reason."""

    def __init__(self, pipe, tell=None):
        super().__init__(daemon=True)
        self.pipe, self.tell, self.waiting = pipe, tell, Waiting()
        self.put, self.end = self.waiting.put, self.waiting.end

    def run(self):
        try:
            while (data := self.waiting.get()) is not None:
                write_all(self.pipe, data)
            reason = "too much waits to be written" if self.waiting.is_full else None
        except OSError as error:
            reason = error.strerror
        if reason and self.tell:
            self.tell(reason)
        self.end()
        os.close(self.pipe)
