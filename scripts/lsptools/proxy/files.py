"""The part of the proxy that looks at the files of open documents, and tells whether one of them
was rewritten: by a formatter, say, that runs when the editor has saved.

The kernel reports each write in a folder (inotify). Where it doesn't, on other systems and if its
limits are reached, each file is looked at every 20 milliseconds.
"""

import contextlib
import os
import select
import stat
import struct
import threading

from lsptools.base.session_log import MOST_TEXT

# How long nobody looks at a file whose folder isn't watched, in milliseconds.
PAUSE = 20

# What is reported of a folder (sys/inotify.h): a file was changed, was closed after that, was
# renamed to this name; the folder itself was renamed; too much was reported; the folder is gone.
MODIFY, CLOSE_WRITE, MOVED_TO, MOVE_SELF = 0x2, 0x8, 0x80, 0x800
OVERFLOW, IGNORED, ONLY_FOLDERS = 0x4000, 0x8000, 0x1000000
REPORT = struct.Struct("iIII")


def state_of(status):
    """What changes when a file is written: the time in nanoseconds, the size and the inode. None
    for what isn't a plain file, or is larger than a snapshot may be."""
    if not stat.S_ISREG(status.st_mode) or status.st_size > MOST_TEXT:
        return None
    return status.st_mtime_ns, status.st_size, status.st_ino


def look_at(path):
    """The state of a file, or None without one that can be read."""
    try:
        return state_of(os.stat(path)) if path else None
    except (OSError, ValueError):
        return None


def without_waiting(path, flags):
    """Opens a file. If it has become a named pipe, that waits for nobody."""
    return os.open(path, flags | os.O_NONBLOCK | os.O_NOCTTY)


def read(path):
    """The bytes of a plain file and its state after that, or None twice."""
    try:
        with open(path, "rb", opener=without_waiting) as file:
            is_plain = stat.S_ISREG(os.fstat(file.fileno()).st_mode)
            data = file.read(MOST_TEXT + 1) if is_plain else None
            return data, state_of(os.fstat(file.fileno()))
    except OSError:
        return None, None


def places_of(path):
    """Where a file may be written: a link's file may be, or the link be replaced."""
    try:
        return {path, os.path.realpath(path)} if path else set()
    except ValueError:
        return set()


class Written:
    """What was written to a file for the last save of its document, and since the messages about
    it. If two texts were, the editor need not have the second one."""

    def __init__(self, path):
        self.path, self.state = path, look_at(path)
        self.for_save, self.since_change, self.since_message = set(), set(), set()

    def add(self, text):
        """Notes the hash of a text, or None for one that was replaced before it could be read."""
        for texts in (self.for_save, self.since_change, self.since_message):
            texts.add(text)

    def hash(self):
        """The hash of the file's text, or None without one that a snapshot can have."""
        data, state = read(self.path)
        return hash(data) if state else None

    def take_if_written(self):
        """Notes the text if the file is in another state than when this was last called."""
        if (state := look_at(self.path)) != self.state:
            self.state = state
            if state:
                self.add(self.hash())

    def hear_change(self):
        """Some editors write the file before they send the change that they have saved: so what was
        written since the message before that counts, too."""
        self.since_change, self.since_message = self.since_message, set()

    def hear_save(self):
        """What was written for an earlier save doesn't count: if the change between the two was
        lost, the second must tell."""
        self.for_save, self.since_change, self.since_message = self.since_change, set(), set()

    def is_one_text(self):
        """Whether no two texts were written for the last save and after it."""
        return len(self.for_save) <= 1 and None not in self.for_save


class Notices:
    """What the kernel reports of folders. Without inotify, no folder can be watched."""

    def __init__(self):
        self.calls = self.file = None
        with contextlib.suppress(ImportError, OSError, AttributeError):
            # Python may have been built without it.
            import ctypes

            self.calls = ctypes.CDLL(None)
            file = self.calls.inotify_init1(os.O_NONBLOCK | os.O_CLOEXEC)
            self.file = file if file >= 0 else None

    def begin(self, folder):
        """Watches a folder: its number, or None if it can't be watched."""
        if self.file is None:
            return None
        kinds = MODIFY | CLOSE_WRITE | MOVED_TO | MOVE_SELF | ONLY_FOLDERS
        number = self.calls.inotify_add_watch(self.file, os.fsencode(folder), kinds)
        return number if number >= 0 else None

    def end(self, number):
        self.calls.inotify_rm_watch(self.file, number)

    def next(self):
        """The next reports: a folder's number, what happened, and the name of a file."""
        try:
            data = os.read(self.file, 65536) if self.file is not None else b""
        except BlockingIOError:
            return []
        reports, at = [], 0
        while at < len(data):
            number, kinds, _, size = REPORT.unpack_from(data, at)
            at += REPORT.size + size
            reports.append((number, kinds, data[at - size : at].rstrip(b"\0")))
        return reports


class Watch(threading.Thread):
    """Notes what is written to files, as soon as it is written."""

    def __init__(self):
        super().__init__(daemon=True)
        self.notices, self.lock, self.error = Notices(), threading.Lock(), None
        # The files by folder and name, and those whose folders can't be watched.
        self.files, self.others = {}, set()
        # To wake the thread when the first of the others comes.
        self.wakes, self.waker = os.pipe()

    def add(self, path):
        """Begins to watch a file."""
        written = Written(path)
        with self.lock:
            for place in places_of(path):
                folder, name = os.path.split(place)
                number = self.notices.begin(folder)
                if number is None:
                    self.look_often({written})
                else:
                    self.files.setdefault((number, name), set()).add(written)
        return written

    def remove(self, written):
        with self.lock:
            self.others.discard(written)
            for key in [key for key, files in self.files.items() if written in files]:
                self.files[key].discard(written)
                if not self.files[key]:
                    del self.files[key]
                    if not any(number == key[0] for number, _ in self.files):
                        self.notices.end(key[0])

    def look_often(self, files):
        """Looks at these from time to time, since nothing is reported of their folders."""
        self.others |= files
        os.write(self.waker, b"x")

    def run(self):
        poll = select.poll()
        for file in {self.wakes, self.notices.file} - {None}:
            poll.register(file, select.POLLIN)
        try:
            while True:
                ready = poll.poll(PAUSE if self.others else None)
                if any(file == self.wakes for file, _ in ready):
                    os.read(self.wakes, 64)
                self.settle()
        except Exception as error:
            self.error = error

    def settle(self):
        """Takes what was written until now."""
        if self.error:
            raise self.error
        with self.lock:
            self.take_reports()
            for written in self.others:
                written.take_if_written()

    def take_reports(self):
        """Takes what was reported until now. A text counts as read only if nothing was reported of
        its file after that: it may be a later one otherwise."""
        texts = {}
        while reports := self.notices.next():
            ended = set()
            for number, kinds, name in reports:
                if kinds & OVERFLOW:
                    self.miss(*self.files.values())
                elif kinds & (IGNORED | MOVE_SELF):
                    self.lose(number)
                for written in self.files.get((number, name), ()):
                    if written in ended or written in texts:
                        ended.discard(written)
                        texts.pop(written, None)
                        written.add(None)
                    if kinds & (CLOSE_WRITE | MOVED_TO):
                        ended.add(written)
            texts.update({written: written.hash() for written in ended})
        for written, text in texts.items():
            written.add(text)

    def miss(self, *many):
        """Notes that something was written that isn't known."""
        for files in many:
            for written in files:
                written.add(None)

    def lose(self, number):
        """A folder was removed or renamed: another one may be there now."""
        for key in [key for key in self.files if key[0] == number]:
            self.look_often(self.files.pop(key))
