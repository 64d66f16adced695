"""The part of the proxy that takes snapshots: of files that the editor has saved, and those that a
plug-in of the editor writes. Each of the two runs in a thread of its own. If it fails, it says so
and takes no more snapshots; the log continues.
"""

import json
import os
import queue
import re
import stat
import threading
import time
from urllib.parse import unquote_to_bytes

from lsptools.base.feeds import Waiting
from lsptools.base.session_log import (
    LONGEST_LINE, MOST_TEXT, MOST_URI, SNAPSHOT, TEXT, Frames, Record,
)
from lsptools.proxy.files import Watch, look_at, read
from lsptools.proxy.saying import say

# How long after a save the file is read, in seconds, if nothing happens to its document: some
# editors send `didSave` first, and half a second later the change that they have saved.
QUIET = 1.0

# How long after the file was written `didSave` may come, in nanoseconds, if a change was sent in
# between, and how long after that change. Later than that, the change may be one that was made
# after the file was written.
PROMPT = 150_000_000
TOGETHER = 20_000_000

# How many seconds what was saved or written last may take, when the session has ended.
PATIENCE = 1

VERSIONS = range(-(1 << 31), 1 << 31)

BYTE_ORDER_MARK = "\ufeff".encode()

# What a text may have in UTF-16 and in ISO-2022-JP, and hardly ever in UTF-8.
FOREIGN = "\0\x1b"


def path_of(uri):
    """The path of a file of this machine, or None for a URI of something else."""
    parts = re.fullmatch(r"file:(?://([^/]*))?(/.*)", uri, re.I | re.S)
    if parts and (parts[1] or "").lower() in ("", "localhost", os.uname().nodename.lower()):
        return unquote_to_bytes(parts[2])
    return None


def is_utf_8(data):
    try:
        return data.decode() is not None
    except UnicodeDecodeError:
        return False


class Document:
    """An open document, as far as the editor's messages tell."""

    def __init__(self, uri, version, text, watch):
        self.uri, self.path, self.version = uri.encode(), path_of(uri), version
        self.watch, self.written = watch, watch.add(self.path)
        self.state_at_change = self.state_at_save = None
        self.changed = 0
        self.foreign = set(FOREIGN)
        self.hear_text(text)

    def hear_text(self, text):
        """Notes what a whole text has of the things that editors leave out or convert."""
        self.has_mark = text.startswith(BYTE_ORDER_MARK.decode())
        self.has_return = "\r" in text
        self.hear_part(text)

    def hear_part(self, text):
        """Notes which of the characters that hint at another encoding the document has."""
        self.foreign -= set(filter(text.__contains__, self.foreign))

    def hear_change(self, version, changes, now):
        self.version, self.changed = version, now
        self.written.hear_change()
        for change in changes:
            if change.get("range") is None:
                self.hear_text(change["text"])
            else:
                self.has_return = self.has_return or "\r\n" in change["text"]
                self.hear_part(change["text"])
        self.state_at_change = look_at(self.path)

    def hear_save(self, now):
        """Notes the file's state; whether the file may have this version's text."""
        self.written.hear_save()
        self.state_at_save = state = look_at(self.path)
        if state is None or len(self.uri) > MOST_URI or self.version not in VERSIONS:
            return False
        # A file whose state was the same when the last change was sent was written before that. Its
        # own clock may differ from this one, so only the delay is taken from it.
        is_older = state == self.state_at_change
        is_prompt = 0 <= now - state[0] <= PROMPT and now - self.changed <= TOGETHER
        return is_prompt or not is_older

    def is_as_sent(self, text):
        """Whether these bytes are UTF-8, and don't look like another encoding."""
        return is_utf_8(text) and not any(it.encode() in text for it in self.foreign)

    def snapshot(self):
        """A record with the file's text as the editor sends it, or None."""
        text, state = read(self.path)
        self.watch.settle()
        is_saved = state == self.state_at_save and self.written.is_one_text()
        if not is_saved or not self.is_as_sent(text):
            return None
        if text.startswith(BYTE_ORDER_MARK) and not self.has_mark:
            text = text[len(BYTE_ORDER_MARK) :]
        if not self.has_return:
            text = text.replace(b"\r\n", b"\n")
        return Record(SNAPSHOT, text, self.version, self.uri).encoded()


def version_of(item):
    version = item["version"]
    if type(version) is not int:
        raise TypeError(f"the version {version!r} is not an integer")
    return version


class Saves(threading.Thread):
    """Takes a snapshot of each document that the editor has saved, after a quiet second."""

    def __init__(self, add):
        super().__init__(daemon=True)
        self.add, self.waiting = add, Waiting()
        self.put = self.waiting.put
        # The open documents by URI; for those that were saved, when they are due; and the time of
        # the editor's last bytes.
        self.documents, self.due, self.now = {}, {}, 0
        self.watch = Watch()

    def run(self):
        try:
            self.watch.start()
            self.follow()
        except Exception as error:
            say(f"no more snapshots of saved files: {error!r}")
        self.waiting.end()

    def finish(self):
        """Reads what the editor sent until now, and ends. No save waits for its second any more."""
        self.waiting.end()
        self.join(PATIENCE)

    def follow(self):
        frames = Frames()
        while True:
            next_due = next(iter(self.due.values()), None)
            wait = None if next_due is None else max(0, next_due - time.monotonic())
            try:
                data = self.waiting.get(wait)
            except queue.Empty:
                self.read_next()
                continue
            if data is None:
                return
            when, data = data.split(b" ", 1)
            self.now = int(when)
            for content in frames.add(data):
                self.hear(json.loads(content.decode()))

    def read_next(self):
        """Reads the file that is due first."""
        uri = next(iter(self.due))
        del self.due[uri]
        record = self.documents[uri].snapshot()
        if record:
            self.add(record)

    def hear(self, message):
        """Follows a message of the editor."""
        step = self.STEPS.get(message.get("method")) if isinstance(message, dict) else None
        if step:
            params = message["params"]
            uri = params["textDocument"]["uri"]
            self.due.pop(uri, None)
            self.watch.settle()
            step(self, uri, params)

    def did_open(self, uri, params):
        self.did_close(uri, params)
        item = params["textDocument"]
        self.documents[uri] = Document(uri, version_of(item), item["text"], self.watch)

    def did_change(self, uri, params):
        version = version_of(params["textDocument"])
        if uri in self.documents:
            self.documents[uri].hear_change(version, params["contentChanges"], self.now)

    def did_close(self, uri, _params):
        if document := self.documents.pop(uri, None):
            self.watch.remove(document.written)

    def did_save(self, uri, _params):
        if uri in self.documents and self.documents[uri].hear_save(self.now):
            self.due[uri] = time.monotonic() + QUIET

    STEPS = {
        "textDocument/didOpen": did_open,
        "textDocument/didChange": did_change,
        "textDocument/didClose": did_close,
        "textDocument/didSave": did_save,
    }


class Plugin(threading.Thread):
    """Takes the snapshots that a plug-in writes to a file or a named pipe. The bytes that a file
    had when the proxy started are of an earlier session."""

    PAUSE = 0.05

    def __init__(self, path, earlier, add):
        super().__init__(daemon=True)
        self.path, self.earlier, self.add, self.held = path, earlier, add, bytearray()
        self.file, self.is_pipe, self.has_ended = None, False, threading.Event()
        self.open()

    def open(self):
        """Opens the file, if it is there by now, and skips the bytes of an earlier session."""
        try:
            self.file = os.open(self.path, os.O_RDONLY | os.O_NONBLOCK)
        except FileNotFoundError:
            return
        self.is_pipe = stat.S_ISFIFO(os.fstat(self.file).st_mode)
        if not self.is_pipe:
            os.lseek(self.file, self.earlier, os.SEEK_SET)

    def run(self):
        try:
            while not self.has_ended.wait(self.PAUSE):
                self.take_all()
            self.take_all()
        except (OSError, ValueError) as error:
            say(f"{self.path}: no more snapshots: {error}")

    def take_all(self):
        """Takes what was written until now."""
        if self.file is None:
            self.open()
        if self.file is None:
            return
        if not self.is_pipe:
            self.follow()
        while data := self.read():
            self.held += data
            while record := self.next():
                self.add(record)

    def follow(self):
        """Goes back to the start of a file that the plug-in has emptied."""
        if os.fstat(self.file).st_size < os.lseek(self.file, 0, os.SEEK_CUR):
            os.lseek(self.file, 0, os.SEEK_SET)
            self.held.clear()

    def read(self):
        try:
            return os.read(self.file, 65536)
        except BlockingIOError:
            return b""

    def next(self):
        """The next record, if all of it is here."""
        head = TEXT.match(self.held)
        if head is None:
            if b"\n" in self.held or len(self.held) >= LONGEST_LINE:
                raise ValueError("this is not a snapshot")
            return None
        version, uri_size, text_size = map(int, head.groups())
        middle = head.end() + uri_size
        end = middle + text_size + 2
        if version not in VERSIONS or uri_size > MOST_URI or text_size > MOST_TEXT:
            raise ValueError("a number of a snapshot is out of range")
        if len(self.held) < end:
            return None
        record = bytes(self.held[:end])
        if record[middle : middle + 1] != b"\n" or record[-1:] != b"\n":
            raise ValueError("a size of a snapshot is wrong")
        record.decode()
        del self.held[:end]
        return record

    def finish(self):
        """Takes what was written until now, and ends."""
        self.has_ended.set()
        self.join(PATIENCE)


def size_now():
    """How many bytes the file of the plug-in has: none, if it is not there."""
    try:
        return os.stat(os.environ.get("LSPCHECK_SNAPSHOTS", "")).st_size
    except OSError:
        return 0


def start(add, takes_saves, earlier):
    """Starts what takes snapshots; None for what the user doesn't want. When the proxy started, the
    plug-in's file had `earlier` bytes."""
    saves = plugin = None
    if takes_saves:
        saves = Saves(add)
        saves.start()
    if path := os.environ.get("LSPCHECK_SNAPSHOTS"):
        try:
            plugin = Plugin(path, earlier, add)
            plugin.start()
        except OSError as error:
            say(f"{path}: no snapshots from a plug-in: {error.strerror}")
    return saves, plugin
