"""Language servers as child processes: what they are sent, what they answer, and how they end.

Nothing waits for a server without a limit: threads of their own write to it and read from it.
"""

import contextlib
import itertools
import os
import select
import signal
import threading
import time

from lsptools.base.feeds import Feed, is_readable
from lsptools.base.messages import (
    DEEPEST, key_of, notification, request, response, same_name, shallow_value_of, value_of,
)
from lsptools.base.session_log import (
    EDITOR, FIRST_LINE, SERVER, Damaged, Frames, as_records, framed,
)
from lsptools.servers.children import PROCESSES, Fault, has_ended, how_ended, memory_of

# How many seconds a server may take to answer `shutdown`, to end after `exit`, and after a signal.
LAST_ANSWER, AFTER_EXIT, AFTER_SIGNAL = 5, 5, 1
# How much of its standard error is kept, in bytes, and how many lines are shown at its end.
MOST_SAID, LINES_SAID = 1 << 16, 5
PUBLISHED = "textDocument/publishDiagnostics"
TOO_DEEP = f"sends a message that is nested over {DEEPEST} deep"


class Ended(Fault):
    """The server ended, before it was asked to."""


class TimedOut(Fault):
    """The server did not answer in time."""


class Server:
    """A server that runs. `replies` answers what it asks, the ids of requests that are not in the
    log begin with `first_id`, and `tape` writes a log, if there is one."""

    def __init__(self, command, replies, first_id, tape=None):
        self.name = os.path.basename(command[0])
        self.replies, self.tape = replies, tape
        self.ids = itertools.count(first_id)
        self.condition = threading.Condition()
        # The responses by id. Of those that nobody reads, it is kept whether they are errors.
        self.answers, self.whole = {}, set()
        self.received, self.is_over, self.fault = 0, False, None
        # Whether it ended before it was asked to.
        self.is_lost = False
        self.registered = set()
        # The last diagnostics of each document, by its URI, and the documents that ever had some.
        self.published, self.publishes = {}, set()
        # The end of its standard error, and how many bytes it had in all. Who has the lock knows
        # that nothing is read that is not yet here.
        self.said, self.said_size, self.reading = b"", 0, threading.Lock()
        self.process = PROCESSES.start(command)
        self.feed = Feed(os.dup(self.process.stdin.fileno()))
        self.process.stdin.close()
        self.feed.start()
        self.threads = [
            threading.Thread(target=it, daemon=True) for it in (self.hear, self.hear_errors)
        ]
        for thread in self.threads:
            thread.start()

    def send(self, content):
        """Sends a message, which goes to the log first, so that no answer precedes it there."""
        frame = framed(content)
        with self.condition:
            if self.tape:
                self.tape.add(EDITOR, frame)
            self.feed.put(frame)

    def hear(self):
        """Reads what the server writes, until it writes no more."""
        frames = Frames()
        try:
            while data := os.read(self.process.stdout.fileno(), 1 << 16):
                if self.tape:
                    self.tape.add(SERVER, data)
                for content in frames.add(data):
                    self.take(shallow_value_of(content))
        except (OSError, ValueError) as error:
            if isinstance(error, Damaged):
                self.fault = f"sends bytes that are not frames: {error}"
        except RecursionError:
            self.fault = TOO_DEEP
        with self.condition:
            self.is_over = True
            self.condition.notify_all()

    def hear_errors(self):
        """Reads standard error, until there is no more."""
        poll = select.poll()
        poll.register(self.process.stderr.fileno(), select.POLLIN)
        with contextlib.suppress(OSError, ValueError):
            while poll.poll():
                with self.reading:
                    data = os.read(self.process.stderr.fileno(), 1 << 16)
                    self.said = (self.said + data)[-MOST_SAID:]
                    self.said_size += len(data)
                if not data:
                    return

    def catch_up(self):
        """Waits until all is read that the server has written to standard error by now, unless it
        writes on and on."""
        end, errors = time.monotonic() + AFTER_SIGNAL, self.threads[1]
        while errors.is_alive() and time.monotonic() < end:
            with self.reading:
                if not is_readable(self.process.stderr.fileno()):
                    return
            errors.join(0.005)

    def said_since(self, size):
        """What standard error got after its first bytes, as far as it is kept."""
        new = self.said_size - size
        return self.said[-new:] if new > 0 else b""

    def forget_published(self, uri):
        with self.condition:
            self.published.pop(same_name(uri), None)

    def published_of(self, uri, version, seconds, more):
        """The params of the last diagnostics of a document, if they are not older than this version
        as far as they say; None if there are none in this time or, if it has had some, in a longer
        one."""
        def found():
            params = self.published.get(same_name(uri))
            said = params.get("version") if params else None
            return None if isinstance(said, int) and said < version else params

        is_known = same_name(uri) in self.publishes
        with self.condition:
            is_done = lambda: found() or self.is_over
            self.condition.wait_for(is_done, more if is_known else seconds)
            return found()

    def memory(self):
        return memory_of(self.process)

    def take(self, message):
        """Takes a message of the server."""
        method, id = message.get("method"), message.get("id")
        with self.condition:
            self.received += 1
            if method is None and "id" in message:
                key = key_of(id)
                is_error = "error" in message
                self.answers[key] = message if key in self.whole else {"error": is_error}
                self.condition.notify_all()
            if method == PUBLISHED and isinstance(message.get("params"), dict):
                params = message["params"]
                self.published[same_name(params.get("uri"))] = params
                self.publishes.add(same_name(params.get("uri")))
                self.condition.notify_all()
        if method is not None and "id" in message:
            self.register(method, message.get("params"))
            name, value = self.replies.answer(method, message.get("params"))
            self.send(response(id, name, value))

    def register(self, method, params):
        """Notes what the server offers later than in its answer to `initialize`."""
        if method == "client/registerCapability" and isinstance(params, dict):
            items = params.get("registrations")
            for item in items if isinstance(items, list) else ():
                if isinstance(item, dict):
                    self.registered.add(item.get("method"))

    def ask(self, id, content, is_whole):
        """Sends a request, whose answer is kept."""
        with self.condition:
            self.answers.pop(id, None)
            if is_whole:
                self.whole.add(id)
        self.send(content)

    def wait(self, id, seconds):
        """The response to a request, or None if there is none in this time."""
        with self.condition:
            is_done = lambda: id in self.answers or self.is_over
            self.condition.wait_for(is_done, seconds)
            return self.answers.get(id)

    def forget(self, id):
        """Drops the answer to a request."""
        with self.condition:
            self.answers.pop(id, None)
            self.whole.discard(id)

    def check_running(self, when):
        """Fails if the server has ended."""
        with self.condition:
            if not self.is_over:
                return
        raise self.failed(Fault if self.fault else Ended, self.how_ended(), when)

    def has_ended(self, seconds):
        """Whether the server ends within some seconds."""
        with self.condition:
            return self.condition.wait_for(lambda: self.is_over, seconds)

    def how_ended(self):
        return self.fault or how_ended(self.process)

    def failed(self, kind, what, when):
        """A fault, with the last words of the server."""
        said = f"{self.name} {what} {when}"
        words = self.last_words()
        return kind(said + (f"; its standard error ends:\n{words}" if words else ""))

    def last_lines(self, count):
        """The last lines of standard error."""
        self.catch_up()
        return self.said.decode("utf-8", "replace").splitlines()[-count:]

    def last_words(self):
        """The same, without what a terminal would obey."""
        lines = self.last_lines(LINES_SAID)
        shown = ["".join(it if it.isprintable() else " " for it in line) for line in lines]
        return "\n".join(f"  {line}" for line in shown)

    def end(self, messages=()):
        """Ends the server with these messages, or else with a signal."""
        try:
            if not self.is_over:
                self.say_goodbye(dict(messages))
            else:
                self.is_lost = True
            if not has_ended(self.process, AFTER_EXIT if not self.is_over else 0.2):
                PROCESSES.signal(self.process, signal.SIGTERM)
                has_ended(self.process, AFTER_SIGNAL)
        finally:
            self.feed.end()
            PROCESSES.kill(self.process)
            for thread in self.threads:
                thread.join(AFTER_SIGNAL)
            self.process.stdout.close()
            self.process.stderr.close()

    def say_goodbye(self, messages):
        """Sends `shutdown` and `exit`, those of the log if it has them."""
        content = messages.get("shutdown") or request(next(self.ids), "shutdown")
        id = key_of(value_of(content).get("id"))
        self.ask(id, content, False)
        self.is_lost = self.wait(id, LAST_ANSWER) is None and self.is_over
        self.send(messages.get("exit") or notification("exit"))
        self.feed.end()


class Tape:
    """A log of format 2 that is written while a replay runs."""

    def __init__(self, file):
        self.file, self.lock, self.error = file, threading.Lock(), None
        self.write([FIRST_LINE])

    def add(self, kind, data):
        """Adds bytes of one side."""
        self.write(as_records(kind, data))

    def write(self, records):
        """Writes records. If that fails, the replay continues, and its end reports it."""
        with self.lock:
            try:
                if self.error is None:
                    self.file.writelines(records)
            except OSError as error:
                self.error = error
