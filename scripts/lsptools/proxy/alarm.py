"""The alarm of the proxy: lspcheck reads the log while it is written, and each violation is
reported as soon as it is found.
"""

import contextlib
import os
import signal
import subprocess
import tempfile
import threading

from lsptools.base.feeds import Feed, is_readable, write_all
from lsptools.base.report_lines import NoObject, Report, object_of
from lsptools.proxy.log import PATIENCE, create
from lsptools.proxy.saying import say

# The statuses of lspcheck after a yes, a no and a bad log, and the one of words that are unknown.
ANSWERS = (0, 1, 2)
BAD_WORDS = 64

# What comes within this many seconds belongs together.
PAUSE = 0.05

# The notes that say that the server may have dropped a document.
TOLD = ("past-end", "range-length", "refused")


def end_in_words(status, errors):
    """Why lspcheck ended that should have read on: its own words, if it wrote any."""
    if status == BAD_WORDS:
        return "it doesn't know --json or --notes; it may be an older version"
    said = errors.decode(errors="replace").strip().split("\n")[0].removeprefix("lspcheck: ")
    if said.isprintable() and said:
        return said
    if status < 0:
        names = {it.value: it.name for it in signal.Signals}
        return f"it was ended by {names.get(-status, f'signal {-status}')}"
    return f"it ended with status {status}"


class Check(threading.Thread):
    """`lspcheck explain --all --json`, which reads the log while it is written. The objects of each
    explanation are passed to a function as soon as they are written, and so is each note that is
    told; to another function, the reason if there are no more."""

    def __init__(self, options, tell, stop):
        super().__init__(daemon=True)
        words = ["lspcheck", "explain", "--all", "--json", *options, "--quiet", "-"]
        self.tell, self.stop, self.explanation = tell, stop, []
        self.errors = tempfile.TemporaryFile()
        pipes = {"stdin": subprocess.PIPE, "stdout": subprocess.PIPE, "stderr": self.errors}
        self.process = subprocess.Popen(words, **pipes)
        self.feed = Feed(os.dup(self.process.stdin.fileno()))
        self.process.stdin.close()
        self.feed.start()
        self.start()

    def run(self):
        try:
            self.read()
        except NoObject as error:
            self.process.kill()
            self.stop(str(error))
        self.end_explanation()
        if self.process.wait() not in ANSWERS:
            self.errors.seek(0)
            self.stop(end_in_words(self.process.returncode, self.errors.read()))

    def read(self):
        """Takes each line, except one that is cut off."""
        source, held = self.process.stdout.fileno(), b""
        while data := os.read(source, 65536):
            *lines, held = (held + data).split(b"\n")
            for line in lines:
                self.take(object_of(line))
            # `usually` or `so` is the last line of an explanation, unless more comes at once.
            is_whole = self.explanation and self.explanation[-1]["is"] in ("usually", "so")
            if is_whole and not is_readable(source, PAUSE):
                self.end_explanation()

    def take(self, it):
        if it["is"] in ("no", "note", "notes", "offences", "bad log"):
            self.end_explanation()
        if it["is"] == "note" and it.get("note") in TOLD:
            self.tell([it])
        elif it["is"] == "no" or self.explanation:
            self.explanation.append(it)

    def end_explanation(self):
        if self.explanation:
            self.tell(self.explanation)
            self.explanation = []


class Alarm:
    """Reports each independent violation on standard error and in a file, and notes with them.
    Texts are compared whatever their line ends are; a second check finds the first two that differ
    in these alone."""

    def __init__(self, path):
        self.path, self.file, self.lock, self.report = path, None, threading.Lock(), Report()
        self.has_told_line_ends = self.has_stopped = False
        options = ["--ignore-line-ends", "--notes"]
        self.checks = [Check(options, self.tell, self.stop),
                       Check([], self.tell_line_ends, self.stop)]

    def write(self, data):
        for check in self.checks:
            check.feed.put(data)

    def tell(self, objects, remark=""):
        head, *lines = self.report.lines(objects)
        text = "".join(f"{line}\n" for line in [head + remark, *lines]).encode()
        with contextlib.suppress(OSError), self.lock:
            write_all(2, text)
        with contextlib.suppress(OSError), self.lock:
            write_all(self.file_of_explanations(), text)

    def file_of_explanations(self):
        """The file next to the log, which is created with the first explanation."""
        if self.file is None:
            try:
                self.file = create(self.path)
            except OSError as error:
                say(f"{self.path}: {error.strerror}; explanations are written here alone")
                self.file = os.open(os.devnull, os.O_WRONLY)
        return self.file

    def tell_line_ends(self, objects):
        if not self.has_told_line_ends and any(it["is"] == "ends" for it in objects):
            self.has_told_line_ends = True
            self.tell(objects, ", line ends alone")

    def stop(self, reason):
        """Says once why there may be no more reports."""
        with self.lock:
            if not self.has_stopped:
                say(f"lspcheck: {reason}; violations may not be reported from now on")
            self.has_stopped = True

    def end(self):
        for check in self.checks:
            check.feed.end()
        for check in self.checks:
            check.join(PATIENCE)
