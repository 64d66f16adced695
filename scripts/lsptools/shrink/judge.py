"""Asks lspcheck whether a smaller log still has what the whole one has."""

import copy
import os
import re
import subprocess
import sys
import time

from lsptools.base.program import Failed, end, printable
from lsptools.base.stops import held

EVENT = re.compile(r"\bevent \d+ (editor|server|snapshot) \d+")
# Lines that stay to the letter.
TEXTS = ("after", "before", "by-messages", "in-editor", "inside", "saved")
# What stays of lines whose numbers depend on what else is in the log.
CHANGED = [
    (re.compile(r"no (\d+) (\w+) \d+ event \d+"), r"no \1 \2"),
    (re.compile(r"(begins|breaks|bytes|kept|whole) .*"), r"\1"),
    (re.compile(r"at \d+ (\d+)"), r"at \1"),
    (re.compile(r"change \d+ (?:\d+ (\d+) \d+ (\d+)|whole)"), r"change \1 \2"),
    (re.compile(r"changes [1-9]\d*"), "changes"),
    (re.compile(r"note past-end \d+ (\d+) lines \d+ (.*)"), r"note past-end \1 lines \2"),
    (re.compile(r"note past-end \d+ (\d+) length (.*)"), r"note past-end \1 length \2"),
]


def kept_of(line):
    """What a smaller log must have of a line of an explanation."""
    word = line.partition(" ")[0]
    if word in TEXTS:
        return line
    if word == "member":
        return re.sub(r"/\d+(?=[/\"])", "/0", line)
    line = EVENT.sub(r"event \1", line)
    for pattern, form in CHANGED:
        if pattern.fullmatch(line):
            return pattern.sub(form, line)
    return line


class Essence:
    """What a smaller log must have of the explanation of the whole one: the violation with its
    details, or the first note of a name."""

    def __init__(self, lines, note=None):
        self.note = note
        self.lines = self.lines_in(lines)[: 1 if note else None]
        self.has_equal = any(it.startswith("equal ") for it in lines)
        self.words = self.words_of(self.lines)

    def lines_in(self, lines):
        """The lines of an explanation that count."""
        if self.note:
            return [it for it in lines if it.split(" ")[:2] == ["note", self.note]]
        return [it for it in lines if it and not it.startswith(("note ", "notes "))]

    def words_of(self, lines):
        kept = [kept_of(it) for it in lines]
        if not self.has_equal:
            kept = [it for it in kept if not it.startswith(("suspect ", "suspects "))]
        return kept

    def is_in(self, lines):
        """Whether an explanation has all of this."""
        found = self.words_of(self.lines_in(lines))
        if self.note:
            return lines[0] == "yes" and self.words[0] in found
        return self.words == found

    def renamed(self, names):
        """The same, with other names of documents. Each is shown as JSON text."""
        old = re.compile("|".join(map(re.escape, names)))
        other = copy.copy(self)
        other.words = [old.sub(lambda it: names[it[0]], word) for word in self.words]
        return other


class Progress:
    """How far it is: a line on a terminal each second."""

    def __init__(self, is_quiet):
        self.is_on = not is_quiet and sys.stderr is not None and sys.stderr.isatty()
        self.length, self.last = 0, time.monotonic()

    def show(self, tried, size, whole):
        if self.is_on and time.monotonic() - self.last >= 1:
            self.last = time.monotonic()
            line = f"shrink: {whole:,} bytes, now {size:,}, {tried:,} tried"
            print(f"\r{line:<{self.length}}", end="", file=sys.stderr, flush=True)
            self.length = max(self.length, len(line))

    def clear(self):
        if self.length:
            print(f"\r{'':<{self.length}}\r", end="", file=sys.stderr, flush=True)
            self.length = 0


# What a try costs, in bytes: a start of lspcheck, and each byte of its log, which is made and read.
# And what all tries may cost: those of several hundred short logs, which takes seconds, or of
# dozens of long ones. Without a limit, a log of which nothing can go would take hours.
START, TIMES, MOST, MOST_OF_LOG = 400_000, 4, 300_000_000, 120


class Judge:
    """Runs lspcheck on one smaller log after the other, and keeps the smallest that is right."""

    def __init__(self, program, size, progress):
        self.program, self.progress, self.wanted = program, progress, None
        self.whole, self.tried = size, 0
        # What may still be spent on tries, and whether some were not made for that reason.
        self.left, self.is_spent = max(MOST, MOST_OF_LOG * size), False
        # Files in memory: a disk may be slow, and others may read it.
        self.file, self.errors = (open(os.memfd_create(it), "w+b") for it in ("log", "errors"))
        # The smallest case that was right, its log and its explanation.
        self.best, self.log, self.lines = None, None, []

    def put(self, log):
        """Puts a log where lspcheck reads it."""
        try:
            for file, data in ((self.file, log), (self.errors, b"")):
                file.seek(0)
                file.truncate()
                file.write(data)
                file.flush()
                file.seek(0)
        except OSError as error:
            raise Failed(f"a smaller log: {error.strerror}", 3) from error

    def run(self, words, log):
        """What a command writes about a log, and its status."""
        self.put(log)
        how = {"stdin": self.file, "stdout": subprocess.PIPE, "stderr": self.errors}
        running = None
        try:
            with held():
                # In a session of its own, ^C does not reach it.
                words = [self.program.path, *words, "--quiet"]
                running = subprocess.Popen(words, start_new_session=True, **how)
            return running.stdout.read(), running.wait()
        except OSError as error:
            raise Failed(f"{printable(self.program.path)}: {error.strerror}") from error
        finally:
            if running:
                running.stdout.close()
                end(running)

    def explain(self, log):
        """The lines of an explanation. They end with LF alone."""
        out, status = self.run(["explain"], log)
        self.errors.seek(0)
        self.program.check_status(["explain"], status, self.errors.read())
        return out.decode("utf-8", "replace").split("\n")

    def text(self, words, log):
        """The text that a command writes, or None."""
        out, status = self.run(words, log)
        return out.decode() if status == 0 else None

    def keeps(self, case, wanted=None):
        """Whether a case is right. If it is the smallest one so far, it is remembered."""
        log = case.log()
        self.tried += 1
        self.left -= START + TIMES * len(log)
        self.progress.show(self.tried, len(self.log or b"") or self.whole, self.whole)
        lines = self.explain(log)
        if not (wanted or self.wanted).is_in(lines):
            return False
        if self.log is None or len(log) <= len(self.log):
            self.best, self.log, self.lines = case, log, lines
        return True

    def smallest(self, parts, case_of):
        """The case of those parts that have to stay: leaves out all, halves, quarters, and so on.
        This may spend half of what is left."""
        size, least = len(parts), self.left // 2
        while size:
            at = 0
            while at < len(parts):
                if self.left < least:
                    self.is_spent = True
                    return case_of(parts)
                rest = parts[:at] + parts[at + size :]
                if self.keeps(case_of(rest)):
                    parts = rest
                else:
                    at += size
            size = min(size // 2, len(parts))
        return case_of(parts)
