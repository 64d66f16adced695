"""Runs lspcheck on a log, and gives what it writes."""

import os
import shutil
import signal
import subprocess
from pathlib import Path

from lsptools.base.stops import held

# What these commands answer when they could do their work: yes or done, no, a bad log.
ANSWERS = (0, 1, 2)
# What they answer if they do not know the words of the command line.
BAD_WORDS = 64
# How many seconds a program has to end when it is asked to.
PATIENCE = 5


class Failed(Exception):
    """Why no page is written, for standard error, and the status of the script."""

    def __init__(self, message, status=1):
        super().__init__(message)
        self.status = status


def printable(text):
    """A text of a program as one line, without what a terminal would obey."""
    lines = "; ".join(line for line in text.splitlines() if line)
    return "".join(it if it.isprintable() else "?" for it in lines)


def end_in_words(status):
    """How a program ended, by its status, or the signal that ended it as a negative number."""
    if status >= 0:
        return f"it ended with status {status}"
    names = {it.value: it.name for it in signal.Signals}
    return f"it was ended by {names.get(-status, f'signal {-status}')}"


def find_program(named, script):
    """The program that was named, the one in the folder of this command, or that of the PATH."""
    if named is not None:
        found = shutil.which(named)
        if found is None:
            raise Failed(f"{printable(named)}: there is no such program")
        return os.path.abspath(found)
    near = Path(script).absolute().with_name("lspcheck")
    found = str(near) if os.access(near, os.X_OK) else shutil.which("lspcheck")
    if found is None:
        raise Failed("there is no lspcheck next to this command or on the PATH: use --program")
    return os.path.abspath(found)


def status_within(running, seconds):
    """How a program ended, or None if it still runs after this time. Signals have to wait: one that
    comes after Popen has taken its lock would leave it locked for ever."""
    with held():
        try:
            return running.wait(seconds)
        except subprocess.TimeoutExpired:
            return None


def end(running):
    """Ends a program, which first has time to end what it started."""
    with held():
        if running.poll() is None:
            running.terminate()
            try:
                running.wait(PATIENCE)
            except subprocess.TimeoutExpired:
                running.kill()
                running.wait()


def version_of(path):
    """The first line of a program's `--version`. What is written to standard error meanwhile is
    passed through: a script like ./run may have to compile the program first."""
    running = None
    try:
        with held():
            running = subprocess.Popen([path, "--version"], stdout=subprocess.PIPE)
        line = running.communicate()[0].decode(errors="replace").partition("\n")[0]
    except OSError as error:
        raise Failed(f"{printable(path)}: {error.strerror}") from error
    finally:
        if running:
            end(running)
    if running.returncode != 0:
        raise Failed(f"{printable(path)} --version: it ended with status {running.returncode}")
    if not line.startswith("lspcheck "):
        raise Failed(f"{printable(path)}: this program is not lspcheck")
    return line


class Program:
    """lspcheck, with the log that it reads on standard input: its name may be any bytes."""

    def __init__(self, path, log):
        self.path, self.log = path, os.path.abspath(log)

    def run(self, words):
        try:
            with open(self.log, "rb") as log:
                return subprocess.run([self.path, *words], stdin=log, capture_output=True)
        except OSError as error:
            raise Failed(f"{printable(self.path)}: {error.strerror}") from error

    def check_status(self, words, status, errors):
        """Fails with the program's own words, and with its status if that is a fault of its own."""
        if status in ANSWERS:
            return
        if status == BAD_WORDS:
            raise Failed(f"{printable(self.path)}: this lspcheck does not know "
                         f"'{' '.join(words)}'; it may be an older version")
        said = printable(errors.decode(errors="replace")) or end_in_words(status)
        raise Failed(f"lspcheck {words[0]}: {said}", status if status in (3, 4) else 1)

    def output(self, *words):
        """All bytes that a command writes."""
        done = self.run([*words, "--quiet"])
        self.check_status(words, done.returncode, done.stderr)
        return done.stdout


def can_name(uri):
    """Whether a URI can be an argument of a program."""
    return not uri.startswith("-") and "\0" not in uri
