"""How the tests start programs, and wait for what these do."""

import py_compile
import shlex
import shutil
import signal
import sys
import tempfile
import time
from pathlib import Path

# After how many seconds a test gives up: only what never ends takes this long.
SECONDS = 600

SIGNALS = (signal.SIGINT, signal.SIGTERM, signal.SIGHUP)


# Folders that are removed when the tests have ended.
KEPT = []


class Skipped(Exception):
    """Why a test cannot be made here."""


def need_rt(script):
    """Ends a script, with a line, if there is no rt to compile or prove with."""
    if shutil.which("rt") is None:
        sys.exit(f"{script}: there is no rt on the PATH: see 'Get the program' in README.md")


def with_signals():
    """Signals end a program that is started with this, even if the caller of the tests ignores
    them, as a shell does with `&`."""
    for number in SIGNALS:
        signal.signal(number, signal.SIG_DFL)


def is_running(number):
    """Whether a process runs, and is not only waited for."""
    try:
        return Path(f"/proc/{number}/stat").read_text().rpartition(")")[2].split()[0] != "Z"
    except (FileNotFoundError, ProcessLookupError):
        return False


def until(condition, seconds=SECONDS):
    """Waits until something holds; whether it does."""
    end = time.monotonic() + seconds
    while not (is_so := condition()) and time.monotonic() < end:
        time.sleep(0.02)
    return bool(is_so)


def quoted(path):
    """A path as a word of a shell: it may have spaces."""
    return shlex.quote(str(path))


def bytecode_of(script):
    """A script of Python, compiled: a server of the tests is started thousands of times."""
    KEPT.append(tempfile.TemporaryDirectory(prefix="bytecode-"))
    path = Path(KEPT[-1].name) / f"{script.stem}.pyc"
    py_compile.compile(str(script), str(path), doraise=True)
    return path
