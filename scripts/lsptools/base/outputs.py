"""How scripts end if their standard output can't be written: without a word and with status 141 if
its reader is gone, as in `| head -1`, and otherwise with a line that says why, and status 3. If
nobody reads what they say on standard error, they continue; and if standard input was closed, it is
empty."""

import errno
import io
import os
import sys


class Guarded(io.FileIO):
    """Standard output, which ends the script at a failed write."""

    def __init__(self, script):
        super().__init__(sys.stdout.fileno(), "w", closefd=False)
        self.script = script

    def write(self, data):
        try:
            return super().write(data)
        except OSError as error:
            drop(self.fileno())
            if error.errno == errno.EPIPE:
                sys.exit(141)
            say(f"{self.script}: standard output: {error.strerror}")
            sys.exit(3)


# The status of a script whose standard output could not be written.
UNWRITTEN = (141, 3)


def drop(file):
    """Drops what could not be written, so that nothing is tried again at the end, and all after
    it."""
    os.dup2(os.open(os.devnull, os.O_WRONLY), file)


def say(line):
    """Writes a line to standard error, unless that was closed when the script began."""
    try:
        if sys.stderr:
            print(line, file=sys.stderr, flush=True)
    except OSError:
        drop(2)


def called(script):
    """The name of a script in its help: that of a package's command, such as lspcheck-shrink, if
    the user called that, and otherwise the given one, such as recorders/shrink."""
    command = os.path.basename(sys.argv[0])
    return command if command == f"lspcheck-{os.path.basename(script)}" else script


def guard(script):
    """Replaces sys.stdout, for the script of this name."""
    how = {name: getattr(sys.stdout, name) for name in ("encoding", "errors", "line_buffering")}
    sys.stdout = io.TextIOWrapper(io.BufferedWriter(Guarded(script)), **how)


def open_input():
    """Standard input that was closed is empty, so that no other file takes its number."""
    if sys.stdin is None:
        file = os.open(os.devnull, os.O_RDONLY)
        if file == 0:
            os.set_inheritable(file, True)
        else:
            os.close(file)


def is_path(script):
    """Whether a script is one for contributors, which is named by its path."""
    return "/" in script and not script.startswith("./")


def ended(script, main, *words):
    """Runs the main function of a script, and gives its status, once all that it wrote is
    written. The help of a script for contributors is its docstring."""
    open_input()
    if sys.stdout is None:
        say(f"{script}: standard output: {os.strerror(errno.EBADF)}")
        return 3
    guard(script)
    try:
        if is_path(script) and sys.argv[1:] in (["-h"], ["--help"]):
            print(sys.modules["__main__"].__doc__.strip())
            return 0
        return main(*words)
    finally:
        sys.stdout.flush()
