"""Inputs and outputs that fail: what cannot be read, a full device, a closed pipe, and little memory."""

import contextlib
import errno
import os

import programs
import sessions
from runs import READ_FAULT, WRITE_FAULT, begins, cause

# The address space in which a short log must be checked.
KILOBYTES = 10_240

# How the program is run by somebody who may not read every file.
NOBODY = [] if os.geteuid() else ["setpriv", "--reuid=65534", "--regid=65534", "--clear-groups"]

# Each way to run over an input, as the words before FILE, and its output for the whole session, or
# for one canonical frame.
COMMANDS = [
    (["check"], sessions.WHOLE_REPORT),
    (["check", "--complete"], sessions.WHOLE_REPORT),
    (["check", "--all"], sessions.WHOLE_REPORT),
    (["explain"], sessions.WHOLE_REPORT),
    (["explain", "--complete"], sessions.WHOLE_REPORT),
    (["explain", "--all"], sessions.WHOLE_REPORT),
    (["explain", "--all", "--notes"], sessions.WHOLE_REPORT),
    (["explain", "--notes"], sessions.WHOLE_REPORT),
    (["show"], sessions.WHOLE_LINES + sessions.WHOLE_REPORT),
    (["show", "--long"], sessions.WHOLE_LONG + sessions.WHOLE_REPORT),
    (["text", "3", "file:///a"], b"ab"),
    (["event", "5"], b"ab"),
    (["normal"], sessions.WHOLE),
    (["upgrade"], sessions.UPGRADED),
    (["redact"], sessions.REDACTED),
    (["redact", "--ignore-line-ends"], sessions.REDACTED),
    (["frames"], b"1 33\n"),
    (["frames", "--as", "lengths"], b"1 33\n"),
    (["frames", "--as", "kinds"], b'1 33 notification "exit"\n'),
    (["frames", "--as=canonical"], sessions.CANONICAL),
    (["check", "--quiet"], sessions.WHOLE_REPORT),
    (["text", "3", "file:///a", "--all"], b"ab"),
    (["show", "--all"], sessions.WHOLE_LINES + sessions.WHOLE_REPORT),
    (["show", "--long", "--all"], sessions.WHOLE_LONG + sessions.WHOLE_REPORT),
    (["check", "--ignore-line-ends"], sessions.WHOLE_REPORT),
    (["explain", "--ignore-line-ends"], sessions.WHOLE_REPORT),
]


def try_faults(trial):
    """Inputs that cannot be read, and outputs that cannot be written."""
    missing, folder = trial.folder / "missing", trial.folder / "folder"
    folder.mkdir()
    locked = trial.file("locked", sessions.WHOLE)
    locked.chmod(0)
    for words, due in COMMANDS:
        for path, before, number in [
            (missing, [], errno.ENOENT),
            ("", [], errno.ENOENT),
            (folder, [], errno.EISDIR),
            (locked, NOBODY, errno.EACCES),
        ]:
            # `upgrade` writes the first line of its format before it reads; all others read first.
            written = sessions.HEAD_TWO if words == ["upgrade"] and path == folder else b""
            trial.run("read fault", [*words, path], 3, written, READ_FAULT + cause(path or '""', number), before=before)
        written = sessions.HEAD_TWO if words == ["upgrade"] else b""
        for ways in [[], ["-"], ["--", "-"]]:
            told = READ_FAULT + cause("standard input", errno.EISDIR)
            with open_folder(folder) as unreadable:
                trial.run("read fault", [*words, *ways], 3, written, told, unreadable)
        given = sessions.CANONICAL if words[0] == "frames" else sessions.WHOLE
        with open("/dev/full", "wb") as full:
            told = WRITE_FAULT + cause("standard output", errno.ENOSPC)
            trial.run("full device", words, 3, b"", told, given, stdout=full)
            trial.run("full standard error", words, 0, due, b"", given, stderr=full)
        reader, writer = os.pipe()
        os.close(reader)
        told = WRITE_FAULT + cause("standard output", errno.EPIPE)
        trial.run("closed pipe", words, 3, b"", told, given, stdout=writer)
        os.close(writer)
    # Whoever reads the first lines of a help has seen enough: nothing is said, as of no other tool.
    for words in [["--help"], ["help"], ["check", "--help"], ["--version"]]:
        reader, writer = os.pipe()
        os.close(reader)
        trial.run("closed pipe", words, 3, b"", b"", stdout=writer)
        os.close(writer)
    with open("/dev/full", "wb") as full:
        trial.run("full device", ["--help"], 3, b"", begins(WRITE_FAULT), stdout=full)
        trial.run("full device", ["--version"], 3, b"", begins(WRITE_FAULT), stdout=full)
        trial.run("full standard error", ["bogus"], 64, b"", b"", stderr=full)
        trial.run("full standard error", ["check"], 1, sessions.EXITS_REPORT, b"", sessions.EXITS, stderr=full)
        trial.run("full standard error", ["text", "9", "u"], 5, b"", b"", sessions.WHOLE, stderr=full)


@contextlib.contextmanager
def open_folder(path):
    """A folder as an open file, which cannot be read as one."""
    file = os.open(path, os.O_RDONLY)
    try:
        yield file
    finally:
        os.close(file)


def try_memory(trial):
    """A short log and a short stream take little memory, in use or only reserved, of which no clause
    speaks. A program compiled with checks needs more just to begin."""
    if programs.leaves_out(trial.program, "memory of short inputs"):
        return
    few = ["sh", "-c", f'ulimit -v {KILOBYTES}; exec "$@"', "sh"]
    log, stream = sessions.WHOLE, sessions.frame("{}") * 2
    trial.run("little memory", ["check"], 0, sessions.WHOLE_REPORT, given=log, before=few)
    trial.run("little memory", ["frames"], 0, b"1 2\n2 2\n", given=stream, before=few)
