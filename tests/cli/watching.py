"""What is shown and written while the input is still read: on a terminal, and of a log that grows."""

import contextlib
import os
import pty
import re
import select
import subprocess
import threading
import time

import programs
import sessions
import several
from processes import SECONDS
from runs import OFFENCES

# Frames of 40 MB together, and the lines of their lengths.
LONG_STREAM = (b"Content-Length: 1000000\r\n\r\n" + b" " * 1_000_000) * 40
LONG_LINES = b"".join(b"%d 1000000\n" % (frame + 1) for frame in range(40))


def feed(pipe, given, pause):
    """Writes half of the bytes into a pipe, and after a pause the others."""
    with contextlib.suppress(OSError), pipe:
        pipe.write(given[: len(given) // 2])
        pipe.flush()
        time.sleep(pause)
        pipe.write(given[len(given) // 2 :])


def drain(pipe, pause, got):
    """Adds what comes through a pipe, of which nothing is taken for a while after the first byte is
    there."""
    select.select([pipe], [], [])
    time.sleep(pause)
    got.append(pipe.read())


def on_terminal(trial, words, shared=False, given=b"", pause=0):
    """The status, standard output, and what a terminal gets: standard error, and standard output
    too if it is shared. The program waits a while, for its input or to write its output."""
    mine, other = pty.openpty()
    pipes = {"stdin": subprocess.PIPE, "stdout": other if shared else subprocess.PIPE}
    run = subprocess.Popen([trial.program, *words], **pipes, stderr=other)
    os.close(other)
    out, shown = [], b""
    threads = [threading.Thread(target=feed, args=(run.stdin, given, pause))]
    threads += [] if shared else [threading.Thread(target=drain, args=(run.stdout, pause, out))]
    for thread in threads:
        thread.start()
    with contextlib.suppress(OSError):
        while piece := os.read(mine, 65_536):
            shown += piece
    os.close(mine)
    for thread in threads:
        thread.join()
    return run.wait(SECONDS), b"".join(out), shown


def try_progress(trial):
    """How far the input was read, on a terminal, each second."""
    path = trial.file("long.bin", LONG_STREAM)
    canonical = ["frames", "--as", "canonical"]
    blank = rb"\r +\r"
    text = re.escape(LONG_LINES.replace(b"\n", b"\r\n"))
    of_file = rb"(\rlspcheck: read (\d+ of 40 MB, \d\d?|40 of 40 MB, 100) %)+" + blank
    of_pipe = rb"(\rlspcheck: read \d+ MB)+" + blank
    rows = [
        ([*canonical, path], False, b"", 1.2, LONG_STREAM, of_file),
        (["frames"], False, LONG_STREAM, 1.2, LONG_LINES, of_pipe),
        (["frames"], True, LONG_STREAM, 1.2, b"", of_pipe + text),
        (["frames", "--quiet"], False, LONG_STREAM, 1.2, LONG_LINES, b""),
    ]
    for words, shared, given, pause, out, line in rows:
        got = on_terminal(trial, words, shared, given, pause)
        good = got[:2] == (0, out) and re.fullmatch(line, got[2]) is not None
        trial.note(f"progress: lspcheck {' '.join(map(str, words))}", good, got)
    if not programs.leaves_out(trial.program, "no progress in a run of less than a second"):
        try_no_progress(trial, canonical)
    trial.run("progress", ["frames", path], 0, LONG_LINES)


def try_no_progress(trial, words):
    """A run of less than a second shows nothing. If the machine is slow, the input is shorter."""
    for frames in (40, 40, 10, 10, *[1] * 50):
        stream = LONG_STREAM[: len(LONG_STREAM) // 40 * frames]
        path = trial.file("short.bin", stream)
        begun = time.monotonic()
        got = on_terminal(trial, [*words, path])
        if time.monotonic() - begun < 1:
            trial.note("progress: nothing in less than a second", got == (0, stream, b""), got)
            return
    print("left out, since the machine is too slow: no progress in a run of less than a second", flush=True)


def written_meanwhile(pipe, count):
    """At most this many bytes that come through a pipe, until nothing comes any more."""
    got = b""
    while len(got) < count and select.select([pipe], [], [], several.MOMENT)[0]:
        piece = os.read(pipe.fileno(), count - len(got))
        if not piece:
            break
        got += piece
    return got


def try_watched(trial):
    """What is written of a log while more of it may come: each offence, and each event's line."""
    causes = sessions.WRONG_LINES + sessions.WRONG_LATER
    every = sessions.WRONG_LINES + sessions.WRONG_FOLLOWS + sessions.WRONG_LATER
    for words, log, status, early, late in [
        (["check", "--all"], sessions.WRONGS, 1, causes, OFFENCES),
        (["check", "--every"], sessions.WRONGS, 1, every, OFFENCES),
        (["explain", "--all"], sessions.WRONGS, 1, sessions.WRONGS_EXPLAINED, OFFENCES),
        (["explain", "--all", "--notes"], sessions.NOTED, 1, sessions.NOTED_EXPLAINED, sessions.NOTED_COUNTS),
        (["show"], sessions.WHOLE, 0, sessions.WHOLE_LINES, sessions.WHOLE_REPORT),
        (["show", "--long"], sessions.WHOLE, 0, sessions.WHOLE_LONG, sessions.WHOLE_REPORT),
        (["show", "--all"], sessions.WRONGS, 1, sessions.WRONGS_SHOWN, OFFENCES),
    ]:
        pipes = {"stdin": subprocess.PIPE, "stdout": subprocess.PIPE}
        run = subprocess.Popen([trial.program, *words], **pipes)
        run.stdin.write(log)
        run.stdin.flush()
        meanwhile = written_meanwhile(run.stdout, len(early))
        run.stdin.close()
        got = (meanwhile, run.stdout.read(), run.wait(SECONDS))
        trial.note(f"watched: lspcheck {' '.join(words)}", got == (early, late, status), got)
