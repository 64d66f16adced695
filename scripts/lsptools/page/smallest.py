"""The smallest session that shows the violation of a log, as `recorders/shrink` finds it: the
messages of the editor, or the log itself."""

import io
import os
import time
from pathlib import Path

from lsptools.base.program import Failed, Program, end, printable
from lsptools.base.session_log import SERVER, SNAPSHOT, Frames, records

SHRINK = Path(__file__).resolve().parents[3] / "recorders/shrink"
# What it answers if there is no violation to show, or none of a message or a snapshot.
NOTHING = (1, 2)
# How many seconds it may take, unless the user says otherwise.
SECONDS_TO_SHRINK = 5
# The rules whose violations it can show.
RULES = range(201, 703)


def start_shrink(runs, *words):
    if not os.access(SHRINK, os.X_OK):
        raise Failed(f"there is no {SHRINK}: this command is not installed completely")
    words = [*words, "--program", runs.program.path, "-"]
    return runs.start(*words, program=Program(str(SHRINK), runs.log.path), name="shrink")


def start_smallest(runs):
    """Starts to look for the messages of the editor in it."""
    return start_shrink(runs, "--lit")


def smallest_of(run):
    """The messages of the editor in it, or None."""
    status = run.wait()
    if status in NOTHING:
        return None
    if status != 0:
        run.errors.seek(0)
        said = run.errors.read().decode(errors="replace").removeprefix("shrink: ")
        raise Failed(f"shrink: {printable(said)}", status if status in (3, 4) else 1)
    run.out.seek(0)
    return run.out.read()


def number_of_events(log):
    """How many messages and snapshots a log has whose frames are whole."""
    file, streams, found = io.BytesIO(log), [Frames(), Frames()], 0
    file.readline()
    for record in records(file):
        if record.kind == SNAPSHOT:
            found += 1
        else:
            found += len(list(streams[record.kind == SERVER].add(record.data)))
    return found


class Case:
    """The smallest log that shows the violation, if it is found in time."""

    def __init__(self, runs, seconds):
        self.run, self.until = start_shrink(runs), time.monotonic() + seconds

    def log(self):
        """The bytes of the log; None if it is not found by now."""
        status = self.run.status_by(self.until)
        if status is None:
            end(self.run.running)
        return self.run.bytes() if status == 0 else None


def case_of(runs, verdict, seconds):
    """Starts to look for the smallest log, if there can be one."""
    return Case(runs, seconds) if seconds and verdict.get("rule") in RULES else None
