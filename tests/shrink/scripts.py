"""Runs recorders/shrink as a user does."""

import os
import subprocess
import sys
from pathlib import Path

from processes import SECONDS

SCRIPT = Path(__file__).resolve().parent.parent.parent / "recorders/shrink"
SETTING = {name: it for name, it in os.environ.items() if not name.startswith("PYTHON")}


def command(program, *words):
    return [sys.executable, SCRIPT, "--program", program, *words]


def run(program, *words, **how):
    """The status of the script, and both of its outputs."""
    how = {"stdout": subprocess.PIPE, "stderr": subprocess.PIPE, "env": SETTING, **how}
    done = subprocess.run(command(program, *words), timeout=SECONDS, **how)
    return done.returncode, done.stdout, done.stderr


def put(place, log, name="whole.log"):
    path = place / name
    path.write_bytes(log)
    return path


def small_of(program, place, log, *options):
    """What is written for a log."""
    status, small, said = run(program, *options, put(place, log))
    assert (status, said) == (0, b""), (status, said)
    return small


def explained(program, log):
    """The lines of its explanation."""
    done = subprocess.run([program, "explain", log], timeout=SECONDS, stdout=subprocess.PIPE)
    return done.stdout.decode().splitlines()
