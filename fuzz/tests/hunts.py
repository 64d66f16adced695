"""Runs lspcheck-fuzz for the tests, and reads what it writes."""

import json
import os
import re
import signal
import subprocess
import sys
from concurrent.futures import ThreadPoolExecutor
from pathlib import Path

from processes import SECONDS, bytecode_of, is_running, until, with_signals

HERE = Path(__file__).resolve().parent
TOP = HERE.parent.parent
COMMAND, HASTY = TOP / "fuzz/lspcheck-fuzz", HERE / "hasty.py"
SERVER = [sys.executable, "-IS", bytecode_of(HERE / "server.py")]
# How many hunts run at a time, and how many sessions there are until each feature was in one.
WIDTH, ROUND = 4, 24


def words_of(program, *faults, options=(), command=HASTY, server=SERVER, seed=1, language="c"):
    """The command line of a hunt with the server of the tests."""
    chosen = ["--language", language] if language and "--start" not in options else []
    patience = [] if "--wait" in options else ["--wait", SECONDS]
    seeds = ["--seed", seed] if seed else []
    words = [sys.executable, command, "--program", program, *chosen, *patience, *seeds, *options]
    return [str(it) for it in (*words, *server, *faults)]


def run(program, *faults, options=(), command=HASTY, server=SERVER, seed=1, language="c", **how):
    """A hunt to its end."""
    how = {"capture_output": True, "text": True, "timeout": 2 * SECONDS, **how}
    words = words_of(
        program, *faults, options=options, command=command, server=server, seed=seed, language=language
    )
    return subprocess.run(words, **how)


def has_played(done):
    """Whether a hunt has gone on until each feature was in a session."""
    found = re.search(r'\bsessions"?[ :](\d+)', done.stdout)
    return bool(found) and int(found[1]) >= ROUND


def run_longer(program, *faults, options=(), is_wanted, **how):
    """A hunt that takes as long as a busy machine needs for what is wanted."""
    for seconds in (1, 4, 16, 64, 256):
        done = run(program, *faults, options=["--seconds", seconds, *options], **how)
        if is_wanted(done):
            break
    return done


def until_found(program, *faults, count=1, options=(), seed=1):
    """The objects of a hunt up to its first drifts. Then it is stopped, or ends by itself."""
    options = ["--json", "--seconds", SECONDS, *options]
    words = words_of(program, *faults, options=options, seed=seed)
    pipes = {"stdout": subprocess.PIPE, "stderr": subprocess.PIPE, "text": True}
    objects = []
    with subprocess.Popen(words, preexec_fn=with_signals, **pipes) as process:
        for line in process.stdout:
            objects.append(json.loads(line))
            has_log = "--small" not in options or objects[-1]["is"] == "small"
            if has_log and sum(it["is"] == "drift" for it in objects) == count:
                process.send_signal(signal.SIGTERM)
                break
        said = process.stderr.read()
    assert objects and "Traceback" not in said, said
    return objects


def drifts(objects):
    return [it for it in objects if it["is"] == "drift"]


def objects_of(done):
    return [json.loads(line) for line in done.stdout.splitlines()]


def check(program, log):
    """The first line of the report of lspcheck."""
    done = subprocess.run([program, "check", "--compared", log], capture_output=True, text=True)
    return done.stdout.partition("\n")[0] if done.returncode == 0 else f"{done.returncode} {done.stdout}"


def replayed(program, log, *faults, server=SERVER):
    """What lspcheck-replay says about a log."""
    words = [sys.executable, TOP / "replay/tests/hasty.py", "--program", program, log, *server, *faults]
    return subprocess.run(list(map(str, words)), capture_output=True, text=True, timeout=SECONDS)


def nothing_is_left(temporary, children):
    """Fails if a folder for temporary files is not empty, or if a process runs that is in this file."""
    started = [int(it) for it in children.read_text().split()]
    assert len(started) >= 2, started
    until(lambda: not any(map(is_running, started)), 60)
    running = [it for it in started if is_running(it)]
    for it in running:
        os.kill(it, signal.SIGKILL)
    assert not running, started
    children.unlink()
    assert list(temporary.iterdir()) == [], list(temporary.iterdir())


def side_by_side(trial, rows):
    """Runs a trial of each row, some at a time. Fails with all faults, each with its row."""
    def tried(row):
        try:
            return trial(*row)
        except (AssertionError, LookupError) as error:
            return f"{row}: {error}"

    with ThreadPoolExecutor(min(WIDTH, len(os.sched_getaffinity(0)))) as pool:
        faults = [it for it in pool.map(tried, rows) if it]
    assert not faults, "\n".join(faults)
