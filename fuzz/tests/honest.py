"""An honest server: nothing is found, whatever it offers, and however late it is."""

import os
import subprocess
import sys
from concurrent.futures import ThreadPoolExecutor
from contextlib import contextmanager

from hunts import COMMAND, has_played, nothing_is_left, objects_of, run, run_longer, side_by_side
from processes import SECONDS

# What an honest server may do.
KINDS = [[], ["utf-8"], ["utf-32"], ["full"], ["late=0.02"]]
# How long it is tried, in seconds, with which seeds, and next to how many processes on each processor
# that never rest.
LONG, SEEDS, LOAD = 600, (1, 2, 3, 4, 5), 4


def finds_nothing(program, faults):
    done = run_longer(program, *faults, options=["--json"], is_wanted=has_played)
    objects = objects_of(done)
    found = [it for it in objects if it["is"] == "drift"]
    assert (done.returncode, found, done.stderr) == (0, [], ""), (faults, done)
    assert objects[-2]["is"] == "drifts" and objects[-2]["answers"] > 0, objects


def accuses_no_honest_server(program, place):
    side_by_side(finds_nothing, [(program, it) for it in KINDS])


@contextmanager
def busy_machine():
    words = [sys.executable, "-IS", "-c", "while True: pass"]
    running = [subprocess.Popen(words) for _ in range(LOAD * len(os.sched_getaffinity(0)))]
    try:
        yield
    finally:
        for process in running:
            process.kill()
            process.wait()


def finds_nothing_in_ten_minutes(program, place):
    """With five seeds at the same time, on a machine that has no time for them; and nothing is left."""
    with busy_machine(), ThreadPoolExecutor(len(SEEDS)) as pool:
        list(pool.map(lambda seed: finds_nothing_for_long(program, place, seed), SEEDS))


def finds_nothing_for_long(program, place, seed):
    temporary, children = place / f"temporary-{seed}", place / f"children-{seed}"
    temporary.mkdir()
    how = {"seed": seed, "command": COMMAND, "timeout": 10 * LONG, "env": {**os.environ, "TMPDIR": str(temporary)}}
    done = run(program, f"child={children}", options=["--seconds", LONG], **how)
    assert (done.returncode, done.stderr) == (0, "") and "drifts 0 " in done.stdout, (seed, done)
    nothing_is_left(temporary, children)


def says_which_rule_the_server_breaks(program, place):
    """That is not judged, but said."""
    done = run_longer(program, "breaks", is_wanted=lambda it: "lspcheck says" in it.stdout)
    assert done.returncode == 0 and 'lspcheck says "no 203 server ' in done.stdout, done


def makes_the_same_of_the_same_seed(program, place):
    """The first drift of a seed, word for word, and the log of it."""
    said = set()
    for number in range(2):
        small = place / f"{number}.log"
        options = ["--small", small, "--only", "whole", "--seconds", SECONDS]
        done = run(program, "whole", options=options, seed=7)
        first = done.stdout.splitlines()[0]
        assert done.returncode == 1 and first.startswith("drift whole: "), done
        said.add((first, small.read_bytes().partition(b"didOpen")[2]))
    assert len(said) == 1, said
    assert " seed 7 session " in first, first


TESTS = [accuses_no_honest_server, says_which_rule_the_server_breaks, makes_the_same_of_the_same_seed]
LOADING_TESTS = [finds_nothing_in_ten_minutes]
