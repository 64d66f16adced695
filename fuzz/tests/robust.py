"""No server holds up the command, nothing outlives it, and it takes no longer than it may."""

import os
import re
import signal
import subprocess

import legal
from hunts import COMMAND, check, nothing_is_left, objects_of, run, run_longer, words_of
from lsptools.fuzz import causes, shrinking
from processes import SECONDS, SIGNALS, until, with_signals


def is_not_held_up(program, place):
    """By noise on standard error, by a message of many megabytes, by requests, and by a server that does
    not end by itself."""
    for fault in ("noisy", "large", "asks", "stays"):
        done = run_longer(program, fault, is_wanted=lambda it: it.returncode == 0)
        assert (done.returncode, done.stderr) == (0, ""), (fault, done)


def answers_values_that_are_nested_too_deep(program, place):
    """Python can't compare the first one, and can't read the other one at all."""
    for depth in (700, 100_000):
        done = run(program, f"deep={depth}", options=["--seconds", SECONDS])
        assert done.returncode == 2 and "Traceback" not in done.stderr, (depth, done)
        assert "sends a message that is nested over 400 deep" in done.stderr, (depth, done)


def finds_what_hangs_the_server(program, place):
    """Unless the server was asked about a document before it drops it, as clangd 14: then it hangs at the fourth."""
    faults = ["past=dropped", "hangs=4"]
    for seconds in (5, 20, 80):
        options = ["--only", "past-end", "--seconds", SECONDS, "--wait", seconds]
        done = run(program, *faults, options=options, timeout=10 * SECONDS)
        if done.returncode == 1:
            break
    assert done.stdout.startswith("drift past-end: document dropped; "), done


def says_how_the_server_ended(program, place):
    """Also where no fresh server ends, since this one ends at its 400th message."""
    done = run_longer(program, "ends=400", is_wanted=lambda it: "server failed" in it.stdout)
    assert done.returncode == 0 and re.search(r'^server failed: "python\S* ended with status 3 ', done.stdout, re.M), done


def tries_nothing_when_the_time_is_over(_program, _place):
    case, tried = legal.case_of(1, legal.PLAIN | {"astral"}), []
    assert shrinking.Shrinking(case, tried.append, tried.append, end=0).smallest() == case and not tried
    assert causes.Explaining(None, end=0).cause(case, case) == causes.Cause(())


def tells_what_there_was_no_time_for(program, place):
    """A drift that is neither cut down nor explained."""
    small = place / "small.log"
    options = ["--json", "--only", "astral", "--seconds", SECONDS, "--small", small]
    done = run(program, "characters", options=options, env={**os.environ, "LIMIT": "0"})
    drift = objects_of(done)[0]
    assert done.returncode == 1 and (drift["feature"], drift["causes"]) == ("astral", []), done
    assert drift["messages"] > 6 and check(program, small) == "yes", drift


def leaves_nothing(program, place):
    """No process and no folder, however it ends. A signal leaves the smallest session so far."""
    small, temporary, children = place / "small.log", place / "temporary", place / "children"
    temporary.mkdir()
    setting = {**os.environ, "TMPDIR": str(temporary)}
    done = run_longer(program, f"child={children}", is_wanted=lambda it: it.returncode == 0, env=setting)
    assert done.returncode == 0, done
    nothing_is_left(temporary, children)
    for number in (*SIGNALS, signal.SIGQUIT):
        options = ["--seconds", SECONDS, "--small", small]
        words = words_of(program, f"child={children}", "slow=0.05", "whole", options=options, command=COMMAND)
        pipes = {"stdout": subprocess.DEVNULL, "stderr": subprocess.PIPE, "env": setting}
        with subprocess.Popen(words, preexec_fn=with_every_signal, **pipes) as process:
            assert until(lambda: children.exists() and children.read_text().count("\n") >= 2)
            process.send_signal(number)
            said = process.stderr.read().decode()
            assert process.wait(SECONDS) == -number, said
        lines = said.splitlines()
        assert lines[-1] == f"lspcheck-fuzz: stopped by {number.name}" and len(lines) <= 2, said
        assert not small.exists() or check(program, small) == "yes", small.read_bytes()
        nothing_is_left(temporary, children)


def with_every_signal():
    with_signals()
    signal.signal(signal.SIGQUIT, signal.SIG_DFL)


TESTS = [
    is_not_held_up,
    answers_values_that_are_nested_too_deep,
    finds_what_hangs_the_server,
    says_how_the_server_ended,
    tries_nothing_when_the_time_is_over,
    tells_what_there_was_no_time_for,
    leaves_nothing,
]
