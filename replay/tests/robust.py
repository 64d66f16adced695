"""No server holds up the command, and no process outlives it."""

import ctypes
import os
import re
import signal
import subprocess
import sys
import time

import sessions
from processes import SECONDS, SIGNALS, is_running, until, with_signals
from trials import COMMAND, HASTY, SERVER, TOP, check, named, run, run_waiting
from usage import put, small_session

# The speed: this many messages and a search, in at most this many seconds on an idle machine, and ten
# times as many on a busy one.
MESSAGES, MOST = 500, 60


def says_that_the_server_ended(program, place):
    """With its last words, of which a terminal obeys none. One that ends at once ends at no message."""
    log = put(place, small_session().end())
    # The fourth message of the editor is an answer, and the server gets the others.
    done = run(program, log, "ends=5")
    lines = done.stdout.splitlines()
    assert done.returncode == 1 and any(it.startswith("ends after editor 6 event 8 ") for it in lines), done
    said = [it for it in lines if it.startswith("stderr ")]
    assert said == ['stderr "out of luck"', 'stderr "\\u001b[31mat the end"'], lines
    done = run(program, log, "ends=2")
    refuses_first(done, r"python\S* ended with status 3 after editor \d+ event \d+; its standard error ends:")
    assert done.stderr.splitlines()[1:] == ["  out of luck", "   [31mat the end"], done.stderr
    done = run(program, log, server=["sh", "-c", "kill -9 $$"])
    refuses_first(done, "sh was ended by signal 9 ")
    done = run(program, log, server=["true"])
    refuses_first(done, "true ended with status 0 ")


def refuses_first(done, words):
    assert done.returncode == 2 and "Traceback" not in done.stderr, done
    first = done.stderr.splitlines()[0]
    assert re.match(f"lspcheck-replay: {words}", first), done.stderr


def waits_no_longer_than_it_says(program, place):
    log = put(place, small_session().end())
    for fault in ("silent=1", "deaf"):
        begun = time.monotonic()
        done = run(program, log, fault, options=["--wait", 1.5])
        refuses_first(done, 'python\\S* gave no answer in 1.5 seconds \\(see --wait\\) to editor 1 event 1 request 1 "initialize"')
        # Twenty times its patience at the end of a server, and what a busy machine needs.
        assert time.monotonic() - begun < 300, fault
    question = 'to the question "textDocument/formatting"'
    done, seconds = run_waiting(program, log, "silent=4", is_wanted=lambda done, _: question in done.stderr)
    refuses_first(done, f'python\\S* gave no answer in {seconds} seconds \\(see --wait\\) to the question "textDocument/formatting"')


def is_not_held_up(program, place):
    """Noise on standard error, large frames, and bytes that are not frames."""
    session = small_session()
    log = put(place, session.end())
    for faults in (["noisy"], ["large"], ["slow=0.05"]):
        done = run(program, log, *faults)
        assert (done.returncode, done.stderr) == (0, ""), (faults, done)
    done = run(program, log, "broken")
    refuses_first(done, r"python\S* sends bytes that are not frames: a header part has no length ")
    done = run(program, log, server=["yes"])
    refuses_first(done, "yes sends bytes that are not frames: a header part is too long ")


def says_that_an_answer_is_nested_too_deep(program, place):
    """Python can't compare some, and can't read others at all."""
    log = put(place, small_session().end())
    for depth in (300, 490, 700, 100_000):
        done = run(program, log, f"deep={depth}")
        if depth > 400:
            refuses_first(done, r"python\S* sends a message that is nested over 400 deep after editor \d+ event \d+")
        else:
            assert (done.returncode, done.stderr) == (0, ""), done


def to_another_thread(process, number):
    """Sends a signal as the system may do: not to the first thread, where Python handles it."""
    thread = max(it for it in map(int, os.listdir(f"/proc/{process.pid}/task")) if it != process.pid)
    assert ctypes.CDLL(None).tgkill(process.pid, thread, number) == 0


def leaves_no_process(program, place):
    """Each server starts a process of its own. They end with the command, however that ends."""
    log, temporary = put(place, small_session().end()), place / "temporary"
    temporary.mkdir()
    ends_alone(program, place, log)
    for number in (*SIGNALS, signal.SIGQUIT):
        ends_by(program, place, log, number, subprocess.Popen.send_signal)
    ends_by(program, place, log, signal.SIGINT, to_another_thread)


def ends_alone(program, place, log):
    process, children = with_children(program, place, log)
    assert process.wait(SECONDS) == 1, process.stderr.read()
    leaves_nothing(place, children)


def ends_by(program, place, log, number, send):
    """With a signal, three servers run, and none of them answers."""
    process, children = with_muted(program, place, log)
    send(process, number)
    ends_as_told(process, number)
    # The log of the replay was whole by then.
    assert check(program, place / "new.log") == "yes"
    leaves_nothing(place, children)


def says_nothing_of_servers_that_it_killed(program, place):
    """It is ended by the first of several signals, and takes its time for it."""
    log, temporary, late = put(place, small_session().end()), place / "temporary", place / "late.py"
    temporary.mkdir()
    late.write_text(LATE.format([str(TOP / "scripts")], str(HASTY)))
    process, children = with_muted(program, place, log, late)
    started = [int(it) for it in children.read_text().split()]
    process.send_signal(signal.SIGTERM)
    # Of several signals that come at once, Python takes the one with the lowest number first.
    until(lambda: not any(map(is_running, started)))
    for number in (signal.SIGINT, signal.SIGQUIT):
        process.send_signal(number)
    ends_as_told(process, signal.SIGTERM)
    written = process.stdout.read().decode().splitlines()
    # What was written before the questions, to which none was answered.
    assert written[0] == "yes" and written[-1].startswith("answers "), written
    leaves_nothing(place, children)


# The command, but that it waits a second before it removes its folder at the end.
LATE = """
import runpy, shutil, sys, threading, time
sys.path[:0] = {0!r}
from lsptools.replay import trial
remove = shutil.rmtree
def late(*words, **more):
    if threading.current_thread() is threading.main_thread():
        time.sleep(1)
    remove(*words, **more)
shutil.rmtree = late
runpy.run_path({1!r}, run_name="__main__")
"""


def with_muted(program, place, log, command=HASTY):
    """The command, once three servers run that do not answer, and the first one has ended."""
    process, children = with_children(program, place, log, "mute=textDocument/formatting", command=command)
    assert until(lambda: children.exists() and children.read_text().count("\n") == 4)
    return process, children


def ends_as_told(process, number):
    assert process.wait(SECONDS) == -number, process.stderr.read()
    said = process.stderr.read().decode()
    assert said == f"lspcheck-replay: stopped by {number.name}\n", said


def with_children(program, place, log, *faults, command=HASTY):
    """The command, and the file to which the servers write who they are, and whom they started."""
    children = place / "children"
    options = ["--jobs", 3, "--wait", SECONDS, "--program", program, "--write", place / "new.log"]
    words = [sys.executable, command, *options, log, *SERVER, "lose=2", f"child={children}", *faults]
    outputs = {"stdout": subprocess.PIPE, "stderr": subprocess.PIPE}
    outputs["env"] = {**os.environ, "TMPDIR": str(place / "temporary")}
    return subprocess.Popen(list(map(str, words)), preexec_fn=with_every_signal, **outputs), children


def with_every_signal():
    with_signals()
    signal.signal(signal.SIGQUIT, signal.SIG_DFL)


def leaves_nothing(place, children):
    started = [int(it) for it in children.read_text().split()]
    assert len(started) >= 2, started
    until(lambda: not any(map(is_running, started)))
    running = [it for it in started if is_running(it)]
    for it in running:
        os.kill(it, signal.SIGKILL)
    assert not running, started
    children.unlink()
    (place / "new.log").unlink(missing_ok=True)
    assert list((place / "temporary").iterdir()) == [], list((place / "temporary").iterdir())
    assert not [it for it in place.iterdir() if it.name.startswith(".")], list(place.iterdir())


def is_fast(program, place):
    """The search among many messages, with a server that takes 20 milliseconds for each answer."""
    session = sessions.session(0, MESSAGES, asks=0.35)
    log = put(place, session)
    begun = time.monotonic()
    done = run(program, log, "slow=0.02", "lose=320", command=COMMAND)
    assert len(named(done)) == 1, done
    assert time.monotonic() - begun < 10 * MOST, time.monotonic() - begun


TESTS = [
    says_that_the_server_ended,
    waits_no_longer_than_it_says,
    is_not_held_up,
    says_that_an_answer_is_nested_too_deep,
    leaves_no_process,
    says_nothing_of_servers_that_it_killed,
]
LONG_TESTS = [is_fast]
