"""How many servers run, those that are busy or refuse to answer, and the folder that each has."""

import re
import sys
import time

from faults import session_of
from trials import HASTY, SERVER, TOP, URI, check, named, opened, run, side_by_side
from usage import put


def keeps_what_it_found_when_a_server_is_busy(program, place_of):
    """A time-out is tried once more. If it comes again, the difference that was found stands."""
    session = opened("a\n")
    numbers = [session.change(URI, [(0, 0, "b")]) for _ in range(8)]
    log = put(place_of, session.end())
    counted = place_of / "count"
    # The longest wait of the server that is not busy is much shorter.
    for waits in (2, 8, 32, 128):
        counted.unlink(missing_ok=True)
        done = run(program, log, f"busy=1:{counted}", options=["--wait", waits, "--every", 9])
        if done.returncode == 0:
            break
    assert done.returncode == 0 and "no difference" in done.stdout, done
    for waits in (2, 8, 32, 128):
        counted.write_text("x" * 0)
        busy = place_of / "busy.py"
        # From the 13th process on: before were the replay and, for the end, three, one and seven.
        busy.write_text(BUSY.format(str(SERVER[-1]), str(counted), "> 12", "textDocument/documentSymbol"))
        done = run(program, log, "lose=2", server=[sys.executable, busy], options=["--wait", waits, "--every", 9])
        if done.returncode == 1:
            break
    assert done.returncode == 1, done
    lines = done.stdout.splitlines()
    last = session.sent
    assert any(it.startswith(f"answers differ after editor {last} ") for it in lines), lines
    assert any(it.startswith('search ended: "') and "gave no answer in" in it for it in lines), lines
    assert numbers[1] < last, numbers


def replays_once_more_where_a_server_is_busy(program, place_of):
    """The first one does not answer in time, and is left; the second one does."""
    log, new, counted, busy = (place_of / it for it in ("busy.log", "new.log", "count", "busy.py"))
    log.write_bytes(opened("a\n").end().log)
    busy.write_text(BUSY.format(str(SERVER[-1]), str(counted), "< 2", "initialize"))
    for waits in (2, 8, 32, 128):
        counted.unlink(missing_ok=True)
        done = run(program, log, server=[sys.executable, busy], options=["--wait", waits, "--write", new])
        if done.returncode == 0:
            break
    assert done.returncode == 0 and "no difference" in done.stdout and check(program, new) == "yes", done


BUSY = """
import runpy, sys
with open({1!r}, "a") as file:
    file.write("x")
    if file.tell() {2}:
        sys.argv.append("mute={3}")
runpy.run_path({0!r}, run_name="__main__")
"""


def says_that_the_server_refuses(program, place_of):
    done = run(program, put(place_of, opened().end()), "refuses")
    assert done.returncode == 2 and "Traceback" not in done.stderr, done
    wanted = 'answers editor 1 event 1 request 1 "initialize" with error -32603 "not today"\n'
    assert done.stderr.endswith(wanted), done.stderr


def runs_as_many_servers_as_it_says(program, place_of):
    """Also where the search tries several messages of a long log at once."""
    long, short = (
        put(place_of, session_of([fault], messages, {"asks": 0})[0], f"{messages}.log")
        for fault, messages in (("lose=50", 260), ("lose=5", 20))
    )
    # Where a server takes much memory, servers run one after the other.
    frugal = place_of / "frugal.py"
    frugal.write_text(FRUGAL.format([str(TOP / "scripts")], str(HASTY)))

    def runs_at_most(most, options, command, log, fault):
        place = place_of / f"{command.stem}-{most}"
        (place / "running").mkdir(parents=True)
        counts, watched = place / "counts", place / "watched.py"
        watched.write_text(WATCHED.format(str(SERVER[-1]), str(place / "running"), str(counts)))
        done = run(program, log, fault, server=[sys.executable, "-IS", watched], options=options, command=command)
        assert len(named(done)) == 1, done
        numbers = list(map(int, counts.read_text().split()))
        assert 0 < min(numbers) and max(numbers) <= most, numbers

    side_by_side(runs_at_most, [
        (4, [], HASTY, long, "lose=50"),
        (2, ["--jobs", 2], HASTY, short, "lose=5"),
        (1, ["--jobs", 1], HASTY, short, "lose=5"),
        (1, [], frugal, short, "lose=5"),
    ])


FRUGAL = """
import runpy, sys
sys.path[:0] = {0!r}
from lsptools.replay import trial
trial.MUCH_MEMORY = 1
runpy.run_path({1!r}, run_name="__main__")
"""
# Each server has a file that is locked until it has ended, which it takes its time for: on a busy machine,
# the number of a process soon is that of another one.
WATCHED = """
import atexit, fcntl, os, runpy, time
atexit.register(time.sleep, 0.2)
def is_locked(name):
    with open(os.path.join({1!r}, name)) as file:
        try:
            fcntl.flock(file, fcntl.LOCK_SH | fcntl.LOCK_NB)
        except BlockingIOError:
            return True
    return False
own = os.path.join({1!r}, os.urandom(16).hex())
lock = open(own + ".new", "w")
fcntl.flock(lock, fcntl.LOCK_EX)
os.rename(own + ".new", own)
running = [it for it in os.listdir({1!r}) if not it.endswith(".new") and is_locked(it)]
with open({2!r}, "a") as file:
    file.write(f"{{len(running)}}\\n")
runpy.run_path({0!r}, run_name="__main__")
"""


def asks_after_each_change_in_time(program, place_of):
    """Two hundred changes, and a server that takes 20 milliseconds for each answer."""
    session = opened("a\n")
    for it in range(200):
        session.change(URI, [(0, 0, f"{it} ")])
    begun = time.monotonic()
    done = run(program, put(place_of, session.end()), "slow=0.02")
    assert (done.returncode, done.stderr) == (0, ""), done
    # A minute on an idle machine.
    assert time.monotonic() - begun < 600, time.monotonic() - begun


def gives_each_server_a_folder(program, place_of):
    """An empty one of its own, which is gone at the end."""
    session = opened("a\n", told={"rootUri": "file:///elsewhere"})
    session.change(URI, [(0, 0, "b")])
    log, roots = put(place_of, session.end()), place_of / "roots"
    rooted = place_of / "rooted.py"
    rooted.write_text(ROOTED.format(str(SERVER[-1].parent), str(roots)))
    done = run(program, log, server=[sys.executable, rooted])
    assert done.returncode == 0, done
    found = [it.split(" ", 1) for it in roots.read_text().splitlines()]
    assert len(found) > 3 and len({it for it, _ in found}) == len(found), found
    assert all(there == "True" for _, there in found), found
    assert all(re.fullmatch(r"file:///.*/lspcheck-replay-\w+/empty\d+", it) for it, _ in found), found


ROOTED = """
import os, sys
sys.path.insert(0, {0!r})
import server
class Rooted(server.Server):
    def take(self, message):
        if message.get("method") == "initialize":
            root = message["params"]["rootUri"]
            with open({1!r}, "a") as file:
                file.write(f"{{root}} {{os.listdir(root[7:]) == []}}\\n")
        super().take(message)
server.Server = Rooted
server.main()
"""


TESTS = [
    runs_as_many_servers_as_it_says,
    keeps_what_it_found_when_a_server_is_busy,
    replays_once_more_where_a_server_is_busy,
    says_that_the_server_refuses,
    gives_each_server_a_folder,
]
LONG_TESTS = [asks_after_each_change_in_time]
