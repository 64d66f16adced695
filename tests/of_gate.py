"""That ./test, ./test quick and tests/run run all that they should and notice whatever goes wrong: in
folders in which each script is a stub."""

import os
import shutil
import subprocess
import tempfile
from contextlib import suppress
from pathlib import Path

from processes import SIGNALS, is_running, until, with_signals

TOP = Path(__file__).resolve().parent.parent

# What ./test is made of.
SCRIPTS = "scripts/lsptools"
GATE = ["test", "tests/gate.py", "tests/side_by_side.py"]

# The scripts that ./test runs without the proved program, and those that need it; and all that ./test
# quick runs.
UNPROVED = [
    "tests/guarantees", "tests/links", "tests/words", "tests/scripts", "tests/mutants/run", "tests/compile-fail/run",
    "tests/api/run", "run", "tests/of_checks", "tests/of_run", "recorders/suites", "tests/proxy/run",
    "recorders/traces/run", "package/completions/run", "replay/run", "fuzz/run",
]
OVER_PROVED = [
    "tests/golden/run", "tests/cli/run", "page/run", "web/run", "tests/shrink/run", "tests/redact/run", "package/run",
    "tests/faults/run",
]
QUICK = ["tests/guarantees", "tests/links", "tests/words", "tests/scripts", "tests/of_run", "tests/run"]

# Each script notes that it begins and ends. rt goes on until one of the others has ended, and after it
# has said that the program is proved, until one runs over that. None gets a setting of the caller's
# Python, and rt at most as many jobs as there are processors. What runs over a program gets its path,
# and ends if there is none.
STUB = """#!/bin/sh
top='{top}'
case {name}$1 in
    rtversion) echo any-kit logic 0123abcd; exit;;
    run--prove) shift; exec rt "$@";;
    tests/needs*) exit {status};;
esac
echo "begins {name} $(env nice) $*" >> "$top/log"
tries=0
while [ {name} = rt ] && [ $tries -lt 999 ] && ! grep -q "^ends" "$top/log"; do tries=$((tries + 1)); sleep 0.1; done
sleep {seconds}
echo "ends {name}" >> "$top/log"
if env | grep -q ^PYTHON; then exit 1; fi
if [ {name} = rt ] && [ "$RT_JOBS" -gt "$(nproc)" ]; then exit 1; fi
case "$*" in *PROVED*|*ANY*) exit 1;; *[/]lspcheck*) [ -e "${{*#*--few }}" ] || [ -e "${{1}}" ] || exit 1;; esac
case {name} in
    rt)
        mkdir -p crates/lspcheck/out
        touch crates/lspcheck/out/lspcheck
        printf 'rt: %s\n' "lsp_types proved" "lsp_rpc NOT PROVED"
        [ {status} = 1 ] || echo "rt: lspcheck proved"
        while [ {status} = 0 ] && [ $tries -lt 999 ] && ! grep -q "begins tests/golden/run" "$top/log"; do
            tries=$((tries + 1)); sleep 0.1
        done
        echo "over {name}" >> "$top/log"
        echo "40 passed, {status} failed";;
    run) mkdir -p "${{0%/*}}/out"; touch "${{0%/*}}/out/lspcheck";;
    tests/words) echo "2 passed, {status} failed";;
esac
exit {status}
"""


def stub(path, text):
    """Writes a script of this text."""
    path.parent.mkdir(parents=True, exist_ok=True)
    path.write_text(text)
    path.chmod(0o755)


def lay_out(top, failing=(), seconds=0):
    """A folder with ./test, in which the other scripts are stubs, of which some fail."""
    for path in {"rt", "tests/needs", *UNPROVED, *OVER_PROVED, *QUICK}:
        stub(top / path, STUB.format(top=top, name=path, status=int(path in failing), seconds=seconds))
    for path in GATE:
        (top / path).parent.mkdir(parents=True, exist_ok=True)
        shutil.copy(TOP / path, top / path)
    shutil.copytree(TOP / SCRIPTS / "base", top / SCRIPTS / "base", dirs_exist_ok=True)
    (top / "README.md").write_text("logic\n0123abcd\n")
    (top / "log").touch()


def environment(top):
    """The rt of this folder is found first, and Python has settings of the caller."""
    found = {it: value for it, value in os.environ.items() if it != "RT_JOBS"}
    return {**found, "PATH": f"{top}:{found['PATH']}", "PYTHONUNBUFFERED": "1", "PYTHONPATH": "/nowhere", "PYTHONUTF8": "0"}


class Made:
    """What ./test did in a folder where some scripts fail."""

    def __init__(self, words, failing=(), seconds=0, processors=None):
        with tempfile.TemporaryDirectory() as name:
            lay_out(Path(name), failing, seconds)
            keep = processors and (lambda: os.sched_setaffinity(0, processors))
            how = {"env": environment(name), "capture_output": True, "text": True, "preexec_fn": keep}
            self.run = subprocess.run([Path(name) / "test", *words], **how)
            self.log = [it.split(" ") for it in (Path(name) / "log").read_text().splitlines()]
        self.lines = self.run.stdout.splitlines() or [""]
        self.started = {it[1] for it in self.log if it[0] == "begins"}

    def heads(self):
        """The scripts that a line names, in order."""
        paths = {named(it): it for it in {"rt", *UNPROVED, *OVER_PROVED}}
        return [paths.get(it[3:].split(",")[0]) for it in self.lines if it.startswith("== ")]

    def most(self, last=None):
        """How many scripts ran at once, besides the proofs, until this line of the log."""
        found = [0]
        for word, name, *_ in self.log[: last and self.log.index(last)]:
            found.append(found[-1] + (0 if name == "rt" else 1 if word == "begins" else -1))
        return max(found)

    def says(self, status, passed, failed, named=()):
        """Whether this is the status, and the last line, and the line above it names these."""
        names = [f"./test: failed: {', '.join(named)}"] if named else []
        count = [f"{passed} passed, {failed} failed"]
        return self.run.returncode == status and self.lines[-1:] == count and self.lines[-2:-1] >= names


def named(path):
    """How ./test names a script that fails: with its words."""
    more = {
        "rt": "./run --prove ci", "run": "./run --program", "tests/mutants/run": "tests/mutants/run --stale",
        "tests/faults/run": "tests/faults/run --few", "package/completions/run": "package/completions/run bash",
        "tests/run": "tests/run --few", "web/run": "web/run --few",
    }
    return more.get(path, path)


def on_gate():
    """./test if a script fails, and if none does."""
    everything = {"rt", *UNPROVED, *OVER_PROVED}
    # rt counts 40 checks here, tests/words two, and each other script is one.
    count = len(everything) + 40
    good = Made([])
    yield "./test: nothing fails", good.says(0, count, 0) and good.started == everything
    yield "./test: says how long the proofs took", "./test: proved after minutes: lsp_types 0." in good.run.stdout
    yield "./test: names no crate that is not proved", "lsp_rpc" not in good.run.stdout.rpartition("proved after")[2]
    words = [" ".join(it[:2]) for it in good.log]
    yield "./test: waits for the program, not for all proofs", words.index("begins tests/golden/run") < words.index("over rt")
    yield "./test: each has a head", sorted(map(str, good.heads())) == sorted(everything)
    yield "./test: tests/needs fails", (made := Made([], ["tests/needs"])).run.returncode != 0 and not made.started
    for path in sorted(everything - {"rt"}):
        made = Made([], [path])
        fewer = 0 if path == "tests/words" else 1
        yield f"./test: {path} fails", made.says(1, count - fewer, 1, [named(path)])
        yield f"./test: {path} hides no other", made.started == everything and made.heads() == good.heads()
    made = Made([], ["rt"])
    yield "./test: rt fails", made.says(1, count - len(OVER_PROVED), 1) and f"./test: failed: {named('rt')}" in made.lines
    yield "./test: rt hides no other", made.started == {"rt", *UNPROVED}
    left_out = made.lines[-2].removeprefix("./test: not run: ").split(", ")
    yield "./test: what rt hides", sorted(left_out) == sorted(map(named, OVER_PROVED))
    made = Made([], ["rt", "run"])
    yield "./test: no program at all", made.run.returncode == 1 and "tests/of_checks" in made.lines[-2]


def on_side_by_side():
    """How many run at once, and with which priority."""
    processors = sorted(os.sched_getaffinity(0))
    for count in sorted({1, min(2, len(processors))}):
        made = Made(["quick"], seconds=0.3, processors=processors[:count])
        yield f"./test quick: with {count} processors", made.says(0, len(QUICK) + 1, 0) and made.most() == count
    made = Made([], seconds=0.3, processors=processors[:count])
    yield f"./test: with {count} processors", made.most() == count
    yield f"./test: beside the proofs, with {count}", made.most(["ends", "rt"]) == 1
    priorities = {it[1]: int(it[2]) for it in made.log if it[0] == "begins"}
    yield "./test: the proofs come first", all(it > priorities["rt"] for name, it in priorities.items() if name != "rt")


def on_quick():
    """./test quick if a script fails, and wrong words."""
    yield "./test quick: nothing fails", (made := Made(["quick"])).says(0, len(QUICK) + 1, 0) and made.started == {*QUICK}
    for path in QUICK:
        made = Made(["quick"], [path])
        fewer = 0 if path == "tests/words" else 1
        yield f"./test quick: {path} fails", made.says(1, len(QUICK) + 1 - fewer, 1, [named(path)])
        yield f"./test quick: {path} hides no other", made.started == {*QUICK}
    for words in [["fast"], ["quick", "quick"], ["--help"]]:
        made = Made(words)
        yield f"./test {' '.join(words)}", made.run.returncode == 64 and not made.started


# A script that starts a process in a session of its own, as the compiler is, and waits.
SLOW = """#!/bin/sh
[ "$1" != version ] || exit
setsid sh -c 'echo $$ >> {top}/numbers; exec sleep 600' &
echo $$ >> {top}/numbers
wait
"""


def on_signals():
    """A signal ends all that ./test started, whatever sessions it is in: one that reaches ./test alone,
    or all of its group, as ^C does."""
    for number, send in [(number, send) for number in SIGNALS for send in (os.kill, os.killpg)]:
        with tempfile.TemporaryDirectory() as name:
            top = Path(name)
            lay_out(top)
            for path in ["rt", "tests/compile-fail/run"]:
                stub(top / path, SLOW.format(top=top))
            numbers = top / "numbers"
            how = {"env": environment(top), "stdout": subprocess.DEVNULL, "stderr": subprocess.DEVNULL}
            running = subprocess.Popen([top / "test"], preexec_fn=with_signals, start_new_session=True, **how)
            is_started = until(lambda: numbers.exists() and len(numbers.read_text().split()) == 4)
            send(running.pid, number)
            status = running.wait()
            is_left = any(map(is_running, numbers.read_text().split()))
            yield f"./test: {number.name}, {send.__name__}", is_started and status == -number and not is_left


def is_named(folder):
    """Whether this folder is in the words of a process."""
    for path in Path("/proc").glob("[0-9]*/cmdline"):
        with suppress(OSError):
            if folder.encode() in path.read_bytes():
                return True
    return False


def on_closed_output():
    """If nobody reads what ./test says, it ends all that it started, too."""
    with tempfile.TemporaryDirectory() as name:
        top = Path(name)
        lay_out(top)
        stub(top / "rt", SLOW.format(top=top))
        source, sink = os.pipe()
        os.close(source)
        status = subprocess.run([top / "test"], env=environment(top), stdout=sink, stderr=subprocess.DEVNULL).returncode
        os.close(sink)
        yield "./test: a closed pipe", status == 141 and not is_named(name)


# The scripts that tests/run starts.
STARTED = ["tests/api/run", "tests/golden/run", "tests/cli/run", "run"]


def ran(names, failing, crashed=None):
    """The status of tests/run if one script fails and another crashes."""
    with tempfile.TemporaryDirectory() as name:
        top = Path(name)
        for path in STARTED:
            kind = Path(path).parent.name
            lines = f"echo {top}/program" if path == "run" else f'case "$*" in *--list*) echo {kind}/late; exit;; esac'
            lines += "\nexit 1" if path == failing else ""
            stub(top / path, "#!/bin/sh\n" + ("exit 1" if path == crashed else lines))
        shutil.copytree(TOP / SCRIPTS / "base", top / SCRIPTS / "base", dirs_exist_ok=True)
        for path in ["tests/run", "tests/programs.py"]:
            shutil.copy(TOP / path, top / path)
        return subprocess.run([top / "tests/run", *names], capture_output=True).returncode


def on_run():
    """tests/run if a script fails or crashes, if none does, and if nothing matches."""
    for path in STARTED:
        yield f"tests/run: {path} fails", ran([], path) != 0
        yield f"tests/run: {path} crashes", ran([], None, path) != 0
    yield "tests/run: nothing fails", ran(["late"], None) == 0
    yield "tests/run: one kind matches", ran(["api/late"], "tests/cli/run") == 0
    yield "tests/run: nothing matches", ran(["early"], None) != 0


def checks():
    """Each check as its name and whether what was broken was noticed."""
    for part in [on_gate(), on_side_by_side(), on_quick(), on_signals(), on_closed_output(), on_run()]:
        yield from part
