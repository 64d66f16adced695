"""What ./test and ./test quick run: docs/TESTING.md says what each of these shows.

Alongside the proofs run those that need no program, and those for which it is only a tool, over one
that is compiled with checks: at most half as many as there are processors, and with less
priority. What looks at the program itself runs over the proved one, as soon as that is proved:
alongside the proofs that are left, and then as many at a time as there are processors.
"""

import os
import re
import shutil
import sys
import tempfile
import time
from pathlib import Path

sys.dont_write_bytecode = True
TOP = Path(__file__).resolve().parent.parent
sys.path.append(str(TOP / "scripts"))

from lsptools.base import outputs
from lsptools.base.stops import Stopped, catch, end_by
from side_by_side import Task, adopt, end_children, run_all

PROOFS = "./run --prove ci"
COMPILES = "./run --program"

# The words that stand for a program: the proved one, or whichever there is first.
PROVED, ANY = "PROVED", "ANY"

# What is run, in the order in which it is printed and in which it is started. What takes longest comes
# first, after that which takes seconds, and the program that others need.
GATE = [
    "tests/guarantees",
    "tests/links",
    "tests/words",
    "tests/scripts",
    "tests/mutants/run --stale",
    PROOFS,
    COMPILES,
    "tests/compile-fail/run",
    "tests/api/run",
    f"tests/of_checks {ANY}",
    f"page/run {PROVED}",
    f"web/run --few {PROVED}",
    f"replay/run {ANY}",
    f"fuzz/run {ANY}",
    f"tests/golden/run {PROVED}",
    f"tests/cli/run {PROVED}",
    f"tests/shrink/run {PROVED}",
    f"tests/redact/run {PROVED}",
    f"tests/faults/run --few {PROVED}",
    f"tests/proxy/run {ANY}",
    "tests/of_run",
    f"recorders/traces/run {ANY}",
    f"recorders/suites {ANY}",
    f"package/run {PROVED}",
    f"package/completions/run {ANY} bash",
]
QUICK = ["tests/guarantees", "tests/links", "tests/words", "tests/scripts", "tests/run --few", "tests/of_run"]

# What ./run compiles, what it is made of, and what it kept.
COPIED = ["crates.txt", "crates/*/src/**/*.rt", "run", "tests/*.py", "scripts/**/*.py", "out/lspcheck*"]

# What rt ci says when it has proved a crate.
IS_PROVED = re.compile(rb"^rt: (\w+) proved$", re.MULTILINE)

# How many bytes of what it says are looked at at once, and how many seconds a step takes that is named with its time.
MOST_SAID, SHOWN = 1 << 20, 3

# The priority that the tests give up for the proofs.
NICENESS = 10


# How many bytes of memory a proof may take.
PROOF_TAKES = 5_000_000_000


def jobs(width):
    """How many proofs `rt ci` runs at once. If it isn't told, it leaves processors idle, since it expects
    a proof to need four times the memory that it takes."""
    memory = os.sysconf("SC_PHYS_PAGES") * os.sysconf("SC_PAGE_SIZE")
    return max(1, min(width, memory // PROOF_TAKES))


class Gate:
    """The tasks, and the folder in which a program is compiled with checks: `rt ci` refuses a second
    copy of the sources below this one."""

    def __init__(self, commands, folder):
        self.tasks = {it: Task(" ".join(word for word in it.split() if word not in (PROVED, ANY))) for it in commands}
        self.copy = folder / "copy"
        self.width = len(os.sched_getaffinity(0))
        self.begun, self.proved, self.read = time.monotonic(), {}, 0

    def is_over(self, command):
        return command not in self.tasks or self.tasks[command].is_over()

    def has_passed(self, command):
        return command in self.tasks and self.tasks[command].status == 0

    def programs(self):
        """The programs that there are by now, by the words that stand for them."""
        if self.has_passed(PROOFS) or "lspcheck" in self.proved:
            proved = TOP / "crates/lspcheck/out/lspcheck"
            return {PROVED: proved, ANY: proved}
        return {ANY: self.copy / "out/lspcheck"} if self.has_passed(COMPILES) else {}

    def room(self):
        """How many tasks more may run."""
        running = sum(it.is_running() for name, it in self.tasks.items() if name != PROOFS)
        return (self.width if self.is_over(PROOFS) else (self.width + 1) // 2) - running

    def start(self):
        """Starts each task that may run by now, and gives up those that never will."""
        self.note_proved()
        found = self.programs()
        for command, task in self.tasks.items():
            lacking = {PROVED, ANY} & set(command.split()) - set(found)
            if not task.is_waiting():
                continue
            if lacking and self.is_over(PROOFS) and (PROVED in lacking or self.is_over(COMPILES)):
                task.why_not = "there is no proved program" if PROVED in lacking else "there is no program"
            elif not lacking and (command == PROOFS or self.room() > 0):
                self.begin(command, task, found)

    def begin(self, command, task, found):
        if command == COMPILES:
            self.lay_out()
        words = [str(found.get(word, word)) for word in command.split()]
        words[0] = words[0] if command == PROOFS else str((self.copy if command == COMPILES else TOP) / words[0])
        if ANY in command.split() and PROVED not in found:
            task.title += ", over a program with checks"
        settings = {"RT_JOBS": str(jobs(self.width))} if command == PROOFS else {}
        task.start(words, 0 if command == PROOFS or PROOFS not in self.tasks else NICENESS, **settings)

    def lay_out(self):
        """Copies what ./run needs, and the program that it has kept, if any."""
        for path in (path for pattern in COPIED for path in TOP.glob(pattern)):
            target = self.copy / path.relative_to(TOP)
            target.parent.mkdir(parents=True, exist_ok=True)
            shutil.copy(path, target)

    def minutes(self, moment):
        return f"{(moment - self.begun) / 60:.1f}"

    def note_proved(self):
        """Notes when rt ci said of a crate that it has proved it."""
        if (task := self.tasks.get(PROOFS)) and task.begun:
            said = os.pread(task.output.fileno(), MOST_SAID, self.read)
            whole = said[: said.rfind(b"\n") + 1]
            self.read += len(whole)
            self.proved |= {it.decode(): time.monotonic() for it in IS_PROVED.findall(whole)}

    def tell_times(self):
        """Says how long each step took, and when each crate was proved."""
        steps = [f"{it.name} {it.seconds() / 60:.1f}" for it in self.tasks.values() if it.seconds() >= SHOWN]
        whole = self.minutes(time.monotonic())
        print(f"./test: minutes on {self.width} processors: {', '.join([f'{whole} in all', *steps])}")
        if self.proved:
            times = (f"{name} {self.minutes(moment)}" for name, moment in self.proved.items())
            print(f"./test: proved after minutes: {', '.join(times)}")

    def told(self):
        """Says where the time went, what failed and what was not run, and counts all checks; the status."""
        tasks = self.tasks.values()
        self.tell_times()
        for what, names in [
            ("failed", [it.name for it in tasks if it.has_failed()]),
            ("not run", [it.name for it in tasks if it.why_not]),
        ]:
            if names:
                print(f"./test: {what}: {', '.join(names)}")
        passed, failed = map(sum, zip(*(it.counts() for it in tasks)))
        print(f"{passed} passed, {failed} failed", flush=True)
        return 1 if failed or not passed else 0


def find_python_first():
    """Where `python3` is a script that looks for Python, it takes as long as Python itself: each script
    finds the Python that runs this one."""
    if not os.path.samefile(shutil.which("python3"), sys.executable):
        os.environ["PATH"] = f"{Path(sys.executable).parent}:{os.environ['PATH']}"


def main(words):
    catch()
    adopt()
    find_python_first()
    with tempfile.TemporaryDirectory(prefix="test-") as folder:
        gate = Gate(QUICK if words else GATE, Path(folder))
        os.chdir(TOP)
        try:
            run_all(gate.tasks.values(), gate.start)
            return gate.told()
        finally:
            end_children(gate.tasks.values())


if __name__ == "__main__":
    try:
        sys.exit(outputs.ended("./test", main, sys.argv[1:]))
    except Stopped as stopped:
        end_by(stopped.args[0])
