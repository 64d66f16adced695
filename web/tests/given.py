"""What the program and the module are given, to compare their answers: recorded logs, and damaged
inputs."""

import random
import subprocess
from pathlib import Path
from typing import NamedTuple

import inputs

TOP = Path(__file__).resolve().parent.parent.parent
EXAMPLES = sorted((TOP / "examples").glob("*.log"))
# What is asked about each log.
COMMANDS = [
    ["check"], ["check", "--all"], ["explain"], ["explain", "--all", "--notes"], ["explain", "--all", "--notes", "--json"],
    ["show", "--all", "--long"], ["show", "--all", "--long", "--json"], ["normal"], ["upgrade"], ["redact"],
]
# No run takes as many seconds, on a busy machine either.
SECONDS = 600


class Given(NamedTuple):
    """The words and the standard input of a run, and what it is called in a fault."""

    name: str
    words: list[str]
    data: bytes


def answer(program, given):
    """The status of the program and both outputs."""
    run = subprocess.run([program, *given.words], input=given.data, capture_output=True, timeout=SECONDS)
    return run.returncode, run.stdout, run.stderr


def logs_below(folder):
    """The logs below a folder, or the examples."""
    return sorted(Path(folder).rglob("*.log")) if folder else EXAMPLES


def recorded(path):
    """A log, with each command."""
    data = path.read_bytes()
    return [Given(f"{path.name}: {' '.join(words)}", words, data) for words in COMMANDS]


def damaged(seed, logs):
    """A damaged input of tests/fuzz, and one of these logs, damaged."""
    words, data = inputs.case(seed)
    made = Given(f"seed {seed}: {' '.join(words)}", words, data)
    rng = random.Random(seed)
    path, words = rng.choice(logs), inputs.log_words(rng)
    data = inputs.damaged(rng, path.read_bytes())
    return [made, Given(f"seed {seed}, {path.name}: {' '.join(words)}", words, data)]
