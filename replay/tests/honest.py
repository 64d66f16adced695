"""An honest server: no difference in any session, however often it is asked."""

import sessions
from trials import QUESTIONS, TOP, blocks, check, run, side_by_side
from usage import put

LINE_ENDS = ["\r\n", "\r"]
# Sessions of these kinds, and of these lengths.
KINDS = [
    {},
    {"form": 1},
    {"documents": 2},
    {"documents": 2, "form": 1, "ends": LINE_ENDS},
    {"encoding": "utf-8"},
    {"ends": LINE_ENDS, "asks": 0.5},
]
LENGTHS = [20, 100, 400, 2000]
TIMES = 20
EXAMPLES = ["clangd-session.log", "stopped-twice.log", "wrong-column.log"]


def finds_nothing(program, log, faults, times):
    for _ in range(times):
        done = run(program, log, *faults)
        assert (done.returncode, done.stderr) == (0, ""), (log, done)
        count = len(blocks(done))
        line = f"\nno difference in {QUESTIONS * count} answers about {count} documents\n"
        assert count > 0 and line in done.stdout, (log, done.stdout)


def row(program, place, number, messages, times):
    kind = KINDS[number % len(KINDS)]
    log = put(place, sessions.session(1000 + number, messages, **kind), f"{number}-{messages}.log")
    assert check(program, log) == "yes", log
    faults = ["utf-8"] if kind.get("encoding") == "utf-8" else ["ask"]
    return program, log, faults, times


def finds_no_difference(program, place):
    rows = [row(program, place, number, 20, 1) for number in range(6)]
    rows += [(program, TOP / "examples" / name, [], 1) for name in EXAMPLES]
    side_by_side(finds_nothing, rows)


def finds_no_difference_in_many(program, place):
    """Over forty sessions, twenty times each."""
    rows = [row(program, place, number, LENGTHS[number % 4], TIMES) for number in range(36)]
    rows += [(program, TOP / "examples" / name, [], TIMES) for name in EXAMPLES]
    rows += [(program, log, [], TIMES) for log in sorted((TOP / "recorders/traces").glob("*.log"))]
    side_by_side(finds_nothing, rows)


TESTS = [finds_no_difference]
LONG_TESTS = [finds_no_difference_in_many]
