"""The module gives what the program gives: on the worked sessions of tests/golden, on recorded logs, on
damaged inputs, and where memory is refused."""

from concurrent.futures import ThreadPoolExecutor
from functools import partial
from itertools import product

import sessions
from engine import Node
from given import EXAMPLES, Given, answer, damaged, recorded
from of_node import script

# The memory that is left to the module, in bytes, and what must then be the answer if it isn't enough.
BOUNDS = [2 << 20, 4 << 20, 8 << 20, 16 << 20]
REFUSED = (4, b"lspcheck: out of memory\n")
# A log that no bound of these is enough for: one document of this many bytes.
LARGE = 12_000_000


def program_in(engine, tests):
    """The module, as tests/golden/run uses a program."""

    class Program(tests.Program):
        def __init__(self):
            pass

        def run(self, words, given, kind="read", most=None, at=0):
            return engine.run(words, given, kind, most, at)

        def check(self, log, most):
            return self.run(["check"], log, most=most)[0][:2]

    return Program()


class Comparison:
    """What the module gives in an engine, as many runs at a time as it takes, with what is due."""

    def __init__(self, engine, jobs, note):
        self.engine, self.jobs, self.note = engine, jobs, note

    def golden(self, few=False, step=1):
        """The worked sessions, or one of this many; with `few`, each once."""
        tests = script("tests/golden/run")
        program, trials = program_in(self.engine, tests), [*tests.trials(few)][::step]
        with ThreadPoolExecutor(self.jobs) as pool:
            for notes in pool.map(lambda it: [*it[1](program, *it[2:])], trials):
                for note in notes:
                    self.note("golden", note is None, note)

    def compare(self, program, given_of, items):
        """Compares the answers to what `given_of` gives for each item with those of the program."""

        def both(item):
            return [(it.name, answer(program, it), self.engine.run(it.words, it.data)[0]) for it in given_of(item)]

        with ThreadPoolExecutor(self.jobs) as pool:
            for found in pool.map(both, items):
                for name, wanted, got in found:
                    self.note(name, got == wanted, f"{got} for {wanted}")

    def refused(self, program, commands):
        """With little memory, the answer is the usual one, or that there is none; and then it is refused."""
        logs = {**{it.name: it.read_bytes() for it in EXAMPLES}, "large": large_log()}
        refused = set()
        for (name, log), words in product(logs.items(), commands):
            wanted = answer(program, Given(name, words, log))
            for bound in BOUNDS:
                got = self.engine.run(words, log, bound=bound)[0]
                is_refused = (got[0], got[2]) == REFUSED and wanted[1].startswith(got[1])
                refused |= {bound} if is_refused else set()
                self.note(f"{name} in {bound >> 20} MB: {' '.join(words)}", is_refused or got == wanted, got)
        self.note("memory was refused at each bound", refused == {*BOUNDS}, refused)


def large_log():
    """A session with one large document."""
    opened = sessions.frame('{"jsonrpc":"2.0","method":"textDocument/didOpen","params":{"textDocument":{"uri":"file:///a",'
                            f'"languageId":"x","version":1,"text":"{"x" * LARGE}"}}}}}}')
    records = [opened[at : at + 1_000_000] for at in range(0, len(opened), 1_000_000)]
    # The handshake of a session, up to its first document.
    start = sessions.WHOLE[: sessions.WHOLE.index(b"textDocument/didOpen")]
    start = start[: start.rindex(b"E ")]
    return start + b"".join(b"E %d\n%s\n" % (len(it), it) for it in records)


def the_golden_tables(tried):
    with Node(tried.module, tried.jobs) as node:
        Comparison(node, tried.jobs, tried.note).golden(tried.few)


def the_same_of_recorded_logs(tried):
    with Node(tried.module, tried.jobs) as node:
        Comparison(node, tried.jobs, tried.note).compare(tried.program, recorded, tried.logs)


def the_same_of_damaged_inputs(tried):
    with Node(tried.module, tried.jobs) as node:
        Comparison(node, tried.jobs, tried.note).compare(tried.program, partial(damaged, logs=tried.logs), tried.seeds)


def memory_is_refused(tried):
    with Node(tried.module, 1) as node:
        commands = [["check"], ["explain", "--all", "--notes"], ["redact"]]
        Comparison(node, 1, tried.note).refused(tried.program, commands)


TESTS = [the_golden_tables, the_same_of_recorded_logs, the_same_of_damaged_inputs, memory_is_refused]
