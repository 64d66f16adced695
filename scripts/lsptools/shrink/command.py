"""Writes the smallest log that still shows the violation of LOG: one for a bug report.

usage: recorders/shrink LOG > SMALL

lspcheck judges each smaller log. SMALL breaks the same rule, and its explanation has the same words
and the same lines of the texts that differ. What comes after the violation is left out, and so are
other documents, requests, notifications, and lines and members that make no difference. The
document becomes file:///a. Some lines of it are left: look at them before you send SMALL.

Rules 201 to 702 can be shrunk. With --note, the verdict on LOG must be yes, and SMALL is the
smallest log that has the first note of that name. ^C writes the smallest log so far.

Exit status: 0 SMALL is written; 1 there is nothing to shrink, and standard error says why; 2 LOG is
not a log; 3 a read or write fault; 4 lspcheck is out of memory; 64 bad arguments.
"""

import argparse
import signal
import sys
import tempfile

from lsptools.base import outputs
from lsptools.base.files import Log, quoted
from lsptools.base.program import Failed, Program, find_program, version_of
from lsptools.base.script import Parser, put
from lsptools.base.stops import Stopped, catch, end_by
from lsptools.shrink import events, members
from lsptools.shrink.case import read_case
from lsptools.shrink.judge import Essence, Judge, Progress
from lsptools.shrink.lines import leave_out_lines
from lsptools.shrink.lit import lit_of
from lsptools.shrink.names import shorten_names

RULES = range(201, 703)


def arguments():
    parser = Parser(
        prog=outputs.called("shrink"),
        description=__doc__.replace("recorders/shrink", outputs.called("recorders/shrink")),
        formatter_class=argparse.RawDescriptionHelpFormatter,
        allow_abbrev=False,
    )
    parser.add_argument("log", metavar="LOG", help="a log, or - for standard input")
    for option, value, words in [
        ("--note", "NAME", "keep the first note of this name, on a log whose verdict is yes"),
        ("--program", "PROGRAM",
         "the lspcheck to run (default: the one next to this command, or on the PATH)"),
    ]:
        parser.add_argument(option, metavar=value, help=words)
    for option, words in [
        ("--lit", "write the editor's messages alone, as clangd -lit-test reads them"),
        ("--quiet", "show no progress on a terminal"),
    ]:
        parser.add_argument(option, action="store_true", help=words)
    return parser.parse_args()


def wanted_of(lines, note, shown):
    """What must stay of the explanation of the whole log. Fails if there is nothing to shrink."""
    first, second = lines[:2]
    if first.startswith("bad log "):
        raise Failed(f"{shown}: {first}: {second} ('lspcheck normal' writes what precedes it)", 2)
    wanted = Essence(lines, note)
    if note is None and first == "yes":
        raise Failed(f"{shown}: yes: there is no violation to show{notes_in(lines)}")
    if note is None and events.rule_of(lines) not in RULES:
        raise Failed(f"{shown}: {first}: {second}: only rules 201 to 702 can be shrunk, no frames")
    if note is not None and first != "yes":
        raise Failed(f"{shown}: {first}: {second}: --note is for a log whose verdict is yes")
    if not wanted.lines:
        raise Failed(f"{shown}: there is no note {quoted(note)}{notes_in(lines)}")
    return wanted


def notes_in(lines):
    names = dict.fromkeys(it.split(" ")[1] for it in lines if it.startswith("note "))
    return f" (--note can name {', '.join(names)})" if names else ""


class Shrinking:
    """The steps from a log to a smaller one."""

    def __init__(self, program, log, given):
        self.program, self.given, self.client = program, given, ""
        self.judge = Judge(program, log.size, Progress(given.quiet))
        lines = program.output("explain").decode("utf-8", "replace").split("\n")
        self.judge.wanted = wanted_of(lines, given.note, log.shown)

    def run(self):
        case, judge = read_case(self.program, self.judge.wanted.lines), self.judge
        self.client = case.client()
        if not judge.keeps(case):
            raise Failed("lspcheck says something else of the log in its normal form")
        case = self.with_fewest_events(case)
        case = members.leave_out_members(judge, case)
        for uri in dict.fromkeys(it.uri for it in case.items if it.uri):
            case = leave_out_lines(judge, case, uri)
        case = members.empty_texts(judge, case)
        case = members.shorten_content(judge, case)
        shorten_names(judge, case)

    def with_fewest_events(self, case):
        judge, note = self.judge, self.given.note
        lines = judge.wanted.lines
        named = events.named_in(lines)
        case = events.cut(judge, case, named) if note else case
        base = events.base_of(case, lines)
        begun = base and base.begin(case, self.program)
        if begun and judge.keeps(begun):
            case = begun
        elif base:
            base = events.opening_of(case, base)
        fixed = events.fixed_of(case, base, note)
        uri = base.uri if base else case.items[-1].uri if case.items else None
        return events.leave_out(judge, case, fixed, named, uri)

    def result(self):
        """The bytes to write, or None."""
        judge = self.judge
        if judge.best is None or not self.given.lit:
            return judge.log
        return lit_of(judge.best, judge.lines, self.client)


def shrink(given):
    """Writes the smaller log. Returns what stopped this, or None."""
    path = find_program(given.program, sys.argv[0])
    with tempfile.TemporaryDirectory(prefix="shrink-") as folder:
        log = Log(given.log, folder)
        program = Program(path, log.path)
        version_of(program.path)
        shrinking, stopped = Shrinking(program, log, given), None
        try:
            shrinking.run()
        except Stopped as signalled:
            stopped = signalled
        finally:
            shrinking.judge.progress.clear()
        log.check_unchanged()
    found = shrinking.result()
    if found is None:
        raise stopped
    put(found)
    if shrinking.judge.is_spent and not stopped:
        tried = f"{shrinking.judge.tried:,} logs were tried"
        outputs.say(f"shrink: {tried}: there may be a smaller one")
    return stopped


def main():
    try:
        catch()
        stopped = shrink(arguments())
    except Failed as failed:
        outputs.say(f"shrink: {failed}")
        return failed.status
    except Stopped as signalled:
        outputs.say("shrink: stopped: nothing is written")
        stopped = signalled
    if stopped:
        end_by(signal.Signals(stopped.args[0]))
    return 0

