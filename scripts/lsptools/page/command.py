"""Writes one HTML page about a recorded session: what one attaches to a bug report. Of several
sessions it writes a page each, and an index.

The page shows the messages of both sides in order, the verdict of lspcheck, and each violation
explained. It needs no other file and no network. It contains everything that the log contains, file
names and source texts included: look at it before you send it, use --small, or show the log that
'lspcheck redact' writes.

Exit status: 0 the page is written, whatever the verdict; 1 it is not, and standard error says why;
2 the file is not a log; 3 a read or write fault; 4 lspcheck is out of memory; 64 bad arguments. Of
several logs, the greatest.
"""

import argparse
import os
import signal
import sys
import tempfile

from lsptools.base import outputs
from lsptools.base.files import Log, output, standard_output
from lsptools.base.program import Failed, Program, find_program
from lsptools.base.script import Parser, number, print_version, put, whole_number
from lsptools.base.stops import Stopped, catch, end_by
from lsptools.page import batch, cuts, document
from lsptools.page.parallel import Runs
from lsptools.page.smallest import SECONDS_TO_SHRINK

OPTIONS = [
    ("-o", "FILE", "the page, or - for standard output (default: next to LOG, or standard output "
     "if LOG is -)", {}),
    ("--output", "FOLDER", "write a page of each LOG and an index of them into this folder", {}),
    ("--jobs", "N", "with several LOGs, how many are read at once (default: as many as there are "
     "processors)", {"type": number, "default": len(os.sched_getaffinity(0))}),
    ("--program", "PROGRAM", "the lspcheck to run (default: the one next to this command, or on "
     "the PATH)", {}),
    ("--most-events", "N", "a log with more events is cut around its violations (default: "
     "%(default)s)", {"type": number, "default": cuts.MOST_EVENTS}),
    ("--most-bytes", "N", "the same for the bytes of the log (default: %(default)s)",
     {"type": number, "default": cuts.MOST_BYTES}),
    ("--shrink", "SECONDS", "put the smallest log that shows the violation into the page if it is "
     "found in this time (default: %(default)s; 0: do not look for it)",
     {"type": whole_number, "default": SECONDS_TO_SHRINK}),
]
SWITCHES = [
    ("--markdown", "print what the page's button copies, for an issue or the summary of a CI job; "
     "without --output, no page is written"),
    ("--small", "show only the first violation and what led to it, without whole texts of "
     "documents, and the smallest session that has it"),
    ("--with-checker", "put lspcheck itself and the whole log into the page, which judges it again "
     "when it is opened"),
]


def arguments():
    parser = Parser(
        prog="lspcheck-page",
        description=__doc__,
        formatter_class=argparse.RawDescriptionHelpFormatter,
        allow_abbrev=False,
    )
    log = parser.add_argument("log", metavar="LOG", nargs="+", help="a log, as the recorders write "
                              "it, or - for standard input")
    for option, value, words, more in OPTIONS:
        parser.add_argument(option, metavar=value, help=words, **more)
    for option, words in SWITCHES:
        parser.add_argument(option, action="store_true", help=words)
    parser.add_version([log])
    given = parser.parse_args()
    if wrong := given.log and what_is_wrong(given):
        parser.error(wrong)
    return given


def is_batch(given):
    return given.output is not None or given.markdown


def what_is_wrong(given):
    """Why these arguments do not go together, or None."""
    if given.small and given.with_checker:
        return "--small and --with-checker, which puts in the whole log, exclude each other"
    if is_batch(given) and given.o is not None:
        return "-o is for one page; --output and --markdown exclude it"
    if len(given.log) > 1 and not is_batch(given):
        return "several LOGs need --output FOLDER or --markdown"
    if given.log.count("-") > 1:
        return "standard input is read once"
    if given.with_checker and given.output is None and given.markdown:
        return "--with-checker is for a page; --markdown alone writes none"
    return None


def write_page(given):
    path, name = find_program(given.program, sys.argv[0]), given.log[0]
    with tempfile.TemporaryDirectory(prefix=batch.PREFIX) as folder:
        log = Log(name, folder)
        name = given.o or ("-" if name == "-" else f"{log.without_end()}.html")
        target = standard_output() if name == "-" else output(name, log, given.o is None)
        with target as file, Runs(Program(path, log.path), log) as runs:
            document.write_page(file, runs, given)
    if name != "-":
        put(os.fsencode(name) + b"\n")
    return 0


def run(given):
    if given.version:
        print_version(given)
        return 0
    return batch.Batch(given, sys.argv[0]).run() if is_batch(given) else write_page(given)


def main():
    given = None
    try:
        catch()
        given = arguments()
        return run(given)
    except Failed as failed:
        outputs.say(f"lspcheck-page: {failed}")
        return failed.status
    except Stopped as stopped:
        number = signal.Signals(stopped.args[0])
        last = "index" if given and given.output is not None else "page"
        outputs.say(f"lspcheck-page: stopped by {number.name}: no {last} is written")
        end_by(number)
    return 0

