"""Replays a recorded session to its server, and finds the first message after which the server
answers otherwise than one that has the right texts.

The editor's messages of LOG are sent to SERVER again. A fresh server gets the texts that the open
documents should have by then, and both are asked what the text alone answers, also once each line
is overwritten with a declaration that has its letters. If their answers differ, and stay different,
the first message after which they do is searched for; and so is the one that ends the server.

A log is a stranger's, and its settings can make a server run any program. So settings, commands and
folders are left out, and listed: look at them before you give --with-settings.

A log with at most 200 changes is asked after each, and a longer one at its end, or as --every says.
--small writes the shortest session that shows the difference: what to attach to a bug report of the
server. Of several logs, with -- before SERVER, each gets one line.

Exit status: 0 no difference, 1 a difference, 2 nothing can be said, and standard error says why, 3
a read or write fault, 64 bad arguments. Of several logs, the highest.
"""

import argparse
import os
import sys

from lsptools.base.files import Log
from lsptools.base.program import Failed, Program, find_program, version_of
from lsptools.base.script import Parser, check_writable, number, print_version, seconds
from lsptools.replay import trial
from lsptools.servers.folders import Folders
from lsptools.servers.report import Report
from lsptools.servers.working import done_in_a_thread

WAIT = 20

OPTIONS = [
    ("--every", "N", "ask after each N-th change of a document, and at the end", {"type": number}),
    ("--jobs", "N", "run at most N servers at a time (default: as many as there are processors, "
     "but 4 at most, and 1 if a server takes over 500 MB)", {"type": number}),
    ("--json", None, "write each line as a JSON object", {"action": "store_true"}),
    ("--write", "NEW", "write the replayed session as a log", {}),
    ("--small", "FILE", "write the shortest session that shows the difference as a log", {}),
    ("--with-settings", None, "send all of the log, also settings, commands and folders: they can "
     "make the server run any program", {"action": "store_true"}),
    ("--wait", "SECONDS", "how long to wait for an answer of the server (default: %(default)s)",
     {"type": seconds, "default": WAIT}),
    ("--map", "OLD=NEW", "use the folder NEW instead of the log's folder OLD",
     {"type": lambda word: pair(word), "action": "append", "default": []}),
    ("--program", "PROGRAM", "the lspcheck to run (default: the one next to this command, or on "
     "the PATH)", {}),
]


def arguments():
    """The arguments. Before a `--`, there may be several logs."""
    parser = Parser(
        prog="lspcheck-replay",
        usage="%(prog)s [OPTION ..] LOG SERVER [ARGUMENT ..]\n"
        "       %(prog)s [OPTION ..] LOG .. -- SERVER [ARGUMENT ..]",
        description=__doc__,
        formatter_class=argparse.RawDescriptionHelpFormatter,
        allow_abbrev=False,
    )
    for option, value, words, more in OPTIONS:
        parser.add_argument(option, help=words, **more, **({"metavar": value} if value else {}))
    words, dashes, command = split(sys.argv[1:])
    log = parser.add_argument("log", metavar="LOG", nargs="+" if dashes else 1,
                              help="a log, as the recorders write it, or - for standard input")
    needed = [log]
    if not dashes:
        needed.append(parser.add_argument("server", metavar="SERVER", help="the server's program"))
        more = parser.add_argument("arguments", metavar="ARGUMENT", nargs=argparse.REMAINDER)
        more.required = False
    parser.add_version(needed)
    given = parser.parse_args(words)
    if given.version:
        return given
    if dashes and not command:
        parser.error("the following arguments are required: SERVER")
    given.command = command if dashes else [given.server, *given.arguments]
    check_names(parser, given)
    return given


def split(words):
    """The words before the first `--`, it, and those after it."""
    at = words.index("--") if "--" in words else len(words)
    return words[:at], words[at : at + 1], words[at + 1 :]


def check_names(parser, given):
    """Fails if two of the named files are one."""
    named = [it for it in (given.write, given.small) if it is not None]
    if named and len(given.log) > 1:
        parser.error("--write and --small take one log")
    for name in named:
        if name == "-":
            parser.error("- is not a file to write: standard output has the report")
        if given.log[0] != "-" and os.path.realpath(name) == os.path.realpath(given.log[0]):
            parser.error(f"{name} is the log that is replayed")
    if len(named) > len(set(map(os.path.realpath, named))):
        parser.error("--write and --small name the same file")
    if given.log.count("-") > 1:
        parser.error("standard input is one log")


def pair(word):
    """Two folders that are an argument."""
    old, equals, new = word.partition("=")
    if not equals or not old.startswith("/") or not new:
        raise argparse.ArgumentTypeError(f"{word} is not OLD=NEW, with an absolute OLD")
    if not os.path.isdir(new):
        raise argparse.ArgumentTypeError(f"{new} is not a folder")
    return old.rstrip("/"), os.path.abspath(new)


def replay(given, folder):
    """Replays the logs, one after the other: the highest status."""
    if given.version:
        print_version(given)
        return 0
    for name in filter(None, (given.write, given.small)):
        check_writable(name)
    is_one = len(given.log) == 1
    statuses = []
    for place, name in enumerate(given.log):
        report = Report(given.json, None if is_one else name)
        own = os.path.join(folder, str(place))
        os.mkdir(own)
        try:
            log = Log(name, own)
            program = Program(find_program(given.program, sys.argv[0]), log.path)
            version_of(program.path)
            folders = Folders(given.map, folder)
            statuses.append(trial.run(program, log, given.command, given, folders, report))
            report.end(statuses[-1])
        except Failed as failed:
            # 1 stands for a difference, and 4 for a fault of lspcheck: nothing can be said.
            statuses.append(failed.status if failed.status in (2, 3) else 2)
            report.end(statuses[-1], str(failed))
            if is_one:
                raise
    return max(statuses)


def main():
    given = arguments()
    return done_in_a_thread("lspcheck-replay", lambda folder: replay(given, folder), trial.forget)

