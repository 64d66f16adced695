"""Finds where a language server's text drifts from the editor's, before a user meets it.

SERVER is sent random edits, all of them legal, and asked about the document. It is asked the same
about a second document that is given the right text at once. Where the answers differ, the edits
are cut down to the fewest that show it, also in fresh servers, and the fault that explains the
answers is looked for, such as that columns count characters.

Each drift is one line, and its feature is left out from then on, so that it hides no other. The
same seed makes the same edits. SERVER is run as you run it; this command opens no connection.

Exit status: 0 no drift, 1 a drift, 2 nothing can be said, and standard error says why, 3 a read or
write fault, 64 bad arguments.
"""

import argparse
import itertools
import os
import random
import sys

from lsptools.base.program import Failed, find_program, version_of
from lsptools.base.script import Parser, check_writable, number, print_version, quoted, seconds
from lsptools.fuzz.features import ASKED_FOR, FEATURES, PLAIN
from lsptools.fuzz.greeting import Language, Target, language_of
from lsptools.fuzz.schedule import chosen
from lsptools.fuzz.telling import Telling
from lsptools.servers.folders import Folders
from lsptools.servers.working import done_in_a_thread

SECONDS, WAIT, MOST_JOBS = 60, 20, 4
# The largest seed that is chosen where none is given; and how many lines documents begin with.
SEEDS, MOST_LINES = 1_000_000, 400


def features(word):
    """Names of features that are an argument."""
    names = word.split(",")
    for name in names:
        if name not in FEATURES:
            raise argparse.ArgumentTypeError(f"{name} is not a feature: see --help")
    return names


FEATURES_HELP = "\n".join(f"  {name:<13} {what}" for name, (what, _) in FEATURES.items())
OPTIONS = [
    ("--seconds", "N", "hunt for N seconds (default: %(default)s)",
     {"type": seconds, "default": SECONDS}),
    ("--seed", "N", "make the edits of this seed (default: another one each time)",
     {"type": number}),
    ("--only", "FEATURE,..", f"only these features, and {' and '.join(PLAIN)}",
     {"type": features, "default": ()}),
    ("--without", "FEATURE,..", "not these features",
     {"type": features, "default": ()}),
    ("--language", "ID", "the languageId of the documents (default: that of SERVER, if it is "
     "known)", {}),
    ("--start", "FILE", "begin with the first 400 lines of this file, in its language", {}),
    ("--folder", "FOLDER", "the project that the server needs, in which the documents are said to "
     "be (default: an empty folder)", {}),
    ("--small", "FILE", "write the smallest session of the first drift as a log; those of others "
     "are numbered", {}),
    ("--jobs", "N", "show a drift to at most N fresh servers at a time (default: as many as there "
     "are processors, but 4 at most)", {"type": number}),
    ("--json", None, "write each line as a JSON object", {"action": "store_true"}),
    ("--wait", "SECONDS", "how long to wait for an answer of the server (default: %(default)s)",
     {"type": seconds, "default": WAIT}),
    ("--program", "PROGRAM", "the lspcheck to run (default: the one next to this command, or on "
     "the PATH)", {}),
]


def arguments():
    parser = Parser(
        prog="lspcheck-fuzz",
        usage="%(prog)s [OPTION ..] SERVER [ARGUMENT ..]",
        description=__doc__,
        epilog=f"Features:\n{FEATURES_HELP}\n\n"
        f"Without --only, {' and '.join(ASKED_FOR)} is left out.",
        formatter_class=argparse.RawDescriptionHelpFormatter,
        allow_abbrev=False,
    )
    for option, value, words, more in OPTIONS:
        parser.add_argument(option, help=words, **more, **({"metavar": value} if value else {}))
    server = parser.add_argument("server", metavar="SERVER", help="the server's program")
    more = parser.add_argument("arguments", metavar="ARGUMENT", nargs=argparse.REMAINDER)
    more.required = False
    parser.add_version([server])
    given = parser.parse_args()
    if not given.version:
        check(parser, given)
    return given


def check(parser, given):
    """Fails if an argument means nothing."""
    given.command = [given.server, *given.arguments]
    if not chosen(given.only, given.without):
        parser.error("--without leaves no feature")
    given.language = given.language or language_of(given.server, given.start)
    if given.language is None:
        named = quoted(given.start or given.server)
        parser.error(f"the language of {named} is not known: give --language, such as c or python")
    if given.folder and not os.path.isdir(given.folder):
        parser.error(f"{quoted(given.folder)} is not a folder")
    if given.small == "-":
        parser.error("- is not a file to write: standard output has the report")


def start_of(path):
    """The first lines of a file."""
    try:
        with open(path, encoding="utf-8", newline="") as file:
            return "".join(itertools.islice(file, MOST_LINES))
    except UnicodeDecodeError as error:
        raise Failed(f"{quoted(path)}: it is not UTF-8", 2) from error
    except OSError as error:
        raise Failed(f"{quoted(path)}: {error.strerror}", 3) from error


def fuzz(given, folder, telling):
    """Hunts, and writes what is found: the status."""
    if given.version:
        print_version(given)
        return 0
    if given.small:
        check_writable(given.small)
    start = start_of(given.start) if given.start else None
    program = find_program(given.program, sys.argv[0])
    version_of(program)
    jobs = given.jobs or min(MOST_JOBS, len(os.sched_getaffinity(0)))
    root = os.path.abspath(given.folder) if given.folder else os.path.join(folder, "empty")
    folders = Folders([], folder)
    target = Target(program, given.command, root, folders, folder, given.wait, jobs)
    language = Language(given.language, *([root] if given.folder else []))
    seed = given.seed or random.SystemRandom().randrange(1, SEEDS)
    return telling.hunt(target, language, seed, start)


def main():
    given = arguments()
    telling = Telling(given)
    return done_in_a_thread("lspcheck-fuzz", lambda it: fuzz(given, it, telling), telling.last)

