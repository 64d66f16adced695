"""Runs a language server for an editor, and records what they send each other, for lspcheck.

Enter this instead of the server's command in the editor's settings. Each server process gets a log
of its own in FOLDER, SERVER-YYYYMMDDTHHMMSS-PID.log (local time), which only its owner can read. It
begins when the editor writes its first byte, so a process that the editor writes nothing to, such
as `clangd --version`, gets none. When the server has ended, NAME.exit next to the log says how.

One second after the editor has saved a document, the file is read as a snapshot of its text. If
LSPCHECK_SNAPSHOTS names a file or a named pipe, the records of snapshots that a plug-in writes
there go into the log, too.

Recording never holds up the session: this process passes the bytes on, and another one records
them. Standard error says once what can't be recorded. The exit status is the server's or, if a
signal ended the server, 128 plus the signal's number, as in a shell.
"""

import argparse
import os
import select
import signal
import subprocess
import sys
import threading
import time

from lsptools.base import outputs
from lsptools.base.feeds import Feed, is_readable, write_all
from lsptools.proxy import log, snapshots
from lsptools.proxy.saying import say

# How many bytes are read at once: what a pipe holds.
PIECE = 65536

# How many seconds the recorder may take to finish the log after the server has ended, and the
# server to take the editor's last bytes before it is asked to end.
PATIENCE = 2

SIGNALS = [signal.SIGTERM, signal.SIGINT, signal.SIGHUP]


def options_of(words):
    """The options, the folder and the server's command."""
    first, *rest = __doc__.split("\n\n")
    shown = {"description": first, "epilog": "\n\n".join(rest)}
    how = argparse.RawDescriptionHelpFormatter
    parser = argparse.ArgumentParser(prog=outputs.called("proxy"), formatter_class=how, **shown)
    check = "report violations, and documents that the server may have dropped, at once"
    where = "on standard error, and in NAME.explain next to the log"
    parser.add_argument("--check", action="store_true", help=f"{check}: {where}")
    parser.add_argument("--no-snapshots", action="store_true", help="do not read saved files")
    parser.add_argument("folder", metavar="FOLDER", help="for the logs; created if necessary")
    parser.add_argument("server", metavar="SERVER", help="the server's program")
    parser.add_argument("arguments", metavar="ARGUMENT", nargs=argparse.REMAINDER).required = False
    return parser.parse_args(words)


def start_recorder(options):
    """Starts the process that records: the feed to it, and its process number, if it started."""
    source, sink = os.pipe()
    feed = Feed(sink, lambda why: say(f"nothing more is recorded: {why}"))
    # Here, since the recorder may run only after the plug-in has begun to write.
    earlier = snapshots.size_now()
    try:
        recorder = os.fork()
    except OSError as error:
        say(f"nothing is recorded: {error.strerror}")
        recorder = None
    if recorder == 0:
        os.close(sink)
        log.record(source, options, earlier)
    os.close(source)
    feed.start()
    return feed, recorder


class Direction(threading.Thread):
    """Passes on all bytes of one side until one end is closed."""

    def __init__(self, feed, side, source, sink):
        super().__init__(daemon=True)
        self.feed, self.side, self.source, self.sink = feed, side, source, sink
        self.is_passing = False

    def run(self):
        poll = select.poll()
        poll.register(self.source, select.POLLIN)
        try:
            while poll.poll():
                # Before the bytes are read, so that they are seen either in the pipe or here.
                self.is_passing = True
                data = os.read(self.source, PIECE)
                if not data:
                    break
                # First, so that no answer precedes its request in the log. This waits for nothing.
                now = time.time_ns()
                self.feed.put(b"%s %d %d\n%s\n" % (self.side, len(data), now, data))
                write_all(self.sink, data)
                self.is_passing = False
        except OSError:
            # One end is closed. Closing the other tells whoever is there.
            pass
        self.is_passing = False
        os.close(self.source)
        os.close(self.sink)

    def has_more(self):
        """Whether something that was written to this side is not passed on yet."""
        return is_readable(self.source) or self.is_passing

    def finish(self):
        """Waits until all is passed on. A process that the server started may keep its pipe open,
        so half a second without a byte is the end, too."""
        while self.is_alive():
            self.join(0.5)
            if not self.has_more():
                return


def pass_signals(server, requests):
    """Passes on to the server what asks this process to end, after the editor's last bytes."""

    def pass_on(number, _frame):
        end = time.monotonic() + PATIENCE
        time.sleep(0.05)
        while requests.is_alive() and requests.has_more() and time.monotonic() < end:
            time.sleep(0.005)
        server.send_signal(number)

    for number in SIGNALS:
        signal.signal(number, pass_on)


def serve(server, feed):
    """Passes bytes on until the server has ended; its status."""
    # The directions close what they read and write, so they get descriptors of their own.
    to_server, from_server = os.dup(server.stdin.fileno()), os.dup(server.stdout.fileno())
    # The editor's side may stay open after the server has ended, so nothing waits for that one.
    requests = Direction(feed, b"E", 0, to_server)
    answers = Direction(feed, b"S", from_server, 1)
    pass_signals(server, requests)
    feed.put(b"P %d\n" % server.pid)
    server.stdin.close()
    server.stdout.close()
    requests.start()
    answers.start()
    status = server.wait()
    for number in SIGNALS:
        signal.signal(number, signal.SIG_DFL)
    feed.put(b"X %d\n" % status)
    answers.finish()
    return status


def finish(feed, recorder):
    """Gives the recorder a moment to finish the log. After that, it does so by itself."""
    end = time.monotonic() + PATIENCE
    feed.end()
    feed.join(PATIENCE)
    if feed.is_alive():
        say("the end of the session is not recorded")
    while recorder and time.monotonic() < end and os.waitpid(recorder, os.WNOHANG) == (0, 0):
        time.sleep(0.005)


def main():
    options = options_of(sys.argv[1:])
    feed, recorder = start_recorder(options)
    pipes = {"stdin": subprocess.PIPE, "stdout": subprocess.PIPE}
    try:
        server = subprocess.Popen([options.server, *options.arguments], **pipes)
    except OSError as error:
        sys.exit(f"proxy: {options.server}: {error.strerror}")
    status = serve(server, feed)
    finish(feed, recorder)
    return status if status >= 0 else 128 - status

