"""The work of a command that runs servers: in a thread, so that a signal meets the first one, and
leaves no server running."""

import os
import resource
import shutil
import signal
import tempfile
import threading

from lsptools.base import outputs
from lsptools.base.program import Failed
from lsptools.base.stops import STOPS, end_by
from lsptools.servers.children import PROCESSES
from lsptools.servers.report import WRITING

# What ends such a command, also `^\\` on a terminal. There, no file of its memory is written.
ENDS = (*STOPS, signal.SIGQUIT)
# Python handles a signal in its first thread, but the system may give it to another one, which
# doesn't wake the first. So the first looks after this many seconds.
LOOK = 0.2
# For how many seconds a line may be written, and how often a folder is removed, in which something
# may still be made, before this ends.
WRITES, REMOVES = 1, 10


def status_of(name, work, folder):
    """The exit status, after all is written."""
    try:
        return work(folder)
    except SystemExit as unwritten:
        # Standard output could not be written.
        return unwritten.code
    except Exception as error:
        # A signal has killed the servers, and removed the files.
        if PROCESSES.is_over:
            return 2
        if not isinstance(error, Failed):
            raise
        outputs.say(f"{name}: {error}")
        return error.status if error.status in (2, 3) else 2


class Stopped(BaseException):
    """A signal that ends this process."""


class Signals:
    """The first signal that is to end this process is an exception, as long as there is work. One
    that the caller ignores is none."""

    def __init__(self):
        self.is_awaited = True

    def stop(self, number, _frame):
        if self.is_awaited:
            self.is_awaited = False
            raise Stopped(number)

    def catch(self):
        for it in ENDS:
            if signal.getsignal(it) != signal.SIG_IGN:
                signal.signal(it, self.stop)


def remove(folder):
    """Removes a folder, in which something may still be made."""
    for _ in range(REMOVES):
        if os.path.exists(folder):
            shutil.rmtree(folder, ignore_errors=True)


def done_in_a_thread(name, work, at_the_end):
    """Does the work of a command, which is given a folder for its files, and ends with its status.
    What is left to do at the end is done once no server runs."""
    result, number, signals = [], None, Signals()
    done = lambda: result.append(status_of(name, work, folder))
    thread = threading.Thread(target=done, daemon=True)
    # No signal comes before it is known that there is a folder.
    mask = signal.pthread_sigmask(signal.SIG_BLOCK, ENDS)
    folder = tempfile.mkdtemp(prefix=f"{name}-")
    try:
        signals.catch()
        signal.pthread_sigmask(signal.SIG_SETMASK, mask)
        thread.start()
        while thread.is_alive():
            thread.join(LOOK)
        signals.is_awaited = False
    except Stopped as stopped:
        number = stopped.args[0]
    PROCESSES.kill_all()
    WRITING.acquire(timeout=WRITES)
    at_the_end()
    remove(folder)
    if number is not None:
        outputs.say(f"{name}: stopped by {signal.Signals(number).name}")
        resource.setrlimit(resource.RLIMIT_CORE, (0, resource.getrlimit(resource.RLIMIT_CORE)[1]))
        end_by(number)
    os._exit(result[0] if result else 2)
