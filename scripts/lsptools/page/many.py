"""Does something with many logs, several at once: each in a process of its own, so that the memory
of one is free before the next, and what ends one ends no other."""

import json
import os
import signal
import sys
import time
import traceback

from lsptools.base.program import PATIENCE, Failed, end_in_words
from lsptools.base.stops import Stopped, held
from lsptools.page.parallel import Line


class Told:
    """What came of each log, in a file for each: that of many would not fit into memory."""

    def __init__(self, folder):
        self.folder = folder

    def path(self, number):
        return os.path.join(self.folder, str(number))

    def put(self, number, found):
        with open(self.path(number), "w", encoding="ascii") as file:
            json.dump(found, file)

    def get(self, number):
        """What was put, or None if it was not, or not completely."""
        try:
            with open(self.path(number), encoding="ascii") as file:
                return json.load(file)
        except (OSError, ValueError):
            return None


def failure(message, status):
    return {"failed": str(message), "status": status}


def attempt(work, number):
    """What a process does with a log: a dictionary, also if it fails."""
    try:
        return {**work(number), "status": 0}
    except Failed as failed:
        return failure(failed, failed.status)
    except OSError as error:
        return failure(error.strerror or error, 3)
    except MemoryError:
        return failure("out of memory", 4)


class Jobs:
    """The processes, and what each has told."""

    def __init__(self, work, most, told):
        self.work, self.most, self.told = work, most, told
        self.running, self.own = {}, os.getpid()

    def start(self, number):
        try:
            # No signal comes between the start of a process and the note that it is there.
            with held():
                if process := os.fork():
                    self.running[process] = number
            if not process:
                self.told.put(number, attempt(self.work, number))
                os._exit(0)
        except BaseException as error:
            if os.getpid() == self.own:
                raise
            self.give_up(error)

    def give_up(self, error):
        """Ends a process that was stopped, or in which this program is wrong."""
        if not isinstance(error, Stopped):
            traceback.print_exception(type(error), error, error.__traceback__)
            sys.stderr.flush()
        os._exit(1)

    def wait(self):
        """Waits until a process ends. Returns the number of its log, and what it told."""
        process, status = os.waitpid(-1, 0)
        number = self.running.pop(process)
        found = self.told.get(number) if status == 0 else None
        if found is None:
            found = failure(end_in_words(os.waitstatus_to_exitcode(status)), 1)
            self.told.put(number, found)
        return number, found

    def end(self):
        """Ends all processes, which have some time for that."""
        for process in self.running:
            os.kill(process, signal.SIGTERM)
        until = time.monotonic() + 2 * PATIENCE
        while self.running:
            process, _ = os.waitpid(-1, os.WNOHANG)
            self.running.pop(process, None)
            if not process and time.monotonic() > until:
                for it in self.running:
                    os.kill(it, signal.SIGKILL)
                until = float("inf")
            time.sleep(0 if process else 0.02)


def each(count, work, most, told):
    """Does the work with each number below `count`. Gives each number and what came of it, as soon
    as that is there. A line on a terminal says how many there are."""
    line, jobs, waiting = Line(), Jobs(work, most, told), iter(range(count))
    try:
        for done in range(count):
            while len(jobs.running) < most and (number := next(waiting, None)) is not None:
                jobs.start(number)
            if count > 1 and line.is_due():
                line.put(f"{done} of {count} logs")
            number, found = jobs.wait()
            if "failed" in found:
                line.clear()
            yield number, found
    finally:
        line.clear()
        jobs.end()
