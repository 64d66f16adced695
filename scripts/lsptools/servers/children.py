"""Processes that are started, each as the leader of a group of its own, so that whatever it starts
ends with it."""

import contextlib
import os
import signal
import subprocess
import threading
import time
from pathlib import Path

from lsptools.base.program import Failed

PAGE = os.sysconf("SC_PAGE_SIZE")
# How many seconds a process may take to end after its output has.
AFTER_OUTPUT = 5


class Fault(Failed):
    """Why a server gives no answers: nothing can be said."""

    def __init__(self, message):
        super().__init__(message, 2)


class Processes:
    """The processes that run. Once all are killed, no other is started, and nothing is written."""

    def __init__(self):
        self.lock, self.running, self.is_over = threading.Lock(), set(), False

    def start(self, command):
        pipes = dict.fromkeys(("stdin", "stdout", "stderr"), subprocess.PIPE)

        def started():
            process = subprocess.Popen(command, start_new_session=True, bufsize=0, **pipes)
            self.running.add(process)
            return process

        try:
            return self.unless_over(started)
        except OSError as error:
            raise Fault(f"{command[0]}: {error.strerror}") from error

    def unless_over(self, action):
        """Does something of which nothing may be left at the end: what it made by then is known."""
        with self.lock:
            if self.is_over:
                raise Fault("stopped")
            return action()

    def signal(self, process, number):
        """Sends a signal to the group of a process that has not been waited for."""
        with contextlib.suppress(ProcessLookupError, PermissionError):
            os.killpg(process.pid, number)

    def kill(self, process):
        """Kills what is left of the group of a process."""
        with self.lock:
            if process in self.running:
                self.signal(process, signal.SIGKILL)
                self.running.remove(process)
        process.wait()

    def kill_all(self):
        with self.lock:
            self.is_over = True
            for process in self.running:
                self.signal(process, signal.SIGKILL)
            self.running.clear()


PROCESSES = Processes()


def has_ended(process, seconds):
    """Whether a process ends within some seconds. It is not waited for, so that its group's number
    stays its own."""
    end = time.monotonic() + seconds
    how = os.WEXITED | os.WNOHANG | os.WNOWAIT
    while os.waitid(os.P_PID, process.pid, how) is None:
        if time.monotonic() > end:
            return False
        time.sleep(0.005)
    return True


def how_ended(process):
    """How a process has ended, in words."""
    if not has_ended(process, AFTER_OUTPUT):
        return "closed its output"
    ended = os.waitid(os.P_PID, process.pid, os.WEXITED | os.WNOHANG | os.WNOWAIT)
    if ended.si_code == os.CLD_EXITED:
        return f"ended with status {ended.si_status}"
    return f"was ended by signal {ended.si_status}"


def memory_of(process):
    """How many bytes of memory the processes of its group hold."""
    total = 0
    for folder in Path("/proc").glob("[0-9]*"):
        with contextlib.suppress(OSError, ValueError, IndexError):
            words = (folder / "stat").read_text().rpartition(")")[2].split()
            if int(words[2]) == process.pid:
                total += int((folder / "statm").read_text().split()[1]) * PAGE
    return total
