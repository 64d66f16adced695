"""Signals that ask a script to end: an exception, but never while a program is being started, since
that program would then be left running."""

import os
import signal
from contextlib import contextmanager

STOPS = (signal.SIGINT, signal.SIGTERM, signal.SIGHUP)


class Stopped(Exception):
    """A signal asks the script to end."""


class State:
    """Whether the exception has to wait, and the signal for which it waits."""

    is_held, pending = False, None


def raise_stopped(number):
    for it in STOPS:
        signal.signal(it, signal.SIG_IGN)
    raise Stopped(number)


def stop(number, _):
    if State.is_held:
        State.pending = number
    else:
        raise_stopped(number)


def catch():
    """From now on, these signals are exceptions, except those that the caller ignores."""
    for it in STOPS:
        if signal.getsignal(it) != signal.SIG_IGN:
            signal.signal(it, stop)


@contextmanager
def held():
    """Nothing is interrupted in this block, only after it, or after the one around it."""
    was_held, State.is_held = State.is_held, True
    try:
        yield
    finally:
        State.is_held = was_held
    if State.pending is not None and not was_held:
        number, State.pending = State.pending, None
        raise_stopped(number)


def end_by(number):
    """Ends as the signal ends other programs, so that a shell sees why."""
    signal.signal(number, signal.SIG_DFL)
    os.kill(os.getpid(), number)
