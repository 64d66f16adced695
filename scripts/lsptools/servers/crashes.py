"""Finds the message at which a server ends, before it is asked to."""

import time
from contextlib import suppress
from dataclasses import dataclass

from lsptools.base.messages import Message
from lsptools.servers import questions
from lsptools.servers.comparison import replaying, texts_after, uris_from
from lsptools.servers.drive import GREETING, Run
from lsptools.servers.halving import first_of
from lsptools.servers.server import Ended, TimedOut
from lsptools.servers.witness import MOST_LINES

# For how many seconds a server is waited for that is asked nothing, and for how many times as long
# as another run took that ended.
PATIENCE, TIMES = 2, 4


@dataclass
class Crash:
    """The message after which a server ends, the one before, how it ends, its last words, and of
    how many messages the shortest session is that makes it end, if that is known."""

    message: Message
    before: Message
    how: str
    words: list
    count: int = None


class CrashSearch:
    """The search for the first message after which a server ends."""

    def __init__(self, setting):
        self.setting = setting
        # Whether a request follows the message, so that all was heard once it is answered; and how
        # long the longest run took that ended, in seconds.
        self.asks, self.took = True, 0
        # What the last server wrote to standard error in the end.
        self.words = []

    def find(self, last):
        """The crash, if a server has ended after this message or before, and ends again."""
        number = first_of(1, last, lambda it: self.how(it) is not None)
        # A server that counts messages ends at the request.
        self.asks = False
        if self.how(number) is None and number < last and self.how(number + 1) is not None:
            number += 1
        elif self.how(number) is None:
            self.asks = True
        message, how = self.setting.recording.message(number), self.how(number)
        words = self.words
        if how is None or message.method in GREETING or self.how(number - 1) is not None:
            return None
        before = self.setting.recording.message(number - 1)
        return Crash(message, before, how, words, self.count(number))

    def count(self, number):
        is_shown = lambda it: self.how(number, number - it) is not None
        if is_shown(1):
            return 1
        count = first_of(2, number, is_shown)
        return count if is_shown(count) else None

    def how(self, number, start=0):
        """How a server ends that is sent the log up to a message, or what follows `start`, or None
        if it does not."""
        opened = texts_after(self.setting, start, uris_from(self.setting, start, number, []))
        begun = time.monotonic()
        with Run(self.setting) as run:
            with suppress(Ended, TimedOut):
                replaying(number, start, opened)(run)
                if self.asks:
                    run.hear_all()
            patience = max(PATIENCE, TIMES * self.took)
            if not run.server.has_ended(questions.SHORT_PAUSES[0] if self.asks else patience):
                return None
            self.took = max(self.took, time.monotonic() - begun)
            self.words = run.server.last_lines(MOST_LINES)
            return run.server.how_ended()
