"""Which features each session has: in turns, one next to the plain ones, then some at once."""

import random
from collections import deque

from lsptools.fuzz.features import ASKED_FOR, FEATURES, PLAIN

# What comes along with a feature if it is chosen, too; and what comes along unless it is left out,
# since the feature shows nothing without it.
WITH, NEEDS = {"mixed": ("cr", "crlf")}, {"encodings": ("astral", "combining")}
# How many sessions of a round have several features.
OF_SEVERAL = 3


class Schedule:
    """The features of sessions, as long as they are not known to show a drift."""

    def __init__(self, seed, only=(), without=()):
        self.seed, self.chosen, self.left_out = seed, chosen(only, without), set(without)
        self.had_special = bool(self.special)
        self.round, self.queue = 0, deque()

    def leave_out(self, feature):
        """Leaves out a feature that has shown a drift."""
        self.chosen.discard(feature)
        self.left_out.add(feature)

    @property
    def special(self):
        return [it for it in FEATURES if it in self.chosen and it not in PLAIN]

    def is_over(self):
        """Whether no session can show anything new. The plain features were in each."""
        return not self.chosen or self.had_special and not self.special

    def next(self):
        """The features of the next session."""
        while True:
            if not self.queue:
                self.fill()
            planned = self.queue.popleft()
            left = planned & self.chosen
            if left or not planned:
                return self.completed(left)

    def fill(self):
        self.round += 1
        chance = random.Random(f"{self.seed} round {self.round}")
        special = self.special
        sets = [{it} for it in special] + [set()]
        if len(special) > 1:
            others = [it for it in special if it not in ("encodings", "bursts", "long")]
            sets += [set(chance.sample(others, len(others) // 2)) for _ in range(OF_SEVERAL)]
        chance.shuffle(sets)
        self.queue.extend(sets)

    def completed(self, features):
        """These features, with the plain ones and with what must come along."""
        along = {it for feature in features for it in WITH.get(feature, ())} | set(PLAIN)
        needed = {it for feature in features for it in NEEDS.get(feature, ())}
        return frozenset(features | along & self.chosen | needed - self.left_out)


def chosen(only, without):
    """The features of a run: all, or those that are named, but for those left out."""
    named = set(only) | set(PLAIN) if only else set(FEATURES) - set(ASKED_FOR)
    return named - set(without)
