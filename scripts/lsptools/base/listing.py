"""Reads the objects that `lspcheck show --long --json` and `explain --all --notes --json` write."""

import json
from dataclasses import dataclass, field
from itertools import islice

from lsptools.base.program import Failed
from lsptools.base.report_lines import NoObject, object_of

EDITOR, SERVER, SNAPSHOT = range(3)
SIDES = {"editor": EDITOR, "server": SERVER, "snapshot": SNAPSHOT}
KINDS = ["request", "notification", "result", "error", "snapshot", "unreadable"]
EVENTS = set(KINDS[:5])
# The rules of an end that comes too early, which no event breaks.
ENDS = (107, 303, 407)


# How many lines are read at once, which is faster than one by one.
TOGETHER = 500


def objects_of(lines):
    """The objects of some lines; they are read one by one if that is not what they are."""
    try:
        found = json.loads(f"[{','.join(lines)}]")
        if len(found) == len(lines) and all(isinstance(it["is"], str) for it in found):
            return found
    except (ValueError, TypeError, LookupError, RecursionError):
        pass
    return map(object_of, lines)


def objects_in(lines, command):
    """The objects that a command of lspcheck writes with --json, one on each line."""
    lines = iter(lines)
    try:
        while some := list(islice(lines, TOGETHER)):
            yield from objects_of(some)
    except NoObject as error:
        raise Failed(f"lspcheck {command}: {error}") from error


@dataclass
class Event:
    """One message or snapshot, counted from 1, with its number among those of its side."""

    event: int
    side: int
    number: int
    kind: str
    method: str = None
    id: object = None
    uri: str = None
    version: int = None
    rule: int = None


@dataclass
class Violation:
    """A rule that an event breaks, or the end of the log, with the objects that explain it and what
    is written about it in words."""

    rule: int
    who: str
    number: int
    event: int
    follows: bool
    text: str
    facts: list = field(default_factory=list)
    lines: list = field(default_factory=list)


def event_of(it):
    """The event of an object of `show --long`."""
    side = SIDES[it.get("side", "snapshot")]
    return Event(it["event"], side, it["number"], it["is"], it.get("method"), it.get("id"),
                 it.get("uri"), it.get("version"))


def violation_of(it):
    return Violation(*(it[key] for key in ("rule", "who", "number", "event", "follows", "text")))


def broken(violation):
    """The event that breaks a rule, whose words are read from its content later."""
    if violation.rule in ENDS:
        return None
    side = SIDES[violation.who]
    kind = "snapshot" if side == SNAPSHOT else "unreadable"
    return Event(violation.event, side, violation.number, kind, rule=violation.rule)


class Listing:
    """The events of `show --long`, one after the other. On the way, it counts them and keeps the
    violations and what comes after the events."""

    def __init__(self, objects, most=0):
        self.objects, self.most = objects, most
        # How many messages of the editor, of the server, and snapshots there are.
        self.sides = [0, 0, 0]
        # The first violations, and how many more there are.
        self.violations, self.unlisted = [], 0
        # What breaks no rule, and is worth knowing.
        self.notes = []
        # What comes after the events: the report, the fault of the log, or the count.
        self.ending = []

    @property
    def events(self):
        return sum(self.sides)

    def __iter__(self):
        it = None
        try:
            for it in self.objects:
                if event := self.event_of(it):
                    self.sides[event.side] += 1
                    yield event
        except (LookupError, TypeError) as error:
            raise Failed(f"lspcheck show: it wrote an event without its members: {it}") from error

    def event_of(self, it):
        """The event of an object, if it is about one."""
        if it["is"] in EVENTS and "event" in it:
            return event_of(it)
        if it["is"] != "no":
            self.ending.append(it)
            return None
        violation = violation_of(it)
        if len(self.violations) < self.most:
            self.violations.append(violation)
        else:
            self.unlisted += 1
        return broken(violation)

    def read(self):
        """Reads all events. Returns itself."""
        for _ in self:
            pass
        return self


def explained(objects, most):
    """Of `explain --all --notes`: for the first violations, by rule, event and side, the objects;
    and all notes."""
    found, notes, last = {}, [], None
    try:
        for it in objects:
            if it["is"] == "note":
                notes.append(it)
            elif it["is"] == "no" and len(found) < most:
                last = found[it["rule"], it["event"], it["who"]] = [it]
            elif it["is"] in ("no", "offences", "bad log"):
                last = None
            elif last:
                last.append(it)
    except LookupError as error:
        raise Failed(f"lspcheck explain: it wrote a violation without its members: {it}") from error
    return found, notes
