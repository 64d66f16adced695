"""Leaves out events: other documents, requests with their responses, notifications, by halves."""

import re
from dataclasses import replace

from lsptools.base.contents import at, key_of, message_of
from lsptools.base.listing import EDITOR
from lsptools.base.messages import opened
from lsptools.base.program import can_name
from lsptools.shrink.case import CHANGE, CLOSE, OPEN, SAVE

NUMBER = re.compile(r"\bevent (\d+)")
# The rules whose explanation compares texts, and those about a message to a document that is open.
TEXTS, MESSAGES = (608, 702), (601, 603, 604, 605, 606, 607)
RESPONSES = ("result", "error")


def word_of(lines, pattern):
    """What the first line that matches a pattern has in its group, or None."""
    found = filter(None, (re.match(pattern, it) for it in lines))
    first = next(found, None)
    return first and first[1]


def rule_of(lines):
    """The rule that an explanation is about, or 0."""
    return int(word_of(lines, r"no (\d+) ") or 0)


def named_in(lines):
    """The numbers of the events that lines of an explanation name."""
    return {int(it) for line in lines for it in NUMBER.findall(line)}


class Base:
    """A message that sets a version of a document: only the texts from there on matter."""

    def __init__(self, item):
        self.item, self.uri = item, item.uri

    def is_before(self, item):
        """Whether an earlier event concerns only earlier texts of the document."""
        return self.is_older(item) or item.is_about(self.uri, OPEN, CHANGE, CLOSE, SAVE)

    def is_older(self, item):
        """Whether an event is a snapshot of an earlier text."""
        return item.is_snapshot and item.uri == self.uri and item.version < self.item.version

    def text(self, program):
        """The text that this message leaves, or None."""
        if not can_name(self.uri):
            return None
        words = ["text", str(self.item.event.number), self.uri, "--quiet"]
        done = program.run(words)
        return done.stdout.decode() if done.returncode == 0 else None

    def opening(self, program, earlier):
        """A `didOpen` with the text that this message leaves, or None."""
        first = [it for it in earlier if it.is_about(self.uri, OPEN)]
        text = self.text(program) if first else None
        if text is None:
            return None
        language = at(first[-1].value, "params", "textDocument", "languageId")
        language = language if isinstance(language, str) else "plaintext"
        content = opened(self.uri, language, self.item.version, text)
        event = replace(self.item.event, method=OPEN)
        value = message_of(event, content)
        return replace(self.item, event=event, content=content, value=value)

    def begin(self, case, program):
        """The case without the earlier texts: the document is opened with the text that it has
        here. None if that can't be done."""
        place = case.items.index(self.item)
        earlier, later = case.items[:place], case.items[place + 1 :]
        item = self.item
        if item.method != OPEN:
            item = self.opening(program, earlier)
        if item is None:
            return None
        last = case.items[-1]
        earlier = [it for it in earlier if not self.is_before(it)]
        later = [it for it in later if not self.is_older(it) or it is last]
        return case.of([*earlier, item, *later])


def last_of(items, version):
    """The last of these that sets a version."""
    return next((it for it in reversed(items) if str(it.version) == version), None)


def since_opening(items):
    """Those of the messages that set a version since the document was opened."""
    opens = [it for it, item in enumerate(items) if item.method == OPEN]
    return items[opens[-1] :] if opens else []


def equal_of(lines, setting, snapshots):
    """The message that set the last text before the difference that was equal to a snapshot, or the
    `didOpen`."""
    equal = word_of(lines, r"equal (\S+)")
    differs = word_of(lines, r"(?:version|sent) (\S+)")
    if equal and differs and int(equal) > int(differs):
        # A late snapshot differs. All those before it were equal.
        versions = {it.version for it in setting if it.version <= int(differs)}
        equal = max(versions & {it.version for it in snapshots}, default=None)
    return last_of(setting, str(equal)) or setting[0]


def base_of(case, lines):
    """The base of the document that a violation or a note is about, or None."""
    rule = rule_of(lines)
    last = case.items[-1] if case.items else None
    if rule == 0:
        named = named_in(lines)
        events = (it for it in case.items if it.event.event in named)
        last = next((it for it in events if it.is_about(it.uri, CHANGE)), None)
    if last is None or last.uri is None:
        return None
    earlier = case.items[: case.items.index(last)]
    setting = since_opening([it for it in earlier if it.is_about(last.uri, OPEN, CHANGE)])
    if not setting:
        return None
    if rule in (0, *MESSAGES):
        return Base(setting[-1])
    if rule in TEXTS:
        snapshots = [it for it in earlier if it.is_snapshot and it.uri == last.uri]
        return Base(equal_of(lines, setting, snapshots))
    if rule == 701:
        kept = word_of(lines, r"kept (?:.* )?(\S+)$") or word_of(lines, r"held (\S+)")
        return Base(last_of(setting, kept) or setting[0])
    return None


def opening_of(case, base):
    """The `didOpen` before a base, as one."""
    earlier = case.items[: case.items.index(base.item) + 1]
    return Base(since_opening([it for it in earlier if it.is_about(base.uri, OPEN, CHANGE)])[0])


def fixed_of(case, base, note):
    """The numbers of the events that stay: the last one, the handshake, and what may have made two
    texts differ. Without one of these, that would be the fault."""
    fixed = []
    if base:
        about = (it for it in case.items if it.is_about(base.uri, OPEN, CHANGE, CLOSE))
        fixed += [it for it in about if it.event.event >= base.item.event.event]
    if not note:
        fixed += [case.items[-1], *handshake_of(case)]
    return {it.event.event for it in fixed}


def units_of(case):
    """The events as units that stay or go together: a request with its response, or one alone."""
    units, asked = [], ({}, {})
    for item in case.items:
        event = item.event
        is_message = not item.is_snapshot and isinstance(event.id, (int, str))
        if is_message and event.kind in RESPONSES and not event.rule:
            unit = asked[1 - event.side].pop(key_of(event.id), None)
            if unit is not None:
                unit.append(item)
                continue
        units.append([item])
        if is_message and event.kind == "request":
            asked[event.side][key_of(event.id)] = units[-1]
    return units


def handshake_of(case):
    """The first `initialize`, its answer, and `initialized`, as far as they are there."""
    units = units_of(case)
    first = next((it for it in units if is_from_editor(it[0], "initialize")), [])
    done = next((it for it in units if is_from_editor(it[0], "initialized")), [])
    return [*first, *done]


def is_from_editor(item, method):
    return item.event.side == EDITOR and item.method == method


def cut(judge, case, named):
    """The case without what comes after the last of these events."""
    shorter = case.of(it for it in case.items if it.event.event <= max(named, default=0))
    return shorter if named and judge.keeps(shorter) else case


def leave_out(judge, case, fixed, named, uri):
    """The case with as few events as possible. These are fixed; those that are named and those of
    the document are probably needed: all others are tried first."""
    units, first = units_of(case), handshake_of(case)
    place = {it.event.event: number for number, it in enumerate(case.items)}

    def of(chosen):
        items = [item for unit in chosen for item in unit]
        return case.of(sorted(items, key=lambda it: place[it.event.event]))

    def is_likely(unit):
        return any(it.event.event in named or it.uri == uri or it in first for it in unit)

    stay, rest = [], []
    for unit in units:
        is_fixed = any(it.event.event in fixed for it in unit)
        (stay if is_fixed else rest).append(unit)
    likely = [it for it in rest if is_likely(it)]
    if judge.keeps(of(stay + likely)):
        rest = likely
    return judge.smallest(rest, lambda kept: of(stay + kept))
