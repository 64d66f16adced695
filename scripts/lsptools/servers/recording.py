"""Reads a log for its replay: the editor's messages, and how they were answered."""

import itertools
import re
from collections import defaultdict
from dataclasses import dataclass, field

from lsptools.base.messages import Message, member, message_of, value_of
from lsptools.base.program import Failed
from lsptools.base.session_log import (
    EDITOR, FIRST_LINE, SERVER, SNAPSHOT, Damaged, Frames, Record, records,
)

NO = re.compile(r"no \d+ \w+ \d+ event (\d+)")
BAD_LOG = re.compile(r"bad log \S+ record (\d+)")

# What is kept for the end of a replay.
AT_THE_END = ("shutdown", "exit")


@dataclass
class Document:
    """An open document, as the editor's messages have it."""

    uri: str
    language: str
    version: int

    @property
    def number(self):
        """Its version, as a server can be told it."""
        return self.version if isinstance(self.version, int) else 0


def is_message(step, number):
    return isinstance(step, Message) and step.number == number


@dataclass
class Recording:
    """What of a log is replayed."""

    # The lines of `lspcheck check`, and what bounds the replay: `event 48`, `record 12` or None.
    report: list = field(default_factory=list)
    bound: str = None
    # The editor's messages and the snapshots, in the order of the log; and the messages alone.
    steps: list = field(default_factory=list)
    messages: list = field(default_factory=list)
    # The requests of the editor that are answered after its last message.
    answered_last: tuple = ()
    # The encoding of columns that the two sides agreed on.
    encoding: str = None
    # The first id that no request of the editor has.
    free_id: int = 1
    # For each method, the editor's answers that are sent, in order: whether result or error, value.
    replies: dict = field(default_factory=lambda: defaultdict(list))
    # The settings in these answers: each item that was asked for, and its value.
    configuration: list = field(default_factory=list)

    def add(self, step):
        self.steps.append(step)
        if isinstance(step, Message):
            self.messages.append(step)

    def step_after(self, number):
        """The place of the first step after a message and its snapshots."""
        later = (it for it, step in enumerate(self.steps) if is_message(step, number + 1))
        return next(later, len(self.steps))

    def message(self, number):
        """The editor's message of this number."""
        return self.messages[number - 1]

    def documents(self, number):
        """The documents that are open after a message of the editor, the oldest first."""
        found = {}
        for message in self.messages:
            if message.number > number:
                break
            if message.sent is None:
                continue
            if message.method == "textDocument/didOpen":
                found.pop(message.uri, None)
                found[message.uri] = Document(message.uri, message.language, message.version)
            elif message.method == "textDocument/didChange" and message.uri in found:
                found[message.uri].version = message.version
            elif message.method == "textDocument/didClose":
                found.pop(message.uri, None)
        return found

    def end_before(self, number):
        """Leaves out a message and what follows it."""
        self.steps = self.steps[: next(
            it for it, step in enumerate(self.steps) if is_message(step, number)
        )]
        self.messages = self.messages[: number - 1]

    @property
    def has_ranges(self):
        """Whether the editor changes a part of a text somewhere."""
        return any(it.has_range for it in self.messages)

    def is_saved(self, uri, number):
        """Whether the editor saved a document before it sent a message."""
        saves = (it for it in self.messages[:number] if it.method == "textDocument/didSave")
        return any(it.uri == uri and it.sent is not None for it in saves)

    def touched(self, uri, number):
        """The lines of a document that the changes up to a message name, the last ones first."""
        for message in reversed(self.messages[:number]):
            if message.uri == uri and message.method == "textDocument/didChange":
                changes = member(value_of(message.content), "params", "contentChanges") or []
                ends = itertools.product(changes, ("start", "end"))
                lines = (member(change, "range", end, "line") for change, end in ends)
                yield from (it for it in lines if isinstance(it, int))

    def last(self):
        """The number of the message after which the documents are asked about: the last one or, if
        it leaves none open, the last one that sets a text."""
        messages = self.messages
        if self.documents(messages[-1].number):
            return messages[-1].number
        numbers = [it.number for it in messages if it.is_text_of(it.uri)]
        return numbers[-1] if numbers else messages[-1].number


def encoding_of(answer):
    """The encoding of columns that an answer to `initialize` agrees on."""
    return member(answer, "result", "capabilities", "positionEncoding") or "utf-16"


def above(id):
    """The number after an id that is one, or as JSON text shows one."""
    digits = (id or "").strip('"')
    return int(digits) + 1 if digits.isascii() and digits.isdigit() and len(digits) < 10 else 1


class Reader:
    """Reads the events of a log up to the first that breaks a rule, or to the fault of the log."""

    def __init__(self, recording):
        self.recording = recording
        self.frames = {kind: Frames() for kind in (EDITOR, SERVER)}
        self.counts = {EDITOR: 0, SERVER: 0}
        self.event = 0
        # The requests of each side that are open, and those answered since the last message.
        self.open = {EDITOR: {}, SERVER: {}}
        self.answered = []

    def read(self, file, last_event, last_record):
        """Reads this many events or records at most; None stands for all."""
        try:
            for number, record in enumerate(records(file), 1):
                if last_record is not None and number > last_record:
                    break
                for event in self.events(record):
                    self.event += 1
                    if last_event is not None and self.event > last_event:
                        return
                    self.take(record.kind, event)
        except Damaged:
            # What lspcheck reports about it has been written.
            pass

    def events(self, record):
        """The contents of the frames that end in a record, or the snapshot that it is."""
        return [record] if record.kind == SNAPSHOT else self.frames[record.kind].add(record.data)

    def take(self, kind, event):
        if isinstance(event, Record):
            self.recording.add(event)
            return
        self.counts[kind] += 1
        message = message_of(self.event, self.counts[kind], event)
        if message.is_request:
            self.open[kind][message.id] = message
        elif message.is_response:
            self.join(kind, message)
        if kind == EDITOR:
            self.recording.free_id = max(self.recording.free_id, above(message.id))
            message.answered_before, self.answered = tuple(self.answered), []
            self.recording.add(message)

    def join(self, kind, response):
        """Finds the request that a response answers."""
        asking = SERVER if kind == EDITOR else EDITOR
        asked = self.open[asking].pop(response.id, None)
        if asked is None:
            return
        asked.answer = "error" if response.is_error else "result"
        if kind == EDITOR:
            response.asked, response.asked_items = asked.method, asked.asked_items
            return
        self.answered.append(asked)
        if asked.method == "initialize":
            self.recording.encoding = encoding_of(value_of(response.content))


def read(program):
    """What lspcheck says about a log, and what can be replayed of it."""
    recording = Recording(program.output("check").decode("utf-8", "replace").splitlines())
    first = recording.report[0] if recording.report else ""
    no, bad = NO.match(first), BAD_LOG.match(first)
    last_event = int(no[1]) - 1 if no else None
    last_record = int(bad[1]) - 1 if bad else None
    if no or bad:
        recording.bound = f"event {no[1]}" if no else f"record {bad[1]}"
    reader = Reader(recording)
    try:
        with open(program.log, "rb") as file:
            if file.readline(len(FIRST_LINE)):
                reader.read(file, last_event, last_record)
    except OSError as error:
        raise Failed(f"{program.log}: {error.strerror}", 3) from error
    recording.answered_last = tuple(reader.answered)
    return recording
