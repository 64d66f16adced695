"""The events of a log, of which some are left out or changed, and the log that they make."""

from dataclasses import dataclass, replace
from functools import cached_property

from lsptools.base.contents import Contents, at, describe, message_of
from lsptools.base.listing import EDITOR, SERVER, SNAPSHOT, Event, Listing, objects_in
from lsptools.base.messages import encoded
from lsptools.base.program import Failed
from lsptools.base.session_log import (
    EDITOR as WRITTEN, SERVER as READ, SNAPSHOT as TEXT, Record, as_records, framed,
)

KINDS = {EDITOR: WRITTEN, SERVER: READ}
OPEN, CHANGE = "textDocument/didOpen", "textDocument/didChange"
CLOSE, SAVE = "textDocument/didClose", "textDocument/didSave"


@dataclass(frozen=True)
class Item:
    """An event as the whole log has it, with its content, which may be another one by now."""

    event: Event
    content: bytes
    # The JSON value of a message, or None.
    value: object = None
    # The document of a snapshot or of a message about a text.
    uri: str = None
    # If its header says fewer bytes than the content has: in which units it counts, or how many are
    # missing.
    counts: str = None
    missing: int = 0

    @property
    def is_snapshot(self):
        return self.event.side == SNAPSHOT

    @property
    def method(self):
        return self.event.method

    @property
    def version(self):
        return self.event.version

    def is_about(self, uri, *methods):
        """Whether it is a message of the editor about a document, with one of these methods."""
        is_one = self.event.kind == "notification" and self.method in methods
        return is_one and self.event.side == EDITOR and self.uri == uri

    def with_value(self, value):
        """The same event with another content."""
        return replace(self, content=encoded(value), value=value)

    @property
    def length(self):
        """What the header of a message says."""
        if self.counts is None:
            return len(self.content) - self.missing
        text = self.content.decode("utf-8", "replace")
        return len(text) if self.counts == "utf-32" else len(text.encode("utf-16-le")) // 2

    @cached_property
    def records(self):
        """The bytes of the event in a log."""
        if self.is_snapshot:
            return Record(TEXT, self.content, self.version, self.uri.encode()).encoded()
        return b"".join(as_records(KINDS[self.event.side], framed(self.content, self.length)))

    def completed(self, rest, lines):
        """The same event with the bytes of its stream that follow its content, up to the end that
        `whole` tells in an explanation."""
        said = dict(it.split(" ")[:2] for it in lines if it.startswith(("whole ", "counts ")))
        if "whole" not in said:
            return self
        whole = (self.content + rest)[: int(said["whole"])]
        missing = len(whole) - len(self.content)
        return replace(self, content=whole, counts=said.get("counts"), missing=missing)


@dataclass(frozen=True)
class Case:
    """Some events of a log."""

    format: int
    items: tuple

    def log(self):
        return b"lsp-session %d\n" % self.format + b"".join(it.records for it in self.items)

    def client(self):
        """The editor's name and version, as it gives them, or an empty text."""
        first = (it.value for it in self.items if it.method == "initialize")
        info = at(next(first, None), "params", "clientInfo")
        found = (at(info, name) for name in ("name", "version"))
        return " ".join(" ".join(it.split()) for it in found if isinstance(it, str))

    def of(self, items):
        """The same case with these events."""
        return Case(self.format, tuple(items))

    def edited(self, others):
        """The same case with other events in some places, or none."""
        items = (others.get(place, item) for place, item in enumerate(self.items))
        return self.of(it for it in items if it is not None)


def item_of(event, content):
    """An event that was read. Of a message that breaks a rule, its words come from its content."""
    message = message_of(event, content)
    describe(event, message)
    uri = event.uri
    if event.side != SNAPSHOT:
        uri = at(message, "params", "textDocument", "uri")
    # Python reads some JSON that lspcheck does not.
    is_object = isinstance(message, dict) and event.rule != 201
    uri = uri if isinstance(uri, str) else None
    return Item(event, content, message if is_object else None, uri)


def read_case(program, explanation):
    """The events of a log up to the first that breaks a rule, or all of them."""
    items = []
    lines = program.output("show", "--long", "--json").splitlines()
    try:
        with open(program.log, "rb") as file:
            contents = Contents(file)
            for event in Listing(objects_in(lines, "show")):
                items.append(item_of(event, contents.of(event)))
            if items and items[-1].event.rule == 201:
                rest = contents.rest(items[-1].event.side)
                items[-1] = items[-1].completed(rest, explanation)
    except OSError as error:
        raise Failed(f"{program.log}: {error.strerror}", 3) from error
    return Case(contents.format, tuple(items))
