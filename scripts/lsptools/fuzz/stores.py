"""What a server holds that takes messages otherwise than LSP says: the wrong stores, one of which
may explain its answers."""

import itertools
import json
import re
import unicodedata
from dataclasses import dataclass, fields, replace

from lsptools.fuzz.features import SEPARATORS
from lsptools.servers.overwriting import units

LINE_ENDS = "\r\n|\r|\n"
# How a column past the end of a line is taken.
AS_END, AFTER_END, RUNS_ON, IGNORED, MESSAGE_IGNORED, DROPPED = range(6)
BEYONDS = (AS_END, IGNORED, MESSAGE_IGNORED)


class Refused(Exception):
    """A change that a store does not make, and what becomes of the others."""

    def __init__(self, how):
        super().__init__(how)
        self.how = how


def as_sent(value):
    return value


@dataclass(frozen=True)
class Store:
    """A store, by what is wrong with it. Changes and messages are chosen by functions."""

    name: str = None
    # How columns are counted, or None for the encoding that was agreed on; what ends a line; and
    # how a position past the end of its line or of the text is taken.
    encoding: str = None
    ends: str = LINE_ENDS
    past: int = AS_END
    # The same for a line past the last one alone; whether the first column of the next line is none
    # of these, and means the end of the text; and whether a text that is empty has no line.
    beyond: int = AS_END
    has_next_line: bool = False
    is_lineless: bool = False
    # What becomes of the text of a didOpen, of that of a change, of all changes of a message, and
    # of a range.
    opened: object = as_sent
    typed: object = as_sent
    changes: object = as_sent
    range: object = as_sent
    # Whether it ignores changes without a range, or those whose version leaves some out; whether it
    # keeps the text of a document that is closed; whether each change of a message means the text
    # before all of them.
    is_wholeless: bool = False
    is_gapless: bool = False
    keeps_closed: bool = False
    is_at_once: bool = False
    # Whether it ignores the last message before it is asked, or drops the document at it.
    loses_last: bool = False
    drops_last: bool = False

    @property
    def changes_texts(self):
        """Whether it may hold another text than the one it is given at once."""
        return self.opened is not as_sent or self.typed is not as_sent

    def with_faults_of(self, other):
        """Both faults in one store."""
        plain = Store()
        changed = {it.name: getattr(other, it.name) for it in fields(other)
                   if getattr(other, it.name) != getattr(plain, it.name)}
        return replace(self, **{**changed, "name": f"{self.name}, and {other.name}"})


class Held:
    """The text of one document in a store; None if it has none."""

    def __init__(self, store, encoding, uri):
        self.store, self.uri = store, uri
        self.encoding = store.encoding or encoding
        self.text = self.closed = None
        self.version = 0

    def hear(self, content, is_last=False):
        """Takes a message of the editor."""
        message = json.loads(content)
        method, params = message["method"], message.get("params") or {}
        document = params.get("textDocument") or {}
        if document.get("uri") != self.uri:
            return
        if method == "textDocument/didOpen":
            self.open(document)
        elif method == "textDocument/didClose":
            self.closed, self.text = self.text, None
        elif method == "textDocument/didChange" and is_last and self.store.drops_last:
            self.text = None
        elif method == "textDocument/didChange" and not (is_last and self.store.loses_last):
            self.change(document["version"], params["contentChanges"])

    def open(self, document):
        kept = self.closed if self.store.keeps_closed else None
        self.text = self.store.opened(document["text"]) if kept is None else kept
        self.version = document["version"]

    def change(self, version, changes):
        is_lost = self.store.is_gapless and version > self.version + 1
        self.version, text, before = version, self.text, self.text
        if self.text is None or is_lost:
            return
        for change in self.store.changes(changes):
            try:
                text = self.changed(text, before if self.store.is_at_once else text, change)
            except Refused as refused:
                if refused.how != IGNORED:
                    self.text = None if refused.how == DROPPED else before
                    return
        self.text = text

    def changed(self, text, meant, change):
        """The text after a change whose range means the text `meant`."""
        new = self.store.typed(change["text"])
        if change.get("range") is None:
            return text if self.store.is_wholeless else new
        lines = lines_of(meant, self.store.ends)
        places = self.store.range(change["range"])
        start, end = (self.offset(meant, lines, places[it]) for it in ("start", "end"))
        return text[:start] + new + text[max(start, end) :]

    def offset(self, text, lines, place):
        line, column = place["line"], place["character"]
        if line >= len(lines):
            count = 0 if self.store.is_lineless and not text else len(lines)
            if not self.store.has_next_line or (line, column) != (count, 0):
                check(max(self.store.past, self.store.beyond))
            return len(text)
        start, end, next_start = lines[line]
        at = start + in_characters(text[start:end], column, self.encoding)
        if column <= units(text[start:end], self.encoding):
            return at
        check(self.store.past)
        if self.store.past == AFTER_END:
            return next_start
        if self.store.past == RUNS_ON:
            return start + in_characters(text[start:], column, self.encoding)
        return end


def check(how):
    """Fails if a position that is taken like this refuses its change."""
    if how in (IGNORED, MESSAGE_IGNORED, DROPPED):
        raise Refused(how)


def lines_of(text, ends):
    """Where each line starts and ends, and where the next one starts."""
    found, start = [], 0
    for end in re.finditer(ends, text):
        found.append((start, end.start(), end.end()))
        start = end.end()
    return [*found, (start, len(text), len(text))]


def in_characters(text, column, encoding):
    """How many characters of a text this many units are, or reach into."""
    if encoding == "utf-32" or text.isascii():
        return min(column, len(text))
    count = 0
    for it in text:
        if column <= 0:
            break
        column -= units(it, encoding)
        count += 1
    return count


def held(store, sent, encoding, uri, more=()):
    """The text of a document after these messages, and after those that overwrite it."""
    it, last = Held(store, encoding, uri), len(sent) - 1
    for number, content in enumerate(sent):
        it.hear(content, number == last)
    before = it.text
    for content in more:
        it.hear(content)
    return before, it.text


def with_last_end(text):
    return text if text.endswith(("\r", "\n")) else text + "\n"


def without_last_end(text):
    return text[:-1] if text.endswith(("\r", "\n")) else text


def inclusive(range):
    end = range["end"]
    return {**range, "end": {**end, "character": end["character"] + (range["start"] != end)}}


def narrowed(range, most):
    return {name: {**it, "character": it["character"] % most} for name, it in range.items()}


def ends_with(others):
    """What ends a line if these characters do, too."""
    return f"{LINE_ENDS}|[{''.join(others)}]"


# What servers do with each position or text, in the words of a find.
FAULTS = [
    Store("counts characters", encoding="utf-32"),
    Store("counts bytes", encoding="utf-8"),
    Store("counts UTF-16 units", encoding="utf-16"),
    Store("a lone CR ends no line", ends="\r\n|\n"),
    Store("CR LF ends two lines", ends="\r|\n"),
    *(Store(f"{name} ends a line", ends=ends_with(it)) for it, name in SEPARATORS.items()),
    Store("columns have 8 bits", range=lambda it: narrowed(it, 1 << 8)),
    Store("columns have 16 bits", range=lambda it: narrowed(it, 1 << 16)),
]
# Where a column past the end is a place, a line past the last one need not be.
PAST = [
    *(Store("runs into the next line", past=RUNS_ON, beyond=it) for it in BEYONDS),
    *(Store("stands after the line end", past=AFTER_END, beyond=it) for it in BEYONDS),
    Store("change ignored", past=IGNORED),
    Store("change ignored", past=MESSAGE_IGNORED),
    Store("change ignored", past=MESSAGE_IGNORED, has_next_line=True),
    Store("change ignored", past=MESSAGE_IGNORED, has_next_line=True, is_lineless=True),
    Store("document dropped", past=DROPPED),
]
BEYOND = [
    Store("change ignored", beyond=IGNORED),
    Store("change ignored", beyond=MESSAGE_IGNORED),
    Store("document dropped", beyond=DROPPED),
]
OTHERS = [
    Store("text of didOpen ignored", opened=lambda it: ""),
    Store("changes without a range ignored", is_wholeless=True),
    Store("a change whose version leaves some out is ignored", is_gapless=True),
    Store("text before didClose kept", keeps_closed=True),
    Store("changes of a message made backwards", changes=lambda it: it[::-1]),
    Store("only the first change of a message made", changes=lambda it: it[:1]),
    Store("only the last change of a message made", changes=lambda it: it[-1:]),
    Store("all ranges of a message mean the text before it", is_at_once=True),
    Store("CR LF becomes LF", opened=lambda it: it.replace("\r\n", "\n")),
    Store("CR LF becomes LF", opened=lambda it: it.replace("\r\n", "\n"),
          typed=lambda it: it.replace("\r\n", "\n")),
    Store("text is composed (NFC)", opened=lambda it: unicodedata.normalize("NFC", it),
          typed=lambda it: unicodedata.normalize("NFC", it)),
    Store("last line gets a line end", opened=with_last_end),
    Store("last line end is lost", opened=without_last_end),
    Store("end of a range belongs to it", range=inclusive),
    Store("deletes nothing", range=lambda it: {**it, "end": it["start"]}),
    Store("types nothing", typed=lambda it: ""),
]
# A position that is past an end only for such a server may be taken in any of these ways.
WITH_PAST = [replace(it.with_faults_of(past), name=it.name) for it in FAULTS for past in PAST]
# What explains much, and says little.
ANYTHING = [Store("change ignored", loses_last=True), Store("document dropped", drops_last=True)]


def pairs():
    """Two faults at once."""
    singles = [*FAULTS, *PAST, *OTHERS]
    return [one.with_faults_of(other) for one, other in itertools.combinations(singles, 2)
            if one.name != other.name]


# The first kind that has a store that explains a drift tells its cause.
KINDS = [[*FAULTS, *PAST, *BEYOND, *OTHERS], WITH_PAST, ANYTHING, pairs()]
