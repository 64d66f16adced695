"""Sessions as they are made, sent and cut down: texts, and steps that change them.

An edit says what of the right text it replaces, in characters. So what is left of a case, whatever
is cut away, can be said in legal messages.
"""

import re
from dataclasses import dataclass, replace

from lsptools.base.messages import changed, notification, opened, request
from lsptools.servers.overwriting import units

LINE_END = re.compile("\r\n|\r|\n")
# A request that leaves every text as it is.
ASKED = "textDocument/hover"


@dataclass(frozen=True)
class Edit:
    """A change: which characters it replaces, from `start` to `end`, and by what. Without a start,
    it gives the whole text. Its range is said to end `past` columns after the end of a line, or
    `lines` after the last one, where its `end` is there; and it starts there, too, if it starts
    there."""

    start: int
    end: int
    text: str
    past: int = 0
    lines: int = 0
    has_length: bool = False

    def fitted(self, text):
        """The same edit in a text, perhaps a shorter one than it was made for: no end of it is
        within a CR LF."""
        if self.start is None:
            return self
        places = (min(it, len(text)) for it in (self.start, self.end))
        start, end = (outside_of_line_end(text, it) for it in places)
        return replace(self, start=start, end=max(start, end))

    def applied(self, text):
        """The text after this edit, which fits it."""
        if self.start is None:
            return self.text
        return text[: self.start] + self.text + text[self.end :]


@dataclass(frozen=True)
class Step:
    """What an editor does with a document: it changes it in one message, whose version leaves out
    `skipped` ones, perhaps while a request `is_asked`; or closes it and opens it with another
    text."""

    document: int
    edits: tuple = ()
    reopened: str = None
    skipped: int = 0
    is_asked: bool = False


@dataclass(frozen=True)
class Case:
    """The texts with which the documents are opened, and the steps. The first document is the one
    that is asked about. If it is opened `by_change`, it is empty at first, and a change without a
    range gives it its text."""

    texts: tuple
    steps: tuple = ()
    by_change: bool = False

    def mapped(self, change):
        """The same case with another text in place of each."""
        steps = tuple(
            replace(it, edits=tuple(replace(edit, text=change(edit.text)) for edit in it.edits))
            for it in self.steps
        )
        return replace(self, texts=tuple(map(change, self.texts)), steps=steps)


@dataclass(frozen=True)
class Sent:
    """A message of the editor, and the text and the version of its document after it, if it sets
    them. `step` is the number of the step that sends it, or None for those that open documents."""

    content: bytes
    uri: str
    version: int = None
    text: str = None
    step: int = None


def outside_of_line_end(text, at):
    return at - 1 if text[at - 1 : at + 1] == "\r\n" else at


def position_of(text, at, encoding):
    """The position of a character."""
    line, start = 0, 0
    for found in LINE_END.finditer(text, 0, at):
        line, start = line + 1, found.end()
    return {"line": line, "character": units(text[start:at], encoding)}


def is_line_end(text, at):
    return at == len(text) or text[at] in "\r\n"


def change_of(edit, text, encoding):
    """An edit of this text, as a message says it."""
    if edit.start is None:
        return {"text": edit.text}
    places = [position_of(text, it, encoding) for it in (edit.start, edit.end)]
    for place, at in zip(places, (edit.start, edit.end)):
        if edit.past and is_line_end(text, at):
            place["character"] += edit.past
        if edit.lines and at == len(text):
            place["line"] += edit.lines
    change = {"range": dict(zip(("start", "end"), places)), "text": edit.text}
    if edit.has_length:
        change["rangeLength"] = units(text[edit.start : edit.end], encoding)
    return change


class Editor:
    """The editor: its documents, and the messages that a case makes it send. It knows the right
    texts, which `lspcheck check` compares with what the messages say."""

    def __init__(self, language, encoding):
        self.language, self.encoding = language, encoding
        self.texts, self.versions, self.asked = {}, {}, 0

    def messages(self, case, uris):
        """The messages of a case, for documents of these URIs."""
        for uri, text in zip(uris, case.texts):
            is_empty = case.by_change and uri == uris[0]
            yield self.open(uri, "" if is_empty else text, 1)
        if case.by_change:
            yield self.change(uris[0], [Edit(None, None, case.texts[0])], 0)
        for number, step in enumerate(case.steps):
            for sent in self.sent(step, uris[step.document]):
                yield replace(sent, step=number)

    def sent(self, step, uri):
        """The messages of a step."""
        if step.reopened is not None:
            closed = notification("textDocument/didClose", {"textDocument": {"uri": uri}})
            yield Sent(closed, uri)
            yield self.open(uri, step.reopened, self.versions[uri] + 1)
        if step.is_asked:
            self.asked += 1
            params = {"textDocument": {"uri": uri}, "position": {"line": 0, "character": 0}}
            yield Sent(request(f"asked-{self.asked}", ASKED, params), uri)
        if step.edits:
            yield self.change(uri, step.edits, step.skipped)

    def open(self, uri, text, version):
        self.texts[uri], self.versions[uri] = text, version
        return Sent(opened(uri, self.language, version, text), uri, version, text)

    def change(self, uri, edits, skipped):
        self.versions[uri] += 1 + skipped
        changes = []
        for edit in edits:
            edit = edit.fitted(self.texts[uri])
            changes.append(change_of(edit, self.texts[uri], self.encoding))
            self.texts[uri] = edit.applied(self.texts[uri])
        version, text = self.versions[uri], self.texts[uri]
        return Sent(changed(uri, version, changes), uri, version, text)


def text_before(case, number):
    """The right text of the first document before a step, and after all if there is no such
    step."""
    text = case.texts[0]
    for step in case.steps[:number]:
        if step.document == 0:
            text = step.reopened if step.reopened is not None else text
            for edit in step.edits:
                text = edit.fitted(text).applied(text)
    return text


def one_by_one(case):
    """A case with a message for each edit."""
    steps = (replace(it, edits=(edit,)) for it in case.steps for edit in it.edits)
    reopened = any(it.reopened is not None for it in case.steps)
    return case if reopened else replace(case, steps=tuple(steps))


def edits_of(case):
    """How many changes a case makes."""
    return sum(len(it.edits) for it in case.steps)
