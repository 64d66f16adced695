"""Sessions for the tests: an editor that makes random edits, with the texts as it knows them."""

import random

from logs import UNITS, changed, frame, notification, opened, places_of, request, result, snapshot

WORDS = ["a", "if b:", "\n", "\n    ", "\n        ", "é", "😀", "e\u0301", "\t", " ", "x = 1", "c\n  d"]
LINE_ENDS = ["\r\n", "\r", "\r\n\r\n"]
START = "def f():\n    if é:\n        return 😀\n\nlast é😀 line"


class Document:
    """A document in the editor: its text, and its version."""

    def __init__(self, uri, text):
        self.uri, self.text, self.version = uri, text, 0


class Session:
    """A log that is written step by step. `texts` has, for each message of the editor that sets the
    text of a document, its number, the document and the text."""

    def __init__(self, seed, form=2, encoding="utf-16", ends=(), spread=1.0, told=None):
        self.chance, self.form, self.encoding = random.Random(seed), form, encoding
        self.words, self.spread = [*WORDS, *ends], spread
        # How many edits are left before the one whose rangeLength is wrong.
        self.until_wrong = -1
        self.log, self.events, self.sent, self.id = b"lsp-session %d\n" % form, 0, 0, 1
        self.documents, self.texts, self.numbers, self.late = {}, [], {}, []
        offers = {"general": {"positionEncodings": [encoding]}}
        told = {"processId": 1, "capabilities": offers, **(told or {})}
        self.send(request(1, "initialize", told))
        sync = {"textDocumentSync": {"openClose": True, "change": 2}, "positionEncoding": encoding}
        self.hear(result(1, {"capabilities": sync}))
        self.send(notification("initialized", {}))

    def send(self, message):
        """The number of the message among the editor's."""
        self.log += frame(b"E", message)
        self.events, self.sent = self.events + 1, self.sent + 1
        self.numbers[self.sent] = self.events
        return self.sent

    def hear(self, message):
        self.log += frame(b"S", message)
        self.events += 1

    def note(self, document, number):
        """Notes a text, and takes a snapshot of some."""
        self.texts.append((number, document.uri, document.text))
        taken = snapshot(document.uri, document.version, document.text)
        if self.form == 2 and self.chance.random() < 0.2:
            self.late.append((self.sent + self.chance.randrange(1, 4), taken))
        elif self.chance.random() < 0.5:
            self.add_snapshot(taken)
        for due in [it for it in self.late if it[0] <= self.sent]:
            self.late.remove(due)
            self.add_snapshot(due[1])

    def add_snapshot(self, record):
        self.log += record
        self.events += 1

    def open(self, uri, text=START, language="c"):
        self.documents[uri] = document = Document(uri, text)
        message = opened(uri, 0, text)
        message["params"]["textDocument"]["languageId"] = language
        self.note(document, self.send(message))

    def close(self, uri):
        del self.documents[uri]
        self.send(notification("textDocument/didClose", {"textDocument": {"uri": uri}}))

    def change(self, uri, edits=None, step=1):
        """A `didChange` with random edits. An edit is a start, an end and a text, in characters."""
        document = self.documents[uri]
        changes = [self.edit(document, it) for it in edits or [None] * self.chance.choice([1, 1, 1, 2, 3])]
        document.version += step
        number = self.send(changed(uri, document.version, *changes))
        self.note(document, number)
        return number

    def random_edit(self, text):
        """Where a text is changed, and what is put there. No edit cuts a CR LF."""
        start = self.chance.randrange(int(len(text) * (1 - self.spread)), len(text) + 1)
        end = min(start + self.chance.choice([0, 0, 1, 1, 2, 5]), len(text))
        new = "" if len(text) > 800 else "".join(self.chance.choices(self.words, k=self.chance.randrange(3)))
        return start, end, new

    def edit(self, document, edit):
        text = document.text
        start, end, new = edit or self.random_edit(text)
        while text[start - 1 : start + 1] == "\r\n":
            start -= 1
        while text[end - 1 : end + 1] == "\r\n":
            end += 1
        document.text = text[:start] + new + text[end:]
        places = places_of(text, UNITS[self.encoding])
        change = {"range": {name: {"line": places[at][0], "character": places[at][1]}
                            for name, at in (("start", start), ("end", end))}, "text": new}
        if self.chance.random() < 0.5:
            change["rangeLength"] = sum(map(UNITS["utf-16"], text[start:end]))
        self.until_wrong -= 1
        if self.until_wrong == 0:
            change["rangeLength"] = end - start + 7
        return change

    def replace(self, uri, text):
        """A `didChange` of the whole text."""
        document = self.documents[uri]
        document.text, document.version = text, document.version + 1
        self.note(document, self.send(changed(uri, document.version, {"text": text})))

    def ask(self, uri, method="textDocument/hover", is_quick=True):
        """A request that is answered at once, or after the next message."""
        self.id += 1
        params = {"textDocument": {"uri": uri}, "position": {"line": 0, "character": 0}}
        self.send(request(self.id, method, params))
        if is_quick:
            self.hear(result(self.id, None))
        return self.id

    def end(self):
        for _, record in self.late:
            self.add_snapshot(record)
        self.late = []
        self.id += 1
        self.send(request(self.id, "shutdown"))
        self.hear(result(self.id, None))
        self.send(notification("exit", None))
        return self


def session(seed, messages=40, form=2, encoding="utf-16", ends=(), documents=1, asks=0.2, spread=1.0,
            wrong_length=-1):
    """A session of random edits, with requests in between."""
    it = Session(seed, form, encoding, ends, spread)
    it.until_wrong = wrong_length
    uris = [f"file:///tmp/document {number}.py".replace(" ", "%20") for number in range(documents)]
    for uri in uris:
        it.open(uri)
    waiting = None
    while it.sent < messages - 2:
        uri = it.chance.choice(uris)
        if it.chance.random() < asks:
            is_quick = waiting is not None or it.chance.random() < 0.7
            asked = it.ask(uri, is_quick=is_quick)
            waiting = waiting if is_quick else asked
        else:
            it.change(uri, step=it.chance.choice([1, 1, 1, 1, 3]))
            if waiting is not None:
                it.hear(result(waiting, None))
                waiting = None
    if waiting is not None:
        it.hear(result(waiting, None))
    return it.end()
