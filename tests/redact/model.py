"""What `lspcheck redact` must write, worked out a second time: from the log and the first line of its
report, with a reader, an editor of texts and a writer of their own.

A log is cut after the event of the verdict. Of each message stays what rules read. Names are numbered,
characters are replaced by one of their kind.
"""

import json
import re
from typing import NamedTuple

FIRST_LINES = {b"lsp-session 1\n": 0, b"lsp-session 2\n": 16}
LINE = re.compile(rb"(?:([ES]) ([1-9][0-9]*)|T (0|-?[1-9][0-9]*) ([1-9][0-9]*) (0|[1-9][0-9]*))\n")
LENGTH = re.compile(rb"^content-length:[ \t]*([0-9]{1,10})[ \t]*\r$", re.I | re.M)
LINE_END = re.compile("\r\n|\n|\r")

# The most characters of a record: a quarter of the most bytes.
PIECE = (1 << 20) // 4

# One of each kind of character, and another for the one that must stay apart.
KINDS = ["xy", "XY", "01", "\u00e9\u00e8", "\u4e00\u4e8c", "\U0001f600\U0001f601"]

# What stands for a content that breaks a rule of 201 to 208.
BROKEN = {
    201: "",
    202: "[]",
    203: "{}",
    204: '{"jsonrpc":"2.0","method":null}',
    205: '{"id":[],"jsonrpc":"2.0"}',
    206: '{"jsonrpc":"2.0","method":"","params":0}',
    207: '{"jsonrpc":"2.0"}',
    208: '{"error":null,"id":0,"jsonrpc":"2.0"}',
}

OPEN, CHANGE, CLOSE, SAVE = (
    f"textDocument/did{it}" for it in ("Open", "Change", "Close", "Save")
)
CANCEL, PROGRESS, REGISTER = "$/cancelRequest", "$/progress", "client/registerCapability"
ENCODINGS = ("utf-8", "utf-16", "utf-32")

# The methods that a rule names.
METHODS = [
    "initialize", "initialized", "shutdown", "exit", OPEN, CHANGE, CLOSE, SAVE, CANCEL, PROGRESS,
    REGISTER, "window/showMessage", "window/logMessage", "telemetry/event", "window/showMessageRequest",
]


class Event(NamedTuple):
    """A content of a side, or a snapshot."""

    side: str
    content: bytes
    version: int = None
    uri: str = None


class Unreadable(ValueError):
    """A log or a frame that has a fault."""


# ---- reading


def frames(held):
    """The contents of whole frames at the front of these bytes, which are taken away."""
    while (end := held.find(b"\r\n\r\n", 0, 4096)) >= 0:
        size = LENGTH.search(held[: end + 2])
        if size is None:
            raise Unreadable("no length")
        stop = end + 4 + int(size[1])
        if len(held) < stop:
            return
        yield bytes(held[end + 4 : stop])
        del held[:stop]


def events_of(log):
    """The events of a log, up to the first fault of its records or frames."""
    at, sides = log.find(b"\n") + 1, {"E": bytearray(), "S": bytearray()}
    while at < len(log):
        line = LINE.match(log, at)
        if line is None:
            return
        at = line.end()
        if line[1]:
            side, size = line[1].decode(), int(line[2])
            if log[at + size : at + size + 1] != b"\n":
                return
            sides[side] += log[at : at + size]
            try:
                for content in frames(sides[side]):
                    yield Event(side, content)
            except Unreadable:
                return
            at += size + 1
        else:
            version, uri, size = map(int, line.groups()[2:])
            text = at + uri + 1
            if log[text + size : text + size + 1] != b"\n":
                return
            try:
                yield snapshot_event(version, log[at : text - 1], log[text : text + size])
            except UnicodeDecodeError:
                return
            at = text + size + 1


def snapshot_event(version, uri, text):
    """A snapshot, whose URI and text are UTF-8."""
    text.decode()
    return Event("T", text, version, uri.decode())


def json_value(content):
    """The JSON value of a content. `-0` is no integer."""
    return json.loads(content, parse_int=lambda digits: -0.0 if digits == "-0" else int(digits))


def integer(value):
    """Whether a value is an integer of 32 bits."""
    return type(value) is int and -(2**31) <= value < 2**31


# ---- texts


def units(character, encoding):
    """How many units a character has in an encoding."""
    if encoding == "utf-8":
        return len(character.encode())
    return 1 + (encoding == "utf-16" and character > "\uffff")


def place(text, encoding, position):
    """The place of a position in a text."""
    starts = [0] + [it.end() for it in LINE_END.finditer(text)]
    if position["line"] >= len(starts):
        return len(text)
    at, column = starts[position["line"]], position["character"]
    while column > 0 and at < len(text) and text[at] not in "\r\n":
        column -= units(text[at], encoding)
        at += 1
    return at


def changed(text, encoding, changes):
    """A text after the changes of one notification."""
    for change in changes:
        span = change.get("range")
        if span is None:
            text = change["text"]
        else:
            first, second = (place(text, encoding, span[it]) for it in ("start", "end"))
            text = text[:first] + change["text"] + text[second:]
    return text


def compared(text, line_ends):
    """What of a text is compared."""
    if line_ends:
        return text
    text = LINE_END.sub("\n", text)
    return text[:-1] if text.endswith("\n") else text


class Documents:
    """The open documents with the versions that they had, and the snapshots that wait."""

    def __init__(self, kept, line_ends):
        self.kept, self.line_ends = kept, line_ends
        self.versions, self.waiting = {}, {}

    def differ(self, text, other):
        """The two texts, if they are not the same."""
        is_same = compared(text, self.line_ends) == compared(other, self.line_ends)
        return None if is_same else (text, other)

    def brings(self, uri, version, text):
        """Sets a version. The two texts, if a snapshot that waits for it differs."""
        for number, other in self.waiting.get(uri, []):
            if number == version and (pair := self.differ(text, other)):
                return pair
        self.versions.setdefault(uri, []).append((version, text))
        later = [it for it in self.waiting.get(uri, []) if it[0] > version]
        self.waiting[uri] = later
        return None

    def shows(self, uri, version, text):
        """A snapshot. The two texts, if it differs."""
        past = self.versions.get(uri)
        if past is None or past[-1][0] < version:
            self.waiting.setdefault(uri, []).append((version, text))
            return None
        for number, made in past[-1 - self.kept :]:
            if number == version and (pair := self.differ(made, text)):
                return pair
        return None

    def closes(self, uri):
        """Closes a document."""
        self.versions.pop(uri, None)
        self.waiting.pop(uri, None)

    def saves(self, uri, text):
        """A save. The two texts, if it differs."""
        past = self.versions.get(uri)
        return self.differ(past[-1][1], text) if past and text is not None else None


# ---- messages


def at(value, *path):
    """What is at a path in a JSON value, or None."""
    for name in path:
        value = value.get(name) if isinstance(value, dict) else None
    return value


def kind_of(sync):
    """The kind of synchronisation that a result picks, or None if it has no such shape."""
    kind = sync.get("change") if isinstance(sync, dict) else sync
    kind = 0 if kind is None else kind
    return kind if type(kind) is int and kind in (0, 1, 2) else None


def picked(value):
    """The encoding and the kind that a result picks, or None if it has no such shape."""
    has = at(value, "capabilities")
    if not isinstance(has, dict):
        return None
    encoding, kind = has.get("positionEncoding"), kind_of(has.get("textDocumentSync"))
    encoding = "utf-16" if encoding is None else encoding
    return (encoding, kind) if isinstance(encoding, str) and kind is not None else None


class Names:
    """The numbers of names of one kind, in the order in which they first come."""

    def __init__(self, form, known=()):
        self.form, self.known, self.seen = form, known, {}

    def __call__(self, name):
        if name in self.known:
            return name
        return self.form % self.seen.setdefault(name, len(self.seen) + 1)


class Redaction:
    """The messages of a log, in order, with what stays of each."""

    def __init__(self, kept, line_ends):
        self.documents = Documents(kept, line_ends)
        self.encoding, self.opens, self.apart = "utf-16", set(), None
        self.uris, self.texts = Names("file:///%d"), Names("%d")
        self.methods, self.encodings = Names("method/%d", METHODS), Names("encoding-%d", ENCODINGS)

    # -- first, what happens

    def hears(self, event):
        """An event that keeps the rules, or the one of the verdict. The two texts, if they differ."""
        if event.side == "T":
            return self.documents.shows(event.uri, event.version, event.content.decode())
        try:
            message = json_value(event.content)
        except ValueError:
            return None
        method, params = message.get("method"), message.get("params")
        if event.side == "S":
            if message.get("id") in self.opens and "method" not in message:
                self.settles(message)
            return None
        if method == "initialize" and "id" in message:
            self.opens.add(message["id"])
        return self.calls(method, params) if "id" not in message else None

    def settles(self, message):
        """An answer to `initialize`."""
        self.opens.discard(message["id"])
        choice = picked(message.get("result"))
        if choice and choice[0] in ENCODINGS:
            self.encoding = choice[0]

    def calls(self, method, params):
        """What a notification of the editor says of a document. The two texts, if they differ."""
        uri, version = at(params, "textDocument", "uri"), at(params, "textDocument", "version")
        if method == OPEN:
            return self.documents.brings(uri, version, params["textDocument"]["text"])
        if method == CHANGE and self.documents.versions.get(uri):
            text = self.documents.versions[uri][-1][1]
            text = changed(text, self.encoding, params["contentChanges"])
            return self.documents.brings(uri, version, text)
        if method == SAVE:
            return self.documents.saves(uri, params.get("text"))
        if method == CLOSE:
            self.documents.closes(uri)
        return None

    def keeps_apart(self, pair):
        """Notes the character at which two texts first differ."""
        made, other = (compared(it, self.documents.line_ends) for it in pair)
        same = next((n for n, (a, b) in enumerate(zip(made, other)) if a != b), min(map(len, (made, other))))
        self.apart = other[same : same + 1]

    # -- then, what stays of it

    def text(self, text):
        """A text with its characters replaced."""
        return "".join(self.character(it) for it in text)

    def character(self, it):
        """A character of the same kind."""
        if it < "\x80":
            kind = 0 if "a" <= it <= "z" else 1 if "A" <= it <= "Z" else 2 if "0" <= it <= "9" else None
        else:
            kind = len(it.encode()) + 1
        return it if kind is None else KINDS[kind][it == self.apart]

    def name(self, value):
        """An id or a token: the number of its text, in the form that it has. A null stays."""
        if value is None:
            return None
        number = self.texts(str(value))
        return number if isinstance(value, str) else int(number)

    def params(self, side, kind, method, params):
        """The params that stay of a message, or None."""
        key = (side, kind, method)
        if key == ("E", "request", "initialize"):
            return self.offer(params)
        if key == ("S", "request", REGISTER):
            listed = params["registrations"]
            return {"registrations": [{"method": self.methods(it["method"])} for it in listed]}
        if kind != "notification":
            return None
        if method == CANCEL:
            return {"id": self.name(params["id"])}
        if key == ("S", kind, PROGRESS):
            return {"token": self.name(params["token"])}
        return self.document(method, params) if side == "E" else None

    def offer(self, params):
        """What stays of the params of `initialize`."""
        general = {}
        if (offered := at(params, "capabilities", "general", "positionEncodings")) is not None:
            general = {"general": {"positionEncodings": [self.encodings(it) for it in offered]}}
        token = params.get("workDoneToken")
        own = {} if token is None else {"workDoneToken": self.name(token)}
        return {"capabilities": general, **own}

    def document(self, method, params):
        """What stays of the params of a notification about a document."""
        if method not in (OPEN, CHANGE, CLOSE, SAVE):
            return None
        whole = params["textDocument"]
        kept = {"uri": self.uris(whole["uri"])}
        if method in (OPEN, CHANGE):
            kept["version"] = whole["version"]
        if method == OPEN:
            kept["text"] = self.text(whole["text"])
        if method == CHANGE:
            changes = [self.change(it) for it in params["contentChanges"]]
            return {"contentChanges": changes, "textDocument": kept}
        saved = params.get("text") if method == SAVE else None
        return {"textDocument": kept, **({} if saved is None else {"text": self.text(saved)})}

    def change(self, change):
        """What stays of a change."""
        kept = {"text": self.text(change["text"])}
        if change.get("range") is not None:
            kept["range"] = {
                end: {it: change["range"][end][it] for it in ("line", "character")}
                for end in ("start", "end")
            }
        if integer(change.get("rangeLength")):
            kept["rangeLength"] = change["rangeLength"]
        return kept

    def message(self, side, content, rule, awaits):
        """What stays of a message, as JSON text."""
        if rule in BROKEN:
            return BROKEN[rule]
        value = json_value(content)
        kept = {"jsonrpc": "2.0"}
        if "id" in value:
            kept["id"] = 0 if rule == 209 else self.name(value["id"])
        if "method" not in value:
            return shown({**kept, **self.answer(value, awaits)})
        method = value["method"]
        kept["method"] = self.methods(method)
        kind = "request" if "id" in value else "notification"
        params = None if rule == 209 else self.params(side, kind, method, value.get("params"))
        return shown(kept if params is None else {**kept, "params": params})

    def answer(self, value, awaits):
        """What stays of an answer."""
        if "error" in value:
            return {"error": {"code": value["error"]["code"], "message": ""}}
        choice = picked(value["result"]) if awaits else None
        if choice is None:
            return {"result": None}
        encoding, kind = self.encodings(choice[0]), choice[1]
        return {"result": {"capabilities": {"positionEncoding": encoding, "textDocumentSync": kind}}}


def shown(value):
    """A value as JSON text with its members in order."""
    return json.dumps(value, ensure_ascii=False, sort_keys=True, separators=(",", ":"))


# ---- writing


def record(side, content):
    """A content as records of a side."""
    frame = f"Content-Length: {len(content.encode())}\r\n\r\n{content}"
    for start in range(0, len(frame), PIECE):
        piece = frame[start : start + PIECE].encode()
        yield b"%s %d\n%s\n" % (side.encode(), len(piece), piece)


def snapshot(event, redaction):
    """A snapshot as a record."""
    uri, text = redaction.uris(event.uri).encode(), redaction.text(event.content.decode()).encode()
    return b"T %d %d %d\n%s\n%s\n" % (event.version, len(uri), len(text), uri, text)


def is_of_frames(rule):
    """Whether a rule is one on frames, whose events have no content."""
    return rule is not None and 101 <= rule <= 107


def redacted(log, first_line, line_ends=True):
    """The log that is left of a log, by the first line of the report on it."""
    head = next((it for it in FIRST_LINES if log.startswith(it)), None)
    if head is None:
        return b"lsp-session 1\n"
    no = re.fullmatch(r"no (\d+) \w+ \d+ event (\d+)", first_line)
    rule = int(no[1]) if no else None
    events = list(events_of(log))
    if no:
        events = events[: int(no[2]) - is_of_frames(rule)]
    redaction = Redaction(FIRST_LINES[head], line_ends)
    awaits = []
    for place_, event in enumerate(events):
        is_last = place_ + 1 == len(events)
        awaits.append(bool(redaction.opens))
        if is_last and rule is not None and rule not in (608, 702):
            break
        if pair := redaction.hears(event):
            assert is_last and rule in (608, 702), (place_, rule)
            redaction.keeps_apart(pair)
    assert rule not in (608, 702) or redaction.apart is not None, "no two texts differ"
    out = [head]
    for event, awaited in zip(events, awaits):
        own = rule if event is events[-1] else None
        if event.side == "T":
            out.append(snapshot(event, redaction))
        else:
            out += record(event.side, redaction.message(event.side, event.content, own, awaited))
    return b"".join(out)
