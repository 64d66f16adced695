"""The events of a log as the page shows them: joined, summed up, and cut if there are too many."""

import json
from array import array

from lsptools.base.contents import Contents, Other, at, describe, key_of, message_of
from lsptools.base.listing import KINDS, SNAPSHOT
from lsptools.page.blocks import json_of

# How many violations are explained.
MOST_EXPLAINED = 500
LONGEST_NAME = 300
ENCODINGS = ("utf-8", "utf-16", "utf-32")
SYNCS = {0: "none", 1: "full", 2: "incremental"}
# The methods whose messages are always read.
READ = ("initialize", "$/cancelRequest")
# The columns of the rows, by the names that the scripts of the page use: those of numbers, and
# those whose values are any JSON. `block` is that of its content, -1 if the page does not have it.
NUMBERS = ["event", "side", "number", "kind", "method", "document", "bytes", "block"]
VALUES = ["id", "version"]
JOINS = [
    # For a response or a cancel, the event of its request; for a request, that of its response.
    "partner",
    # For a request, the event that cancels it, and the last response to it that broke a rule.
    "cancel", "broken",
]
# The number of each kind of event.
PLACES = {kind: place for place, kind in enumerate(KINDS)}
# How many rows are put into the columns at once, which is faster than one by one.
TOGETHER = 1000
# How many bytes of a log are read at once.
BUFFER = 1 << 18


def cut(text, most):
    return text if len(text) <= most else text[: most - 1] + "…"


class Columns:
    """The rows, column by column: as numbers, or as their JSON with a comma after each value."""

    def __init__(self):
        self.numbers = {name: array("q") for name in NUMBERS}
        self.values = {name: bytearray() for name in VALUES}
        # What joins have found, by the place of a row.
        self.joins = {name: {} for name in JOINS}
        self.count, self.latest = 0, []

    def __len__(self):
        return self.count

    def add(self, row):
        """Adds a row, whose values are in the order of the names above. Returns its place."""
        self.latest.append(row)
        if len(self.latest) == TOGETHER:
            self.settle()
        self.count += 1
        return self.count - 1

    def settle(self):
        """Puts the latest rows into the columns."""
        columns = zip(*self.latest)
        for column in self.numbers.values():
            column.extend(next(columns, ()))
        for column in self.values.values():
            if values := next(columns, None):
                column += json_of(values)[1:-1] + b","
        self.latest.clear()

    def json(self):
        """Pairs of a name and the JSON of its column."""
        self.settle()
        for name, column in self.numbers.items():
            yield name, json_of(column.tolist())
        for name, found in self.joins.items():
            yield name, json_of([found.get(place, 0) for place in range(self.count)])
        for name, column in self.values.items():
            yield name, b"[%b]" % column[:-1]


def shown_id(id):
    """An id as JSON text."""
    if id.__class__ is int:
        return str(id)
    return cut(json.dumps(id, ensure_ascii=False), LONGEST_NAME)


class Joins:
    """The requests of both sides that are open, each with its row, if the page has one."""

    def __init__(self):
        self.open = ({}, {})

    def ask(self, event, row):
        if event.kind == "request" and not event.rule:
            self.open[event.side][key_of(event.id)] = (event, row)

    def answered(self, event):
        """The request that a response answers, and its row. One that breaks a rule is skipped, so
        its request stays open."""
        if not isinstance(event.id, (int, str)):
            return None, None
        requests, key = self.open[1 - event.side], key_of(event.id)
        return requests.get(key, (None, None)) if event.rule else requests.pop(key, (None, None))

    def cancelled(self, event, message):
        """The request that a notification cancels, and its row."""
        if event.kind != "notification" or event.rule:
            return None, None
        id = at(message, "params", "id")
        key = key_of(id) if isinstance(id, (int, str)) else None
        return self.open[event.side].get(key, (None, None))


def check_listed(event, content):
    """Fails if a message is not the one that was listed, as far as its method tells."""
    word = event.method or event.kind
    # One that is written with escapes is not found like this.
    is_found = event.side == SNAPSHOT or word.encode(errors="surrogatepass") in content
    if not is_found and at(message_of(event, content), "method") != event.method:
        raise Other()


class Names:
    """Texts that occur often, each with its number."""

    def __init__(self):
        self.numbers = {}

    def number(self, text):
        return -1 if text is None else self.numbers.setdefault(text, len(self.numbers))


def name_of(info):
    """The name and version of a client or server, as far as they are texts."""
    found = {name: at(info, name) for name in ("name", "version")}
    return {name: cut(it, LONGEST_NAME) for name, it in found.items() if isinstance(it, str)}


def sync_of(result):
    """The kind of synchronisation that a server asks for."""
    sync = at(result, "capabilities", "textDocumentSync")
    number = at(sync, "change") if isinstance(sync, dict) else sync
    return SYNCS.get(number, "none") if isinstance(number, int) else "none"


class Session:
    """The rows of the page, one for each event that it shows. Each content is put where it is kept
    as soon as it is read."""

    def __init__(self, put, wanted=()):
        self.put = put
        # The contents of wanted events, as far as the page has them.
        self.wanted, self.kept = wanted, {}
        self.methods, self.documents, self.joins = Names(), Names(), Joins()
        self.rows = Columns()
        # The documents that any event of the log names, also one that is not shown.
        self.named = set()
        self.encoding, self.sync, self.client, self.server = "utf-16", "none", {}, {}
        # Whether the server has accepted `initialize`.
        self.agreed = False

    def join(self, event, message):
        """The request that this event answers or cancels; its row learns of it."""
        if event.kind in ("result", "error"):
            column = "broken" if event.rule else "partner"
            request, row = self.joins.answered(event)
        elif event.method == "$/cancelRequest":
            column = "cancel"
            request, row = self.joins.cancelled(event, message)
        else:
            return None
        if row is not None:
            self.rows.joins[column][row] = event.event
        return request

    def note_handshake(self, event, message, asked):
        """Who the two sides are, and what they agree on."""
        if event.method == "initialize" and event.kind == "request":
            self.client = self.client or name_of(at(message, "params", "clientInfo"))
        if asked == "initialize" and event.kind == "result":
            result = at(message, "result")
            self.server = name_of(at(result, "serverInfo"))
            if not event.rule:
                self.agreed = True
                picked = at(result, "capabilities", "positionEncoding")
                self.encoding = picked if picked in ENCODINGS else "utf-16"
                self.sync = sync_of(result)

    def take(self, event, content, is_shown, is_whole):
        """Takes the next event of the log, and adds a row if it is shown. Its message is read only
        if the row needs more than what was listed: the page reads the rest when it is looked at."""
        listed, message = event.uri, None
        is_named = listed is not None or event.kind in ("result", "error")
        if event.rule or event.method in READ or (is_shown and not is_named):
            message = message_of(event, content)
            describe(event, message)
        if not event.rule:
            check_listed(event, content)
        self.named.add(event.uri if event.rule else listed)
        request = self.join(event, message)
        asked = request.method if request and event.kind != "notification" else None
        if "initialize" in (event.method, asked):
            self.note_handshake(event, message_of(event, content), asked)
        row = None
        if is_shown:
            block = self.put(content) if is_whole else -1
            if is_whole and event.event in self.wanted and event.side != SNAPSHOT:
                self.kept[event.event] = content
            row = self.add(event, request, asked, len(content), block)
        self.joins.ask(event, row)

    def add(self, event, request, asked, size, block):
        """Adds the row of an event. Returns its place among the rows."""
        has_id = event.id is not None or event.kind in ("result", "error")
        row = self.rows.add((
            event.event,
            event.side,
            event.number,
            PLACES[event.kind],
            self.methods.number(event.method or asked),
            self.documents.number(event.uri),
            size,
            block,
            shown_id(event.id) if has_id else None,
            event.version,
        ))
        if request:
            self.rows.joins["partner"][row] = request.event
        return row


def read_session(log, listing, choice, session, progress):
    """Reads the events of a log into a session: those that are chosen. Returns the format of the
    log."""
    with open(log.path, "rb", buffering=BUFFER) as file:
        contents = Contents(file)
        for event in listing:
            content = contents.of(event)
            is_shown = choice.is_shown(event)
            is_whole = is_shown and choice.is_whole(event, content)
            session.take(event, content, is_shown, is_whole)
            if progress.is_due():
                progress.advance("it", file.tell())
    session.rows.settle()
    session.named.discard(None)
    return contents.format
